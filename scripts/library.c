/* library CASES STACK_KB: calls the library over inputs, and Rust sources, whose answers are known, from four threads at once, each with so much stack. Each
   input is asked with no room, with a byte too few, with exactly enough and with more, in blocks of their own, so that the address sanitizer
   sees a byte that is read or written beside one. Prints what is wrong, and how many answers were looked at; the status is 0 where none is
   wrong. scripts/try_library writes CASES: for each input a byte l, m or s, for a layout, a map or a source, one for the status, and twice a length of four
   bytes, the least first, and so many bytes: the input, and the answer. */
#include "rustc_abi.h"
#include <pthread.h>
#include <stdio.h>
#include <stdlib.h>
#include <string.h>

enum { THREADS = 4, FILLER = 0xA5, MORE = 64 };

typedef struct {
    uint8_t call, status;
    size_t input_len, text_len;
    const uint8_t *input, *text;
} test;

typedef struct {
    const test *tests;
    size_t count, first, looked_at, wrong;
} work;

static void *must(void *made) {
    if (!made) {
        puts("library.c: no memory");
        exit(1);
    }
    return made;
}

static uint8_t *copied(const uint8_t *bytes, size_t len) {
    /* (an empty block of its own, which isn't null) */
    uint8_t *made = must(malloc(len ? len : 1));
    memcpy(made, bytes, len);
    if (!len)
        made++;
    return made;
}

static void freed(uint8_t *made, size_t len) { free(len ? made : made - 1); }

static uint8_t answer(const test *it, const uint8_t *input, uint8_t *output, size_t room, size_t *needed) {
    const uint8_t *empty = (const uint8_t *)"";
    struct rustc_abi_file root = {empty, 0, input, it->input_len};
    if (it->call == 's')
        return abi_c_types(&root, 1, empty, 0, output, room, needed);
    return (it->call == 'm' ? abi_c_map : abi_c_layout)(input, it->input_len, output, room, needed);
}

/* Whether the answer, in a block of `room` bytes, is the one that is known, and nothing else of the block changed. */
static int is_right(const test *it, const uint8_t *input, size_t room) {
    uint8_t *output = must(malloc(room ? room : 1)), *start = output;
    memset(output, FILLER, room ? room : 1);
    if (!room)
        output++;
    size_t needed = (size_t)-1;
    uint8_t status = answer(it, input, output, room, &needed);
    size_t written = it->text_len <= room ? it->text_len : 0;
    int right = status == it->status && needed == it->text_len && !memcmp(output, it->text, written);
    for (size_t at = written; at < room; at++)
        right &= output[at] == FILLER;
    right &= !memcmp(input, it->input, it->input_len);
    free(start);
    return right;
}

static void *go_over(void *given) {
    work *all = given;
    for (size_t i = 0; i < all->count; i++) {
        const test *it = &all->tests[(all->first + i) % all->count];
        size_t rooms[] = {0, it->text_len - 1, it->text_len, it->text_len + MORE};
        uint8_t *input = copied(it->input, it->input_len);
        for (size_t k = 0; k < sizeof rooms / sizeof *rooms; k++) {
            all->looked_at++;
            if (!is_right(it, input, rooms[k])) {
                all->wrong++;
                printf("library.c: with room for %zu bytes, wrong answer to: %.*s\n", rooms[k], (int)it->input_len, (const char *)it->input);
            }
        }
        freed(input, it->input_len);
    }
    return NULL;
}

static size_t number(const uint8_t *at) { return at[0] | at[1] << 8 | at[2] << 16 | (size_t)at[3] << 24; }

static size_t read_tests(const uint8_t *at, const uint8_t *end, test **tests) {
    size_t count = 0, room = 0;
    while (at < end) {
        if (count == room)
            *tests = must(realloc(*tests, (room = 2 * room + 1) * sizeof **tests));
        test *it = &(*tests)[count++];
        it->call = at[0];
        it->status = at[1];
        it->input_len = number(at + 2);
        it->input = at + 6;
        it->text_len = number(it->input + it->input_len);
        it->text = it->input + it->input_len + 4;
        at = it->text + it->text_len;
    }
    return count;
}

int main(int count, char **words) {
    FILE *file = count == 3 ? fopen(words[1], "rb") : NULL;
    if (!file || fseek(file, 0, SEEK_END))
        return 2;
    size_t len = (size_t)ftell(file);
    rewind(file);
    uint8_t *bytes = must(malloc(len));
    if (fread(bytes, 1, len, file) != len)
        return 2;
    fclose(file);

    test *tests = NULL;
    size_t known = read_tests(bytes, bytes + len, &tests), looked_at = 0, wrong = 0;
    pthread_attr_t how;
    pthread_t threads[THREADS];
    work works[THREADS];
    if (pthread_attr_init(&how) || pthread_attr_setstacksize(&how, strtoul(words[2], NULL, 10) * 1024))
        return 2;
    for (size_t i = 0; i < THREADS; i++) {
        works[i] = (work){tests, known, i * known / THREADS, 0, 0};
        if (pthread_create(&threads[i], &how, go_over, &works[i]))
            return 2;
    }
    for (size_t i = 0; i < THREADS; i++) {
        pthread_join(threads[i], NULL);
        looked_at += works[i].looked_at;
        wrong += works[i].wrong;
    }
    pthread_attr_destroy(&how);
    free(tests);
    free(bytes);
    printf("%zu answers looked at, %zu wrong\n", looked_at, wrong);
    return wrong != 0;
}
