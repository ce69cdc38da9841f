/* numbers ASKED STACK_KB: asks for layouts by numbers, from four threads at once, each with so much stack, reads and writes the value whose
   bytes are 0, and asks what may be done with the bytes. Each is asked with no room, and then with room for all, with one item too few, with exactly enough and with more, in blocks of
   their own, so that the address sanitizer sees what is read or written beside one; what is lent has to be the same, and nothing else of a block
   may change. Prints what is wrong, and how many answers were looked at; the status is 0 where none is wrong. scripts/try_library writes ASKED:
   for each the length of a data layout string, in four bytes, the least first, the string, the count of a type's numbers, likewise, and these in
   eight bytes each. */
#include "rustc_abi.h"
#include <pthread.h>
#include <stdio.h>
#include <stdlib.h>
#include <string.h>

enum { THREADS = 4, MORE = 8, MOST_READ = 256, FILLER = 0xA5 };

typedef struct {
    const uint8_t *begin, *end;
    size_t looked_at, wrong;
} work;

static void *must(void *made) {
    if (!made) {
        puts("numbers.c: no memory");
        exit(1);
    }
    return made;
}

static size_t number(const uint8_t *at) { return at[0] | at[1] << 8 | at[2] << 16 | (size_t)at[3] << 24; }

/* A question, by what it hands in: the string and the type; and a value, bytes, or another type. */
typedef struct {
    enum { LAYOUT, WRITE, READ, BYTES, TRANSMUTE } what;
    const uint8_t *string;
    const uint64_t *type;
    const void *given;
    size_t string_len, count, given_len, width; /* (the last is how large an item of the answer is) */
} question;

static uint8_t ask(const question *it, void *room, size_t room_len, size_t *needed) {
    if (it->what == LAYOUT)
        return abi_c_lay_out(it->string, it->string_len, it->type, it->count, room, room_len, needed);
    if (it->what == WRITE)
        return abi_c_write_value(it->string, it->string_len, it->type, it->count, it->given, it->given_len, room, room_len, needed);
    if (it->what == BYTES)
        return abi_c_bytes(it->string, it->string_len, it->type, it->count, room, room_len, needed);
    if (it->what == TRANSMUTE)
        return abi_c_transmute(it->string, it->string_len, it->type, it->count, it->given, it->given_len, room, room_len, needed);
    return abi_c_read_value(it->string, it->string_len, it->type, it->count, it->given, it->given_len, room, room_len, needed);
}

static uint8_t *filled(size_t room, size_t width) {
    uint8_t *made = must(malloc((room + 1) * width));
    memset(made, FILLER, (room + 1) * width);
    return must(realloc(made, room ? room * width : 1));
}

/* Whether as many items as fit stand in a block of `room`, and nothing else of it changed. */
static int is_lent(const uint8_t *lent, size_t room, const uint8_t *whole, size_t needed, size_t width) {
    size_t written = needed <= room ? needed * width : 0;
    int right = !memcmp(lent, whole, written);
    for (size_t at = written; at < room * width; at++)
        right &= lent[at] == FILLER;
    return right;
}

/* The whole answer, its length and its status, which is the same in each room. */
static uint8_t *whole_answer(work *all, const question *it, size_t *len, uint8_t *status) {
    size_t needed = 0;
    uint8_t *none = filled(0, it->width);
    *status = ask(it, none, 0, len);
    free(none);
    uint8_t *whole = filled(*len, it->width);
    int right = ask(it, whole, *len, &needed) == *status && needed == *len;
    size_t rooms[] = {0, *len ? *len - 1 : 0, *len, *len + MORE};
    for (size_t k = 0; k < sizeof rooms / sizeof *rooms; k++) {
        uint8_t *lent = filled(rooms[k], it->width);
        right &= ask(it, lent, rooms[k], &needed) == *status && needed == *len;
        right &= is_lent(lent, rooms[k], whole, *len, it->width);
        all->looked_at++;
        free(lent);
    }
    if (!right) {
        all->wrong++;
        printf("numbers.c: wrong answer under %.*s\n", (int)it->string_len, (const char *)it->string);
    }
    return whole;
}

/* Reads the value that zeros hold, and where they hold one writes that, and reads it again. */
static void go_back(work *all, question it, size_t size) {
    uint8_t status, *zeros = must(calloc(size + 1, 1));
    size_t count = 0, len = 0, again = 0;
    it.what = READ, it.width = sizeof(uint64_t), it.given = zeros, it.given_len = size;
    uint8_t *value = whole_answer(all, &it, &count, &status);
    if (status == RUSTC_ABI_LAID_OUT) {
        it.what = WRITE, it.width = 1, it.given = value, it.given_len = count;
        uint8_t *bytes = whole_answer(all, &it, &len, &status);
        it.what = READ, it.width = sizeof(uint64_t), it.given = bytes, it.given_len = len;
        uint8_t *read = whole_answer(all, &it, &again, &status);
        if (len != size || again != count || status != RUSTC_ABI_LAID_OUT || memcmp(read, value, count * sizeof(uint64_t))) {
            all->wrong++;
            puts("numbers.c: a value that was written isn't read back");
        }
        free(read);
        free(bytes);
    } else if (status != RUSTC_ABI_NO_VALUE || count) {
        all->wrong++;
        puts("numbers.c: zeros hold neither a value nor none");
    }
    free(value);
    free(zeros);
}

/* Asks what may be done with the type's bytes, and whether its values are its own. */
static void ask_bytes(work *all, question it) {
    uint8_t status, status_of_both;
    size_t len = 0, len_of_both = 0;
    uint64_t first = 0, both[3] = {0};
    it.what = BYTES;
    uint8_t *answers = whole_answer(all, &it, &len, &status);
    memcpy(&first, answers, len ? sizeof first : 0);
    it.what = TRANSMUTE, it.given = it.type, it.given_len = it.count;
    uint8_t *answer = whole_answer(all, &it, &len_of_both, &status_of_both);
    memcpy(both, answer, len_of_both == 3 ? sizeof both : 0);
    if (status != RUSTC_ABI_LAID_OUT || len < 6 || first > RUSTC_ABI_TOO_LARGE || status_of_both != RUSTC_ABI_LAID_OUT || len_of_both != 3 ||
        both[1] != RUSTC_ABI_YES || both[2]) {
        all->wrong++;
        puts("numbers.c: no answer about bytes, or a type whose values aren't its own");
    }
    free(answer);
    free(answers);
}

static void *go_over(void *given) {
    work *all = given;
    for (const uint8_t *at = all->begin; at < all->end;) {
        size_t string_len = number(at), count = number(at + 4 + string_len), len = 0;
        uint8_t status, *string = must(malloc(string_len ? string_len : 1));
        uint64_t size, *type = must(malloc(count ? count * sizeof *type : 1));
        memcpy(string, at + 4, string_len);
        memcpy(type, at + 8 + string_len, count * sizeof *type);
        at += 8 + string_len + count * sizeof *type;
        question it = {LAYOUT, string, type, NULL, string_len, count, 0, sizeof(uint64_t)};
        uint8_t *whole = whole_answer(all, &it, &len, &status);
        memcpy(&size, whole, len ? sizeof size : 0);
        all->wrong += !len;
        /* (an array without bytes may have too many elements to be read) */
        if (status == RUSTC_ABI_LAID_OUT && size > 0 && size <= MOST_READ) {
            go_back(all, it, size);
            ask_bytes(all, it);
        }
        free(whole);
        free(type);
        free(string);
    }
    return NULL;
}

int main(int count, char **words) {
    FILE *file = count == 3 ? fopen(words[1], "rb") : NULL;
    if (!file || fseek(file, 0, SEEK_END))
        return 2;
    size_t len = (size_t)ftell(file), looked_at = 0, wrong = 0;
    rewind(file);
    uint8_t *bytes = must(malloc(len));
    if (fread(bytes, 1, len, file) != len)
        return 2;
    fclose(file);
    pthread_attr_t how;
    pthread_t threads[THREADS];
    work works[THREADS];
    if (pthread_attr_init(&how) || pthread_attr_setstacksize(&how, strtoul(words[2], NULL, 10) * 1024))
        return 2;
    for (size_t i = 0; i < THREADS; i++) {
        works[i] = (work){bytes, bytes + len, 0, 0};
        if (pthread_create(&threads[i], &how, go_over, &works[i]))
            return 2;
    }
    for (size_t i = 0; i < THREADS; i++) {
        pthread_join(threads[i], NULL);
        looked_at += works[i].looked_at;
        wrong += works[i].wrong;
    }
    pthread_attr_destroy(&how);
    free(bytes);
    printf("%zu answers looked at, %zu wrong\n", looked_at, wrong);
    return wrong != 0;
}
