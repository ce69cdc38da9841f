/* Tells the types of a Rust source, by its text, as the JSON document of `./types --json`. */
#include "rustc_abi.h"
#include <stdio.h>
#include <stdlib.h>
#include <string.h>

int main(void) {
    const char *text = "pub struct Header { kind: u8, len: u32, port: u16 }\n", *asked = "target x86_64-unknown-linux-gnu\n";
    struct rustc_abi_file root = {(const uint8_t *)"lib.rs", strlen("lib.rs"), (const uint8_t *)text, strlen(text)};
    size_t room = 0, needed = 4096;
    uint8_t *output = NULL, status;
    do { /* (where it doesn't fit nothing was written: once more, with room for all) */
        free(output);
        room = needed;
        output = malloc(room);
        if (!output)
            return 1;
        status = abi_c_types(&root, 1, (const uint8_t *)asked, strlen(asked), output, room, &needed);
    } while (needed > room);
    fwrite(output, 1, needed, stdout);
    free(output);
    return status;
}
