/* Lays out one type, and prints the answer. */
#include "rustc_abi.h"
#include <stdio.h>
#include <stdlib.h>
#include <string.h>

int main(void) {
    const char *input = "e-p:64:64-i64:64-i128:128\n"
                        "struct - ( u8 u32 u16 )\n";
    size_t room = 4096, needed;
    uint8_t *output = malloc(room);
    if (!output)
        return 1;
    uint8_t status = abi_c_layout((const uint8_t *)input, strlen(input), output, room, &needed);
    if (needed > room) {
        /* nothing was written: once more, with room for all. An input has one text, or memory is wanting, and that text is
           shorter. */
        room = needed;
        free(output);
        output = malloc(room);
        if (!output)
            return 1;
        status = abi_c_layout((const uint8_t *)input, strlen(input), output, room, &needed);
    }
    fwrite(output, 1, needed, stdout);
    free(output);
    return status;
}
