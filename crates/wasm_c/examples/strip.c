/* Strips the custom sections of the module on standard input, in place, and writes the result. With the argument `names` the
   section of names stays. Of a module with a fault nothing is written. */
#include "binary.h"
#include <pulleynavy.h>
#include <stdio.h>
#include <stdlib.h>

int main(int count, char **words) {
    use_binary_streams();
    size_t room = 1 << 16, size = 0;
    uint8_t *bytes = malloc(room);
    while (bytes) {
        size += fread(bytes + size, 1, room - size, stdin);
        if (size < room) break;
        uint8_t *grown = realloc(bytes, room *= 2);
        if (!grown) free(bytes);
        bytes = grown;
    }
    (void)words;
    if (!bytes) return 3;
    pulleynavy_stripped strip = pulleynavy_strip(bytes, size, count > 1);
    int failed = fwrite(bytes, 1, strip.size, stdout) != strip.size;
    free(bytes);
    return failed ? 3 : strip.fault.kind != 0;
}
