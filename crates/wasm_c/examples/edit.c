/* Edits the custom sections of the module on standard input, and writes the result: `append NAME DATA`, `replace NAME DATA`, `remove NAME`
   or `keep NAME`. Of a module with a fault nothing is written. */
#include "binary.h"
#include <pulleynavy.h>
#include <stdio.h>
#include <stdlib.h>
#include <string.h>

/* The words for the kinds of edits, by their numbers. */
static const char *const kinds[] = {"append", "replace", "remove", "keep"};

static uint32_t kind_of(const char *word) {
    uint32_t kind = 0;
    while (kind <= PULLEYNAVY_EDIT_KEEP && strcmp(word, kinds[kind])) kind++;
    return kind;
}

/* Calls with no room to learn the size, allocates that, and calls again. */
static int write_edited(const uint8_t *bytes, size_t size, uint32_t kind, const char *name, const char *data) {
    const uint8_t *n = (const uint8_t *)name, *d = (const uint8_t *)data;
    uint8_t none;
    pulleynavy_edited edited = pulleynavy_edit(bytes, size, kind, n, strlen(name), d, strlen(data), &none, 0);
    if (edited.status != PULLEYNAVY_EDIT_STATUS_NO_ROOM) return edited.status == PULLEYNAVY_EDIT_STATUS_MALFORMED ? 1 : 2;
    uint8_t *out = malloc(edited.size);
    if (!out) return 3;
    edited = pulleynavy_edit(bytes, size, kind, n, strlen(name), d, strlen(data), out, edited.size);
    int failed = edited.status || fwrite(out, 1, edited.size, stdout) != edited.size;
    free(out);
    return failed ? 3 : 0;
}

int main(int count, char **words) {
    use_binary_streams();
    if (count < 3) return 2;
    size_t room = 1 << 16, size = 0;
    uint8_t *bytes = malloc(room);
    while (bytes && (size += fread(bytes + size, 1, room - size, stdin)) == room) bytes = realloc(bytes, room *= 2);
    if (!bytes) return 3;
    int status = write_edited(bytes, size, kind_of(words[1]), words[2], count > 3 ? words[3] : "");
    free(bytes);
    return status;
}
