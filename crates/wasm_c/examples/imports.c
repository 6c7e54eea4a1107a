/* Prints the imports of the module on standard input, those of bundles one by one: module and name in hexadecimal, and what it is. The
   argument is how many imports a call stores at most: up to 64. */
#include "binary.h"
#include <pulleynavy.h>
#include <stdio.h>
#include <stdlib.h>

enum { MOST = 64 };

static void print_name(const uint8_t *bytes, pulleynavy_span name) {
    putchar('x');
    for (size_t i = 0; i < name.size; i++) printf("%02x", bytes[name.at + i]);
    putchar(' ');
}

/* Prints the imports of a section without those that have a fault. After a fault in a bundle, the list goes on after the bundle. */
static void print_imports(const pulleynavy_event *event, const uint8_t *bytes, size_t batch) {
    static const char *kinds[] = {"func", "table", "memory", "global", "tag", "funcexact"};
    pulleynavy_imports imports = pulleynavy_imports_init(event, PULLEYNAVY_ALL_FEATURES);
    pulleynavy_import out[MOST];
    size_t size = (size_t)(event->end - event->start);
    for (size_t n; (n = pulleynavy_next_flat_imports(&imports, bytes, size, out, batch)) > 0;)
        for (size_t i = 0; i < n; i++) {
            if (out[i].fault.kind) continue;
            print_name(bytes, out[i].module_name);
            print_name(bytes, out[i].name);
            puts(kinds[out[i].ty.kind]);
        }
}

int main(int count, char **words) {
    use_binary_streams();
    size_t batch = count > 1 ? strtoul(words[1], NULL, 10) : MOST, room = 1 << 16, size = 0;
    if (batch < 1 || batch > MOST) return 2;
    uint8_t *bytes = malloc(room);
    while (bytes && (size += fread(bytes + size, 1, room - size, stdin)) == room) bytes = realloc(bytes, room *= 2);
    if (!bytes) return 3;
    pulleynavy_parser parser = pulleynavy_parser_init(0, PULLEYNAVY_ALL_FEATURES);
    for (size_t at = 0;;) {
        pulleynavy_event event = pulleynavy_parse(&parser, bytes + at, size - at, true);
        if (event.kind >= PULLEYNAVY_EVENT_END) return free(bytes), event.kind == PULLEYNAVY_EVENT_FAULT;
        if (event.kind == PULLEYNAVY_EVENT_SECTION && event.id == PULLEYNAVY_SECTION_IMPORT) print_imports(&event, bytes + at + event.at, batch);
        at += event.consumed;
    }
}
