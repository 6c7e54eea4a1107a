#include <pulleynavy.h>
#include <stdio.h>

int main(void) {
    static unsigned char bytes[1 << 16];
    size_t size = fread(bytes, 1, sizeof bytes, stdin);
    pulleynavy_parser parser = pulleynavy_parser_init(0, PULLEYNAVY_ALL_FEATURES);
    pulleynavy_event event;
    do {
        event = pulleynavy_parse(&parser, bytes + parser.offset, size - parser.offset, 1);
        if (event.kind == PULLEYNAVY_EVENT_SECTION && (event.id == 2 || event.id == 7))
            printf("section %u %llu %llu %u\n", event.id, (unsigned long long)event.start, (unsigned long long)event.end, event.count);
    } while (event.kind != PULLEYNAVY_EVENT_END && event.kind != PULLEYNAVY_EVENT_FAULT);
}
