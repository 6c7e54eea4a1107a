#include <pulleynavy.h>
static void *copy(volatile unsigned char *to, const unsigned char *from, size_t size, int step, size_t at) {
    for (size_t i = 0; i < size; i++, at += (size_t)step) to[at] = from[at];
    return (void *)to;
}
void *memcpy(void *to, const void *from, size_t size) { return copy(to, from, size, 1, 0); }
void *memmove(void *to, const void *from, size_t size) { return to < from ? copy(to, from, size, 1, 0) : copy(to, from, size, -1, size - 1); }
int main(void) {
    pulleynavy_parser parser = pulleynavy_parser_init(0, PULLEYNAVY_ALL_FEATURES);
    return pulleynavy_version() != PULLEYNAVY_VERSION_NUMBER || parser.offset;
}
