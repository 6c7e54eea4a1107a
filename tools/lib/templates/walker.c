static size_t %(name)s(void *cursor, const uint8_t *bytes, size_t size, void *out, size_t count) {
    return pulleynavy_%(name)s(cursor, bytes, size, out, count);
}
