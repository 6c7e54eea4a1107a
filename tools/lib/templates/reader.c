static void %(name)s(const uint8_t *bytes, size_t size, uint64_t offset, uint32_t features, void *out) {
    %(type)s item = pulleynavy_%(name)s(%(before)sbytes, size, offset, features%(after)s);
    *(%(type)s *)out = item;
}
