/* Standard input and output that pass every byte unchanged. On Windows a text stream ends at a byte 1A and translates line feeds. */
#ifndef BINARY_H
#define BINARY_H
#ifdef _WIN32
#include <fcntl.h>
#include <io.h>
static inline void use_binary_streams(void) {
    _setmode(0, _O_BINARY);
    _setmode(1, _O_BINARY);
}
#else
static inline void use_binary_streams(void) {}
#endif
#endif
