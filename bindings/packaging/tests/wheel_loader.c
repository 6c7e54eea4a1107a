#include <stdio.h>
#include <stdlib.h>
#include <windows.h>

FARPROC calls[%d];
static const char *const names[] = {%s};

__attribute__((constructor)) static void load(void) {
    HMODULE library = LoadLibraryExA(getenv("PULLEYNAVY_LIB"), NULL, LOAD_LIBRARY_SEARCH_DEFAULT_DIRS | LOAD_LIBRARY_SEARCH_DLL_LOAD_DIR);
    for (size_t i = 0; i < sizeof names / sizeof *names; i++) {
        calls[i] = library ? GetProcAddress(library, names[i]) : NULL;
        if (!calls[i]) {
            fprintf(stderr, "the wheel's library has no %%s\n", names[i]);
            exit(4);
        }
    }
}
