/* Linked into each program that wine runs. It writes to the file that PULLEYNAVY_WITNESS names: that the program began, and at its end how
   many bytes it wrote to standard output, which is a file. */
#include <io.h>
#include <stdio.h>
#include <stdlib.h>

static FILE *witness;

static void end(void) {
    fflush(stdout);
    fprintf(witness, "%ld\n", _filelength(1));
    fclose(witness);
}

__attribute__((constructor)) static void begin(void) {
    const char *path = getenv("PULLEYNAVY_WITNESS");
    witness = path ? fopen(path, "wb") : NULL;
    if (!witness) abort();
    fprintf(witness, "began\n");
    fflush(witness);
    atexit(end);
}
