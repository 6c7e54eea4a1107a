/* A library to preload, which makes allocations of a program fail: malloc, calloc and realloc return a null pointer at the call with the
 * number REFUSE_CALL, and where REFUSE_LATER is set, at every later one. The calls are counted from the program's start. Where REFUSE_ABOVE
 * is set, so does each for more bytes than that. For each that fails, a byte is written to the file descriptor REFUSE_LOG. free is not touched.
 * Where REFUSE_SYNC is set, fsync fails with EIO.
 */
/* The toolchain's compiler has no headers: these are the calls of glibc that this file makes. */
typedef __SIZE_TYPE__ size_t;
#define NULL ((void *)0)
#define RTLD_NEXT ((void *)-1L)
#define ENOMEM 12
#define EIO 5
void *dlsym(void *library, const char *name);
int *__errno_location(void);
char *getenv(const char *name);
unsigned long strtoul(const char *text, char **end, int base);
long write(int file, const void *bytes, size_t count);
void abort(void);

static void *(*real_malloc)(size_t);
static void *(*real_calloc)(size_t, size_t);
static void *(*real_realloc)(void *, size_t);
static int (*real_fsync)(int);

static unsigned long first, calls, most;
static int later, log_to, resolving;

static unsigned long number(const char *name) {
    const char *text = getenv(name);
    return text ? strtoul(text, NULL, 10) : 0;
}

/* Finds the C library's own functions. */
static void resolve(void) {
    resolving = 1;
    *(void **)&real_malloc = dlsym(RTLD_NEXT, "malloc");
    *(void **)&real_calloc = dlsym(RTLD_NEXT, "calloc");
    *(void **)&real_realloc = dlsym(RTLD_NEXT, "realloc");
    resolving = 0;
}

/* Runs after the loader and the C library have allocated, and before the program does. */
__attribute__((constructor)) static void start(void) {
    later = number("REFUSE_LATER") != 0;
    log_to = (int)number("REFUSE_LOG");
    first = number("REFUSE_CALL");
    most = number("REFUSE_ABOVE");
}

/* Whether the call with the next number is to fail. */
static int is_next(void) {
    if (first == 0)
        return 0;
    calls++;
    return calls == first || (calls > first && later);
}

/* Whether this call, for this many bytes, is to fail. dlsym may allocate, and does without it. */
static int is_refused(size_t size) {
    if (resolving)
        return 1;
    int is_large = most != 0 && size > most;
    if (!is_next() && !is_large)
        return 0;
    if (write(log_to, "x", 1) != 1)
        abort();
    *__errno_location() = ENOMEM;
    return 1;
}

void *malloc(size_t size) {
    if (is_refused(size))
        return NULL;
    if (!real_malloc)
        resolve();
    return real_malloc(size);
}

void *calloc(size_t count, size_t size) {
    if (is_refused(count * size))
        return NULL;
    if (!real_calloc)
        resolve();
    return real_calloc(count, size);
}

void *realloc(void *old, size_t size) {
    if (is_refused(size))
        return NULL;
    if (!real_realloc)
        resolve();
    return real_realloc(old, size);
}

int fsync(int file) {
    if (getenv("REFUSE_SYNC")) {
        *__errno_location() = EIO;
        return -1;
    }
    if (!real_fsync)
        *(void **)&real_fsync = dlsym(RTLD_NEXT, "fsync");
    return real_fsync(file);
}
