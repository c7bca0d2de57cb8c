/* Preloaded under a program, refuses its REFUSE-th request for memory (malloc or realloc), counted from 1.
 * It includes no header, so that the toolchain's own clang compiles it where no C compiler is installed. */
typedef unsigned long size;
extern char *getenv(const char *name);
extern long atol(const char *digits);
extern void *dlsym(void *library, const char *name);

#define NEXT_LIBRARY ((void *)-1L)

/* Whether this request is the one to refuse. */
static int is_refused(void)
{
    static long wanted = -1, requests;
    if (wanted < 0) {
        const char *digits = getenv("REFUSE");
        wanted = digits ? atol(digits) : 0;
    }
    return wanted > 0 && ++requests == wanted;
}

void *malloc(size bytes)
{
    static void *(*next)(size);
    if (!next)
        next = dlsym(NEXT_LIBRARY, "malloc");
    return is_refused() ? 0 : next(bytes);
}

void *realloc(void *old, size bytes)
{
    static void *(*next)(void *, size);
    if (!next)
        next = dlsym(NEXT_LIBRARY, "realloc");
    return is_refused() ? 0 : next(old, bytes);
}
