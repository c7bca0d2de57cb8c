/* Preloaded under a program, fails calls of its devices, counted from 1:
 *   FAIL_READ=K    the K-th read fails (EIO)
 *   FAIL_WRITE=K   the K-th write to standard output fails (ENOSPC)
 *   STUCK_WRITE=K  the K-th write to standard output takes nothing
 *   SINGLE=1       each read gives, and each write takes, one byte at most
 * It includes no header, so that the toolchain's own clang compiles it where no C compiler is installed. */
typedef unsigned long size;
extern char *getenv(const char *name);
extern long atol(const char *digits);
extern void *dlsym(void *library, const char *name);
extern int *__errno_location(void);

#define NEXT_LIBRARY ((void *)-1L)
enum { STANDARD_OUTPUT = 1, INPUT_OUTPUT_ERROR = 5, NO_SPACE = 28 };

static long number_of(const char *name)
{
    const char *digits = getenv(name);
    return digits ? atol(digits) : 0;
}

static size taken(size bytes)
{
    return number_of("SINGLE") && bytes > 1 ? 1 : bytes;
}

static long failed(int reason)
{
    *__errno_location() = reason;
    return -1;
}

long read(int file, void *buffer, size bytes)
{
    static long (*next)(int, void *, size);
    static long calls;
    if (!next)
        next = dlsym(NEXT_LIBRARY, "read");
    if (++calls == number_of("FAIL_READ"))
        return failed(INPUT_OUTPUT_ERROR);
    return next(file, buffer, taken(bytes));
}

long write(int file, const void *buffer, size bytes)
{
    static long (*next)(int, const void *, size);
    static long calls;
    if (!next)
        next = dlsym(NEXT_LIBRARY, "write");
    if (file != STANDARD_OUTPUT)
        return next(file, buffer, bytes);
    calls++;
    if (calls == number_of("FAIL_WRITE"))
        return failed(NO_SPACE);
    if (calls == number_of("STUCK_WRITE"))
        return 0;
    return next(file, buffer, taken(bytes));
}
