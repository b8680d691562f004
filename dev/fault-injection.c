/* A preloaded library in which calls fail: allocations, reads of standard input or writes of standard output, as
   FAIL_CALL says by "allocation", "read" or "write". The call fails whose number, from 1 on, FAIL_AT is, and with
   FAIL_ON each later one too. FAIL_ERRNO is the errno; a write that fails with 0 accepts no byte.

   With FAIL_STEP a read gives, and a write accepts, at most so many bytes. At its end the program prints on standard
   error how many calls of each kind there were. */
#define _GNU_SOURCE
#include <dlfcn.h>
#include <errno.h>
#include <stdio.h>
#include <stdlib.h>
#include <string.h>
#include <unistd.h>

enum kind { ALLOCATION, READ, WRITE };

static const char *const names[] = {"allocation", "read", "write"};
static long calls[3];

/* The number that a setting is, or 0. */
static long number_of(const char *setting) {
    const char *text = getenv(setting);
    return text ? atol(text) : 0;
}

/* Counts a call, and says whether it fails. */
static int fails(enum kind kind) {
    const char *failing = getenv("FAIL_CALL");
    long number = ++calls[kind], at = number_of("FAIL_AT");
    if (!failing || strcmp(failing, names[kind]) != 0 || number < at || (number > at && !getenv("FAIL_ON")))
        return 0;
    errno = (int)number_of("FAIL_ERRNO");
    return 1;
}

/* How many of so many bytes a call moves. */
static size_t step_of(size_t length) {
    size_t step = (size_t)number_of("FAIL_STEP");
    return step && step < length ? step : length;
}

void *malloc(size_t size) {
    static void *(*real)(size_t);
    if (!real)
        real = (void *(*)(size_t))dlsym(RTLD_NEXT, "malloc");
    return fails(ALLOCATION) ? NULL : real(size);
}

void *realloc(void *block, size_t size) {
    static void *(*real)(void *, size_t);
    if (!real)
        real = (void *(*)(void *, size_t))dlsym(RTLD_NEXT, "realloc");
    return fails(ALLOCATION) ? NULL : real(block, size);
}

ssize_t read(int file, void *bytes, size_t length) {
    static ssize_t (*real)(int, void *, size_t);
    if (!real)
        real = (ssize_t(*)(int, void *, size_t))dlsym(RTLD_NEXT, "read");
    if (file != STDIN_FILENO)
        return real(file, bytes, length);
    return fails(READ) ? -1 : real(file, bytes, step_of(length));
}

ssize_t write(int file, const void *bytes, size_t length) {
    static ssize_t (*real)(int, const void *, size_t);
    if (!real)
        real = (ssize_t(*)(int, const void *, size_t))dlsym(RTLD_NEXT, "write");
    if (file != STDOUT_FILENO)
        return real(file, bytes, length);
    if (fails(WRITE))
        return errno ? -1 : 0;
    return real(file, bytes, step_of(length));
}

__attribute__((destructor)) static void report(void) {
    dprintf(STDERR_FILENO, "%ld %ld %ld\n", calls[ALLOCATION], calls[READ], calls[WRITE]);
}
