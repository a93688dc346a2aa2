/* Preloaded under a program, counts its calls of read, and its calls of write to standard output. The call of CALL
   (read or write) whose number is FAIL_AT fails in the way that FAIL_HOW names: EIO, EINTR or ENOSPC; `zero` takes or
   gives no byte; `short` gives one byte, or takes half of them. At the end both counts are written to the file that
   CALLS names. */
#define _GNU_SOURCE
#include <dlfcn.h>
#include <errno.h>
#include <fcntl.h>
#include <stdio.h>
#include <stdlib.h>
#include <string.h>
#include <unistd.h>

static long reads, writes;

/* Whether the variable has this value. */
static int is(const char *name, const char *want) {
    const char *value = getenv(name);
    return value && !strcmp(value, want);
}

/* Counts a call, and tells whether it is the one that is to fail. */
static int is_hit(long *calls, const char *call) {
    const char *at = getenv("FAIL_AT");
    ++*calls;
    return is("CALL", call) && at && *calls == atol(at);
}

static ssize_t failure(void) {
    errno = is("FAIL_HOW", "EINTR") ? EINTR : is("FAIL_HOW", "ENOSPC") ? ENOSPC : EIO;
    return is("FAIL_HOW", "zero") ? 0 : -1;
}

ssize_t read(int file, void *place, size_t size) {
    static ssize_t (*real)(int, void *, size_t);
    if (!real) real = (ssize_t (*)(int, void *, size_t))dlsym(RTLD_NEXT, "read");
    if (!is_hit(&reads, "read")) return real(file, place, size);
    return is("FAIL_HOW", "short") ? real(file, place, size ? 1 : 0) : failure();
}

ssize_t write(int file, const void *bytes, size_t size) {
    static ssize_t (*real)(int, const void *, size_t);
    if (!real) real = (ssize_t (*)(int, const void *, size_t))dlsym(RTLD_NEXT, "write");
    if (file != 1 || !is_hit(&writes, "write")) return real(file, bytes, size);
    return is("FAIL_HOW", "short") ? real(file, bytes, (size + 1) / 2) : failure();
}

__attribute__((destructor)) static void tell(void) {
    const char *name = getenv("CALLS");
    if (!name) return;
    int file = open(name, O_WRONLY | O_CREAT | O_TRUNC, 0644);
    if (file < 0) return;
    dprintf(file, "%ld %ld\n", reads, writes);
    close(file);
}
