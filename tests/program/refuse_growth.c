/* Preloaded under a program, counts its calls of malloc and realloc together, and refuses the one whose number is
   in FAIL_AT, if any. At the end the count is written to the file that GROWTHS names. */
#define _GNU_SOURCE
#include <dlfcn.h>
#include <fcntl.h>
#include <stdio.h>
#include <stdlib.h>
#include <unistd.h>

static long calls;
static long fail_at = -1;

static int refused(void) {
    if (fail_at < 0) {
        const char *at = getenv("FAIL_AT");
        fail_at = at ? atol(at) : 0;
    }
    calls++;
    return calls == fail_at;
}

void *malloc(size_t size) {
    static void *(*real)(size_t);
    if (!real) real = (void *(*)(size_t))dlsym(RTLD_NEXT, "malloc");
    return refused() ? NULL : real(size);
}

void *realloc(void *old, size_t size) {
    static void *(*real)(void *, size_t);
    if (!real) real = (void *(*)(void *, size_t))dlsym(RTLD_NEXT, "realloc");
    return refused() ? NULL : real(old, size);
}

__attribute__((destructor)) static void tell(void) {
    const char *name = getenv("GROWTHS");
    if (!name) return;
    int file = open(name, O_WRONLY | O_CREAT | O_TRUNC, 0644);
    if (file < 0) return;
    dprintf(file, "%ld\n", calls);
    close(file);
}
