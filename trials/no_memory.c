/* A library for LD_PRELOAD that refuses one allocation of the program: the one with the number REFUSE, counted from 1,
   of all calls of malloc and realloc. At that call it makes the file that REFUSED names, and aborts the program if it
   can't be made. */

#define _GNU_SOURCE
#include <dlfcn.h>
#include <errno.h>
#include <fcntl.h>
#include <stdatomic.h>
#include <stdlib.h>
#include <unistd.h>

static atomic_long asked;
static long refuse = -1;
static void *(*next_malloc)(size_t);
static void *(*next_realloc)(void *, size_t);

__attribute__((constructor)) static void begin(void) {
    const char *number = getenv("REFUSE");
    next_malloc = (void *(*)(size_t))dlsym(RTLD_NEXT, "malloc");
    next_realloc = (void *(*)(void *, size_t))dlsym(RTLD_NEXT, "realloc");
    atomic_store(&asked, 0);
    refuse = number ? atol(number) : 0;
}

static int is_refused(void) {
    if (refuse <= 0 || atomic_fetch_add(&asked, 1) + 1 != refuse)
        return 0;
    const char *path = getenv("REFUSED");
    int file = path ? open(path, O_CREAT | O_WRONLY, 0600) : -1;
    if (file < 0 || close(file) != 0)
        abort();
    errno = ENOMEM;
    return 1;
}

void *malloc(size_t size) {
    extern void *__libc_malloc(size_t);
    if (!next_malloc)
        return __libc_malloc(size);
    return is_refused() ? NULL : next_malloc(size);
}

void *realloc(void *old, size_t size) {
    extern void *__libc_realloc(void *, size_t);
    if (!next_realloc)
        return __libc_realloc(old, size);
    return is_refused() ? NULL : next_realloc(old, size);
}
