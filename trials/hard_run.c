/* A library for LD_PRELOAD that fails calls of the program: FAIL_COUNT calls of the function that FAIL names (connect,
   accept4 or pthread_create), from the one with the number FAIL_FROM on, counted from 1. */

#define _GNU_SOURCE
#include <dlfcn.h>
#include <errno.h>
#include <pthread.h>
#include <stdatomic.h>
#include <stdlib.h>
#include <string.h>
#include <sys/socket.h>

static long number_of(const char *name) {
    const char *text = getenv(name);
    return text ? atol(text) : 0;
}

static int fails(const char *name, atomic_long *calls) {
    const char *chosen = getenv("FAIL");
    if (!chosen || strcmp(chosen, name) != 0)
        return 0;
    long call = atomic_fetch_add(calls, 1) + 1;
    long from = number_of("FAIL_FROM");
    return call >= from && call < from + number_of("FAIL_COUNT");
}

int connect(int socket, const struct sockaddr *address, socklen_t length) {
    static atomic_long calls;
    int (*next)(int, const struct sockaddr *, socklen_t) = (int (*)(int, const struct sockaddr *, socklen_t))dlsym(RTLD_NEXT, "connect");
    if (!fails("connect", &calls))
        return next(socket, address, length);
    errno = ECONNREFUSED;
    return -1;
}

int accept4(int socket, struct sockaddr *restrict address, socklen_t *restrict length, int flags) {
    static atomic_long calls;
    int (*next)(int, struct sockaddr *, socklen_t *, int) = (int (*)(int, struct sockaddr *, socklen_t *, int))dlsym(RTLD_NEXT, "accept4");
    if (!fails("accept4", &calls))
        return next(socket, address, length, flags);
    errno = EMFILE;
    return -1;
}

int pthread_create(pthread_t *restrict thread, const pthread_attr_t *restrict with, void *(*start)(void *), void *restrict given) {
    static atomic_long calls;
    int (*next)(pthread_t *, const pthread_attr_t *, void *(*)(void *), void *) = (int (*)(pthread_t *, const pthread_attr_t *, void *(*)(void *), void *))dlsym(RTLD_NEXT, "pthread_create");
    if (!fails("pthread_create", &calls))
        return next(thread, with, start, given);
    return EAGAIN;
}
