/* A library for LD_PRELOAD that makes a disk slow, and naps short.

   Each fsync and fdatasync takes SYNC_MICROSECONDS longer. A sleep of exactly one millisecond, as a script of kyoto-link
   makes between its questions, takes NAP_MICROSECONDS instead. A variable that isn't set changes nothing. */

#define _GNU_SOURCE

#include <dlfcn.h>
#include <stdlib.h>
#include <sys/syscall.h>
#include <time.h>
#include <unistd.h>

enum { MILLISECOND = 1000000 };

static long sync_nanoseconds, nap_nanoseconds;

static long set(const char *name)
{
    const char *text = getenv(name);
    return text == NULL ? 0 : atol(text) * 1000;
}

__attribute__((constructor)) static void read_settings(void)
{
    sync_nanoseconds = set("SYNC_MICROSECONDS");
    nap_nanoseconds = set("NAP_MICROSECONDS");
}

static void rest(long nanoseconds)
{
    struct timespec time = {nanoseconds / 1000000000, nanoseconds % 1000000000};
    syscall(SYS_clock_nanosleep, CLOCK_MONOTONIC, 0, &time, NULL);
}

static int after_rest(const char *name, int handle)
{
    int (*real)(int) = (int (*)(int))dlsym(RTLD_NEXT, name);
    int status = real(handle);
    if (sync_nanoseconds > 0)
        rest(sync_nanoseconds);
    return status;
}

int fsync(int handle)
{
    return after_rest("fsync", handle);
}

int fdatasync(int handle)
{
    return after_rest("fdatasync", handle);
}

static int is_nap(const struct timespec *time)
{
    return nap_nanoseconds > 0 && time->tv_sec == 0 && time->tv_nsec == MILLISECOND;
}

int nanosleep(const struct timespec *time, struct timespec *left)
{
    struct timespec nap = {0, nap_nanoseconds};
    int (*real)(const struct timespec *, struct timespec *) =
        (int (*)(const struct timespec *, struct timespec *))dlsym(RTLD_NEXT, "nanosleep");
    return real(is_nap(time) ? &nap : time, left);
}

int clock_nanosleep(clockid_t clock, int flags, const struct timespec *time, struct timespec *left)
{
    struct timespec nap = {0, nap_nanoseconds};
    int (*real)(clockid_t, int, const struct timespec *, struct timespec *) =
        (int (*)(clockid_t, int, const struct timespec *, struct timespec *))dlsym(RTLD_NEXT, "clock_nanosleep");
    return real(clock, flags, flags == 0 && is_nap(time) ? &nap : time, left);
}
