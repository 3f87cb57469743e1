/* A library for LD_PRELOAD that fails calls on a file of a store: FAIL_COUNT of the reads, writes, syncs, changes and
   readings of the length of each file whose path ends with FAIL, from the one with the number FAIL_FROM on, counted
   from 1. At such a call it makes the file that FAILED names, and aborts the program if it can't be made. A sync of such
   a file waits while there is a file at the path HELD, but for a minute at most. After each sync that succeeds, the
   folder SYNCED has a copy of the file, with the bytes that a loss of power would leave. */

#define _GNU_SOURCE
#include <dlfcn.h>
#include <errno.h>
#include <fcntl.h>
#include <limits.h>
#include <stdarg.h>
#include <stdatomic.h>
#include <stdio.h>
#include <stdlib.h>
#include <string.h>
#include <sys/stat.h>
#include <unistd.h>

/* More handles than a run has. */
#define HANDLES 1024
/* The most milliseconds for which a sync waits. */
#define MOST_HELD 60000

/* For each handle the path of its file, if that is a file of a store. */
static char paths[HANDLES][PATH_MAX];
static atomic_long calls;

static ssize_t (*next_pread)(int, void *, size_t, off_t);
static ssize_t (*next_pwrite)(int, const void *, size_t, off_t);
static int (*next_ftruncate)(int, off_t);
static int (*next_fsync)(int);
static int (*next_fdatasync)(int);
static int (*next_statx)(int, const char *, int, unsigned, struct statx *);
static int (*next_open)(const char *, int, ...);
static int (*next_close)(int);

__attribute__((constructor)) static void begin(void) {
    next_pread = (ssize_t(*)(int, void *, size_t, off_t))dlsym(RTLD_NEXT, "pread");
    next_pwrite = (ssize_t(*)(int, const void *, size_t, off_t))dlsym(RTLD_NEXT, "pwrite");
    next_ftruncate = (int (*)(int, off_t))dlsym(RTLD_NEXT, "ftruncate");
    next_fsync = (int (*)(int))dlsym(RTLD_NEXT, "fsync");
    next_fdatasync = (int (*)(int))dlsym(RTLD_NEXT, "fdatasync");
    next_statx = (int (*)(int, const char *, int, unsigned, struct statx *))dlsym(RTLD_NEXT, "statx");
    next_open = (int (*)(const char *, int, ...))dlsym(RTLD_NEXT, "open");
    next_close = (int (*)(int))dlsym(RTLD_NEXT, "close");
}

static int ends_with(const char *path, const char *ending) {
    size_t length = strlen(path), least = strlen(ending);
    return length >= least && strcmp(path + length - least, ending) == 0;
}

static long number_of(const char *name) {
    const char *text = getenv(name);
    return text ? atol(text) : 0;
}

static int is_watched(int file) {
    return file >= 0 && file < HANDLES && paths[file][0];
}

static int fails(int file) {
    const char *chosen = getenv("FAIL");
    if (!chosen || !is_watched(file) || !ends_with(paths[file], chosen))
        return 0;
    long call = atomic_fetch_add(&calls, 1) + 1, from = number_of("FAIL_FROM");
    if (call < from || call >= from + number_of("FAIL_COUNT"))
        return 0;
    const char *mark = getenv("FAILED");
    int made = mark ? next_open(mark, O_CREAT | O_WRONLY, 0600) : -1;
    if (made < 0 || next_close(made) != 0)
        abort();
    errno = EIO;
    return 1;
}

static void hold(int file) {
    const char *mark = getenv("HELD");
    for (int waited = 0; mark && is_watched(file) && access(mark, F_OK) == 0 && waited < MOST_HELD; waited++)
        usleep(1000);
}

/* Copies a file that was synced. Nobody changes it meanwhile, since its store's thread is here. */
static void copy(int file) {
    static _Thread_local char bytes[1 << 16];
    char path[PATH_MAX + NAME_MAX], made[PATH_MAX + NAME_MAX];
    const char *folder = getenv("SYNCED");
    if (!folder)
        return;
    int length = snprintf(path, sizeof path, "%s/%s", folder, strrchr(paths[file], '/') + 1);
    int length_made = snprintf(made, sizeof made, "%s.new", path);
    if (length < 0 || length >= (int)sizeof path || length_made < 0 || length_made >= (int)sizeof made)
        abort();
    int to = next_open(made, O_CREAT | O_TRUNC | O_WRONLY, 0600);
    off_t at = 0;
    ssize_t count;
    while (to >= 0 && (count = next_pread(file, bytes, sizeof bytes, at)) > 0) {
        if (next_pwrite(to, bytes, (size_t)count, at) != count)
            abort();
        at += count;
    }
    if (to < 0 || count < 0 || next_close(to) != 0 || rename(made, path) != 0)
        abort();
}

int open(const char *path, int flags, ...) {
    va_list rest;
    va_start(rest, flags);
    mode_t mode = flags & O_CREAT ? va_arg(rest, mode_t) : 0;
    va_end(rest);
    int file = next_open(path, flags, mode);
    if (file >= 0 && file < HANDLES && strlen(path) < PATH_MAX && strchr(path, '/') && (ends_with(path, ".db") || ends_with(path, ".db-wal")))
        strcpy(paths[file], path);
    return file;
}

int close(int file) {
    if (is_watched(file))
        paths[file][0] = 0;
    return next_close(file);
}

ssize_t pread(int file, void *bytes, size_t length, off_t at) {
    return fails(file) ? -1 : next_pread(file, bytes, length, at);
}

ssize_t pwrite(int file, const void *bytes, size_t length, off_t at) {
    return fails(file) ? -1 : next_pwrite(file, bytes, length, at);
}

int ftruncate(int file, off_t length) {
    return fails(file) ? -1 : next_ftruncate(file, length);
}

int fsync(int file) {
    hold(file);
    if (fails(file) || next_fsync(file) != 0)
        return -1;
    if (is_watched(file))
        copy(file);
    return 0;
}

int fdatasync(int file) {
    hold(file);
    if (fails(file) || next_fdatasync(file) != 0)
        return -1;
    if (is_watched(file))
        copy(file);
    return 0;
}

/* Of a handle alone, whose length it reads. */
int statx(int file, const char *restrict path, int flags, unsigned mask, struct statx *restrict found) {
    return !*path && fails(file) ? -1 : next_statx(file, path, flags, mask, found);
}
