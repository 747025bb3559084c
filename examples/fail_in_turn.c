/* Preloaded before a program: one of its allocations or calls to the system is struck.
 *
 * FAIL_WHAT says which are counted and what comes of the one of number FAIL_AT, from 1; with FAIL_AT 0 none is struck:
 *   memory   an allocation finds no memory
 *   call     a call answers EIO
 *   stop     the program is killed before a call
 *   pause    the program stops itself before a sync of a file, until it is told to go on
 *   lost     a sync of a file answers EIO, and the bytes that it was to keep are counted as kept and are not
 *
 * For `lost` the folder FAIL_DISK stands for the disk: it has for each file the bytes that a sync has kept there, while the file
 * itself is what programs read. Where the program ends by itself, how many were counted and which call was struck are written to
 * the file FAIL_COUNT. A file that gets the number of a standard stream, but for the root folder, ends the program. */
#define _GNU_SOURCE
#include <dlfcn.h>
#include <errno.h>
#include <fcntl.h>
#include <signal.h>
#include <stdarg.h>
#include <stdio.h>
#include <stdlib.h>
#include <string.h>
#include <sys/stat.h>
#include <unistd.h>

static long at = -1;
static long counted = 0;
static char what = 0;
static char struck[4200] = "none";

static void read_orders(void) {
    if (at >= 0) return;
    const char *kind = getenv("FAIL_WHAT");
    const char *number = getenv("FAIL_AT");
    at = number ? atol(number) : 0;
    what = kind ? kind[0] : 0;
}

static int memory_is_due(void) {
    read_orders();
    return what == 'm' && ++counted == at;
}

static void note(const char *name, int file, const char *path) {
    char link[64], target[4096];
    if (!path || !*path) {
        snprintf(link, sizeof link, "/proc/self/fd/%d", file);
        ssize_t size = readlink(link, target, sizeof target - 1);
        target[size < 0 ? 0 : size] = 0;
        path = file <= 2 ? (file == 0 ? "input" : file == 1 ? "output" : "errors") : target;
    }
    snprintf(struck, sizeof struck, "%s %s", name, path);
}

static int call_is_due(const char *name, int file, const char *path) {
    read_orders();
    if (what != 'c' && what != 's') return 0;
    if (++counted != at) return 0;
    if (what == 's') kill(getpid(), SIGKILL);
    note(name, file, path);
    errno = EIO;
    return 1;
}

__attribute__((destructor)) static void tell_count(void) {
    const char *name = getenv("FAIL_COUNT");
    long all = counted;
    what = 0;
    FILE *file = name ? fopen(name, "w") : NULL;
    if (!file) return;
    fprintf(file, "%ld\n%s\n", all, struck);
    fclose(file);
}

void *malloc(size_t size) {
    static void *(*real)(size_t);
    if (!real) real = dlsym(RTLD_NEXT, "malloc");
    return memory_is_due() ? NULL : real(size);
}

void *realloc(void *old, size_t size) {
    static void *(*real)(void *, size_t);
    if (!real) real = dlsym(RTLD_NEXT, "realloc");
    return memory_is_due() ? NULL : real(old, size);
}

#define REAL(result, real_name, ...)                          \
    static result (*real)(__VA_ARGS__);                       \
    if (!real) real = (result(*)(__VA_ARGS__))dlsym(RTLD_NEXT, real_name)

#define STRIKE(result, name, real_name, parameters, arguments)                 \
    result name parameters {                                                   \
        static result(*real) parameters;                                       \
        if (!real) real = dlsym(RTLD_NEXT, real_name);                         \
        return call_is_due(real_name, file, NULL) ? (result)-1 : real arguments; \
    }

STRIKE(ssize_t, read, "read", (int file, void *to, size_t size), (file, to, size))
STRIKE(ssize_t, pread, "pread", (int file, void *to, size_t size, off_t place), (file, to, size, place))
STRIKE(ssize_t, write, "write", (int file, const void *from, size_t size), (file, from, size))
STRIKE(ssize_t, __write, "write", (int file, const void *from, size_t size), (file, from, size))
STRIKE(int, fsync, "fsync", (int file), (file))
STRIKE(int, ftruncate, "ftruncate", (int file, off_t size), (file, size))
STRIKE(int, fchmod, "fchmod", (int file, mode_t mode), (file, mode))
STRIKE(int, flock, "flock", (int file, int order), (file, order))
STRIKE(off_t, lseek, "lseek", (int file, off_t place, int from), (file, place, from))
STRIKE(int, close, "close", (int file), (file))

int statx(int folder, const char *path, int flags, unsigned mask, struct statx *to) {
    REAL(int, "statx", int, const char *, int, unsigned, struct statx *);
    return call_is_due("statx", folder, path) ? -1 : real(folder, path, flags, mask, to);
}

int open(const char *path, int flags, ...) {
    REAL(int, "open", const char *, int, ...);
    va_list rest;
    va_start(rest, flags);
    int mode = flags & O_CREAT ? va_arg(rest, int) : 0;
    va_end(rest);
    if (call_is_due("open", -1, path)) return -1;
    int file = real(path, flags, mode);
    if (0 <= file && file <= 2 && strcmp(path, "/")) abort();
    return file;
}

/* Ranges that were written and that no sync has kept or lost yet. */
struct range {
    int file;
    off_t place;
    size_t size;
};
static struct range ranges[1 << 16];
static size_t ranges_now = 0;

static int open_disk(int file) {
    char link[64], target[4096], name[8300];
    snprintf(link, sizeof link, "/proc/self/fd/%d", file);
    ssize_t size = readlink(link, target, sizeof target - 1);
    if (size < 0) abort();
    target[size] = 0;
    snprintf(name, sizeof name, "%s%s", getenv("FAIL_DISK"), strrchr(target, '/'));
    REAL(int, "open", const char *, int, ...);
    int disk = real(name, O_RDWR | O_CREAT, 0666);
    if (disk < 0) abort();
    return disk;
}

static void keep_range(int from, int to, struct range it) {
    REAL(ssize_t, "pread", int, void *, size_t, off_t);
    static ssize_t (*put)(int, const void *, size_t, off_t);
    if (!put) put = dlsym(RTLD_NEXT, "pwrite");
    char piece[4096];
    while (it.size) {
        ssize_t size = real(from, piece, it.size < sizeof piece ? it.size : sizeof piece, it.place);
        if (size <= 0) break;
        if (put(to, piece, size, it.place) != size) abort();
        it.place += size;
        it.size -= size;
    }
}

/* The bytes of the file that are not synced are kept on the disk, or are not, and count as synced. */
static void settle(int file, int keeps) {
    int disk = open_disk(file);
    size_t left = 0;
    for (size_t i = 0; i < ranges_now; i++) {
        if (ranges[i].file != file) ranges[left++] = ranges[i];
        else if (keeps) keep_range(file, disk, ranges[i]);
    }
    ranges_now = left;
    struct stat is, was;
    if (fstat(file, &is) || fstat(disk, &was)) abort();
    static int (*cut)(int, off_t);
    if (!cut) cut = dlsym(RTLD_NEXT, "ftruncate");
    if (keeps && was.st_size > is.st_size && cut(disk, is.st_size)) abort();
    static int (*end)(int);
    if (!end) end = dlsym(RTLD_NEXT, "close");
    end(disk);
}

ssize_t pwrite(int file, const void *from, size_t size, off_t place) {
    REAL(ssize_t, "pwrite", int, const void *, size_t, off_t);
    if (call_is_due("pwrite", file, NULL)) return -1;
    if (what == 'l') {
        if (ranges_now == sizeof ranges / sizeof *ranges) abort();
        ranges[ranges_now++] = (struct range){file, place, size};
    }
    return real(file, from, size, place);
}

int fdatasync(int file) {
    REAL(int, "fdatasync", int);
    if (call_is_due("fdatasync", file, NULL)) return -1;
    if (what == 'p' && ++counted == at) raise(SIGSTOP);
    if (what != 'l') return real(file);
    int is_lost = ++counted == at;
    if (is_lost) note("fdatasync", file, NULL);
    settle(file, !is_lost);
    errno = EIO;
    return is_lost ? -1 : 0;
}
