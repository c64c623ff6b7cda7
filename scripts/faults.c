/* A library that is loaded before the C library, so that a call of a program ends otherwise than the system would end it. scripts/faults.sh and scripts/hostile.sh build
 * it. The environment says what is done:
 *
 *   FAULT_CALLS   which calls count, from 0 on: `memory` (each allocation), or `read`, `write`, `sync` or `any` of these three, of files that are called *.img
 *   FAULT_AT      the number of the call
 *   FAULT_HOW     what becomes of it: `fails` (EIO), `full` (ENOSPC), `interrupted` (EINTR), `short` (it moves 100 bytes), `kill` (the program is killed before it),
 *                 `cut-none` or `cut-second` (the same as by a power cut: of the writes that no sync made sure none, or every second one, is kept), or `gone` (it and
 *                 each call behind it fail)
 *   FAULT_TOLD    a file that is made once this has happened
 *   CUT_AT_END    where it is set, no write is kept that no sync made sure when the program ends
 *   BAD_IMAGE     an image with bad sectors, or several with commas between: reads that touch BAD_READS and writes that touch BAD_WRITES fail, each written as
 *                 FIRST-LAST
 */
#define _GNU_SOURCE
#include <dlfcn.h>
#include <errno.h>
#include <fcntl.h>
#include <signal.h>
#include <stdio.h>
#include <stdlib.h>
#include <string.h>
#include <sys/types.h>
#include <unistd.h>

/* A write that no sync made sure, and what stood there before it. The last one comes first. `copy` is a descriptor that stays open when the program closes its own. */
struct pending {
    int file;
    int copy;
    off_t at;
    size_t length;
    char *old;
    struct pending *before;
};

static struct pending *pending;

extern void *__libc_malloc(size_t size);
extern void *__libc_realloc(void *old, size_t size);

static long counted;

typedef ssize_t (*reads_at)(int, void *, size_t, off_t);
typedef ssize_t (*writes_at)(int, const void *, size_t, off_t);

/* The C library's own calls, behind those that stand here. */
static reads_at real_pread(void)
{
    static reads_at real;
    if (!real)
        real = (reads_at)dlsym(RTLD_NEXT, "pread");
    return real;
}

static writes_at real_pwrite(void)
{
    static writes_at real;
    if (!real)
        real = (writes_at)dlsym(RTLD_NEXT, "pwrite");
    return real;
}

/* Whether a word of the environment is this one. */
static int is_set(const char *name, const char *word)
{
    const char *value = getenv(name);
    return value && strcmp(value, word) == 0;
}

/* Makes the file that tells that the fault has happened. */
static void tell(void)
{
    const char *path = getenv("FAULT_TOLD");
    if (path)
        close(open(path, O_CREAT | O_WRONLY, 0600));
}

/* Counts a call of a kind, and answers whether it is to end otherwise. */
static int is_due(const char *kind)
{
    const char *at = getenv("FAULT_AT");
    int is_any = is_set("FAULT_CALLS", "any") && strcmp(kind, "memory") != 0;
    if (!at || !(is_any || is_set("FAULT_CALLS", kind)))
        return 0;
    long number = counted++;
    return number == atol(at) || (number > atol(at) && is_set("FAULT_HOW", "gone"));
}

void *malloc(size_t size)
{
    if (is_due("memory")) {
        tell();
        errno = ENOMEM;
        return NULL;
    }
    return __libc_malloc(size);
}

void *realloc(void *old, size_t size)
{
    if (is_due("memory")) {
        tell();
        errno = ENOMEM;
        return NULL;
    }
    return __libc_realloc(old, size);
}

/* The path of a descriptor, where that is called *.img, or an empty text. */
static const char *image_of(int file)
{
    static char path[4096];
    char link[64];
    snprintf(link, sizeof link, "/proc/self/fd/%d", file);
    ssize_t length = readlink(link, path, sizeof path - 1);
    path[length < 0 ? 0 : length] = 0;
    if (length < 4 || strcmp(path + length - 4, ".img") != 0)
        path[0] = 0;
    return path;
}

/* Whether a list of names with commas between has this one. */
static int is_among(const char *names, const char *name)
{
    size_t length = strlen(name);
    for (;;) {
        const char *end = strchrnul(names, ',');
        if ((size_t)(end - names) == length && strncmp(names, name, length) == 0)
            return 1;
        if (!*end)
            return 0;
        names = end + 1;
    }
}

/* Whether a call that moves so many bytes of an image from a place on touches a bad sector. */
static int is_bad(const char *path, off_t begin, size_t length, const char *name)
{
    const char *images = getenv("BAD_IMAGE"), *range = getenv(name);
    long first, last;
    const char *own = strrchr(path, '/');
    if (!images || !range || !own || !is_among(images, own + 1) || sscanf(range, "%ld-%ld", &first, &last) != 2)
        return 0;
    return begin < (last + 1) * 512 && begin + (off_t)length > first * 512;
}

/* Notes what a write from a place on is about to replace. */
static void note(int file, off_t at, size_t length)
{
    struct pending *one = __libc_malloc(sizeof *one);
    one->file = file;
    one->copy = dup(file);
    one->at = at;
    one->length = length;
    one->old = __libc_malloc(length);
    one->before = pending;
    if (real_pread()(file, one->old, length, at) == (ssize_t)length)
        pending = one;
}

/* Forgets the writes to a file that was synced. */
static void forget(int file)
{
    for (struct pending **place = &pending; *place;) {
        if ((*place)->file == file) {
            close((*place)->copy);
            *place = (*place)->before;
        } else {
            place = &(*place)->before;
        }
    }
}

/* Takes writes back that no sync made sure: all, or every second one from the last on. */
static void take_back(int each)
{
    int number = 0;
    for (struct pending *one = pending; one; one = one->before)
        if (number++ % each == 0 && real_pwrite()(one->copy, one->old, one->length, one->at) < 0)
            _exit(70);
}

__attribute__((destructor)) static void end(void)
{
    if (getenv("CUT_AT_END"))
        take_back(1);
}

/* What becomes of a call that is due: how many bytes it may move, or -1 where it fails. */
static ssize_t fault(size_t length)
{
    tell();
    if (is_set("FAULT_HOW", "cut-none"))
        take_back(1);
    if (is_set("FAULT_HOW", "cut-second"))
        take_back(2);
    if (is_set("FAULT_HOW", "kill") || is_set("FAULT_HOW", "cut-none") || is_set("FAULT_HOW", "cut-second"))
        kill(getpid(), SIGKILL);
    if (is_set("FAULT_HOW", "short"))
        return length < 100 ? (ssize_t)length : 100;
    errno = is_set("FAULT_HOW", "full") ? ENOSPC : is_set("FAULT_HOW", "interrupted") ? EINTR : EIO;
    return -1;
}

/* How many bytes a call of an image may move from a place on, or -1 where it fails. */
static ssize_t allowed(int file, off_t at, size_t length, const char *kind, const char *bad)
{
    const char *path = image_of(file);
    if (!*path)
        return length;
    if (bad && is_bad(path, at, length, bad)) {
        tell();
        errno = EIO;
        return -1;
    }
    return is_due(kind) ? fault(length) : (ssize_t)length;
}

ssize_t pread(int file, void *into, size_t length, off_t at)
{
    ssize_t count = allowed(file, at, length, "read", "BAD_READS");
    return count < 0 ? -1 : real_pread()(file, into, count, at);
}

ssize_t pwrite(int file, const void *from, size_t length, off_t at)
{
    ssize_t count = allowed(file, at, length, "write", "BAD_WRITES");
    if (count > 0 && *image_of(file))
        note(file, at, count);
    return count < 0 ? -1 : real_pwrite()(file, from, count, at);
}

int fsync(int file)
{
    static int (*real)(int);
    if (!real)
        real = (int (*)(int))dlsym(RTLD_NEXT, "fsync");
    if (allowed(file, 0, 0, "sync", NULL) < 0)
        return -1;
    forget(file);
    return real(file);
}
