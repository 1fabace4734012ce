/* Loaded before the C library: the file that is made new, or gone on with at its end, is the journal, and each write to it, each sync of it and each cut is counted. At the call DISK_AT it
   does what DISK_DOES says: the process is killed before the call or behind it, the call fails, a write takes one byte, or the disk is full from then on, behind one byte more. What was synced
   is copied to DISK_IMAGE: so much a power cut leaves at least. With FOLDER_FAILS its folder can't be synced. */
#define _GNU_SOURCE
#include <dlfcn.h>
#include <errno.h>
#include <fcntl.h>
#include <signal.h>
#include <stdarg.h>
#include <stdlib.h>
#include <string.h>
#include <sys/stat.h>
#include <unistd.h>

static int journal = -1;
static long calls;
static const char *does, *image, *name;
static long at = -1;

/* What is started has none of this. */
__attribute__((constructor)) static void alone(void) {
    does = getenv("DISK_DOES");
    image = getenv("DISK_IMAGE");
    if (getenv("DISK_AT"))
        at = atol(getenv("DISK_AT"));
    unsetenv("LD_PRELOAD");
}

static int is(const char *what) { return calls == at && does && !strcmp(does, what); }

static int is_full(void) { return calls >= at && at >= 0 && does && !strcmp(does, "full"); }

static int made(int fd, const char *path, int flags) {
    if (fd >= 0 && ((flags & O_APPEND) || ((flags & O_CREAT) && (flags & O_EXCL)))) {
        journal = fd;
        name = strdup(path);
    }
    return fd;
}

#define OPENS(NAME)                                                          \
    int NAME(const char *path, int flags, ...) {                             \
        int (*real)(const char *, int, ...) = dlsym(RTLD_NEXT, #NAME);       \
        va_list rest;                                                        \
        va_start(rest, flags);                                               \
        mode_t mode = flags & O_CREAT ? va_arg(rest, mode_t) : 0;            \
        va_end(rest);                                                        \
        return made(real(path, flags, mode), path, flags);                   \
    }
OPENS(open)
OPENS(open64)

#define OPENS_AT(NAME)                                                       \
    int NAME(int folder, const char *path, int flags, ...) {                 \
        int (*real)(int, const char *, int, ...) = dlsym(RTLD_NEXT, #NAME);  \
        va_list rest;                                                        \
        va_start(rest, flags);                                               \
        mode_t mode = flags & O_CREAT ? va_arg(rest, mode_t) : 0;            \
        va_end(rest);                                                        \
        return made(real(folder, path, flags, mode), path, flags);           \
    }
OPENS_AT(openat)
OPENS_AT(openat64)

ssize_t write(int fd, const void *bytes, size_t count) {
    ssize_t (*real)(int, const void *, size_t) = dlsym(RTLD_NEXT, "write");
    if (fd != journal)
        return real(fd, bytes, count);
    calls++;
    if (is("kill_before"))
        raise(SIGKILL);
    if (is("fail") || (is_full() && calls > at)) {
        errno = ENOSPC;
        return -1;
    }
    ssize_t taken = real(fd, bytes, is("short") || is("short_kill") || is_full() ? 1 : count);
    if (is("kill_behind") || is("short_kill"))
        raise(SIGKILL);
    return taken;
}

static void keep(void) {
    int (*opens)(const char *, int, ...) = dlsym(RTLD_NEXT, "open");
    ssize_t (*writes)(int, const void *, size_t) = dlsym(RTLD_NEXT, "write");
    char chunk[4096];
    ssize_t count;
    int from = opens(name, O_RDONLY), to = opens(image, O_WRONLY | O_CREAT | O_TRUNC, 0600);
    while ((count = read(from, chunk, sizeof chunk)) > 0)
        if (writes(to, chunk, count) != count)
            abort();
    close(from);
    close(to);
}

/* A call to the journal that is no write. */
static int counted(int fd, int (*real)(int, off_t), off_t length, int syncs) {
    calls++;
    if (is("kill_before"))
        raise(SIGKILL);
    if (is("fail")) {
        errno = EIO;
        return -1;
    }
    int status = real(fd, length);
    if (image && syncs)
        keep();
    if (is("kill_behind"))
        raise(SIGKILL);
    return status;
}

static int to_disk(int fd, off_t ignored) {
    (void)ignored;
    return ((int (*)(int))dlsym(RTLD_NEXT, "fdatasync"))(fd);
}

static int wholly_to_disk(int fd, off_t ignored) {
    (void)ignored;
    return ((int (*)(int))dlsym(RTLD_NEXT, "fsync"))(fd);
}

static int cut(int fd, off_t length) { return ((int (*)(int, off_t))dlsym(RTLD_NEXT, "ftruncate"))(fd, length); }

int fdatasync(int fd) { return fd == journal ? counted(fd, to_disk, 0, 1) : to_disk(fd, 0); }

int ftruncate(int fd, off_t length) { return fd == journal ? counted(fd, cut, length, 0) : cut(fd, length); }

int ftruncate64(int fd, off64_t length) { return ftruncate(fd, length); }

/* Of the journal, or of its folder. */
int fsync(int fd) {
    struct stat found;
    if (fd == journal)
        return counted(fd, wholly_to_disk, 0, 1);
    if (getenv("FOLDER_FAILS") && !fstat(fd, &found) && S_ISDIR(found.st_mode)) {
        errno = EIO;
        return -1;
    }
    return wholly_to_disk(fd, 0);
}
