/* Loaded before the program: one of its calls fails. FAIL names the call, FAIL_AT which one of them, from 1, and of those that follow all too where
   FAIL_ON is set; FAIL_HOW is the error's number. Of reads those of pipes alone count, of writes those to standard output, and of openings those of the null device; each
   way to ask for memory is `malloc`. A call that was made to fail makes the file FAILED, and writes the words there of the program that its thread started last, or was about
   to start, a line each. Where FAIL_ROOM is set, so many bytes of standard output pass before a write fails. Where FAIL_BEHIND is set, calls count from the first write to standard error on that
   has this text. Where LATE is set, each thread begins so many milliseconds late. What is started has none of this. */
#define _GNU_SOURCE
#include <dlfcn.h>
#include <errno.h>
#include <fcntl.h>
#include <poll.h>
#include <pthread.h>
#include <spawn.h>
#include <stdarg.h>
#include <stdatomic.h>
#include <stdlib.h>
#include <string.h>
#include <sys/stat.h>
#include <sys/types.h>
#include <unistd.h>

static int number_in(const char *name) {
    const char *value = getenv(name);
    return value ? atoi(value) : 0;
}

/* The words of the program that this thread started last: as many of their bytes as there is room for. */
static __thread char started[1024];

static void keep_words(char *const words[]) {
    size_t kept = 0;
    for (int i = 0; words[i]; i++) {
        size_t size = strlen(words[i]);
        if (kept + size + 1 > sizeof started) break;
        memcpy(started + kept, words[i], size);
        kept += size;
        started[kept++] = '\n';
    }
    memset(started + kept, 0, sizeof started - kept);
}

#define REAL(name) __typeof__(&name) real = (__typeof__(&name))dlsym(RTLD_NEXT, #name)

static void mark_failed(void) {
    REAL(write);
    const char *mark = getenv("FAILED");
    int file = mark ? creat(mark, 0600) : -1;
    if (file < 0) return;
    size_t size = strnlen(started, sizeof started);
    if (size > 0 && real(file, started, size) < 0) abort();
    close(file);
}

/* Whether the text behind which calls count was written. */
static atomic_int is_behind;

/* Whether this call fails; it is then known why. */
static int fails(const char *call) {
    static atomic_int calls;
    const char *chosen = getenv("FAIL");
    if (!chosen || strcmp(chosen, call) != 0) return 0;
    if (getenv("FAIL_BEHIND") && !atomic_load(&is_behind)) return 0;
    int number = atomic_fetch_add(&calls, 1) + 1;
    int at = number_in("FAIL_AT");
    if (number < at || (number > at && !getenv("FAIL_ON"))) return 0;
    mark_failed();
    return 1;
}

static int refuse(void) {
    errno = number_in("FAIL_HOW");
    return -1;
}

int poll(struct pollfd *asked, nfds_t count, int timeout) {
    REAL(poll);
    return fails("poll") ? refuse() : real(asked, count, timeout);
}

ssize_t read(int file, void *bytes, size_t count) {
    REAL(read);
    struct stat is;
    if (fstat(file, &is) == 0 && S_ISFIFO(is.st_mode) && fails("read")) return refuse();
    return real(file, bytes, count);
}

ssize_t write(int file, const void *bytes, size_t count) {
    REAL(write);
    static atomic_size_t passed;
    const char *behind = getenv("FAIL_BEHIND");
    if (file == 2 && behind && memmem(bytes, count, behind, strlen(behind))) atomic_store(&is_behind, 1);
    if (file != 1 || count == 0) return real(file, bytes, count);
    size_t room = getenv("FAIL_ROOM") ? (size_t)number_in("FAIL_ROOM") - atomic_load(&passed) : 0;
    if (room == 0 && fails("write")) return refuse();
    ssize_t wrote = real(file, bytes, room > 0 && room < count ? room : count);
    if (wrote > 0) atomic_fetch_add(&passed, (size_t)wrote);
    return wrote;
}

pid_t waitpid(pid_t child, int *status, int options) {
    REAL(waitpid);
    return fails("waitpid") ? refuse() : real(child, status, options);
}

int pipe2(int ends[2], int flags) {
    REAL(pipe2);
    return fails("pipe2") ? refuse() : real(ends, flags);
}

int open(const char *path, int flags, ...) {
    REAL(open);
    va_list rest;
    va_start(rest, flags);
    int mode = va_arg(rest, int);
    va_end(rest);
    return strcmp(path, "/dev/null") == 0 && fails("open") ? refuse() : real(path, flags, mode);
}

int posix_spawn(pid_t *child, const char *path, const posix_spawn_file_actions_t *actions, const posix_spawnattr_t *attributes, char *const words[], char *const environment[]) {
    REAL(posix_spawn);
    keep_words(words);
    if (fails("posix_spawn")) return number_in("FAIL_HOW");
    char *kept[512];
    int count = 0;
    for (int i = 0; environment[i] && count < 511; i++) {
        if (strncmp(environment[i], "LD_PRELOAD=", 11) != 0) kept[count++] = environment[i];
    }
    kept[count] = NULL;
    return real(child, path, actions, attributes, words, kept);
}

void *malloc(size_t size) {
    REAL(malloc);
    return fails("malloc") ? NULL : real(size);
}

void *realloc(void *old, size_t size) {
    REAL(realloc);
    return fails("malloc") ? NULL : real(old, size);
}

void *aligned_alloc(size_t alignment, size_t size) {
    REAL(aligned_alloc);
    return fails("malloc") ? NULL : real(alignment, size);
}

int posix_memalign(void **out, size_t alignment, size_t size) {
    REAL(posix_memalign);
    return fails("malloc") ? ENOMEM : real(out, alignment, size);
}

typedef struct {
    void *(*begin)(void *);
    void *argument;
} Late;

static void *begin_late(void *given) {
    Late late = *(Late *)given;
    free(given);
    usleep(1000 * number_in("LATE"));
    return late.begin(late.argument);
}

int pthread_create(pthread_t *thread, const pthread_attr_t *attributes, void *(*begin)(void *), void *argument) {
    REAL(pthread_create);
    if (fails("pthread_create")) return number_in("FAIL_HOW");
    Late *late = getenv("LATE") ? calloc(1, sizeof *late) : NULL;
    if (!late) return real(thread, attributes, begin, argument);
    *late = (Late){begin, argument};
    return real(thread, attributes, begin_late, late);
}
