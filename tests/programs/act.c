/* Does one thing after the other, as its words say, and ends with 0: what a program may do to the one that started it.

   out N, err N       writes N bytes there: letters that go round, so that a byte that is lost, doubled or moved shows
   both N             N bytes to each, a piece to one and a piece to the other
   text T, says T     the text T to standard output, or to standard error
   close N            closes a descriptor
   rest MS            waits
   raise N            is ended by this signal, or stopped by it
   ignore             is not ended where nobody reads what it writes: a write fails, and ends it with 7
   deaf               the same, but a write that fails is passed over
   child              what follows is done by a child, up to `meanwhile`; this program goes on behind that
   alone              the same, the child in a session of its own and with no output
   session            goes on in a session of its own
   heirs N            what follows is done by a child, and this program ends; so N times
   line N             the same, but each stays for a while, with what it has open
   orphan             waits until the program of which this is the child has ended
   dots FD MS         writes a dot there each MS milliseconds, until nobody reads
   flood FD           writes dots there without a rest, until nobody reads
   stopped            is stopped, and isn't made to go on
   continue           makes the program of which this is the child go on
   adds FILE TEXT     adds the line TEXT to a file, in one piece
   exit N             ends with N
   is N TEXT          ends with 1 where TEXT isn't the first N bytes that `out` writes, of which 65,536 are kept
   among N TEXT       the same of TEXT without its dots
   opens N            opens the null device N times
   becomes WORD..     is the program of these words from now on
   open               writes which descriptors it has
   signals            writes which signals it was started to ignore or to hold back

   Where NUMBERS is set, the process and all that come of it add their numbers to the file of that name: some stay for a while. */
#define _GNU_SOURCE
#include <errno.h>
#include <fcntl.h>
#include <signal.h>
#include <stdio.h>
#include <stdlib.h>
#include <string.h>
#include <sys/wait.h>
#include <time.h>
#include <unistd.h>

static int deaf = 0;

static void put(int file, const char *bytes, size_t count) {
    while (count > 0) {
        ssize_t wrote = write(file, bytes, count);
        if (wrote < 0 && errno == EINTR) continue;
        if (wrote < 0 && deaf) return;
        if (wrote < 0) _exit(7);
        bytes += wrote;
        count -= (size_t)wrote;
    }
}

/* The byte at this place, of letters that go round in 23 and are one behind in each round. */
static char letter(long place) {
    return (char)('a' + (place + place / 23) % 26);
}

static void put_letters(int file, long from, long count) {
    static char piece[4096];
    while (count > 0) {
        long part = count < (long)sizeof piece ? count : (long)sizeof piece;
        for (long i = 0; i < part; i++) piece[i] = letter(from + i);
        put(file, piece, (size_t)part);
        from += part;
        count -= part;
    }
}

static void rest(long milliseconds) {
    struct timespec left = { milliseconds / 1000, milliseconds % 1000 * 1000000 };
    while (nanosleep(&left, &left) != 0 && errno == EINTR) {}
}

/* Whether this text, its dots left out where they may be in it, is the first letters, as many as are kept. */
static int is_letters(const char *text, long count, int dots) {
    long place = 0;
    for (; *text; text++) {
        if (dots && *text == '.') continue;
        if (*text != letter(place)) return 0;
        place++;
    }
    return place == (count < 65536 ? count : 65536);
}

static void put_dots(int file, long milliseconds) {
    for (;;) {
        put(file, ".", 1);
        rest(milliseconds);
    }
}

static void put_flood(int file) {
    char piece[4096];
    memset(piece, '.', sizeof piece);
    for (;;) put(file, piece, sizeof piece);
}

/* Writes this process down. Whatever becomes of it, in two minutes it ends. */
static void note(void) {
    char number[32];
    const char *path = getenv("NUMBERS");
    int file = path ? open(path, O_WRONLY | O_CREAT | O_APPEND | O_CLOEXEC, 0666) : -1;
    if (file >= 0) {
        put(file, number, (size_t)sprintf(number, "%d\n", (int)getpid()));
        close(file);
    }
    alarm(120);
}

/* Adds a line to a file, which is made where it isn't there. The lines of several programs stand one behind the other, in the order of time. */
static void add_line(const char *path, const char *text) {
    char line[512];
    int size = snprintf(line, sizeof line, "%s\n", text), file = open(path, O_WRONLY | O_CREAT | O_APPEND | O_CLOEXEC, 0666);
    if (size < 0 || size >= (int)sizeof line || file < 0 || write(file, line, (size_t)size) != size) _exit(8);
    close(file);
}

static pid_t maker;

/* A child, which knows of which process it is one. */
static pid_t split(void) {
    pid_t of = getpid(), child = fork();
    if (child < 0) _exit(8);
    if (child == 0) {
        maker = of;
        note();
    }
    return child;
}

/* What follows is done by a child, or a child of that, and so on. */
static void hand_on(long times, long milliseconds) {
    while (times-- > 0) {
        if (split() == 0) continue;
        rest(milliseconds);
        _exit(0);
    }
}

static void show_open(void) {
    for (int file = 0; file < 1024; file++) {
        if (fcntl(file, F_GETFD) >= 0) dprintf(1, "%d ", file);
    }
}

static void show_signals(void) {
    sigset_t held;
    sigprocmask(SIG_BLOCK, NULL, &held);
    for (int number = 1; number < 32; number++) {
        struct sigaction now;
        if (sigaction(number, NULL, &now) == 0 && now.sa_handler == SIG_IGN) dprintf(1, "ignores %d ", number);
        if (sigismember(&held, number) == 1) dprintf(1, "holds %d ", number);
    }
}

int main(int count, char **words) {
    long out = 0, err = 0;
    note();
    for (int i = 1; i < count; i++) {
        const char *word = words[i];
        const char *next = i + 1 < count ? words[i + 1] : "";
        long number = atol(next);
        if (strcmp(word, "out") == 0) { put_letters(1, out, number); out += number; i++; }
        else if (strcmp(word, "err") == 0) { put_letters(2, err, number); err += number; i++; }
        else if (strcmp(word, "both") == 0) {
            for (long left = number; left > 0;) {
                long part = left < 1000 ? left : 1000;
                put_letters(1, out, part);
                put_letters(2, err, part);
                out += part;
                err += part;
                left -= part;
            }
            i++;
        }
        else if (strcmp(word, "text") == 0) { put(1, next, strlen(next)); i++; }
        else if (strcmp(word, "says") == 0) { put(2, next, strlen(next)); i++; }
        else if (strcmp(word, "close") == 0) { close((int)number); i++; }
        else if (strcmp(word, "rest") == 0) { rest(number); i++; }
        else if (strcmp(word, "raise") == 0) { raise((int)number); i++; }
        else if (strcmp(word, "ignore") == 0) { signal(SIGPIPE, SIG_IGN); deaf = 0; }
        else if (strcmp(word, "deaf") == 0) { signal(SIGPIPE, SIG_IGN); deaf = 1; }
        else if (strcmp(word, "adds") == 0) { add_line(next, i + 2 < count ? words[i + 2] : ""); i += 2; }
        else if (strcmp(word, "exit") == 0) return (int)number;
        else if (strcmp(word, "opens") == 0) {
            while (number-- > 0) {
                if (open("/dev/null", O_RDWR) < 0) return 8;
            }
            i++;
        }
        else if (strcmp(word, "becomes") == 0) { alarm(0); execvp(words[i + 1], words + i + 1); return 8; }
        else if (strcmp(word, "open") == 0) show_open();
        else if (strcmp(word, "signals") == 0) show_signals();
        else if (strcmp(word, "child") == 0 || strcmp(word, "alone") == 0) {
            if (split() > 0) {
                while (i < count && strcmp(words[i], "meanwhile") != 0) i++;
            } else if (strcmp(word, "alone") == 0) {
                setsid();
                int nothing = open("/dev/null", O_RDWR);
                dup2(nothing, 0);
                dup2(nothing, 1);
                dup2(nothing, 2);
            }
        }
        else if (strcmp(word, "meanwhile") == 0) return 0;
        else if (strcmp(word, "session") == 0) setsid();
        else if (strcmp(word, "heirs") == 0) { hand_on(number, 0); i++; }
        else if (strcmp(word, "line") == 0) { hand_on(number, 60000); i++; }
        else if (strcmp(word, "orphan") == 0) { while (getppid() == maker) rest(1); }
        else if (strcmp(word, "dots") == 0) { put_dots((int)number, i + 2 < count ? atol(words[i + 2]) : 0); }
        else if (strcmp(word, "flood") == 0) put_flood((int)number);
        else if (strcmp(word, "stopped") == 0) raise(SIGSTOP);
        else if (strcmp(word, "is") == 0 || strcmp(word, "among") == 0) {
            const char *text = i + 2 < count ? words[i + 2] : "";
            if (!is_letters(text, number, strcmp(word, "among") == 0)) return 1;
            i += 2;
        }
        else if (strcmp(word, "continue") == 0) kill(getppid(), SIGCONT);
        else { dprintf(2, "what is %s?\n", word); return 9; }
    }
    return 0;
}
