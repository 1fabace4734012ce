/* A program of a run that is broken off: `note FILE HOST MILLISECONDS FAILING..` adds to FILE that it began, rests, and adds that it ended; or that it failed, if its host is one of
   FAILING and no file FILE.HOST is there. The first time that it ends on a host it says `changed`. `note FILE HOST restart` adds that the host was restarted. Each line is added in one
   piece, so that their order is that of what happened. If KILL_AT is such a line, `began HOST` say, who started the program is killed behind it; with KILL_ALL its whole group. */
#define _GNU_SOURCE
#include <fcntl.h>
#include <signal.h>
#include <stdio.h>
#include <stdlib.h>
#include <string.h>
#include <unistd.h>

static const char *file, *host;

static void note(const char *word) {
    char line[400];
    int size = snprintf(line, sizeof line, "%s %s", word, host);
    const char *chosen = getenv("KILL_AT");
    int is_chosen = chosen && !strcmp(chosen, line);
    line[size++] = '\n';
    int to = open(file, O_WRONLY | O_CREAT | O_APPEND, 0600);
    if (to < 0 || write(to, line, size) != size)
        abort();
    close(to);
    if (is_chosen)
        kill(getenv("KILL_ALL") ? 0 : getppid(), SIGKILL);
}

static int fails(int count, char **names) {
    char mended[4096];
    snprintf(mended, sizeof mended, "%s.%s", file, host);
    for (int i = 0; i < count; i++)
        if (!strcmp(names[i], host))
            return access(mended, F_OK) != 0;
    return 0;
}

/* A file FILE.HOST.changed says that the host was changed before. */
static int is_first(void) {
    char changed[4096];
    snprintf(changed, sizeof changed, "%s.%s.changed", file, host);
    return open(changed, O_WRONLY | O_CREAT | O_EXCL, 0600) >= 0;
}

int main(int count, char **words) {
    if (count < 4)
        return 2;
    file = words[1];
    host = words[2];
    if (!strcmp(words[3], "restart")) {
        note("restarted");
        return 0;
    }
    note("began");
    usleep(1000 * atoi(words[3]));
    if (fails(count - 4, words + 4)) {
        note("failed");
        return 1;
    }
    note("ended");
    if (is_first())
        puts("changed");
    return 0;
}
