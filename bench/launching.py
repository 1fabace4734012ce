"""A small program that starts another one and tells what that took."""
import os
import subprocess

# What wait4 tells of a child's memory is at least the size of the process that made it: this one is small.
LAUNCH = """\
#include <stdio.h>
#include <stdlib.h>
#include <sys/resource.h>
#include <sys/wait.h>
#include <unistd.h>

int main(int count, char **words) {
    struct rusage used;
    int how;
    if (count < 2) return 97;
    pid_t child = fork();
    if (child == 0) {
        freopen("/dev/null", "w", stdout);
        freopen("/dev/null", "w", stderr);
        execv(words[1], words + 1);
        _exit(97);
    }
    wait4(child, &how, 0, &used);
    printf("%ld %ld %d\\n", (used.ru_utime.tv_sec + used.ru_stime.tv_sec) * 1000000 + used.ru_utime.tv_usec + used.ru_stime.tv_usec, used.ru_maxrss,
           WIFSIGNALED(how) ? -WTERMSIG(how) : WEXITSTATUS(how));
}
"""


def launcher(folder):
    """The program, made in a folder. It runs its words with both outputs thrown away, and prints microseconds of processor time, the greatest resident size in KiB of a process among
    those that were waited for, and the status, which is that of a signal below 0."""
    path = os.path.join(folder, "launch")
    with open(path + ".c", "w") as file:
        file.write(LAUNCH)
    subprocess.run(["cc", "-O1", "-o", path, path + ".c"], check=True)
    return path
