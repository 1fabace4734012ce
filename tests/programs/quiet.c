/* Gives `run` the option --quiet. It is linked statically, so that what is preloaded begins with the program itself. */
#include <string.h>
#include <unistd.h>

int main(int argc, char **argv) {
    char *words[argc + 2];
    int count = 0;
    for (int at = 0; at < argc; at++) {
        words[count++] = argv[at];
        if (at == 1 && strcmp(argv[at], "run") == 0) words[count++] = "--quiet";
    }
    words[count] = 0;
    execv(PROGRAM, words);
    return 126;
}
