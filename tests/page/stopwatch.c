/* A shell for make that appends a line to the file $STOPWATCH for each command: when it began and ended, in microseconds, and the
   command. /bin/sh runs the command. */
#define _GNU_SOURCE
#include <stdio.h>
#include <stdlib.h>
#include <fcntl.h>
#include <sys/wait.h>
#include <time.h>
#include <unistd.h>

static long long now(void) {
    struct timespec time;
    clock_gettime(CLOCK_REALTIME, &time);
    return time.tv_sec * 1000000LL + time.tv_nsec / 1000;
}

int main(int argc, char **argv) {
    long long began = now();
    char line[4096];
    int status = 0, file, length;
    pid_t child = fork();
    if (child < 0)
        return 127;
    if (child == 0) {
        execv("/bin/sh", argv);
        _exit(127);
    }
    while (waitpid(child, &status, 0) < 0)
        ;
    length = snprintf(line, sizeof line - 1, "%lld %lld %s", began, now(), argc > 1 ? argv[argc - 1] : "");
    if (length > (int)sizeof line - 2)
        length = sizeof line - 2;
    for (int at = 0; at < length; at++)
        if (line[at] == '\n')
            line[at] = ' ';
    line[length++] = '\n';
    /* One write to a file that is appended to isn't mixed with others. */
    file = open(getenv("STOPWATCH"), O_WRONLY | O_APPEND | O_CREAT | O_CLOEXEC, 0644);
    if (file < 0 || write(file, line, length) != length)
        return 126;
    return WIFEXITED(status) ? WEXITSTATUS(status) : 128 + WTERMSIG(status);
}
