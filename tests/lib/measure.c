/* Runs a command on one file after the other and prints what that took: tests/bench builds and calls it.

     measure WORD .. -- FILE ..

   For each FILE it runs WORD .. FILE with no input and no output, and fails if one does not end with status
   0. It prints the sum of their user and system times in microseconds, and the greatest peak memory of one in
   KiB. It is written in C since a process counts the memory of the one that started it as its own until it
   runs its program: this one has next to none. */
#define _GNU_SOURCE
#include <fcntl.h>
#include <stdio.h>
#include <stdlib.h>
#include <string.h>
#include <sys/resource.h>
#include <sys/wait.h>
#include <unistd.h>

static long long microseconds(struct timeval time)
{
    return 1000000LL * time.tv_sec + time.tv_usec;
}

static pid_t start(char **command, int nowhere)
{
    pid_t child = fork();
    if (child == 0) {
        dup2(nowhere, 0);
        dup2(nowhere, 1);
        dup2(nowhere, 2);
        execvp(command[0], command);
        _exit(127);
    }
    return child;
}

int main(int count, char **words)
{
    long long busy = 0;
    long peak = 0;
    int end = 1, nowhere = open("/dev/null", O_RDWR | O_CLOEXEC);
    while (end < count && strcmp(words[end], "--") != 0)
        end++;
    char **command = calloc((size_t)end + 1, sizeof *command);
    if (!command || nowhere < 0 || end < 2 || end + 1 >= count) {
        fprintf(stderr, "measure: WORD .. -- FILE ..\n");
        return 2;
    }
    memcpy(command, words + 1, (size_t)(end - 1) * sizeof *command);
    for (int at = end + 1; at < count; at++) {
        struct rusage used;
        int status;
        command[end - 1] = words[at];
        pid_t child = start(command, nowhere);
        if (child < 0 || wait4(child, &status, 0, &used) != child)
            return 2;
        if (!WIFEXITED(status) || WEXITSTATUS(status) != 0) {
            fprintf(stderr, "measure: %s .. %s: status %d\n", words[1], words[at], status);
            return 1;
        }
        busy += microseconds(used.ru_utime) + microseconds(used.ru_stime);
        if (used.ru_maxrss > peak)
            peak = used.ru_maxrss;
    }
    printf("%lld %ld\n", busy, peak);
    return 0;
}
