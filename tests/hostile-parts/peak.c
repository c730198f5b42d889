// Runs a command to its end, at most so many seconds: peak SECONDS FILE PROGRAM WORD..
// FILE gets the seconds and the kilobytes that it had at most. The exit status is the command's, or 200 where a signal ended it, or 201
// where its time was over.
#define _GNU_SOURCE
#include <signal.h>
#include <stdio.h>
#include <stdlib.h>
#include <sys/resource.h>
#include <sys/wait.h>
#include <unistd.h>

static pid_t child;
static int is_over;

static void end_it(int number) {
    (void)number;
    is_over = 1;
    kill(child, SIGKILL);
}

int main(int count, char **words) {
    int status;
    struct rusage usage;
    if (count < 4) return 2;
    child = fork();
    if (child < 0) return 2;
    if (!child) {
        execv(words[3], words + 3);
        _exit(127);
    }
    signal(SIGALRM, end_it);
    alarm(atoi(words[1]));
    while (wait4(child, &status, 0, &usage) != child) {}
    FILE *file = fopen(words[2], "w");
    if (!file) return 2;
    fprintf(file, "%.2f %ld\n", usage.ru_utime.tv_sec + usage.ru_stime.tv_sec + (usage.ru_utime.tv_usec + usage.ru_stime.tv_usec) / 1e6,
            usage.ru_maxrss);
    fclose(file);
    return is_over ? 201 : WIFEXITED(status) ? WEXITSTATUS(status) : 200;
}
