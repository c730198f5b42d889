#define _GNU_SOURCE
#include "child.h"
#include <fcntl.h>
#include <poll.h>
#include <signal.h>
#include <stdio.h>
#include <stdlib.h>
#include <string.h>
#include <sys/resource.h>
#include <sys/wait.h>
#include <time.h>
#include <unistd.h>

enum { WAITS = 12 };

void stop(const char *why) {
    perror(why);
    exit(2);
}

int is_text(const struct text *text, const char *bytes, size_t length) {
    return text->length == length && !memcmp(text->bytes, bytes, length);
}

static double now(void) {
    struct timespec time;
    clock_gettime(CLOCK_MONOTONIC, &time);
    return time.tv_sec + time.tv_nsec / 1e9;
}

// Reads what is there. Answers whether there may be more.
static int take(int file, struct text *text) {
    if (text->room - text->length < 65536) {
        text->room = text->room * 2 + 65536;
        text->bytes = realloc(text->bytes, text->room);
        if (!text->bytes) stop("memory");
    }
    ssize_t count = read(file, text->bytes + text->length, text->room - text->length);
    if (count > 0) text->length += count;
    return count > 0;
}

void load(const char *path, struct text *text) {
    int file = open(path, O_RDONLY);
    if (file < 0) stop(path);
    text->length = 0;
    while (take(file, text)) {}
    close(file);
}

static void become(char *const words[], char *const settings[], int seconds, int out, int err) {
    struct rlimit time = {seconds, seconds};
    const char *input = getenv("INPUT");
    int from = open(input ? input : "/dev/null", O_RDONLY);
    setrlimit(RLIMIT_CPU, &time);
    for (; *settings; settings++) putenv(*settings);
    dup2(from, 0);
    dup2(out, 1);
    dup2(err, 2);
    execv(words[0], words);
    _exit(127);
}

// Reads both outputs to their ends. Answers whether these came in time.
static int listen(int out, int err, double due, struct ended *ended) {
    struct pollfd files[2] = {{out, POLLIN, 0}, {err, POLLIN, 0}};
    while (files[0].fd >= 0 || files[1].fd >= 0) {
        double left = due - now();
        if (left <= 0 || poll(files, 2, left * 1000 + 1) < 0) return 0;
        for (int k = 0; k < 2; k++)
            if (files[k].fd >= 0 && files[k].revents && !take(files[k].fd, k ? &ended->err : &ended->out)) files[k].fd = -1;
    }
    return 1;
}

void run(char *const words[], char *const settings[], int seconds, struct ended *ended) {
    int out[2], err[2], status;
    struct rusage usage;
    ended->out.length = ended->err.length = 0;
    if (pipe2(out, O_CLOEXEC) || pipe2(err, O_CLOEXEC)) stop("pipe");
    pid_t child = fork();
    if (child < 0) stop("fork");
    if (!child) become(words, settings, seconds, out[1], err[1]);
    close(out[1]);
    close(err[1]);
    int in_time = listen(out[0], err[0], now() + WAITS * seconds, ended);
    if (!in_time) kill(child, SIGKILL);
    close(out[0]);
    close(err[0]);
    if (wait4(child, &status, 0, &usage) != child) stop("wait");
    ended->kilobytes = usage.ru_maxrss;
    if (WIFSIGNALED(status) && (WTERMSIG(status) == SIGXCPU || WTERMSIG(status) == SIGKILL)) in_time = 0;
    ended->status = !in_time ? OVERDUE : WIFEXITED(status) ? WEXITSTATUS(status) : 256 + WTERMSIG(status);
}
