// Runs a command and tells what it took: timed SECONDS STDIN COMMAND ..
// Prints `STATUS NANOSECONDS KILOBYTES MICROSECONDS`: the exit status, or 1000 and the signal's number, or `over` when it was
// killed at the limit; the time by the clock from before the fork to after the wait; the peak of resident memory; the time of
// processor. What the command prints is thrown away.
// It is a program of its own since the peak counts what the process was before exec: forked off Python, that is Python's.
#define _GNU_SOURCE
#include <fcntl.h>
#include <signal.h>
#include <stdio.h>
#include <stdlib.h>
#include <sys/resource.h>
#include <sys/wait.h>
#include <time.h>
#include <unistd.h>

int main(int count, char **words) {
    if (count < 4) return 2;
    sigset_t set;
    sigemptyset(&set);
    sigaddset(&set, SIGCHLD);
    sigprocmask(SIG_BLOCK, &set, NULL);
    struct timespec start, end, limit = {atol(words[1]), 0};
    clock_gettime(CLOCK_MONOTONIC, &start);
    pid_t child = fork();
    if (child < 0) return 2;
    if (child == 0) {
        sigprocmask(SIG_UNBLOCK, &set, NULL);
        int in = open(words[2], O_RDONLY), out = open("/dev/null", O_WRONLY);
        if (in < 0 || out < 0) _exit(126);
        dup2(in, 0);
        dup2(out, 1);
        dup2(out, 2);
        execvp(words[3], words + 3);
        _exit(127);
    }
    int over = sigtimedwait(&set, NULL, &limit) < 0;
    if (over) kill(child, SIGKILL);
    int status;
    struct rusage used;
    if (wait4(child, &status, 0, &used) < 0) return 2;
    clock_gettime(CLOCK_MONOTONIC, &end);
    if (over)
        printf("over");
    else
        printf("%d", WIFSIGNALED(status) ? 1000 + WTERMSIG(status) : WEXITSTATUS(status));
    printf(" %lld %ld %lld\n", (end.tv_sec - start.tv_sec) * 1000000000LL + (end.tv_nsec - start.tv_nsec), used.ru_maxrss,
           (used.ru_utime.tv_sec + used.ru_stime.tv_sec) * 1000000LL + used.ru_utime.tv_usec + used.ru_stime.tv_usec);
    return 0;
}
