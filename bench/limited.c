#define _DEFAULT_SOURCE
#include "limited.h"
#include <fcntl.h>
#include <math.h>
#include <signal.h>
#include <stdio.h>
#include <stdlib.h>
#include <sys/resource.h>
#include <sys/time.h>
#include <sys/wait.h>
#include <time.h>
#include <unistd.h>

static void fail(const char *what) {
    perror(what);
    exit(2);
}

/* ---- Processes ---- */

/* A process with a pipe between it and this one, whose ends are `ends`. In the new process it
   answers 0. The timer counts processor time, and outlives a call of exec. */
static pid_t start(int ends[2], unsigned limit_seconds) {
    struct itimerval timer = {{0, 0}, {(time_t)limit_seconds, 0}};
    if (pipe(ends) != 0)
        fail("pipe");
    pid_t child = fork();
    if (child < 0)
        fail("fork");
    if (child == 0)
        setitimer(ITIMER_PROF, &timer, NULL);
    return child;
}

/* Waits for a process: true where it ended well, false where its timer ended it. */
static bool ended(pid_t child, struct rusage *used) {
    int status;
    if (wait4(child, &status, 0, used) != child)
        fail("wait");
    bool stopped = WIFSIGNALED(status) && WTERMSIG(status) == SIGPROF;
    if (!stopped && (!WIFEXITED(status) || WEXITSTATUS(status) != 0)) {
        fprintf(stderr, "limited: planning broke off with status %d\n", status);
        exit(2);
    }
    return !stopped;
}

/* ---- A call ---- */

/* The thread's time: that of a process with a timer is known to a few milliseconds only. */
static double now(void) {
    struct timespec t;
    clock_gettime(CLOCK_THREAD_CPUTIME_ID, &t);
    return (double)t.tv_sec + (double)t.tv_nsec / 1e9;
}

static limited_plan plan_often(plan_entry *plan, const uint8_t *text, size_t text_len,
                               size_t repetitions) {
    static uint8_t table[TOWHEPAMU_MOST_TABLE_BYTES];
    limited_plan result = {INFINITY, {0, 0, 0, 0, 0}, {0}};
    for (size_t r = 0; r < repetitions && (r == 0 || result.seconds < 0.1); r++) {
        double began = now();
        result.answer = plan(text, text_len, result.plan, MOST_TASKS, table, sizeof table);
        double took = now() - began;
        result.seconds = took < result.seconds ? took : result.seconds;
    }
    return result;
}

limited_plan plan_limited(plan_entry *plan, const uint8_t *text, size_t text_len,
                          size_t repetitions, unsigned limit_seconds) {
    limited_plan result = {INFINITY, {0, 0, 0, 0, 0}, {0}};
    int ends[2];
    struct rusage used;
    pid_t child = start(ends, limit_seconds);
    if (child == 0) {
        result = plan_often(plan, text, text_len, repetitions);
        _exit(write(ends[1], &result, sizeof result) == sizeof result ? 0 : 1);
    }
    if (ended(child, &used) && read(ends[0], &result, sizeof result) != sizeof result)
        fail("read");
    close(ends[0]);
    close(ends[1]);
    return result;
}

/* ---- A command ---- */

static double seconds(struct timeval t) {
    return (double)t.tv_sec + (double)t.tv_usec / 1e6;
}

/* A site file is short enough for a pipe to hold it whole. */
double run_limited(char *const *command, const uint8_t *text, size_t text_len,
                   unsigned limit_seconds) {
    int ends[2];
    struct rusage used;
    pid_t child = start(ends, limit_seconds);
    if (child == 0) {
        dup2(ends[0], STDIN_FILENO);
        dup2(open("/dev/null", O_WRONLY), STDOUT_FILENO);
        close(ends[0]);
        close(ends[1]);
        execvp(command[0], command);
        _exit(127);
    }
    close(ends[0]);
    if (write(ends[1], text, text_len) != (ssize_t)text_len)
        fail("write");
    close(ends[1]);
    return ended(child, &used) ? seconds(used.ru_utime) + seconds(used.ru_stime) : INFINITY;
}
