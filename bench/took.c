/*
 * Runs a program and writes what it took, from start to end:
 *
 *   took FILE PROGRAM [ARGUMENTS]
 *
 * FILE then has the microseconds of the processor, the system's included, and those of the clock.
 * Ends as the program does.
 */
#define _XOPEN_SOURCE 700
#include <stdio.h>
#include <sys/resource.h>
#include <sys/wait.h>
#include <time.h>
#include <unistd.h>

static double micros(struct timeval t) {
    return (double)t.tv_sec * 1e6 + (double)t.tv_usec;
}

static double now(void) {
    struct timespec t;
    clock_gettime(CLOCK_MONOTONIC, &t);
    return (double)t.tv_sec * 1e6 + (double)t.tv_nsec / 1e3;
}

int main(int argc, char **argv) {
    if (argc < 3)
        return 2;
    double start = now();
    pid_t child = fork();
    if (child == 0) {
        execvp(argv[2], argv + 2);
        _exit(127);
    }
    int status;
    struct rusage used;
    if (child < 0 || waitpid(child, &status, 0) != child)
        return 2;
    double end = now();
    getrusage(RUSAGE_CHILDREN, &used);
    FILE *file = fopen(argv[1], "w");
    if (file == NULL)
        return 2;
    fprintf(file, "%.0f %.0f\n", micros(used.ru_utime) + micros(used.ru_stime), end - start);
    fclose(file);
    return WIFEXITED(status) ? WEXITSTATUS(status) : 1;
}
