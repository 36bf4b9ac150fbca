/* Runs a program and tells what it took: processor seconds, seconds by the clock, and the most memory in KiB.
   Usage: timed REPORT PROGRAM WORD.. with the program's own standard input and output; ends with its status.
   It is small itself, since a program's most memory counts from before it replaces the one that starts it. */
#define _GNU_SOURCE
#include <stdio.h>
#include <sys/resource.h>
#include <sys/wait.h>
#include <time.h>
#include <unistd.h>

static double now(void)
{
    struct timespec t;
    clock_gettime(CLOCK_MONOTONIC, &t);
    return (double)t.tv_sec + (double)t.tv_nsec / 1e9;
}

static double seconds(struct timeval t)
{
    return (double)t.tv_sec + (double)t.tv_usec / 1e6;
}

int main(int words, char **word)
{
    struct rusage used;
    int status;
    if (words < 3)
        return 2;
    double start = now();
    pid_t child = fork();
    if (child == 0) {
        execv(word[2], word + 2);
        _exit(127);
    }
    if (child < 0 || wait4(child, &status, 0, &used) != child)
        return 126;
    double clock = now() - start;
    FILE *report = fopen(word[1], "w");
    if (!report)
        return 126;
    fprintf(report, "%.6f %.6f %ld\n", seconds(used.ru_utime) + seconds(used.ru_stime), clock, used.ru_maxrss);
    fclose(report);
    return WIFEXITED(status) ? WEXITSTATUS(status) : 125;
}
