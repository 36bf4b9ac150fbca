/* Sends the lines of a script one at a time, each when the reply before it is there, and tells how long the replies took.
   Usage: pauses REPORT PROGRAM WORD.. <SCRIPT; each line has one line of reply. A get that isn't counted comes first.
   The report: commands, then microseconds of the median, of 99 in 100, of the greatest and of all together, then processor
   seconds of the program and the most memory in KiB. */
#define _GNU_SOURCE
#include <stdio.h>
#include <stdlib.h>
#include <string.h>
#include <sys/resource.h>
#include <sys/wait.h>
#include <time.h>
#include <unistd.h>

static int to_program, from_program;

static double microseconds(void)
{
    struct timespec t;
    clock_gettime(CLOCK_MONOTONIC, &t);
    return (double)t.tv_sec * 1e6 + (double)t.tv_nsec / 1e3;
}

static pid_t start(char **words)
{
    int there[2], back[2];
    if (pipe2(there, 0) || pipe2(back, 0))
        exit(126);
    pid_t child = fork();
    if (child == 0) {
        dup2(there[0], 0);
        dup2(back[1], 1);
        close(there[0]), close(there[1]), close(back[0]), close(back[1]);
        execv(words[0], words);
        _exit(127);
    }
    close(there[0]), close(back[1]);
    to_program = there[1], from_program = back[0];
    return child;
}

/* How long the reply to this line took. */
static double asked(const char *line, size_t count)
{
    char reply[4096];
    ssize_t got;
    double from = microseconds();
    if (write(to_program, line, count) != (ssize_t)count)
        exit(125);
    do {
        got = read(from_program, reply, sizeof reply);
        if (got <= 0)
            exit(125);
    } while (reply[got - 1] != '\n');
    return microseconds() - from;
}

static int by_length(const void *first, const void *second)
{
    double a = *(const double *)first, b = *(const double *)second;
    return (a > b) - (a < b);
}

int main(int words, char **word)
{
    char line[1024];
    double *took = NULL, all = 0;
    size_t count = 0, room = 0;
    struct rusage used;
    int status;
    if (words < 3)
        return 2;
    pid_t child = start(word + 2);
    asked("get a\n", 6); /* the program has opened then */
    for (; fgets(line, sizeof line, stdin); count++) {
        if (count == room)
            took = realloc(took, (room = room ? 2 * room : 4096) * sizeof *took);
        all += took[count] = asked(line, strlen(line));
    }
    close(to_program);
    FILE *report = fopen(word[1], "w");
    if (!report || !count || wait4(child, &status, 0, &used) != child)
        return 126;
    qsort(took, count, sizeof *took, by_length);
    double seconds = (double)(used.ru_utime.tv_sec + used.ru_stime.tv_sec);
    seconds += (double)(used.ru_utime.tv_usec + used.ru_stime.tv_usec) / 1e6;
    fprintf(report, "%zu %.3f %.3f %.3f %.3f ", count, took[count / 2], took[count * 99 / 100], took[count - 1], all);
    fprintf(report, "%.6f %ld\n", seconds, used.ru_maxrss);
    fclose(report);
    return WIFEXITED(status) ? WEXITSTATUS(status) : 125;
}
