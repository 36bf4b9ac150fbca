/* Processor time of the program's commands, beside a loop of the same system calls.
   Usage: bench PROGRAM FOLDER COMMANDS

   The folder should be in memory, so that no disk is waited for. A store of one segment is filled with 60 records; each
   kind of command is then run COMMANDS times from a script, with the replies to /dev/null. What a run without commands
   takes is subtracted, and the least of three runs counts. */
#define _GNU_SOURCE
#include <fcntl.h>
#include <limits.h>
#include <stdio.h>
#include <stdlib.h>
#include <string.h>
#include <sys/resource.h>
#include <sys/wait.h>
#include <unistd.h>

enum { RECORDS = 60, PAGE = 4096, RUNS = 3 };

static const char *program, *store, *script;
static long commands;

static void want(int holds, const char *what)
{
    if (!holds) {
        perror(what);
        exit(1);
    }
}

static double seconds(struct timeval t)
{
    return t.tv_sec + t.tv_usec / 1e6;
}

/* The processor time of the program on these words, with the script as its input. */
static double run_program(const char *word, const char *height)
{
    pid_t child = fork();
    want(child >= 0, "fork");
    if (child == 0) {
        int in = open(script, O_RDONLY), out = open("/dev/null", O_WRONLY);
        want(in >= 0 && out >= 0, "open");
        dup2(in, 0);
        dup2(out, 1);
        execl(program, program, word, store, height, (char *)NULL);
        perror(program);
        _exit(127);
    }
    int status;
    struct rusage used;
    want(wait4(child, &status, 0, &used) == child, "wait4");
    if (!WIFEXITED(status) || WEXITSTATUS(status) != 0) {
        fprintf(stderr, "%s %s: status %d\n", program, word, WEXITSTATUS(status));
        exit(1);
    }
    return seconds(used.ru_utime) + seconds(used.ru_stime);
}

static double least_run(void)
{
    double least = run_program("run", NULL);
    for (int i = 1; i < RUNS; i++) {
        double time = run_program("run", NULL);
        if (time < least)
            least = time;
    }
    return least;
}

/* A script of that many lines: `first` and `second` by turns, each with the number of a record. */
static void write_script(const char *first, const char *second, long lines)
{
    FILE *file = fopen(script, "w");
    want(file != NULL, script);
    for (long i = 0; i < lines; i++) {
        fprintf(file, i % 2 == 0 ? first : second, (int)(i / 2 * 7 % RECORDS));
        fputc('\n', file);
    }
    want(fclose(file) == 0, script);
}

/* The calls of a get: the segment is read, and one reply is written. */
static void call_get(int file, int out, char *page)
{
    want(pread(file, page, PAGE, 8192) == PAGE, "pread");
    want(write(out, "found value-00\n", 15) == 15, "write");
}

/* The calls of an update: the segment goes through the journal, with a sync behind each of four steps. */
static void call_put(int file, int out, char *page)
{
    want(pread(file, page, PAGE, 8192) == PAGE, "pread");
    want(pwrite(file, page, 2, 1024) == 2, "pwrite");
    want(pwrite(file, page, PAGE, 4096) == PAGE, "pwrite");
    want(fdatasync(file) == 0, "fdatasync");
    want(pwrite(file, page, 4, 512) == 4, "pwrite");
    want(fdatasync(file) == 0, "fdatasync");
    want(pwrite(file, page, PAGE, 8192) == PAGE, "pwrite");
    want(fdatasync(file) == 0, "fdatasync");
    want(pwrite(file, page, 4, 512) == 4, "pwrite");
    want(fdatasync(file) == 0, "fdatasync");
    want(write(out, "replaced\n", 9) == 9, "write");
}

static double own_time(void)
{
    struct rusage used;
    want(getrusage(RUSAGE_SELF, &used) == 0, "getrusage");
    return seconds(used.ru_utime) + seconds(used.ru_stime);
}

/* The processor time of the calls alone, over a file of four pages beside the store. */
static double least_loop(const char *folder, void (*calls)(int, int, char *))
{
    char name[PATH_MAX], page[4 * PAGE] = {0};
    snprintf(name, sizeof name, "%s/pages", folder);
    int file = open(name, O_RDWR | O_CREAT | O_TRUNC, 0600), out = open("/dev/null", O_WRONLY);
    want(file >= 0 && out >= 0, "open");
    want(write(file, page, sizeof page) == (long)sizeof page, "write");
    double least = 1e9;
    for (int i = 0; i < RUNS; i++) {
        double begin = own_time();
        for (long n = 0; n < commands; n++)
            calls(file, out, page);
        double time = own_time() - begin;
        if (time < least)
            least = time;
    }
    close(file);
    close(out);
    unlink(name);
    return least;
}

static void print_line(const char *what, double time, double loop)
{
    printf("%-30s %9.2f us %9.2f us %7.1f\n", what, time / commands * 1e6, loop / commands * 1e6, time / loop);
}

int main(int argc, char **argv)
{
    if (argc != 4) {
        fprintf(stderr, "usage: bench PROGRAM FOLDER COMMANDS\n");
        return 2;
    }
    char names[2][PATH_MAX];
    program = argv[1];
    commands = atol(argv[3]);
    snprintf(names[0], sizeof names[0], "%s/store.pma", argv[2]);
    snprintf(names[1], sizeof names[1], "%s/script", argv[2]);
    store = names[0];
    script = names[1];
    write_script("", "", 0);
    run_program("create", "0");
    write_script("put key-%02d value-of-some-bytes", "# %d", 2 * RECORDS);
    run_program("run", NULL);
    write_script("", "", 0);
    double empty = least_run();
    double get = least_loop(argv[2], call_get), put = least_loop(argv[2], call_put);

    static const struct {
        const char *what, *first, *second;
        int writes;
    } kinds[] = {
        {"get of a present key", "get key-%02d", "get key-%02d", 0},
        {"get of an absent key", "get kez-%02d", "get kez-%02d", 0},
        {"put of a present key", "put key-%02d value-of-other-bytes", "put key-%02d value-of-some-bytes", 1},
        {"put of an absent key, removal", "put kez-%02d value", "remove kez-%02d", 1},
    };
    printf("%-30s %12s %12s %7s\n", "command", "program", "calls alone", "times");
    for (size_t k = 0; k < sizeof kinds / sizeof *kinds; k++) {
        write_script(kinds[k].first, kinds[k].second, commands);
        print_line(kinds[k].what, least_run() - empty, kinds[k].writes ? put : get);
    }
    return 0;
}
