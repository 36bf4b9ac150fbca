/* Tries the client on a program: each call, each refusal, deaths, signals and forks. Ends with 1 where an answer isn't the one
   that is due. Usage: test PROGRAM FOLDER SCRIPTS; stores are made in FOLDER, and programs that pretend to be it in SCRIPTS. */
#define _POSIX_C_SOURCE 200809L
#include "pma.h"

#include <errno.h>
#include <fcntl.h>
#include <signal.h>
#include <stdio.h>
#include <stdlib.h>
#include <string.h>
#include <sys/stat.h>
#include <sys/time.h>
#include <sys/wait.h>
#include <time.h>
#include <unistd.h>

static const char *program, *folder, *scripts;
static int wrong;

#define DUE(holds) due((holds), #holds, __LINE__)

static void due(int holds, const char *what, int line)
{
    if (!holds)
        wrong = 1, printf("test.c:%d: not so: %s (errno %d)\n", line, what, errno);
}

/* A name in the folder; the one before it is gone then. */
static const char *named(const char *name)
{
    static char path[4096];
    snprintf(path, sizeof path, "%s/%s", folder, name);
    return path;
}

static pma *opened(const char *name)
{
    pma *store;
    const char *file = named(name);
    if (access(file, F_OK))
        DUE(pma_create(program, file, 6, 0) == PMA_OK);
    DUE(pma_open(&store, program, file) == PMA_OK);
    return store;
}

/* A store on a program of a few shell lines, which is answered as an opening is and then by these. */
static pma_code pretend(pma **store, const char *script)
{
    char path[4096];
    snprintf(path, sizeof path, "%s/pretender", scripts);
    FILE *out = fopen(path, "w");
    fprintf(out, "#!/bin/sh\n%s\n", script);
    fclose(out);
    chmod(path, S_IRWXU);
    close(open(named("pretended"), O_CREAT | O_RDWR, S_IRUSR | S_IWUSR));
    return pma_open(store, path, named("pretended"));
}

/* Sends the program a signal in that many microseconds; the process that does so. */
static pid_t signaler(long run, int number, long microseconds)
{
    fflush(stdout);
    pid_t child = fork();
    if (child == 0) {
        nanosleep(&(struct timespec){0, microseconds * 1000}, NULL);
        _exit(run > 0 && kill((pid_t)run, number));
    }
    return child;
}

static pma_code put(pma *store, const char *key, const char *value)
{
    return pma_put(store, key, strlen(key), value, strlen(value));
}

static int holds(pma *store, const char *key, const char *value)
{
    pma_record record;
    pma_code code = pma_get(store, key, strlen(key), &record);
    if (!value)
        return code == PMA_ABSENT;
    return code == PMA_OK && record.value_size == strlen(value) && !memcmp(record.value, value, record.value_size) &&
           record.key_size == strlen(key) && !memcmp(record.key, key, record.key_size);
}

static void all_bytes_come_back(void)
{
    pma *store = opened("bytes");
    pma_record record;
    unsigned char key[16], value[32];
    for (int first = 0; first < 256; first += 16) {
        for (int n = 0; n < 16; n++)
            key[n] = (unsigned char)(first + n), value[n] = value[n + 16] = (unsigned char)(255 - first - n);
        DUE(pma_put(store, key, 16, value, 32) == PMA_OK);
        DUE(pma_get(store, key, 16, &record) == PMA_OK && record.value_size == 32 && !memcmp(record.value, value, 32));
    }
    DUE(pma_put(store, "empty", 5, NULL, 0) == PMA_OK && holds(store, "empty", ""));
    DUE(pma_remove(store, "empty", 5) == PMA_OK && pma_remove(store, "empty", 5) == PMA_ABSENT && holds(store, "empty", NULL));
    DUE(pma_close(store) == PMA_OK);
}

static void what_is_refused_changes_nothing(void)
{
    char long_text[600];
    pma_record record;
    pma *store = opened("refused");
    memset(long_text, 'k', sizeof long_text);
    DUE(pma_put(store, long_text, 25, "", 0) == PMA_OVERSIZED && pma_put(store, "a", 1, long_text, 33) == PMA_OVERSIZED);
    DUE(pma_put(store, long_text, 600, "", 0) == PMA_OVERSIZED && pma_put(store, "a", 1, long_text, 600) == PMA_OVERSIZED);
    DUE(pma_put(store, "", 0, "", 0) == PMA_OVERSIZED && pma_get(store, long_text, 500, &record) == PMA_OVERSIZED);
    DUE(holds(store, "a", NULL) && pma_cause(store) == PMA_OK && !*pma_line(store));
    DUE(pma_close(store) == PMA_OK);
    DUE(pma_create(program, named("small"), 0, 0) == PMA_OK);
    store = opened("small");
    for (int n = 0; n < 64; n++)
        snprintf(long_text, sizeof long_text, "%d", n), DUE(put(store, long_text, "") == PMA_OK);
    DUE(put(store, "one more", "") == PMA_FULL && put(store, "1", "changed") == PMA_OK);
    DUE(pma_close(store) == PMA_OK);
}

static void batches(void)
{
    pma *store = opened("batches");
    pma_changes made;
    pma_item items[17] = {{PMA_PUT, "a;", 2, "1", 1}, {PMA_PUT, ";", 1, NULL, 0}, {PMA_REMOVE, "old", 3, NULL, 0}};
    DUE(put(store, "old", "x") == PMA_OK && pma_batch(store, items, 3, &made) == PMA_OK);
    DUE(made.stored == 2 && made.replaced == 0 && made.removed == 1 && made.absent == 0);
    DUE(holds(store, "a;", "1") && holds(store, ";", "") && holds(store, "old", NULL));
    DUE(pma_batch(store, items, 0, NULL) == PMA_BAD_BATCH);
    items[2] = items[1];
    DUE(pma_batch(store, items, 3, NULL) == PMA_BAD_BATCH);
    char keys[17][25], value[32] = {'v'};
    for (int n = 0; n < 17; n++) {
        snprintf(keys[n], sizeof keys[n], "%024d", n);
        items[n] = (pma_item){PMA_PUT, keys[n], n < 16 ? 4 + (size_t)n / 8 : 24, value, 2};
        items[n].key = keys[n] + 24 - items[n].key_size;
    }
    DUE(pma_batch(store, items, 17, NULL) == PMA_BAD_BATCH && pma_batch(store, items, 16, &made) == PMA_OK && made.stored == 16);
    for (int n = 0; n < 16; n++)
        items[n].value_size = 32;
    DUE(pma_batch(store, items, 16, NULL) == PMA_OVERSIZED);
    DUE(pma_close(store) == PMA_OK);
}

static pma *asked; /* by what is called for a record */

static int add_up(void *context, const pma_record *record)
{
    int *count = context;
    char key[12];
    snprintf(key, sizeof key, "%04d", *count);
    DUE(record->key_size == 4 && !memcmp(record->key, key, 4) && record->value_size == 0);
    DUE(pma_remove(asked, "0001", 4) == PMA_BUSY);
    return ++*count == 700;
}

static void ranges(void)
{
    char key[12];
    int count = 0;
    pma *store = asked = opened("ranges");
    for (int n = 0; n < 1000; n++)
        snprintf(key, sizeof key, "%04d", n), DUE(put(store, key, "") == PMA_OK);
    DUE(pma_range(store, NULL, 0, "0500", 4, PMA_ALL, add_up, &count) == PMA_OK && count == 500);
    DUE(pma_range(store, "0500", 4, NULL, 0, 100, add_up, &count) == PMA_OK && count == 600);
    DUE(pma_range(store, "0600", 4, NULL, 0, PMA_ALL, add_up, &count) == PMA_OK && count == 700); /* it had enough there */
    DUE(pma_range(store, "*", 1, "*", 1, PMA_ALL, add_up, &count) == PMA_OK && count == 700);
    DUE(pma_range(store, "", 0, NULL, 0, 1, add_up, &count) == PMA_OVERSIZED && holds(store, "0001", ""));
    DUE(pma_close(store) == PMA_OK);
}

static void cursors(void)
{
    pma_cursor cursor[17];
    pma_record record;
    pma *store = opened("cursors");
    DUE(put(store, "a", "1") == PMA_OK && put(store, "b", "2") == PMA_OK && put(store, "c", "3") == PMA_OK);
    DUE(pma_cursor_open(store, NULL, 0, "c", 1, &cursor[0]) == PMA_OK);
    DUE(pma_cursor_next(&cursor[0], &record) == PMA_OK && record.key[0] == 'a' && record.value[0] == '1');
    DUE(put(store, "aa", "9") == PMA_OK && pma_remove(store, "b", 1) == PMA_OK);
    DUE(pma_cursor_next(&cursor[0], &record) == PMA_OK && record.key_size == 2 && record.value[0] == '9');
    DUE(pma_cursor_next(&cursor[0], &record) == PMA_END && pma_cursor_next(&cursor[0], &record) == PMA_NO_CURSOR);
    DUE(pma_cursor_open(store, NULL, 0, NULL, 0, &cursor[0]) == PMA_OK);
    DUE(pma_cursor_prev(&cursor[0], &record) == PMA_OK && record.key[0] == 'c');
    DUE(pma_cursor_prev(&cursor[0], &record) == PMA_OK && record.key_size == 2 && record.value[0] == '9');
    DUE(pma_cursor_next(&cursor[0], &record) == PMA_OK && record.key[0] == 'c' && pma_remove(store, "aa", 2) == PMA_OK);
    DUE(pma_cursor_prev(&cursor[0], &record) == PMA_OK && record.key_size == 1 && record.value[0] == '1');
    DUE(pma_cursor_prev(&cursor[0], &record) == PMA_END && pma_cursor_prev(&cursor[0], &record) == PMA_NO_CURSOR);
    for (int n = 0; n < 17; n++)
        DUE(pma_cursor_open(store, NULL, 0, NULL, 0, &cursor[n]) == (n < 16 ? PMA_OK : PMA_NO_CURSOR));
    DUE(pma_cursor_close(&cursor[3]) == PMA_OK && pma_cursor_open(store, NULL, 0, NULL, 0, &cursor[3]) == PMA_OK);
    DUE(pma_close(store) == PMA_OK);
}

/* What gives the updates of a merge: keys `from`, `from + by` .. up to `until`, one of `every` to be removed. */
typedef struct {
    pma *store;
    int from, by, until, every;
    int stop, kills; /* behind so many of them it gives up, or kills the program */
    int asks, given;
    char key[12];
} feed;

static int give(void *context, pma_item *update)
{
    feed *in = context;
    int n = in->from + in->by * in->given;
    if (in->asks)
        DUE(pma_remove(in->store, "0001", 4) == PMA_BUSY);
    if (in->given == in->stop && in->kills)
        DUE(!kill((pid_t)pma_pid(in->store), SIGKILL));
    else if (in->given == in->stop)
        return -1;
    if (in->by > 0 ? n >= in->until : n < in->until)
        return 0;
    snprintf(in->key, sizeof in->key, "%04d", n);
    *update = (pma_item){in->given++ % in->every ? PMA_PUT : PMA_REMOVE, in->key, 4, in->key, 4};
    return 1;
}

static feed feed_of(pma *store, int from, int by, int until)
{
    feed in = {store, from, by, until, 3, -1, 0, 0, 0, ""};
    return in;
}

static int is_changed(const pma_changes *made, unsigned long stored, unsigned long replaced, unsigned long removed,
                      unsigned long absent)
{
    return made->stored == stored && made->replaced == replaced && made->removed == removed && made->absent == absent;
}

static void merges(void)
{
    pma_changes made = {9, 9, 9, 9};
    pma_cursor cursor;
    pma_record record;
    pma *store = opened("merges");
    feed in = feed_of(store, 0, 1, 900);
    in.asks = 1;
    DUE(put(store, "0000", "x") == PMA_OK && put(store, "0001", "x") == PMA_OK && put(store, "0003", "x") == PMA_OK);
    DUE(pma_cursor_open(store, NULL, 0, NULL, 0, &cursor) == PMA_OK);
    DUE(pma_merge(store, give, &in, &made) == PMA_OK && is_changed(&made, 599, 1, 2, 298) && pma_pid(store) > 0);
    DUE(holds(store, "0000", NULL) && holds(store, "0001", "0001") && holds(store, "0899", "0899"));
    DUE(pma_cursor_next(&cursor, &record) == PMA_NO_CURSOR);
    in = feed_of(store, 0, 1, 0);
    DUE(pma_merge(store, give, &in, &made) == PMA_OK && is_changed(&made, 0, 0, 0, 0));
    in = feed_of(store, 5, -1, 0); /* its keys fall */
    DUE(pma_merge(store, give, &in, &made) == PMA_REFUSED && !strcmp(pma_line(store), "refused line 2"));
    DUE(pma_cause(store) == PMA_OK && holds(store, "0005", "0005"));
    in = feed_of(store, 1, 1, 5000), in.stop = 4500;
    DUE(pma_merge(store, give, &in, NULL) == PMA_GIVEN_UP && pma_cause(store) == PMA_OK && holds(store, "0001", "0001"));
    in = feed_of(store, 1000, 1, 9000);
    DUE(pma_merge(store, give, &in, &made) == PMA_FULL && !strcmp(pma_line(store), "refused full 3712"));
    DUE(holds(store, "1001", NULL) && is_changed(&made, 0, 0, 0, 0));
    in = feed_of(store, 1, 1, 2000), in.stop = 1500, in.kills = 1; /* it is killed before it has the whole text */
    DUE(pma_merge(store, give, &in, NULL) == PMA_STOPPED && pma_cause(store) == PMA_STOPPED && pma_pid(store) == 0);
    DUE(holds(store, "0001", NULL) == 0 && pma_merge(store, give, &in, NULL) == PMA_STOPPED);
    DUE(pma_close(store) == PMA_OK);
    store = opened("merges");
    DUE(holds(store, "0001", "0001") && holds(store, "1001", NULL));
    DUE(pma_close(store) == PMA_OK);
}

static int give_long(void *context, pma_item *update)
{
    static char bytes[600];
    *update = (pma_item){PMA_PUT, bytes, *(size_t *)context, NULL, 0};
    return 1;
}

/* Programs in whose place a few shell lines stand for `merge`. */
static void merges_that_end_otherwise(void)
{
    static const struct {
        const char *script;
        pma_code merge, cause;
    } rows[] = {
        {"exit 4", PMA_DISK, PMA_DISK}, {"exit 2", PMA_USAGE, PMA_USAGE}, {"cat >/dev/null; exit 7", PMA_MEMORY, PMA_MEMORY},
        {"cat >/dev/null; exit 4", PMA_UNKNOWN, PMA_DISK}, {"cat >/dev/null; kill -9 $$", PMA_UNKNOWN, PMA_STOPPED},
        {"cat >/dev/null; printf 'merged stored=1'; exit 4", PMA_UNKNOWN, PMA_DISK},
        {"cat >/dev/null; echo hello; cat", PMA_UNKNOWN, PMA_STOPPED},
        {"cat >/dev/null; yes 2>/dev/null", PMA_UNKNOWN, PMA_UNEXPECTED},
        {"cat >/dev/null; sleep 60", PMA_UNKNOWN, PMA_TIMED_OUT}, {"kill -STOP $$", PMA_TIMED_OUT, PMA_TIMED_OUT},
        {"cat >/dev/null; echo merged stored=1 replaced=2 removed=3 absent=4; exit 4", PMA_OK, PMA_OK},
        {"cat >/dev/null; echo refused full 7; exit 3", PMA_FULL, PMA_OK}, {"exec <&- >&-; sleep 60", PMA_STOPPED, PMA_STOPPED},
    };
    for (size_t n = 0; n < sizeof rows / sizeof *rows; n++) {
        pma *store;
        pma_changes made;
        char script[1024];
        snprintf(script, sizeof script, "if [ \"$1\" = run ]; then printf 'oversized key 24\\n'; exec cat >/dev/null; fi; %s",
                 rows[n].script);
        DUE(pretend(&store, script) == PMA_OK);
        feed in = feed_of(store, 0, 1, rows[n].merge == PMA_TIMED_OUT ? 9999 : 1);
        pma_timeout(store, 1);
        pma_code code = pma_merge(store, give, &in, &made);
        if (code != rows[n].merge || pma_cause(store) != rows[n].cause)
            wrong = 1, printf("test.c: %s: %s, by %s\n", rows[n].script, pma_text(code), pma_text(pma_cause(store)));
        if (code == PMA_OK)
            DUE(is_changed(&made, 1, 2, 3, 4));
        pma_close(store);
    }
    pma *store = opened("long");
    for (size_t size = 0; size <= 600; size += 600)
        DUE(pma_merge(store, give_long, &size, NULL) == PMA_OVERSIZED && pma_cause(store) == PMA_OK);
    size_t size = 25;
    DUE(pma_merge(store, give_long, &size, NULL) == PMA_REFUSED && !strcmp(pma_line(store), "refused line 1"));
    DUE(pma_close(store) == PMA_OK);
}

static void openings(void)
{
    pma *store = opened("openings"), *other;
    FILE *out = fopen(named("text"), "w");
    fprintf(out, "%05000d", 0), fclose(out);
    DUE(pma_open(&other, program, named("openings")) == PMA_IN_USE && pma_cause(other) == PMA_IN_USE);
    DUE(put(other, "a", "1") == PMA_IN_USE && pma_close(other) == PMA_OK);
    DUE(pma_open(&other, program, named("text")) == PMA_REFUSED && !strcmp(pma_line(other), "refused identity 3072"));
    DUE(pma_close(other) == PMA_OK && pma_create(program, named("text"), 4, 0) == PMA_REFUSED);
    DUE(pma_open(&other, program, named("missing")) == PMA_SYSTEM && errno == ENOENT && pma_close(other) == PMA_OK);
    DUE(pma_open(&other, program, folder) == PMA_SYSTEM && errno == EISDIR && pma_close(other) == PMA_OK);
    DUE(pma_open(&other, "no such program", named("openings")) == PMA_SYSTEM && errno == ENOENT && pma_close(other) == PMA_OK);
    DUE(pma_create(program, named("tall"), 17, 0) == PMA_USAGE && pma_create("no such program", named("x"), 4, 0) == PMA_SYSTEM);
    DUE(pma_create("yes", named("x"), 4, 0) == PMA_UNEXPECTED && pma_create("false", named("x"), 4, 0) == PMA_STOPPED);
    DUE(put(store, "a", "1") == PMA_OK && pma_close(store) == PMA_OK && pma_close(NULL) == PMA_OK);
    store = opened("openings");
    DUE(holds(store, "a", "1") && pma_close(store) == PMA_OK);
}

static void deaths(void)
{
    static const char open_then[] = "printf 'oversized key 24\\n'; head -n 2 >/dev/null; ";
    static const struct {
        const char *script;
        pma_code put, cause;
    } rows[] = {
        {"printf 'stor'; kill -9 $$", PMA_UNKNOWN, PMA_STOPPED}, {"printf 'stored'; exit 4", PMA_UNKNOWN, PMA_DISK},
        {"echo refused slot 3 4; exit 3", PMA_UNKNOWN, PMA_REFUSED}, {"echo hello; cat", PMA_UNKNOWN, PMA_UNEXPECTED},
        {"exec 2>/dev/null; yes | tr -d '\\n'", PMA_UNKNOWN, PMA_UNEXPECTED}, {"echo stored; cat >/dev/null", PMA_OK, PMA_OK},
        {"echo full 64; cat >/dev/null", PMA_FULL, PMA_OK}, {"echo no batch; cat >/dev/null", PMA_NO_BATCH, PMA_OK},
        {"echo hello; sleep 60", PMA_UNKNOWN, PMA_UNEXPECTED}, {"exec <&- >&-; sleep 60", PMA_UNKNOWN, PMA_STOPPED},
        {"for piece in sto red '\\n'; do printf $piece; sleep 0.05; done; cat >/dev/null", PMA_OK, PMA_OK},
    };
    for (size_t n = 0; n < sizeof rows / sizeof *rows; n++) {
        pma *store;
        char script[256];
        snprintf(script, sizeof script, "%s%s", open_then, rows[n].script);
        DUE(pretend(&store, script) == PMA_OK);
        DUE(put(store, "a", "1") == rows[n].put && pma_cause(store) == rows[n].cause);
        if (rows[n].cause)
            DUE(put(store, "a", "1") == rows[n].cause);
        pma_close(store);
    }
    pma *store;
    DUE(pretend(&store, "printf 'oversized key 24\\n'; cat >/dev/null; yes 2>/dev/null") == PMA_OK);
    DUE(pma_close(store) == PMA_STOPPED);
    DUE(pretend(&store, "exit 7") == PMA_MEMORY && pma_close(store) == PMA_OK);
    DUE(pretend(&store, "exit 4") == PMA_DISK && pma_close(store) == PMA_OK);
    DUE(pretend(&store, "cat") == PMA_UNEXPECTED && pma_close(store) == PMA_OK);
    DUE(pretend(&store, "yes 2>/dev/null") == PMA_UNEXPECTED && pma_close(store) == PMA_OK);
    DUE(pretend(&store, "yes refused x 2>/dev/null") == PMA_UNEXPECTED && pma_close(store) == PMA_OK);
    DUE(pretend(&store, "printf 'oversized key 24\\n'; head -n 1 >/dev/null") == PMA_OK);
    nanosleep(&(struct timespec){0, 200000000}, NULL);
    DUE(put(store, "a", "1") == PMA_STOPPED && pma_close(store) == PMA_OK); /* nothing of it was sent */
}

/* The program is stopped amid a call, and killed or let go on; or the call has a limit. */
static void stops(void)
{
    pma_record record;
    pma *store = opened("stops"), *other;
    DUE(put(store, "a", "1") == PMA_OK && !kill((pid_t)pma_pid(store), SIGSTOP));
    pid_t child = signaler(pma_pid(store), SIGCONT, 100000);
    DUE(put(store, "a", "2") == PMA_OK && waitpid(child, NULL, 0) == child);
    DUE(!kill((pid_t)pma_pid(store), SIGSTOP));
    child = signaler(pma_pid(store), SIGKILL, 400000);
    DUE(put(store, "a", "3") == PMA_UNKNOWN && pma_cause(store) == PMA_STOPPED && waitpid(child, NULL, 0) == child);
    DUE(pma_close(store) == PMA_OK);
    for (int way = 0; way < 3; way++) {
        store = opened("stops");
        pma_timeout(store, 1);
        DUE((holds(store, "a", "2") || holds(store, "a", "3")) && !kill((pid_t)pma_pid(store), SIGSTOP));
        if (way < 2) {
            DUE((way ? put(store, "a", "3") : pma_get(store, "a", 1, &record)) == (way ? PMA_UNKNOWN : PMA_TIMED_OUT));
            DUE(pma_cause(store) == PMA_TIMED_OUT && pma_pid(store) == 0);
            DUE(pma_open(&other, program, named("stops")) == PMA_OK && pma_close(other) == PMA_OK); /* the program is gone */
        }
        DUE(pma_close(store) == (way < 2 ? PMA_OK : PMA_STOPPED));
    }
}

/* The caller dies by a signal of the terminal, amid a call. */
static void interrupted_callers(void)
{
    int status;
    pma *store = opened("interrupted");
    DUE(put(store, "a", "1") == PMA_OK && pma_close(store) == PMA_OK);
    pid_t child = fork();
    if (child == 0) {
        signal(SIGINT, SIG_DFL); /* a shell's `&` ignores it */
        store = opened("interrupted");
        signaler(getpid(), SIGINT, 300000);
        while (put(store, "a", "2") == PMA_OK)
            ;
        _exit(1);
    }
    DUE(waitpid(child, &status, 0) == child && WIFSIGNALED(status) && WTERMSIG(status) == SIGINT);
    pma_code code = PMA_IN_USE;
    for (int tries = 0; tries < 100 && code == PMA_IN_USE; tries++) { /* it ends by itself then */
        code = pma_open(&store, program, named("interrupted"));
        if (code)
            pma_close(store), nanosleep(&(struct timespec){0, 50000000}, NULL);
    }
    DUE(code == PMA_OK && holds(store, "a", "2") && pma_close(store) == PMA_OK);
}

static volatile sig_atomic_t alarms;

static void count_alarm(int number)
{
    alarms += number == SIGALRM;
}

static void signals_amid_calls(void)
{
    struct sigaction interrupting = {.sa_handler = count_alarm}; /* calls of the system end with EINTR */
    struct itimerval often = {{0, 500}, {0, 500}}, never = {{0, 0}, {0, 0}};
    pma *store = opened("signals");
    char key[12], value[12];
    sigaction(SIGALRM, &interrupting, NULL);
    setitimer(ITIMER_REAL, &often, NULL);
    for (int n = 0; n < 3000; n++) {
        snprintf(key, sizeof key, "%d", n % 50), snprintf(value, sizeof value, "%d", n);
        DUE(put(store, key, value) == PMA_OK && holds(store, key, value));
    }
    DUE(pma_close(store) == PMA_OK);
    store = opened("signals");
    setitimer(ITIMER_REAL, &never, NULL);
    DUE(holds(store, "49", "2999") && alarms > 0);
    DUE(pma_close(store) == PMA_OK);
}

/* Whether a descriptor of the store, or a child, is left. */
static void nothing_is_left(void)
{
    int least = dup(0);
    close(least);
    DUE(least <= 3);
    DUE(waitpid(-1, NULL, WNOHANG) == -1 && errno == ECHILD);
}

static void forks(void)
{
    int status;
    pma *store = opened("forks");
    DUE(put(store, "a", "1") == PMA_OK);
    fflush(stdout);
    pid_t child = fork();
    if (child == 0) {
        feed in = feed_of(store, 0, 1, 9);
        pma_record record;
        int right = put(store, "a", "2") == PMA_FORKED && pma_get(store, "a", 1, &record) == PMA_FORKED &&
                    pma_merge(store, give, &in, NULL) == PMA_FORKED && in.given == 0 && pma_close(store) == PMA_OK;
        _exit(!right);
    }
    DUE(waitpid(child, &status, 0) == child && status == 0 && holds(store, "a", "1"));
    pid_t lasting = fork(); /* it has the socket too, and keeps it */
    if (lasting == 0) {
        pause();
        _exit(0);
    }
    DUE(pma_close(store) == PMA_OK);
    kill(lasting, SIGKILL), waitpid(lasting, NULL, 0);
    store = opened("forks");
    DUE(holds(store, "a", "1"));
    DUE(pma_close(store) == PMA_OK);
}

/* What a process without standard streams prints doesn't come to the program. */
static void closed_streams(void)
{
    int status;
    fflush(stdout);
    pid_t child = fork();
    if (child == 0) {
        close(0), close(1), close(2);
        pma *store = opened("streams");
        int right = put(store, "a", "1") == PMA_OK;
        for (int stream = 0; stream < 3; stream++)
            right &= write(stream, "remove a\n", 9) < 0;
        _exit(!(right && holds(store, "a", "1") && pma_close(store) == PMA_OK));
    }
    DUE(waitpid(child, &status, 0) == child && status == 0);
}

/* Another part of the process waits for whatever child there is. */
static void children_that_others_wait_for(void)
{
    pma *store;
    DUE(pretend(&store, "printf 'oversized key 24\\n'; head -n 1 >/dev/null") == PMA_OK);
    DUE(waitpid(-1, NULL, 0) > 0);
    DUE(put(store, "a", "1") == PMA_STOPPED && pma_close(store) == PMA_OK);
    fflush(stdout);
    pid_t child = fork();
    if (child == 0)
        _exit(7);
    int status;
    store = opened("children");
    DUE(put(store, "a", "1") == PMA_OK && pma_close(store) == PMA_OK);
    DUE(waitpid(child, &status, 0) == child && WEXITSTATUS(status) == 7);
}

/* Kills the program at random moments: what was answered is there, and of the change under way the old value or the new one. */
static void kills(void)
{
    enum { KEYS = 50, KILLS = 20 };
    int held[KEYS] = {0};
    char key[12], value[12], next[12];
    srand(7);
    for (int count = 0; count < KILLS; count++) {
        pma *store = opened("killed");
        pid_t child = signaler(pma_pid(store), SIGKILL, 1000 + rand() % 30000);
        pma_code code;
        int last;
        do {
            last = rand() % KEYS;
            snprintf(key, sizeof key, "%d", last), snprintf(value, sizeof value, "%d", held[last] + 1);
            code = put(store, key, value);
            held[last] += code == PMA_OK;
        } while (code == PMA_OK);
        DUE((code == PMA_UNKNOWN || code == PMA_STOPPED) && pma_pid(store) == 0);
        pma_close(store), waitpid(child, NULL, 0);
        store = opened("killed");
        for (int n = 0; n < KEYS; n++) {
            snprintf(key, sizeof key, "%d", n);
            snprintf(value, sizeof value, "%d", held[n]), snprintf(next, sizeof next, "%d", held[n] + 1);
            int is_new = n == last && code == PMA_UNKNOWN && holds(store, key, next);
            DUE(is_new || holds(store, key, held[n] ? value : NULL));
            held[n] += is_new;
        }
        DUE(pma_close(store) == PMA_OK);
    }
}

/* A feed whose program is killed so many microseconds after the first update was asked for. */
typedef struct {
    feed in;
    long microseconds;
    pid_t killer;
} dying;

static int give_and_die(void *context, pma_item *update)
{
    dying *in = context;
    if (!in->killer)
        in->killer = signaler(pma_pid(in->in.store), SIGKILL, in->microseconds);
    return give(&in->in, update);
}

static int count_up(void *context, const pma_record *record)
{
    (void)record;
    ++*(int *)context;
    return 0;
}

static int count_of(pma *store)
{
    int count = 0;
    DUE(pma_range(store, NULL, 0, NULL, 0, PMA_ALL, count_up, &count) == PMA_OK);
    return count;
}

/* Kills merges at random moments, which by turns bind 2000 keys and remove them all: all updates are there, or none. */
static void kills_of_merges(void)
{
    enum { ROWS = 3000, KILLS = 16 };
    DUE(pma_create(program, named("merged"), 8, 0) == PMA_OK);
    for (int turn = 0; turn < KILLS; turn++) {
        pma *store = opened("merged");
        int before = turn % 2 ? 2000 : 0, after = 2000 - before, found;
        dying dies = {feed_of(store, 0, 1, ROWS), rand() % 15000, 0};
        dies.in.every = turn % 2 ? 1 : 3;
        pma_code code = pma_merge(store, give_and_die, &dies, NULL);
        DUE(code == PMA_OK || ((code == PMA_UNKNOWN || code == PMA_STOPPED) && pma_cause(store) == PMA_STOPPED));
        waitpid(dies.killer, NULL, 0);
        pma_close(store);
        store = opened("merged");
        found = count_of(store);
        DUE(code == PMA_OK ? found == after : code == PMA_STOPPED ? found == before : found == before || found == after);
        feed again = feed_of(store, 0, 1, ROWS);
        again.every = dies.in.every;
        DUE(pma_merge(store, give, &again, NULL) == PMA_OK && count_of(store) == after);
        DUE(pma_close(store) == PMA_OK);
    }
}

int main(int words, char **word)
{
    if (words != 4)
        return 2;
    program = word[1], folder = word[2], scripts = word[3];
    all_bytes_come_back();
    what_is_refused_changes_nothing();
    batches();
    ranges();
    cursors();
    merges();
    openings();
    deaths();
    merges_that_end_otherwise();
    stops();
    nothing_is_left();
    signals_amid_calls();
    interrupted_callers();
    forks();
    closed_streams();
    children_that_others_wait_for();
    kills();
    kills_of_merges();
    nothing_is_left();
    DUE(!strcmp(pma_text(PMA_FULL), "the store has no room for another key"));
    return wrong;
}
