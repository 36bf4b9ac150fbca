#define _XOPEN_SOURCE 700
#include "pma.h"

#include <ctype.h>
#include <errno.h>
#include <fcntl.h>
#include <poll.h>
#include <signal.h>
#include <spawn.h>
#include <stdio.h>
#include <stdlib.h>
#include <string.h>
#include <sys/file.h>
#include <sys/socket.h>
#include <sys/time.h>
#include <sys/wait.h>
#include <time.h>
#include <unistd.h>

extern char **environ;

enum {
    GRACE = 8000,     /* waits of 0.2 ms for the end of a program that has closed its output, or was killed */
    LONGEST = 1000000 /* seconds of a limit */
};

struct pma {
    int socket;              /* requests go in, replies come out */
    pid_t run, maker;        /* run is 0 once it was waited for */
    pma_code cause;          /* why the run has ended */
    int busy;                /* amid a call */
    int unread;              /* it ended with input that it hadn't read */
    int seconds;             /* for which it may say nothing; 0 is no limit */
    char *program, *file;
    unsigned long names;     /* given to cursors */
    size_t from, until;      /* what of `taken` wasn't read */
    char taken[4096];
    char line[PMA_LINE + 1]; /* the last line of reply */
    char refusal[PMA_LINE + 1];
};

/* A line for the program. */
typedef struct {
    char text[PMA_LINE + 1];
    size_t size;
    int oversized;
} command;

/* Commands */

static void add(command *line, const char *text, size_t size)
{
    if (size > PMA_LINE - line->size) {
        line->oversized = 1;
        return;
    }
    memcpy(line->text + line->size, text, size);
    line->size += size;
}

static command begun(const char *word)
{
    command line = {"", 0, 0};
    add(&line, word, strlen(word));
    return line;
}

/* Adds a key, a bound or a value behind a space, with its escapes. */
static void add_word(command *line, const void *bytes, size_t size)
{
    char escape[4];
    add(line, " ", 1);
    for (const unsigned char *at = bytes; size-- && !line->oversized; at++) {
        int odd = *at <= 0x20 || *at >= 0x7F || strchr("#%*;", *at);
        snprintf(escape, sizeof escape, odd ? "%%%02X" : "%c", *at);
        add(line, escape, odd ? 3 : 1);
    }
}

static void add_key(command *line, const void *key, size_t size)
{
    if (size == 0)
        line->oversized = 1;
    add_word(line, key, size);
}

static void add_bound(command *line, const void *key, size_t size)
{
    if (key)
        add_key(line, key, size);
    else
        add(line, " *", 2);
}

static void add_number(command *line, unsigned long number)
{
    char text[24];
    add(line, text, (size_t)snprintf(text, sizeof text, " %lu", number));
}

/* Replies */

static int begins(const char *line, const char *front)
{
    return strncmp(line, front, strlen(front)) == 0;
}

static int digit(char c)
{
    return isdigit((unsigned char)c) ? c - '0' : (c | 0x20) - 'a' + 10;
}

/* Reads a word with its escapes, at most that many bytes; where it ends, or NULL where it is none. */
static const char *read_word(const char *at, unsigned char *bytes, size_t most, size_t *size)
{
    for (*size = 0; *at && *at != ' '; at++) {
        int byte = (unsigned char)*at;
        if (*at == '%') {
            if (!isxdigit((unsigned char)at[1]) || !isxdigit((unsigned char)at[2]))
                return NULL;
            byte = digit(at[1]) * 16 + digit(at[2]);
            at += 2;
        }
        if (*size == most)
            return NULL;
        bytes[(*size)++] = (unsigned char)byte;
    }
    return at;
}

/* Reads the value at the end of a line, which may be empty, and then has no space before it. */
static int read_value(const char *at, pma_record *record)
{
    if (*at == ' ')
        at++;
    at = read_word(at, record->value, PMA_VALUE, &record->value_size);
    return at && !*at;
}

static int read_record(const char *line, pma_record *record)
{
    const char *at = read_word(line + strlen("record "), record->key, PMA_KEY, &record->key_size);
    return at && read_value(at, record);
}

static int read_changes(const char *line, const char *word, pma_changes *made)
{
    return begins(line, word) && sscanf(line + strlen(word), " stored=%lu replaced=%lu removed=%lu absent=%lu", &made->stored,
                                        &made->replaced, &made->removed, &made->absent) == 4;
}

/* The run */

static pma_code code_of(int status)
{
    static const pma_code codes[] = {
        [0] = PMA_STOPPED, [2] = PMA_USAGE, [3] = PMA_REFUSED, [4] = PMA_DISK, [7] = PMA_MEMORY,
    };
    if (!WIFEXITED(status) || (size_t)WEXITSTATUS(status) >= sizeof codes / sizeof *codes)
        return PMA_STOPPED;
    return codes[WEXITSTATUS(status)] ? codes[WEXITSTATUS(status)] : PMA_STOPPED;
}

/* Waits for the end of this child alone, and kills it where it goes on behind so many waits. Where another part of the process
   took its status, or it hangs even then, status stays. */
static void wait_for(pid_t run, int *status, int waits)
{
    for (; waits > -GRACE; waits--) {
        pid_t found = waitpid(run, status, WNOHANG);
        if (found > 0 || (found < 0 && errno != EINTR))
            return;
        if (waits == 0)
            kill(run, SIGKILL);
        nanosleep(&(struct timespec){0, 200000}, NULL);
    }
}

static ssize_t take(int from, char *bytes, size_t size)
{
    ssize_t count;
    do
        count = recv(from, bytes, size, 0);
    while (count < 0 && errno == EINTR);
    return count;
}

/* Starts the program with a socket as its input and output, and apart from the signals of the terminal. */
static pma_code start(char *const words[], int *ours, pid_t *run)
{
    int ends[2], failed;
    sigset_t none, usual;
    posix_spawn_file_actions_t streams;
    posix_spawnattr_t how;

    if (socketpair(AF_UNIX, SOCK_STREAM | SOCK_CLOEXEC, 0, ends))
        return PMA_SYSTEM;
    *ours = fcntl(ends[0], F_DUPFD_CLOEXEC, 3); /* what is printed to a standard stream that is closed isn't for the program */
    close(ends[0]);
    if (*ours < 0)
        return close(ends[1]), PMA_SYSTEM;
    sigemptyset(&none), sigemptyset(&usual), sigaddset(&usual, SIGPIPE);
    posix_spawn_file_actions_init(&streams), posix_spawnattr_init(&how);
    posix_spawnattr_setflags(&how, POSIX_SPAWN_SETPGROUP | POSIX_SPAWN_SETSIGMASK | POSIX_SPAWN_SETSIGDEF);
    posix_spawnattr_setpgroup(&how, 0), posix_spawnattr_setsigmask(&how, &none), posix_spawnattr_setsigdefault(&how, &usual);
    failed = posix_spawn_file_actions_adddup2(&streams, ends[1], 0);
    if (!failed)
        failed = posix_spawn_file_actions_adddup2(&streams, ends[1], 1);
    if (!failed)
        failed = posix_spawnp(run, words[0], &streams, &how, words, environ);
    posix_spawn_file_actions_destroy(&streams), posix_spawnattr_destroy(&how);
    close(ends[1]);
    if (!failed)
        return PMA_OK;
    close(*ours);
    *ours = -1;
    errno = failed;
    return PMA_SYSTEM;
}

/* Sets how long a call of the socket waits. */
static void limit(pma *store)
{
    struct timeval most = {store->seconds, 0};
    setsockopt(store->socket, SOL_SOCKET, SO_RCVTIMEO, &most, sizeof most);
    setsockopt(store->socket, SOL_SOCKET, SO_SNDTIMEO, &most, sizeof most);
}

/* Ends the run, whatever it does, and keeps why it ended: `cause`, by which the conversation is broken off, or where that is PMA_OK
   what its status says. */
static pma_code run_ended(pma *store, pma_code cause)
{
    int status = 0;
    shutdown(store->socket, SHUT_RDWR);
    if (store->run)
        wait_for(store->run, &status, cause ? 0 : GRACE);
    store->run = 0;
    store->cause = cause ? cause : code_of(status);
    return store->cause;
}

/* Takes the next line of reply; whether it came. A line that is too long breaks the conversation off. */
static int next_line(pma *store)
{
    for (size_t size = 0, refusals = 0;;) {
        if (store->from == store->until) {
            ssize_t count = take(store->socket, store->taken, sizeof store->taken);
            store->unread = count < 0 && errno == ECONNRESET;
            if (count <= 0)
                return run_ended(store, count < 0 && errno == EAGAIN ? PMA_TIMED_OUT : PMA_OK), 0;
            store->from = 0, store->until = (size_t)count;
        }
        char c = store->taken[store->from++];
        store->line[size] = c == '\n' ? 0 : c;
        if (c != '\n' && size++ == PMA_LINE - 1)
            return store->line[size] = 0, run_ended(store, PMA_UNEXPECTED), 0;
        if (c == '\n' && !begins(store->line, "refused "))
            return 1;
        if (c == '\n' && refusals++)
            return run_ended(store, PMA_UNEXPECTED), 0;
        if (c == '\n')
            memcpy(store->refusal, store->line, sizeof store->line), size = 0;
    }
}

/* Calls */

static pma_code done(pma *store, pma_code code)
{
    store->busy = 0;
    return code;
}

/* Ends a call amid which the run ended. */
static pma_code broken(pma *store, int changes)
{
    return done(store, changes ? PMA_UNKNOWN : store->cause);
}

/* Sends a line. It goes by one call: a front of it would count as a line where this process dies before the rest. */
static pma_code send_line(pma *store, const command *line)
{
    for (size_t at = 0; at < line->size;) {
        ssize_t count = send(store->socket, line->text + at, line->size - at, MSG_NOSIGNAL);
        if (count >= 0)
            at += (size_t)count;
        else if (errno != EINTR)
            return errno == EPIPE || errno == ECONNRESET ? PMA_STOPPED : errno == EAGAIN ? PMA_TIMED_OUT : PMA_SYSTEM;
    }
    return PMA_OK;
}

/* Why the store takes no call; PMA_OK where it does. */
static pma_code in_the_way(const pma *store)
{
    return getpid() != store->maker ? PMA_FORKED : store->busy ? PMA_BUSY : store->cause;
}

/* Begins a call: sends its line, and takes the first line of the reply. After PMA_OK the call is still to be ended. */
static pma_code ask(pma *store, command *line, int changes)
{
    pma_code code = in_the_way(store);
    if (code)
        return code;
    if (line->oversized)
        return PMA_OVERSIZED;
    store->busy = 1;
    line->text[line->size++] = '\n';
    code = send_line(store, line);
    if (code == PMA_SYSTEM)
        return done(store, code);
    if (code == PMA_TIMED_OUT) /* there was no room for it all the time */
        return run_ended(store, code), broken(store, 0);
    if (code) { /* the run has ended, and may have said why before it took the line */
        while (next_line(store))
            ;
        return broken(store, 0);
    }
    return next_line(store) ? PMA_OK : broken(store, changes);
}

/* Ends a call whose reply is none of its own: by a refusal, or by breaking the conversation off. */
static pma_code refused(pma *store, int changes)
{
    static const struct {
        const char *front;
        pma_code code;
    } refusals[] = {
        {"oversized ", PMA_OVERSIZED}, {"full ", PMA_FULL}, {"repeated key", PMA_BAD_BATCH}, {"no batch", PMA_NO_BATCH},
        {"no room ", PMA_NO_CURSOR}, {"no cursor", PMA_NO_CURSOR},
    };
    for (size_t n = 0; n < sizeof refusals / sizeof *refusals; n++)
        if (begins(store->line, refusals[n].front))
            return done(store, refusals[n].code);
    run_ended(store, PMA_UNEXPECTED);
    return broken(store, changes);
}

/* Asks for what is answered by one word or another. */
static pma_code ask_word(pma *store, command *line, int changes, const char *one, const char *other, pma_code code_of_other)
{
    pma_code code = ask(store, line, changes);
    if (code)
        return code;
    if (!strcmp(store->line, one))
        return done(store, PMA_OK);
    return strcmp(store->line, other) ? refused(store, changes) : done(store, code_of_other);
}

pma_code pma_put(pma *store, const void *key, size_t key_size, const void *value, size_t value_size)
{
    command line = begun("put");
    add_key(&line, key, key_size);
    add_word(&line, value, value_size);
    return ask_word(store, &line, 1, "stored", "replaced", PMA_OK);
}

pma_code pma_remove(pma *store, const void *key, size_t key_size)
{
    command line = begun("remove");
    add_key(&line, key, key_size);
    return ask_word(store, &line, 1, "removed", "absent", PMA_ABSENT);
}

pma_code pma_get(pma *store, const void *key, size_t key_size, pma_record *record)
{
    command line = begun("get");
    add_key(&line, key, key_size);
    pma_code code = ask(store, &line, 0);
    if (code)
        return code;
    if (!strcmp(store->line, "absent"))
        return done(store, PMA_ABSENT);
    if (key_size > PMA_KEY || !begins(store->line, "found") || !read_value(store->line + strlen("found"), record))
        return refused(store, 0);
    memcpy(record->key, key, record->key_size = key_size);
    return done(store, PMA_OK);
}

static int same_key(const pma_item *one, const pma_item *other)
{
    return one->key_size && one->key_size == other->key_size && !memcmp(one->key, other->key, one->key_size);
}

static int is_batch(const pma_item *items, size_t count)
{
    if (count < 1 || count > PMA_ITEMS)
        return 0;
    for (size_t n = 1; n < count; n++)
        for (size_t m = 0; m < n; m++)
            if (same_key(&items[m], &items[n]))
                return 0;
    return 1;
}

pma_code pma_batch(pma *store, const pma_item *items, size_t count, pma_changes *changes)
{
    pma_changes made;
    command line = begun("batch");
    if (!is_batch(items, count))
        return PMA_BAD_BATCH;
    for (size_t n = 0; n < count; n++) {
        const char *kind = items[n].kind == PMA_PUT ? " put" : " remove";
        add(&line, " ;", n ? 2 : 0);
        add(&line, kind, strlen(kind));
        add_key(&line, items[n].key, items[n].key_size);
        if (items[n].kind == PMA_PUT)
            add_word(&line, items[n].value, items[n].value_size);
    }
    pma_code code = ask(store, &line, 1);
    if (code)
        return code;
    if (!read_changes(store->line, "batch", &made))
        return refused(store, 1);
    if (changes)
        *changes = made;
    return done(store, PMA_OK);
}

pma_code pma_range(pma *store, const void *low, size_t low_size, const void *high, size_t high_size, unsigned long limit,
                   int (*each)(void *context, const pma_record *record), void *context)
{
    pma_record record;
    char end[32];
    unsigned long found = 0;
    int wanted = 1;
    command line = begun("range");
    add_bound(&line, low, low_size);
    add_bound(&line, high, high_size);
    add_number(&line, limit < PMA_ALL ? limit : PMA_ALL);
    pma_code code = ask(store, &line, 0);
    if (code)
        return code;
    for (; begins(store->line, "record ") && read_record(store->line, &record); found++) {
        wanted = wanted && !each(context, &record);
        if (!next_line(store))
            return broken(store, 0);
    }
    snprintf(end, sizeof end, "end %lu", found);
    return strcmp(store->line, end) ? refused(store, 0) : done(store, PMA_OK);
}

pma_code pma_cursor_open(pma *store, const void *low, size_t low_size, const void *high, size_t high_size, pma_cursor *cursor)
{
    command line = begun("open");
    cursor->store = store, cursor->name = ++store->names;
    add_number(&line, cursor->name);
    add_bound(&line, low, low_size);
    add_bound(&line, high, high_size);
    return ask_word(store, &line, 0, "opened", "", PMA_UNEXPECTED);
}

static pma_code step(pma_cursor *cursor, const char *way, pma_record *record)
{
    pma *store = cursor->store;
    command line = begun(way);
    add_number(&line, cursor->name);
    pma_code code = ask(store, &line, 0);
    if (code)
        return code;
    if (!strcmp(store->line, "end"))
        return done(store, PMA_END);
    return begins(store->line, "record ") && read_record(store->line, record) ? done(store, PMA_OK) : refused(store, 0);
}

pma_code pma_cursor_next(pma_cursor *cursor, pma_record *record)
{
    return step(cursor, "next", record);
}

pma_code pma_cursor_prev(pma_cursor *cursor, pma_record *record)
{
    return step(cursor, "prev", record);
}

pma_code pma_cursor_close(pma_cursor *cursor)
{
    command line = begun("close");
    add_number(&line, cursor->name);
    return ask_word(cursor->store, &line, 0, "closed", "no cursor", PMA_OK);
}

/* Opening and closing */

pma_code pma_create(const char *program, const char *file, unsigned height, unsigned journal)
{
    char high[12], pages[12], said[64];
    int ours, status = -1, most = PMA_LINE;
    pid_t run;
    snprintf(high, sizeof high, "%u", height), snprintf(pages, sizeof pages, "%u", journal);
    char *words[] = {(char *)program, "create-paired", (char *)file, high, journal ? pages : NULL, NULL};
    pma_code code = start(words, &ours, &run);
    if (code)
        return code;
    for (ssize_t count; most >= 0 && (count = take(ours, said, sizeof said)) > 0;)
        most -= (int)count;
    wait_for(run, &status, most < 0 ? 0 : GRACE);
    close(ours);
    return most < 0 ? PMA_UNEXPECTED : status == 0 ? PMA_OK : code_of(status);
}

/* PMA_IN_USE where a process has the file locked, PMA_SYSTEM where it can't be opened. */
static pma_code lock_of(const char *file)
{
    int opened = open(file, O_RDWR | O_CLOEXEC);
    if (opened < 0)
        return PMA_SYSTEM;
    pma_code code = flock(opened, LOCK_SH | LOCK_NB) ? PMA_IN_USE : PMA_OK;
    close(opened);
    return code;
}

/* Starts the program on the store's file, by the word `run` or `merge`. */
static pma_code start_on(pma *store, const char *word)
{
    char *words[] = {store->program, (char *)word, store->file, NULL};
    store->from = store->until = 0;
    store->cause = start(words, &store->socket, &store->run);
    if (!store->cause)
        limit(store);
    return store->cause;
}

static void shut(pma *store)
{
    if (store->socket >= 0)
        close(store->socket);
    store->socket = -1;
}

/* Starts a run, and takes the reply to a line that is refused in every store: then the file is open. */
static pma_code open_once(pma *store)
{
    command line = begun("get ");
    pma_code code = start_on(store, "run");
    if (code)
        return code;
    memset(line.text + line.size, 'k', PMA_LINE - line.size);
    line.size = PMA_LINE;
    code = ask(store, &line, 0);
    if (code)
        return code;
    return begins(store->line, "oversized key ") ? done(store, PMA_OK) : refused(store, 0);
}

/* Who had the file may have closed it before its lock is looked for: then it is opened again, up to a second later. */
static pma_code open_run(pma *store)
{
    for (long pause = 1;; pause *= 2) { /* in milliseconds */
        struct timespec time = {0, pause * 1000000};
        pma_code code = open_once(store);
        if (code != PMA_DISK)
            return code;
        shut(store);
        code = lock_of(store->file);
        if (code || pause == 1024)
            return store->cause = code ? code : PMA_DISK;
        nanosleep(&time, NULL);
    }
}

/* A name for later, when the process may be in another folder. */
static char *kept(const char *name, int is_path)
{
    char *whole = is_path ? realpath(name, NULL) : NULL;
    return whole ? whole : strdup(name);
}

pma_code pma_open(pma **store, const char *program, const char *file)
{
    pma *opened = *store = calloc(1, sizeof **store);
    if (!opened)
        return PMA_MEMORY;
    opened->socket = -1, opened->maker = getpid();
    opened->program = kept(program, strchr(program, '/') != NULL), opened->file = kept(file, 1);
    if (!opened->program || !opened->file)
        return opened->cause = PMA_MEMORY;
    return open_run(opened);
}

void pma_timeout(pma *store, unsigned seconds)
{
    store->seconds = seconds < LONGEST ? (int)seconds : LONGEST;
    if (store->socket >= 0 && getpid() == store->maker)
        limit(store);
}

/* Ends the run, once it has left its file well; how it ended. */
static pma_code end_run(pma *store)
{
    int status = 0, most = PMA_LINE;
    if (!store->run)
        return PMA_OK;
    shutdown(store->socket, store->busy ? SHUT_RDWR : SHUT_WR); /* its script ends, whoever else has the socket */
    for (ssize_t count; most >= 0 && (count = take(store->socket, store->taken, sizeof store->taken)) > 0;)
        most -= (int)count; /* it has nothing to say, but why it ends */
    wait_for(store->run, &status, most < 0 ? 0 : GRACE);
    store->run = 0;
    return status == 0 ? PMA_OK : code_of(status);
}

pma_code pma_close(pma *store)
{
    pma_code code = PMA_OK;
    if (!store)
        return PMA_OK;
    if (getpid() == store->maker)
        code = end_run(store);
    shut(store);
    free(store->program), free(store->file);
    free(store);
    return code;
}

/* Merges */

/* A text on its way. */
typedef struct {
    pma *store;
    int whole; /* all of it was sent */
    size_t size;
    char bytes[4096];
} merge_text;

/* Sends what is gathered; whether it was taken. A program that ends, or speaks, before it has the whole text takes no more. */
static int send_text(merge_text *out)
{
    struct pollfd ends = {out->store->socket, POLLIN | POLLOUT, 0};
    for (size_t at = 0; at < out->size;) {
        int found = poll(&ends, 1, out->store->seconds ? 1000 * out->store->seconds : -1);
        if (found == 0 || (found > 0 && ends.revents & ~POLLOUT))
            return 0;
        ssize_t count = found < 0 ? -1 : send(ends.fd, out->bytes + at, out->size - at, MSG_NOSIGNAL | MSG_DONTWAIT);
        if (count > 0)
            at += (size_t)count;
        else if (errno != EINTR && errno != EAGAIN)
            return 0;
    }
    out->size = 0;
    return 1;
}

static int add_line(merge_text *out, command *line)
{
    line->text[line->size++] = '\n';
    if (out->size + line->size > sizeof out->bytes && !send_text(out))
        return 0;
    memcpy(out->bytes + out->size, line->text, line->size);
    out->size += line->size;
    return 1;
}

/* Sends the lines of a merge; PMA_OK too where the program takes no more of them, which its end tells. */
static pma_code send_updates(merge_text *out, int (*next)(void *context, pma_item *update), void *context)
{
    pma_item update;
    unsigned long count = 0;
    int given;
    for (; (given = next(context, &update)) > 0; count++) {
        command line = begun(update.kind == PMA_PUT ? "record" : "remove");
        add_key(&line, update.key, update.key_size);
        if (update.kind == PMA_PUT && update.value_size)
            add_word(&line, update.value, update.value_size);
        if (line.oversized)
            return PMA_OVERSIZED;
        if (!add_line(out, &line))
            return PMA_OK;
    }
    if (given < 0)
        return PMA_GIVEN_UP;
    command end = begun("end");
    add_number(&end, count);
    out->whole = add_line(out, &end) && send_text(out);
    return PMA_OK;
}

/* Ends the text, and takes what is answered, to the program's end. */
static pma_code merged(pma *store, int whole, pma_changes *changes)
{
    pma_changes made;
    int is_made = 0;
    shutdown(store->socket, SHUT_WR);
    if (next_line(store)) {
        is_made = read_changes(store->line, "merged", &made);
        if (next_line(store))
            run_ended(store, PMA_UNEXPECTED), is_made = 0;
    }
    if (is_made && changes)
        *changes = made;
    if (is_made)
        return PMA_OK;
    if (store->cause == PMA_REFUSED)
        return begins(store->refusal, "refused full ") ? PMA_FULL : PMA_REFUSED;
    if (store->cause == PMA_MEMORY || store->cause == PMA_USAGE)
        return store->cause;
    if (whole && !store->unread)
        return PMA_UNKNOWN;
    if (store->cause == PMA_DISK && lock_of(store->file) == PMA_IN_USE)
        store->cause = PMA_IN_USE;
    return store->cause; /* it makes nothing before it has read to the end */
}

pma_code pma_merge(pma *store, int (*next)(void *context, pma_item *update), void *context, pma_changes *changes)
{
    merge_text out = {store, 0, 0, ""};
    pma_code code = in_the_way(store);
    if (code)
        return code;
    store->cause = end_run(store);
    shut(store);
    *store->refusal = 0;
    if (store->cause || start_on(store, "merge"))
        return store->cause;
    store->busy = 1;
    code = send_updates(&out, next, context);
    if (code)
        run_ended(store, PMA_STOPPED); /* before it has the text's end */
    else
        code = merged(store, out.whole, changes);
    shut(store);
    done(store, code);
    if (code < PMA_UNKNOWN || code == PMA_REFUSED)
        open_run(store);
    return code;
}

pma_code pma_cause(const pma *store)
{
    return store->cause;
}

long pma_pid(const pma *store)
{
    return store->run;
}

const char *pma_line(const pma *store)
{
    return store->cause == PMA_UNEXPECTED ? store->line : store->refusal;
}

const char *pma_text(pma_code code)
{
    static const char *const texts[] = {
        [PMA_OK] = "done",
        [PMA_ABSENT] = "the key isn't there",
        [PMA_END] = "the cursor has no record there",
        [PMA_OVERSIZED] = "a key, a value or a batch has too many bytes, or a key none",
        [PMA_BAD_BATCH] = "a batch has 1 to 16 items, and no key twice",
        [PMA_FULL] = "the store has no room for another key",
        [PMA_NO_BATCH] = "the file is of version 1, which has no batches",
        [PMA_NO_CURSOR] = "16 cursors are open, or this one isn't",
        [PMA_BUSY] = "another call of the store is under way",
        [PMA_FORKED] = "the store belongs to the process from which this one was forked",
        [PMA_GIVEN_UP] = "the merge was given up",
        [PMA_UNKNOWN] = "the change may be in the store, wholly, or not",
        [PMA_IN_USE] = "another process has the store open",
        [PMA_DISK] = "a call of the disk failed",
        [PMA_REFUSED] = "the file is no store, or was damaged, or updates can't be merged",
        [PMA_MEMORY] = "there is no memory",
        [PMA_USAGE] = "the program takes no such height, journal, name or word",
        [PMA_STOPPED] = "the program was stopped",
        [PMA_TIMED_OUT] = "the program said nothing for too long",
        [PMA_UNEXPECTED] = "the program said what wasn't expected",
        [PMA_SYSTEM] = "the system refused a call",
    };
    return (size_t)code < sizeof texts / sizeof *texts ? texts[code] : "no code";
}
