/* SQLite behind the program's script language. Setting: delete or wal, and behind a comma the cache in MiB.
   As its manual advises: prepared statements, a table without rowid, `synchronous=full`, a load in one transaction. A cursor is
   a statement that is stepped, another one each way: it is left before each update, since what it would see of one isn't told. */
#include "script.h"
#include <sqlite3.h>
#include <stdio.h>
#include <stdlib.h>
#include <string.h>

static sqlite3 *store;
static sqlite3_stmt *begin, *commit, *insert, *update, *delete, *find, *walk, *cursors[CURSORS], *backs[CURSORS];
const unsigned long store_bulk = ~0UL;

static void execute(const char *words)
{
    if (sqlite3_exec(store, words, NULL, NULL, NULL) != SQLITE_OK)
        fail(sqlite3_errmsg(store));
}

static sqlite3_stmt *prepared(const char *words)
{
    sqlite3_stmt *statement;
    if (sqlite3_prepare_v3(store, words, -1, SQLITE_PREPARE_PERSISTENT, &statement, NULL) != SQLITE_OK)
        fail(sqlite3_errmsg(store));
    return statement;
}

void store_open(const char *file, const char *setting)
{
    const char *cache = strchr(setting, ',');
    char words[64];
    if (sqlite3_open(file, &store) != SQLITE_OK)
        fail("sqlite3_open");
    execute(!strncmp(setting, "wal", 3) ? "pragma journal_mode=wal" : "pragma journal_mode=delete");
    execute("pragma synchronous=full");
    if (cache) {
        snprintf(words, sizeof words, "pragma cache_size=-%ld", atol(cache + 1) * 1024);
        execute(words);
    }
    execute("create table if not exists records(key blob primary key, value blob) without rowid");
    begin = prepared("begin immediate");
    commit = prepared("commit");
    insert = prepared("insert or ignore into records values(?1, ?2)");
    update = prepared("update records set value = ?2 where key = ?1");
    delete = prepared("delete from records where key = ?1");
    find = prepared("select value from records where key = ?1");
    walk = prepared("select key, value from records where key >= ?1 and (?2 is null or key < ?2) order by key limit ?3");
}

static void bind(sqlite3_stmt *statement, int place, struct bytes word)
{
    sqlite3_bind_blob(statement, place, word.at, (int)word.count, SQLITE_STATIC);
}

static struct bytes column(sqlite3_stmt *statement, int place)
{
    const char *at = sqlite3_column_blob(statement, place);
    return (struct bytes){at ? at : "", (size_t)sqlite3_column_bytes(statement, place)};
}

/* Does it in a transaction of its own; how many records were changed. */
static int done(sqlite3_stmt *statement)
{
    if (sqlite3_step(statement) != SQLITE_DONE)
        fail(sqlite3_errmsg(store));
    sqlite3_reset(statement);
    return sqlite3_changes(store);
}

void store_begin(void)
{
    done(begin);
}

void store_commit(void)
{
    done(commit);
}

int store_put(struct bytes key, struct bytes value)
{
    bind(insert, 1, key);
    bind(insert, 2, value);
    if (done(insert))
        return 0;
    bind(update, 1, key);
    bind(update, 2, value);
    return done(update);
}

int store_remove(struct bytes key)
{
    bind(delete, 1, key);
    return done(delete);
}

void store_append(struct bytes key, struct bytes value)
{
    bind(insert, 1, key);
    bind(insert, 2, value);
    done(insert);
}

int store_get(struct bytes key)
{
    bind(find, 1, key);
    int found = sqlite3_step(find) == SQLITE_ROW;
    if (found)
        say_found(column(find, 0));
    sqlite3_reset(find);
    return found;
}

void store_range(struct bytes low, const struct bytes *high, unsigned long limit)
{
    bind(walk, 1, low);
    if (high)
        bind(walk, 2, *high);
    else
        sqlite3_bind_null(walk, 2);
    sqlite3_bind_int64(walk, 3, limit > 0xFFFFFFFFUL ? -1 : (sqlite3_int64)limit);
    while (sqlite3_step(walk) == SQLITE_ROW)
        say_record(column(walk, 0), column(walk, 1));
    sqlite3_reset(walk);
}

static int stepped(sqlite3_stmt *statement, struct record *found)
{
    if (sqlite3_step(statement) != SQLITE_ROW)
        return 0;
    *found = (struct record){column(statement, 0), column(statement, 1)};
    return 1;
}

// Puts the statement of a cursor before a bound, and takes its first step.
static int sought(sqlite3_stmt **statement, const char *text, struct bytes bound, struct record *found)
{
    if (!*statement)
        *statement = prepared(text);
    sqlite3_bind_blob(*statement, 1, bound.at, (int)bound.count, SQLITE_TRANSIENT); // it outlives the line
    return stepped(*statement, found);
}

int store_seek(int cursor, struct bytes low, struct record *found)
{
    return sought(&cursors[cursor], "select key, value from records where key >= ?1 order by key", low, found);
}

int store_step(int cursor, struct record *found)
{
    return stepped(cursors[cursor], found);
}

int store_seek_back(int cursor, struct bytes high, struct record *found)
{
    return sought(&backs[cursor], "select key, value from records where key < ?1 order by key desc", high, found);
}

int store_step_back(int cursor, struct record *found)
{
    return stepped(backs[cursor], found);
}

void store_leave(int cursor)
{
    sqlite3_reset(cursors[cursor]);
    sqlite3_reset(backs[cursor]);
}

void store_close(void)
{
    for (int n = 0; n < CURSORS; n++) {
        sqlite3_finalize(cursors[n]);
        sqlite3_finalize(backs[n]);
    }
    sqlite3_finalize(begin);
    sqlite3_finalize(commit);
    sqlite3_finalize(insert);
    sqlite3_finalize(update);
    sqlite3_finalize(delete);
    sqlite3_finalize(find);
    sqlite3_finalize(walk);
    sqlite3_close(store);
}

const char *store_version(void)
{
    return "SQLite " SQLITE_VERSION;
}
