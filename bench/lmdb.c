/* LMDB behind the program's script language. It has no setting. As its manual advises: one read transaction and one cursor,
   renewed for each reading; the transaction stays while cursors of a script are set in it. A commit syncs the data, and
   writes the meta page through a descriptor opened with O_DSYNC. */
#include "script.h"
#include <lmdb.h>

static MDB_env *environment;
static MDB_dbi records;
static MDB_txn *reading, *writing;
static MDB_cursor *cursor, *cursors[CURSORS];
static int set_count, is_batch;
const unsigned long store_bulk = ~0UL;

static void want(int answer)
{
    if (answer)
        fail(mdb_strerror(answer));
}

void store_open(const char *file, const char *setting)
{
    MDB_txn *making;
    (void)setting;
    want(mdb_env_create(&environment));
    want(mdb_env_set_mapsize(environment, (size_t)4 << 30));
    want(mdb_env_open(environment, file, MDB_NOSUBDIR, 0644));
    want(mdb_txn_begin(environment, NULL, 0, &making));
    want(mdb_dbi_open(making, NULL, 0, &records));
    want(mdb_txn_commit(making));
    want(mdb_txn_begin(environment, NULL, MDB_RDONLY, &reading));
    want(mdb_cursor_open(reading, records, &cursor));
    mdb_txn_reset(reading);
}

static MDB_val seen(struct bytes word)
{
    return (MDB_val){word.count, (void *)word.at};
}

static struct bytes bytes_of(MDB_val word)
{
    return (struct bytes){word.mv_data, word.mv_size};
}

static void begin_reading(void)
{
    if (!set_count)
        want(mdb_txn_renew(reading));
}

static void end_reading(void)
{
    if (!set_count)
        mdb_txn_reset(reading);
}

static void begin_writing(void)
{
    if (!is_batch)
        want(mdb_txn_begin(environment, NULL, 0, &writing));
}

static void end_writing(void)
{
    if (!is_batch)
        want(mdb_txn_commit(writing));
}

void store_begin(void)
{
    begin_writing();
    is_batch = 1;
}

void store_commit(void)
{
    is_batch = 0;
    end_writing();
}

int store_put(struct bytes key, struct bytes value)
{
    MDB_val key_seen = seen(key), value_seen = seen(value);
    begin_writing();
    int answer = mdb_put(writing, records, &key_seen, &value_seen, MDB_NOOVERWRITE);
    if (answer == MDB_KEYEXIST) {
        value_seen = seen(value); /* the call has left the old value in its place */
        want(mdb_put(writing, records, &key_seen, &value_seen, 0));
    } else {
        want(answer);
    }
    end_writing();
    return answer == MDB_KEYEXIST;
}

int store_remove(struct bytes key)
{
    MDB_val key_seen = seen(key);
    begin_writing();
    int answer = mdb_del(writing, records, &key_seen, NULL);
    if (answer != MDB_NOTFOUND)
        want(answer);
    end_writing(); /* where nothing was changed, a commit writes nothing */
    return answer != MDB_NOTFOUND;
}

void store_append(struct bytes key, struct bytes value)
{
    MDB_val key_seen = seen(key), value_seen = seen(value);
    want(mdb_put(writing, records, &key_seen, &value_seen, MDB_APPEND));
}

int store_get(struct bytes key)
{
    MDB_val key_seen = seen(key), value;
    begin_reading();
    int found = mdb_get(reading, records, &key_seen, &value) == 0;
    if (found)
        say_found(bytes_of(value));
    end_reading();
    return found;
}

void store_range(struct bytes low, const struct bytes *high, unsigned long limit)
{
    MDB_val key = seen(low), value;
    begin_reading();
    want(mdb_cursor_renew(reading, cursor));
    int answer = mdb_cursor_get(cursor, &key, &value, low.count ? MDB_SET_RANGE : MDB_FIRST);
    for (; limit && !answer && (!high || compare_keys(bytes_of(key), *high) < 0); limit--) {
        say_record(bytes_of(key), bytes_of(value));
        if (limit > 1)
            answer = mdb_cursor_get(cursor, &key, &value, MDB_NEXT);
    }
    end_reading();
}

static int moved(int number, MDB_val key, MDB_cursor_op how, struct record *found)
{
    MDB_val value;
    if (mdb_cursor_get(cursors[number], &key, &value, how))
        return 0;
    *found = (struct record){bytes_of(key), bytes_of(value)};
    return 1;
}

static void begin_walk(int number)
{
    begin_reading();
    set_count++;
    want(cursors[number] ? mdb_cursor_renew(reading, cursors[number]) : mdb_cursor_open(reading, records, &cursors[number]));
}

int store_seek(int number, struct bytes low, struct record *found)
{
    begin_walk(number);
    return moved(number, seen(low), low.count ? MDB_SET_RANGE : MDB_FIRST, found);
}

int store_step(int number, struct record *found)
{
    return moved(number, (MDB_val){0, NULL}, MDB_NEXT, found);
}

int store_seek_back(int number, struct bytes high, struct record *found)
{
    begin_walk(number);
    return moved(number, (MDB_val){0, NULL}, moved(number, seen(high), MDB_SET_RANGE, found) ? MDB_PREV : MDB_LAST, found);
}

int store_step_back(int number, struct record *found)
{
    return moved(number, (MDB_val){0, NULL}, MDB_PREV, found);
}

void store_leave(int number)
{
    (void)number;
    set_count--;
    end_reading();
}

void store_close(void)
{
    for (int n = 0; n < CURSORS; n++)
        if (cursors[n])
            mdb_cursor_close(cursors[n]);
    mdb_cursor_close(cursor);
    mdb_txn_abort(reading);
    mdb_env_close(environment);
}

const char *store_version(void)
{
    return mdb_version(NULL, NULL, NULL);
}
