/* LevelDB behind the program's script language. Setting: the cache in MiB, 8 where there is none.
   As its manual advises: writes with `sync`, a bloom filter of 10 bits a key, a load in batches of 1000. A cursor is an
   iterator: it sees the store as it was when it was made, and is left before each update. */
#include "script.h"
#include <leveldb/c.h>
#include <stdio.h>
#include <stdlib.h>

static leveldb_t *store;
static leveldb_options_t *options;
static leveldb_writeoptions_t *synced;
static leveldb_readoptions_t *reading;
static leveldb_cache_t *cache;
static leveldb_filterpolicy_t *filter;
static leveldb_writebatch_t *batch;
static leveldb_iterator_t *cursors[CURSORS];
static int is_batch;
const unsigned long store_bulk = 1000;

static void want(char *error)
{
    if (error)
        fail(error);
}

void store_open(const char *file, const char *setting)
{
    char *error = NULL;
    options = leveldb_options_create();
    leveldb_options_set_create_if_missing(options, 1);
    filter = leveldb_filterpolicy_create_bloom(10);
    leveldb_options_set_filter_policy(options, filter);
    if (*setting) {
        cache = leveldb_cache_create_lru((size_t)atol(setting) << 20);
        leveldb_options_set_cache(options, cache);
    }
    store = leveldb_open(options, file, &error);
    want(error);
    synced = leveldb_writeoptions_create();
    leveldb_writeoptions_set_sync(synced, 1);
    reading = leveldb_readoptions_create();
    batch = leveldb_writebatch_create();
}

static int is_there(struct bytes key)
{
    char *error = NULL, *value;
    size_t count;
    value = leveldb_get(store, reading, key.at, key.count, &count, &error);
    want(error);
    free(value);
    return value != NULL;
}

void store_begin(void)
{
    is_batch = 1;
}

void store_commit(void)
{
    char *error = NULL;
    leveldb_write(store, synced, batch, &error);
    want(error);
    leveldb_writebatch_clear(batch);
    is_batch = 0;
}

int store_put(struct bytes key, struct bytes value)
{
    char *error = NULL;
    int was_there = is_there(key);
    if (is_batch)
        leveldb_writebatch_put(batch, key.at, key.count, value.at, value.count);
    else
        leveldb_put(store, synced, key.at, key.count, value.at, value.count, &error);
    want(error);
    return was_there;
}

int store_remove(struct bytes key)
{
    char *error = NULL;
    if (!is_there(key))
        return 0;
    if (is_batch)
        leveldb_writebatch_delete(batch, key.at, key.count);
    else
        leveldb_delete(store, synced, key.at, key.count, &error);
    want(error);
    return 1;
}

void store_append(struct bytes key, struct bytes value)
{
    leveldb_writebatch_put(batch, key.at, key.count, value.at, value.count);
}

int store_get(struct bytes key)
{
    char *error = NULL;
    struct bytes value;
    value.at = leveldb_get(store, reading, key.at, key.count, &value.count, &error);
    want(error);
    if (!value.at)
        return 0;
    say_found(value);
    free((char *)value.at);
    return 1;
}

void store_range(struct bytes low, const struct bytes *high, unsigned long limit)
{
    leveldb_iterator_t *walk = leveldb_create_iterator(store, reading);
    for (leveldb_iter_seek(walk, low.at, low.count); limit && leveldb_iter_valid(walk); limit--) {
        struct bytes key, value;
        key.at = leveldb_iter_key(walk, &key.count);
        value.at = leveldb_iter_value(walk, &value.count);
        if (high && compare_keys(key, *high) >= 0)
            break;
        say_record(key, value);
        if (limit > 1)
            leveldb_iter_next(walk);
    }
    leveldb_iter_destroy(walk);
}

static int seen(int cursor, struct record *found)
{
    if (!leveldb_iter_valid(cursors[cursor]))
        return 0;
    found->key.at = leveldb_iter_key(cursors[cursor], &found->key.count);
    found->value.at = leveldb_iter_value(cursors[cursor], &found->value.count);
    return 1;
}

int store_seek(int cursor, struct bytes low, struct record *found)
{
    cursors[cursor] = leveldb_create_iterator(store, reading);
    leveldb_iter_seek(cursors[cursor], low.at, low.count);
    return seen(cursor, found);
}

int store_step(int cursor, struct record *found)
{
    leveldb_iter_next(cursors[cursor]);
    return seen(cursor, found);
}

int store_seek_back(int cursor, struct bytes high, struct record *found)
{
    cursors[cursor] = leveldb_create_iterator(store, reading);
    leveldb_iter_seek(cursors[cursor], high.at, high.count);
    if (leveldb_iter_valid(cursors[cursor]))
        leveldb_iter_prev(cursors[cursor]);
    else
        leveldb_iter_seek_to_last(cursors[cursor]);
    return seen(cursor, found);
}

int store_step_back(int cursor, struct record *found)
{
    leveldb_iter_prev(cursors[cursor]);
    return seen(cursor, found);
}

void store_leave(int cursor)
{
    leveldb_iter_destroy(cursors[cursor]);
}

void store_close(void)
{
    leveldb_writebatch_destroy(batch);
    leveldb_close(store);
    leveldb_options_destroy(options);
    leveldb_filterpolicy_destroy(filter);
    if (cache)
        leveldb_cache_destroy(cache);
}

const char *store_version(void)
{
    static char version[32];
    snprintf(version, sizeof version, "LevelDB %d.%d", leveldb_major_version(), leveldb_minor_version());
    return version;
}
