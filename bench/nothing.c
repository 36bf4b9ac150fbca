/* Keeps nothing, and answers each command with a line as long as a store's: what the script language costs by itself.
   Setting: how many records a range without a limit says. */
#include "script.h"
#include <stdlib.h>

static const struct bytes some_key = {"0123456789abcdef", 16};
static const struct bytes some_value = {"0123456789abcdef0123456789abcdef", 32};
static unsigned long records;
const unsigned long store_bulk = ~0UL;

void store_open(const char *file, const char *setting)
{
    (void)file;
    records = strtoul(setting, NULL, 10);
}

void store_begin(void)
{
}

void store_commit(void)
{
}

int store_put(struct bytes key, struct bytes value)
{
    (void)key;
    (void)value;
    return 0;
}

int store_remove(struct bytes key)
{
    (void)key;
    return 1;
}

void store_append(struct bytes key, struct bytes value)
{
    (void)key;
    (void)value;
}

int store_get(struct bytes key)
{
    (void)key;
    say_found(some_value);
    return 1;
}

void store_range(struct bytes low, const struct bytes *high, unsigned long limit)
{
    (void)low;
    (void)high;
    for (unsigned long n = limit < records ? limit : records; n; n--)
        say_record(some_key, some_value);
}

int store_seek(int cursor, struct bytes low, struct record *found)
{
    (void)low;
    return store_step(cursor, found);
}

int store_step(int cursor, struct record *found)
{
    (void)cursor;
    *found = (struct record){some_key, some_value};
    return 1;
}

int store_seek_back(int cursor, struct bytes high, struct record *found)
{
    (void)high;
    return store_step(cursor, found);
}

int store_step_back(int cursor, struct record *found)
{
    return store_step(cursor, found);
}

void store_leave(int cursor)
{
    (void)cursor;
}

void store_close(void)
{
}

const char *store_version(void)
{
    return "nothing";
}
