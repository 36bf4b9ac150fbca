/* How a program keeps a store open, by the client of clients/c. Usage: client PROGRAM FILE, where FILE isn't there yet. Ends with
   1 where an answer isn't the one that is due. */
#include <pma.h>
#include <stdio.h>
#include <stdlib.h>
#include <string.h>

static pma *store;

/* Ends the program where a call wasn't answered as it is due. */
static void due(pma_code code, pma_code wanted)
{
    if (code == wanted)
        return;
    fprintf(stderr, "%s %s\n", pma_text(code), store ? pma_line(store) : "");
    exit(1);
}

static void put(const char *key, const char *value)
{
    due(pma_put(store, key, strlen(key), value, strlen(value)), PMA_OK); /* it is in the file */
}

/* Moves an order to another state: table and index change together or not at all. */
static void move(const char *number, const char *old, const char *new)
{
    char record[PMA_KEY], from[PMA_KEY], to[PMA_KEY];
    pma_item items[] = {
        {PMA_PUT, record, (size_t)sprintf(record, "record/%s", number), new, strlen(new)},
        {PMA_REMOVE, from, (size_t)sprintf(from, "by/%s/%s", old, number), NULL, 0},
        {PMA_PUT, to, (size_t)sprintf(to, "by/%s/%s", new, number), NULL, 0},
    };
    due(pma_batch(store, items, sizeof items / sizeof *items, NULL), PMA_OK);
}

static int count(void *context, const pma_record *record)
{
    (void)record;
    ++*(int *)context;
    return 0;
}

int main(int words, char **word)
{
    pma_record record;
    int packed = 0;
    if (words != 3)
        return 2;
    due(pma_create(word[1], word[2], 4, 0), PMA_OK);
    due(pma_open(&store, word[1], word[2]), PMA_OK);
    put("record/000017", "packed"), put("by/packed/000017", "");
    put("record/000018", "packed"), put("by/packed/000018", "");
    move("000017", "packed", "sent");
    due(pma_get(store, "record/000017", 13, &record), PMA_OK);
    due(record.value_size == 4 && !memcmp(record.value, "sent", 4) ? PMA_OK : PMA_ABSENT, PMA_OK);
    due(pma_range(store, "by/packed/", 10, "by/packed0", 10, PMA_ALL, count, &packed), PMA_OK);
    due(pma_remove(store, "record/000019", 13), PMA_ABSENT);
    due(pma_close(store), PMA_OK);
    return packed != 1;
}
