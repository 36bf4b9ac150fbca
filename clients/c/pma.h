/* Ordered stores of short records, each in one file, by a process of the program `pma` for each that is open.

   Every call answers PMA_OK or another code. Where it changes the store, PMA_OK says that the change is in the file, PMA_UNKNOWN
   that it is there, wholly, or isn't, and every other code that nothing was changed. pma(3) tells more. */
#ifndef PMA_H
#define PMA_H

#include <stddef.h>

#ifdef __cplusplus
extern "C" {
#endif

enum {
    PMA_KEY = 40,   /* bytes of a key, at most; 24 where the store wasn't upgraded */
    PMA_VALUE = 80, /* bytes of a value, at most; 32 where the store wasn't upgraded */
    PMA_ITEMS = 16, /* of a batch, at most */
    PMA_LINE = 512  /* bytes of what the program says, or is sent, in one line */
};
#define PMA_ALL 4294967295UL /* the limit of a range that has none */

typedef enum {
    PMA_OK,
    PMA_ABSENT,     /* the key isn't there */
    PMA_END,        /* the cursor has no record there */
    PMA_OVERSIZED,  /* a key, a bound, a value, or the line of a batch has too many bytes, or a key or a bound none */
    PMA_BAD_BATCH,  /* no item, more than 16, or one key twice */
    PMA_FULL,       /* the store has no room for another key, or for what results of a merge */
    PMA_NO_BATCH,   /* the file is of version 1, which has no batches */
    PMA_NO_CURSOR,  /* 16 cursors are open, or the cursor isn't */
    PMA_BUSY,       /* asked amid a call of the same store, by a callback or a handler */
    PMA_FORKED,     /* the store belongs to the process from which this one was forked */
    PMA_GIVEN_UP,   /* what gives the updates of a merge gave it up */
    PMA_UNKNOWN,    /* the run ended amid this change, by pma_cause: open the store again and look */
    PMA_IN_USE,     /* another process has the store open */
    PMA_DISK,       /* a call of the disk failed */
    PMA_REFUSED,    /* the file is no store, or was damaged, or updates can't be merged: pma_line says why */
    PMA_MEMORY,     /* there is no memory, here or for the opening */
    PMA_USAGE,      /* the height, the journal or the name is none that the program takes, or it is older than a word */
    PMA_STOPPED,    /* the program ended otherwise, by a signal maybe */
    PMA_TIMED_OUT,  /* the program said nothing for the seconds of pma_timeout, and was killed */
    PMA_UNEXPECTED, /* the reply is none that was due: the program is no `pma`, or one of another age */
    PMA_SYSTEM      /* the system refused a call, also the start of the program: errno says why */
} pma_code;

typedef struct pma pma;

typedef struct {
    size_t key_size, value_size;
    unsigned char key[PMA_KEY], value[PMA_VALUE];
} pma_record;

typedef struct {
    pma *store;
    unsigned long name;
} pma_cursor;

typedef enum { PMA_PUT, PMA_REMOVE } pma_kind;

typedef struct {
    pma_kind kind;
    const void *key;
    size_t key_size;
    const void *value; /* of PMA_PUT */
    size_t value_size;
} pma_item;

typedef struct {
    unsigned long stored, replaced, removed, absent;
} pma_changes;

/* Makes the empty store in a file that is missing or empty, with room for 2^height * (64 - height) records. It has two journals
   and room for an index, so that an update takes two syncs. journal: pages of each journal, 0 what the program takes. A store
   that the program made otherwise is opened as well. */
pma_code pma_create(const char *program, const char *file, unsigned height, unsigned journal);

/* Opens a store; program is its name on the path, or where it is. *store is to be closed whatever is answered. */
pma_code pma_open(pma **store, const char *program, const char *file);

/* Ends the run and frees the store, whatever is answered: how the run ended, if not well and not told before. What was answered
   is in the file. In a forked process it only frees what is there. */
pma_code pma_close(pma *store);

pma_code pma_put(pma *store, const void *key, size_t key_size, const void *value, size_t value_size);
pma_code pma_remove(pma *store, const void *key, size_t key_size);
pma_code pma_get(pma *store, const void *key, size_t key_size, pma_record *record); /* PMA_ABSENT where it isn't there */

/* Makes all items or none. changes, if not NULL, has what they changed. */
pma_code pma_batch(pma *store, const pma_item *items, size_t count, pma_changes *changes);

/* Calls each for the first limit records with keys from low on and below high, in ascending order; NULL is no bound. Once it
   answers other than 0 it is called no more. It must not use the store. */
pma_code pma_range(pma *store, const void *low, size_t low_size, const void *high, size_t high_size, unsigned long limit,
                   int (*each)(void *context, const pma_record *record), void *context);

/* A cursor over these records that gave none yet: next begins with the first of them, prev with the last. Then next gives the
   least key above the last one given, prev the greatest below it. At most 16 are open; PMA_END closes one too. */
pma_code pma_cursor_open(pma *store, const void *low, size_t low_size, const void *high, size_t high_size, pma_cursor *cursor);
pma_code pma_cursor_next(pma_cursor *cursor, pma_record *record);
pma_code pma_cursor_prev(pma_cursor *cursor, pma_record *record);
pma_code pma_cursor_close(pma_cursor *cursor);

/* Makes any number of updates, all or none, by a process of their own between two runs: cursors end. next is called for one after
   the other, in the ascending order of their keys: it fills the item and answers 1, or 0 behind the last one, or -1 to give all of
   them up. It must not use the store. What it points at is read before the next call. After PMA_FULL, PMA_REFUSED, PMA_OVERSIZED
   and PMA_GIVEN_UP nothing was changed, and the store goes on, as after PMA_OK; pma_cause says why, where it couldn't be opened
   again. */
pma_code pma_merge(pma *store, int (*next)(void *context, pma_item *update), void *context, pma_changes *changes);

/* From now on the program may say nothing for so many seconds while it is waited for; 0 is no limit, as at first. */
void pma_timeout(pma *store, unsigned seconds);

const char *pma_text(pma_code code);      /* what a code means, in a few words */
pma_code pma_cause(const pma *store);     /* why the run has ended; PMA_OK as long as it isn't known to have */
long pma_pid(const pma *store);           /* the number of the program's process; 0 once it has ended */
const char *pma_line(const pma *store);   /* what PMA_REFUSED, PMA_FULL of a merge or PMA_UNEXPECTED was said by; "" by nothing */

#ifdef __cplusplus
}
#endif

#endif
