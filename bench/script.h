/* What the shared file and a driver know of each other. A driver is a store behind the program's own script language: it has
   the calls named store_.., and the shared file has `main`, reads the script and says the replies. */
#ifndef SCRIPT_H
#define SCRIPT_H
#include <stddef.h>

struct bytes {
    const char *at;
    size_t count;
};

struct record {
    struct bytes key, value;
};

enum { CURSORS = 16 };

/* Opens the store in this file, which is made where it isn't there. The setting is the driver's own. */
void store_open(const char *file, const char *setting);
/* The updates from here on are one transaction, and none of them has a key that another one has. */
void store_begin(void);
/* Ends the transaction; its updates are durable when it returns. */
void store_commit(void);
/* Binds the key, outside a transaction durably when it returns; 1 where the key was there. */
int store_put(struct bytes key, struct bytes value);
/* Takes the record away, outside a transaction durably when it returns; 0 where there is none. */
int store_remove(struct bytes key);
/* Binds a key above all that are there, in a transaction. */
void store_append(struct bytes key, struct bytes value);
/* How many records of a load are one transaction. */
extern const unsigned long store_bulk;
/* Says the value by `say_found`; 0 where there is none, and nothing is said. */
int store_get(struct bytes key);
/* Says the records from low on and below high by `say_record`, at most that many, ascending; no high is no bound. */
void store_range(struct bytes low, const struct bytes *high, unsigned long limit);
/* Sets a cursor of the store's own, of a number below CURSORS, on the first record from low on; 0 where there is none. */
int store_seek(int cursor, struct bytes low, struct record *found);
/* Moves a cursor that is set to the next record; 0 where there is none. Nothing was updated since it was set. */
int store_step(int cursor, struct record *found);
/* The same the other way: sets it on the last record below high; moves it to the record before. */
int store_seek_back(int cursor, struct bytes high, struct record *found);
int store_step_back(int cursor, struct record *found);
/* Lets go of what a cursor that was set holds. */
void store_leave(int cursor);
void store_close(void);
/* The store's name and version. */
const char *store_version(void);

void say_found(struct bytes value);
void say_record(struct bytes key, struct bytes value);
/* Below 0, 0 or above 0 as the first key stands below, at or above the second. */
int compare_keys(struct bytes first, struct bytes second);
/* Ends the driver with status 4. */
void fail(const char *what);
#endif
