/* Reads a script and says its replies, in the same pieces as the program: the script is read in pieces of 4096 bytes, each
   reply is one write, and the records of a range are written in pieces of at most 4096 bytes, with `end` for itself.
   Usage of a driver: DRIVER FILE [SETTING] <SCRIPT, or without words for the store's version;
   DRIVER FILE SETTING load <TEXT and DRIVER FILE SETTING dump read and say a load text, and DRIVER FILE SETTING merge <TEXT
   makes the updates of a merge text, in one transaction.

   The commands are put, remove, batch, get, range, open, next, prev and close, with the program's escapes, limits and
   refusals. */
#include "script.h"
#include <stdio.h>
#include <stdlib.h>
#include <string.h>
#include <unistd.h>

enum { PIECE = 4096, LINE = 512, KEY = 24, VALUE = 32, ITEMS = 16, WORDS = 65 };

/* ---- replies ---- */

static char out[PIECE];
static size_t out_count, ranged;

static void send_out(void)
{
    for (size_t at = 0; at < out_count;) {
        ssize_t sent = write(1, out + at, out_count - at);
        if (sent <= 0)
            exit(6);
        at += (size_t)sent;
    }
    out_count = 0;
}

void fail(const char *what)
{
    fprintf(stderr, "%s\n", what);
    exit(4);
}

static void add(const char *text)
{
    size_t count = strlen(text);
    memcpy(out + out_count, text, count);
    out_count += count;
}

/* 1 where each byte of the word stands for itself in a reply: then it is copied whole, as the program does. */
static int is_plain(struct bytes word)
{
    unsigned char odd = 0;
    for (size_t i = 0; i < word.count; i++) {
        unsigned char byte = (unsigned char)word.at[i];
        odd |= (byte < 0x21) | (byte > 0x7E) | (byte == '#') | (byte == '%') | (byte == '*');
    }
    return !odd;
}

static void add_escaped(struct bytes word)
{
    static const char digits[] = "0123456789ABCDEF";
    for (size_t i = 0; i < word.count; i++) {
        unsigned char byte = (unsigned char)word.at[i];
        if (is_plain((struct bytes){word.at + i, 1})) {
            out[out_count++] = (char)byte;
        } else {
            out[out_count++] = '%';
            out[out_count++] = digits[byte >> 4];
            out[out_count++] = digits[byte & 15];
        }
    }
}

static void add_word(struct bytes word)
{
    if (!is_plain(word))
        return add_escaped(word);
    memcpy(out + out_count, word.at, word.count);
    out_count += word.count;
}

static void say(const char *reply)
{
    add(reply);
    add("\n");
    send_out();
}

void say_found(struct bytes value)
{
    add(value.count ? "found " : "found");
    add_word(value);
    say("");
}

static void add_record(struct bytes key, struct bytes value)
{
    add("record ");
    add_word(key);
    if (value.count)
        add(" ");
    add_word(value);
}

void say_record(struct bytes key, struct bytes value)
{
    if (out_count + 9 + 3 * (key.count + value.count) > PIECE)
        send_out();
    add_record(key, value);
    add("\n");
    ranged++;
}

int compare_keys(struct bytes first, struct bytes second)
{
    int bytes = memcmp(first.at, second.at, first.count < second.count ? first.count : second.count);
    return bytes ? bytes : (first.count > second.count) - (first.count < second.count);
}

/* ---- words ---- */

static int digit(char c)
{
    if (c >= '0' && c <= '9')
        return c - '0';
    c |= 0x20;
    return c >= 'a' && c <= 'f' ? c - 'a' + 10 : -1;
}

/* The word with its escapes read, in this place. */
static struct bytes decoded(struct bytes word, char *place)
{
    size_t count = 0;
    for (size_t i = 0; i < word.count; i++) {
        int escape = word.at[i] == '%' && i + 2 < word.count && digit(word.at[i + 1]) >= 0 && digit(word.at[i + 2]) >= 0;
        place[count++] = escape ? (char)(digit(word.at[i + 1]) * 16 + digit(word.at[i + 2])) : word.at[i];
        i += escape ? 2 : 0;
    }
    return (struct bytes){place, count};
}

static int is(struct bytes word, const char *text)
{
    return word.count == strlen(text) && !memcmp(word.at, text, word.count);
}

/* 0 where the word is no number below 2^32. */
static int number(struct bytes word, unsigned long *value)
{
    *value = 0;
    if (word.count > 10 || (word.count > 1 && word.at[0] == '0'))
        return 0;
    for (size_t i = 0; i < word.count; i++) {
        if (word.at[i] < '0' || word.at[i] > '9')
            return 0;
        *value = *value * 10 + (unsigned long)(word.at[i] - '0');
    }
    return *value < 1UL << 32;
}

/* Says what is wrong with these keys and this value, from left to right; 1 where nothing is. */
static int sized(struct bytes key, struct bytes second, size_t most, const char *oversized)
{
    if (key.count > KEY)
        return say("oversized key 24"), 0;
    if (second.count > most)
        return say(oversized), 0;
    return 1;
}

/* ---- cursors ---- */

struct kept {
    char at[KEY + 1];
    size_t count;
};

/* A cursor of the script. Where the store's own is set, it stands on the record that was given last; an update unsets it, and so
   does a step the other way. The next record is then looked for by the key, so that each is one of the store as it is then. */
struct walk {
    int is_open, is_set, is_back, is_begun;
    struct kept name, low, high, last; /* last is the key that was given last, once the walk is begun */
};

static struct walk walks[CURSORS];
static int set_count;

static void keep(struct kept *place, struct bytes word)
{
    memcpy(place->at, word.at, word.count);
    place->count = word.count;
}

static struct bytes kept(const struct kept *place)
{
    return (struct bytes){place->at, place->count};
}

/* The number of the open cursor of this name, -1 where there is none. */
static int walk_of(struct bytes name)
{
    for (int n = 0; n < CURSORS; n++)
        if (walks[n].is_open && !compare_keys(kept(&walks[n].name), name))
            return n;
    return -1;
}

static int free_walk(void)
{
    for (int n = 0; n < CURSORS; n++)
        if (!walks[n].is_open)
            return n;
    return -1;
}

static void unset(int n)
{
    if (walks[n].is_set)
        store_leave(n);
    set_count -= walks[n].is_set;
    walks[n].is_set = 0;
}

static void unset_all(void)
{
    for (int n = 0; set_count && n < CURSORS; n++)
        unset(n);
}

/* Sets the store's cursor on the record that comes next on a way, by the bound or by the key given last; 0 where none is. */
static int set(int n, int is_back, struct record *found)
{
    struct walk *walk = &walks[n];
    walk->is_set = 1;
    walk->is_back = is_back;
    set_count++;
    if (is_back)
        return store_seek_back(n, kept(walk->is_begun ? &walk->last : &walk->high), found);
    int there = store_seek(n, kept(walk->is_begun ? &walk->last : &walk->low), found);
    if (there && walk->is_begun && !compare_keys(found->key, kept(&walk->last)))
        there = store_step(n, found);
    return there;
}

/* Above each key, since it is longer than one may be. */
static struct bytes above_all(void)
{
    static char bytes[KEY + 1];
    memset(bytes, 0xff, sizeof bytes);
    return (struct bytes){bytes, sizeof bytes};
}

static void open_walk(struct bytes *words, int count)
{
    static char name_place[LINE], low_place[LINE], high_place[LINE];
    if (count != 4)
        return say("bad words");
    struct bytes name = decoded(words[1], name_place);
    struct bytes low = decoded(words[2], low_place), high = decoded(words[3], high_place);
    if (is(words[2], "*"))
        low.count = 0;
    if (!sized(name, low, KEY, "oversized key 24") || !sized(high, low, KEY, ""))
        return;
    if (walk_of(name) >= 0)
        return say("cursor open");
    int n = free_walk();
    if (n < 0)
        return say("no room 16");
    if (is(words[3], "*"))
        high = above_all();
    walks[n] = (struct walk){.is_open = 1};
    keep(&walks[n].name, name);
    keep(&walks[n].low, low);
    keep(&walks[n].high, high);
    say("opened");
}

/* Moves the store's cursor on a way; 0 where it comes to no record within the bounds. */
static int moved(int n, int is_back, struct record *found)
{
    struct walk *walk = &walks[n];
    if (walk->is_back != is_back)
        unset(n);
    int there = !walk->is_set ? set(n, is_back, found) : is_back ? store_step_back(n, found) : store_step(n, found);
    return there && compare_keys(found->key, kept(&walk->low)) >= 0 && compare_keys(found->key, kept(&walk->high)) < 0;
}

static void step(struct bytes name, int is_back)
{
    int n = walk_of(name);
    struct record found;
    if (n < 0)
        return say("no cursor");
    struct walk *walk = &walks[n];
    if (!moved(n, is_back, &found)) {
        unset(n);
        walk->is_open = 0;
        return say("end");
    }
    keep(&walk->last, found.key);
    walk->is_begun = 1;
    add_record(found.key, found.value);
    say("");
}

static void next(struct bytes name)
{
    step(name, 0);
}

static void prev(struct bytes name)
{
    step(name, 1);
}

static void close_walk(struct bytes name)
{
    int n = walk_of(name);
    if (n < 0)
        return say("no cursor");
    unset(n);
    walks[n].is_open = 0;
    say("closed");
}

/* ---- commands ---- */

static void put(struct bytes *words, int count)
{
    static char key_place[LINE], value_place[LINE];
    struct bytes key, value = {value_place, 0};
    if (count < 2 || count > 3)
        return say("bad words");
    key = decoded(words[1], key_place);
    if (count == 3)
        value = decoded(words[2], value_place);
    if (!sized(key, value, VALUE, "oversized value 32"))
        return;
    unset_all();
    say(store_put(key, value) ? "replaced" : "stored");
}

static void take_away(struct bytes key)
{
    unset_all();
    say(store_remove(key) ? "removed" : "absent");
}

static void get(struct bytes key)
{
    if (!store_get(key))
        say("absent");
}

static void of_key(struct bytes *words, int count, void (*command)(struct bytes key))
{
    static char place[LINE];
    struct bytes key;
    if (count != 2)
        return say("bad words");
    key = decoded(words[1], place);
    if (sized(key, (struct bytes){place, 0}, 0, ""))
        command(key);
}

struct item {
    int puts;
    struct bytes key, value;
};

/* The item whose words begin at this one, with its escapes; the place behind its end, 0 where they are no item. */
static int read_item(struct bytes *words, int count, int at, struct item *item)
{
    int end = at;
    while (end < count && !is(words[end], ";"))
        end++;
    item->puts = end > at && is(words[at], "put");
    if (!item->puts && !(end > at && is(words[at], "remove")))
        return 0;
    if (end - at != 2 && !(item->puts && end - at == 3))
        return 0;
    item->key = words[at + 1];
    item->value = (struct bytes){"", 0};
    if (end - at == 3)
        item->value = words[at + 2];
    return end + 1;
}

/* How many items the words behind `batch` are; 0 where they are no batch. */
static int read_items(struct bytes *words, int count, struct item *items)
{
    int at = 1, item_count = 0;
    while (item_count < ITEMS && count < WORDS) {
        at = read_item(words, count, at, &items[item_count++]);
        if (!at)
            return 0;
        if (at > count)
            return item_count;
    }
    return 0;
}

/* Reads the escapes of the items; 0 where one is too long, which is said. */
static int all_sized(struct item *items, int count)
{
    static char place[LINE];
    char *at = place;
    for (int i = 0; i < count; i++) {
        items[i].key = decoded(items[i].key, at);
        at += items[i].key.count;
        items[i].value = decoded(items[i].value, at);
        at += items[i].value.count;
        if (!sized(items[i].key, items[i].value, VALUE, "oversized value 32"))
            return 0;
    }
    return 1;
}

static int is_repeated(struct item *items, int count)
{
    for (int i = 0; i < count; i++)
        for (int before = 0; before < i; before++)
            if (!compare_keys(items[i].key, items[before].key))
                return 1;
    return 0;
}

static void batch(struct bytes *words, int word_count)
{
    struct item items[ITEMS];
    int puts = 0, replaced = 0, removed = 0, count = read_items(words, word_count, items);
    char reply[96];
    if (!count)
        return say("bad words");
    if (!all_sized(items, count))
        return;
    if (is_repeated(items, count))
        return say("repeated key");
    unset_all();
    store_begin();
    for (int i = 0; i < count; i++) {
        puts += items[i].puts;
        if (items[i].puts)
            replaced += store_put(items[i].key, items[i].value);
        else
            removed += store_remove(items[i].key);
    }
    store_commit();
    int stored = puts - replaced, absent = count - puts - removed;
    snprintf(reply, sizeof reply, "batch stored=%d replaced=%d removed=%d absent=%d", stored, replaced, removed, absent);
    say(reply);
}

static void range(struct bytes *words, int count)
{
    static char low_place[LINE], high_place[LINE];
    unsigned long limit = ~0UL;
    char end[32];
    if (count < 3 || count > 4)
        return say("bad words");
    struct bytes low = decoded(words[1], low_place), high = decoded(words[2], high_place);
    if (is(words[1], "*"))
        low.count = 0;
    if (!sized(low, high, KEY, "oversized key 24"))
        return;
    if (count == 4 && !number(words[3], &limit))
        return say("bad number");
    ranged = 0;
    store_range(low, is(words[2], "*") ? NULL : &high, limit);
    if (out_count)
        send_out();
    snprintf(end, sizeof end, "end %zu", ranged);
    say(end);
}

static void serve(struct bytes *words, int count)
{
    if (is(words[0], "put"))
        put(words, count);
    else if (is(words[0], "get"))
        of_key(words, count, get);
    else if (is(words[0], "remove"))
        of_key(words, count, take_away);
    else if (is(words[0], "range"))
        range(words, count);
    else if (is(words[0], "batch"))
        batch(words, count);
    else if (is(words[0], "open"))
        open_walk(words, count);
    else if (is(words[0], "next"))
        of_key(words, count, next);
    else if (is(words[0], "prev"))
        of_key(words, count, prev);
    else if (is(words[0], "close"))
        of_key(words, count, close_walk);
    else
        say("bad command");
}

/* ---- load texts and merge texts ---- */

static unsigned long loaded;
static int is_ended;

/* 1 where a line tells the number of those before it. */
static int is_end(struct bytes *words, int count)
{
    unsigned long told;
    return !is_ended && count == 2 && is(words[0], "end") && number(words[1], &told) && told == loaded;
}

/* 1 where a line may stand before the end, and has this word, a key, and at most that many words. */
static int is_text(struct bytes *words, int count, const char *word, int most)
{
    return !is_ended && count >= 2 && count <= most && is(words[0], word);
}

/* Takes a line of a load text, which has a record or tells their number. */
static void load(struct bytes *words, int count)
{
    static char key_place[LINE], value_place[LINE];
    if (is_end(words, count)) {
        is_ended = 1;
        return;
    }
    if (!is_text(words, count, "record", 3))
        fail("no load text");
    if (loaded++ % store_bulk == 0) {
        if (loaded > 1)
            store_commit();
        store_begin();
    }
    struct bytes value = count == 3 ? decoded(words[2], value_place) : (struct bytes){value_place, 0};
    store_append(decoded(words[1], key_place), value);
}

static unsigned long stored, replaced, removed, absent;

/* Takes a line of a merge text, which has an update or tells their number. */
static void merge(struct bytes *words, int count)
{
    static char key_place[LINE], value_place[LINE];
    if (is_end(words, count)) {
        is_ended = 1;
        return;
    }
    int removes = is_text(words, count, "remove", 2);
    if (!removes && !is_text(words, count, "record", 3))
        fail("no merge text");
    if (!loaded++)
        store_begin();
    struct bytes key = decoded(words[1], key_place);
    struct bytes value = count == 3 ? decoded(words[2], value_place) : (struct bytes){value_place, 0};
    (*(removes ? store_remove(key) ? &removed : &absent : store_put(key, value) ? &replaced : &stored))++;
}

/* Ends a load or a merge. */
static void end_text(void)
{
    if (!is_ended)
        fail("no end of the text");
    if (loaded)
        store_commit();
}

static void say_merged(void)
{
    char reply[128];
    snprintf(reply, sizeof reply, "merged stored=%lu replaced=%lu removed=%lu absent=%lu", stored, replaced, removed, absent);
    say(reply);
}

static void dump(void)
{
    struct bytes words[] = {{"range", 5}, {"*", 1}, {"*", 1}};
    range(words, 3);
}

/* ---- lines ---- */

static char script[PIECE + LINE + 2];

/* What is done with the words of a line. */
static void (*take)(struct bytes *words, int count) = serve;

static void take_words(const char *line, size_t length)
{
    struct bytes words[WORDS];
    int count = 0;
    for (size_t at = 0; at < length && count < WORDS;) {
        const char *space = memchr(line + at, ' ', length - at);
        size_t end = space ? (size_t)(space - line) : length;
        if (end > at)
            words[count++] = (struct bytes){line + at, end - at};
        at = end + 1;
    }
    if (count && words[0].at[0] != '#')
        take(words, count);
}

static void take_line(const char *line, size_t length)
{
    if (length > LINE)
        return take == serve ? say("bad line") : fail("no line of a text");
    take_words(line, length && line[length - 1] == '\r' ? length - 1 : length);
}

/* Takes the whole lines among these bytes; how many bytes they have. */
static size_t take_lines(size_t count)
{
    size_t at = 0;
    for (char *feed; (feed = memchr(script + at, '\n', count - at)); at = (size_t)(feed - script) + 1)
        take_line(script + at, (size_t)(feed - script) - at);
    return at;
}

/* Takes the lines of standard input; 0 where a read of it failed. */
static int take_all(void)
{
    size_t kept_count = 0;
    ssize_t taken;
    while ((taken = read(0, script + kept_count, PIECE)) > 0) {
        size_t count = kept_count + (size_t)taken, done = take_lines(count);
        kept_count = count - done;
        memmove(script, script + done, kept_count);
        if (kept_count > LINE + 1)
            kept_count = LINE + 1; /* a longer line is answered alike, whatever it has behind */
    }
    if (kept_count && !taken)
        take_line(script, kept_count);
    return !taken;
}

int main(int words, char **word)
{
    if (words == 1)
        return say(store_version()), 0;
    const char *bulk = words == 4 ? word[3] : "";
    int loads = !strcmp(bulk, "load"), merges = !strcmp(bulk, "merge"), dumps = !strcmp(bulk, "dump");
    if (words > 3 && !loads && !merges && !dumps)
        return 2;
    store_open(word[1], words > 2 ? word[2] : "");
    if (loads || merges)
        take = loads ? load : merge;
    if (dumps)
        dump();
    else if (!take_all())
        return 5;
    if (loads || merges)
        end_text();
    if (merges)
        say_merged();
    unset_all();
    store_close();
    return 0;
}
