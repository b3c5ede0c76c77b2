/* Each call and each code but MEERKAT_MEMORY once, the layout of the structs as the archive has it, and that a call that
 * refuses changes nothing: the progress bytes are the same before and after it. */
#include "meerkat.h"

#include <stdio.h>
#include <string.h>

_Static_assert(sizeof(meerkat_game) == sizeof(void *) + 8 || sizeof(void *) == 4, "meerkat_game");
_Static_assert(offsetof(meerkat_game, held) == sizeof(void *), "meerkat_game.held");
_Static_assert(sizeof(meerkat_bank) == 2 * sizeof(void *) && offsetof(meerkat_bank, length) == sizeof(void *), "meerkat_bank");
_Static_assert(sizeof(meerkat_refusal) == 48 && offsetof(meerkat_refusal, at) == 8, "meerkat_refusal");
_Static_assert(offsetof(meerkat_refusal, wanted) == 24 && offsetof(meerkat_refusal, column) == 40, "meerkat_refusal");
_Static_assert(sizeof(meerkat_event) == 16 && offsetof(meerkat_event, number) == 8, "meerkat_event");
_Static_assert(sizeof(meerkat_item) == 36 && offsetof(meerkat_item, earned) == 12, "meerkat_item");
_Static_assert(offsetof(meerkat_item, measured) == 16 && offsetof(meerkat_item, number) == 32, "meerkat_item");
_Static_assert(sizeof(meerkat_cell) == 12 && offsetof(meerkat_cell, whole) == 8, "meerkat_cell");
_Static_assert(sizeof(meerkat_unlock) == 12 && offsetof(meerkat_unlock, waited) == 8, "meerkat_unlock");
_Static_assert(sizeof(meerkat_hits) == 12 && offsetof(meerkat_hits, hits) == 8, "meerkat_hits");

static int failed;

static void wants(const char *what, uint32_t code, uint32_t wanted) {
    if (code != wanted) {
        printf("%s: %u, not %u\n", what, (unsigned)code, (unsigned)wanted);
        failed = 1;
    }
}

static uint32_t make(meerkat_game *game, const char *text, uint32_t size, meerkat_refusal *why) {
    return meerkat_new((const uint8_t *)text, strlen(text), size, game, why);
}

static uint32_t judge(uint32_t kind, const char *text, meerkat_refusal *why) {
    return meerkat_judge(kind, (const uint8_t *)text, strlen(text), why);
}

/* Whether the progress of a game is what it was, kept in bytes that this call keeps too. */
static uint8_t kept[512];
static size_t kept_count;

static void keep(const meerkat_game *game) {
    wants("progress to keep", meerkat_save(game, kept, sizeof kept, &kept_count), MEERKAT_DONE);
}

static void stays(const char *what, const meerkat_game *game) {
    uint8_t now[512] = {0};
    size_t count = 0;
    wants(what, meerkat_save(game, now, sizeof now, &count), MEERKAT_DONE);
    wants(what, (uint32_t)(count == kept_count && memcmp(now, kept, count) == 0), 1);
}

/* Calls over a handle that holds nothing. */
static void over_nothing(void) {
    meerkat_game game = {0};
    meerkat_refusal why = {0};
    meerkat_event events[1] = {{0}};
    meerkat_item items[1] = {{0}};
    meerkat_unlock unlock = {0};
    meerkat_hits hits[1] = {{0}};
    meerkat_cell cells[1] = {{0}};
    uint32_t id = 1;
    uint8_t bytes[128] = {0};
    meerkat_bank bank = {bytes, 64};
    size_t count = 7;
    wants("free of nothing", meerkat_free(&game), MEERKAT_EMPTY);
    wants("frame of nothing", meerkat_frame(&game, &bank, 1), MEERKAT_EMPTY);
    wants("events of nothing", meerkat_events(&game, events, 1, &count), MEERKAT_EMPTY);
    wants("lines of nothing", meerkat_lines(&game, bytes, 128, &count), MEERKAT_EMPTY);
    wants("items of nothing", meerkat_items(&game, items, 1, &count), MEERKAT_EMPTY);
    wants("earned of nothing", meerkat_earn(&game, &id, 1), MEERKAT_EMPTY);
    wants("cells of nothing", meerkat_cells(&game, cells, 1, &count), MEERKAT_EMPTY);
    wants("number of nothing", meerkat_number(&game, 1, 1, bytes, 128, &count), MEERKAT_EMPTY);
    wants("presence of nothing", meerkat_presence(&game, bytes, 128, &count), MEERKAT_EMPTY);
    wants("size of nothing", meerkat_save_size(&game, &count), MEERKAT_EMPTY);
    wants("save of nothing", meerkat_save(&game, bytes, 128, &count), MEERKAT_EMPTY);
    wants("restore of nothing", meerkat_restore(&game, bytes, 1, &why), MEERKAT_EMPTY);
    wants("reset of nothing", meerkat_reset(&game), MEERKAT_EMPTY);
    wants("slots of nothing", meerkat_slots(&game, 1), MEERKAT_EMPTY);
    wants("keep of nothing", meerkat_keep(&game, 0), MEERKAT_EMPTY);
    wants("take of nothing", meerkat_take(&game, 0), MEERKAT_EMPTY);
    wants("record of nothing", meerkat_record(&game, 1), MEERKAT_EMPTY);
    wants("explanation of nothing", meerkat_explain(&game, hits, 1, &count, &unlock), MEERKAT_EMPTY);
    wants("the count stays", (uint32_t)count, 7);
}

/* Whether a call that gives a text gave this one. */
static void says(const char *what, uint32_t code, const uint8_t *out, const size_t *count, const char *wanted) {
    wants(what, code, MEERKAT_DONE);
    wants(wanted, (uint32_t)(*count == strlen(wanted) && memcmp(out, wanted, *count) == 0), 1);
}

/* What codes and refusals say. */
static void texts(void) {
    static const char *const said[] = {"done", "memory ran out", "the text is no set", "the bytes are no progress of the set",
        "a size, an id, a kind or a flag is out of range", "there is too little room", "the handle holds no game",
        "the handle holds a game already", "there is no unlock to explain", "nothing is left of the document"};
    meerkat_refusal why = {0};
    uint8_t out[128] = {0};
    size_t count = 0;
    uint32_t k;
    for (k = 0; k < 10; k++)
        says("an error", meerkat_error(k, out, sizeof out, &count), out, &count, said[k]);
    wants("no error", meerkat_error(10, out, sizeof out, &count), MEERKAT_RANGE);
    wants("too little room", meerkat_error(0, out, 3, &count), MEERKAT_ROOM);
    wants("for this", (uint32_t)count, 4);
    wants("no refusal", meerkat_refusal_text(&why, out, sizeof out, &count), MEERKAT_RANGE);
    why.kind = MEERKAT_SYNTAX, why.line = 3, why.column = 14;
    says("a place", meerkat_refusal_text(&why, out, sizeof out, &count), out, &count, "line 3, column 14: outside the grammar");
    why.kind = MEERKAT_DUPLICATE_ID, why.id = 7;
    says("an id", meerkat_refusal_text(&why, out, sizeof out, &count), out, &count, "line 3: the id 7 stands twice");
    why.kind = MEERKAT_TOO_MANY_CONDITIONS, why.found = 65537, why.wanted = 65536;
    says("a limit", meerkat_refusal_text(&why, out, sizeof out, &count), out, &count, "65537 conditions, where 65536 are the most");
    why.kind = MEERKAT_WRONG_LENGTH, why.found = 1, why.wanted = 58;
    says("a length", meerkat_refusal_text(&why, out, sizeof out, &count), out, &count, "progress of 1 bytes in place of 58");
    why.kind = MEERKAT_NOT_JSON;
    says("a document", meerkat_refusal_text(&why, out, sizeof out, &count), out, &count, "the document is no JSON");
    wants("too little room", meerkat_refusal_text(&why, out, 22, &count), MEERKAT_ROOM);
    for (why.kind = 0; why.kind < 30; why.kind++) {
        int is = (why.kind >= 1 && why.kind <= 7) || (why.kind >= 11 && why.kind <= 17) || (why.kind >= 21 && why.kind <= 23);
        wants("a kind", meerkat_refusal_text(&why, out, sizeof out, &count), is ? MEERKAT_DONE : MEERKAT_RANGE);
    }
}

/* Texts that are refused, with what, where, line and column. */
static void refusals(void) {
    static uint8_t large[MEERKAT_MOST_TEXT + 1];
    meerkat_game game = {0};
    meerkat_refusal why = {0};
    wants("no set", make(&game, "A 1 0xH10=5.3\n", 64, &why), MEERKAT_SET);
    wants("its kind", why.kind, MEERKAT_SYNTAX);
    wants("its place", (uint32_t)why.at, 13);
    wants("its line", (uint32_t)why.line, 1);
    wants("its column", (uint32_t)why.column, 14);
    wants("no set", make(&game, "A 1 0=1\nA 2 0x\n", 64, &why), MEERKAT_SET);
    wants("its line", (uint32_t)why.line, 2);
    wants("its column", (uint32_t)why.column, 7);
    wants("an id twice", make(&game, "A 1 0=1\nA 1 0=1\n", 64, &why), MEERKAT_SET);
    wants("its kind", why.kind, MEERKAT_DUPLICATE_ID);
    wants("its id", why.id, 1);
    wants("its line", (uint32_t)why.line, 2);
    wants("too long", meerkat_new(large, sizeof large, 64, &game, &why), MEERKAT_SET);
    wants("its kind", why.kind, MEERKAT_TOO_LONG);
    wants("its length", (uint32_t)why.found, MEERKAT_MOST_TEXT + 1);
    wants("too large", make(&game, "A 1 0xH10=5\n", MEERKAT_MOST_SIZE + 1, &why), MEERKAT_RANGE);
    wants("still nothing", meerkat_free(&game), MEERKAT_EMPTY);
}

/* Items that are judged, and documents that are imported. */
static void judged(void) {
    static const char document[] =
        "{\"PatchData\":{\"Achievements\":[{\"ID\":1,\"MemAddr\":\"0xH10=5\"},{\"ID\":2,\"MemAddr\":\"?\"}],\"Leaderboards\":[]}}";
    meerkat_refusal why = {0};
    uint8_t out[128] = {0};
    size_t count = 0, left = 9;
    wants("a trigger", judge(MEERKAT_ACHIEVEMENT, "0xH10=5.3.", &why), MEERKAT_DONE);
    wants("no trigger", judge(MEERKAT_ACHIEVEMENT, "0xH10=5.3", &why), MEERKAT_SET);
    wants("its place", (uint32_t)why.at, 9);
    wants("its column", (uint32_t)why.column, 10);
    wants("two lines", judge(MEERKAT_ACHIEVEMENT, "0=1\nA 2 0=1", &why), MEERKAT_SET);
    wants("its place", (uint32_t)why.at, 3);
    wants("a leaderboard", judge(MEERKAT_LEADERBOARD, "STA:0=1::CAN:0=1::SUB:0=1::VAL:0xH10", &why), MEERKAT_DONE);
    wants("no leaderboard", judge(MEERKAT_LEADERBOARD, "STA:0=1", &why), MEERKAT_SET);
    wants("a script", judge(MEERKAT_PRESENCE, "Display:\nHello\n", &why), MEERKAT_DONE);
    wants("no script", judge(MEERKAT_PRESENCE, "", &why), MEERKAT_SET);
    wants("no kind", judge(4, "0=1", &why), MEERKAT_RANGE);
    wants("an import", meerkat_import((const uint8_t *)document, strlen(document), 0, out, sizeof out, &count, &left, &why), MEERKAT_DONE);
    wants("one left out", (uint32_t)left, 1);
    wants("its set", (uint32_t)(count == 12 && memcmp(out, "A 1 0xH10=5\n", 12) == 0), 1);
    wants("too little room", meerkat_import((const uint8_t *)document, strlen(document), 0, out, 11, &count, &left, &why), MEERKAT_ROOM);
    wants("no such flag", meerkat_import((const uint8_t *)document, strlen(document), 2, out, sizeof out, &count, &left, &why), MEERKAT_RANGE);
    wants("two flags", meerkat_import((const uint8_t *)document, strlen(document), 3, out, sizeof out, &count, &left, &why), MEERKAT_RANGE);
    wants("the count stays", (uint32_t)count, 12);
    wants("no document", meerkat_import((const uint8_t *)"{", 1, 0, out, sizeof out, &count, &left, &why), MEERKAT_DOCUMENT);
    wants("its kind", why.kind, MEERKAT_NOT_JSON);
    wants("no patch", meerkat_import((const uint8_t *)"{}", 2, 0, out, sizeof out, &count, &left, &why), MEERKAT_DOCUMENT);
    wants("its field", why.id, 1);
}

/* A document with an unofficial achievement that has the id of an official one behind it. */
static void official(void) {
    static const char document[] =
        "{\"PatchData\":{\"Achievements\":[{\"ID\":1,\"MemAddr\":\"0xH10=1\",\"Flags\":5},{\"ID\":1,\"MemAddr\":\"0xH10=2\",\"Flags\":3},"
        "{\"ID\":2,\"MemAddr\":\"?\",\"Flags\":5},{\"ID\":3,\"MemAddr\":\"0xH10=3\",\"Flags\":\"5\"},{\"ID\":1,\"MemAddr\":\"0xH10=4\"}],"
        "\"Leaderboards\":[]}}";
    const uint8_t *bytes = (const uint8_t *)document;
    meerkat_refusal why = {0};
    uint8_t out[128] = {0};
    size_t count = 0, left = 9;
    says("all", meerkat_import(bytes, strlen(document), 0, out, sizeof out, &count, &left, &why), out, &count, "A 1 0xH10=1\nA 3 0xH10=3\n");
    wants("two ids that are taken and a bad text", (uint32_t)left, 3);
    says("the official ones", meerkat_import(bytes, strlen(document), MEERKAT_OFFICIAL, out, sizeof out, &count, &left, &why), out, &count,
        "A 1 0xH10=2\nA 3 0xH10=3\n");
    wants("two unofficial ones and an id that is taken", (uint32_t)left, 3);
    wants("too little room", meerkat_import(bytes, strlen(document), MEERKAT_OFFICIAL, out, 23, &count, &left, &why), MEERKAT_ROOM);
    wants("how much there has to be", (uint32_t)count, 24);
    wants("no document", meerkat_import((const uint8_t *)"{}", 2, MEERKAT_OFFICIAL, out, sizeof out, &count, &left, &why), MEERKAT_DOCUMENT);
    wants("its field", why.id, 1);
}

/* A game that is played: an achievement, a measured one, a leaderboard and a script. */
static const char set[] =
    "A 1 0xH10=5\n"
    "A 2 G:0xH11>=8\n"
    "L 9 SECS STA:0xH12=1::CAN:0xH12=2::SUB:0xH12=3::VAL:0xH13\n"
    "P\n"
    "Display:\n"
    "Lives @Number(0xH13)\n";

static uint8_t ram[64];

static void play(meerkat_game *game) {
    meerkat_bank banks[3] = {{ram, 16}, {ram + 16, 1}, {ram + 17, 47}};
    meerkat_refusal why = {0};
    uint8_t bytes[128] = {0};
    size_t count = 0;
    wants("a set", make(game, set, 64, &why), MEERKAT_DONE);
    keep(game);
    wants("one more", make(game, set, 64, &why), MEERKAT_HELD);
    stays("after one more", game);
    wants("two banks of three", meerkat_frame(game, banks, 2), MEERKAT_RANGE);
    wants("no banks", meerkat_frame(game, banks, 0), MEERKAT_RANGE);
    stays("after other banks", game);
    wants("another id", meerkat_record(game, 3), MEERKAT_RANGE);
    wants("a record", meerkat_record(game, 1), MEERKAT_DONE);
    wants("a frame", meerkat_frame(game, banks, 3), MEERKAT_DONE);
    wants("a late record", meerkat_record(game, 1), MEERKAT_RANGE);
    ram[0x10] = 5;
    ram[0x11] = 3;
    ram[0x12] = 1;
    ram[0x13] = 75;
    wants("a frame", meerkat_frame(game, banks, 3), MEERKAT_DONE);
    keep(game);
    wants("a presence", meerkat_presence(game, bytes, sizeof bytes, &count), MEERKAT_DONE);
    wants("its text", (uint32_t)(count == 8 && memcmp(bytes, "Lives 75", 8) == 0), 1);
    wants("too little room", meerkat_presence(game, bytes, 7, &count), MEERKAT_ROOM);
    wants("a number", meerkat_number(game, 9, 75, bytes, sizeof bytes, &count), MEERKAT_DONE);
    wants("its text", (uint32_t)(count == 4 && memcmp(bytes, "1:15", 4) == 0), 1);
    wants("of no leaderboard", meerkat_number(game, 1, 75, bytes, sizeof bytes, &count), MEERKAT_RANGE);
    stays("after what is told", game);
}

/* What happened at the second frame. */
static void what_happened(const meerkat_game *game) {
    meerkat_event events[MEERKAT_MOST_EVENTS(2, 1)];
    meerkat_hits hits[1] = {{0}};
    meerkat_unlock unlock = {0};
    uint8_t bytes[128] = {0};
    size_t count = 0;
    memset(events, 0, sizeof events);
    wants("no room", meerkat_events(game, events, 0, &count), MEERKAT_ROOM);
    wants("how many", (uint32_t)count, 4);
    wants("events", meerkat_events(game, events, MEERKAT_MOST_EVENTS(2, 1), &count), MEERKAT_DONE);
    wants("an unlock", events[0].kind, MEERKAT_UNLOCK);
    wants("its id", events[0].id, 1);
    wants("a measured number", events[1].kind, MEERKAT_MEASURED);
    wants("which", (uint32_t)events[1].number, 3);
    wants("a start", events[2].kind, MEERKAT_START);
    wants("a track", events[3].kind, MEERKAT_TRACK);
    wants("lines", meerkat_lines(game, bytes, sizeof bytes, &count), MEERKAT_DONE);
    wants("as text", (uint32_t)(count > 11 && memcmp(bytes, "unlock 1 1\n", 11) == 0), 1);
    wants("too little room", meerkat_explain(game, hits, 0, &count, &unlock), MEERKAT_ROOM);
    wants("an explanation", meerkat_explain(game, hits, 1, &count, &unlock), MEERKAT_DONE);
    wants("its row", unlock.last, 1);
    wants("its hits", hits[0].hits, 1);
}

/* What the service says is earned: silent from then on, and nothing else changes. */
static void earned(void) {
    static const uint32_t ids[3] = {2, 77, 9};
    meerkat_game game = {0};
    meerkat_refusal why = {0};
    meerkat_bank bank = {ram, 64};
    meerkat_item items[3];
    meerkat_event events[4];
    uint8_t before[512] = {0}, lines[128] = {0};
    size_t count = 0, size = 0;
    memset(ram, 0, sizeof ram);
    memset(items, 0, sizeof items);
    memset(events, 0, sizeof events);
    wants("a set", make(&game, set, 64, &why), MEERKAT_DONE);
    wants("a frame", meerkat_frame(&game, &bank, 1), MEERKAT_DONE);
    ram[0x10] = 5;
    ram[0x11] = 3;
    wants("a frame", meerkat_frame(&game, &bank, 1), MEERKAT_DONE);
    keep(&game);
    wants("none is earned", meerkat_earn(&game, ids + 1, 2), MEERKAT_DONE);
    wants("none is earned", meerkat_earn(&game, ids, 0), MEERKAT_DONE);
    stays("after ids of no achievement", &game);
    wants("one is earned", meerkat_earn(&game, ids, 3), MEERKAT_DONE);
    wants("lines", meerkat_lines(&game, lines, sizeof lines, &count), MEERKAT_DONE);
    wants("the last frame's stay", (uint32_t)(count == 26 && memcmp(lines, "unlock 1 1\nmeasured 1 2 3\n", 26) == 0), 1);
    wants("items", meerkat_items(&game, items, 3, &count), MEERKAT_DONE);
    wants("the first unlocked", items[0].earned, 1);
    wants("the second is earned", items[1].earned, 1);
    wants("a leaderboard is not", items[2].earned, 0);
    wants("its state stays", items[1].state, MEERKAT_ACTIVE);
    ram[0x11] = 8;
    wants("a frame", meerkat_frame(&game, &bank, 1), MEERKAT_DONE);
    wants("events", meerkat_events(&game, events, 4, &count), MEERKAT_DONE);
    wants("none of what is earned", (uint32_t)count, 0);
    wants("items", meerkat_items(&game, items, 3, &count), MEERKAT_DONE);
    wants("it goes on", items[1].state, MEERKAT_TRIGGERED);
    wants("a save", meerkat_save(&game, before, sizeof before, &size), MEERKAT_DONE);
    wants("a reset", meerkat_reset(&game), MEERKAT_DONE);
    wants("items", meerkat_items(&game, items, 3, &count), MEERKAT_DONE);
    wants("still earned", items[1].earned, 1);
    wants("a restore", meerkat_restore(&game, before, size, &why), MEERKAT_DONE);
    wants("items", meerkat_items(&game, items, 3, &count), MEERKAT_DONE);
    wants("still earned", items[0].earned + items[1].earned, 2);
    wants("free", meerkat_free(&game), MEERKAT_DONE);
}

/* How the items stand. */
static void how_items_stand(const char *when, const meerkat_game *game, uint32_t state, uint32_t measured, uint32_t running) {
    meerkat_item items[3];
    size_t count = 0;
    memset(items, 0, sizeof items);
    wants("too little room", meerkat_items(game, items, 2, &count), MEERKAT_ROOM);
    wants("items", meerkat_items(game, items, 3, &count), MEERKAT_DONE);
    wants("how many", (uint32_t)count, 3);
    wants(when, items[0].state, state);
    wants("an achievement", items[1].kind, MEERKAT_ACHIEVEMENT);
    wants("its id", items[1].id, 2);
    wants("its measured number", items[1].measured, measured);
    wants("its target", items[1].target, 8);
    wants("in percent", items[1].percent, 1);
    wants("a leaderboard", items[2].kind, MEERKAT_LEADERBOARD);
    wants("that runs", items[2].running, running);
}

/* States that are kept in slots, and taken up. */
static void slots(void) {
    meerkat_game game = {0};
    meerkat_refusal why = {0};
    meerkat_bank bank = {ram, 64};
    meerkat_event events[1] = {{0}};
    meerkat_hits hits[1] = {{0}};
    meerkat_unlock unlock = {0};
    size_t count = 0;
    memset(ram, 0, sizeof ram);
    wants("a set", make(&game, set, 64, &why), MEERKAT_DONE);
    keep(&game);
    wants("no slot yet", meerkat_keep(&game, 0), MEERKAT_RANGE);
    wants("no slot yet", meerkat_take(&game, 0), MEERKAT_RANGE);
    wants("too many", meerkat_slots(&game, MEERKAT_MOST_SLOTS + 1), MEERKAT_RANGE);
    wants("two slots", meerkat_slots(&game, 2), MEERKAT_DONE);
    stays("after slots", &game);
    wants("a record", meerkat_record(&game, 1), MEERKAT_DONE);
    wants("a frame", meerkat_frame(&game, &bank, 1), MEERKAT_DONE);
    ram[0x11] = 3;
    wants("a frame", meerkat_frame(&game, &bank, 1), MEERKAT_DONE);
    wants("a third slot", meerkat_keep(&game, 2), MEERKAT_RANGE);
    wants("a third slot", meerkat_take(&game, 2), MEERKAT_RANGE);
    wants("the second slot", meerkat_keep(&game, 1), MEERKAT_DONE);
    ram[0x10] = 5;
    wants("a frame", meerkat_frame(&game, &bank, 1), MEERKAT_DONE);
    wants("an explanation", meerkat_explain(&game, hits, 1, &count, &unlock), MEERKAT_DONE);
    wants("none is kept anew", meerkat_slots(&game, MEERKAT_MOST_SLOTS + 1), MEERKAT_RANGE);
    wants("the first slot has the state before the first frame", meerkat_take(&game, 0), MEERKAT_DONE);
    wants("no events", meerkat_events(&game, events, 1, &count), MEERKAT_DONE);
    wants("how many", (uint32_t)count, 0);
    wants("nothing is recorded", meerkat_explain(&game, hits, 1, &count, &unlock), MEERKAT_NOTHING);
    how_items_stand("after a take of the first state", &game, MEERKAT_WAITING, 0, 0);
    wants("the second slot", meerkat_take(&game, 1), MEERKAT_DONE);
    how_items_stand("after a take of the second state", &game, MEERKAT_ACTIVE, 3, 0);
    wants("it unlocked before and stays earned", meerkat_frame(&game, &bank, 1), MEERKAT_DONE);
    wants("events", meerkat_events(&game, events, 1, &count), MEERKAT_DONE);
    wants("none of what is earned", (uint32_t)count, 0);
    how_items_stand("it goes on", &game, MEERKAT_TRIGGERED, 3, 0);
    wants("one slot", meerkat_slots(&game, 1), MEERKAT_DONE);
    wants("the second slot is gone", meerkat_take(&game, 1), MEERKAT_RANGE);
    wants("a reset", meerkat_reset(&game), MEERKAT_DONE);
    wants("slots stay", meerkat_take(&game, 0), MEERKAT_DONE);
    how_items_stand("after a take", &game, MEERKAT_TRIGGERED, 3, 0);
    wants("no slots", meerkat_slots(&game, 0), MEERKAT_DONE);
    wants("none is left", meerkat_take(&game, 0), MEERKAT_RANGE);
    wants("free", meerkat_free(&game), MEERKAT_DONE);
}

/* The cells that no pointer moves. */
static void cells(void) {
    meerkat_game game = {0};
    meerkat_refusal why = {0};
    meerkat_cell out[4];
    size_t count = 0;
    memset(out, 0, sizeof out);
    wants("a set", make(&game, "A 1 0xH0010=5_0x003f=d0x003f_I:0xH0011_0xX0000=1\n", 64, &why), MEERKAT_DONE);
    keep(&game);
    wants("too little room", meerkat_cells(&game, out, 2, &count), MEERKAT_ROOM);
    wants("how many", (uint32_t)count, 3);
    wants("cells", meerkat_cells(&game, out, 4, &count), MEERKAT_DONE);
    wants("an address", out[0].address, 0x10);
    wants("its width", out[0].width, 1);
    wants("in the memory", out[0].whole, 1);
    wants("an address", out[1].address, 0x3f);
    wants("its width", out[1].width, 2);
    wants("not whole in the memory", out[1].whole, 0);
    wants("the pointer's cell", out[2].address, 0x11);
    stays("after cells", &game);
    wants("free", meerkat_free(&game), MEERKAT_DONE);
}

/* Progress that is taken up and refused. */
static void progress(meerkat_game *game) {
    meerkat_game other = {0};
    meerkat_refusal why = {0};
    uint8_t bytes[512] = {0};
    size_t count = 0, size = 0;
    wants("a size", meerkat_save_size(game, &size), MEERKAT_DONE);
    wants("a save", meerkat_save(game, bytes, size, &count), MEERKAT_DONE);
    wants("of that size", (uint32_t)count, (uint32_t)size);
    wants("too little room", meerkat_save(game, bytes, size - 1, &count), MEERKAT_ROOM);
    keep(game);
    wants("a front of it", meerkat_restore(game, bytes, size - 1, &why), MEERKAT_PROGRESS);
    wants("its kind", why.kind, MEERKAT_WRONG_LENGTH);
    wants("found", (uint32_t)why.found, (uint32_t)size - 1);
    stays("after a front", game);
    wants("another set", make(&other, "A 1 0xH10=6\n", 64, &why), MEERKAT_DONE);
    keep(&other);
    wants("of another set", meerkat_restore(&other, bytes, size, &why), MEERKAT_PROGRESS);
    stays("after another set's", &other);
    wants("a reset", meerkat_reset(game), MEERKAT_DONE);
    how_items_stand("after a reset", game, MEERKAT_WAITING, 0, 0);
    wants("a restore", meerkat_restore(game, bytes, size, &why), MEERKAT_DONE);
    how_items_stand("after a restore", game, MEERKAT_TRIGGERED, 3, 1);
    wants("free of the other", meerkat_free(&other), MEERKAT_DONE);
}

int main(void) {
    meerkat_game game = {0};
    meerkat_hits hits[1] = {{0}};
    meerkat_unlock unlock = {0};
    size_t count = 0;
    wants("version", meerkat_version(), MEERKAT_VERSION);
    over_nothing();
    texts();
    refusals();
    judged();
    official();
    earned();
    slots();
    cells();
    memset(ram, 0, sizeof ram);
    play(&game);
    what_happened(&game);
    how_items_stand("after a frame", &game, MEERKAT_TRIGGERED, 3, 1);
    progress(&game);
    wants("nothing to explain", meerkat_explain(&game, hits, 1, &count, &unlock), MEERKAT_NOTHING);
    wants("free", meerkat_free(&game), MEERKAT_DONE);
    wants("free again", meerkat_free(&game), MEERKAT_EMPTY);
    puts(failed ? "codes: failed" : "codes: ok");
    return failed;
}
