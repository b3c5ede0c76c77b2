/* Counts the calls of malloc, realloc and free that the library makes.
 * usage: allocations
 *
 * First 1,000 frames of a set of 200 achievements, two leaderboards and a script over 64 KiB in three banks, with unlocks, writes of
 * most bytes, floods of them, keeps, takes, restores and resets: these calls take no memory. Then whole lives of a game, each with
 * refusals of every kind, and with the first, the second, and so on, of its allocations failing: at the end of each what was
 * allocated is freed. It prints one line, and ends with status 1 after a line that says what is wrong. Linked with
 * -Wl,--wrap=malloc,--wrap=realloc,--wrap=free. */
#include "meerkat.h"

#include <stdio.h>
#include <stdlib.h>
#include <string.h>

/* ---- the counts */

static long calls, allocated, freed, failing; /* the allocation with this number fails; 0 for none */
static int counts;

void *__real_malloc(size_t size);
void *__real_realloc(void *old, size_t size);
void __real_free(void *old);

static int fails(void) {
    if (!counts) return 0;
    calls++;
    return failing > 0 && --failing == 0;
}

void *__wrap_malloc(size_t size) {
    void *made = fails() ? NULL : __real_malloc(size);
    allocated += counts && made != NULL;
    return made;
}

void *__wrap_realloc(void *old, size_t size) {
    void *made = fails() ? NULL : __real_realloc(old, size);
    allocated += counts && old == NULL && made != NULL;
    return made;
}

void __wrap_free(void *old) {
    calls += counts;
    freed += counts && old != NULL;
    __real_free(old);
}

static void stop(const char *what, long found) {
    counts = 0;
    printf("allocations: %s (%ld)\n", what, found);
    exit(1);
}

/* Counts what a call does, and wants it done. */
#define COUNTED(call) \
    do { \
        uint32_t code_; \
        counts = 1; \
        code_ = (call); \
        counts = 0; \
        if (code_ != MEERKAT_DONE) stop(#call, (long)code_); \
    } while (0)

/* ---- frames */

#define FRAMES 1000
#define ACHIEVEMENTS 200
#define SIZE 65536
static uint8_t memory[SIZE], saved[SIZE];
static char text[SIZE];

/* An achievement with an odd id n unlocks where the 16 bits at 0 are 4 n; one with an even id has hits, a measured number, a
 * pointer and a delta. */
static size_t long_set(void) {
    size_t length = 0;
    int n;
    for (n = 1; n <= ACHIEVEMENTS; n += 2) {
        length += (size_t)sprintf(text + length, "A %d 0x 0000=%d\n", n, 4 * n);
        length += (size_t)sprintf(text + length, "A %d M:0xH%04x>=50.9._I:0x 0010_0xH0020!=d0xH%04x.3.\n", n + 1, 256 + n, 512 + n);
    }
    length += (size_t)sprintf(text + length, "L 1 VALUE STA:0xH0100=1::CAN:0xH0100=2::SUB:0xH0100=3::VAL:0xX0200\n"
                                             "L 2 SECS STA:0xH0101>d0xH0101::CAN:0=1::SUB:0xH0101<d0xH0101::VAL:0x 0300\n"
                                             "P\nDisplay:\n?0xH0102>100?many @Number(0xH0102)\nfew @Number(0xX0400)\n");
    return length;
}

/* Changes few bytes, most of them, or, at 100 frames in a row, all. */
static void change(int frame) {
    int is_flood = frame >= 300 && frame < 400;
    if (is_flood) memset(memory, frame, SIZE);
    else if (frame % 10 == 0) memset(memory + 64, frame / 10, SIZE - 4096);
    memory[0] = (uint8_t)frame, memory[1] = (uint8_t)(frame >> 8);
    memory[0x100 + frame % 256] = (uint8_t)(frame / 3);
}

static long unlocks_of(const meerkat_game *game) {
    static meerkat_event events[MEERKAT_MOST_EVENTS(ACHIEVEMENTS, 2)];
    size_t count = 0, k;
    long unlocks = 0;
    if (meerkat_events(game, events, MEERKAT_MOST_EVENTS(ACHIEVEMENTS, 2), &count) != MEERKAT_DONE) stop("events", 0);
    for (k = 0; k < count; k++) unlocks += events[k].kind == MEERKAT_UNLOCK;
    return unlocks;
}

static void frames(void) {
    meerkat_game game = {0};
    meerkat_refusal why = {0};
    meerkat_bank banks[3] = {{memory, 4096}, {memory + 4096, 4097}, {memory + 8193, SIZE - 8193}};
    size_t size = 0;
    long unlocks = 0;
    int frame;
    if (meerkat_new((const uint8_t *)text, long_set(), SIZE, &game, &why) != MEERKAT_DONE) stop("the set is refused at", (long)why.at);
    if (meerkat_slots(&game, 4) != MEERKAT_DONE) stop("slots", 4);
    for (frame = 0; frame < FRAMES; frame++) {
        change(frame);
        COUNTED(meerkat_frame(&game, banks, 3));
        unlocks += unlocks_of(&game);
        if (frame % 50 == 20 && meerkat_save(&game, saved, sizeof saved, &size) != MEERKAT_DONE) stop("a save", (long)size);
        if (frame % 3 == 0) COUNTED(meerkat_keep(&game, (uint32_t)frame % 4));
        if (frame % 20 == 11) COUNTED(meerkat_take(&game, (uint32_t)frame % 4));
        if (frame % 50 == 40) COUNTED(meerkat_restore(&game, saved, size, &why));
        if (frame % 250 == 249) COUNTED(meerkat_reset(&game));
    }
    if (calls != 0) stop("calls of malloc, realloc and free in frames", calls);
    if (unlocks < ACHIEVEMENTS / 2) stop("unlocks", unlocks);
    printf("%d frames, %ld unlocks, 334 keeps, 50 takes, 20 restores, 4 resets: 0 calls of malloc, realloc and free; ", FRAMES, unlocks);
    meerkat_free(&game);
}

/* ---- lives */

static const char set[] = "A 1 0xH0010=5.2.\nA 2 G:0xH0011>=8\nL 9 SECS STA:0xH0012=1::CAN:0xH0012=2::SUB:0xH0012=3::VAL:0xH0013\n"
                          "P\nLookup:Place\n0=Here\n*=There\nDisplay:\n@Place(0xH0013)\n";
static const char document[] = "{\"PatchData\":{\"Achievements\":[{\"ID\":7,\"MemAddr\":\"0xH0010=5\"},{\"ID\":8,\"MemAddr\":\"fF0=1\"}],"
                               "\"Leaderboards\":[],\"RichPresencePatch\":\"Display:\\nHi\\n\"}}";
#define BYTES(text) (const uint8_t *)(text), sizeof(text) - 1

static void judge_and_import(void) {
    meerkat_refusal why = {0};
    uint8_t out[256] = {0};
    size_t count = 0, left = 0;
    meerkat_judge(MEERKAT_ACHIEVEMENT, BYTES("0xH0010=5"), &why);
    meerkat_judge(MEERKAT_LEADERBOARD, BYTES("STA:0xH0010"), &why);
    meerkat_judge(9, BYTES(""), &why);
    meerkat_import(BYTES(document), 0, out, sizeof out, &count, &left, &why);
    meerkat_import(BYTES(document), MEERKAT_OFFICIAL, out, 3, &count, &left, &why);
    meerkat_import(BYTES("{\"a\":[1,"), 0, out, sizeof out, &count, &left, &why);
    meerkat_refusal_text(&why, out, sizeof out, &count);
    meerkat_error(MEERKAT_ROOM, out, sizeof out, &count);
}

static void tell(const meerkat_game *game) {
    meerkat_event events[MEERKAT_MOST_EVENTS(2, 1)];
    meerkat_item items[3];
    meerkat_cell cells[8];
    meerkat_hits hits[8];
    meerkat_unlock unlock = {0};
    uint8_t out[512] = {0};
    size_t count = 0;
    memset(events, 0, sizeof events), memset(items, 0, sizeof items), memset(cells, 0, sizeof cells), memset(hits, 0, sizeof hits);
    meerkat_events(game, events, 0, &count);
    meerkat_events(game, events, MEERKAT_MOST_EVENTS(2, 1), &count);
    meerkat_lines(game, out, sizeof out, &count);
    meerkat_items(game, items, 3, &count);
    meerkat_cells(game, cells, 8, &count);
    meerkat_number(game, 9, 75, out, sizeof out, &count);
    meerkat_number(game, 1, 75, out, sizeof out, &count);
    meerkat_presence(game, out, sizeof out, &count);
    meerkat_explain(game, hits, 8, &count, &unlock);
}

static void play(meerkat_game *game) {
    static const uint32_t ids[3] = {2, 5, 9};
    meerkat_bank bank = {memory, 64};
    meerkat_refusal why = {0};
    size_t size = 0, count = 0;
    int frame;
    meerkat_slots(game, MEERKAT_MOST_SLOTS + 1);
    meerkat_slots(game, 3);
    meerkat_slots(game, 2);
    meerkat_record(game, 3);
    meerkat_record(game, 1);
    for (frame = 0; frame < 4; frame++) {
        memory[0x10] = frame > 0 ? 5 : 0, memory[0x12] = (uint8_t)frame, memory[0x13] = (uint8_t)(frame % 2);
        meerkat_frame(game, &bank, 1);
        meerkat_frame(game, &bank, 0);
        tell(game);
        meerkat_keep(game, (uint32_t)frame);
    }
    meerkat_save_size(game, &size);
    meerkat_save(game, saved, 1, &count);
    meerkat_save(game, saved, sizeof saved, &count);
    meerkat_restore(game, saved, count, &why);
    meerkat_restore(game, saved, count / 2, &why);
    meerkat_take(game, 1);
    meerkat_take(game, 7);
    meerkat_earn(game, ids, 3);
    meerkat_reset(game);
}

/* A game's life in which the allocation of this number fails, or none where it is 0; how many calls it made. */
static long life(long failure) {
    meerkat_game game = {0};
    meerkat_refusal why = {0};
    long before = calls, had = allocated, gone = freed;
    failing = failure;
    counts = 1;
    judge_and_import();
    meerkat_new(BYTES("A 1 0xH0010=5_\n"), 64, &game, &why);
    meerkat_new(BYTES(set), MEERKAT_MOST_SIZE + 1, &game, &why);
    /* where memory ran out, once more */
    if (meerkat_new(BYTES(set), 64, &game, &why) != MEERKAT_DONE && meerkat_new(BYTES(set), 64, &game, &why) != MEERKAT_DONE) stop("no game is made", failure);
    meerkat_new(BYTES(set), 64, &game, &why);
    play(&game);
    if (meerkat_free(&game) != MEERKAT_DONE || meerkat_free(&game) != MEERKAT_EMPTY) stop("a game is not freed", failure);
    counts = 0;
    if (allocated - had != freed - gone) stop("more allocations than frees in the life whose failing allocation has this number", failure);
    return calls - before;
}

static void lives(void) {
    long failure = 0, most;
    calls = allocated = freed = 0;
    most = life(0);
    while (failure < most && failing == 0) {
        life(++failure);
        if (failing > 0) failure--, failing = 0, most = failure;
    }
    printf("%ld lives, in all but one an allocation that fails: %ld allocations, as many frees\n", failure + 1, allocated);
}

int main(void) {
    frames();
    lives();
    return 0;
}
