/* Calls of the library in seeded sequences over random and nearly valid texts, banks, sizes, progress bytes and rooms.
 * usage: fuzz [CALLS [SEED [FAIL]]], where CALLS is 100000, SEED 1, and FAIL 1 to let every so many allocations fail.
 *
 * What is watched: each code is one that the header allows, *count is exact, nothing is written beyond it, a refusal leaves
 * the progress bytes as they were, a frame has no more events than the header says, two games with the same calls give the
 * same, and a state that is taken from a slot is what a restore of the bytes makes that were saved there. It prints one line, and ends with
 * status 1 at the first violation, after a line that tells it. Linked with -Wl,--wrap=malloc,--wrap=realloc. */
#include "fuzz.h"
#include "meerkat.h"

#include <stdio.h>
#include <stdlib.h>
#include <string.h>

static int fails;
static long allocations, failing;

void *__real_malloc(size_t size);
void *__real_realloc(void *old, size_t size);

void *__wrap_malloc(size_t size) {
    if (failing > 0 && ++allocations % failing == 0) return NULL;
    return __real_malloc(size);
}

void *__wrap_realloc(void *old, size_t size) {
    if (failing > 0 && ++allocations % failing == 0) return NULL;
    return __real_realloc(old, size);
}

/* Whether a code is one of these, or memory that may run out. */
static void allow(const char *call, uint32_t code, const char *codes) {
    const char *at;
    calls_done++;
    for (at = codes; *at; at++)
        if (code == (uint32_t)(*at - '0')) return;
    stop(call, code);
}

/* ---- texts */

static const char *const good[] = {
    "A 1 0xH0010=5.3.\n", "A 2 0xH0011>d0xH0011_R:0xH0012=0\nL 7 SCORE STA:0xH0010=1::CAN:0xH0010=2::SUB:0xH0010=3::VAL:0xH0011\n",
    "A 3 M:0xX0000>=1000_P:0xH0004=1\nA 4 G:0xH0005=9.20.SI:0xH0008_0xH0000=1\n",
    "A 5 0xH0001=1SP:0xH0002=1S0xH0003>4\nP\nDisplay:\nlives @Number(0xH0010)\n",
    "A 6 p0xH0010!=0xH0010_T:0xH0020=7\nP\nLookup:Stage\n0=One\n1-9=Many\nDisplay:\n?0xH0010>3?@Stage(0xH0010)\nnone\n",
    "L 1 MILLISECS STA:0xH0001=1::CAN:0=1::SUB:0xH0001=2::VAL:0xX0004\n", "", "# nothing\n"};
static const char bytes_of[] = "AL1 023456789xXHhdpRPTMGQIKNOCDZ:=.<>!_S\n\r/?@()%\"{}[],";

static size_t text_of(char *out, size_t room) {
    size_t length = 0, k;
    uint32_t parts = 1 + below(3);
    while (parts-- > 0) {
        const char *part = good[below(sizeof good / sizeof *good)];
        size_t n = strlen(part);
        if (length + n < room) memcpy(out + length, part, n), length += n;
    }
    for (k = below(8) < 5 ? 0 : below(6); k > 0 && length > 0; k--) {
        uint32_t at = below((uint32_t)length);
        if (below(3) == 0 && length > 1) memmove(out + at, out + at + 1, length - at - 1), length--;
        else out[at] = below(8) == 0 ? (char)below(256) : bytes_of[below(sizeof bytes_of - 1)];
    }
    return length;
}

/* ---- calls that give rows: room of any size, guards around it */

#define GUARD 64
#define ROOM_BYTES 1048576
static unsigned char room_a[ROOM_BYTES + 2 * GUARD], room_b[ROOM_BYTES + 2 * GUARD];

typedef uint32_t (*gives)(const meerkat_game *, void *, size_t, size_t *);

static uint32_t give_events(const meerkat_game *g, void *out, size_t room, size_t *count) { return meerkat_events(g, out, room, count); }
static uint32_t give_lines(const meerkat_game *g, void *out, size_t room, size_t *count) { return meerkat_lines(g, out, room, count); }
static uint32_t give_items(const meerkat_game *g, void *out, size_t room, size_t *count) { return meerkat_items(g, out, room, count); }
static uint32_t give_cells(const meerkat_game *g, void *out, size_t room, size_t *count) { return meerkat_cells(g, out, room, count); }
static uint32_t give_presence(const meerkat_game *g, void *out, size_t room, size_t *count) { return meerkat_presence(g, out, room, count); }
static uint32_t give_save(const meerkat_game *g, void *out, size_t room, size_t *count) { return meerkat_save(g, out, room, count); }
static uint32_t give_number(const meerkat_game *g, void *out, size_t room, size_t *count) { return meerkat_number(g, 7, -5, out, room, count); }
static uint32_t give_explain(const meerkat_game *g, void *out, size_t room, size_t *count) {
    meerkat_unlock unlock = {0, 0, 0};
    return meerkat_explain(g, out, room, count, &unlock);
}

/* Calls with a room; where it is too little, once more with what it says. What is beyond the count stays as it was. */
static size_t call_gives(const char *name, gives call, size_t width, const meerkat_game *g, const char *codes, unsigned char *all) {
    size_t room = below(3) == 0 ? below(40) : ROOM_BYTES / width, count = 0, k, wanted;
    uint32_t code;
    memset(all, 0xa5, ROOM_BYTES + 2 * GUARD);
    code = call(g, all + GUARD, room, &count);
    allow(name, code, codes);
    if (code == MEERKAT_ROOM) {
        if (count <= room) stop("the count of a room that is too little", code);
        for (k = 0; k < ROOM_BYTES + 2 * GUARD; k++)
            if (all[k] != 0xa5) stop("out changed though there was too little room", code);
        wanted = count;
        if (wanted > ROOM_BYTES / width) return 0;
        code = call(g, all + GUARD, wanted, &count);
        allow(name, code, codes);
        if (code == MEERKAT_ROOM || (code == MEERKAT_DONE && count != wanted)) stop("the count is not exact", code);
    }
    if (code != MEERKAT_DONE) count = 0;
    for (k = 0; k < GUARD; k++)
        if (all[k] != 0xa5) stop("a byte before out was written", code);
    for (k = GUARD + count * width; k < ROOM_BYTES + 2 * GUARD; k++)
        if (all[k] != 0xa5) stop("a byte beyond the count was written", code);
    return code == MEERKAT_DONE ? count * width : 0;
}

/* ---- two games that are called alike */

static meerkat_game game, twin;
static uint32_t size;
static unsigned char memory[65536];
static unsigned char kept[ROOM_BYTES];
static size_t kept_length;

static size_t saved(const meerkat_game *g, unsigned char *out) {
    size_t count = 0;
    long before = failing;
    failing = 0;
    if (meerkat_save(g, out, ROOM_BYTES, &count) != MEERKAT_DONE) count = 0;
    failing = before;
    return count;
}

static void same_state(const char *when) {
    static unsigned char a[ROOM_BYTES], b[ROOM_BYTES];
    size_t n = saved(&game, a), m = saved(&twin, b);
    if (n != m || memcmp(a, b, n) != 0) stop(when, (uint32_t)n);
}

static uint32_t slots; /* how many the games have */

static void make(void) {
    static char text[8192];
    size_t length = text_of(text, sizeof text);
    meerkat_refusal why = {0}, other = {0};
    uint32_t code, second;
    size = below(4) == 0 ? below(64) : 64 + below(4000);
    if (below(50) == 0) size = MEERKAT_MOST_SIZE + 1 + below(9);
    code = meerkat_new((const uint8_t *)text, length, size, &game, &why);
    allow("new", code, "012" "4");
    failing = 0;
    second = meerkat_new((const uint8_t *)text, length, size, &twin, &other);
    if (code == MEERKAT_DONE && second != MEERKAT_DONE) stop("the second game of a text is refused", second);
    if (code == MEERKAT_SET && (second != code || memcmp(&why, &other, sizeof why) != 0)) stop("a text is refused in two ways", second);
    if (code == MEERKAT_MEMORY && second == MEERKAT_DONE) meerkat_free(&twin);
    slots = 0;
}

static void drop(void) {
    allow("free", meerkat_free(&game), "0");
    allow("free", meerkat_free(&twin), "0");
    allow("free", meerkat_free(&game), "6");
}

static void frame(void) {
    meerkat_bank banks[3];
    size_t n = 1 + below(3), at = 0, k;
    uint32_t code, second, writes;
    for (writes = below(6); writes > 0 && size > 0; writes--) memory[below(size < 48 ? size : 48)] = (unsigned char)below(below(2) ? 4 : 256);
    for (k = 0; k < n; k++) {
        size_t take = k + 1 == n ? size - at : below((uint32_t)(size - at) + 1);
        banks[k].bytes = memory + at;
        banks[k].length = take;
        at += take;
    }
    if (below(20) == 0) banks[n - 1].length++;
    code = meerkat_frame(&game, banks, n);
    allow("frame", code, "04");
    second = meerkat_frame(&twin, banks, n);
    if (code != second) stop("a frame is taken by one of two games", code);
}

static void restore(void) {
    static unsigned char bytes[ROOM_BYTES], before[ROOM_BYTES], after[ROOM_BYTES];
    meerkat_refusal why = {0}, other = {0};
    size_t n, m = 0, length = kept_length;
    uint32_t code, second, k;
    memcpy(bytes, kept, length);
    for (k = below(3); k > 0 && length > 0; k--) bytes[below((uint32_t)length)] = (unsigned char)below(256);
    if (length > 4 && below(4) == 0) bytes[4] = (unsigned char)(1 + below(4));
    if (length > 0 && below(6) == 0) length = below((uint32_t)length);
    n = saved(&game, before);
    code = meerkat_restore(&game, bytes, length, &why);
    allow("restore", code, "03");
    second = meerkat_restore(&twin, bytes, length, &other);
    if (code != second || memcmp(&why, &other, sizeof why) != 0) stop("a restore is refused in two ways", second);
    if (code == MEERKAT_PROGRESS) {
        m = saved(&game, after);
        if (n != m || memcmp(before, after, n) != 0) stop("a refused restore changed the progress bytes", code);
    }
}

/* Whether there are as many events as the header allows at most. */
static void few_events(size_t n) {
    static meerkat_item items[4096];
    size_t count = 0, most = 0, k;
    allow("items", meerkat_items(&game, items, 4096, &count), "0");
    for (k = 0; k < count; k++) most += items[k].kind == MEERKAT_ACHIEVEMENT ? MEERKAT_MOST_EVENTS(1, 0) : MEERKAT_MOST_EVENTS(0, 1);
    if (n > most) stop("more events than the most", (uint32_t)n);
}

static void tell(void) {
    static const struct { const char *name; gives call; size_t width; const char *codes; } rows[] = {
        {"events", give_events, sizeof(meerkat_event), "015"}, {"lines", give_lines, 1, "015"},
        {"items", give_items, sizeof(meerkat_item), "015"},    {"presence", give_presence, 1, "015"},
        {"save", give_save, 1, "015"},                         {"number", give_number, 1, "0154"},
        {"cells", give_cells, sizeof(meerkat_cell), "015"},    {"explain", give_explain, sizeof(meerkat_hits), "0158"}};
    uint32_t k = below(sizeof rows / sizeof *rows);
    size_t n = call_gives(rows[k].name, rows[k].call, rows[k].width, &game, rows[k].codes, room_a);
    size_t m = call_gives(rows[k].name, rows[k].call, rows[k].width, &twin, rows[k].codes, room_b);
    /* where memory ran out at a frame, one of the two may be recorded no longer */
    if (failing == 0 && !(fails && rows[k].call == give_explain) && (n != m || memcmp(room_a + GUARD, room_b + GUARD, n) != 0)) stop(rows[k].name, k);
    if (rows[k].call == give_events && failing == 0) few_events(n / sizeof(meerkat_event));
    if (rows[k].call == give_save && n > 0) {
        size_t stated = 0;
        allow("save_size", meerkat_save_size(&game, &stated), "0");
        if (stated != n) stop("save_size is not what a save gives", (uint32_t)n);
        memcpy(kept, room_a + GUARD, n), kept_length = n;
    }
}

/* ---- states in slots */

#define MOST_SLOTS 5
static unsigned char slot_bytes[MOST_SLOTS][ROOM_BYTES];
static size_t slot_length[MOST_SLOTS];

/* New slots, each with the present state; where memory ran out the old ones stay. */
static void make_slots(void) {
    uint32_t wanted = below(20) == 0 ? MEERKAT_MOST_SLOTS + 1 + below(9) : below(MOST_SLOTS + 1), k;
    uint32_t code = meerkat_slots(&game, wanted);
    allow("slots", code, "014");
    failing = 0;
    if ((code == MEERKAT_RANGE) != (wanted > MEERKAT_MOST_SLOTS)) stop("how many slots are in range", code);
    if (code != MEERKAT_DONE) return;
    if (meerkat_slots(&twin, wanted) != code) stop("slots of one of two games", wanted);
    slots = wanted;
    for (k = 0; k < slots; k++) slot_length[k] = saved(&game, slot_bytes[k]);
}

static void keep(void) {
    uint32_t slot = below(MOST_SLOTS + 1), code;
    failing = 0;
    code = meerkat_keep(&game, slot);
    allow("keep", code, slot < slots ? "0" : "4");
    if (meerkat_keep(&twin, slot) != code) stop("a state is kept in one of two games", code);
    if (slot < slots) slot_length[slot] = saved(&game, slot_bytes[slot]);
}

/* What is taken from a slot is what a restore of the bytes makes that were saved where it was kept. */
static void take(void) {
    uint32_t slot = below(MOST_SLOTS + 1), code;
    meerkat_refusal why = {0};
    failing = 0;
    code = meerkat_take(&game, slot);
    allow("take", code, slot < slots ? "0" : "4");
    if (below(2)) {
        if (meerkat_take(&twin, slot) != code) stop("a state is taken in one of two games", code);
    } else if (slot < slots) {
        allow("restore", meerkat_restore(&twin, slot_bytes[slot], slot_length[slot], &why), "0");
    }
}

static void record(void) {
    uint32_t id = 1 + below(7), code = meerkat_record(&game, id);
    allow("record", code, "014");
    failing = 0;
    if (code != MEERKAT_MEMORY && meerkat_record(&twin, id) != code) stop("a record is begun by one of two games", code);
    if (code == MEERKAT_MEMORY) meerkat_reset(&game), meerkat_reset(&twin);
}

/* Ids that are earned, some of no achievement; a game that is told and one that is not differ in this alone. */
static void earn(void) {
    uint32_t ids[5], n = below(5), k, code, second;
    for (k = 0; k < n; k++) ids[k] = below(4) == 0 ? below(4000000000u) : below(9);
    code = meerkat_earn(&game, ids, n);
    allow("earn", code, "01");
    failing = 0;
    if (code == MEERKAT_DONE && (second = meerkat_earn(&twin, ids, n)) != MEERKAT_DONE) stop("ids are earned in one of two games", second);
}

/* A text of a code or of a refusal. */
static void say(void) {
    meerkat_refusal why = {0};
    size_t count = 0, again = 0, room = below(100);
    uint32_t code, number = below(30);
    memset(room_a, 0xa5, 4096);
    why.kind = number, why.id = below(4000000000u), why.at = why.found = why.wanted = why.line = why.column = (uint64_t)below(4000000000u) << below(33);
    code = below(2) ? meerkat_error(number, room_a + GUARD, room, &count) : meerkat_refusal_text(&why, room_a + GUARD, room, &count);
    allow("a text", code, "0145");
    for (again = GUARD + (code == MEERKAT_DONE ? count : 0); again < 4096; again++)
        if (room_a[again] != 0xa5) stop("a byte beyond the count of a text was written", code);
    if ((code == MEERKAT_ROOM) != (code != MEERKAT_RANGE && code != MEERKAT_MEMORY && count > room)) stop("the room of a text", code);
}

static void judge(void) {
    static char text[8192];
    static const char document[] = "{\"PatchData\":{\"Achievements\":[{\"ID\":7,\"Flags\":5,\"MemAddr\":\"0xH0010=5\"},{\"ID\":8,\"MemAddr\":\"fF0000=1\"}],\"Leaderboards\":[]}}";
    meerkat_refusal why = {0};
    size_t length = text_of(text, sizeof text), count = 0, left = 0;
    uint32_t kind = below(5), code = meerkat_judge(kind, (const uint8_t *)text, length, &why);
    allow("judge", code, "0124");
    if ((code == MEERKAT_RANGE) != (kind < 1 || kind > 3)) stop("a kind that is in range", kind);
    memcpy(text, document, length = sizeof document - 1);
    for (kind = below(4); kind > 0; kind--) text[below((uint32_t)length)] = bytes_of[below(sizeof bytes_of - 1)];
    kind = below(4);
    code = meerkat_import((const uint8_t *)text, length, kind, room_a + GUARD, below(2) ? ROOM_BYTES : below(30), &count, &left, &why);
    allow("import", code, kind > MEERKAT_OFFICIAL ? "4" : "0159");
}

int main(int words, char **word) {
    if (words > 1) calls_wanted = atol(word[1]);
    seed = words > 2 ? (uint64_t)atol(word[2]) : 1;
    fails = words > 3 && atoi(word[3]);
    allow("events of nothing", meerkat_events(&game, NULL == word ? NULL : (meerkat_event *)room_a, 0, &(size_t){0}), "6");
    while (calls_done < calls_wanted) {
        uint32_t steps = below(400);
        failing = fails ? 1 + below(40) : 0;
        make();
        failing = 0;
        if (!game.held) continue;
        while (steps-- > 0 && calls_done < calls_wanted) {
            failing = fails && below(3) == 0 ? 1 + below(20) : 0;
            switch (below(12)) {
            case 0: restore(); break;
            case 1:
                allow("reset", meerkat_reset(&game), "0");
                allow("reset", meerkat_reset(&twin), "0");
                if (below(2)) record();
                break;
            case 2:
                if (below(2)) judge();
                else say();
                break;
            case 6:
                if (below(4) == 0) earn();
                else if (below(4) == 0) make_slots();
                else if (below(2)) keep();
                else take();
                break;
            case 3: case 4: case 5: tell(); break;
            default: frame();
            }
            failing = 0;
            same_state("two games with the same calls differ");
        }
        drop();
    }
    printf("%ld calls, 0 violations\n", calls_done);
    return 0;
}
