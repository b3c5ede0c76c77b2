/* Calls of the library against a model of what each has to answer: sets are drawn by shape, so the model knows their items, cells
 * and states, and documents so that it knows what is left of them.
 * usage: model [CALLS [SEED]], where CALLS is 100000 and SEED 1
 *
 * The model keeps, by itself: which achievements wait, are active or triggered, and which are earned; how many frames came; what is
 * recorded; what each slot and each save keeps. It prints one line, and ends with status 1 at the first violation, after a line
 * that tells it. */
#include "drawn.h"
#include "fuzz.h"
#include "judged.h"
#include "meerkat.h"

#include <string.h>

#define MOST_SLOTS 4
#define MOST_SAVE 4096

/* What the model keeps of a moment. */
typedef struct moment {
    uint8_t state[MOST_ITEMS];
    uint32_t frames;
    uint32_t earned; /* a bit for each item */
    uint8_t save[MOST_SAVE];
    size_t length;
} moment;

static meerkat_game game, twin; /* the twin has one bank at each frame, and is not recorded */
static uint32_t slot_count;
static int framed; /* framed: the last call that changed the state was a frame */
static uint8_t memory[MOST_MEMORY + 8], shown; /* shown: the first byte at the last frame */
static moment now, first, slots[MOST_SLOTS], kept;
static size_t save_size;

/* the recorded achievement: its item or -1, its state and its rows */
static int recorded = -1;
static uint8_t recorded_state;
static uint32_t recorded_rows;
static int unlock_recorded;

/* the events that the last frame has to give for achievements */
static uint32_t unlocked[MOST_ITEMS], unlocked_count;

/* ---- what has to hold after each call */

static int value_at(const drawn_item *it) {
    uint32_t k, value = 0;
    for (k = 0; k < it->width; k++)
        if (it->address + k < size) value |= (uint32_t)memory[it->address + k] << (8 * k);
    return value == it->value;
}

static void save_now(moment *to) {
    code_is("save", meerkat_save(&game, to->save, MOST_SAVE, &to->length), MEERKAT_DONE);
    want(to->length == save_size, "a save has as many bytes as save_size says", (uint32_t)to->length);
}

/* Whether the game keeps what it kept at a moment; earned ones that came since are in its bytes too. */
static void is_at(const moment *then, const char *what) {
    moment probe;
    save_now(&probe);
    if (then->earned == now.earned) want(memcmp(probe.save, then->save, probe.length) == 0, what, 0);
}

static void stays(const char *what) {
    is_at(&now, what);
}

static void no_events(void) {
    unlocked_count = 0;
    framed = 0;
}

static void goes_to(const moment *then, const char *what) {
    uint32_t earned = now.earned | then->earned;
    recorded = -1;
    unlock_recorded = 0;
    no_events();
    is_at(then, what);
    now = *then;
    now.earned = earned;
    save_now(&now);
}

/* ---- calls */

static void make(void) {
    meerkat_refusal why = untouched;
    meerkat_game none = {0};
    draw_set();
    code_is("a size out of range", meerkat_new((uint8_t *)text, text_length, MEERKAT_MOST_SIZE + 1, &none, &why), MEERKAT_RANGE);
    code_is("new", meerkat_new((uint8_t *)text, text_length, size, &game, &why), MEERKAT_DONE);
    code_is("new over a full handle", meerkat_new((uint8_t *)text, text_length, MEERKAT_MOST_SIZE + below(3), &game, &why), MEERKAT_HELD);
    code_is("a second game", meerkat_new((uint8_t *)text, text_length, size, &twin, &why), MEERKAT_DONE);
    want(is_untouched(&why), "no reason", why.kind);
    memset(&now, 0, sizeof now);
    memset(memory, 0, sizeof memory);
    slot_count = 0, recorded = -1, unlock_recorded = 0;
    no_events();
    code_is("save_size", meerkat_save_size(&game, &save_size), MEERKAT_DONE);
    save_now(&now);
    first = kept = now;
}

static void drop(void) {
    code_is("free", meerkat_free(&game), MEERKAT_DONE);
    code_is("free", meerkat_free(&twin), MEERKAT_DONE);
    code_is("free of nothing", meerkat_free(&game), MEERKAT_EMPTY);
}

/* A step of an achievement; whether it unlocks. */
static int step(uint8_t *state, int holds) {
    if (*state == MEERKAT_WAITING && !holds) *state = MEERKAT_ACTIVE;
    else if (*state == MEERKAT_ACTIVE && holds) return *state = MEERKAT_TRIGGERED, 1;
    return 0;
}

static void model_frame(void) {
    uint32_t k;
    unlocked_count = 0;
    for (k = 0; k < item_count; k++) {
        if (items[k].kind != MEERKAT_ACHIEVEMENT || !step(&now.state[k], value_at(&items[k]))) continue;
        if (!(now.earned >> k & 1)) unlocked[unlocked_count++] = items[k].id;
        now.earned |= 1u << k;
    }
    unlock_recorded = recorded >= 0 && step(&recorded_state, value_at(&items[recorded]));
    recorded_rows++;
    now.frames++;
    shown = memory[0];
    framed = 1;
}

static void frame(void) {
    meerkat_bank banks[8], whole = {memory, 0};
    uint32_t count = 1 + below(8), k, at = 0, wrong = below(12), total = size + (wrong == 0) - (wrong == 1);
    for (k = below(4); k > 0; k--) memory[below(2) ? below(size) : items[below(item_count)].address % size] = (uint8_t)below(4);
    for (k = 0; k < count; k++) {
        banks[k].bytes = memory + at;
        banks[k].length = k + 1 == count ? total - at : below(total - at + 1);
        at += (uint32_t)banks[k].length;
    }
    code_is("frame", meerkat_frame(&game, banks, count), total == size ? MEERKAT_DONE : MEERKAT_RANGE);
    if (total != size) {
        stays("a refused frame changes nothing");
        return;
    }
    whole.length = size;
    code_is("frame of one bank", meerkat_frame(&twin, &whole, 1), MEERKAT_DONE);
    model_frame();
    save_now(&now);
}

/* ---- what is told */

static const char *const words[] = {"", "measured", "primed", "unprimed", "unlock", "start", "track", "cancel", "submit"};

/* Whether each event has its line, with the number of the frame. */
static void tell_lines(const meerkat_event *events, size_t count) {
    static uint8_t lines[8192];
    char head[64];
    size_t length = 0, at = 0, k, n;
    code_is("lines", meerkat_lines(&game, lines, sizeof lines, &length), MEERKAT_DONE);
    for (k = 0; k < count; k++) {
        n = (size_t)snprintf(head, sizeof head, "%s %u %u", words[events[k].kind], now.frames - 1, events[k].id);
        want(at + n < length && memcmp(lines + at, head, n) == 0, "the line of an event", (uint32_t)k);
        while (at < length && lines[at] != '\n') at++;
        at++;
    }
    want(at == length, "as many lines as events", (uint32_t)length);
}

static uint32_t state_of(uint32_t id, const meerkat_item *told) {
    uint32_t k;
    for (k = 0; k < item_count; k++)
        if (told[k].kind == MEERKAT_LEADERBOARD && told[k].id == id) return told[k].state;
    return 99;
}

static void tell(void) {
    meerkat_event events[3 * MOST_ITEMS];
    meerkat_item told[MOST_ITEMS];
    size_t count = 0, told_count = 0, k, next = 0;
    code_is("events", meerkat_events(&game, events, 3 * MOST_ITEMS, &count), MEERKAT_DONE);
    code_is("items", meerkat_items(&game, told, MOST_ITEMS, &told_count), MEERKAT_DONE);
    want(told_count == item_count, "how many items", (uint32_t)told_count);
    want(framed || count == 0, "no events but of a frame", (uint32_t)count);
    for (k = 0; k < count; k++) {
        uint32_t state = state_of(events[k].id, told);
        switch (events[k].kind) {
        case MEERKAT_UNLOCK: want(next < unlocked_count && events[k].id == unlocked[next++], "an unlock", events[k].id); break;
        case MEERKAT_START: case MEERKAT_TRACK: want(state == MEERKAT_BOARD_STARTED, "an attempt that runs", state); break;
        case MEERKAT_CANCEL: want(state == MEERKAT_BOARD_CANCELLED, "an attempt that is cancelled", state); break;
        case MEERKAT_SUBMIT: want(state == MEERKAT_BOARD_SUBMITTED, "an attempt that ended", state); break;
        default: stop("an event that no item of the set has", events[k].kind);
        }
    }
    want(next == unlocked_count, "each unlock is an event", (uint32_t)next);
    tell_lines(events, count);
    for (k = 0; k < item_count; k++) {
        want(told[k].kind == items[k].kind && told[k].id == items[k].id, "an item", (uint32_t)k);
        want(told[k].earned == (now.earned >> k & 1), "what is earned", told[k].id);
        if (told[k].kind == MEERKAT_ACHIEVEMENT) want(told[k].state == now.state[k], "the state of an achievement", told[k].state);
        else want(told[k].running == (told[k].state == MEERKAT_BOARD_STARTED), "whether an attempt runs", told[k].running);
    }
}

static int is_listed(const meerkat_cell *cells, size_t count, uint32_t address, uint32_t width) {
    while (count-- > 0)
        if (cells[count].address == address && cells[count].width == width) return 1;
    return 0;
}

static void tell_cells(void) {
    meerkat_cell told[MOST_ITEMS + 1], wanted[MOST_ITEMS + 1];
    size_t count = 0, n = 0, k;
    for (k = 0; k <= item_count; k++) {
        uint32_t address = k < item_count ? items[k].address : 0, width = k < item_count ? items[k].width : 1;
        if ((k == item_count && !has_script) || is_listed(wanted, n, address, width)) continue;
        wanted[n].address = address, wanted[n].width = width, wanted[n].whole = address + width <= size, n++;
    }
    code_is("cells", meerkat_cells(&game, told, MOST_ITEMS + 1, &count), MEERKAT_DONE);
    want(count == n && memcmp(told, wanted, n * sizeof *told) == 0, "the cells", (uint32_t)count);
}

static void tell_texts(void) {
    uint8_t out[64];
    char wanted[64];
    size_t count = 0, n;
    const drawn_item *it = &items[below(item_count)];
    int number = (int)below(2000) - (it->is_score ? 0 : 1000);
    uint32_t code = meerkat_number(&game, it->id, number, out, sizeof out, &count);
    if (it->kind == MEERKAT_LEADERBOARD) {
        code_is("number", code, MEERKAT_DONE);
        n = (size_t)snprintf(wanted, sizeof wanted, it->is_score ? "%06d" : "%d", number);
        want(n == count && memcmp(out, wanted, n) == 0, "a number in its format", (uint32_t)count);
    }
    code_is("number of no leaderboard", meerkat_number(&game, 1000, number, out, sizeof out, &count), MEERKAT_RANGE);
    code_is("presence", meerkat_presence(&game, out, sizeof out, &count), MEERKAT_DONE);
    n = has_script ? (size_t)snprintf(wanted, sizeof wanted, "byte %u", shown) : 0;
    if (framed || !has_script) want(n == count && memcmp(out, wanted, n) == 0, "the presence text", (uint32_t)count);
}

static void explain(void) {
    meerkat_hits hits[64];
    meerkat_unlock unlock = {0, 0, 0};
    size_t count = 0;
    code_is("explain", meerkat_explain(&game, hits, 64, &count, &unlock), unlock_recorded ? MEERKAT_DONE : MEERKAT_NOTHING);
    if (unlock_recorded) want(unlock.last + 1 == recorded_rows, "the row of an unlock", unlock.last);
}

/* ---- what is kept */

static void both_go_to(const moment *then, const char *what) {
    meerkat_refusal why = untouched;
    goes_to(then, what);
    code_is("restore of the twin", meerkat_restore(&twin, now.save, now.length, &why), MEERKAT_DONE);
}

static void make_slots(void) {
    uint32_t wanted = below(12) == 0 ? MEERKAT_MOST_SLOTS + 1 : below(MOST_SLOTS + 1), k;
    code_is("slots", meerkat_slots(&game, wanted), wanted > MEERKAT_MOST_SLOTS ? MEERKAT_RANGE : MEERKAT_DONE);
    if (wanted > MEERKAT_MOST_SLOTS) return;
    slot_count = wanted;
    for (k = 0; k < slot_count; k++) slots[k] = now;
}

static void keep(void) {
    uint32_t slot = below(MOST_SLOTS + 1);
    code_is("keep", meerkat_keep(&game, slot), slot < slot_count ? MEERKAT_DONE : MEERKAT_RANGE);
    if (slot < slot_count) slots[slot] = now;
}

static void take(void) {
    uint32_t slot = below(MOST_SLOTS + 1);
    code_is("take", meerkat_take(&game, slot), slot < slot_count ? MEERKAT_DONE : MEERKAT_RANGE);
    if (slot < slot_count) both_go_to(&slots[slot], "what is taken is what the slot keeps");
    else stays("a take of no slot changes nothing");
}

static void restore(void) {
    meerkat_refusal why = untouched;
    code_is("restore", meerkat_restore(&game, kept.save, kept.length, &why), MEERKAT_DONE);
    want(is_untouched(&why), "no reason", why.kind);
    both_go_to(&kept, "what is restored is what was saved");
}

/* Progress bytes with one fault, and the reason that it has to have. */
static void restore_bad(void) {
    static const struct { uint32_t kind; size_t at; } faults[] = {
        {MEERKAT_WRONG_MARK, 0}, {MEERKAT_WRONG_MARK, 3}, {MEERKAT_WRONG_VERSION, 4}, {MEERKAT_WRONG_SUM, MOST_SAVE}, {MEERKAT_WRONG_LENGTH, MOST_SAVE}};
    uint8_t bytes[MOST_SAVE];
    meerkat_refusal why = untouched;
    uint32_t which = below(5);
    size_t length = kept.length, at = faults[which].at == MOST_SAVE ? length - 1 : faults[which].at;
    memcpy(bytes, kept.save, length);
    if (faults[which].kind == MEERKAT_WRONG_LENGTH) length--;
    else bytes[at] ^= 0xc0;
    code_is("restore of damaged bytes", meerkat_restore(&game, bytes, length, &why), MEERKAT_PROGRESS);
    want(why.kind == faults[which].kind, "why damaged bytes are refused", why.kind);
    stays("a refused restore changes nothing");
}

static void reset(void) {
    code_is("reset", meerkat_reset(&game), MEERKAT_DONE);
    both_go_to(&first, "a reset is what was saved first");
}

static void record(void) {
    uint32_t place = below(item_count), id = below(4) == 0 ? 999 : items[place].id;
    int is_one = id != 999 && items[place].kind == MEERKAT_ACHIEVEMENT && now.frames == 0;
    code_is("record", meerkat_record(&game, id), is_one ? MEERKAT_DONE : MEERKAT_RANGE);
    if (is_one) recorded = (int)place, recorded_state = MEERKAT_WAITING, recorded_rows = 0, unlock_recorded = 0;
}

static void earn(void) {
    uint32_t ids[4], n = 1 + below(3), k, place;
    for (k = 0; k < n; k++) {
        place = below(item_count);
        ids[k] = below(4) == 0 ? 999 : items[place].id;
        if (ids[k] != 999 && items[place].kind == MEERKAT_ACHIEVEMENT) now.earned |= 1u << place;
    }
    code_is("earn", meerkat_earn(&game, ids, n), MEERKAT_DONE);
    code_is("earn of the twin", meerkat_earn(&twin, ids, n), MEERKAT_DONE);
    save_now(&now);
}

static void same_as_one_bank(void) {
    static uint8_t bytes[MOST_SAVE];
    size_t count = 0;
    code_is("save of the twin", meerkat_save(&twin, bytes, MOST_SAVE, &count), MEERKAT_DONE);
    want(count == now.length && memcmp(bytes, now.save, count) == 0, "banks are one bank that is cut", (uint32_t)count);
}

static void play(void) {
    switch (below(24)) {
    case 0: restore(); break;
    case 1: restore_bad(); break;
    case 2: kept = now; break;
    case 3: reset(); break;
    case 4: case 5: record(); break;
    case 6: if (below(3) == 0) earn(); break;
    case 7: if (below(3) == 0) make_slots(); break;
    case 8: keep(); break;
    case 9: take(); break;
    case 10: tell_cells(); break;
    case 11: tell_texts(); break;
    default: frame(); tell();
    }
    explain();
    same_as_one_bank();
}

int main(int word_count, char **word) {
    if (word_count > 1) calls_wanted = atol(word[1]);
    seed = word_count > 2 ? (uint64_t)atol(word[2]) : 1;
    while (calls_done < calls_wanted) {
        uint32_t steps = below(100), records;
        make_bad();
        judge();
        import();
        make();
        if (below(4)) make_slots();
        for (records = below(4); records > 0; records--) record();
        while (steps-- > 0) play();
        drop();
    }
    printf("%ld calls, 0 violations\n", calls_done);
    return 0;
}
