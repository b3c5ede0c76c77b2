/* Sets that are drawn by shape, so that whoever drew them knows their items, and the places of bad bytes in texts. */
#ifndef DRAWN_H
#define DRAWN_H

#include "fuzz.h"
#include "meerkat.h"

#include <stdarg.h>
#include <string.h>

#define MOST_ITEMS 8
#define MOST_MEMORY 96

/* An item that was drawn: an achievement is `byte at its address == value`; a leaderboard starts at 1, is cancelled at 2 and ends
 * at 3 there. */
typedef struct drawn_item {
    uint32_t kind, id, address, width, value;
    int is_score;
} drawn_item;

static drawn_item items[MOST_ITEMS];
static uint32_t item_count, size;
static int has_script;

static void want(int holds, const char *what, uint32_t found) {
    if (!holds) stop(what, found);
}

static void code_is(const char *call, uint32_t code, uint32_t wanted) {
    calls_done++;
    want(code == wanted, call, code);
}

/* ---- texts */

static char text[8192];
static size_t text_length;

static void put(const char *format, ...) {
    va_list words;
    va_start(words, format);
    text_length += (size_t)vsnprintf(text + text_length, sizeof text - text_length, format, words);
    va_end(words);
}

static const char *const prefixes[5] = {"", "0xH", "0x ", "", "0xX"};

static void draw_item(uint32_t place) {
    drawn_item *it = &items[place];
    it->kind = below(3) == 0 ? MEERKAT_LEADERBOARD : MEERKAT_ACHIEVEMENT;
    it->id = 1 + place + 10 * below(3);
    it->address = below(8) == 0 ? size - 1 - below(4) : below(size - 4);
    it->width = it->kind == MEERKAT_LEADERBOARD || below(2) ? 1 : 2 * (1 + below(2));
    it->value = 1 + below(3);
    it->is_score = (int)below(2);
}

static void put_item(const drawn_item *it) {
    const char *at = prefixes[it->width];
    uint32_t a = it->address;
    if (it->kind == MEERKAT_ACHIEVEMENT) put("A %u %s%04x=%u\n", it->id, at, a, it->value);
    else
        put("L %u %s STA:%s%04x=1::CAN:%s%04x=2::SUB:%s%04x=3::VAL:%s%04x\n", it->id, it->is_score ? "SCORE" : "VALUE", at, a, at, a,
            at, a, at, a);
}

static void draw_set(void) {
    uint32_t k;
    text_length = 0;
    size = 8 + below(MOST_MEMORY - 8);
    item_count = 1 + below(MOST_ITEMS);
    has_script = below(2) == 0;
    for (k = 0; k < item_count; k++) draw_item(k), put_item(&items[k]);
    if (has_script) put("P\nDisplay:\nbyte @Number(0xH0000)\n");
}

/* ---- refusals */

static const meerkat_refusal untouched = {77, 78, 79, 80, 81, 82, 83};

static int is_untouched(const meerkat_refusal *why) {
    return memcmp(why, &untouched, sizeof *why) == 0;
}

/* Whether line and column are those of the place. */
static void right_place(const char *bytes, size_t length, const meerkat_refusal *why) {
    size_t k, line = 1, column = 1;
    want(why->at <= length, "a bad place is in the text", (uint32_t)why->at);
    for (k = 0; k < why->at; k++)
        if (bytes[k] == '\n') line++, column = 1;
        else column++;
    want(why->line == line, "the line of a bad place", (uint32_t)why->line);
    want(why->column == column, "the column of a bad place", (uint32_t)why->column);
}

#endif
