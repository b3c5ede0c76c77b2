/* Texts that are refused or judged before there is a game of them, and documents of which something is left out. */
#ifndef JUDGED_H
#define JUDGED_H

#include "drawn.h"

/* Whether a place is one where a text may have any byte, as in a display line or as the name of a format. */
static int is_free(size_t at) {
    const char *script = has_script ? strstr(text, "P\nDisplay") : NULL;
    return text[at] == '\n' || strchr("VALUESCOR", text[at]) != NULL || (script && text + at >= script);
}

/* A text with a byte that no grammar has, or an id that stands twice. */
static void make_bad(void) {
    meerkat_refusal why = untouched;
    meerkat_game none = {0};
    size_t at;
    draw_set();
    if (below(3) == 0) {
        put_item(&items[0]);
        if (has_script) return;
    } else {
        at = below((uint32_t)text_length);
        if (is_free(at)) return;
        text[at] = '\x01';
    }
    code_is("a text that is no set", meerkat_new((uint8_t *)text, text_length, size, &none, &why), MEERKAT_SET);
    if (why.kind == MEERKAT_SYNTAX) right_place(text, text_length, &why);
    else want(why.kind == MEERKAT_DUPLICATE_ID && why.id == items[0].id && why.line == item_count + 1, "an id that stands twice", why.kind);
}

/* One item is judged as new takes the set that it makes, and a line break in it is its first bad place. */
static void judge(void) {
    static const char *const heads[] = {"", "A 1 ", "L 1 VALUE ", "P\n"};
    static const char *const shapes[] = {"", "0xH0001=1_0xH0002>4", "STA:0xH0001=1::CAN:0=1::SUB:0xH0001=2::VAL:0xX0004", "Display:\nat @Number(0xH0000)\nlast\n"};
    uint32_t kind = 1 + below(3), code, wanted;
    size_t head = strlen(heads[kind]), length = strlen(shapes[kind]), stop_at, k;
    meerkat_refusal why = untouched, other = untouched;
    meerkat_game none = {0};
    char *item = text + head;
    memcpy(text, heads[kind], head), memcpy(item, shapes[kind], length);
    for (k = below(3); k > 0; k--) item[below((uint32_t)length)] = "\n\r!0=:"[below(6)];
    if (kind != MEERKAT_PRESENCE) item[length] = '\n';
    for (stop_at = 0; stop_at < length && item[stop_at] != '\n' && item[stop_at] != '\r'; stop_at++) {}
    code = meerkat_judge(kind, (uint8_t *)item, length, &why);
    if (kind != MEERKAT_PRESENCE && stop_at < length) {
        code_is("an item with a line break", code, MEERKAT_SET);
        want(why.kind == MEERKAT_SYNTAX && why.at == stop_at, "the place of a line break", (uint32_t)why.at);
        right_place(item, length, &why);
        return;
    }
    wanted = meerkat_new((uint8_t *)text, head + length + (kind != MEERKAT_PRESENCE), 16, &none, &other);
    code_is("judge is what new says", code, wanted);
    if (code == MEERKAT_DONE) meerkat_free(&none);
    if (code != MEERKAT_SET) return;
    want(why.kind == other.kind, "judge has the reason of new", why.kind);
    if (why.kind != MEERKAT_SYNTAX) return;
    want(why.at == (other.at < head ? 0 : other.at - head), "the bad place of an item", (uint32_t)why.at);
    right_place(item, length, &why);
}

/* A document of achievements, of which some are not official and some are of another grammar. */
static void import(void) {
    static uint8_t out[8192];
    uint32_t count = below(6), k, official = below(2), bad = 0, unofficial = 0;
    size_t length = 0, left = 99;
    meerkat_refusal why = untouched;
    text_length = 0;
    put("{\"PatchData\":{\"Achievements\":[");
    for (k = 0; k < count; k++) {
        int is_bad = below(3) == 0, is_unofficial = below(3) == 0;
        put("%s{\"ID\":%u,\"Flags\":%d,\"MemAddr\":\"%s\"}", k ? "," : "", 1 + k, is_unofficial ? 5 : 3, is_bad ? "fF00=1" : "0xH0001=1");
        if (official && is_unofficial) unofficial++;
        else bad += (uint32_t)is_bad;
    }
    put("],\"Leaderboards\":[]}}");
    code_is("import", meerkat_import((uint8_t *)text, text_length, official, out, sizeof out, &length, &left, &why), MEERKAT_DONE);
    want(left == bad + unofficial, "how many are left out", (uint32_t)left);
    for (k = 0; length > 0;) k += out[--length] == '\n';
    want(k == count - bad - unofficial, "how many are in the set", k);
    text_length -= 1 + below(2);
    code_is("a document that is cut", meerkat_import((uint8_t *)text, text_length, official, out, sizeof out, &length, &left, &why), MEERKAT_DOCUMENT);
    want(why.kind == MEERKAT_NOT_JSON, "why a document is refused", why.kind);
    code_is("a flag that is none", meerkat_import((uint8_t *)text, text_length, 2, out, sizeof out, &length, &left, &why), MEERKAT_RANGE);
}

#endif
