/* Plays a trace as the program ra_player does, and prints what it prints: play SET TRACE [COUNT].
 * Writes go into a memory of this program's own, which each frame reads where it lies, as COUNT banks (1). */
#include "meerkat.h"

#include <stdio.h>
#include <stdlib.h>
#include <string.h>

typedef struct {
    uint8_t *bytes;
    size_t length;
    unsigned long long frames; /* the count of frames of a saved moment */
} text;

static text slots[16];

static text read_file(const char *name) {
    text file = {NULL, 0, 0};
    FILE *in = fopen(name, "rb");
    if (!in) exit(4);
    fseek(in, 0, SEEK_END);
    long length = ftell(in);
    rewind(in);
    file.bytes = malloc((size_t)length + 1);
    if (!file.bytes) exit(4);
    file.length = fread(file.bytes, 1, (size_t)length, in);
    fclose(in);
    return file;
}

static uint32_t number(const uint8_t *at, int width) {
    uint32_t n = 0;
    for (int i = 0; i < width; i++) n |= (uint32_t)at[i] << (8 * i);
    return n;
}

typedef uint32_t telling(const meerkat_game *, uint8_t *, size_t, size_t *);

/* All bytes that a call tells: it is asked twice. */
static text told(telling *call, const meerkat_game *game) {
    text all = {NULL, 0, 0};
    uint8_t none[1] = {0};
    uint32_t code = call(game, none, 0, &all.length);
    all.bytes = calloc(all.length + 1, 1);
    if (!all.bytes || (code != MEERKAT_DONE && code != MEERKAT_ROOM)) exit(5);
    if (call(game, all.bytes, all.length, &all.length) != MEERKAT_DONE) exit(5);
    return all;
}

static void print(telling *call, const meerkat_game *game) {
    text all = told(call, game);
    fwrite(all.bytes, 1, all.length, stdout);
    free(all.bytes);
}

/* Whether a set has a script: the first line that begins with P is the one before it. */
static int has_script(const text *set) {
    for (size_t i = 0; i < set->length; i++)
        if (set->bytes[i] == 'P' && (i == 0 || set->bytes[i - 1] == '\n')) return 1;
    return 0;
}

/* The presence line: the text with the count of frames in front. */
static void show(const meerkat_game *game, unsigned long long frames) {
    text all = told(meerkat_presence, game);
    printf("presence %llu %.*s\n", frames, (int)all.length, (const char *)all.bytes);
    free(all.bytes);
}

static void done(uint32_t code) {
    if (code != MEERKAT_DONE) exit(6);
}

/* The memory as so many banks of one size, and what is left in the last one. */
static void lay(meerkat_bank *banks, size_t count, const uint8_t *memory, size_t size) {
    size_t each = size / count;
    for (size_t i = 0; i < count; i++) {
        banks[i].bytes = memory + i * each;
        banks[i].length = i + 1 < count ? each : size - i * each;
    }
}

int main(int words, char **word) {
    if (words < 3) return 2;
    text set = read_file(word[1]), trace = read_file(word[2]);
    meerkat_bank banks[16];
    size_t count = words > 3 ? (size_t)atoi(word[3]) : 1;
    uint32_t size = number(trace.bytes + 5, 4);
    uint8_t *memory = calloc(size + 1u, 1);
    unsigned long long frames = 0;
    meerkat_game game = {0};
    meerkat_refusal why = {0};
    if (count < 1 || count > 16) return 2;
    if (!memory || meerkat_new(set.bytes, set.length, size, &game, &why) != MEERKAT_DONE) return 3;
    lay(banks, count, memory, size);
    for (const uint8_t *at = trace.bytes + 9; *at != 'E';) {
        if (*at == 'W') {
            uint32_t length = number(at + 5, 2);
            memcpy(memory + number(at + 1, 4), at + 7, length);
            at += 7 + length;
        } else if (*at == 'F') {
            done(meerkat_frame(&game, banks, count));
            frames++;
            print(meerkat_lines, &game);
            at++;
        } else if (*at == 'P') {
            if (has_script(&set)) show(&game, frames);
            at++;
        } else {
            text *slot = &slots[at[1]];
            if (*at == 'S') {
                free(slot->bytes);
                *slot = told(meerkat_save, &game);
                slot->frames = frames;
            } else if (slot->bytes) {
                done(meerkat_restore(&game, slot->bytes, slot->length, &why));
                frames = slot->frames;
            }
            at += 2;
        }
    }
    done(meerkat_free(&game));
    for (int i = 0; i < 16; i++) free(slots[i].bytes);
    free(memory);
    free(set.bytes);
    free(trace.bytes);
    return 0;
}
