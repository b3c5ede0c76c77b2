/* What a caller in C does at each frame of a trace, for bench/c_library.sh: frames SET TRACE COUNT. It takes the frame over a memory of
 * its own as COUNT banks and reads the events; lines are not written. It prints how many events there were. */
#include "meerkat.h"

#include <stdio.h>
#include <stdlib.h>
#include <string.h>

#define MOST 65536

typedef struct {
    uint8_t *bytes;
    size_t length;
} text;

static meerkat_event events[MOST];

static void wants(int holds, int status) {
    if (!holds) exit(status);
}

static text read_file(const char *name) {
    text file = {NULL, 0};
    FILE *in = fopen(name, "rb");
    wants(in != NULL, 4);
    fseek(in, 0, SEEK_END);
    long length = ftell(in);
    rewind(in);
    file.bytes = calloc((size_t)length + 1, 1);
    wants(file.bytes != NULL, 4);
    file.length = fread(file.bytes, 1, (size_t)length, in);
    fclose(in);
    return file;
}

static uint32_t number(const uint8_t *at, int width) {
    uint32_t n = 0;
    for (int i = 0; i < width; i++) n |= (uint32_t)at[i] << (8 * i);
    return n;
}

static text save(const meerkat_game *game) {
    text all = {NULL, 0};
    wants(meerkat_save_size(game, &all.length) == MEERKAT_DONE, 5);
    all.bytes = calloc(all.length + 1, 1);
    wants(all.bytes && meerkat_save(game, all.bytes, all.length, &all.length) == MEERKAT_DONE, 5);
    return all;
}

static void lay(meerkat_bank *banks, size_t count, const uint8_t *memory, size_t size) {
    size_t each = size / count;
    for (size_t i = 0; i < count; i++) {
        banks[i].bytes = memory + i * each;
        banks[i].length = i + 1 < count ? each : size - i * each;
    }
}

int main(int words, char **word) {
    wants(words == 4, 2);
    text set = read_file(word[1]), trace = read_file(word[2]), slots[16] = {{NULL, 0}};
    size_t count = (size_t)atoi(word[3]), found = 0, told = 0;
    wants(count >= 1 && count <= 16, 2);
    uint32_t size = number(trace.bytes + 5, 4);
    uint8_t *memory = calloc(size + 1u, 1);
    meerkat_bank banks[16];
    meerkat_game game = {0};
    meerkat_refusal why = {0};
    wants(memory && meerkat_new(set.bytes, set.length, size, &game, &why) == MEERKAT_DONE, 3);
    lay(banks, count, memory, size);
    for (const uint8_t *at = trace.bytes + 9; *at != 'E';) {
        if (*at == 'W') {
            uint32_t length = number(at + 5, 2);
            memcpy(memory + number(at + 1, 4), at + 7, length);
            at += 7 + length;
        } else if (*at == 'F') {
            wants(meerkat_frame(&game, banks, count) == MEERKAT_DONE, 6);
            wants(meerkat_events(&game, events, MOST, &found) == MEERKAT_DONE, 6);
            told += found;
            at++;
        } else if (*at == 'S' || *at == 'R') {
            text *slot = &slots[at[1]];
            if (*at == 'S') {
                free(slot->bytes);
                *slot = save(&game);
            } else {
                wants(slot->bytes && meerkat_restore(&game, slot->bytes, slot->length, &why) == MEERKAT_DONE, 6);
            }
            at += 2;
        } else {
            at++; /* a show changes nothing */
        }
    }
    printf("%zu\n", told);
    return meerkat_free(&game) == MEERKAT_DONE ? 0 : 6;
}
