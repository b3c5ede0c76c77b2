/* The library beside a recording: an emulator's loop with meerkat.h. The frames, saves, restores and resets go to it, its lines and the
 * presence go to the standard output as ra_player prints them, and how the items stand at the end to the standard error.
 * Built with WITH_MEERKAT it needs the library; without, its calls do nothing and meerkat_side_open answers 0. */
#ifndef MEERKAT_SIDE_H
#define MEERKAT_SIDE_H

#include <stdio.h>
#include <stdlib.h>
#include <string.h>

/* A part of the emulator's memory, and the address at which the set has it. */
struct meerkat_side_part {
    unsigned long at;
    unsigned long count;
    const unsigned char *bytes;
};

#ifdef WITH_MEERKAT
#include <meerkat.h>

#define MEERKAT_SIDE_SLOTS 16
#define MEERKAT_SIDE_MOST_BANKS 1024

static struct {
    meerkat_game game;
    meerkat_bank banks[MEERKAT_SIDE_MOST_BANKS];
    size_t bank_count;
    unsigned char *zeros;
    unsigned long frames;
    int is_open;
    unsigned char *room;
    size_t room_size;
    struct {
        unsigned char *bytes;
        size_t count;
        unsigned long frames;
    } slots[MEERKAT_SIDE_SLOTS];
} meerkat_side;

static void meerkat_side_stop(const char *call, uint32_t code, const meerkat_refusal *why)
{
    uint8_t text[128] = {0}, reason[128] = {0};
    size_t length = 0, more = 0;
    meerkat_error(code, text, sizeof text, &length);
    if (why && meerkat_refusal_text(why, reason, sizeof reason, &more) != MEERKAT_DONE)
        more = 0;
    fprintf(stderr, "%s: %.*s %.*s\n", call, (int)length, (char *)text, (int)more, (char *)reason);
    exit(1);
}

/* Asks for a text or for rows, in a room that grows to what the call says. */
typedef uint32_t (*meerkat_side_gives)(const meerkat_game *game, void *out, size_t room, size_t *count);

static size_t meerkat_side_ask(const char *name, meerkat_side_gives call, size_t width)
{
    size_t count = 0;
    uint32_t code = call(&meerkat_side.game, meerkat_side.room, meerkat_side.room_size / width, &count);
    if (code == MEERKAT_ROOM) {
        free(meerkat_side.room);
        meerkat_side.room_size = count * width;
        meerkat_side.room = calloc(meerkat_side.room_size, 1);
        if (!meerkat_side.room)
            meerkat_side_stop(name, MEERKAT_MEMORY, NULL);
        code = call(&meerkat_side.game, meerkat_side.room, count, &count);
    }
    if (code != MEERKAT_DONE)
        meerkat_side_stop(name, code, NULL);
    return count;
}

static uint32_t meerkat_side_lines(const meerkat_game *game, void *out, size_t room, size_t *count)
{
    return meerkat_lines(game, out, room, count);
}

static uint32_t meerkat_side_presence(const meerkat_game *game, void *out, size_t room, size_t *count)
{
    return meerkat_presence(game, out, room, count);
}

static uint32_t meerkat_side_items(const meerkat_game *game, void *out, size_t room, size_t *count)
{
    return meerkat_items(game, out, room, count);
}

static uint32_t meerkat_side_bytes(const meerkat_game *game, void *out, size_t room, size_t *count)
{
    return meerkat_save(game, out, room, count);
}

/* The parts in the order of their addresses, with zeros where the machine has nothing: so each byte has the address of the set. */
static void meerkat_side_banks(const struct meerkat_side_part *parts, unsigned count, unsigned long size)
{
    unsigned long end = 0;
    while (end < size) {
        const struct meerkat_side_part *next = NULL;
        unsigned i;
        for (i = 0; i < count; i++)
            if (parts[i].at >= end && (!next || parts[i].at < next->at))
                next = &parts[i];
        if (meerkat_side.bank_count + 2 > MEERKAT_SIDE_MOST_BANKS)
            meerkat_side_stop("banks", MEERKAT_RANGE, NULL);
        if (!next || next->at > end) {
            meerkat_side.banks[meerkat_side.bank_count].bytes = meerkat_side.zeros;
            meerkat_side.banks[meerkat_side.bank_count++].length = (next ? next->at : size) - end;
            end = next ? next->at : size;
        }
        if (next) {
            meerkat_side.banks[meerkat_side.bank_count].bytes = next->bytes;
            meerkat_side.banks[meerkat_side.bank_count++].length = next->count;
            end = next->at + next->count;
        }
    }
}

/* The set's text over these parts of a memory, which stay the caller's. */
static int meerkat_side_open(const unsigned char *text, size_t length, const struct meerkat_side_part *parts, unsigned count, unsigned long size)
{
    meerkat_refusal why;
    uint32_t code;
    memset(&why, 0, sizeof why);
    meerkat_side.zeros = calloc(size + 1, 1);
    meerkat_side.room_size = 4096;
    meerkat_side.room = calloc(meerkat_side.room_size, 1);
    if (!meerkat_side.zeros || !meerkat_side.room)
        return 0;
    code = meerkat_new(text, length, (uint32_t)size, &meerkat_side.game, &why);
    if (code != MEERKAT_DONE)
        meerkat_side_stop("meerkat_new", code, &why);
    meerkat_side_banks(parts, count, size);
    meerkat_side.is_open = 1;
    return 1;
}

static void meerkat_side_frame(void)
{
    uint32_t code;
    size_t count;
    if (!meerkat_side.is_open)
        return;
    code = meerkat_frame(&meerkat_side.game, meerkat_side.banks, meerkat_side.bank_count);
    if (code != MEERKAT_DONE)
        meerkat_side_stop("meerkat_frame", code, NULL);
    meerkat_side.frames++;
    count = meerkat_side_ask("meerkat_lines", meerkat_side_lines, 1);
    fwrite(meerkat_side.room, 1, count, stdout);
}

static void meerkat_side_save(int slot)
{
    size_t count;
    if (!meerkat_side.is_open)
        return;
    count = meerkat_side_ask("meerkat_save", meerkat_side_bytes, 1);
    free(meerkat_side.slots[slot].bytes);
    meerkat_side.slots[slot].bytes = malloc(count + 1);
    if (!meerkat_side.slots[slot].bytes)
        meerkat_side_stop("a save state", MEERKAT_MEMORY, NULL);
    memcpy(meerkat_side.slots[slot].bytes, meerkat_side.room, count);
    meerkat_side.slots[slot].count = count;
    meerkat_side.slots[slot].frames = meerkat_side.frames;
}

static void meerkat_side_restore(int slot)
{
    meerkat_refusal why;
    uint32_t code;
    memset(&why, 0, sizeof why);
    if (!meerkat_side.is_open || !meerkat_side.slots[slot].bytes)
        return;
    code = meerkat_restore(&meerkat_side.game, meerkat_side.slots[slot].bytes, meerkat_side.slots[slot].count, &why);
    if (code != MEERKAT_DONE)
        meerkat_side_stop("meerkat_restore", code, &why);
    meerkat_side.frames = meerkat_side.slots[slot].frames;
}

static void meerkat_side_reset(void)
{
    if (!meerkat_side.is_open)
        return;
    meerkat_reset(&meerkat_side.game);
    meerkat_side.frames = 0;
}

static void meerkat_side_show(void)
{
    size_t count;
    if (!meerkat_side.is_open)
        return;
    count = meerkat_side_ask("meerkat_presence", meerkat_side_presence, 1);
    printf("presence %lu %.*s\n", meerkat_side.frames, (int)count, (char *)meerkat_side.room);
}

/* How each item stands, and then the game is freed. */
static void meerkat_side_close(void)
{
    size_t count, i;
    if (!meerkat_side.is_open)
        return;
    count = meerkat_side_ask("meerkat_items", meerkat_side_items, sizeof(meerkat_item));
    for (i = 0; i < count; i++) {
        const meerkat_item *item = (const meerkat_item *)meerkat_side.room + i;
        if (item->kind == MEERKAT_ACHIEVEMENT)
            fprintf(stderr, "achievement %u: state %u, %s, %u of %u%s\n", (unsigned)item->id, (unsigned)item->state,
                    item->earned ? "earned" : "not earned", (unsigned)item->measured, (unsigned)item->target, item->percent ? " in percent" : "");
        else
            fprintf(stderr, "leaderboard %u: state %u, %s, %d\n", (unsigned)item->id, (unsigned)item->state,
                    item->running ? "running" : "not running", (int)item->number);
    }
    meerkat_free(&meerkat_side.game);
    for (i = 0; i < MEERKAT_SIDE_SLOTS; i++)
        free(meerkat_side.slots[i].bytes);
    free(meerkat_side.room);
    free(meerkat_side.zeros);
    meerkat_side.is_open = 0;
}

#else

static int meerkat_side_open(const unsigned char *text, size_t length, const struct meerkat_side_part *parts, unsigned count, unsigned long size)
{
    (void)text, (void)length, (void)parts, (void)count, (void)size;
    return 0;
}

static void meerkat_side_frame(void)
{
}

static void meerkat_side_save(int slot)
{
    (void)slot;
}

static void meerkat_side_restore(int slot)
{
    (void)slot;
}

static void meerkat_side_reset(void)
{
}

static void meerkat_side_show(void)
{
}

static void meerkat_side_close(void)
{
}

#endif
#endif
