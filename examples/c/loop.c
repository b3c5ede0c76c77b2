/* The loop of an emulator's core: a memory of 2 MiB that the game changes, 60 frames a second, what happened at each of
 * them, a save state, and a reset. The "game" here is a counter. */
#include "meerkat.h"

#include <stdio.h>
#include <stdlib.h>
#include <string.h>

#define RAM_SIZE 2097152u

static const char set[] =
    "A 101 0xH0010=60\n"
    "A 102 M:0xH0020=1.180.\n"
    "L 9 FRAMES STA:0xH0010=30::CAN:0=1::SUB:0xH0010=90::VAL:M:0xH0020=1\n"
    "P\n"
    "Display:\n"
    "Second @Number(0xH0011)\n";

/* Two parts of the memory that lie apart: the game sees them one after another. */
static uint8_t ram[RAM_SIZE / 2], more[RAM_SIZE / 2];
static const meerkat_bank banks[2] = {{ram, sizeof ram}, {more, sizeof more}};

/* What the game does in a frame. */
static void play(unsigned frame) {
    ram[0x10] = (uint8_t)(frame % 120);
    ram[0x11] = (uint8_t)(frame / 60);
    ram[0x20] = 1;
    more[0xf0000 + frame % 4096] = (uint8_t)frame;
}

static void tell(const meerkat_event *event, unsigned frame) {
    switch (event->kind) {
    case MEERKAT_UNLOCK: printf("%u: achievement %u\n", frame, (unsigned)event->id); break;
    case MEERKAT_START: printf("%u: attempt %u starts\n", frame, (unsigned)event->id); break;
    case MEERKAT_CANCEL: printf("%u: attempt %u is cancelled\n", frame, (unsigned)event->id); break;
    case MEERKAT_SUBMIT: printf("%u: attempt %u ends with %lld\n", frame, (unsigned)event->id, (long long)event->number); break;
    default: break; /* measured, primed, unprimed, track: what an overlay shows */
    }
}

/* The events of the last frame. The room grows where it is too little, which it seldom is. */
static int tell_all(meerkat_game *game, unsigned frame) {
    static meerkat_event *events;
    static size_t room;
    size_t count = 0;
    uint32_t code = meerkat_events(game, events ? events : &(meerkat_event){0}, room, &count);
    if (code == MEERKAT_ROOM) {
        free(events);
        events = calloc(count, sizeof *events); /* initialised, as all that a call is given */
        if (!events) {
            room = 0;
            return 0;
        }
        room = count;
        code = meerkat_events(game, events, room, &count);
    }
    if (code != MEERKAT_DONE) return 0;
    for (size_t i = 0; i < count; i++) tell(&events[i], frame);
    if (frame == 599) {
        free(events);
        events = NULL;
        room = 0;
    }
    return 1;
}

int main(void) {
    meerkat_game game = {0};
    meerkat_refusal why = {0};
    uint8_t state[256] = {0}, line[128] = {0};
    size_t saved = 0, count = 0;
    if (meerkat_new((const uint8_t *)set, strlen(set), RAM_SIZE, &game, &why) != MEERKAT_DONE) {
        fprintf(stderr, "refused: kind %u at %llu\n", (unsigned)why.kind, (unsigned long long)why.at);
        return 1;
    }
    for (unsigned frame = 0; frame < 600; frame++) {
        play(frame);
        if (meerkat_frame(&game, banks, 2) != MEERKAT_DONE) return 1;
        if (!tell_all(&game, frame)) return 1;
        if (frame % 60 == 59) { /* a second */
            if (meerkat_presence(&game, line, sizeof line, &count) != MEERKAT_DONE) return 1;
            printf("%u: %.*s\n", frame, (int)count, (const char *)line);
        }
        if (frame == 200 && meerkat_save(&game, state, sizeof state, &saved) != MEERKAT_DONE) return 1;
        if (frame == 300 && meerkat_restore(&game, state, saved, &why) != MEERKAT_DONE) return 1;
        if (frame == 540 && meerkat_reset(&game) != MEERKAT_DONE) return 1;
    }
    return meerkat_free(&game) == MEERKAT_DONE ? 0 : 1;
}
