/* Plays a trace against a set by rcheevos, and prints its lines as ra_player does: what a trace costs without an emulator.
 *
 *     rc_trace SET TRACE */
#include <stdio.h>
#include <stdlib.h>
#include <string.h>

#include "rc_side.h"

static unsigned long number_at(const unsigned char *bytes, int count)
{
    unsigned long number = 0;
    while (count-- > 0)
        number = number << 8 | bytes[count];
    return number;
}

/* How long the record at this place is, with what is left of the trace; 0 where it is none. */
static unsigned long record_length(const unsigned char *at, unsigned long left)
{
    unsigned long length = 0;
    if (*at == 'F' || *at == 'P')
        length = 1;
    else if (*at == 'S' || *at == 'R')
        length = left >= 2 && at[1] < 16 ? 2 : 0;
    else if (*at == 'W' && left >= 7)
        length = 7 + number_at(at + 5, 2);
    return length <= left ? length : 0;
}

/* Slot 15 is what frontend.c saves before the first frame, so its restore is a reset. */
static int play_record(const unsigned char *at, unsigned char *image, unsigned long size, unsigned long frames)
{
    switch (*at) {
    case 'W':
        if (number_at(at + 1, 4) + number_at(at + 5, 2) > size)
            return 0;
        memcpy(image + number_at(at + 1, 4), at + 7, number_at(at + 5, 2));
        return 1;
    case 'F':
        rc_side_frame();
        return 1;
    case 'S':
        rc_side_save(at[1]);
        return frames == 0 || at[1] != 15;
    case 'R':
        if (at[1] == 15)
            rc_side_reset();
        else
            rc_side_restore(at[1]);
        return 1;
    default:
        rc_side_show();
        return 1;
    }
}

static int play(const unsigned char *trace, unsigned long length, unsigned char *image, unsigned long size)
{
    unsigned long at = 9, frames = 0, next;
    while (at < length && trace[at] != 'E') {
        next = record_length(trace + at, length - at);
        if (!next || !play_record(trace + at, image, size, frames))
            return 0;
        frames += trace[at] == 'F';
        at += next;
    }
    return at < length;
}

int main(int count, char **words)
{
    size_t length = 0;
    unsigned char *trace = count == 3 ? rc_side_read(words[2], &length) : NULL, *image;
    unsigned long size;
    int whole;
    if (!trace || length < 9 || memcmp(trace, "RATR\1", 5) != 0) {
        fprintf(stderr, "rc_trace: no trace; usage: rc_trace SET TRACE\n");
        return 1;
    }
    size = number_at(trace + 5, 4);
    image = calloc(size ? size : 1, 1);
    if (!image || !rc_side_open(words[1], image, size)) {
        fprintf(stderr, "rc_trace: the set is refused, or memory is wanting\n");
        return 1;
    }
    whole = play(trace, length, image, size);
    if (!whole)
        fprintf(stderr, "rc_trace: the trace is refused\n");
    rc_side_close();
    free(image);
    free(trace);
    return !whole;
}
