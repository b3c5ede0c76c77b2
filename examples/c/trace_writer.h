/* Writes a trace of an emulator's memory, which ra_player plays (docs/DEFINITIONS.md, "Trace file"). C89, nothing but the C library.
 *
 *     struct trace_writer trace;
 *     if (!trace_begin(&trace, fopen("game.trace", "wb"), size)) ...        size in bytes, at most TRACE_MOST_SIZE
 *     each frame, after the core has run it:
 *         trace_bytes(&trace, 0, memory, size);                             each piece of the memory at its place
 *         trace_frame(&trace);
 *     trace_save(&trace, 0), trace_restore(&trace, 0), trace_show(&trace)   slots are 0 to 15
 *     if (!trace_end(&trace)) ...                                           0 where a write failed; the file is closed by the caller
 *
 * The writer keeps one copy of the memory, `seen`, and writes the bytes that differ from it: changed bytes that lie less than
 * TRACE_NEAR bytes apart come in one record. After a restore of the core's state the memory is told as for each other frame. */
#ifndef TRACE_WRITER_H
#define TRACE_WRITER_H

#include <stdio.h>
#include <stdlib.h>
#include <string.h>

#define TRACE_MOST_SIZE 134217728ul
#define TRACE_MOST_WRITE 65535ul
#define TRACE_NEAR 8ul
#define TRACE_BLOCK 64ul
#ifdef __GNUC__
#define TRACE_CALL static __attribute__((unused))
#else
#define TRACE_CALL static
#endif

struct trace_writer {
    FILE *file;
    unsigned char *seen;
    unsigned long size;
    int whole;
};

TRACE_CALL void trace_put(struct trace_writer *trace, const unsigned char *bytes, unsigned long count)
{
    if (fwrite(bytes, 1, count, trace->file) != count)
        trace->whole = 0;
}

TRACE_CALL void trace_record(struct trace_writer *trace, int letter, int slot)
{
    unsigned char record[2];
    record[0] = (unsigned char)letter;
    record[1] = (unsigned char)slot;
    trace_put(trace, record, slot < 0 ? 1 : 2);
}

/* The header, and a copy of the memory, which begins as zeros; 0 where the file is none, the size is too great or memory is wanting. */
TRACE_CALL int trace_begin(struct trace_writer *trace, FILE *file, unsigned long size)
{
    unsigned char header[9];
    trace->file = file;
    trace->size = size;
    trace->whole = 1;
    trace->seen = size > TRACE_MOST_SIZE ? NULL : (unsigned char *)calloc(size ? size : 1, 1);
    if (!file || !trace->seen)
        return 0;
    memcpy(header, "RATR\1", 5);
    header[5] = (unsigned char)(size & 255);
    header[6] = (unsigned char)(size >> 8 & 255);
    header[7] = (unsigned char)(size >> 16 & 255);
    header[8] = (unsigned char)(size >> 24 & 255);
    trace_put(trace, header, 9);
    return trace->whole;
}

/* A record of these bytes at this place, which the copy then has too. */
TRACE_CALL void trace_write(struct trace_writer *trace, unsigned long at, const unsigned char *bytes, unsigned long count)
{
    unsigned char head[7];
    head[0] = 'W';
    head[1] = (unsigned char)(at & 255);
    head[2] = (unsigned char)(at >> 8 & 255);
    head[3] = (unsigned char)(at >> 16 & 255);
    head[4] = (unsigned char)(at >> 24 & 255);
    head[5] = (unsigned char)(count & 255);
    head[6] = (unsigned char)(count >> 8 & 255);
    trace_put(trace, head, 7);
    trace_put(trace, bytes, count);
    memcpy(trace->seen + at, bytes, count);
}

/* The end of the run of changed bytes that begins at `from`: behind the last changed byte that has another one near before it. */
TRACE_CALL unsigned long trace_run(const unsigned char *seen, const unsigned char *bytes, unsigned long from, unsigned long count)
{
    unsigned long last = from, i;
    for (i = from + 1; i < count && i - last < TRACE_NEAR && i - from < TRACE_MOST_WRITE; i++)
        if (seen[i] != bytes[i])
            last = i;
    return last + 1;
}

/* The memory from `at` on has these bytes now: what differs from the copy is written. What passes the memory's end is left out. */
TRACE_CALL void trace_bytes(struct trace_writer *trace, unsigned long at, const unsigned char *bytes, unsigned long count)
{
    const unsigned char *seen;
    unsigned long i = 0, end;
    if (at > trace->size)
        return;
    if (count > trace->size - at)
        count = trace->size - at;
    seen = trace->seen + at;
    while (i < count) {
        if (count - i >= TRACE_BLOCK && memcmp(seen + i, bytes + i, TRACE_BLOCK) == 0)
            i += TRACE_BLOCK;
        else if (seen[i] == bytes[i])
            i++;
        else {
            end = trace_run(seen, bytes, i, count);
            trace_write(trace, at + i, bytes + i, end - i);
            i = end;
        }
    }
}

TRACE_CALL void trace_frame(struct trace_writer *trace)
{
    trace_record(trace, 'F', -1);
}

TRACE_CALL void trace_show(struct trace_writer *trace)
{
    trace_record(trace, 'P', -1);
}

TRACE_CALL void trace_save(struct trace_writer *trace, int slot)
{
    trace_record(trace, 'S', slot);
}

TRACE_CALL void trace_restore(struct trace_writer *trace, int slot)
{
    trace_record(trace, 'R', slot);
}

/* The end record; what was written is whole where this is not 0. */
TRACE_CALL int trace_end(struct trace_writer *trace)
{
    trace_record(trace, 'E', -1);
    if (fflush(trace->file) != 0)
        trace->whole = 0;
    free(trace->seen);
    trace->seen = NULL;
    return trace->whole;
}

#endif
