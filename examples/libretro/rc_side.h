/* rcheevos beside a recording: the frames, saves and restores go to it too, and its events are printed as ra_player prints them.
 * Built with WITH_RCHEEVOS it needs librcheevos-dev; without, its calls do nothing and rc_side_open answers 0. */
#ifndef RC_SIDE_H
#define RC_SIDE_H

#include <stdio.h>
#include <stdlib.h>
#include <string.h>

/* The bytes of a file with a 0 behind them, and how many they are; NULL where it was not read. */
static unsigned char *rc_side_read(const char *path, size_t *size)
{
    FILE *file = fopen(path, "rb");
    unsigned char *bytes = NULL;
    long length;
    if (!file)
        return NULL;
    if (fseek(file, 0, SEEK_END) == 0 && (length = ftell(file)) >= 0 && fseek(file, 0, SEEK_SET) == 0) {
        bytes = malloc((size_t)length + 1);
        if (bytes && fread(bytes, 1, (size_t)length, file) != (size_t)length) {
            free(bytes);
            bytes = NULL;
        }
        if (bytes)
            bytes[length] = 0;
        *size = (size_t)length;
    }
    fclose(file);
    return bytes;
}

#ifdef WITH_RCHEEVOS
#include <rcheevos/rcheevos.h>

#define RC_SIDE_SLOTS 16
#define RC_SIDE_MOST_ITEMS 4096

struct rc_side_item {
    char kind;
    unsigned id;
    int format;
};

static struct {
    rc_runtime_t runtime;
    unsigned char *text;
    const unsigned char *image;
    unsigned long size;
    unsigned long frames;
    int is_open;
    struct rc_side_item items[RC_SIDE_MOST_ITEMS];
    unsigned item_count;
    rc_runtime_event_t events[RC_SIDE_MOST_ITEMS];
    unsigned event_count;
    struct {
        void *bytes;
        unsigned long frames;
    } slots[RC_SIDE_SLOTS];
} rc_side;

static unsigned rc_side_peek(unsigned at, unsigned count, void *nothing)
{
    unsigned number = 0, i;
    (void)nothing;
    for (i = 0; i < count; i++)
        if (at + i < rc_side.size)
            number |= (unsigned)rc_side.image[at + i] << 8 * i;
    return number;
}

static const char *rc_side_word(const rc_runtime_event_t *event)
{
    switch (event->type) {
    case RC_RUNTIME_EVENT_ACHIEVEMENT_TRIGGERED:
        return "unlock";
    case RC_RUNTIME_EVENT_ACHIEVEMENT_PRIMED:
        return "primed";
    case RC_RUNTIME_EVENT_ACHIEVEMENT_UNPRIMED:
        return "unprimed";
    case RC_RUNTIME_EVENT_LBOARD_STARTED:
        return "start";
    case RC_RUNTIME_EVENT_LBOARD_CANCELED:
        return "cancel";
    case RC_RUNTIME_EVENT_LBOARD_TRIGGERED:
        return "submit";
    default:
        return NULL;
    }
}

static void rc_side_event(const rc_runtime_event_t *event)
{
    if (rc_side_word(event) && rc_side.event_count < RC_SIDE_MOST_ITEMS)
        rc_side.events[rc_side.event_count++] = *event;
}

/* The line of an event. What is earned is taken off, as a client of the service does. */
static void rc_side_line(const rc_runtime_event_t *event, const struct rc_side_item *item)
{
    char text[64] = "";
    printf("%s %lu %u", rc_side_word(event), rc_side.frames, item->id);
    if (event->type == RC_RUNTIME_EVENT_LBOARD_TRIGGERED) {
        rc_runtime_format_lboard_value(text, sizeof text, event->value, item->format);
        printf(" %d %s", event->value, text);
    }
    printf("\n");
    if (event->type == RC_RUNTIME_EVENT_ACHIEVEMENT_TRIGGERED)
        rc_runtime_deactivate_achievement(&rc_side.runtime, item->id);
}

/* The lines of a frame, in the order of the set. */
static void rc_side_lines(void)
{
    unsigned i, j;
    for (i = 0; i < rc_side.item_count && rc_side.event_count; i++)
        for (j = 0; j < rc_side.event_count; j++) {
            int is_board = rc_side_word(&rc_side.events[j])[0] == 's' || rc_side_word(&rc_side.events[j])[0] == 'c';
            if (rc_side.events[j].id == rc_side.items[i].id && is_board == (rc_side.items[i].kind == 'L'))
                rc_side_line(&rc_side.events[j], &rc_side.items[i]);
        }
    rc_side.event_count = 0;
}

/* One line of the set: an achievement or a leaderboard. */
static int rc_side_item(char *line)
{
    struct rc_side_item *item = &rc_side.items[rc_side.item_count];
    char *id = strchr(line, ' '), *text = id ? strchr(id + 1, ' ') : NULL, *board;
    if (*line == 0 || *line == '#')
        return 1;
    if (!text || rc_side.item_count == RC_SIDE_MOST_ITEMS)
        return 0;
    item->kind = *line;
    item->id = (unsigned)strtoul(id, NULL, 10);
    rc_side.item_count++;
    if (*line == 'A')
        return rc_runtime_activate_achievement(&rc_side.runtime, item->id, text + 1, NULL, 0) == RC_OK;
    board = strchr(text + 1, ' ');
    if (*line != 'L' || !board)
        return 0;
    *board = 0;
    item->format = rc_parse_format(text + 1);
    return rc_runtime_activate_lboard(&rc_side.runtime, item->id, board + 1, NULL, 0) == RC_OK;
}

/* The set file, over a memory of this size, which stays the caller's; 0 where it is not read, or rcheevos refuses an item. */
static int rc_side_open(const char *path, const unsigned char *image, unsigned long size)
{
    size_t length;
    char *line, *end;
    rc_side.text = rc_side_read(path, &length);
    if (!rc_side.text)
        return 0;
    rc_side.image = image;
    rc_side.size = size;
    rc_side.is_open = 1;
    rc_runtime_init(&rc_side.runtime);
    for (line = (char *)rc_side.text; line; line = end) {
        end = strchr(line, '\n');
        if (end)
            *end++ = 0;
        if (strcmp(line, "P") == 0)
            return rc_runtime_activate_richpresence(&rc_side.runtime, end ? end : "", NULL, 0) == RC_OK;
        if (!rc_side_item(line))
            return 0;
    }
    return 1;
}

static void rc_side_frame(void)
{
    if (!rc_side.is_open)
        return;
    rc_runtime_do_frame(&rc_side.runtime, rc_side_event, rc_side_peek, NULL, NULL);
    rc_side_lines();
    rc_side.frames++;
}

static void rc_side_save(int slot)
{
    int size;
    if (!rc_side.is_open)
        return;
    size = rc_runtime_progress_size(&rc_side.runtime, NULL);
    free(rc_side.slots[slot].bytes);
    rc_side.slots[slot].bytes = calloc((size_t)size + 1, 1);
    rc_side.slots[slot].frames = rc_side.frames;
    if (rc_side.slots[slot].bytes)
        rc_runtime_serialize_progress(rc_side.slots[slot].bytes, &rc_side.runtime, NULL);
}

static void rc_side_restore(int slot)
{
    if (!rc_side.is_open || !rc_side.slots[slot].bytes)
        return;
    rc_runtime_deserialize_progress(&rc_side.runtime, rc_side.slots[slot].bytes, NULL);
    rc_side.frames = rc_side.slots[slot].frames;
}

static void rc_side_reset(void)
{
    if (!rc_side.is_open)
        return;
    rc_runtime_reset(&rc_side.runtime);
    rc_side.frames = 0;
}

static void rc_side_show(void)
{
    char text[1024];
    if (!rc_side.is_open || !rc_side.runtime.richpresence)
        return;
    rc_runtime_get_richpresence(&rc_side.runtime, text, sizeof text, rc_side_peek, NULL, NULL);
    printf("presence %lu %s\n", rc_side.frames, text);
}

static void rc_side_close(void)
{
    int i;
    if (!rc_side.is_open)
        return;
    rc_runtime_destroy(&rc_side.runtime);
    for (i = 0; i < RC_SIDE_SLOTS; i++)
        free(rc_side.slots[i].bytes);
    free(rc_side.text);
    rc_side.is_open = 0;
}

#else

static int rc_side_open(const char *path, const unsigned char *image, unsigned long size)
{
    (void)path, (void)image, (void)size;
    return 0;
}

static void rc_side_frame(void)
{
}

static void rc_side_save(int slot)
{
    (void)slot;
}

static void rc_side_restore(int slot)
{
    (void)slot;
}

static void rc_side_reset(void)
{
}

static void rc_side_show(void)
{
}

static void rc_side_close(void)
{
}

#endif
#endif
