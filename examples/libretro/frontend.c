/* Runs a game on a libretro core without a screen, presses what a script says, and records the game's memory as a trace.
 *
 *     frontend CORE GAME SCRIPT TRACE [--ram] [--set SET] [--play SET] [KEY=VALUE ..]
 *
 * The memory is the core's memory map where it sets one, each descriptor at its start; else, and with --ram, the system RAM. KEY=VALUE is an
 * option of the core. With --set, where it is built with rcheevos, the lines that rcheevos has for the set go to the standard output.
 * With --play, where it is built with the library, this library plays the set in the core's own memory; its lines and the presence go there.
 *
 * A line of the script is one of these; what stands behind a '#', and an empty line, is passed over:
 *
 *     60              60 frames with nothing pressed
 *     30 right a      30 frames with these pressed: b y select start up down left right a x l r
 *     save 0          a save state; slots are 0 to 14
 *     restore 0       the core goes on from the state of the slot
 *     reset           the console's reset; what the set counts begins anew
 *     show            the presence line is shown */
#include <dlfcn.h>
#include <stdio.h>
#include <stdlib.h>
#include <string.h>

#include "../c/trace_writer.h"
#include "libretro_part.h"
#include "meerkat_side.h"
#include "rc_side.h"

#define SLOTS 16
#define BEGINNING 15
#define MOST_PIECES 256

struct core {
    void (*init)(void);
    void (*deinit)(void);
    void (*run)(void);
    void (*reset)(void);
    bool (*load_game)(const struct retro_game_info *game);
    void (*unload_game)(void);
    size_t (*serialize_size)(void);
    bool (*serialize)(void *data, size_t size);
    bool (*unserialize)(const void *data, size_t size);
    void *(*get_memory_data)(unsigned id);
    size_t (*get_memory_size)(unsigned id);
    void (*get_system_info)(struct retro_system_info *info);
    void (*set_environment)(retro_environment_t call);
    void (*set_video_refresh)(retro_video_refresh_t call);
    void (*set_audio_sample)(retro_audio_sample_t call);
    void (*set_audio_sample_batch)(retro_audio_sample_batch_t call);
    void (*set_input_poll)(retro_input_poll_t call);
    void (*set_input_state)(retro_input_state_t call);
    void (*set_controller_port_device)(unsigned port, unsigned device);
};

static struct core core;
static struct meerkat_side_part pieces[MOST_PIECES];
static unsigned piece_count;
static int wants_map = 1;
static unsigned pressed;
static char **options;
static int option_count;
static struct trace_writer trace;
static struct {
    void *bytes;
    size_t size;
} states[SLOTS];
static unsigned char *file_of_game;

static void fail(const char *what, const char *of)
{
    fprintf(stderr, "frontend: %s %s\n", what, of);
    exit(1);
}

/* --- The memory --- */

/* These bytes, but where a piece before them has their addresses. */
static void add_piece(unsigned long at, unsigned long count, const unsigned char *bytes)
{
    unsigned i;
    for (i = 0; i < piece_count && count; i++) {
        unsigned long other = pieces[i].at, end = other + pieces[i].count;
        if (at < other && other < at + count) {
            add_piece(at, other - at, bytes);
            count -= other - at;
            bytes += other - at;
            at = other;
        }
        if (other <= at && at < end) {
            unsigned long shared = end - at < count ? end - at : count;
            at += shared;
            bytes += shared;
            count -= shared;
        }
    }
    if (count && piece_count == MOST_PIECES)
        fail("too many pieces in the memory map of", "the core");
    if (count) {
        pieces[piece_count].at = at;
        pieces[piece_count].count = count;
        pieces[piece_count++].bytes = bytes;
    }
}

static void take_map(const struct retro_memory_map *map)
{
    unsigned i;
    piece_count = 0;
    for (i = 0; i < map->num_descriptors; i++) {
        const struct retro_memory_descriptor *it = &map->descriptors[i];
        if (it->ptr && it->len && it->start + it->len <= TRACE_MOST_SIZE)
            add_piece(it->start, it->len, (const unsigned char *)it->ptr + it->offset);
    }
}

static unsigned long size_of_memory(void)
{
    unsigned long size = 0;
    unsigned i;
    if (!piece_count && core.get_memory_data(RETRO_MEMORY_SYSTEM_RAM))
        add_piece(0, core.get_memory_size(RETRO_MEMORY_SYSTEM_RAM), core.get_memory_data(RETRO_MEMORY_SYSTEM_RAM));
    for (i = 0; i < piece_count; i++)
        if (pieces[i].at + pieces[i].count > size)
            size = pieces[i].at + pieces[i].count;
    if (!size)
        fail("no memory of", "the core");
    return size;
}

/* --- What the core asks for --- */

static bool take_option(struct retro_variable *asked)
{
    int i;
    size_t length = strlen(asked->key);
    for (i = 0; i < option_count; i++)
        if (strncmp(options[i], asked->key, length) == 0 && options[i][length] == '=') {
            asked->value = options[i] + length + 1;
            return true;
        }
    return false;
}

static bool on_environment(unsigned command, void *data)
{
    switch (command) {
    case RETRO_ENVIRONMENT_GET_CAN_DUPE:
        *(bool *)data = true;
        return true;
    case RETRO_ENVIRONMENT_GET_SYSTEM_DIRECTORY:
    case RETRO_ENVIRONMENT_GET_SAVE_DIRECTORY:
        *(const char **)data = ".";
        return true;
    case RETRO_ENVIRONMENT_SET_PIXEL_FORMAT:
        return true;
    case RETRO_ENVIRONMENT_GET_VARIABLE:
        return take_option(data);
    case RETRO_ENVIRONMENT_GET_VARIABLE_UPDATE:
        *(bool *)data = false;
        return true;
    case RETRO_ENVIRONMENT_SET_MEMORY_MAPS:
        if (wants_map)
            take_map(data);
        return true;
    default:
        return false;
    }
}

static void on_video(const void *data, unsigned width, unsigned height, size_t pitch)
{
    (void)data, (void)width, (void)height, (void)pitch;
}

static void on_sample(int16_t left, int16_t right)
{
    (void)left, (void)right;
}

static size_t on_samples(const int16_t *data, size_t frames)
{
    (void)data;
    return frames;
}

static void on_poll(void)
{
}

static int16_t on_input(unsigned port, unsigned device, unsigned index, unsigned id)
{
    (void)index;
    return port == 0 && device == RETRO_DEVICE_JOYPAD && id < 16 ? (int16_t)(pressed >> id & 1) : 0;
}

/* --- The core and its game --- */

static void find(void *library, const char *name, void *call)
{
    void *found = dlsym(library, name);
    if (!found)
        fail("the core lacks", name);
    memcpy(call, &found, sizeof found);
}

static void open_core(const char *path)
{
    void *library = dlopen(path, RTLD_NOW | RTLD_LOCAL);
    if (!library)
        fail("no core:", dlerror());
    find(library, "retro_init", &core.init);
    find(library, "retro_deinit", &core.deinit);
    find(library, "retro_run", &core.run);
    find(library, "retro_reset", &core.reset);
    find(library, "retro_load_game", &core.load_game);
    find(library, "retro_unload_game", &core.unload_game);
    find(library, "retro_serialize_size", &core.serialize_size);
    find(library, "retro_serialize", &core.serialize);
    find(library, "retro_unserialize", &core.unserialize);
    find(library, "retro_get_memory_data", &core.get_memory_data);
    find(library, "retro_get_memory_size", &core.get_memory_size);
    find(library, "retro_get_system_info", &core.get_system_info);
    find(library, "retro_set_environment", &core.set_environment);
    find(library, "retro_set_video_refresh", &core.set_video_refresh);
    find(library, "retro_set_audio_sample", &core.set_audio_sample);
    find(library, "retro_set_audio_sample_batch", &core.set_audio_sample_batch);
    find(library, "retro_set_input_poll", &core.set_input_poll);
    find(library, "retro_set_input_state", &core.set_input_state);
    find(library, "retro_set_controller_port_device", &core.set_controller_port_device);
    core.set_environment(on_environment);
    core.set_video_refresh(on_video);
    core.set_audio_sample(on_sample);
    core.set_audio_sample_batch(on_samples);
    core.set_input_poll(on_poll);
    core.set_input_state(on_input);
    core.init();
}

static void open_game(const char *path)
{
    struct retro_game_info game = {path, NULL, 0, NULL};
    struct retro_system_info system;
    memset(&system, 0, sizeof system);
    core.get_system_info(&system);
    if (!system.need_fullpath) {
        file_of_game = rc_side_read(path, &game.size);
        if (!file_of_game)
            fail("no game:", path);
        game.data = file_of_game;
    }
    if (!core.load_game(&game))
        fail("the core refuses", path);
    core.set_controller_port_device(0, RETRO_DEVICE_JOYPAD);
}

static void close_core(void)
{
    int i;
    core.unload_game();
    core.deinit();
    for (i = 0; i < SLOTS; i++)
        free(states[i].bytes);
    free(file_of_game);
}

/* --- The script --- */

static void run_frame(void)
{
    unsigned i;
    core.run();
    for (i = 0; i < piece_count; i++)
        trace_bytes(&trace, pieces[i].at, pieces[i].bytes, pieces[i].count);
    trace_frame(&trace);
    rc_side_frame();
    meerkat_side_frame();
}

static void save(int slot)
{
    states[slot].size = core.serialize_size();
    free(states[slot].bytes);
    states[slot].bytes = calloc(states[slot].size + 1, 1);
    if (!states[slot].bytes || !core.serialize(states[slot].bytes, states[slot].size))
        fail("no save state of", "the core");
    trace_save(&trace, slot);
    rc_side_save(slot);
    meerkat_side_save(slot);
}

static void restore(int slot)
{
    if (!states[slot].bytes || !core.unserialize(states[slot].bytes, states[slot].size))
        fail("a restore is refused by", "the core");
    trace_restore(&trace, slot);
    rc_side_restore(slot);
    meerkat_side_restore(slot);
}

/* The trace begins with a save of the beginning, which a reset takes up. */
static void reset(void)
{
    core.reset();
    trace_restore(&trace, BEGINNING);
    rc_side_reset();
    meerkat_side_reset();
}

static void show(void)
{
    trace_show(&trace);
    rc_side_show();
    meerkat_side_show();
}

static unsigned button(const char *word)
{
    static const char *const names[] = {"b", "y", "select", "start", "up", "down", "left", "right", "a", "x", "l", "r"};
    unsigned i;
    for (i = 0; i < sizeof names / sizeof *names; i++)
        if (strcmp(word, names[i]) == 0)
            return 1u << i;
    fail("no such button:", word);
    return 0;
}

static void run_frames(long count)
{
    char *word;
    pressed = 0;
    while ((word = strtok(NULL, " \t\r\n")))
        pressed |= button(word);
    while (count-- > 0)
        run_frame();
}

static void run_line(char *line)
{
    char *word = strtok(line, " \t\r\n"), *end;
    long count;
    if (!word)
        return;
    count = strtol(word, &end, 10);
    if (*end == 0) {
        run_frames(count);
        return;
    }
    if (strcmp(word, "reset") == 0 || strcmp(word, "show") == 0) {
        (*word == 'r' ? reset : show)();
        return;
    }
    end = strtok(NULL, " \t\r\n");
    count = end ? strtol(end, NULL, 10) : -1;
    if ((strcmp(word, "save") != 0 && strcmp(word, "restore") != 0) || count < 0 || count >= BEGINNING)
        fail("no such line of the script:", word);
    (*word == 's' ? save : restore)((int)count);
}

static void run_script(const char *path)
{
    char line[256];
    FILE *file = fopen(path, "r");
    if (!file)
        fail("no script:", path);
    while (fgets(line, sizeof line, file)) {
        line[strcspn(line, "#")] = 0;
        run_line(line);
    }
    fclose(file);
}

/* The library plays the set of this file over the core's memory. */
static void play(const char *path, unsigned long size)
{
    size_t length = 0;
    unsigned char *text = rc_side_read(path, &length);
    if (!text || !meerkat_side_open(text, length, pieces, piece_count, size))
        fail("the library is not built in, or there is no set:", path);
    free(text);
}

int main(int count, char **words)
{
    const char *set = NULL, *played = NULL;
    FILE *file;
    int i;
    if (count < 5)
        fail("usage:", "frontend CORE GAME SCRIPT TRACE [--ram] [--set SET] [--play SET] [KEY=VALUE ..]");
    for (i = 5; i < count && strncmp(words[i], "--", 2) == 0; i++) {
        if (strcmp(words[i], "--ram") == 0)
            wants_map = 0;
        else if (strcmp(words[i], "--set") == 0 && i + 1 < count)
            set = words[++i];
        else if (strcmp(words[i], "--play") == 0 && i + 1 < count)
            played = words[++i];
        else
            fail("no such option:", words[i]);
    }
    options = words + i;
    option_count = count - i;
    open_core(words[1]);
    open_game(words[2]);
    file = fopen(words[4], "wb");
    if (!trace_begin(&trace, file, size_of_memory()))
        fail("no trace:", words[4]);
    if (set && !rc_side_open(set, trace.seen, trace.size))
        fail("rcheevos is not built in, or refuses", set);
    if (played)
        play(played, trace.size);
    trace_save(&trace, BEGINNING);
    rc_side_save(BEGINNING);
    run_script(words[3]);
    rc_side_close();
    meerkat_side_close();
    close_core();
    if (!trace_end(&trace) || fclose(file) != 0)
        fail("the trace was not written whole:", words[4]);
    return 0;
}
