/* A libretro core without an emulator, which check.sh tries frontend.c with: its memory comes as a map with pieces that overlap.
 * At each frame byte 0 counts, byte 1 has the buttons, byte 2 is what the option `stub_step` says, and 40 to 47 and 52 count with byte 0. */
#include <string.h>

#include "libretro_part.h"

static unsigned char ram[64];
static unsigned char bank[64];
static retro_environment_t environment;
static retro_input_poll_t input_poll;
static retro_input_state_t input_state;
static unsigned char step;

void retro_set_environment(retro_environment_t call)
{
    environment = call;
}

void retro_set_video_refresh(retro_video_refresh_t call)
{
    (void)call;
}

void retro_set_audio_sample(retro_audio_sample_t call)
{
    (void)call;
}

void retro_set_audio_sample_batch(retro_audio_sample_batch_t call)
{
    (void)call;
}

void retro_set_input_poll(retro_input_poll_t call)
{
    input_poll = call;
}

void retro_set_input_state(retro_input_state_t call)
{
    input_state = call;
}

void retro_set_controller_port_device(unsigned port, unsigned device)
{
    (void)port, (void)device;
}

void retro_get_system_info(struct retro_system_info *info)
{
    memset(info, 0, sizeof *info);
    info->need_fullpath = true;
}

void retro_init(void)
{
}

void retro_deinit(void)
{
}

/* The RAM at 0; the bank from 32 on, whose front the RAM hides, with a first byte that is passed over; and what has no bytes. */
bool retro_load_game(const struct retro_game_info *game)
{
    static struct retro_memory_descriptor pieces[3];
    struct retro_memory_map map = {pieces, 3};
    struct retro_variable asked = {"stub_step", NULL};
    pieces[0].ptr = ram;
    pieces[0].len = sizeof ram;
    pieces[1].ptr = bank;
    pieces[1].offset = 1;
    pieces[1].start = 32;
    pieces[1].len = sizeof bank - 1;
    pieces[2].start = 1 << 20;
    pieces[2].len = 1 << 20;
    step = environment(RETRO_ENVIRONMENT_GET_VARIABLE, &asked) ? (unsigned char)*asked.value : 0;
    return game && environment(RETRO_ENVIRONMENT_SET_MEMORY_MAPS, &map);
}

void retro_unload_game(void)
{
}

void retro_run(void)
{
    unsigned id;
    input_poll();
    ram[0]++;
    for (id = 0, ram[1] = 0; id < 8; id++)
        ram[1] |= (unsigned char)(input_state(0, RETRO_DEVICE_JOYPAD, 0, id) << id);
    ram[2] = step;
    memset(ram + 40, ram[0], 8);
    ram[52] = ram[0];
    bank[33] = (unsigned char)(ram[0] * 2);
}

void retro_reset(void)
{
    memset(ram, 0, sizeof ram);
}

size_t retro_serialize_size(void)
{
    return sizeof ram;
}

bool retro_serialize(void *data, size_t size)
{
    if (size >= sizeof ram)
        memcpy(data, ram, sizeof ram);
    return size >= sizeof ram;
}

bool retro_unserialize(const void *data, size_t size)
{
    if (size >= sizeof ram)
        memcpy(ram, data, sizeof ram);
    return size >= sizeof ram;
}

void *retro_get_memory_data(unsigned id)
{
    return id == RETRO_MEMORY_SYSTEM_RAM ? ram : NULL;
}

size_t retro_get_memory_size(unsigned id)
{
    return id == RETRO_MEMORY_SYSTEM_RAM ? sizeof ram : 0;
}
