/* One achievement: it unlocks when the byte at 0x10 was 5 in three frames. It is recorded, and its unlock explained. */
#include "meerkat.h"

#include <stdio.h>
#include <string.h>

int main(void) {
    static const char set[] = "A 1 0xH0010=5.3.\n";
    static const uint8_t bytes[] = {0, 5, 5, 0, 5};
    static uint8_t ram[32];
    meerkat_game game = {0};
    meerkat_refusal why = {0};
    meerkat_bank bank = {ram, sizeof ram};
    meerkat_hits hits[8] = {{0}};
    meerkat_unlock unlock = {0};
    uint8_t out[64] = {0};
    size_t count = 0;
    if (meerkat_new((const uint8_t *)set, strlen(set), 32, &game, &why) != MEERKAT_DONE) return 1;
    if (meerkat_record(&game, 1) != MEERKAT_DONE) return 1;
    for (size_t frame = 0; frame < 5; frame++) {
        ram[0x10] = bytes[frame];
        if (meerkat_frame(&game, &bank, 1) != MEERKAT_DONE) return 1;
        if (meerkat_lines(&game, out, sizeof out, &count) != MEERKAT_DONE) return 1;
        fwrite(out, 1, count, stdout);
    }
    if (meerkat_explain(&game, hits, 8, &count, &unlock) != MEERKAT_DONE) return 1;
    printf("last %u since %u waited %u\n", (unsigned)unlock.last, (unsigned)unlock.since, (unsigned)unlock.waited);
    for (size_t place = 0; place < count; place++)
        printf("%u %u:%u\n", (unsigned)hits[place].condition, (unsigned)hits[place].row, (unsigned)hits[place].hits);
    return meerkat_free(&game) == MEERKAT_DONE ? 0 : 1;
}
