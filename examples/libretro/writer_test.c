/* Tries trace_writer.h, which has to be C89: random changes of a memory are written and played again, and each frame has to be the same.
 * Prints how many bytes and records the trace has. */
#include "../c/trace_writer.h"

#define SIZE 200000ul
#define FRAMES 200

static unsigned long drawn = 1;

static unsigned long draw(unsigned long below)
{
    drawn = (drawn * 1664525ul + 1013904223ul) & 0xFFFFFFFFul;
    return (drawn >> 8) % below;
}

/* Some bytes change, some near each other; at frame 3 nearly all, which is more than one record holds, and at frame 4 the last one. */
static void change(unsigned char *memory, int frame)
{
    unsigned long i, at;
    if (frame == 3)
        memset(memory, 7, SIZE - 1);
    if (frame == 4)
        memory[SIZE - 1] ^= 1;
    for (i = 0; frame > 4 && i < 20; i++) {
        at = draw(SIZE - 40);
        memory[at] = (unsigned char)draw(256);
        memory[at + draw(40)] = (unsigned char)draw(256);
    }
}

static unsigned long number(FILE *file, int count)
{
    unsigned long got = 0;
    int i;
    for (i = 0; i < count; i++)
        got |= (unsigned long)(unsigned char)fgetc(file) << 8 * i;
    return got;
}

/* The records up to a frame are played; 0 where one is another than it may be, or two of them lie near each other. */
static int play(FILE *file, unsigned char *memory, unsigned long *records)
{
    unsigned long at, count, end = 0;
    int letter;
    for (letter = fgetc(file); letter == 'W'; letter = fgetc(file)) {
        at = number(file, 4);
        count = number(file, 2);
        if (count == 0 || at + count > SIZE || (end && at < end - 1 + TRACE_NEAR && count < TRACE_MOST_WRITE && at != end))
            return 0;
        if (fread(memory + at, 1, count, file) != count)
            return 0;
        end = at + count;
        ++*records;
    }
    return letter == 'F';
}

int main(void)
{
    static unsigned char memory[SIZE], played[SIZE];
    struct trace_writer trace;
    unsigned long records = 0;
    FILE *file = tmpfile();
    int frame, good;
    good = trace_begin(&trace, file, SIZE);
    for (frame = 0; good && frame < FRAMES; frame++) {
        change(memory, frame);
        trace_bytes(&trace, 0, memory, 1000);
        trace_bytes(&trace, 1000, memory + 1000, SIZE);
        trace_frame(&trace);
    }
    good = good && trace_end(&trace);
    if (good) {
        printf("trace %ld ", ftell(file));
        rewind(file);
        good = fgetc(file) == 'R' && fseek(file, 5, SEEK_SET) == 0 && number(file, 4) == SIZE;
    }
    drawn = 1;
    memset(memory, 0, SIZE);
    for (frame = 0; good && frame < FRAMES; frame++) {
        change(memory, frame);
        good = play(file, played, &records) && memcmp(memory, played, SIZE) == 0;
    }
    good = good && fgetc(file) == 'E' && fgetc(file) == EOF;
    printf("records %lu %s\n", records, good ? "held" : "FAILED");
    return !good;
}
