/* The contract of memory.c, tried over blocks of each size and alignment, and where malloc and realloc fail.
 * usage: memory_test, linked with memory.o and -Wl,--wrap=malloc,--wrap=realloc,--wrap=free; it prints one line, and ends with
 * status 1 at the first violation, after a line that tells it */
#include <stdbool.h>
#include <stdint.h>
#include <stdio.h>
#include <stdlib.h>
#include <string.h>

typedef struct tried {
    bool ok;
    uint8_t *at;
} tried;

tried rattle_alloc(size_t size, size_t align);
tried rattle_realloc(uint8_t *block, size_t kept, size_t size, size_t align);
void rattle_dealloc(uint8_t *block);

void *__real_malloc(size_t size);
void *__real_realloc(void *old, size_t size);
void __real_free(void *block);

static bool failing;
static long held, tries;
static void *freed;

void *__wrap_malloc(size_t size) {
    void *block = failing ? NULL : __real_malloc(size);
    held += block != NULL;
    return block;
}

void *__wrap_realloc(void *old, size_t size) {
    return failing ? NULL : __real_realloc(old, size);
}

void __wrap_free(void *block) {
    freed = block;
    held -= block != NULL;
    __real_free(block);
}

static void want(bool holds, const char *what, size_t size, size_t align) {
    tries++;
    if (holds) return;
    printf("violation: %s (size %zu, alignment %zu)\n", what, size, align);
    exit(1);
}

static uint8_t byte_at(size_t place) {
    return (uint8_t)(place * 37 + 11);
}

static void fill(uint8_t *block, size_t size) {
    size_t k;
    for (k = 0; k < size; k++) block[k] = byte_at(k);
}

static bool is_filled(const uint8_t *block, size_t size) {
    size_t k;
    for (k = 0; k < size; k++)
        if (block[k] != byte_at(k)) return false;
    return true;
}

static tried new_block(size_t size, size_t align) {
    tried block = rattle_alloc(size, align);
    want(block.ok && block.at != NULL, "there is memory", size, align);
    want((uintptr_t)block.at % align == 0, "a block is aligned", size, align);
    fill(block.at, size);
    return block;
}

static void resize(size_t size, size_t wanted, size_t align) {
    tried block = new_block(size, align);
    size_t kept = size < wanted ? size : wanted;
    tried resized = rattle_realloc(block.at, kept, wanted, align);
    want(resized.ok && resized.at != NULL, "there is memory to resize", wanted, align);
    want((uintptr_t)resized.at % align == 0, "a resized block is aligned", wanted, align);
    want(is_filled(resized.at, kept), "a resized block keeps its bytes", wanted, align);
    fill(resized.at, wanted);
    rattle_dealloc(resized.at);
    want(freed == resized.at, "the block is freed", wanted, align);
}

/* Where there is no memory a pointer is given that is not null, and a block that was to be resized is as it was. */
static void refuse(size_t size, size_t align) {
    tried block = new_block(size, align), refused, resized;
    long before = held;
    failing = true;
    refused = rattle_alloc(size, align);
    resized = rattle_realloc(block.at, size, 2 * size + 1, align);
    failing = false;
    want(!refused.ok && refused.at != NULL, "an allocation is refused", size, align);
    want(!resized.ok && resized.at != NULL, "a resize is refused", size, align);
    want(held == before && is_filled(block.at, size), "a refused resize leaves the block", size, align);
    rattle_dealloc(block.at);
}

int main(void) {
    static const size_t sizes[] = {0, 1, 2, 3, 7, 8, 15, 16, 17, 63, 64, 1000, 4096, 65537, 1048576};
    size_t count = sizeof sizes / sizeof *sizes, from, to, align;
    for (align = 1; align <= 16; align *= 2)
        for (from = 0; from < count; from++) {
            refuse(sizes[from], align);
            for (to = 0; to < count; to++) resize(sizes[from], sizes[to], align);
        }
    want(!rattle_alloc(SIZE_MAX / 2, 16).ok, "no block is as large as this", SIZE_MAX / 2, 16);
    want(held == 0, "each block is freed once", 0, 1);
    printf("%ld tries, 0 violations\n", tries);
    return 0;
}
