/* The three functions of memory that the archive of crates/ra_c calls, over malloc, realloc and free, for a processor for which
 * Rattle's kit brings none: it has them for x86-64 alone (KIT/c/liblibc_c.a). They are C11, with nothing of one processor.
 * usage: cc -O2 -c memory.c, and link the object with the archive in place of KIT/c/liblibc_c.a
 *
 * The contract, which the proofs of the archive take for granted:
 *   - An answer is two values, which fit in two registers: whether there is memory, and a pointer that is never null.
 *   - A size may be 0, and the block is one that may be freed. An alignment is 1, 2, 4, 8 or 16.
 *   - A block that is resized keeps its first bytes, may move, and is as it was where there is no memory.
 *   - Where there is no memory the pointer is to a byte of this file, which nobody owns. */
#include <stdbool.h>
#include <stddef.h>
#include <stdint.h>
#include <stdlib.h>

/* malloc aligns for every type; the largest alignment that is asked for is 16. */
_Static_assert(_Alignof(max_align_t) >= 16, "malloc aligns to less than 16 bytes");

/* Whether there is memory, and where. */
typedef struct tried {
    bool ok;
    uint8_t *at;
} tried;

_Static_assert(sizeof(tried) == 16 && offsetof(tried, at) == 8, "an answer fits in two registers");

tried rattle_alloc(size_t size, size_t align);
tried rattle_realloc(uint8_t *block, size_t kept, size_t size, size_t align);
void rattle_dealloc(uint8_t *block);

static uint8_t nothing;

static tried answer(uint8_t *block) {
    tried result = {block != NULL, block != NULL ? block : &nothing};
    return result;
}

/* What is asked of malloc and realloc: no size of 0, for which they may answer null. */
static size_t asked(size_t size, size_t align) {
    return size != 0 ? size : align;
}

tried rattle_alloc(size_t size, size_t align) {
    return answer(malloc(asked(size, align)));
}

/* realloc keeps as many bytes as both blocks have, and kept is never more. */
tried rattle_realloc(uint8_t *block, size_t kept, size_t size, size_t align) {
    (void)kept;
    return answer(realloc(block, asked(size, align)));
}

void rattle_dealloc(uint8_t *block) {
    free(block);
}
