/* The heap of the library: what its proved code asks for memory, over malloc, realloc and free.

   The proved code trusts this file. A block of n bytes is aligned to each power of two up to 16 that divides n, as
   these three align it on x86-64. A block of no bytes gets as many bytes as its alignment, so that it can be freed
   like any other. Where there is no memory, `ok` is 0, `block` points to a byte that nobody uses, and the old block
   stays. */
#include <stddef.h>
#include <stdint.h>
#include <stdlib.h>

_Static_assert(sizeof(void *) == 8 && _Alignof(max_align_t) >= 16, "the library is for x86-64");

/* Whether there is memory, and where. It is returned in two registers, and the first of them is set whole. */
struct tried {
    uint64_t ok;
    void *block;
};

static uint8_t nothing;

static struct tried tried(void *block) {
    struct tried answer = {block != NULL, block != NULL ? block : &nothing};
    return answer;
}

struct tried rattle_alloc(size_t len, size_t align);
struct tried rattle_realloc(void *block, size_t kept, size_t len, size_t align);
void rattle_dealloc(void *block);

struct tried rattle_alloc(size_t len, size_t align) {
    return tried(malloc(len != 0 ? len : align));
}

/* The first `kept` bytes stay as they are, and realloc keeps no fewer. */
struct tried rattle_realloc(void *block, size_t kept, size_t len, size_t align) {
    (void)kept;
    return tried(realloc(block, len != 0 ? len : align));
}

void rattle_dealloc(void *block) {
    free(block);
}
