/* The heap of libscf: what compiled Rattle calls for memory. A block without bytes is one of as many as its alignment,
 * so that it has an address of its own. malloc aligns to 16, and nothing in the library asks for more. */
#include <stddef.h>
#include <stdint.h>
#include <stdlib.h>

struct block {
    uint64_t is_some;
    void *at;
};

static struct block block_at(void *at) {
    static const char none[16];
    return (struct block){at != NULL, at != NULL ? at : (void *)none};
}

struct block rattle_alloc(size_t size, size_t align) { return block_at(malloc(size != 0 ? size : align)); }

struct block rattle_realloc(void *old, size_t old_size, size_t size, size_t align) {
    (void)old_size;
    return block_at(realloc(old, size != 0 ? size : align));
}

void rattle_dealloc(void *at, size_t size, size_t align) {
    (void)size, (void)align;
    free(at);
}
