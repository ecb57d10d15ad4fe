/* What the library asks for memory by, over malloc, realloc and free: for machines for which the kit has no C library of its own, in place of
 * libos_c.a and liblibc_c.a (docs/guide/c_and_rust.md). On x86-64 it does what they do.
 */
#include <stddef.h>

void *malloc(size_t size);
void *realloc(void *block, size_t size);
void free(void *block);

/* Whether there is memory, and where. */
typedef struct tried {
    size_t is_there;
    void *block;
} tried;

tried rattle_alloc(size_t size, size_t align);
tried rattle_realloc(void *block, size_t had, size_t size, size_t align);
void rattle_dealloc(void *block);

static char nowhere;

static tried answer(void *block)
{
    const tried it = {block != NULL, block != NULL ? block : &nowhere};
    return it;
}

tried rattle_alloc(size_t size, size_t align)
{
    return answer(malloc(size > 0 ? size : align));
}

tried rattle_realloc(void *block, size_t had, size_t size, size_t align)
{
    (void)had;
    return answer(realloc(block, size > 0 ? size : align));
}

void rattle_dealloc(void *block)
{
    free(block);
}
