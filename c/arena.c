/* malloc, realloc and free over a static array, for a board that has none: the first free block that fits, joined with its neighbours when
 * it is freed. Link it in place of the C library's. It is for one thread, and for no signal handler.
 */
#include <stddef.h>
#include <stdint.h>

#ifndef ZV_ARENA
#define ZV_ARENA (256 * 1024) /* how many bytes there are */
#endif

enum { ARENA = ZV_ARENA, ALIGN = 16 };

void *malloc(size_t size);
void *realloc(void *block, size_t size);
void free(void *block);

/* What stands before a block: how many bytes the block has with this, and whether it is in use. */
typedef struct head {
    size_t size;
    size_t is_used;
} head;

static _Alignas(ALIGN) uint8_t arena[ARENA];
static int is_begun;

static head *at(size_t offset)
{
    return (head *)(void *)(arena + offset);
}

/* Joins free blocks with the free ones behind them. */
static void join(void)
{
    for (size_t offset = 0; offset < ARENA; offset += at(offset)->size)
        while (!at(offset)->is_used && offset + at(offset)->size < ARENA && !at(offset + at(offset)->size)->is_used)
            at(offset)->size += at(offset + at(offset)->size)->size;
}

void *malloc(size_t size)
{
    if (!is_begun) {
        at(0)->size = ARENA;
        is_begun = 1;
    }
    if (size > ARENA)
        return NULL;
    const size_t wanted = (size + sizeof(head) + ALIGN - 1) / ALIGN * ALIGN;
    for (size_t offset = 0; offset < ARENA; offset += at(offset)->size) {
        head *it = at(offset);
        if (it->is_used || it->size < wanted)
            continue;
        if (it->size > wanted) {
            at(offset + wanted)->size = it->size - wanted;
            at(offset + wanted)->is_used = 0;
            it->size = wanted;
        }
        it->is_used = 1;
        return it + 1;
    }
    return NULL;
}

void free(void *block)
{
    if (block == NULL)
        return;
    ((head *)block - 1)->is_used = 0;
    join();
}

void *realloc(void *block, size_t size)
{
    if (block == NULL)
        return malloc(size);
    const size_t had = ((head *)block - 1)->size - sizeof(head);
    if (size <= had)
        return block;
    uint8_t *made = malloc(size);
    if (made == NULL)
        return NULL;
    for (size_t i = 0; i < had; i++)
        made[i] = ((uint8_t *)block)[i];
    free(block);
    return made;
}
