/* malloc, realloc and free for the page: over the module's memory, from the end of its own data on. A block has one of few sizes, four in each
 * doubling, and one that is freed waits for the next of its size. For one thread.
 */
#include <stddef.h>

void *malloc(size_t size);
void free(void *block);
void *realloc(void *block, size_t size);

enum { HEAD = 16, SIZES = 160, PAGE = 65536 };

/* What stands before a block: the number of its size, and while it is free the next one of this size. */
typedef struct head {
    size_t number;
    struct head *next;
} head;

extern unsigned char __heap_base;
static head *waiting[SIZES];
static unsigned char *end;

/* The number of the least size that has so many bytes: 16, 32, 48, 64, and then four in each doubling. */
static size_t number_of(size_t size)
{
    if (size <= 64)
        return size <= 16 ? 0 : (size - 1) / 16;
    const size_t power = 63 - (size_t)__builtin_clzll(size - 1);
    return 4 * (power - 5) + ((size - 1) >> (power - 2)) - 4;
}

static size_t size_of(size_t number)
{
    return number < 4 ? 16 * (number + 1) : (5 + number % 4) << (number / 4 + 3);
}

/* A new block behind all others, or null where the memory can't be made longer. */
static head *behind(size_t bytes)
{
    if (end == NULL)
        end = (unsigned char *)(((size_t)&__heap_base + HEAD - 1) / HEAD * HEAD);
    const size_t there = __builtin_wasm_memory_size(0) * PAGE;
    const size_t wanted = (size_t)end + bytes;
    if (wanted > there && __builtin_wasm_memory_grow(0, (wanted - there + PAGE - 1) / PAGE) == (size_t)-1)
        return NULL;
    head *made = (head *)(void *)end;
    end += bytes;
    return made;
}

void *malloc(size_t size)
{
    if (size > (size_t)1 << 40)
        return NULL;
    const size_t number = number_of(size);
    head *it = waiting[number];
    if (it != NULL)
        waiting[number] = it->next;
    else
        it = behind(HEAD + size_of(number));
    if (it == NULL)
        return NULL;
    it->number = number;
    return it + 1;
}

void free(void *block)
{
    if (block == NULL)
        return;
    head *it = (head *)block - 1;
    it->next = waiting[it->number];
    waiting[it->number] = it;
}

void *realloc(void *block, size_t size)
{
    if (block == NULL)
        return malloc(size);
    const size_t had = size_of(((head *)block - 1)->number);
    if (size <= had)
        return block;
    void *made = malloc(size);
    if (made == NULL)
        return NULL;
    __builtin_memcpy(made, block, had);
    free(block);
    return made;
}
