/* malloc, calloc, realloc and free over one static object, for programs that call realloc, which `cil run` does not offer. */
#include <stdlib.h>
#include <string.h>

#define ROOM 262144
#define CLASSES 64

union block {
    struct {
        size_t size;
        union block *next;
    } head;
    long long widest;
};

static union block room[ROOM];
static size_t used;
static union block *unused[CLASSES];

/* The number of the least power of two that holds so many blocks. */
static unsigned int class_of(size_t blocks)
{
    unsigned int class = 0;
    while (((size_t)1 << class) < blocks)
        class++;
    return class;
}

void *malloc(size_t size)
{
    size_t blocks;
    unsigned int class;
    union block *block;
    if (size > sizeof room / 2)
        return NULL;
    class = class_of((size + sizeof(union block) - 1) / sizeof(union block) + 1);
    block = unused[class];
    if (block) {
        unused[class] = block->head.next;
        return block + 1;
    }
    blocks = (size_t)1 << class;
    if (blocks > ROOM - used)
        return NULL;
    block = room + used;
    used += blocks;
    block->head.size = blocks;
    return block + 1;
}

void free(void *pointer)
{
    union block *block = pointer;
    unsigned int class;
    if (!block)
        return;
    block--;
    class = class_of(block->head.size);
    block->head.next = unused[class];
    unused[class] = block;
}

void *calloc(size_t count, size_t size)
{
    void *made;
    if (size && count > (size_t)-1 / size)
        return NULL;
    made = malloc(count * size);
    return made ? memset(made, 0, count * size) : NULL;
}

void *realloc(void *pointer, size_t size)
{
    union block *block = pointer;
    void *made;
    size_t room_of_old;
    if (!block)
        return malloc(size);
    room_of_old = ((block - 1)->head.size - 1) * sizeof(union block);
    if (size <= room_of_old)
        return pointer;
    made = malloc(size);
    if (!made)
        return NULL;
    memcpy(made, pointer, room_of_old);
    free(pointer);
    return made;
}
