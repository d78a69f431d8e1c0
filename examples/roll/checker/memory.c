#include "memory.h"

#include <stdio.h>
#include <stdlib.h>

static void *there(void *memory)
{
    if (memory == NULL) {
        fprintf(stderr, "checker: not enough memory\n");
        exit(2);
    }
    return memory;
}

void *memory_of(size_t count, size_t size)
{
    return there(calloc(count, size));
}

void *memory_grown(void *items, size_t count, size_t *room, size_t size)
{
    if (count < *room) {
        return items;
    }
    *room = *room == 0 ? 64 : *room * 2;
    return there(realloc(items, *room * size));
}
