/*
 * Memory that the checker asks for. Nothing is given back before the program ends: the report names periods, frames and commands
 * of the whole roll, so all of it is needed to the end.
 */
#ifndef CHECKER_MEMORY_H
#define CHECKER_MEMORY_H

#include <stddef.h>

/* Zeroed memory for count items; where there is none the program ends with status 2. */
void *memory_of(size_t count, size_t size);

/* The items with room for one more behind the first count. */
void *memory_grown(void *items, size_t count, size_t *room, size_t size);

#endif
