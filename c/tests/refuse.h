/* Allocations that are refused, in a test that is linked with --wrap of malloc, calloc and realloc. */
#ifndef HUTTAVEL_TESTS_REFUSE_H
#define HUTTAVEL_TESTS_REFUSE_H

#include <stdbool.h>
#include <stdlib.h>

void *__real_malloc(size_t size);
void *__real_calloc(size_t count, size_t size);
void *__real_realloc(void *memory, size_t size);
void *__wrap_malloc(size_t size);
void *__wrap_calloc(size_t count, size_t size);
void *__wrap_realloc(void *memory, size_t size);

static unsigned long allocations, refused;

void *__wrap_malloc(size_t size)
{
    return ++allocations == refused ? NULL : __real_malloc(size);
}

void *__wrap_calloc(size_t count, size_t size)
{
    return ++allocations == refused ? NULL : __real_calloc(count, size);
}

void *__wrap_realloc(void *memory, size_t size)
{
    return ++allocations == refused ? NULL : __real_realloc(memory, size);
}

/* Refuses one allocation of those that come. */
static void refuse(unsigned long number)
{
    allocations = 0;
    refused = number;
}

/* Whether an allocation was refused after there had been so many. */
static bool was_refused(unsigned long before)
{
    return before < refused && refused <= allocations;
}

/* Does this with each of its allocations refused. How many there are; 0 if something is lost. */
static unsigned long each_refused(bool (*with)(unsigned long))
{
    unsigned long all, number;

    if (!with(0))
        return 0;
    all = allocations;
    for (number = 1; number <= all; number++)
        if (!with(number))
            return 0;
    return all;
}

#endif
