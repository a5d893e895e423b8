/* The heap of replaycheck, by the numbers of its calls. No other system has them. */
#include "heap_by_number.h"
#include "environment.h"

void *malloc_by_number(size_t size)
{
    return (void *)call_environment(CALL_MALLOC, size, 0, 0);
}

void free_by_number(void *block)
{
    call_environment(CALL_FREE, (long)block, 0, 0);
}

void *calloc_by_number(size_t count, size_t size)
{
    return (void *)call_environment(CALL_CALLOC, count, size, 0);
}

void *realloc_by_number(void *block, size_t size)
{
    return (void *)call_environment(CALL_REALLOC, (long)block, size, 0);
}
