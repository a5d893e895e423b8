/* Has a program call the heap of replaycheck by number: gcc -include heap_by_number.h, with heap_by_number.c. These functions have names
   of their own, since replaycheck does the calls of those that are named malloc, free, calloc and realloc itself. */
#ifndef HEAP_BY_NUMBER_H
#define HEAP_BY_NUMBER_H

#include <stdlib.h>

void *malloc_by_number(size_t size);
void free_by_number(void *block);
void *calloc_by_number(size_t count, size_t size);
void *realloc_by_number(void *block, size_t size);

#define malloc malloc_by_number
#define free free_by_number
#define calloc calloc_by_number
#define realloc realloc_by_number

#endif
