/* The heap of heap.h: blocks in a row, of which the last can be given back. replaycheck runs none of it, once the file is adopted. */
#include "heap.h"
#include <stdint.h>
#include <stdlib.h>
#include <string.h>

struct _reent { int error; };
static struct _reent task;
struct _reent *_impure_ptr = &task;

static uint8_t room[4096] __attribute__((aligned(16)));
static size_t used;

__attribute__((noipa)) void *_malloc_r(struct _reent *task, size_t size)
{
    size_t need = (size + 15) / 16 * 16 + 16;
    if (size > sizeof room || need > sizeof room - used) {
        task->error = 12;
        return NULL;
    }
    uint8_t *block = room + used;
    *(size_t *)block = need;
    used += need;
    return block + 16;
}

__attribute__((noipa)) void _free_r(struct _reent *task, void *block)
{
    (void)task;
    if (!block)
        return;
    uint8_t *start = (uint8_t *)block - 16;
    size_t size = *(size_t *)start;
    if (start + size == room + used)
        used -= size;
}

__attribute__((noipa)) void *malloc(size_t size)
{
    return _malloc_r(_impure_ptr, size);
}

__attribute__((noipa)) void free(void *block)
{
    _free_r(_impure_ptr, block);
}

__attribute__((noipa)) void *pvPortMalloc(size_t size)
{
    return _malloc_r(_impure_ptr, size);
}

__attribute__((noipa)) void vPortFree(void *block)
{
    _free_r(_impure_ptr, block);
}

/* As a C library has them: what strdup gives comes from _malloc_r, and its caller hands it to free. */
char *_strdup_r(struct _reent *task, const char *text)
{
    size_t size = 0;
    while (text[size++])
        continue;
    char *copy = _malloc_r(task, size);
    return copy ? memcpy(copy, text, size) : NULL;
}

char *strdup(const char *text)
{
    return _strdup_r(_impure_ptr, text);
}
