/* A C library's heap after newlib's interface: each function takes first the record of the task that calls. Two functions of an
   operating system have names of their own. */
#include <stddef.h>

struct _reent;
extern struct _reent *_impure_ptr;

void *_malloc_r(struct _reent *task, size_t size);
void _free_r(struct _reent *task, void *block);
char *_strdup_r(struct _reent *task, const char *text);
void *pvPortMalloc(size_t size);
void vPortFree(void *block);
