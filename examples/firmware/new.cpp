/* operator new and delete, which a C++ library has: Debian's gcc for RISC-V has none. They call malloc and free, so their blocks are
   checked. Without exceptions, a heap with no room ends the program. */
#include <stddef.h>
#include <stdlib.h>

#ifdef OWN_HEAP

/* A heap of its own, which replaycheck doesn't know: it takes from an array, and gives nothing back. */
static char room[4096];
static size_t used;

__attribute__((noipa)) static void *block_of(size_t size)
{
    void *block = room + used;
    used += (size + 15) / 16 * 16;
    return block;
}

__attribute__((noipa)) static void give_back(void *) {}

#else

static void *block_of(size_t size)
{
    void *block = malloc(size);
    if (!block)
        abort();
    return block;
}

static void give_back(void *block) { free(block); }

#endif

void *operator new(size_t size) { return block_of(size); }
void *operator new[](size_t size) { return block_of(size); }
void operator delete(void *block) noexcept { give_back(block); }
void operator delete[](void *block) noexcept { give_back(block); }
void operator delete(void *block, size_t) noexcept { give_back(block); }
void operator delete[](void *block, size_t) noexcept { give_back(block); }
