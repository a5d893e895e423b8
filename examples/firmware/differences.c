/* Where replaycheck says something else than Valgrind's Memcheck. The first byte of the input chooses the case; 0 is none.
   For Memcheck compile it for your computer: gcc -Og -g -fno-builtin differences.c */
#include <stdlib.h>
#include <string.h>
#include <unistd.h>

#if __has_include(<valgrind/memcheck.h>)
#include <valgrind/memcheck.h>
#else
#define VALGRIND_MAKE_MEM_NOACCESS(address, size) ((void)0) /* which is what it is in Valgrind's own file, for RV32IM */
#endif

#pragma GCC diagnostic ignored "-Walloc-size-larger-than="  /* gcc sees some of them by itself */
#pragma GCC diagnostic ignored "-Wfree-nonheap-object"
#pragma GCC diagnostic ignored "-Wmaybe-uninitialized"
#pragma GCC diagnostic ignored "-Wuninitialized"
#pragma GCC diagnostic ignored "-Wunused-result"
#pragma GCC diagnostic ignored "-Wuse-after-free"

struct node {
    struct node *next;
    int value;
};

static struct node *kept;

static void two_blocks(void)
{
    void **first = malloc(16);
    *first = malloc(32);
}

/* gauge::length(char const *), as a C++ compiler names it. */
int length(const char *text) __asm__("_ZN5gauge6lengthEPKc");
__attribute__((noipa)) int length(const char *text)
{
    int count = 0;
    while (text[count] == 'x')
        count++;
    return count;
}

/* In each case `words` has two words, of which the second is never written, and `bytes` ten letters without a zero. */
static int provoke(unsigned which, int *words, char *bytes, int argc)
{
    int result = 0, value = words[1];
    char local[8];
    switch (which) {
    case 1: if (value == 7) result = 1; if (value > 9) result = 2; break;       /* tests twice what nobody has written */
    case 2: if (value == 7) result = 1; words[0] = value; write(1, words, 4); break;    /* tests it, and sends it */
    case 3: result = kept->next->next->next->value; break;  /* follows a null pointer, and on from there */
    case 4: free(words); result = words[0]; return result;  /* reads a block that is freed */
    case 5: free(&kept); break;                             /* frees a global variable */
    case 6: write(1, local, 8); break;                      /* sends a local variable that nobody has written */
    case 7: two_blocks(); break;                            /* forgets two blocks, of which one points to the other */
    case 8: result = argc; break;                           /* exits with the number of its arguments */
    case 9: VALGRIND_MAKE_MEM_NOACCESS(bytes, 4); result = bytes[0] & 1; break;     /* closes bytes, and reads one */
    case 10: result = length(bytes); break;                 /* calls a function of C++, which reads behind a block */
    case 11: result = *(int *)(bytes + 8) & 1; break;       /* reads an aligned word that goes past a block */
    case 12: memcpy(bytes + 1, bytes, 9); break;            /* copies to where it copies from */
    case 13: kept = malloc(-1); break;                      /* asks for a block of a negative size */
    }
    free(words);
    return result;
}

int main(int argc, char **argv)
{
    unsigned char which = 0;
    int *words = malloc(8);
    char *bytes = malloc(10);
    (void)argv;
    words[0] = 1;
    memset(bytes, 'x', 10);
    read(STDIN_FILENO, &which, 1);
    int result = provoke(which, words, bytes, argc);
    free(bytes);
    return result;
}
