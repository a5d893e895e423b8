/* An error of each kind, a leak of each kind, and what stops a program. The first byte of the input chooses the case; 0 is none. */
#include <stdint.h>
#include <stdlib.h>
#include <string.h>
#include <unistd.h>

#pragma GCC diagnostic ignored "-Wuse-after-free"           /* gcc sees some of them by itself */
#pragma GCC diagnostic ignored "-Wfree-nonheap-object"
#pragma GCC diagnostic ignored "-Wunused-result"

struct node {
    struct node *next;
    int value;
};

static struct node *kept;
static const int table[4] = { 10, 20, 30, 40 };
static void (*handler)(void);
static void (*odd_handler)(void) = (void (*)(void))0x10002;

static int *address_of_local(void)
{
    int local = 5;
    int *volatile address = &local;
    return address;
}

static struct node *two_nodes(void)
{
    struct node *first = malloc(sizeof *first), *second = malloc(sizeof *second);
    *first = (struct node){ .next = second, .value = 1 };
    *second = (struct node){ .next = NULL, .value = 2 };
    return first;
}

/* In each case `words` has two words, of which the second is never written, and `bytes` ten letters without a zero. */
static int provoke(unsigned which, int *words, char *bytes)
{
    int result = 0;
    switch (which) {
    case 1: result = words[2]; break;                       /* reads behind a block */
    case 2: bytes[10] = 'x'; break;                         /* writes behind a block */
    case 3: result = ((int16_t *)words)[-1]; break;         /* reads before a block */
    case 4: free(words); words[0] = 2; return 0;            /* writes into a block that is freed */
    case 5: result = *address_of_local(); break;            /* reads a variable of a function that has returned */
    case 6: result = kept->value; break;                    /* follows a null pointer */
    case 7: result = strlen(bytes); break;                  /* hands a library function a string without its zero */
    case 8: if (words[1] == 7) result = 1; break;           /* branches on what nobody has written */
    case 9: result = table[words[1] & 3]; break;            /* takes an address from what nobody has written */
    case 10: result = words[1]; break;                      /* exits with what nobody has written */
    case 11: kept = malloc(words[1]); free(kept); break;    /* asks for a block of a size that nobody has written */
    case 12: write(1, words, 8); break;                     /* sends what nobody has written */
    case 13: write(1, bytes, 11); break;                    /* sends more than there is */
    case 14: read(0, bytes, 11); break;                     /* asks for more than there is room for */
    case 15: free(bytes); break;                            /* frees a block that main frees again */
    case 16: free(bytes + 2); break;                        /* frees an address that malloc never gave */
    case 17: handler(); break;                              /* calls a null pointer */
    case 18: two_nodes(); break;                            /* forgets two blocks, of which one points to the other */
    case 19: kept = (struct node *)&two_nodes()->value; break;      /* keeps no pointer but one into a block */
    case 20: kept = two_nodes(); break;                     /* keeps two blocks and never frees them */
    case 21: __builtin_trap(); break;                       /* an EBREAK */
    case 22: __asm__ volatile("mret"); break;                /* an instruction that isn't in RV32IM */
    case 23: odd_handler(); break;                          /* jumps to where no instruction of four bytes can stand */
    }
    free(words);
    return result;
}

int main(void)
{
    unsigned char which = 0;
    int *words = malloc(8);
    char *bytes = malloc(10);
    words[0] = 1;
    memset(bytes, 'x', 10);
    read(STDIN_FILENO, &which, 1);
    int result = provoke(which, words, bytes);
    free(bytes);
    return result;
}
