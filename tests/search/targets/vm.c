/* A machine with a stack and eight cells, whose program is the input. Planted: storing checks that a cell's number isn't too large, and not
   that it isn't negative. Status: what is on top of the stack at the end, or 255: the program is wrong. */
#include <stdlib.h>
#include "input.h"

enum { CELLS = 8, DEPTH = 16, MOST_STEPS = 200, WRONG = 255 };
enum { HALT, PUSH, ADD, SUBTRACT, DUPLICATE, SWAP, LOAD, STORE, BACK_IF };

static int stack[DEPTH], depth;

/* Carries out an instruction on the stack that has enough values. Gives how many bytes further the next one is. */
static int step(const unsigned char *at, int *cells)
{
    int *top = stack + depth - 1, value;
    switch (*at) {
    case PUSH: stack[depth++] = at[1]; return 2;
    case ADD: top[-1] += *top; depth--; return 1;
    case SUBTRACT: top[-1] -= *top; depth--; return 1;
    case DUPLICATE: stack[depth++] = *top; return 1;
    case SWAP: value = *top; *top = top[-1]; top[-1] = value; return 1;
    case LOAD: *top = *top >= 0 && *top < CELLS ? cells[*top] : 0; return 1;
    case STORE: depth -= 2; if (*top < CELLS) cells[*top] = top[-1]; return 1;
    default: depth--; return *top ? -at[1] : 2;
    }
}

int main(void)
{
    static const char needs[] = { [ADD] = 2, 2, 1, 2, 1, 2, 1 };
    int length = read_input(), *cells = calloc(CELLS, sizeof *cells), at = 0;
    for (int steps = 0; cells && steps < MOST_STEPS && input[at] != HALT; steps++) {
        unsigned char code = input[at];
        if (code > BACK_IF || depth < needs[code] || depth == DEPTH)
            return free(cells), WRONG;
        at += step((unsigned char *)input + at, cells);
        if (at < 0 || at >= length)
            return free(cells), WRONG;
    }
    free(cells);
    return depth ? stack[depth - 1] & 255 : 0;
}
