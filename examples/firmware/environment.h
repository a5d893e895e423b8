/* A call of the environment (ECALL): its number in a7, what it takes from a0 on, its result in a0. replaycheck knows read (63),
   write (64), exit (93) and exit_group (94), by Linux's numbers, and four calls of the heap, by its own. */
#ifndef ENVIRONMENT_H
#define ENVIRONMENT_H

enum environment_call {
    CALL_READ = 63,
    CALL_WRITE = 64,
    CALL_EXIT = 93,
    CALL_MALLOC = 2001,
    CALL_FREE = 2002,
    CALL_CALLOC = 2003,
    CALL_REALLOC = 2004,
};

/* A call takes only the registers that it has parameters for; the others may hold anything. */
static inline __attribute__((always_inline)) long call_environment(enum environment_call call, long first, long second, long third)
{
    register long a0 __asm__("a0") = first;
    register long a1 __asm__("a1") = second;
    register long a2 __asm__("a2") = third;
    register long a7 __asm__("a7") = call;
    __asm__ volatile("ecall" : "+r"(a0) : "r"(a1), "r"(a2), "r"(a7) : "memory");
    return a0;
}

#endif
