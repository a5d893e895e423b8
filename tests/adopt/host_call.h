/* A call of the host by semihosting, inlined where it is called. */
static inline __attribute__((always_inline)) long host(long operation, const void *parameter)
{
    register long a0 __asm__("a0") = operation;
    register const void *a1 __asm__("a1") = parameter;
    __asm__ volatile(".balign 16\n\tslli zero,zero,0x1f\n\tebreak\n\tsrai zero,zero,7" : "+r"(a0) : "r"(a1) : "memory");
    return a0;
}
