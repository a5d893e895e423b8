/* What else a C library may ask of the system, mostly with answers that say no: there are no files and no more memory. Time goes by in
   steps, so that it is the same in each run. Link it where the linker says `undefined reference`, beside system.c. newlib asks by names
   with an underscore.
   And calls of atomic operations on words of 4 bytes, which gcc makes where there are no instructions for them. A single processor
   without interrupts needs no more than the plain operation; with interrupts, turn these off around it. */
#include <errno.h>
#include <signal.h>
#include <stdbool.h>
#include <stdint.h>
#include <sys/stat.h>
#include <sys/time.h>
#include <sys/times.h>
#include <time.h>
#include <unistd.h>

static int no(int reason)
{
    errno = reason;
    return -1;
}

/* ---- time, of which a step is a microsecond */

/* The steps that were executed. A counter has them where there are control registers, as with instructions of 16 bits. Nothing counts steps
   where there are none: then it is the number of calls of this function, so that time goes by there, too. */
static uint32_t steps(void)
{
#ifdef __riscv_compressed
    uint32_t count;
    __asm__ volatile(".insn i 0x73, 2, %0, x0, -1022" : "=r"(count)); /* csrr count, instret: by its name only with Zicsr */
    return count;
#else
    static uint32_t calls;
    return ++calls;
#endif
}

int gettimeofday(struct timeval *restrict now, void *restrict zone)
{
    (void)zone;
    uint32_t count = steps();
    now->tv_sec = count / 1000000;
    now->tv_usec = count % 1000000;
    return 0;
}

clock_t times(struct tms *used)
{
    (void)used;
    return no(ENOSYS);
}

clock_t clock(void)
{
    return steps();
}

/* ---- tasks, of which there is one */

int sched_yield(void);
int sched_yield(void)
{
    return 0;
}

/* ---- files */

int open(const char *path, int flags, ...)
{
    (void)path;
    (void)flags;
    return no(ENOSYS);
}

int close(int file)
{
    (void)file;
    return no(EBADF);
}

off_t lseek(int file, off_t offset, int from)
{
    (void)file;
    (void)offset;
    (void)from;
    return no(ESPIPE);
}

int fstat(int file, struct stat *status)
{
    (void)file;
    (void)status;
    return no(EBADF);
}

int isatty(int file)
{
    (void)file;
    errno = ENOTTY;
    return 0;
}

/* ---- memory, of which replaycheck's heap asks for none */

void *sbrk(ptrdiff_t more)
{
    (void)more;
    errno = ENOMEM;
    return (void *)-1;
}

/* ---- the same as newlib calls them, and what system.c has */

int _gettimeofday(struct timeval *restrict now, void *restrict zone) __attribute__((alias("gettimeofday")));
clock_t _times(struct tms *used) __attribute__((alias("times")));
int _open(const char *path, int flags, ...) __attribute__((alias("open")));
int _close(int file) __attribute__((alias("close")));
off_t _lseek(int file, off_t offset, int from) __attribute__((alias("lseek")));
int _fstat(int file, struct stat *status) __attribute__((alias("fstat")));
int _isatty(int file) __attribute__((alias("isatty")));
void *_sbrk(ptrdiff_t more) __attribute__((alias("sbrk")));

ssize_t _read(int file, void *buffer, size_t count)
{
    return read(file, buffer, count);
}

ssize_t _write(int file, const void *buffer, size_t count)
{
    return write(file, buffer, count);
}

int _kill(pid_t process, int signal)
{
    return kill(process, signal);
}

pid_t _getpid(void)
{
    return getpid();
}

/* ---- atomic operations. gcc knows these names and takes no definition of them, hence others in C. */

uint32_t load_4(const volatile void *place, int order) __asm__("__atomic_load_4");
uint32_t load_4(const volatile void *place, int order)
{
    (void)order;
    return *(const volatile uint32_t *)place;
}

void store_4(volatile void *place, uint32_t value, int order) __asm__("__atomic_store_4");
void store_4(volatile void *place, uint32_t value, int order)
{
    (void)order;
    *(volatile uint32_t *)place = value;
}

uint32_t exchange_4(volatile void *place, uint32_t value, int order) __asm__("__atomic_exchange_4");
uint32_t exchange_4(volatile void *place, uint32_t value, int order)
{
    uint32_t before = load_4(place, order);
    store_4(place, value, order);
    return before;
}

bool compare_exchange_4(volatile void *place, void *expected, uint32_t value, bool weak, int order, int otherwise)
    __asm__("__atomic_compare_exchange_4");
bool compare_exchange_4(volatile void *place, void *expected, uint32_t value, bool weak, int order, int otherwise)
{
    (void)weak;
    uint32_t before = load_4(place, otherwise);
    if (before != *(uint32_t *)expected) {
        *(uint32_t *)expected = before;
        return false;
    }
    store_4(place, value, order);
    return true;
}

uint32_t fetch_add_4(volatile void *place, uint32_t value, int order) __asm__("__atomic_fetch_add_4");
uint32_t fetch_add_4(volatile void *place, uint32_t value, int order)
{
    return exchange_4(place, load_4(place, order) + value, order);
}

uint32_t fetch_sub_4(volatile void *place, uint32_t value, int order) __asm__("__atomic_fetch_sub_4");
uint32_t fetch_sub_4(volatile void *place, uint32_t value, int order)
{
    return exchange_4(place, load_4(place, order) - value, order);
}

uint32_t fetch_and_4(volatile void *place, uint32_t value, int order) __asm__("__atomic_fetch_and_4");
uint32_t fetch_and_4(volatile void *place, uint32_t value, int order)
{
    return exchange_4(place, load_4(place, order) & value, order);
}

uint32_t fetch_or_4(volatile void *place, uint32_t value, int order) __asm__("__atomic_fetch_or_4");
uint32_t fetch_or_4(volatile void *place, uint32_t value, int order)
{
    return exchange_4(place, load_4(place, order) | value, order);
}

uint32_t fetch_xor_4(volatile void *place, uint32_t value, int order) __asm__("__atomic_fetch_xor_4");
uint32_t fetch_xor_4(volatile void *place, uint32_t value, int order)
{
    return exchange_4(place, load_4(place, order) ^ value, order);
}
