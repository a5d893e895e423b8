/* Asks for all that examples/firmware/stubs.c has; exits with 0 where each answers no, but for time, which goes by in steps, and atomic
   operations do their work. */
#include <fcntl.h>
#include <stdint.h>
#include <stdatomic.h>
#include <sys/stat.h>
#include <sys/time.h>
#include <sys/times.h>
#include <time.h>
#include <unistd.h>

int sched_yield(void);

static _Atomic uint32_t word = 5;

static int atomics(void)
{
    uint32_t expected = 5;
    return atomic_fetch_add(&word, 3) == 5 && atomic_fetch_sub(&word, 1) == 8 && atomic_fetch_and(&word, 6) == 7
        && atomic_fetch_or(&word, 8) == 6 && atomic_fetch_xor(&word, 3) == 14 && atomic_exchange(&word, 4) == 13
        && !atomic_compare_exchange_strong(&word, &expected, 9) && expected == 4
        && atomic_compare_exchange_strong(&word, &expected, 9) && atomic_load(&word) == 9;
}

static int time_goes_by(void)
{
    struct timeval before, after;
    if (gettimeofday(&before, 0) != 0 || gettimeofday(&after, 0) != 0)
        return 0;
    clock_t begin = clock(), end = clock();
#ifdef __riscv_compressed
    int is_in_steps = after.tv_usec > before.tv_usec + 4 && end > begin + 4;
#else
    int is_in_steps = after.tv_usec == before.tv_usec + 1 && end == begin + 1;
#endif
    return before.tv_sec == 0 && after.tv_usec < 10000 && begin > (clock_t)after.tv_usec && is_in_steps;
}

int main(void)
{
    struct stat status;
    struct tms used;
    atomic_store(&word, 5);
    int no = open("/a", O_RDONLY) == -1 && close(3) == -1 && lseek(0, 0, SEEK_SET) == -1 && fstat(0, &status) == -1 && !isatty(0)
        && sbrk(16) == (void *)-1 && times(&used) == (clock_t)-1;
    return no && time_goes_by() && sched_yield() == 0 && atomics() ? 0 : 1;
}
