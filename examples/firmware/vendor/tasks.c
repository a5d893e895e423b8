/* Tasks that take turns, as a small operating system has them. In mscratch is how often the running task has entered a critical section
   and not left it: interrupts stay off until that is 0 again. A switch keeps the number in the task, and loads that of the next one.

   Standard input has the events of a run, a byte each: `n` makes a task and switches to it, a digit switches to the task of that number,
   `c` runs a critical section, and `p` prints the number of the running task, and whether interrupts are on. Other bytes do nothing. The
   program has one bug: tasks.input doesn't show it, and one other byte of it does. */
#include <stdint.h>
#include <stdlib.h>
#include <unistd.h>

enum { MOST_TASKS = 8, MOST_EVENTS = 64, MIE = 8 };

struct task {
    unsigned number;
    unsigned nesting;                   /* what mscratch has while the task runs */
};

static struct task *tasks[MOST_TASKS], *running;
static unsigned count, sections;

static unsigned nesting(void)
{
    unsigned depth;
    __asm__ volatile("csrr %0, mscratch" : "=r"(depth));
    return depth;
}

static void set_nesting(unsigned depth)
{
    __asm__ volatile("csrw mscratch, %0" : : "r"(depth));
}

static void enter_critical(void)
{
    __asm__ volatile("csrci mstatus, %0" : : "i"(MIE) : "memory");
    set_nesting(nesting() + 1);
}

static void leave_critical(void)
{
    set_nesting(nesting() - 1);
    if (nesting() == 0)
        __asm__ volatile("csrsi mstatus, %0" : : "i"(MIE) : "memory");
}

static void switch_to(struct task *next)
{
    running->nesting = nesting();
    running = next;
    set_nesting(next->nesting);
}

/* The task that is running when main begins, and others, which have never been in a critical section. */
static struct task *add(struct task *made)
{
    if (made) {
        made->number = count;           /* the bug: the other member is initialised only by calloc */
        tasks[count++] = made;
    }
    return made;
}

static void print(void)
{
    unsigned status;
    __asm__ volatile("csrr %0, mstatus" : "=r"(status));
    char text[] = {'0' + running->number, status & MIE ? '+' : '-', '\n'};
    write(STDOUT_FILENO, text, sizeof text);
}

static void handle(uint8_t event)
{
    if (event >= '0' && event < '0' + count)
        switch_to(tasks[event - '0']);
    else if (event == 'n' && count < MOST_TASKS && add(malloc(sizeof *running)))
        switch_to(tasks[count - 1]);
    else if (event == 'p')
        print();
    else if (event == 'c') {
        enter_critical();
        sections++;
        leave_critical();
    }
}

int main(void)
{
    static uint8_t events[MOST_EVENTS];
    int length = read(STDIN_FILENO, events, sizeof events);
    running = add(calloc(1, sizeof *running));
    if (!running)
        return EXIT_FAILURE;
    __asm__ volatile("csrsi mstatus, %0" : : "i"(MIE));
    for (int at = 0; at < length; at++)
        handle(events[at]);
    while (count > 0)
        free(tasks[--count]);
    return EXIT_SUCCESS;
}
