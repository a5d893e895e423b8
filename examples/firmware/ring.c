/* The readings of a sensor. Its interrupt handler puts each into a ring, and the main loop takes them out. A lock keeps each of them from
   the ring while the other one has it, and a counter says how many readings found no place. Both are atomic words.

   Standard input has the events of a run, a byte each: a digit is a reading, `p` prints what the ring has, and `g` gives it twice the room.
   Other bytes do nothing. The program has one bug: ring.input doesn't show it, and one other byte of it does. */
#include <stdatomic.h>
#include <stdint.h>
#include <stdlib.h>
#include <unistd.h>

enum { FIRST_ROOM = 4, MOST_EVENTS = 64 };

struct ring {
    atomic_uint lock;                   /* 1 while the handler or the main loop has the ring */
    unsigned room, first, count;
    uint8_t readings[];
};

static struct ring *_Atomic ring;
static atomic_uint lost;

/* For the main loop, which may wait. */
static void acquire(struct ring *here)
{
    while (atomic_exchange(&here->lock, 1) != 0)
        continue;
}

static void release(struct ring *here)
{
    atomic_store(&here->lock, 0);
}

/* The interrupt handler. It doesn't wait: the main loop would never release the ring meanwhile. */
static void handle(uint8_t reading)
{
    struct ring *here = ring;
    if (atomic_exchange(&here->lock, 1) != 0) {
        atomic_fetch_add(&lost, 1);
        return;
    }
    if (here->count < here->room)
        here->readings[(here->first + here->count++) % here->room] = reading;
    else
        atomic_fetch_add(&lost, 1);
    release(here);
}

static int start(void)
{
    struct ring *first = calloc(1, sizeof *first + FIRST_ROOM);
    if (!first)
        return -1;
    first->room = FIRST_ROOM;
    ring = first;
    return 0;
}

static int grow(void)
{
    struct ring *old = ring, *larger = malloc(sizeof *larger + 2 * old->room);
    if (!larger)
        return -1;
    acquire(old);
    larger->room = 2 * old->room;       /* the bug: the lock of this ring is never initialised */
    larger->first = 0;
    larger->count = old->count;
    for (unsigned at = 0; at < old->count; at++)
        larger->readings[at] = old->readings[(old->first + at) % old->room];
    ring = larger;
    free(old);
    return 0;
}

/* Writes the readings that the ring has, and an asterisk for each that was lost since the last time. */
static void print_all(void)
{
    char text[MOST_EVENTS + 1];
    unsigned used = 0;
    struct ring *here = ring;
    acquire(here);
    for (; here->count > 0; here->count--) {
        text[used++] = here->readings[here->first];
        here->first = (here->first + 1) % here->room;
    }
    release(here);
    for (unsigned count = atomic_exchange(&lost, 0); count > 0; count--)
        text[used++] = '*';
    text[used++] = '\n';
    write(STDOUT_FILENO, text, used);
}

int main(void)
{
    static uint8_t events[MOST_EVENTS];
    int count = read(STDIN_FILENO, events, sizeof events), failed = start();
    for (int at = 0; !failed && at < count; at++) {
        if (events[at] >= '0' && events[at] <= '9')
            handle(events[at]);
        else if (events[at] == 'p')
            print_all();
        else if (events[at] == 'g')
            failed = grow();
    }
    free(ring);
    return failed ? EXIT_FAILURE : EXIT_SUCCESS;
}
