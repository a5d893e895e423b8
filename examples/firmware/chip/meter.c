/* A meter of a chip. Standard input has an event each byte: a digit is a reading, and any other byte one that has failed. For each reading
   above a limit the meter sounds its alarm, a `!`. It has one bug: of a reading that has failed it takes what is on the stack. */
#include <stdint.h>
#include <unistd.h>

enum { LIMIT = 5 };

unsigned limit = LIMIT;                 /* a debugger sets others */
static unsigned alarms;

struct reading {
    uint8_t channel, value;
};

/* Takes a reading, and says whether there is one. */
static __attribute__((noinline)) int measure(char event, struct reading *into)
{
    if (event < '0' || event > '9')
        return 0;
    into->channel = 1;
    into->value = event - '0';
    return 1;
}

static __attribute__((noinline)) void judge(char event)
{
    struct reading now;
    measure(event, &now);               /* BUG: nobody asks whether there is one */
    if (now.value > limit) {
        alarms++;
        write(1, "!", 1);
    }
}

int main(void)
{
    char event;
    while (read(0, &event, 1) == 1)
        judge(event);
    return alarms > 0;
}
