/* The controller of a pump. Bytes of its commands come by an interrupt. A command has a byte that says of which kind, one with the
   length, then the data: `T` shows a text, `S` sets the speed of a channel, `W` waits.

   It has two bugs, each in memory that no heap gives: pump.input shows neither. */
#include <string.h>
#include "pump.h"

enum { CELLS = 4, CHANNELS = 4 };

static uint8_t ring[32];                        /* bytes that have come and that poll hasn't seen */
static volatile unsigned come, seen;
static struct command pool[CELLS];
static uint8_t is_taken[CELLS];
static volatile uint8_t speeds[CHANNELS];

__attribute__((interrupt)) void uart_handler(void)
{
    ring[come++ % sizeof ring] = hal_uart_receive();
}

struct command *command_take(void)
{
    for (unsigned i = 0; i < CELLS; i++)
        if (!is_taken[i]) {
            is_taken[i] = 1;
            return &pool[i];
        }
    return NULL;
}

void command_give_back(struct command *command)
{
    is_taken[command - pool] = 0;
}

static uint8_t next(unsigned offset)
{
    return ring[(seen + offset) % sizeof ring];
}

static void obey(const struct command *command)
{
    if (command->kind == 'T')
        hal_uart_send(command->data, command->length);
    if (command->kind == 'S')
        speeds[command->data[0]] = command->data[1];    /* bug 1: there are 4 channels, and nothing checks that */
    if (command->kind == 'W')
        for (uint32_t end = hal_milliseconds() + command->data[0]; hal_milliseconds() < end;)
            continue;
}

void poll(void)
{
    if (come - seen < 2 || come - seen < 2u + next(1))
        return;
    struct command *command = command_take();
    if (!command)
        return;
    command->kind = next(0);
    command->length = next(1);
    for (unsigned i = 0; i < command->length; i++)
        command->data[i] = next(2 + i);                 /* bug 2: a cell has room for 14 bytes */
    seen += 2 + command->length;
    obey(command);
    command_give_back(command);
}
