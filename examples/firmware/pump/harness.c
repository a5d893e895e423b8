/* Runs the controller of pump.c without its board: the driver is a stub, and each byte of standard input is an interrupt. */
#include <unistd.h>
#include "pump.h"

static uint8_t received;
static uint32_t now;

uint8_t hal_uart_receive(void)
{
    return received;
}

void hal_uart_send(const uint8_t *bytes, size_t count)
{
    write(1, bytes, count);
}

/* Each look at the clock takes a millisecond, so a wait ends, and time is the same in each run. */
uint32_t hal_milliseconds(void)
{
    return now++;
}

int main(void)
{
    while (read(0, &received, 1) == 1) {
        uart_handler();
        poll();
    }
    return 0;
}
