/* The controller of a pump: what its files share. */
#include <stddef.h>
#include <stdint.h>

/* The hardware abstraction layer. Its driver is in another file, which only the board's build has. */
uint8_t hal_uart_receive(void);
void hal_uart_send(const uint8_t *bytes, size_t count);
uint32_t hal_milliseconds(void);

/* A command, in a cell of a pool. */
struct command {
    uint8_t kind, length, data[14];
};

struct command *command_take(void);
void command_give_back(struct command *command);
void uart_handler(void);                        /* the interrupt handler */
void poll(void);                                /* the main loop calls it for ever */
