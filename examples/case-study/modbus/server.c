/* Answers one Modbus TCP request, its whole input, as a device with ten registers from 100 on; ends with 1 where there is no answer. */
#include <string.h>
#include <time.h>
#include <unistd.h>
#include "modbus-private.h"

enum { HEADER = 7, LONGEST = 260, FIRST = 100, REGISTERS = 10 };

static int begin_answer(sft_t *request, uint8_t *answer)
{
    answer[0] = request->t_id >> 8;
    answer[1] = request->t_id & 0xff;
    answer[2] = answer[3] = 0;
    answer[6] = request->slave;
    answer[7] = request->function;
    return HEADER + 1;
}

static int transaction(const uint8_t *request, int *length)
{
    return (request[0] << 8) + request[1];
}

static int finish_answer(uint8_t *answer, int length)
{
    answer[4] = (length - 6) >> 8;
    answer[5] = (length - 6) & 0xff;
    return length;
}

static ssize_t send_answer(modbus_t *context, const uint8_t *answer, int length)
{
    return write(STDOUT_FILENO, answer, length);
}

static int flush_nothing(modbus_t *context)
{
    return 0;
}

int nanosleep(const struct timespec *wanted, struct timespec *left)
{
    return 0;
}

static const modbus_backend_t backend = {
    .header_length = HEADER,
    .max_adu_length = LONGEST,
    .build_response_basis = begin_answer,
    .prepare_response_tid = transaction,
    .send_msg_pre = finish_answer,
    .send = send_answer,
    .flush = flush_nothing,
};

int main(void)
{
    static uint8_t request[LONGEST];
    modbus_t context = { .slave = -1, .backend = &backend };
    ssize_t length = read(STDIN_FILENO, request, sizeof request);
    if (length <= HEADER)
        return 1;
    modbus_mapping_t *mapping = modbus_mapping_new_start_address(0, 0, 0, 0, FIRST, REGISTERS, 0, 0);
    if (mapping == NULL)
        return 1;
    int sent = modbus_reply(&context, request, length, mapping);
    modbus_mapping_free(mapping);
    return sent < 0;
}
