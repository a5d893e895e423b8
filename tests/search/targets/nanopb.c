/* Reads a message of Protocol Buffers with nanopb: a choice of a number and of texts that are allocated. Status 1: it isn't one. */
#include <pb_decode.h>
#include "input.h"

typedef struct {
    pb_size_t which_content;
    union {
        uint32_t number;
        char *name;
        pb_bytes_array_t *data;
    } content;
    bool has_level;
    int32_t level;
} Message;

#define Message_FIELDLIST(X, a) \
    X(a, STATIC, ONEOF, UINT32, (content, number, content.number), 1) \
    X(a, POINTER, ONEOF, STRING, (content, name, content.name), 2) \
    X(a, POINTER, ONEOF, BYTES, (content, data, content.data), 3) \
    X(a, STATIC, OPTIONAL, SINT32, level, 4)
#define Message_CALLBACK NULL
#define Message_DEFAULT NULL
extern const pb_msgdesc_t Message_msg;
PB_BIND(Message, Message, AUTO)

int main(void)
{
    Message message = { 0 };
    int length = read_input();
    pb_istream_t stream = pb_istream_from_buffer((pb_byte_t *)input, length);
    bool is_one = pb_decode(&stream, &Message_msg, &message);
    pb_release(&Message_msg, &message);
    return !is_one;
}
