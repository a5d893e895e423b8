/* Writes a message of Protocol Buffers with nanopb, prints it, and reads it again into blocks of the heap. */
#include <pb_decode.h>
#include <pb_encode.h>
#include <stdio.h>
#include <string.h>

typedef struct {
    int32_t level;
    float depth;
    char name[12];
    pb_size_t tides_count;
    uint32_t tides[5];
    pb_size_t which_content;
    union {
        uint64_t number;
        bool is_free;
    } content;
} Berth;

#define Berth_FIELDLIST(X, a) \
    X(a, STATIC, SINGULAR, SINT32, level, 1) \
    X(a, STATIC, SINGULAR, FLOAT, depth, 2) \
    X(a, STATIC, SINGULAR, STRING, name, 3) \
    X(a, STATIC, REPEATED, UINT32, tides, 4) \
    X(a, STATIC, ONEOF, UINT64, (content, number, content.number), 5) \
    X(a, STATIC, ONEOF, BOOL, (content, is_free, content.is_free), 6)
#define Berth_number_tag 5
#define Berth_CALLBACK NULL
#define Berth_DEFAULT NULL
extern const pb_msgdesc_t Berth_msg;
PB_BIND(Berth, Berth, AUTO)

/* The same message, of which texts and lists are in blocks. */
typedef struct {
    int32_t level;
    float depth;
    char *name;
    pb_size_t tides_count;
    uint32_t *tides;
    pb_size_t which_content;
    union {
        uint64_t number;
        bool is_free;
    } content;
} Loose;

#define Loose_FIELDLIST(X, a) \
    X(a, STATIC, SINGULAR, SINT32, level, 1) \
    X(a, STATIC, SINGULAR, FLOAT, depth, 2) \
    X(a, POINTER, SINGULAR, STRING, name, 3) \
    X(a, POINTER, REPEATED, UINT32, tides, 4) \
    X(a, STATIC, ONEOF, UINT64, (content, number, content.number), 5) \
    X(a, STATIC, ONEOF, BOOL, (content, is_free, content.is_free), 6)
#define Loose_CALLBACK NULL
#define Loose_DEFAULT NULL
extern const pb_msgdesc_t Loose_msg;
PB_BIND(Loose, Loose, AUTO)

int main(void)
{
    Berth berth = { -300, 11.5f, "Sea Etoile", 3, { 1, 300, 70000 }, Berth_number_tag, { 0x123456789abULL } };
    Loose loose = { 0 };
    pb_byte_t written[64];
    pb_ostream_t out = pb_ostream_from_buffer(written, sizeof written);
    if (!pb_encode(&out, &Berth_msg, &berth)) {
        puts(PB_GET_ERROR(&out));
        return 1;
    }
    for (size_t at = 0; at < out.bytes_written; at++)
        printf("%02x ", written[at]);
    pb_istream_t in = pb_istream_from_buffer(written, out.bytes_written);
    if (!pb_decode(&in, &Loose_msg, &loose)) {
        puts(PB_GET_ERROR(&in));
        return 2;
    }
    printf("\n%d %.2f %s %llu", (int)loose.level, loose.depth, loose.name, (unsigned long long)loose.content.number);
    for (int at = 0; at < loose.tides_count; at++)
        printf(" %u", (unsigned)loose.tides[at]);
    puts("");
    pb_release(&Loose_msg, &loose);
    return 0;
}
