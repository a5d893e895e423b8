/* Unpacks a gzip file that comes in pieces with zlib, and keeps the extra field of its header. Status 1: it can't be unpacked. */
#include <stdlib.h>
#include <zlib.h>
#include "input.h"

enum { PIECE = 16, EXTRA = 8, GZIP = 16 };

int main(void)
{
    static Bytef unpacked[MOST];
    int length = read_input(), status = Z_OK;
    Bytef *extra = malloc(EXTRA);
    z_stream stream = { 0 };
    gz_header header = { .extra = extra, .extra_max = EXTRA };
    if (!extra || inflateInit2(&stream, MAX_WBITS + GZIP) != Z_OK || inflateGetHeader(&stream, &header) != Z_OK)
        return 2;
    for (int at = 0; at < length && status == Z_OK; at += PIECE) {
        stream.next_in = (Bytef *)input + at;
        stream.avail_in = length - at < PIECE ? length - at : PIECE;
        stream.next_out = unpacked;
        stream.avail_out = sizeof unpacked;
        status = inflate(&stream, Z_NO_FLUSH);
    }
    inflateEnd(&stream);
    free(extra);
    return status != Z_STREAM_END;
}
