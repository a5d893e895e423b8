/* The same device for libFuzzer, and for AFL++ with its driver for such programs. */
#define main device
#include "device.c"

int LLVMFuzzerTestOneInput(const unsigned char *bytes, size_t length)
{
    static int is_begun;
    if (!is_begun++)
        begin_device();
    if (length <= LONGEST)
        receive(bytes, length);
    return 0;
}
