/* A boot loader. It takes an image from its serial line, behind its checksum, and starts it if the checksum is right. A loader that is to
   keep out a forger checks a signature; what follows is the same.

   The image of boot.input has one wrong bit, so it is refused, with status 1. A glitch on the power line makes a processor skip an
   instruction, or take it with a bit flipped. Does one such fault in verify make it start the image, with status 0?

   With -DTWICE the image is checked twice. Each check adds its part to the answer, and only the sum of all parts is right. */
#include <stdbool.h>
#include <stdint.h>
#include <unistd.h>

enum { STARTED = 0, REFUSED = 1 };

struct image {
    uint32_t checksum;
    uint8_t content[252];
};

/* CRC-32 as in IEEE 802.3. */
static uint32_t checksum_of(const uint8_t *bytes, unsigned count)
{
    uint32_t rest = ~0u;
    while (count-- > 0) {
        rest ^= *bytes++;
        for (unsigned bit = 0; bit < 8; bit++)
            rest = rest >> 1 ^ (rest & 1 ? 0xedb88320 : 0);
    }
    return ~rest;
}

#ifdef TWICE
static const uint32_t NO_PART = 0x1e87d253, FIRST_PART = 0x2d5a6c31, SECOND_PART = 0x4b17e29c;

static uint32_t verify(const struct image *image, unsigned count)
{
    volatile uint32_t answer = NO_PART;
    if (checksum_of(image->content, count) == image->checksum)
        answer += FIRST_PART;
    if (checksum_of(image->content, count) == image->checksum)
        answer += SECOND_PART;
    return answer;
}

static bool is_right(uint32_t answer)
{
    return answer == NO_PART + FIRST_PART + SECOND_PART;
}
#else
static bool verify(const struct image *image, unsigned count)
{
    return checksum_of(image->content, count) == image->checksum;
}

static bool is_right(bool answer)
{
    return answer;
}
#endif

int main(void)
{
    static struct image image;
    int size = read(STDIN_FILENO, &image, sizeof image);
    if (size <= (int)sizeof image.checksum)
        return REFUSED;
    volatile uint32_t answer = verify(&image, size - sizeof image.checksum);
    if (!is_right(answer))
        return REFUSED;
    return is_right(answer) ? STARTED : REFUSED;
}
