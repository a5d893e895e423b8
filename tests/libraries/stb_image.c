/* Reads an image with stb_image and prints its size and a sum of its pixels. Status 1: it is no image. */
#include <stdint.h>
#include <stdio.h>
#include "input.h"

#define STB_IMAGE_IMPLEMENTATION
#define STBI_NO_STDIO
#define STBI_NO_THREAD_LOCALS
#include <stb_image.h>

int main(void)
{
    int width, height, parts;
    int length = read_input();
    unsigned char *pixels = stbi_load_from_memory((unsigned char *)input, length, &width, &height, &parts, 0);
    if (!pixels) {
        puts(stbi_failure_reason());
        return 1;
    }
    uint32_t sum = 1;
    for (int at = 0; at < width * height * parts; at++)
        sum = sum * 31 + pixels[at];
    printf("%d %d %d %08x\n", width, height, parts, (unsigned)sum);
    stbi_image_free(pixels);
    return 0;
}
