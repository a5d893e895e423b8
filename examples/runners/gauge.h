/* What the tests are of: a checksum, a text, a record and a list of words. */
#ifndef GAUGE_H
#define GAUGE_H
#include <stddef.h>
#include <stdint.h>

uint16_t crc16(const uint8_t *data, size_t length);

/* A copy of some characters as a text, to be freed. */
char *text_of(const char *characters, size_t length);

struct reading { uint8_t kind, unit; uint16_t value; };
/* 0, or -1 where the record is wrong. */
int parse_reading(struct reading *reading, const uint8_t *record, size_t length);

/* The words of a line, which is cut up, in a list to be freed. */
char **words_of(char *line, int *count);
#endif
