/* The hub of a water gauge. Records of its sensors come on standard input, one after another: a byte that says of which kind, one
   with the length, then the value. It writes the name of the place and the highest level.

   It has four bugs, each of a kind that is met in the field. station.input shows none of them; one other byte of it shows each. */
#include <stdint.h>
#include <stdlib.h>
#include <string.h>
#include <unistd.h>

enum kind { PADDING = 0, NAME = 1, LEVEL = 2, LIMITS = 3, UNIT = 4, END = 255 };
enum { FIRST_ROOM = 4, SHOWN_NAME = 20 };

struct limits {
    struct limits *next;
    uint8_t low, high;
};

struct station {
    char *name;
    uint16_t *levels;
    unsigned count, room;                   /* levels that there are, and that there is room for */
    const uint16_t *highest;
    struct limits *limits;
};

static uint8_t records[256];

static int set_name(struct station *station, const uint8_t *value, unsigned length)
{
    char *name = malloc((length + 3) & ~3u);        /* bug 1: with 0, 4, 8 .. letters there is no room for the zero */
    if (!name)
        return -1;
    memcpy(name, value, length);
    name[length] = 0;
    free(station->name);
    station->name = name;
    return 0;
}

static int make_room(struct station *station)
{
    unsigned room = station->room ? 2 * station->room : FIRST_ROOM;
    uint16_t *levels = realloc(station->levels, room * sizeof *levels);
    if (!levels)
        return -1;
    station->levels = levels;                       /* bug 2: `highest` still points into the old block */
    station->room = room;
    return 0;
}

static int add_level(struct station *station, const uint8_t *value, unsigned length)
{
    if (length != 2)
        return -1;
    if (station->count == station->room && make_room(station) < 0)
        return -1;
    uint16_t *level = &station->levels[station->count++];
    *level = value[0] | value[1] << 8;
    if (!station->highest || *level > *station->highest)
        station->highest = level;
    return 0;
}

static int add_limits(struct station *station, const uint8_t *value, unsigned length)
{
    struct limits *limits = malloc(sizeof *limits);
    if (!limits)
        return -1;
    if (length != 2)
        return -1;                                  /* bug 3: `goto refuse` was meant; the block is lost */
    if (value[0] > value[1])
        goto refuse;
    *limits = (struct limits){ station->limits, value[0], value[1] };
    station->limits = limits;
    return 0;
refuse:
    free(limits);
    return -1;
}

static int parse(struct station *station, unsigned size, char *unit)
{
    int refused = 0;
    for (unsigned at = 0; !refused && at < size && records[at] != END;) {
        if (records[at] == PADDING) {
            at++;
            continue;
        }
        if (size - at < 2 || size - at - 2 < records[at + 1])
            return -1;
        const uint8_t *value = &records[at + 2];
        unsigned length = records[at + 1];
        switch (records[at]) {
        case NAME:   refused = set_name(station, value, length); break;
        case LEVEL:  refused = add_level(station, value, length); break;
        case LIMITS: refused = add_limits(station, value, length); break;
        case UNIT:   *unit = length > 0 ? value[0] : 'c'; break;
        }
        at += 2 + length;
    }
    return refused;
}

static void show(const struct station *station, char unit)
{
    char text[32];
    unsigned used = 0, highest = *station->highest;
    if (unit == 'i')                                /* bug 4: where no record tells the unit, nothing has set it */
        highest = highest * 50 / 127;               /* inches, of centimetres */
    for (const char *name = station->name; *name && used < SHOWN_NAME; name++)
        text[used++] = *name;
    text[used++] = ' ';
    for (unsigned power = 10000; power > 0; power /= 10)
        text[used++] = '0' + highest / power % 10;
    text[used++] = '\n';
    write(STDOUT_FILENO, text, used);
}

static void drop(struct station *station)
{
    for (struct limits *next; station->limits; station->limits = next) {
        next = station->limits->next;
        free(station->limits);
    }
    free(station->levels);
    free(station->name);
}

int main(void)
{
    struct station station = { 0 };
    char unit;
    int refused = parse(&station, read(STDIN_FILENO, records, sizeof records), &unit);
    if (!refused && station.name && station.count > 0)
        show(&station, unit);
    drop(&station);
    return -refused;
}
