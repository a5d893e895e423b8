/* Reads XML with expat and prints the names of its elements. Status 1: it isn't XML. */
#include <expat.h>
#include <string.h>
#include <sys/time.h>
#include "input.h"

/* A board without a clock. */
int gettimeofday(struct timeval *now, void *zone)
{
    (void)zone;
    memset(now, 0, sizeof *now);
    return 0;
}

static void begin(void *data, const XML_Char *name, const XML_Char **attributes)
{
    (void)data;
    write(1, name, strlen(name));
    for (; *attributes; attributes += 2)
        write(1, attributes[1], strlen(attributes[1]));
}

int main(void)
{
    int length = read_input();
    XML_Parser parser = XML_ParserCreate(0);
    if (!parser)
        return 2;
    XML_SetHashSalt(parser, 1);
    XML_SetStartElementHandler(parser, begin);
    int is_well = XML_Parse(parser, input, length, 1) == XML_STATUS_OK;
    XML_ParserFree(parser);
    return !is_well;
}
