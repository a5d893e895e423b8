/* Reads JSON with cJSON and prints it. Status 1: it isn't JSON. */
#include <cJSON.h>
#include <stdlib.h>
#include <string.h>
#include "input.h"

int main(void)
{
    int length = read_input();
    cJSON *item = cJSON_ParseWithLength(input, length);
    if (!item)
        return 1;
    char *text = cJSON_PrintUnformatted(item);
    if (text)
        write(1, text, strlen(text));
    free(text);
    cJSON_Delete(item);
    return text ? 0 : 2;
}
