/* Parses its whole input as JSON, in a block of just its size, and ends with 0 where it is JSON and with 1 where it is refused. */
#include <stdlib.h>
#include <string.h>
#include <unistd.h>
#include "cJSON.h"

int main(void)
{
    static char input[4096];
    ssize_t length = read(STDIN_FILENO, input, sizeof input);
    if (length <= 0)
        return 1;
    char *text = malloc(length);
    if (!text)
        return 1;
    memcpy(text, input, length);
    cJSON *json = cJSON_ParseWithLength(text, length);
    int refused = json == NULL;
    cJSON_Delete(json);
    free(text);
    return refused;
}
