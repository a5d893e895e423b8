/* Reads JSON with yajl and counts its values. Status 1: it isn't JSON. */
#include <yajl/yajl_tree.h>
#include "input.h"

static int count(yajl_val value)
{
    int found = 1;
    if (YAJL_IS_OBJECT(value))
        for (size_t i = 0; i < YAJL_GET_OBJECT(value)->len; i++)
            found += count(YAJL_GET_OBJECT(value)->values[i]);
    if (YAJL_IS_ARRAY(value))
        for (size_t i = 0; i < YAJL_GET_ARRAY(value)->len; i++)
            found += count(YAJL_GET_ARRAY(value)->values[i]);
    return found;
}

int main(void)
{
    read_input();
    char why[128];
    yajl_val value = yajl_tree_parse(input, why, sizeof why);
    if (!value)
        return 1;
    char digit = '0' + count(value) % 10;
    write(1, &digit, 1);
    yajl_tree_free(value);
    return 0;
}
