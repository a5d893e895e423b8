/* Linked with picolibc's fast library (--picolibc-buildtype=release), whose string functions read whole words, and so some bytes
   behind a string. There is no bug here: each error is a false one, and picolibc.supp is for them. */
#include <stdlib.h>
#include <string.h>
#include <unistd.h>

int main(void)
{
    char *label = malloc(7);
    int length = read(STDIN_FILENO, label, 6);
    label[length] = 0;
    char *copy = strdup(label), *other = malloc(12);
    strcpy(other, label);
    int result = strcmp(other, copy) == 0 ? strlen(copy) : 0;
    free(label);
    free(copy);
    free(other);
    return result;
}
