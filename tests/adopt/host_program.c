/* A program of picolibc's for semihosting: its arguments, a line by standard output, the bytes of its input, and a status. With
   BUG it writes after its block. */
#include <stdio.h>
#include <stdlib.h>
#include <string.h>
#include <unistd.h>

int main(int argc, char **argv)
{
    unsigned count = 0;
    char byte;
    printf("%d arguments:", argc);
    for (int i = 0; i < argc; i++)
        printf(" %s", argv[i]);
    while (read(STDIN_FILENO, &byte, 1) == 1)
        count += byte == '\n';
    char *text = malloc(16);
#ifdef BUG
    memset(text, 'x', 17);
#endif
    snprintf(text, 16, "%u lines", count);
    printf("\n%s\n", text);
    free(text);
    return 7;
}
