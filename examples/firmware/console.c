/* The streams of picolibc's stdio, stdin, stdout and stderr, over read and write. */
#include <stdio.h>
#include <unistd.h>

static int put_byte(char byte, FILE *stream)
{
    (void)stream;
    return write(STDOUT_FILENO, &byte, 1) == 1 ? (unsigned char)byte : EOF;
}

static int get_byte(FILE *stream)
{
    unsigned char byte;
    (void)stream;
    return read(STDIN_FILENO, &byte, 1) == 1 ? byte : EOF;
}

static FILE console = FDEV_SETUP_STREAM(put_byte, get_byte, NULL, _FDEV_SETUP_RW);

FILE *const stdin = &console;
FILE *const stdout = &console;
FILE *const stderr = &console;
