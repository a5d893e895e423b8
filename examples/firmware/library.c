/* What a program may ask of picolibc: each line calls some of it, and makes no error. The exit status counts the wrong results. */
#define _GNU_SOURCE
#include <math.h>
#include <setjmp.h>
#include <stdio.h>
#include <stdlib.h>
#include <string.h>
#include <time.h>

static int is_before(const void *one, const void *other)
{
    return *(const int *)one - *(const int *)other;
}

static int wrong_numbers(void)
{
    volatile double two = 2.0;
    volatile long long great = 123456789012345;
    return (sqrt(two * 8) != 4.0) + (great / 1234567 != 100000072) + (strtol("-0x20", NULL, 0) != -32);
}

static int wrong_texts(void)
{
    char text[40], name[20], *made = NULL;
    int number = 0, wrong = sscanf("12 pump", "%d %19s", &number, name) != 2 || number != 12;
    wrong += snprintf(text, sizeof text, "%s %5.2f %lld", name, 3.25, 1234567890123) != 24;
    wrong += asprintf(&made, "%04x", 0xbeef) != 4 || strcmp(made, "beef") != 0;
    free(made);
    char *copy = strdup("one two");
    wrong += strcmp(strtok(copy, " "), "one") != 0 || strcmp(strtok(NULL, " "), "two") != 0;
    free(copy);
    return wrong;
}

static int wrong_order(void)
{
    int numbers[] = { 30, 10, 20 }, sought = 20;
    qsort(numbers, 3, sizeof *numbers, is_before);
    return bsearch(&sought, numbers, 3, sizeof *numbers, is_before) != &numbers[1];
}

static int wrong_jump(void)
{
    jmp_buf place;
    volatile int jumps = 0;
    if (setjmp(place) < 2)
        longjmp(place, ++jumps);
    return jumps != 2;
}

static int wrong_date(void)
{
    char text[20];
    time_t start = 86400;
    strftime(text, sizeof text, "%Y-%m-%d", gmtime(&start));
    return strcmp(text, "1970-01-02") != 0;
}

int main(void)
{
    int wrong = wrong_numbers() + wrong_texts() + wrong_order() + wrong_jump() + wrong_date();
    printf("%d wrong\n", wrong);
    return wrong;
}
