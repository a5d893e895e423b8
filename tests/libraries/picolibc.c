/* A good part of picolibc: stdio, the heap, texts, numbers, sorting, time and long jumps. Prints what each gives. It prints no infinity and
   no NaN: of these picolibc 1.8 tests an exponent that is never set (vfprintf.c:843). That changes nothing, and is an error all the
   same. */
#include <ctype.h>
#include <errno.h>
#include <inttypes.h>
#include <limits.h>
#include <math.h>
#include <setjmp.h>
#include <stdio.h>
#include <stdlib.h>
#include <string.h>
#include <strings.h>
#include <time.h>
#include <wchar.h>

static int by_number(const void *one, const void *two)
{
    return *(const int *)one - *(const int *)two;
}

static int by_text(const void *one, const void *two)
{
    return strcmp(*(char *const *)one, *(char *const *)two);
}

static void print(void)
{
    char text[24];
    printf("[%5d] [%-5d] [%05d] [%+d] [%x] [%#X] [%o] [%u] [%c] [%%]\n", 42, 42, 42, 42, 48879, 48879, 8, 3000000000u, 'x');
    printf("[%lld] [%llx]\n", -1234567890123456789LL, 0x123456789abcdefULL);
    printf("[%hhd] [%zu] [%td]\n", (signed char)300, sizeof text, (ptrdiff_t)-3);
    printf("[%s] [%.3s] [%10s] [%-10s] [%*d]\n", "tide", "harbour", "quay", "quay", 6, 7);
    printf("[%f] [%.3f] [%10.2f] [%e] [%g] [%g] [%a]\n", 3.14159265, 2.0 / 3, -12345.678, 6.02e23, 0.0001, 1e10, 1.5);
    printf("[%g] [%d] [%d]\n", 123456789.0, isinf(strtod("inf", 0)), isnan(strtod("nan", 0)));
    printf("%d %s\n", snprintf(text, sizeof text, "%s and %s", "a text that is long", "cut"), text);
}

static void scan(void)
{
    int one = 0, two = 0, count;
    unsigned hex = 0;
    char word[12], letters[8];
    float small = 0;
    double large = 0;
    count = sscanf("  12 -34 beef tide abcxyz 1.5 -2.5e3", "%d %d %x %11s %7[a-c]%*s %f %lf",
                   &one, &two, &hex, word, letters, &small, &large);
    printf("%d: %d %d %x %s %s %g %g\n", count, one, two, hex, word, letters, small, large);
    char *end;
    printf("%ld %ld %lu ", strtol("-42abc", &end, 10), strtol("0x1fg", 0, 0), strtoul("777", 0, 8));
    printf("%lld\n", strtoll("9223372036854775807", 0, 10));
    printf("%s %g %g %g %g\n", end, strtod("3.25e2", &end), strtod("-0x1.8p3", 0), strtod("1e-310", 0), (double)strtof("0.1", 0));
    errno = 0;
    printf("%d %d\n", strtol("99999999999", 0, 10) == LONG_MAX, errno == ERANGE);
}

static void sort(void)
{
    int numbers[60], sought = 31;
    for (int at = 0; at < 60; at++)
        numbers[at] = at * 37 % 61;
    qsort(numbers, 60, sizeof *numbers, by_number);
    for (int at = 1; at < 60; at++)
        if (numbers[at - 1] > numbers[at])
            puts("not sorted");
    int *found = bsearch(&sought, numbers, 60, sizeof *numbers, by_number);
    printf("%d %d\n", numbers[59], found ? (int)(found - numbers) : -1);
    char *names[] = { strdup("tide"), strdup("berth"), strdup("anchor"), strdup("quay"), strndup("harbours", 7) };
    qsort(names, 5, sizeof *names, by_text);
    for (int at = 0; at < 5; at++) {
        printf("%s ", names[at]);
        free(names[at]);
    }
    puts("");
}

static void blocks(void)
{
    void *kept[40] = { 0 };
    unsigned state = 1, sum = 0;
    for (int at = 0; at < 400; at++) {
        unsigned chosen = (state = state * 1103515245 + 12345) >> 16;
        int place = chosen % 40, size = chosen / 40 % 90 + 1;
        unsigned char *block = realloc(kept[place], size);
        memset(block, place, size);
        sum += block[size - 1] + size;
        kept[place] = block;
        if (chosen & 1) {
            free(block);
            kept[place] = 0;
        }
    }
    for (int at = 0; at < 40; at++)
        free(kept[at]);
    int *zeros = calloc(9, sizeof *zeros);
    for (int at = 0; at < 9; at++)
        sum += zeros[at];
    free(zeros);
    printf("%u\n", sum);
}

static void texts(void)
{
    char room[64], *next, words[] = "north;east,,south";
    strcpy(room, "harbour");
    strcat(room, " of tides");
    strncat(room, " and more", 4);
    printf("%s %d %s %s\n", room, (int)strlen(room), strrchr(room, ' '), strpbrk(room, "xyzo"));
    for (char *word = strtok_r(words, ";,", &next); word; word = strtok_r(0, ";,", &next))
        printf("<%s>", word);
    printf(" %d %d %d\n", strcasecmp("TIDE", "tide"), (int)strcspn("tide", "d"), memcmp("abc", "abd", 2));
    memmove(room + 2, room, 10);
    room[12] = 0;
    printf("%s %s %s\n", room, strerror(ENOENT), (char *)memchr("tide", 'd', 4));
    for (char *at = room; *at; at++)
        *at = isupper((unsigned char)*at) ? tolower(*at) : toupper(*at);
    wchar_t wide[8];
    printf("%s %d\n", room, (int)mbstowcs(wide, "quay", 8));
}

static void numbers(void)
{
    volatile double angle = 0.5, base = 2;
    volatile float small = 0.3f;
    printf("%.9f %.9f %.9f %.6f\n", sin(angle), cos(angle), atan2(angle, base), tanf(small));
    printf("%.9f %.9f %.9f %.3f\n", sqrt(base), pow(base, 0.25), exp(angle), floor(-angle));
    printf("%.9f %.9f %ld %d\n", log(base), fmod(7.25, base), lround(2.5), abs(-7));
    div_t parts = div(-17, 5);
    printf("%d %d %d\n", parts.quot, parts.rem, rand() >= 0);
}

static void dates(void)
{
    time_t when = 1000000000;
    struct tm parts;
    char text[40];
    gmtime_r(&when, &parts);
    strftime(text, sizeof text, "%Y-%m-%d %H:%M:%S %a %j", &parts);
    printf("%s %ld\n", text, (long)mktime(&parts));
}

static void jumps(void)
{
    static jmp_buf back;
    int came = setjmp(back);
    if (came < 3)
        longjmp(back, came + 1);
    printf("%d\n", came);
}

int main(void)
{
    char line[32];
    print();
    scan();
    sort();
    blocks();
    texts();
    numbers();
    dates();
    jumps();
    while (fgets(line, sizeof line, stdin))
        fputs(line, stdout);
    return 0;
}
