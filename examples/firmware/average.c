/* printf and scanf of picolibc, over console.c. It prints the average of the numbers on standard input; but nothing has set `sum` when
   it begins, and what comes of that shows in printf. */
#include <stdio.h>

struct total {
    int count, sum;
};

static void add_all(struct total *total)
{
    for (int number; scanf("%d", &number) == 1; total->count++)
        total->sum += number;
}

int main(void)
{
    struct total total;
    total.count = 0;
    add_all(&total);
    printf("%d numbers, average %d\n", total.count, total.count > 0 ? total.sum / total.count : 0);
    return 0;
}
