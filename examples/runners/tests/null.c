/* Calls a function that isn't there. */
static void (*volatile handler)(void);

int main(void)
{
    handler();
    return 0;
}
