/* An instruction that RV32IM doesn't have. */
int main(void)
{
    __asm__ volatile("mret");
    return 0;
}
