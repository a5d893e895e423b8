/* The same by the OR of all differences. */
unsigned target(const unsigned char *secret, const unsigned char *other)
{
    unsigned differences = 0;
    for (int i = 0; i < 16; i++)
        differences |= secret[i] ^ other[i];
    return (differences - 1) >> 31;
}
