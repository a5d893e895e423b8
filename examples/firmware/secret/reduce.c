/* A secret number below 2 * 3329 modulo 3329, by a mask in place of a branch. */
unsigned target(const unsigned char *secret, const unsigned char *other)
{
    unsigned rest = ((secret[0] | (unsigned)secret[1] << 8) & 4095) - 3329;
    (void)other;
    return rest + (-(rest >> 31) & 3329);
}
