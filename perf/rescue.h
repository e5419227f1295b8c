/* What a whole, sound record of a bench script is, for the rescue and the console. */
#include <stddef.h>
#include <stdint.h>

enum { MOST = 16384, HEAD = 10 };

static int length_fits(unsigned kind, size_t n)
{
    if (kind == 1)
        return n == 1;
    if (kind == 5)
        return n >= 4 && n <= 2052;
    if (kind == 7)
        return n == 2;
    return kind >= 1 && kind <= 10 && n == 0;
}

/* The bytes of the record that the n bytes at s begin with, 0 for none. */
static size_t record_length(const uint8_t *s, size_t n)
{
    if (n < HEAD || s[0] != 0x4D || s[1] != 0x48)
        return 0;
    size_t body = (size_t)s[8] << 8 | s[9];
    return length_fits(s[2], body) && body <= n - HEAD ? HEAD + body : 0;
}
