/* Damages bench scripts: damage SEED ROUNDS <SCRIPTS. It reads scripts, each behind four bytes of length, and writes ROUNDS
   damaged copies of each in the same form: holes of zeros, changed bytes, cut heads and tails, bytes put in, records repeated,
   marks inside bodies, and lengths that point past the end. One copy in eight is left as it is. A script of more than ROOM
   bytes is passed over: no rescue takes it. The status is 1 where the last script is cut. */
#include <stdint.h>
#include <stdio.h>
#include <stdlib.h>
#include <string.h>

enum { ROOM = 20000 };

static uint64_t state;

static unsigned below(unsigned n)
{
    state = state * UINT64_C(6364136223846793005) + UINT64_C(1442695040888963407);
    return (unsigned)(state >> 33) % n;
}

static size_t put_in(uint8_t *s, size_t n, size_t at, const uint8_t *from, size_t count)
{
    if (n + count > ROOM)
        return n;
    memmove(s + at + count, s + at, n - at);
    memmove(s + at, from, count);
    return n + count;
}

static size_t damage(uint8_t *s, size_t n)
{
    static const uint8_t mark[] = {0x4D, 0x48};
    static uint8_t copy[64];
    if (n == 0)
        return n;
    size_t at = below((unsigned)n), most = n - at, count = 1 + below(40);
    if (count > most)
        count = most;
    switch (below(9)) {
    case 0:
        memset(s + at, 0, count);
        return n;
    case 1:
        s[at] = (uint8_t)below(256);
        return n;
    case 2:
        return at;
    case 3:
        memmove(s, s + count, n - count);
        return n - count;
    case 4:
        memmove(s + at, s + at + count, n - at - count);
        return n - count;
    case 5:
        memcpy(copy, s + at, count);
        return put_in(s, n, below((unsigned)n), copy, count);
    case 6:
        return put_in(s, n, at, mark, sizeof mark);
    case 7:
        for (size_t i = at; i + 9 < n; i++)
            if (s[i] == 0x4D && s[i + 1] == 0x48) {
                s[i + 2] = 5;
                s[i + 8] = (uint8_t)below(9);
                s[i + 9] = (uint8_t)below(256);
                break;
            }
        return n;
    default:
        for (size_t i = 0; i < count; i++)
            s[at + i] = (uint8_t)below(12);
        return n;
    }
}

int main(int words, char **word)
{
    static uint8_t script[ROOM], s[ROOM];
    uint8_t head[4];
    state = words > 1 ? strtoul(word[1], NULL, 10) : 1;
    unsigned long rounds = words > 2 ? strtoul(word[2], NULL, 10) : 1;
    while (fread(head, 1, 4, stdin) == 4) {
        size_t n = (size_t)head[0] << 24 | (size_t)head[1] << 16 | (size_t)head[2] << 8 | head[3];
        if (n > ROOM) {
            for (; n > 0; n--)
                if (getchar() == EOF)
                    return 1;
            continue;
        }
        if (fread(script, 1, n, stdin) != n)
            return 1;
        for (unsigned long k = 0; k < rounds; k++) {
            size_t m = n;
            memcpy(s, script, n);
            for (unsigned times = below(8); times > 0; times--)
                m = damage(s, m);
            for (int shift = 24; shift >= 0; shift -= 8)
                putchar((int)(m >> shift & 255));
            for (size_t i = 0; i < m; i++)
                putchar(s[i]);
        }
    }
    fflush(stdout);
    return 0;
}
