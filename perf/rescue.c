/* Document 02's rescue, plain. It reads scripts one after the other, each behind four bytes of length. With the word `report`
   it prints `script N` before each one's report or refusal; with `scripts` it writes what each leaves, behind its length. */
#include <stdint.h>
#include <stdio.h>
#include <stdlib.h>
#include <string.h>

#include "rescue.h"

static void put_length(size_t n)
{
    for (int shift = 24; shift >= 0; shift -= 8)
        putchar((int)(n >> shift & 255));
}

static void rescue(const uint8_t *s, size_t n, int report)
{
    static uint8_t out[MOST];
    size_t kept = 0, from = 0;
    if (n > MOST) {
        if (report)
            printf("refused 1\n");
        else
            put_length(0);
        return;
    }
    for (size_t at = 0; at <= n;) {
        size_t length = at < n ? record_length(s + at, n - at) : 0;
        if (at < n && length == 0) {
            at++;
            continue;
        }
        if (report && from < at)
            printf("%lu %lu\n", (unsigned long)from, (unsigned long)(at - from));
        if (at == n)
            break;
        memcpy(out + kept, s + at, length);
        kept += length;
        at += length;
        from = at;
    }
    if (!report) {
        put_length(kept);
        for (size_t i = 0; i < kept; i++)
            putchar(out[i]);
    }
}

int main(int words, char **word)
{
    int report = words > 1 && word[1][0] == 'r';
    uint8_t head[4];
    for (unsigned long number = 0; fread(head, 1, 4, stdin) == 4; number++) {
        size_t n = (size_t)head[0] << 24 | (size_t)head[1] << 16 | (size_t)head[2] << 8 | head[3];
        uint8_t *s = malloc(n + 1);
        n = fread(s, 1, n, stdin);
        if (report)
            printf("script %lu\n", number);
        rescue(s, n, report);
        free(s);
    }
    fflush(stdout);
    return 0;
}
