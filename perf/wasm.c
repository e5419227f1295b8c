/* The few C functions that the programs need, for WebAssembly, which has no C library. */
#include <stdbool.h>
#include <stddef.h>
#include <stdint.h>
#include <stdlib.h>
#include <string.h>

/* Of the host: writes bytes to its output. */
__attribute__((import_module("env"), import_name("put"))) void put(const char *at, size_t n);

int putchar(int c)
{
    char byte = (char)c;
    put(&byte, 1);
    return c;
}

/* A number in a base, its sign in front, filled to a width on the left. */
static void put_number(uint64_t v, bool minus, unsigned base, int width, char fill)
{
    char text[24];
    size_t at = sizeof text;
    do
        text[--at] = "0123456789abcdef"[v % base];
    while ((v /= base) > 0);
    if (minus)
        text[--at] = '-';
    for (int i = (int)(sizeof text - at); i < width; i++)
        putchar(fill);
    put(text + at, sizeof text - at);
}

static void put_text(const char *text, int width)
{
    size_t n = strlen(text);
    put(text, n);
    for (int i = (int)n; i < width; i++)
        putchar(' ');
}

/* Of the conversions: u, d, x with ll, c, s; a width, and 0 or - before it. */
int printf(const char *format, ...)
{
    __builtin_va_list words;
    __builtin_va_start(words, format);
    for (const char *p = format; *p != 0; p++) {
        if (*p != '%') {
            putchar(*p);
            continue;
        }
        char fill = p[1] == '0' ? '0' : ' ';
        int width = 0, longs = 0;
        for (p++; *p == '-' || (*p >= '0' && *p <= '9'); p++)
            width = *p == '-' ? 0 : 10 * width + (*p - '0');
        for (; *p == 'l'; p++)
            longs++;
        int64_t v = *p == 's' ? 0 : longs == 2 ? __builtin_va_arg(words, int64_t) : __builtin_va_arg(words, int);
        uint64_t u = longs == 2 ? (uint64_t)v : (uint32_t)v;
        if (*p == 's')
            put_text(__builtin_va_arg(words, const char *), width);
        else if (*p == 'c')
            putchar((int)v);
        else
            put_number(*p == 'd' && v < 0 ? -(uint64_t)v : u, *p == 'd' && v < 0, *p == 'x' ? 16 : 10, width, fill);
    }
    __builtin_va_end(words);
    return 0;
}

unsigned long strtoul(const char *s, char **end, int base)
{
    unsigned long v = 0;
    for (; *s >= '0' && *s <= '9'; s++)
        v = v * (unsigned)base + (unsigned)(*s - '0');
    if (end != NULL)
        *end = (char *)s;
    return v;
}

/* Given out once and never taken back. */
void *calloc(size_t n, size_t size)
{
    static _Alignas(16) uint8_t heap[16384];
    static size_t used;
    void *p = heap + used;
    used += (n * size + 15) / 16 * 16;
    return used <= sizeof heap ? p : NULL;
}

void *memcpy(void *to, const void *from, size_t n) { return memmove(to, from, n); }

void *memmove(void *to, const void *from, size_t n)
{
    uint8_t *a = to;
    const uint8_t *b = from;
    if (a <= b)
        for (size_t i = 0; i < n; i++)
            a[i] = b[i];
    else
        for (; n > 0; n--)
            a[n - 1] = b[n - 1];
    return to;
}

void *memset(void *to, int c, size_t n)
{
    for (size_t i = 0; i < n; i++)
        ((uint8_t *)to)[i] = (uint8_t)c;
    return to;
}

int memcmp(const void *a, const void *b, size_t n)
{
    const uint8_t *x = a, *y = b;
    for (size_t i = 0; i < n; i++)
        if (x[i] != y[i])
            return x[i] - y[i];
    return 0;
}

size_t strlen(const char *s)
{
    size_t n = 0;
    for (; s[n] != 0; n++)
        ;
    return n;
}
