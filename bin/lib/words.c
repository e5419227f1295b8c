/* Copying and filling by words, for boards whose C library does it byte by byte. Under names of its own: nothing of a driver's own
 * program goes through it, and no library has the names too. bin/lib/annotate.sh has which calls come here. */
typedef __SIZE_TYPE__ size;
typedef __UINTPTR_TYPE__ address;
typedef __UINT32_TYPE__ word;
typedef unsigned char byte;

void *cekarum_words_copy(void *to, const void *from, size n);
void cekarum_words_fill(void *to, size n, int value);
void cekarum_words_clear(void *to, size n);
void *cekarum_words_set(void *to, int value, size n);

static int on_words(address at) { return at % sizeof(word) == 0; }

void *cekarum_words_copy(void *to, const void *from, size n)
{
    byte *p = to;
    const byte *q = from;
    if (on_words((address)to | (address)from)) {
        for (; n >= 16; n -= 16, p += 16, q += 16) {
            word a = ((const word *)q)[0], b = ((const word *)q)[1], c = ((const word *)q)[2], d = ((const word *)q)[3];
            ((word *)p)[0] = a, ((word *)p)[1] = b, ((word *)p)[2] = c, ((word *)p)[3] = d;
        }
        for (; n >= 4; n -= 4, p += 4, q += 4) *(word *)p = *(const word *)q;
    }
    for (; n; n--) *p++ = *q++;
    return to;
}

__attribute__((noinline)) void cekarum_words_fill(void *to, size n, int value) /* once for its three callers' names */
{
    byte *p = to;
    word w = (byte)value * 0x01010101u;
    if (on_words((address)to)) {
        for (; n >= 16; n -= 16, p += 16) ((word *)p)[0] = w, ((word *)p)[1] = w, ((word *)p)[2] = w, ((word *)p)[3] = w;
        for (; n >= 4; n -= 4, p += 4) *(word *)p = w;
    }
    for (; n; n--) *p++ = (byte)value;
}

void cekarum_words_clear(void *to, size n) { cekarum_words_fill(to, n, 0); }

void *cekarum_words_set(void *to, int value, size n)
{
    cekarum_words_fill(to, n, value);
    return to;
}
