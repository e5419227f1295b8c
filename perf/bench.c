/* Document 01's bench program over plain.c. With the word `cases` it reads inputs one after the other, each behind four bytes
   of length, and prints `script N` before each one's output. */
#include "plain.h"
#include <stdio.h>
#include <stdlib.h>
#include <string.h>

static void print_rows(const int64_t *rows, size_t count)
{
    for (size_t i = 0; i < count; i++)
        for (size_t j = 0; j < PLAIN_ROW; j++) {
            if (rows[PLAIN_ROW * i + j] < 0)
                putchar('-');
            else
                printf("%lld", (long long)rows[PLAIN_ROW * i + j]);
            putchar(j == PLAIN_ROW - 1 ? '\n' : ' ');
        }
}

/* The body length that a kind takes; a frame's is 4 to 2,052. */
static int length_fits(unsigned kind, size_t length)
{
    switch (kind) {
    case 1:
        return length == 1;
    case 5:
        return length >= 4 && length <= PLAIN_FRAME_MAX;
    case 7:
        return length == 2;
    case 2:
    case 3:
    case 4:
    case 6:
    case 8:
    case 9:
    case 10:
        return length == 0;
    default:
        return 0;
    }
}

static void run_record(struct plain *d, unsigned kind, uint64_t zone, uint64_t time, const uint8_t *body, size_t length)
{
    static int64_t rows[PLAIN_ROW * PLAIN_ROWS];
    static uint8_t out[PLAIN_RESPONSE_MAX];
    struct plain_written w = {0, 0};
    uint64_t number = 0;
    switch (kind) {
    case 1:
        number = plain_join(d, zone, body[0], time);
        break;
    case 2:
        number = plain_leave(d, zone, time);
        break;
    case 3:
        number = plain_lost(d, zone, time);
        break;
    case 4:
        number = plain_back(d, zone, time);
        break;
    case 5:
        number = plain_frame(d, zone, time, body, length, out, sizeof out).number;
        break;
    case 6:
        w = plain_plan(d, rows, PLAIN_ROW * PLAIN_ROWS);
        number = w.number;
        break;
    case 7:
        number = plain_override(d, body[0], body[1], time);
        break;
    case 8:
        number = plain_clear(d, time);
        break;
    case 9:
        number = plain_move(d, time);
        break;
    default:
        plain_ask(d); /* has no refusal, and its values are not printed */
    }
    printf("%llu\n", (unsigned long long)number);
    print_rows(rows, w.length);
}

static void run(const uint8_t *p, size_t n)
{
    static const struct plain_settings settings = {.directions = 2,
                                                   .accepts_limits = true,
                                                   .accepts_setpoints = true,
                                                   .minimum = 1380000,
                                                   .has_maximum = {true, false},
                                                   .maximum = {43000000, 0},
                                                   .failsafe = {4200000, 0},
                                                   .duration = 7200,
                                                   .phases = 3,
                                                   .accepts_currents = true};
    struct plain d;
    plain_start(&d, &settings);
    while (n > 0) {
        size_t length = n < 10 ? 0 : (size_t)p[8] << 8 | p[9];
        if (n < 10 || p[0] != 0x4d || p[1] != 0x48 || !length_fits(p[2], length) || n - 10 < length) {
            printf("bad record\n");
            return;
        }
        uint64_t time = (uint64_t)p[4] << 24 | (uint64_t)p[5] << 16 | (uint64_t)p[6] << 8 | p[7];
        run_record(&d, p[2], p[3], time, p + 10, length);
        p += 10 + length;
        n -= 10 + length;
    }
}

int main(int argc, char **argv)
{
    size_t n = 0, room = 1 << 16, got;
    uint8_t *all = malloc(room);
    while (all != NULL && (got = fread(all + n, 1, room - n, stdin)) > 0)
        if ((n += got) == room)
            all = realloc(all, room *= 2);
    if (all == NULL)
        return 2;
    bool cases = argc > 1 && strcmp(argv[1], "cases") == 0;
    if (!cases)
        run(all, n);
    for (size_t at = 0, script = 0; cases && n - at >= 4; script++) {
        size_t length = (size_t)all[at] << 24 | (size_t)all[at + 1] << 16 | (size_t)all[at + 2] << 8 | all[at + 3];
        printf("script %zu\n", script);
        run(all + at + 4, length);
        at += 4 + length;
    }
    free(all);
    return 0;
}
