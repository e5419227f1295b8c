/* One kind of call, over and over, for counting its instructions from outside: 'count CASE TIMES'; two runs of different
   lengths, the difference divided. 'count CASE stack' makes the call once on a stack of its own and prints the bytes it
   used. 'count' lists the cases. Compiled with PROVED it calls the proved kernel, else plain.c. */
#include "plain.h"
#include <stdio.h>
#include <stdlib.h>
#include <string.h>

#ifdef PROVED
#include "cekarum.h"
#define CALL(name) cekarum_##name
#define VALUES values
static uint64_t device[CEKARUM_WORDS];
#define DEVICE device
static struct cekarum_receiver receiver;
static struct cekarum_front front;
static struct cekarum_row records[CEKARUM_ROWS_MAX];
static struct cekarum_measurement measurement;
#else
#define CALL(name) plain_##name
#define VALUES value
static struct plain device;
#define DEVICE &device
static struct plain_receiver receiver;
static struct plain_front front;
static struct plain_row records[PLAIN_ROWS];
static struct plain_measurement measurement;
#endif

static uint8_t in[PLAIN_FRAME_MAX], out[PLAIN_FRAME_MAX], room[PLAIN_FRAME_MAX];
static size_t in_length;
static int64_t rows[PLAIN_ROW * PLAIN_ROWS];
static volatile uint64_t kept; /* so that no call is left out */

enum { NOW = 1000 };

static void begin(void)
{
#ifdef PROVED
    CALL(start)
    (DEVICE, (struct cekarum_settings){.directions = 2,
                                       .accepts_limits = true,
                                       .accepts_setpoints = true,
                                       .minimum = 1380000,
                                       .maximum = {43000000, CEKARUM_NONE},
                                       .failsafe = {4200000, 0},
                                       .failsafe_duration = 7200,
                                       .phases = 3,
                                       .accepts_current_limits = true});
#else
    static const struct plain_settings s = {.directions = 2,
                                            .accepts_limits = true,
                                            .accepts_setpoints = true,
                                            .minimum = 1380000,
                                            .has_maximum = {true, false},
                                            .maximum = {43000000, 0},
                                            .failsafe = {4200000, 0},
                                            .duration = 7200,
                                            .phases = 3,
                                            .accepts_currents = true};
    CALL(start)(DEVICE, &s);
#endif
}

/* ---- what stands before the call ---- */

/* A duration of 0 is until replaced, of a setpoint too. */
static void request(uint64_t command, int64_t consumption, int64_t production, uint64_t duration)
{
    struct plain_request r = {.id = 70000, .endpoint = 1, .feature = 5, .command = command, .duration = duration};
    if (consumption != INT64_MIN)
        r.field[0] = (struct plain_field){PLAIN_NUMBER, consumption};
    if (production != INT64_MIN)
        r.field[1] = (struct plain_field){PLAIN_NUMBER, production};
    in_length = plain_write_request(&r, in, sizeof in).length;
}

/* SetCurrentLimits of the phases from one up to another. */
static void currents(unsigned from, unsigned to, uint64_t direction, int64_t v, uint64_t duration)
{
    struct plain_request r = {.id = 70000, .endpoint = 1, .feature = 5, .command = 5, .duration = duration};
    r.direction = direction;
    for (unsigned i = from; i <= to; i++)
        r.phase[i] = (struct plain_field){PLAIN_NUMBER, v};
    in_length = plain_write_request(&r, in, sizeof in).length;
}

static void apply(uint64_t zone)
{
    CALL(frame)(DEVICE, zone, NOW, in, in_length, out, sizeof out);
}

/* Zones 1 to n, each with ten held values: for ever, or each step seconds longer than the one before. */
static void zones(unsigned n, uint64_t step)
{
    begin();
    for (uint64_t i = 0; i < n; i++) {
        CALL(join)(DEVICE, i + 1, 1 + i / 3, NOW);
        for (unsigned j = 0; j < PLAIN_HELDS; j++) {
            int64_t v = (int64_t)(2000000 + i);
            uint64_t lasts = step == 0 ? 0 : 1 + (PLAIN_HELDS * i + j) * step;
            if (j < 4)
                request(j < 2 ? 1 : 3, j % 2 == 0 ? v : INT64_MIN, j % 2 == 1 ? v : INT64_MIN, lasts);
            else
                currents((j - 4) / 2, (j - 4) / 2, j % 2, v, lasts);
            apply(i + 1);
        }
    }
}

static void two_zones(void) { zones(2, 0); }
static void eight_zones(void) { zones(8, 0); }
static void no_zone(void) { begin(); }
static void seven_zones(void) { zones(7, 0); }

static void set_limit(void)
{
    two_zones();
    request(1, 11040000, INT64_MIN, 60);
}

static void set_limit_eight(void)
{
    eight_zones();
    request(1, 11040000, INT64_MIN, 60);
}

static void set_both_setpoints(void)
{
    two_zones();
    request(3, 11040000, 5000000, 60);
}

static void clear_limit(void)
{
    two_zones();
    request(2, INT64_MIN, INT64_MIN, 0);
}

static void set_currents(void)
{
    two_zones();
    currents(0, 2, 0, 16000, 60);
}

static void set_currents_eight(void)
{
    eight_zones();
    currents(0, 2, 0, 16000, 60);
}

static void clear_currents(void)
{
    two_zones();
    request(6, INT64_MIN, INT64_MIN, 0);
}

static void wrong_prefix(void)
{
    set_limit();
    in[3]++;
}

static void wrong_first_byte(void)
{
    set_limit();
    in[4] = 0xc5;
}

static void wrong_last_byte(void)
{
    set_limit();
    in[in_length - 1] = 0xf7;
}

static void below_minimum(void)
{
    two_zones();
    request(1, 1379999, INT64_MIN, 60);
}

/* A payload of exactly n bytes: a sound SetLimit, then unknown keys of two or three bytes with values of one. */
static void unknown_keys(size_t n)
{
    two_zones();
    request(1, 11040000, INT64_MIN, 60);
    uint8_t inner[64];
    size_t body = in_length - 5, entries = 5, at;
    memcpy(inner, in + 5, body);
    at = 4 + 3 + body;
    for (unsigned key = 256; at + 4 <= n + 4; key++, entries++) {
        in[at++] = 0x19;
        in[at++] = (uint8_t)(key >> 8);
        in[at++] = (uint8_t)key;
        in[at++] = 0x05;
    }
    if (at < n + 4) { /* the last value takes the odd bytes */
        size_t more = n + 4 - at;
        in[at - 1] = (uint8_t)(0x40 + more);
        memset(in + at, 0, more);
        at += more;
    }
    memcpy(in + 7, inner, body);
    in[4] = 0xb9;
    in[5] = (uint8_t)(entries >> 8);
    in[6] = (uint8_t)entries;
    in[0] = in[1] = 0;
    in[2] = (uint8_t)(n >> 8);
    in[3] = (uint8_t)n;
    in_length = n + 4;
}

static void unknown_2048(void) { unknown_keys(2048); }
static void unknown_1536(void) { unknown_keys(1536); }

/* The same length, with one long byte string under one unknown key. */
static void string_2048(void)
{
    set_limit();
    size_t more = 2048 - (in_length - 4) - 4;
    in[4] = 0xa6;
    in[in_length] = 6;
    in[in_length + 1] = 0x59;
    in[in_length + 2] = (uint8_t)(more >> 8);
    in[in_length + 3] = (uint8_t)more;
    memset(in + in_length + 4, 0, more);
    in[2] = 2048 >> 8;
    in[3] = 0;
    in_length = 2052;
}

/* The same length, as pieces nested to depth 8 in an array under one unknown key. */
static void nested_2048(void)
{
    static const uint8_t piece[8] = {0x81, 0xa1, 0x01, 0x81, 0xa1, 0x01, 0x81, 0x80};
    set_limit();
    size_t at = in_length + 3, pieces = 0;
    for (; at + sizeof piece < 2052; at += sizeof piece, pieces++)
        memcpy(in + at, piece, sizeof piece);
    in[at] = (uint8_t)(0x40 + 2052 - at - 1); /* a short string takes the odd bytes */
    memset(in + at + 1, 0, 2052 - at - 1);
    in[4] = 0xa6;
    in[in_length] = 6;
    in[in_length + 1] = 0x98;
    in[in_length + 2] = (uint8_t)(pieces + 1);
    in[2] = 2048 >> 8;
    in[3] = 0;
    in_length = 2052;
}

static void rows_1(void)
{
    begin();
    CALL(join)(DEVICE, 1, 1, NOW);
    request(1, 2000000, INT64_MIN, 50);
    apply(1);
}

static void rows_8(void)
{
    begin();
    for (uint64_t i = 0; i < 8; i++) {
        CALL(join)(DEVICE, i + 1, 1 + i / 3, NOW);
        request(1, (int64_t)(2000000 + i), INT64_MIN, 10 + i);
        apply(i + 1);
    }
}

static void rows_all(void) { zones(8, 1); }

/* Every link lost, the currents and the limits below the failsafe limit still standing. */
static void eight_lost(uint64_t step)
{
    zones(8, step);
    for (uint64_t i = 0; i < 8; i++)
        CALL(lost)(DEVICE, i + 1, NOW);
}

static void lost_zones(void) { eight_lost(0); }
static void rows_lost(void) { eight_lost(1); }

/* Every cell of what is measured, with its largest number. */
static void measured_full(void)
{
    static const struct {
        unsigned cells;
        uint64_t most;
    } runs[] = {{15, INT64_MAX}, {7, UINT32_MAX}, {1, 1000},      {2, UINT64_MAX}, {2, INT64_MAX}, {1, UINT32_MAX},
                {2, UINT64_MAX}, {2, 100},        {2, UINT64_MAX}, {1, UINT32_MAX}, {1, 32767}};
    struct plain_measurement m;
    unsigned at = 0;
    for (size_t i = 0; i < sizeof runs / sizeof *runs; i++)
        for (unsigned j = 0; j < runs[i].cells; j++)
            m.cell[at++] = (struct plain_cell){1, runs[i].most};
    in_length = plain_write_measurement(&m, in, sizeof in).length;
#ifdef PROVED
    measurement = cekarum_read_measurement(in, in_length).measurement;
#else
    plain_read_measurement(in, in_length, &measurement);
#endif
}

/* Attributes 40 and 50 of a battery, and the least of 60. */
static void measured_few(void)
{
    static const uint8_t few[] = {0xa3, 0x18, 0x28, 0x1a, 0x00, 0x1e, 0x84, 0x80, 0x18,
                                  0x32, 0x18, 0x41, 0x18, 0x3c, 0x39, 0x7f, 0xff};
    memcpy(in, few, sizeof few);
    in_length = sizeof few;
}

/* Attribute 1, then unknown keys up to 2,048 bytes. */
static void measured_unknown(void)
{
    size_t at = 5, entries = 1;
    for (unsigned key = 256; at + 4 <= 2048; key++, entries++) {
        in[at++] = 0x19;
        in[at++] = (uint8_t)(key >> 8);
        in[at++] = (uint8_t)key;
        in[at++] = 0x05;
    }
    in[0] = 0xb9;
    in[1] = (uint8_t)(entries >> 8);
    in[2] = (uint8_t)entries;
    in[3] = in[4] = 0x01;
    in_length = at;
}

/* ---- the calls ---- */

static void measurement_reads(uint64_t times)
{
    for (uint64_t i = 0; i < times; i++)
#ifdef PROVED
        kept = cekarum_read_measurement(in, in_length).number;
#else
        kept = plain_read_measurement(in, in_length, &measurement);
#endif
}

static void measurement_writes(uint64_t times)
{
    for (uint64_t i = 0; i < times; i++)
        kept = CALL(write_measurement)(&measurement, out, sizeof out).number;
}

static void frames(uint64_t times)
{
    for (uint64_t i = 0; i < times; i++)
        kept = CALL(frame)(DEVICE, 1, NOW, in, in_length, out, sizeof out).number;
}

static void frames_unjoined(uint64_t times)
{
    for (uint64_t i = 0; i < times; i++)
        kept = CALL(frame)(DEVICE, 99, NOW, in, in_length, out, sizeof out).number;
}

static void asks(uint64_t times)
{
    for (uint64_t i = 0; i < times; i++)
        kept = (uint64_t)CALL(ask)(DEVICE).VALUES[0];
}

static void plans(uint64_t times)
{
    for (uint64_t i = 0; i < times; i++)
        kept = CALL(plan)(DEVICE, rows, PLAIN_ROW * PLAIN_ROWS).number;
}

static void plain_plans(uint64_t times)
{
    for (uint64_t i = 0; i < times; i++)
        kept = CALL(plain_plan)(DEVICE, records, PLAIN_ROWS).number;
}

static void joins_and_leaves(uint64_t times)
{
    for (uint64_t i = 0; i < times; i++) {
        kept = CALL(join)(DEVICE, 200, 2, NOW);
        kept = CALL(leave)(DEVICE, 200, NOW);
    }
}

static void losts_and_backs(uint64_t times)
{
    for (uint64_t i = 0; i < times; i++) {
        kept = CALL(lost)(DEVICE, 1, NOW);
        kept = CALL(back)(DEVICE, 1, NOW);
    }
}

static void overrides_and_clears(uint64_t times)
{
    for (uint64_t i = 0; i < times; i++) {
        kept = CALL(override)(DEVICE, 2, 0, NOW);
        kept = CALL(clear)(DEVICE, NOW);
    }
}

static void moves(uint64_t times)
{
    for (uint64_t i = 0; i < times; i++)
        kept = CALL(move)(DEVICE, NOW + i);
}

/* A frame of 2,052 bytes, in scraps of so many bytes. */
static void receive_by(size_t most)
{
    for (size_t at = 0; at < in_length;) {
        size_t n = in_length - at < most ? in_length - at : most;
#ifdef PROVED
        struct cekarum_received got = cekarum_receive(&receiver, room, sizeof room, in + at, n);
#else
        struct plain_received got = plain_receive(&receiver, room, sizeof room, in + at, n);
#endif
        kept = got.number;
        at += got.taken;
    }
}

static void scraps_1(uint64_t times)
{
    for (uint64_t i = 0; i < times; i++)
        receive_by(1);
}

static void scraps_64(uint64_t times)
{
    for (uint64_t i = 0; i < times; i++)
        receive_by(64);
}

static void scraps_1460(uint64_t times)
{
    for (uint64_t i = 0; i < times; i++)
        receive_by(1460);
}

static void scraps_all(uint64_t times)
{
    for (uint64_t i = 0; i < times; i++)
        receive_by(2052);
}

/* A reading each 300 ms: of ten, three give a new second. */
static void ticks(uint64_t times)
{
    for (uint64_t i = 0; i < times; i++)
        kept = CALL(tick)(&front, (uint32_t)(300 * i)).number;
}

/* Tries the counting itself: a hundred instructions and the loop around them. */
static void hundred(uint64_t times)
{
    for (uint64_t i = 0; i < times; i++)
        __asm__ volatile(".rept 100\nnop\n.endr");
}

static const struct {
    const char *name, *says;
    uint64_t number; /* what the call must answer; of an ask the control state, as it has no number */
    void (*before)(void), (*run)(uint64_t);
} cases[] = {
    {"nops", "a hundred nops", 0, no_zone, hundred},
    {"limit2", "frame accepted: SetLimit, 2 zones", 0, set_limit, frames},
    {"limit8", "frame accepted: SetLimit, 8 zones", 0, set_limit_eight, frames},
    {"setpoint", "frame accepted: SetSetpoint, 2 zones", 0, set_both_setpoints, frames},
    {"clearlimit", "frame accepted: ClearLimit, 2 zones", 0, clear_limit, frames},
    {"current2", "frame accepted: SetCurrentLimits, 2 zones", 0, set_currents, frames},
    {"current8", "frame accepted: SetCurrentLimits, 8 zones", 0, set_currents_eight, frames},
    {"clearcurrent", "frame accepted: ClearCurrentLimits, 2 zones", 0, clear_currents, frames},
    {"early1", "frame refused early: prefix (1)", 1, wrong_prefix, frames},
    {"early2", "frame refused early: first byte (2)", 2, wrong_first_byte, frames},
    {"late2", "frame refused at its last byte (2)", 2, wrong_last_byte, frames},
    {"late9", "frame refused late: not joined (9)", 9, set_limit, frames_unjoined},
    {"late14", "frame refused late: below minimum (14)", 14, below_minimum, frames},
    {"keys1536", "1,536 bytes of unknown keys", 0, unknown_1536, frames},
    {"keys2048", "2,048 bytes of unknown keys", 0, unknown_2048, frames},
    {"string2048", "2,048 bytes, one long string", 0, string_2048, frames},
    {"nested2048", "2,048 bytes, nested to depth 8", 0, nested_2048, frames},
    {"ask0", "ask, no zone", 0, no_zone, asks},
    {"ask2", "ask, 2 zones, all values held", 2, two_zones, asks},
    {"ask8", "ask, 8 zones, all values held", 2, eight_zones, asks},
    {"asklost", "ask, 8 zones, all links lost", 3, lost_zones, asks},
    {"plan1", "plan, 1 row", 0, rows_1, plans},
    {"plan8", "plan, 8 rows", 0, rows_8, plans},
    {"plan80", "plan, 80 rows", 0, rows_all, plans},
    {"planlost", "plan, 57 rows, all links lost", 0, rows_lost, plans},
    {"plain80", "plain plan, 80 rows", 0, rows_all, plain_plans},
    {"join0", "join and leave, alone", 0, no_zone, joins_and_leaves},
    {"join7", "join and leave, 7 others", 0, seven_zones, joins_and_leaves},
    {"lost", "lost and back, 2 zones", 0, two_zones, losts_and_backs},
    {"override", "override and clear", 0, no_zone, overrides_and_clears},
    {"move", "clock moved, 8 zones", 0, eight_zones, moves},
    {"measread", "measurement read, all of it", 0, measured_full, measurement_reads},
    {"measfew", "measurement read, 3 attributes", 0, measured_few, measurement_reads},
    {"measkeys", "measurement read, 2,048 bytes of unknown keys", 0, measured_unknown, measurement_reads},
    {"measwrite", "measurement written, all of it", 0, measured_full, measurement_writes},
    {"scrapall", "2,052 bytes received in one scrap", 0, string_2048, scraps_all},
    {"scrap1460", "2,052 bytes received in scraps of 1,460", 0, string_2048, scraps_1460},
    {"scrap64", "2,052 bytes received in scraps of 64", 0, string_2048, scraps_64},
    {"scrap1", "2,052 bytes received in scraps of 1", 0, string_2048, scraps_1},
    {"tick", "tick read", 0, no_zone, ticks},
};

/* ---- the stack ---- */

enum { DEEP = 1 << 16 };
static _Alignas(16) uint8_t own_stack[DEEP];
static void (*to_run)(uint64_t);

__attribute__((noinline)) static void run_once(void) { to_run(1); }

__attribute__((noinline)) static void nothing(uint64_t times) { kept = times; }

/* Calls run_once on the stack below an address. */
static void on_stack(uint8_t *top)
{
#if defined __x86_64__
    __asm__ volatile("movq %%rsp, %%rbx\n\tmovq %0, %%rsp\n\tcall *%1\n\tmovq %%rbx, %%rsp"
                     :
                     : "r"(top), "r"(run_once)
                     : "rbx", "rax", "rcx", "rdx", "rsi", "rdi", "r8", "r9", "r10", "r11", "xmm0", "xmm1", "xmm2", "xmm3", "xmm4",
                       "xmm5", "xmm6", "xmm7", "xmm8", "xmm9", "xmm10", "xmm11", "xmm12", "xmm13", "xmm14", "xmm15", "cc",
                       "memory");
#elif defined __arm__
    __asm__ volatile("mov r4, sp\n\tmov sp, %0\n\tblx %1\n\tmov sp, r4"
                     :
                     : "r"(top), "r"(run_once)
                     : "r4", "r0", "r1", "r2", "r3", "r12", "lr", "cc", "memory");
#else
    (void)top; /* not measured there */
    run_once();
#endif
}

/* Bytes of stack below the caller's that run_once reached. */
static size_t stack_of(void (*run)(uint64_t))
{
    size_t untouched = 0;
    memset(own_stack, 0xa5, sizeof own_stack);
    to_run = run;
    on_stack(own_stack + DEEP);
    while (untouched < DEEP && own_stack[untouched] == 0xa5)
        untouched++;
    return DEEP - untouched;
}

int main(int argc, char **argv)
{
    for (size_t i = 0; i < sizeof cases / sizeof *cases; i++) {
        if (argc < 3) {
            printf("%s\t%s\n", cases[i].name, cases[i].says);
            continue;
        }
        if (strcmp(argv[1], cases[i].name) != 0)
            continue;
        cases[i].before();
        if (strcmp(argv[2], "stack") == 0) {
            size_t base = stack_of(nothing);
            cases[i].before();
            printf("%u\n", (unsigned)(stack_of(cases[i].run) - base));
        } else {
            cases[i].run(strtoul(argv[2], NULL, 10));
        }
        return kept == cases[i].number || i == 0 ? 0 : 3;
    }
    return argc < 3 ? 0 : 2;
}
