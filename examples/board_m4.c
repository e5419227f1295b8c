/* The kernel on a bare Cortex-M4: a vector table, a timer that counts milliseconds in 32 bits, a serial port, and a loop that makes
   seconds of the ticks, moves the kernel's clock each second, asks, and acts when the answer changes. For ARM's MPS2 board (AN386), which qemu has as mps2-an386;
   docs/BOARDS.md has the two lines that build and run it. What the network would bring stands in a table. */
#include "cekarum.h"

/* ---- the board ---- */

enum { CLOCK = 25000000, TICKS = 1000 }; /* a second */

#define REGISTER(address) (*(volatile uint32_t *)(address))
#define SERIAL_DATA REGISTER(0x40004000)
#define SERIAL_STATE REGISTER(0x40004004)
#define SERIAL_CONTROL REGISTER(0x40004008)
#define SERIAL_DIVIDER REGISTER(0x40004010)
#define TIMER_CONTROL REGISTER(0xe000e010)
#define TIMER_RELOAD REGISTER(0xe000e014)
#define TIMER_NOW REGISTER(0xe000e018)

/* All the time that the board has. It was switched on some 49 days ago: within five seconds the counter returns to zero. */
static volatile uint32_t ticks = UINT32_MAX - 4499;

static void tick(void)
{
    ticks++;
}

static void begin_board(void)
{
    SERIAL_DIVIDER = CLOCK / 115200;
    SERIAL_CONTROL = 1;
    TIMER_RELOAD = CLOCK / TICKS - 1;
    TIMER_NOW = 0;
    TIMER_CONTROL = 7; /* the processor's clock, an interrupt, on */
}

static void say(const char *text)
{
    for (; *text != 0; text++) {
        while (SERIAL_STATE & 1)
            ;
        SERIAL_DATA = (uint8_t)*text;
    }
}

static void say_number(int64_t n)
{
    char text[24];
    unsigned at = sizeof text - 1;
    text[at] = 0;
    if (n < 0) {
        say("none");
        return;
    }
    do
        text[--at] = (char)('0' + n % 10);
    while ((n /= 10) > 0);
    say(text + at);
}

/* ---- the endpoint ---- */

static const struct cekarum_settings settings = {
    .directions = 0,
    .accepts_limits = true,
    .minimum = 1380000,
    .maximum = {11040000, CEKARUM_NONE},
    .failsafe = {4200000, 0},
    .failsafe_duration = 7200,
    .phases = 1,
};

static uint64_t device[CEKARUM_WORDS];

/* A frame as zone 3 would send it: SetLimit of the consumption for some seconds. */
static void limit(uint64_t time, int64_t consumption, uint64_t lasts)
{
    uint8_t frame[CEKARUM_REQUEST_MAX], response[CEKARUM_RESPONSE_MAX];
    struct cekarum_request request = {.endpoint = 1, .feature = 5, .command = 1, .duration = lasts};
    request.consumption = (struct cekarum_field){CEKARUM_NUMBER, consumption};
    uint64_t length = cekarum_write_request(request, frame, sizeof frame).length;
    cekarum_frame(device, 3, time, frame, length, response, sizeof response); /* the response goes back to the zone */
}

/* What the network brings at a second. */
static void network(uint64_t time)
{
    switch (time) {
    case 1:
        cekarum_join(device, 3, 1, time);
        break;
    case 2:
        limit(time, 9000000, 2);
        break;
    case 6:
        cekarum_lost(device, 3, time);
        break;
    case 8:
        cekarum_back(device, 3, time);
        break;
    default:
        break;
    }
}

/* Where a wall box would set its pilot signal. */
static void act(uint64_t time, const struct cekarum_answer *now)
{
    say("second ");
    say_number((int64_t)time);
    say(": state ");
    say_number(now->values[CEKARUM_STATE]);
    say(", consumption limit ");
    say_number(now->values[CEKARUM_LIMIT_CONSUMPTION]);
    say("\n");
}

/* The second that it is, since the first reading; -1 at a refused one, which is no new second. */
static int64_t second(void)
{
    static struct cekarum_front front;
    return cekarum_tick(&front, ticks).seconds;
}

static void endpoint(void)
{
    int64_t state = -1, consumption = -1;
    cekarum_start(device, settings);
    second();
    for (uint64_t seen = 0;; seen++) {
        network(seen);
        cekarum_move(device, seen); /* a second in which the network brings nothing passes too */
        struct cekarum_answer now = cekarum_ask(device);
        if (now.values[CEKARUM_STATE] != state || now.values[CEKARUM_LIMIT_CONSUMPTION] != consumption)
            act(seen, &now);
        state = now.values[CEKARUM_STATE];
        consumption = now.values[CEKARUM_LIMIT_CONSUMPTION];
        while (second() <= (int64_t)seen)
            __asm__ volatile("wfi");
    }
}

/* ---- startup ---- */

extern uint32_t data_start[], data_end[], bss_start[], bss_end[], stack_top[];
extern const uint32_t data_kept[];

void reset(void);

void reset(void)
{
    const uint32_t *from = data_kept;
    for (uint32_t *to = data_start; to < data_end; to++)
        *to = *from++;
    for (uint32_t *to = bss_start; to < bss_end; to++)
        *to = 0;
    begin_board();
    endpoint();
}

static void fault(void)
{
    for (;;)
        ;
}

/* The first word is the stack, then the handlers by number; 15 is the timer's. */
__attribute__((section(".vectors"), used)) static const void *const vectors[16] = {
    stack_top, reset, fault, fault, fault, fault, fault, 0, 0, 0, 0, fault, fault, 0, fault, tick,
};
