/* A small driver of a three-phase box: two zones join, set limits of power and of current by frames that come in scraps, and
   setpoints, of which one is forgotten and ends; a display polls, and the plan says what will change, as numbers and as records,
   and comes true. Last, what a board does that has only a tick counter. */
#include "cekarum.h"
#include <stdio.h>
#include <string.h>

static const struct cekarum_settings settings = {
    .directions = 2,
    .accepts_limits = true,
    .accepts_setpoints = true,
    .minimum = 1380000,
    .maximum = {43000000, CEKARUM_NONE},
    .failsafe = {4200000, 0},
    .failsafe_duration = 7200,
    .phases = 3,
    .accepts_current_limits = true,
};

/* What the network would bring: SetLimit of the consumption, for some seconds. */
static uint64_t limit_frame(uint64_t id, int64_t limit, uint64_t duration, uint8_t *frame, uint64_t room)
{
    struct cekarum_request request = {.id = id, .endpoint = 1, .feature = 5, .command = 1};
    request.consumption = (struct cekarum_field){CEKARUM_NUMBER, limit};
    request.duration = duration;
    return cekarum_write_request(request, frame, room).length;
}

/* SetCurrentLimits of the consumption, in mA by phase, until replaced. */
static uint64_t current_frame(uint64_t id, int64_t a, int64_t b, int64_t c, uint8_t *frame, uint64_t room)
{
    struct cekarum_request request = {.id = id, .endpoint = 1, .feature = 5, .command = 5, .direction = 0};
    request.phases[0] = (struct cekarum_field){CEKARUM_NUMBER, a};
    request.phases[1] = (struct cekarum_field){CEKARUM_NUMBER, b};
    request.phases[2] = (struct cekarum_field){CEKARUM_NUMBER, c};
    return cekarum_write_request(request, frame, room).length;
}

/* SetSetpoint of one direction: until replaced, or with its duration left out, so that it ends after 3,600 s. */
static uint64_t setpoint_frame(uint64_t id, int direction, int64_t setpoint, bool omitted, uint8_t *frame, uint64_t room)
{
    struct cekarum_request request = {.id = id, .endpoint = 1, .feature = 5, .command = 3, .duration_omitted = omitted};
    *(direction == 0 ? &request.consumption : &request.production) = (struct cekarum_field){CEKARUM_NUMBER, setpoint};
    return cekarum_write_request(request, frame, room).length;
}

static void say(const char *what, uint64_t number)
{
    printf("%s: %s %llu\n", what, number == CEKARUM_OK ? "accepted" : "refused with", (unsigned long long)number);
}

/* Applies a frame; a response goes back to the zone even where the frame is refused. */
static void apply(uint64_t *device, uint64_t zone, uint64_t time, const uint8_t *frame, uint64_t length)
{
    uint8_t response[CEKARUM_RESPONSE_MAX];
    struct cekarum_written answer = cekarum_frame(device, zone, time, frame, length, response, sizeof response);
    say("frame", answer.number);
    printf("response:");
    for (uint64_t i = 0; i < answer.length; i++)
        printf(" %02x", response[i]);
    printf("\n");
}

/* One connection of a zone: where it stands in its stream, and room for a frame. All zero when it is made. */
struct connection {
    uint64_t zone;
    struct cekarum_receiver receiver;
    uint8_t room[CEKARUM_FRAME_MAX];
};

/* What the network brought, perhaps the end of one frame and the start of the next. */
static void arrived(uint64_t *device, struct connection *c, uint64_t time, const uint8_t *scrap, uint64_t length)
{
    for (;;) {
        struct cekarum_received got = cekarum_receive(&c->receiver, c->room, sizeof c->room, scrap, length);
        if (got.number != CEKARUM_OK) {
            say("bytes", got.number); /* the connection is closed, and another begins with one that is all zero */
            return;
        }
        if (got.length > 0)
            apply(device, c->zone, time, c->room, got.length);
        if (got.taken == length)
            return;
        scrap += got.taken;
        length -= got.taken;
    }
}

/* A stream as a socket would hand it over: at most 13 bytes at once. */
static void stream(uint64_t *device, struct connection *c, uint64_t time, const uint8_t *bytes, uint64_t length)
{
    for (uint64_t at = 0; at < length; at += 13)
        arrived(device, c, time, bytes + at, length - at < 13 ? length - at : 13);
}

/* What each phase may draw. */
static void print_currents(const uint64_t *device)
{
    struct cekarum_answer now = cekarum_ask(device);
    for (int phase = 0; phase < 3; phase++)
        printf("phase %c: %lld mA\n", 'A' + phase, (long long)now.values[CEKARUM_CURRENT + 2 * phase]);
}

enum { ROW = 12 };

static void print_plan(const uint64_t *device)
{
    int64_t rows[CEKARUM_PLAN_MAX];
    struct cekarum_written plan = cekarum_plan(device, rows, CEKARUM_PLAN_MAX);
    say("plan", plan.number);
    for (uint64_t i = 0; i < ROW * plan.length; i++)
        printf("%lld%c", (long long)rows[i], i % ROW == ROW - 1 ? '\n' : ' ');
}

static void print_row(const struct cekarum_row *row)
{
    printf("second %llu: state %lld\n", (unsigned long long)row->second, (long long)row->state);
    printf("  limits %lld %lld mW, setpoints %lld %lld mW\n", (long long)row->limit_consumption, (long long)row->limit_production,
           (long long)row->setpoint_consumption, (long long)row->setpoint_production);
    printf("  phase A %lld %lld mA, B %lld %lld mA, C %lld %lld mA\n", (long long)row->a_consumption, (long long)row->a_production,
           (long long)row->b_consumption, (long long)row->b_production, (long long)row->c_consumption, (long long)row->c_production);
}

/* The same rows as records: a debugger that stops here shows rows[0] to rows[plan.length - 1] by name. */
static void print_rows(const uint64_t *device)
{
    struct cekarum_row rows[CEKARUM_ROWS_MAX];
    struct cekarum_written plan = cekarum_plain_plan(device, rows, CEKARUM_ROWS_MAX);
    say("plain plan", plan.number);
    for (uint64_t i = 0; i < plan.length; i++)
        print_row(&rows[i]);
}

/* A display that polls. It gives no time, so its own clock may be wrong, and the device is lent to it unchangeable. */
static void poll_display(const uint64_t *device)
{
    struct cekarum_answer now = cekarum_ask(device);
    printf("display: state %lld, consumption limit %lld mW\n", (long long)now.values[CEKARUM_STATE],
           (long long)now.values[CEKARUM_LIMIT_CONSUMPTION]);
}

/* However often the display polls, the next command is accepted. A clock that goes back is refused and changes nothing either. */
static void poll_and_obey(uint64_t *device, struct connection *c, uint64_t now)
{
    uint8_t sent[CEKARUM_REQUEST_MAX];
    for (int polls = 0; polls < 3; polls++)
        poll_display(device);
    say("clock one second back", cekarum_move(device, now - 1));
    stream(device, c, now, sent, limit_frame(12, 6900000, 30, sent, sizeof sent));
    poll_display(device);
}

/* A phone app sets a charge target and is deleted: the target ends. The home manager means its own to stand, and says so. */
static void set_targets(uint64_t *device, struct connection *manager, struct connection *app, uint64_t now)
{
    uint8_t sent[CEKARUM_REQUEST_MAX];
    stream(device, app, now, sent, setpoint_frame(13, 0, 7400000, true, sent, sizeof sent));
    stream(device, manager, now, sent, setpoint_frame(14, 1, 2000000, false, sent, sizeof sent));
}

/* Whether an ask shows these values once the clock alone has moved to a second. */
static const char *comes_true(uint64_t *device, uint64_t second, const int64_t *values)
{
    if (cekarum_move(device, second) != CEKARUM_OK)
        return "refused";
    struct cekarum_answer now = cekarum_ask(device);
    return memcmp(now.values, values, sizeof now.values) == 0 ? "as planned" : "not as planned";
}

/* The plan row by row: the values stay until the second before a row, and are the row's at its second. */
static void live_through(uint64_t *device)
{
    int64_t rows[CEKARUM_PLAN_MAX];
    struct cekarum_answer before = cekarum_ask(device);
    struct cekarum_written plan = cekarum_plan(device, rows, CEKARUM_PLAN_MAX);
    const int64_t *values = before.values;
    for (uint64_t i = 0; i < plan.length; i++) {
        uint64_t second = (uint64_t)rows[ROW * i];
        printf("second %llu: %s\n", (unsigned long long)(second - 1), comes_true(device, second - 1, values));
        values = rows + ROW * i + 1;
        printf("second %llu: %s\n", (unsigned long long)second, comes_true(device, second, values));
    }
}

/* A counter of milliseconds in 32 bits, shortly before it returns to zero: its readings become seconds from 0 on. The last reading
   but one is a step back; it is refused and changes nothing. */
static void count_ticks(void)
{
    static const uint32_t readings[] = {4294967000u, 4294967295u, 703u, 704u, 2704u, 2703u, 3704u};
    struct cekarum_front front = {{0}};
    for (unsigned i = 0; i < sizeof readings / sizeof *readings; i++) {
        struct cekarum_second now = cekarum_tick(&front, readings[i]);
        say("tick", now.number);
        printf("second %lld\n", (long long)now.seconds);
    }
}

int main(void)
{
    static uint64_t device[CEKARUM_WORDS];
    static struct connection three = {.zone = 3}, nine = {.zone = 9};
    uint8_t sent[2 * CEKARUM_REQUEST_MAX];
    say("start", cekarum_start(device, settings));
    say("join zone 3", cekarum_join(device, 3, 1, 100));
    say("join zone 9", cekarum_join(device, 9, 2, 100));
    uint64_t n = limit_frame(7, 11040000, 60, sent, sizeof sent);
    stream(device, &three, 100, sent, n);
    n = limit_frame(8, 4600000, 20, sent, sizeof sent);
    n += limit_frame(9, 1000, 20, sent + n, sizeof sent - n); /* below the minimum */
    stream(device, &nine, 100, sent, n);
    n = current_frame(10, 16000, 16000, 16000, sent, sizeof sent);
    stream(device, &three, 100, sent, n);
    n = current_frame(11, 20000, 10000, 13000, sent, sizeof sent);
    stream(device, &nine, 100, sent, n);
    say("clock to 110", cekarum_move(device, 110));
    print_currents(device);
    poll_and_obey(device, &nine, 110);
    set_targets(device, &three, &nine, 110);
    print_plan(device);
    print_rows(device);
    live_through(device);
    count_ticks();
    return 0;
}
