/* Drives two kernels with one random mix of calls and compares all that can be seen: numbers, lengths, response bytes, rows,
   pairs, values, what lies behind them in the lent buffers, that a refusal, an ask and a plan leave the device as it was, and that
   a refused read leaves what it was lent.
   Words: how many calls (default 1,000,000), the seed (default 1). Ends with 'N compared, 0 differ'; stops early at 100
   differences. */
#include "kernel.h"
#include "mix.h"
#include <stdio.h>
#include <stdlib.h>
#include <string.h>

/* Numbers as printf takes them on every board. */
#define U(n) ((unsigned long long)(n))
#define S(n) ((long long)(n))

enum { OUT = PLAIN_MEASUREMENT_MAX + 10, ROWS = PLAIN_ROW * PLAIN_ROWS + 16, PAIRS = 2 * PLAIN_PAIRS + 16 };
enum { CALLS = 21, NUMBERS = 19, FLOWS = 7 };

/* From JOIN to FRAME those that take a time, and move the clock to it where they are accepted. */
enum call {
    START,
    JOIN,
    LEAVE,
    LOST,
    BACK,
    OVERRIDE,
    CLEAR,
    MOVE,
    FRAME,
    ASK,
    PLAN,
    PLAIN_PLAN,
    READ_REQUEST,
    WRITE_REQUEST,
    READ_RESPONSE,
    WRITE_RESPONSE,
    REPORT,
    RECEIVE,
    READ_MEASUREMENT,
    WRITE_MEASUREMENT,
    TICK
};

static const char *const call_names[CALLS] = {
    [START] = "start",
    [JOIN] = "join",
    [LEAVE] = "leave",
    [LOST] = "lost",
    [BACK] = "back",
    [OVERRIDE] = "override",
    [CLEAR] = "clear",
    [MOVE] = "move",
    [FRAME] = "frame",
    [ASK] = "ask",
    [PLAN] = "plan",
    [PLAIN_PLAN] = "plain_plan",
    [READ_REQUEST] = "read_request",
    [WRITE_REQUEST] = "write_request",
    [READ_RESPONSE] = "read_response",
    [WRITE_RESPONSE] = "write_response",
    [REPORT] = "report",
    [RECEIVE] = "receive",
    [READ_MEASUREMENT] = "read_meas",
    [WRITE_MEASUREMENT] = "write_meas",
    [TICK] = "tick",
};

/* One kernel's side: its device, what it was lent and what it answered. */
struct side {
    const struct kernel *k;
    void *device, *before;
    uint64_t number, length;
    int64_t value[PLAIN_VALUES];
    uint8_t out[OUT];
    int64_t rows[ROWS];
    struct plain_row records[PLAIN_RECORDS];
    uint64_t pairs[PAIRS];
    struct plain_request request;
    struct plain_response response;
    struct plain_measurement measurement;
    uint64_t flow[FLOWS];
    struct plain_receiver receiver;
    uint64_t taken;
    uint8_t wire[PLAIN_FRAME_MAX]; /* the receiver's room */
    struct plain_front front;
    int64_t seconds;
};

/* One call, as both kernels get it. */
struct ask {
    enum call call;
    uint64_t zone, time, a, b; /* a, b: rank, reason and direction, or the named command */
    size_t room;
    struct plain_settings settings;
    struct plain_request request;
    struct plain_response response;
    struct plain_measurement measurement;
    struct plain_inputs inputs;
    uint16_t attributes[80];
    size_t attribute_count;
    struct bytes in;
    const uint8_t *scrap;
    size_t scrap_length;
    uint32_t tick;
};

static struct side sides[2];
static struct ask ask;
static struct plain_settings settings; /* of the device as it is */
static uint64_t compared, differ, most_rows, most_lost, most_pairs, longest_in, longest_payload, clock_now;
static uint64_t counts[CALLS][NUMBERS], answered[NUMBERS], unanswered[NUMBERS];
static uint64_t setpoints[3]; /* accepted ones, by their duration: left out, 0, another */

/* The flows of 1, of 40, and of each phase of 10 and two more. */
static void take_flows(struct side *s, const struct plain_measurement *m)
{
    static const uint64_t phases[FLOWS - 2] = {0, 1, 2, 3, UINT64_MAX};
    s->flow[0] = s->k->power_flow(m);
    s->flow[1] = s->k->dc_flow(m);
    for (unsigned i = 2; i < FLOWS; i++)
        s->flow[i] = s->k->phase_flow(m, phases[i - 2]);
}

static uint64_t call_one(struct side *s, const struct ask *q)
{
    const struct kernel *k = s->k;
    struct plain_written w = {0, 0};
    struct plain_received got;
    struct plain_second read;
    switch (q->call) {
    case START:
        return k->start(s->device, &q->settings);
    case JOIN:
        return k->join(s->device, q->zone, q->a, q->time);
    case LEAVE:
        return k->leave(s->device, q->zone, q->time);
    case LOST:
        return k->lost(s->device, q->zone, q->time);
    case BACK:
        return k->back(s->device, q->zone, q->time);
    case OVERRIDE:
        return k->override(s->device, q->a, q->b, q->time);
    case CLEAR:
        return k->clear(s->device, q->time);
    case MOVE:
        return k->move(s->device, q->time);
    case ASK:
        memcpy(s->value, k->ask(s->device).value, sizeof s->value);
        return 0;
    case FRAME:
        w = k->frame(s->device, q->zone, q->time, q->in.at, q->in.n, s->out, q->room);
        break;
    case PLAN:
        w = k->plan(s->device, s->rows, q->room);
        break;
    case PLAIN_PLAN:
        w = k->records(s->device, s->records, q->room);
        break;
    case READ_REQUEST:
        return k->read_request(q->in.at, q->in.n, &s->request);
    case WRITE_REQUEST:
        w = k->write_request(&q->request, s->out, q->room);
        break;
    case READ_RESPONSE:
        return k->read_response(q->a, q->in.at, q->in.n, &s->response);
    case WRITE_RESPONSE:
        w = k->write_response(q->a, &q->response, s->out, q->room);
        break;
    case REPORT:
        w = k->report(&q->inputs, q->attributes, q->attribute_count, s->pairs, q->room);
        break;
    case READ_MEASUREMENT:
        w.number = k->read_measurement(q->in.at, q->in.n, &s->measurement);
        take_flows(s, &s->measurement);
        break;
    case WRITE_MEASUREMENT:
        w = k->write_measurement(&q->measurement, s->out, q->room);
        take_flows(s, &q->measurement);
        break;
    case RECEIVE:
        got = k->receive(&s->receiver, s->wire, q->room, q->scrap, q->scrap_length);
        s->taken = got.taken;
        w = (struct plain_written){got.number, got.length};
        break;
    case TICK:
        read = k->tick(&s->front, q->tick);
        s->seconds = read.seconds;
        return read.number;
    }
    s->length = w.length;
    return w.number;
}

static bool same_fields(const struct plain_field *x, const struct plain_field *y, unsigned n)
{
    for (unsigned i = 0; i < n; i++)
        if (x[i].kind != y[i].kind || x[i].value != y[i].value)
            return false;
    return true;
}

/* What a command does not use is absent, 0 or no when read. */
bool same_request(const struct plain_request *x, const struct plain_request *y)
{
    if (x->id != y->id || x->endpoint != y->endpoint || x->feature != y->feature || x->command != y->command)
        return false;
    return same_fields(x->field, y->field, 2) && same_fields(x->phase, y->phase, PLAIN_PHASES) && x->duration == y->duration &&
           x->cause == y->cause && x->has_direction == y->has_direction && x->direction == y->direction && x->omitted == y->omitted;
}

bool same_response(const struct plain_response *x, const struct plain_response *y)
{
    return x->id == y->id && x->status == y->status && x->has_result == y->has_result && x->applied == y->applied &&
           x->state == y->state && x->reason == y->reason && memcmp(x->value, y->value, sizeof x->value) == 0 &&
           memcmp(x->current, y->current, sizeof x->current) == 0;
}

static bool same_front(const struct plain_front *x, const struct plain_front *y)
{
    return x->begun == y->begun && x->last == y->last && x->seconds == y->seconds && x->remainder == y->remainder;
}

/* The first thing in which the two sides differ, or NULL. */
static const char *difference(const struct side *x, const struct side *y, const struct ask *q)
{
    if (x->number != y->number)
        return "numbers";
    if (x->length != y->length)
        return "lengths";
    if (memcmp(x->value, y->value, sizeof x->value) != 0)
        return "values";
    if (memcmp(x->out, y->out, sizeof x->out) != 0)
        return "output bytes";
    if (memcmp(x->rows, y->rows, sizeof x->rows) != 0)
        return "rows";
    if (memcmp(x->records, y->records, sizeof x->records) != 0)
        return "records";
    if (memcmp(x->pairs, y->pairs, sizeof x->pairs) != 0)
        return "pairs";
    if (q->call == RECEIVE && (x->taken != y->taken || memcmp(&x->receiver, &y->receiver, sizeof x->receiver) != 0))
        return "bytes taken or records";
    if (q->call == RECEIVE && memcmp(x->wire, y->wire, sizeof x->wire) != 0)
        return "receivers' rooms";
    if (q->call >= READ_MEASUREMENT && memcmp(x->flow, y->flow, sizeof x->flow) != 0)
        return "flows";
    if (q->call == READ_MEASUREMENT && memcmp(&x->measurement, &y->measurement, sizeof x->measurement) != 0)
        return "measurements";
    if (q->call == TICK && (x->seconds != y->seconds || !same_front(&x->front, &y->front)))
        return "seconds or fronts";
    if (x->number != 0)
        return NULL;
    if (q->call == READ_REQUEST && !same_request(&x->request, &y->request))
        return "requests";
    if (q->call == READ_RESPONSE && !same_response(&x->response, &y->response))
        return "responses";
    return NULL;
}

static void print_bytes(const char *what, const uint8_t *p, size_t n)
{
    printf("  %s ", what);
    for (size_t i = 0; i < n; i++)
        printf("%02x", p[i]);
    putchar('\n');
}

static void complain(const char *what)
{
    differ++;
    if (differ > 10)
        return;
    printf("call %llu, %s: %s\n", U(compared), call_names[ask.call], what);
    printf("  zone %llu time %llu a %llu b %llu room %llu\n", U(ask.zone), U(ask.time), U(ask.a), U(ask.b), U(ask.room));
    if (ask.call == FRAME || ask.call == READ_REQUEST || ask.call == READ_RESPONSE || ask.call == READ_MEASUREMENT)
        print_bytes("in", ask.in.at, ask.in.n);
    for (unsigned i = 0; i < 2; i++) {
        struct side *s = &sides[i];
        printf("  %s: number %llu, length %llu, values", s->k->name, U(s->number), U(s->length));
        for (unsigned j = 0; j < PLAIN_VALUES; j++)
            printf(" %lld%s", S(s->value[j]), j == PLAIN_VALUES - 1 ? "\n" : "");
        if (s->length > 0 && s->length <= OUT && ask.call != PLAN && ask.call != PLAIN_PLAN && ask.call != REPORT)
            print_bytes("out", s->out, s->length);
    }
}

/* What a read is lent, and how many bytes; nothing for another call. */
static void *lent_to_read(struct side *s, size_t *n)
{
    switch (ask.call) {
    case READ_REQUEST:
        *n = sizeof s->request;
        return &s->request;
    case READ_RESPONSE:
        *n = sizeof s->response;
        return &s->response;
    case READ_MEASUREMENT:
        *n = sizeof s->measurement;
        return &s->measurement;
    default:
        *n = 0;
        return NULL;
    }
}

static bool is_filled(const uint8_t *p, size_t n, uint8_t fill)
{
    for (size_t i = 0; i < n; i++)
        if (p[i] != fill)
            return false;
    return true;
}

/* Beside an answer: no number outside the table, a refusal, an ask and a plan leave the device as it was, and a refused read leaves
   what it was lent. */
static void judge_one(struct side *s, uint8_t fill)
{
    size_t n;
    const uint8_t *lent = lent_to_read(s, &n);
    if (s->number != 0 && !is_filled(lent, n, fill))
        complain("a refused read wrote");
    if (s->number >= NUMBERS)
        complain("a number outside the table");
    if (((s->number != 0 && ask.call != START) || ask.call > FRAME) && memcmp(s->device, s->before, s->k->size) != 0)
        complain("the device changed");
}

/* What is read is written, and reads back the same. */
static void judge_measurement(const struct side *s)
{
    static uint8_t payload[PLAIN_MEASUREMENT_MAX];
    struct plain_measurement again = {0};
    struct plain_written w = s->k->write_measurement(&s->measurement, payload, sizeof payload);
    if (w.number != 0 || s->k->read_measurement(payload, w.length, &again) != 0 ||
        memcmp(&again, &s->measurement, sizeof again) != 0)
        complain("not read back");
    if (w.length > longest_payload)
        longest_payload = w.length;
}

static void tally_setpoint(void)
{
    struct plain_request r;
    if (first_kernel.read_request(ask.in.at, ask.in.n, &r) == 0 && r.command == 3)
        setpoints[r.duration != 0 ? 2 : !r.omitted]++;
}

static void tally(const struct side *s)
{
    if (s->number < NUMBERS) {
        counts[ask.call][s->number]++;
        if (ask.call == FRAME)
            *(s->length > 0 ? &answered[s->number] : &unanswered[s->number]) += 1;
    }
    if (ask.call == FRAME && s->number == 0)
        tally_setpoint();
    if (ask.call == PLAN && s->length > most_rows)
        most_rows = s->length;
    if (ask.call == REPORT && s->length > most_pairs)
        most_pairs = s->length;
    if ((ask.call == FRAME || ask.call == READ_REQUEST) && s->number == 0 && ask.in.n > longest_in)
        longest_in = ask.in.n;
}

/* Makes the call on both sides, over buffers with the same random filling. */
static uint64_t both(void)
{
    uint8_t fill = (uint8_t)mix_any();
    for (unsigned i = 0; i < 2; i++) {
        struct side *s = &sides[i];
        s->length = 0;
        memset(s->value, fill, sizeof s->value);
        memset(s->out, fill, sizeof s->out);
        if (ask.call == PLAN)
            memset(s->rows, fill, sizeof s->rows);
        if (ask.call == PLAIN_PLAN)
            memset(s->records, fill, sizeof s->records);
        if (ask.call == REPORT)
            memset(s->pairs, fill, sizeof s->pairs);
        size_t lent;
        void *read = lent_to_read(s, &lent);
        if (read != NULL)
            memset(read, fill, lent);
        memcpy(s->before, s->device, s->k->size);
        s->number = call_one(s, &ask);
        judge_one(s, fill);
        if (ask.call == READ_MEASUREMENT && s->number == 0)
            judge_measurement(s);
    }
    const char *what = difference(&sides[0], &sides[1], &ask);
    if (what != NULL)
        complain(what);
    tally(&sides[0]);
    compared++;
    uint64_t number = sides[0].number;
    if (ask.call == START) {
        settings = ask.settings;
        clock_now = 0;
    } else if (number == 0 && ask.call <= FRAME) {
        clock_now = ask.time;
    }
    return number;
}

/* ---- the mix ---- */

static uint64_t some_time(void)
{
    switch (mix_below(1000)) {
    case 0 ... 499:
        return clock_now;
    case 500 ... 799:
        return clock_now + mix_below(4);
    case 800 ... 939:
        return clock_now + mix_below(60);
    case 940 ... 959:
        return clock_now + mix_below(9000);
    case 960 ... 964:
        return clock_now + mix_below(100000);
    case 965 ... 984:
        return clock_now - 1 - mix_below(3);
    case 985 ... 990:
        return PLAIN_LAST_SECOND + 1 + mix_below(3);
    case 991:
        return PLAIN_LAST_SECOND - mix_below(mix_chance(200) ? 2 : 8000);
    case 992 ... 995:
        return mix_any();
    case 996 ... 997:
        return clock_now + 3598 + mix_below(5);
    default:
        return clock_now + 7198 + mix_below(5);
    }
}

static uint64_t some_zone(void)
{
    static const uint64_t odd[] = {0, 255, 256, 257, 259, 65536 + 3, (UINT64_C(1) << 32) + 4, UINT64_MAX, 254};
    if (mix_chance(30))
        return odd[mix_below(sizeof odd / sizeof *odd)];
    return 1 + mix_below(mix_chance(800) ? 8 : 12);
}

static size_t some_room(size_t enough)
{
    return mix_chance(850) ? enough : mix_below(enough + 1);
}

static void mix_call(void)
{
    static const enum call often[] = {FRAME, FRAME, FRAME, FRAME, FRAME, FRAME, FRAME,    FRAME,      FRAME, FRAME,
                                      PLAN,  PLAN,  ASK,   ASK,   JOIN,  JOIN,  JOIN,     JOIN,       LEAVE, LOST,
                                      BACK,  BACK,  BACK,  CLEAR, CLEAR, CLEAR, OVERRIDE, PLAIN_PLAN, MOVE,  MOVE,
                                      MOVE};
    static const enum call seldom[] = {READ_REQUEST, WRITE_REQUEST,    READ_RESPONSE,    WRITE_RESPONSE,
                                       REPORT,       READ_MEASUREMENT, READ_MEASUREMENT, WRITE_MEASUREMENT};
    if (mix_chance(800))
        ask.call = often[mix_below(sizeof often / sizeof *often)];
    else
        ask.call = seldom[mix_below(sizeof seldom / sizeof *seldom)];
    ask.zone = some_zone();
    ask.time = some_time();
    ask.room = some_room(72);
    switch (ask.call) {
    case JOIN:
        ask.a = mix_chance(950) ? 1 + mix_below(PLAIN_RANKS) : mix_chance(800) ? mix_below(6) : mix_any();
        break;
    case OVERRIDE:
        ask.a = mix_chance(950) ? mix_below(5) : mix_chance(800) ? 5 : mix_any();
        ask.b = mix_chance(950) ? mix_below(2) : mix_chance(800) ? 2 : mix_any();
        break;
    case PLAN:
        ask.room = mix_chance(200) ? mix_below(80) : some_room(ROWS);
        break;
    case PLAIN_PLAN:
        ask.room = mix_chance(200) ? mix_below(4) : some_room(PLAIN_RECORDS);
        break;
    case FRAME:
    case READ_REQUEST:
        mix_request(&ask.in, &settings);
        break;
    case WRITE_REQUEST:
        mix_request_fields(&ask.request, &settings);
        break;
    case READ_RESPONSE:
        ask.a = mix_chance(980) ? 1 + mix_below(6) : mix_chance(500) ? mix_below(9) : mix_any();
        mix_response(&ask.in, ask.a);
        break;
    case WRITE_RESPONSE:
        ask.a = mix_chance(980) ? 1 + mix_below(6) : mix_chance(500) ? mix_below(9) : mix_any();
        mix_response_fields(ask.a, &ask.response);
        break;
    case READ_MEASUREMENT:
        mix_measurement(&ask.in);
        break;
    case WRITE_MEASUREMENT:
        ask.room = some_room(PLAIN_MEASUREMENT_MAX);
        mix_measurement_cells(&ask.measurement);
        break;
    case REPORT:
        ask.room = some_room(PAIRS);
        mix_inputs(&ask.inputs, ask.attributes, &ask.attribute_count);
        break;
    default:
        break;
    }
}

/* A stream of frames, which a bad length may end. */
static struct {
    uint8_t at[8 * PLAIN_FRAME_MAX];
    size_t n, frames, ends[8]; /* where each frame ends */
    bool bad;
} stream;

static void stream_prefix(uint64_t length)
{
    for (unsigned i = 0; i < 4; i++)
        stream.at[stream.n++] = (uint8_t)(length >> (24 - 8 * i));
}

static void mix_stream(void)
{
    static const uint64_t bad[] = {0, 2049, 65536, 0x01000001, UINT32_MAX, 0x00ff0010};
    stream.n = 0;
    stream.frames = mix_below(6);
    stream.bad = mix_chance(300);
    for (size_t i = 0; i < stream.frames; i++) {
        size_t length = mix_chance(700) ? 1 + mix_below(60) : mix_chance(800) ? 1 + mix_below(2048) : 2048 - mix_below(2);
        stream_prefix(length);
        for (; length > 0; length--)
            stream.at[stream.n++] = (uint8_t)mix_any();
        stream.ends[i] = stream.n;
    }
    if (stream.bad)
        stream_prefix(bad[mix_below(sizeof bad / sizeof *bad)]);
    for (size_t more = mix_below(stream.bad ? 9 : 4); more > 0; more--)
        stream.at[stream.n++] = stream.bad ? (uint8_t)mix_any() : 0;
}

/* The frame that was given out is the next of the uncut stream. */
static void judge_frame(size_t given)
{
    size_t from = given == 0 ? 0 : stream.ends[given - 1];
    if (given >= stream.frames || stream.ends[given] - from != sides[0].length ||
        memcmp(sides[0].wire, stream.at + from, sides[0].length) != 0)
        complain("not the frames of the uncut stream");
}

static size_t receive_room(void)
{
    return mix_chance(30) ? mix_below(PLAIN_FRAME_MAX) : PLAIN_FRAME_MAX;
}

/* A random cutting of a random stream; some scraps are empty, and some calls lend too little room. */
static void scraps(void)
{
    size_t given = 0, at = 0, most = mix_chance(500) ? 1 + mix_below(9) : 1 + mix_below(3000);
    uint8_t fill = (uint8_t)mix_any();
    mix_stream();
    for (unsigned i = 0; i < 2; i++) {
        sides[i].receiver = (struct plain_receiver){0, 0, 0};
        memset(sides[i].wire, fill, sizeof sides[i].wire);
    }
    while (differ < 100 && (at < stream.n || mix_chance(300))) {
        ask.call = RECEIVE;
        ask.room = receive_room();
        ask.scrap = stream.at + at;
        ask.scrap_length = mix_below(most + 1);
        if (ask.scrap_length > stream.n - at)
            ask.scrap_length = stream.n - at;
        if (both() == 1 && sides[0].receiver.closed == 1)
            break;
        at += sides[0].taken;
        if (sides[0].length > 0)
            judge_frame(given++);
    }
    if (given != stream.frames || (sides[0].receiver.closed == 1) != stream.bad)
        complain("not all of the stream");
}

/* Counts that no call leaves, or perhaps one does. */
static void odd_counts(void)
{
    static const uint64_t odd[] = {0, 1, 3, 4, 5, 6, 2051, 2052, 2053, UINT64_MAX, UINT64_MAX - 3};
    struct plain_receiver r = {odd[mix_below(11)], odd[mix_below(11)], mix_chance(700) ? 0 : mix_below(3)};
    sides[0].receiver = sides[1].receiver = r;
    ask.call = RECEIVE;
    ask.room = receive_room();
    for (size_t i = 0; i < 8; i++)
        ask.in.at[i] = (uint8_t)(mix_chance(700) ? 0 : mix_below(9));
    ask.scrap = ask.in.at;
    ask.scrap_length = mix_below(3000);
    both();
}

/* The milliseconds between two readings: short, around whole seconds, and up to the longest that is promised. */
static uint64_t some_gap(void)
{
    switch (mix_below(6)) {
    case 0:
        return mix_below(3);
    case 1:
        return 998 + mix_below(4);
    case 2:
        return mix_below(100000);
    case 3:
        return (UINT64_C(1) << 31) - 1 - mix_below(3);
    default:
        return mix_below(UINT64_C(1) << 31);
    }
}

static uint64_t read_tick(uint64_t tick)
{
    ask.call = TICK;
    ask.tick = (uint32_t)tick;
    return both();
}

/* A counter read at random true times, over rollovers, with readings between them that look like a step back: the seconds are the
   true ones, and a refused reading is as if it had not been. */
static void ticks(void)
{
    uint64_t first = mix_any() >> 24, now = first;
    sides[0].front = sides[1].front = (struct plain_front){false, 0, 0, 0};
    for (unsigned i = 0; i < 12 && differ < 100; i++) {
        if (read_tick(now) != 0 || sides[0].seconds != (int64_t)((now - first) / 1000))
            complain("not the true seconds");
        struct plain_front before = sides[0].front;
        if (mix_chance(300) && (read_tick(now - 1 - some_gap()) != 5 || !same_front(&sides[0].front, &before)))
            complain("a step back is not refused whole");
        now += some_gap();
    }
}

/* Fronts around the last second, and such as no reading leaves. */
static void odd_fronts(void)
{
    uint64_t odd[] = {0, PLAIN_LAST_SECOND - mix_below(2200000), PLAIN_LAST_SECOND - mix_below(3), PLAIN_LAST_SECOND + 1, UINT64_MAX};
    struct plain_front f = {mix_chance(900), (uint32_t)mix_any(), (uint32_t)(mix_chance(800) ? mix_below(1000) : mix_any()),
                            odd[mix_below(5)]};
    sides[0].front = sides[1].front = f;
    for (unsigned i = 0; i < 4; i++)
        read_tick(sides[0].front.last + (mix_chance(800) ? some_gap() : mix_any()));
}

static void start(bool sound)
{
    ask.call = START;
    mix_settings(&ask.settings, sound);
    both();
}

/* A Set command that gives one quantity a value, written with the first kernel's writer; of two setpoints without a number of
   seconds one lasts. */
static void set_frame(unsigned quantity, uint64_t value, uint64_t lasts)
{
    struct plain_request r = {.id = mix_any() >> 32, .endpoint = 1, .feature = 5, .duration = lasts};
    struct plain_field f = {PLAIN_NUMBER, (int64_t)value};
    r.omitted = mix_chance(500);
    r.command = quantity < 2 ? 1 : quantity < 4 ? 3 : 5;
    if (quantity < 4) {
        r.field[quantity % 2] = f;
    } else {
        r.phase[(quantity - 4) / 2] = f;
        r.direction = quantity % 2;
    }
    ask.call = FRAME;
    ask.room = 72;
    ask.in.n = first_kernel.write_request(&r, ask.in.at, MIX_MOST).length;
}

static bool same_rows(const struct side *s, uint64_t rows)
{
    for (uint64_t i = 0; i < rows; i++)
        if ((uint64_t)s->rows[PLAIN_ROW * i] != s->records[i].second ||
            memcmp(&s->rows[PLAIN_ROW * i + 1], s->records[i].value, sizeof s->records[i].value) != 0)
            return false;
    return true;
}

static void move_to(uint64_t time)
{
    ask.call = MOVE;
    ask.time = time;
    both();
}

/* Both planners at one second, over random room: their rows are the same. */
static void crowd_plans(void)
{
    for (unsigned i = 0; i < 6; i++) {
        move_to(clock_now + (i == 0 ? 0 : mix_below(2)));
        ask.call = PLAN;
        ask.room = i == 0 || i == 5 ? PLAIN_ROW * PLAIN_ROWS : mix_below(PLAIN_ROW * PLAIN_ROWS + 2);
        bool planned = both() == 0;
        uint64_t rows = sides[0].length;
        ask.call = PLAIN_PLAN;
        ask.room = i == 5 ? PLAIN_ROWS : mix_below(PLAIN_RECORDS + 1);
        if (both() == 0 && planned && (sides[0].length != rows || !same_rows(&sides[0], rows)))
            complain("not the first planner's rows");
    }
}

/* The plan comes true: with the clock moved to a row's second, or to another before the next row's, an ask shows the row. */
static void crowd_rows(void)
{
    static int64_t planned[ROWS];
    ask.call = PLAN;
    ask.room = PLAIN_ROW * PLAIN_ROWS;
    both();
    uint64_t rows = sides[0].length;
    memcpy(planned, sides[0].rows, sizeof planned);
    for (uint64_t i = 0; i < rows; i += 1 + mix_below(8)) {
        const int64_t *row = &planned[PLAIN_ROW * i];
        uint64_t lasts = i + 1 < rows ? (uint64_t)(row[PLAIN_ROW] - row[0]) : PLAIN_LAST_SECOND - (uint64_t)row[0] + 1;
        move_to((uint64_t)row[0] + (mix_chance(500) ? 0 : mix_below(lasts < 9 ? lasts : 9)));
        ask.call = ASK;
        both();
        if (memcmp(sides[0].value, row + 1, sizeof sides[0].value) != 0)
            complain("a row did not come true");
    }
}

/* Every link goes while limits and currents stand: up to 65 rows in the failsafe. */
static void crowd_lost(void)
{
    for (unsigned i = 0; i < 8; i++) {
        ask.call = LOST;
        ask.zone = 1 + i;
        ask.time = clock_now;
        both();
    }
    ask.call = ASK;
    both();
    crowd_plans();
    if (sides[0].number == 0 && sides[0].length > most_lost)
        most_lost = sides[0].length;
}

/* Eight zones whose values give way to one another, so that plans grow long: up to 80 rows where all parts differ. */
static void crowd(void)
{
    start(true);
    uint64_t began = mix_chance(50) ? PLAIN_LAST_SECOND - 200 : mix_below(1000);
    bool even = mix_chance(500);
    for (unsigned i = 0; i < 8; i++) {
        ask.call = JOIN;
        ask.zone = 1 + i;
        ask.time = began;
        ask.a = even ? 1 + i / 3 : 1 + mix_below(PLAIN_RANKS);
        both();
    }
    for (unsigned i = 0; i < 8; i++)
        for (unsigned j = 0; j < PLAIN_HELDS; j++) {
            uint64_t lasts = even ? 1 + PLAIN_HELDS * i + j : mix_below(100);
            set_frame(j, settings.minimum + (even ? i : mix_below(9)), lasts);
            ask.zone = 1 + i;
            both();
        }
    if (mix_chance(300))
        crowd_lost();
    else
        crowd_plans();
    if (mix_chance(500)) {
        set_frame((unsigned)mix_below(PLAIN_HELDS), settings.minimum + 5, mix_below(90));
        ask.zone = 1 + mix_below(8);
        both();
    }
    if (mix_chance(300))
        crowd_rows();
}

static void print_counts(void)
{
    bool all = true;
    printf("%-15s", "call");
    for (unsigned n = 0; n < NUMBERS; n++)
        printf(" %7u", n);
    putchar('\n');
    for (unsigned c = 0; c <= CALLS; c++) {
        printf("%-15s", c < CALLS ? call_names[c] : "all");
        for (unsigned n = 0; n < NUMBERS; n++) {
            uint64_t v = 0;
            for (unsigned i = 0; i < CALLS; i++)
                v += i == c || c == CALLS ? counts[i][n] : 0;
            all = all && (c < CALLS || v > 0);
            if (v == 0)
                printf("       .");
            else
                printf(" %7llu", U(v));
        }
        putchar('\n');
    }
    printf("frames refused with a response:");
    for (unsigned n = 1; n < NUMBERS; n++)
        if (answered[n] > 0)
            printf(" %u: %llu (and %llu without room)", n, U(answered[n]), U(unanswered[n]));
    printf("\nlongest plan %llu rows (%llu in the failsafe), longest report %llu pairs, longest accepted frame %llu bytes, "
           "longest measurement %llu bytes\n",
           U(most_rows), U(most_lost), U(most_pairs), U(longest_in), U(longest_payload));
    printf("accepted setpoints: %llu without a duration, %llu with 0, %llu with another\n", U(setpoints[0]), U(setpoints[1]),
           U(setpoints[2]));
    printf("every number reached: %s\n", all ? "yes" : "NO");
}

int main(int argc, char **argv)
{
    uint64_t calls = argc > 1 ? strtoul(argv[1], NULL, 10) : 1000000;
    mix_seed(argc > 2 ? strtoul(argv[2], NULL, 10) : 1);
    for (unsigned i = 0; i < 2; i++) {
        sides[i].k = i == 0 ? &first_kernel : &second_kernel;
        sides[i].device = calloc(1, sides[i].k->size);
        sides[i].before = calloc(1, sides[i].k->size);
    }
    start(false);
    while (compared < calls && differ < 100) {
        if (mix_chance(5)) {
            while (mix_chance(500))
                start(false);
            start(mix_chance(850));
        } else if (mix_chance(2)) {
            crowd();
        } else if (mix_chance(1)) {
            scraps();
        } else if (mix_chance(5)) {
            odd_counts();
        } else if (mix_chance(3)) {
            ticks();
        } else if (mix_chance(5)) {
            odd_fronts();
        }
        mix_call();
        both();
    }
    print_counts();
    printf("%llu compared, %llu differ\n", U(compared), U(differ));
    return differ != 0;
}
