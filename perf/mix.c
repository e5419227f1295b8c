#include "mix.h"
#include <string.h>

static uint64_t state;

void mix_seed(uint64_t seed)
{
    state = seed;
}

/* splitmix64 */
uint64_t mix_any(void)
{
    uint64_t z = state += 0x9e3779b97f4a7c15;
    z = (z ^ z >> 30) * 0xbf58476d1ce4e5b9;
    z = (z ^ z >> 27) * 0x94d049bb133111eb;
    return z ^ z >> 31;
}

uint64_t mix_below(uint64_t n)
{
    return mix_any() % n;
}

bool mix_chance(unsigned of_thousand)
{
    return mix_below(1000) < of_thousand;
}

#define PICK(list) ((list)[mix_below(sizeof(list) / sizeof *(list))])
#define BIT(n) (UINT64_C(1) << (n))

/* ---- numbers near the edges ---- */

static uint64_t edge(void)
{
    static const uint64_t edges[] = {0,          1,          2,          3,          4,           5,
                                     14,         22,         23,         24,         255,         256,
                                     65535,      65536,      4294967295, 4294967296, BIT(40),     BIT(63) - 1,
                                     BIT(63),    UINT64_MAX, 9,          10,         UINT64_MAX - 1};
    return mix_chance(900) ? PICK(edges) : mix_any() >> mix_below(64);
}

static uint64_t watts(const struct plain_settings *s)
{
    static const uint64_t usual[] = {1000, 2000, 1380000, 4600000, 7000, 9000, 11040000, 0, 1};
    switch (mix_below(8)) {
    case 0:
        return s->minimum + mix_below(3) - 1;
    case 1:
        return s->maximum[0] + mix_below(3) - 1;
    case 2:
        return s->maximum[1] + mix_below(3) - 1;
    case 3:
        return s->minimum + mix_below(20);
    default:
        return PICK(usual);
    }
}

/* A limit or a setpoint as a request may carry it. */
static int64_t amount(const struct plain_settings *s)
{
    static const int64_t signed_edges[] = {-1, -2, -24, -25, -256, -257, INT64_MIN, INT64_MIN + 1, INT64_MAX, 0};
    if (mix_chance(60))
        return PICK(signed_edges);
    return (int64_t)(watts(s) & PLAIN_LARGEST);
}

/* A current in mA. */
static int64_t current(const struct plain_settings *s)
{
    static const int64_t usual[] = {6000, 10000, 13000, 16000, 20000, 32000, 0, 1};
    return mix_chance(800) ? PICK(usual) : amount(s);
}

static uint64_t duration(void)
{
    static const uint64_t usual[] = {1, 2, 3, 5, 10, 20, 50, 60, 100, 3599, 3600, 3601, 7200, 4294967295};
    return mix_chance(700) ? mix_below(120) : PICK(usual);
}

/* ---- CBOR ---- */

static void byte(struct bytes *to, uint64_t v)
{
    if (to->n < MIX_MOST)
        to->at[to->n++] = (uint8_t)v;
}

/* Now and then not the shortest form. */
static unsigned long_heads;

static void head(struct bytes *to, unsigned major, uint64_t v)
{
    unsigned size = v < 24 ? 0 : v < 256 ? 1 : v < 65536 ? 2 : v <= UINT32_MAX ? 3 : 4;
    while (size < 4 && long_heads > 0 && mix_chance(long_heads))
        size++;
    if (size == 0) {
        byte(to, major << 5 | v);
        return;
    }
    byte(to, major << 5 | (23 + size));
    for (unsigned i = 1u << (size - 1); i > 0; i--)
        byte(to, v >> 8 * (i - 1));
}

static void append(struct bytes *to, const struct bytes *from)
{
    for (size_t i = 0; i < from->n; i++)
        byte(to, from->at[i]);
}

static void number(struct bytes *to, int64_t v)
{
    if (v < 0)
        head(to, 1, (uint64_t)(-1 - v));
    else
        head(to, 0, (uint64_t)v);
}

/* What strict CBOR leaves out. */
static void foreign(struct bytes *to)
{
    static const uint8_t bad[] = {0xf7, 0xf7, 0xf7, 0xf8, 0xf9, 0xfb, 0xe0, 0xf3, 0xc0,
                                  0xd8, 0x5f, 0x7f, 0x9f, 0xbf, 0xff, 0x1c, 0x1f, 0x3e};
    byte(to, PICK(bad));
    for (uint64_t i = mix_chance(500) ? mix_below(4) : 0; i > 0; i--)
        byte(to, mix_any());
}

static void item(struct bytes *to, unsigned deep);

static void array_item(struct bytes *to, unsigned deep)
{
    uint64_t n = mix_below(4);
    head(to, 4, n);
    for (uint64_t i = 0; i < n; i++)
        item(to, deep - 1);
}

static void map_item(struct bytes *to, unsigned deep)
{
    uint64_t n = mix_below(4), key = mix_chance(50) ? UINT64_MAX - mix_below(2) : mix_below(26);
    head(to, 5, n);
    for (uint64_t i = 0; i < n; i++) {
        if (mix_chance(5))
            number(to, -1);
        else
            head(to, 0, key);
        item(to, deep - 1);
        if (!mix_chance(8))
            key += 1 + mix_below(mix_chance(100) ? 70000 : 20);
    }
}

static void string_item(struct bytes *to, unsigned major, uint64_t n)
{
    head(to, major, n);
    for (uint64_t i = 0; i < n; i++)
        byte(to, mix_any());
}

/* A random item; deep: levels of maps and arrays that it may open. */
static void item(struct bytes *to, unsigned deep)
{
    switch (mix_below(deep > 0 ? 10 : 6)) {
    case 0:
        head(to, 0, edge());
        break;
    case 1:
        head(to, 1, edge());
        break;
    case 2:
        string_item(to, 2, mix_below(mix_chance(50) ? 60 : 5));
        break;
    case 3:
        string_item(to, 3, mix_below(30));
        break;
    case 4:
        byte(to, 0xf4 + mix_below(3));
        break;
    case 5:
        if (mix_chance(40))
            foreign(to);
        else
            head(to, 0, mix_below(30));
        break;
    case 6:
    case 7:
        array_item(to, deep);
        break;
    default:
        map_item(to, deep);
    }
}

/* Nested maps and arrays, `levels` of them, the last one empty. */
static void nest(struct bytes *to, unsigned levels)
{
    for (; levels > 1; levels--) {
        if (mix_chance(500)) {
            head(to, 4, 1);
        } else {
            head(to, 5, 1);
            head(to, 0, mix_below(8));
        }
    }
    byte(to, mix_chance(500) ? 0x80 : 0xa0);
}

/* ---- maps with known keys ---- */

struct entries {
    uint64_t count;
    struct bytes body;
};

static void key(struct entries *e, uint64_t k)
{
    e->count++;
    head(&e->body, 0, k);
}

/* An entry under a key that nothing knows: at the top its item may open 7 levels more. */
static void unknown(struct entries *e, uint64_t k, unsigned deep)
{
    key(e, k);
    if (mix_chance(100))
        nest(&e->body, mix_chance(200) ? deep + 1 : 1 + (unsigned)mix_below(deep));
    else
        item(&e->body, mix_chance(900) ? 2 : deep);
}

/* A known unsigned field: now and then left out, of another type, or out of range. */
static void field(struct entries *e, uint64_t k, uint64_t v, unsigned deep)
{
    if (mix_chance(6))
        return;
    key(e, k);
    if (mix_chance(6))
        item(&e->body, deep);
    else
        head(&e->body, 0, mix_chance(8) ? edge() : v);
}

static void close_map(struct bytes *to, struct entries *e)
{
    head(to, 5, mix_chance(3) ? e->count + mix_below(3) - 1 : e->count);
    append(to, &e->body);
}

/* A number under a key: now and then null, of another type, or past 64 signed bits. */
static void amount_entry(struct entries *e, uint64_t k, int64_t v, bool nullable)
{
    key(e, k);
    if (mix_chance(nullable ? 150 : 8))
        byte(&e->body, 0xf6);
    else if (mix_chance(15))
        item(&e->body, 2);
    else if (mix_chance(10))
        head(&e->body, (unsigned)mix_below(2), mix_chance(500) ? BIT(63) : UINT64_MAX);
    else
        number(&e->body, v);
}

static void amount_field(struct entries *e, uint64_t k, const struct plain_settings *s, bool nullable)
{
    if (mix_chance(650))
        amount_entry(e, k, amount(s), nullable);
}

/* A map of phases under a key: seldom one that the device does not have, or a key that is no phase; now and then empty. */
static void phase_map(struct entries *e, uint64_t k, const struct plain_settings *s, bool nullable)
{
    static struct entries phases;
    phases.count = phases.body.n = 0;
    if (mix_chance(6))
        return;
    key(e, k);
    if (mix_chance(10)) {
        item(&e->body, 2);
        return;
    }
    for (uint64_t p = 0; p < PLAIN_PHASES; p++)
        if (mix_chance(p < s->phases ? 600 : 30))
            amount_entry(&phases, p, current(s), nullable);
    if (mix_chance(nullable ? 10 : 200))
        amount_entry(&phases, 3 + mix_below(4), current(s), nullable);
    close_map(&e->body, &phases);
}

/* Of a Set command: often left out, and now and then a 0. */
static void duration_field(struct entries *e)
{
    if (mix_chance(600))
        field(e, 3, mix_chance(200) ? 0 : duration(), 2);
}

static void parameters(struct entries *e, uint64_t command, const struct plain_settings *s)
{
    if (mix_chance(20))
        unknown(e, 0, 6);
    if (command == 1 || command == 3) {
        amount_field(e, 1, s, command == 1);
        amount_field(e, 2, s, command == 1);
        duration_field(e);
        field(e, 4, mix_below(6), 2);
    } else if (command == 5) {
        phase_map(e, 1, s, true);
        field(e, 2, mix_chance(970) ? mix_below(2) : 2, 2);
        duration_field(e);
        field(e, 4, mix_below(6), 2);
    } else {
        if (mix_chance(600))
            field(e, 1, mix_below(2), 2);
        for (uint64_t k = 2; k < 5; k++)
            if (mix_chance(15))
                unknown(e, k, 6);
    }
    if (mix_chance(30))
        unknown(e, 5 + mix_below(300), 6);
}

static uint64_t message_id(void)
{
    static const uint64_t usual[] = {0, 1, 7, 23, 24, 255, 256, 65535, 65536, 4294967295};
    return mix_chance(500) ? PICK(usual) : mix_any() >> 32;
}

static uint64_t usually(uint64_t v, uint64_t most)
{
    return mix_chance(970) ? v : mix_below(most + 1);
}

static void request_map(struct entries *e, const struct plain_settings *s)
{
    static struct entries inner;
    uint64_t command = usually(1 + mix_below(6), 9);
    if (mix_chance(300))
        command = mix_chance(500) ? 1 : 5;
    inner.count = inner.body.n = 0;
    if (mix_chance(20))
        unknown(e, 0, 7);
    field(e, 1, message_id(), 2);
    field(e, 2, usually(1, 255), 2);
    field(e, 3, usually(5, 65535), 2);
    field(e, 4, command, 2);
    if (mix_chance(6))
        return;
    key(e, 5);
    if (mix_chance(6)) {
        item(&e->body, 2);
    } else {
        parameters(&inner, command, s);
        close_map(&e->body, &inner);
    }
}

static void result_map(struct entries *e, uint64_t command)
{
    static const struct plain_settings three = {.phases = PLAIN_PHASES};
    key(e, 1);
    byte(&e->body, mix_chance(900) ? 0xf5 : 0xf4);
    if (command == 1)
        field(e, 2, mix_below(5), 2);
    if (command == 5)
        phase_map(e, 2, &three, false);
    for (uint64_t k = command == 1 ? 3 : 2; command != 5 && k < (command == 1 ? 5 : 4); k++)
        if (mix_chance(500))
            field(e, k, mix_chance(900) ? mix_below(50000000) : edge(), 2);
    if (command == 1 && mix_chance(300))
        field(e, 5, mix_below(5), 2);
    if (mix_chance(40))
        unknown(e, 6 + mix_below(30), 6);
}

static void response_map(struct entries *e, uint64_t command)
{
    static struct entries inner;
    static const uint64_t statuses[] = {0, 0, 0, 4, 5, 9, 10, 11, 12, 13, 14};
    inner.count = inner.body.n = 0;
    field(e, 1, message_id(), 2);
    field(e, 2, mix_chance(950) ? PICK(statuses) : mix_below(17), 2);
    if (mix_chance(600)) {
        key(e, 3);
        if (mix_chance(10)) {
            item(&e->body, 2);
        } else {
            result_map(&inner, mix_chance(500) ? command : 1 + mix_below(6));
            close_map(&e->body, &inner);
        }
    }
}

/* Unknown keys behind the known ones, up to a payload of about `most` bytes. */
static void fill_up(struct entries *e, size_t most)
{
    uint64_t k = 6;
    bool long_one = mix_chance(500);
    if (most < e->body.n + 300)
        return;
    size_t room = most - 1 - e->body.n - (e->count < 24 ? 0 : 1);
    if (long_one) {
        key(e, k);
        string_item(&e->body, 2, room - 4);
        return;
    }
    while (e->body.n + 30 < most) {
        key(e, k);
        item(&e->body, 1);
        k += 1 + mix_below(3);
    }
}

/* ---- damage ---- */

static void damage(struct bytes *to)
{
    size_t at = mix_below(to->n + 1);
    switch (mix_below(6)) {
    case 0:
        if (at < to->n)
            to->at[at] ^= (uint8_t)(1u << mix_below(8));
        break;
    case 1:
        if (at < to->n)
            to->at[at] = (uint8_t)mix_any();
        break;
    case 2:
        if (at < to->n) {
            memmove(to->at + at, to->at + at + 1, to->n - at - 1);
            to->n--;
        }
        break;
    case 3:
        if (to->n < MIX_MOST) {
            memmove(to->at + at + 1, to->at + at, to->n - at);
            to->at[at] = (uint8_t)mix_any();
            to->n++;
        }
        break;
    case 4:
        to->n = at;
        break;
    default:
        byte(to, mix_any());
    }
}

/* Puts a prefix in front; now and then a wrong one. */
static void prefix(struct bytes *to, const struct bytes *payload)
{
    uint64_t length = payload->n;
    if (mix_chance(8))
        length = mix_chance(500) ? length + mix_below(5) - 2 : edge();
    to->n = 0;
    for (unsigned i = 4; i > 0; i--)
        byte(to, length >> 8 * (i - 1));
    append(to, payload);
}

static void frame_of(struct bytes *to, struct entries *e)
{
    static struct bytes payload;
    payload.n = 0;
    if (mix_chance(20))
        unknown(e, 6 + mix_below(1000), 7);
    if (mix_chance(4))
        fill_up(e, mix_chance(300) ? 2040 + mix_below(16) : 500 + mix_below(1600));
    close_map(&payload, e);
    if (mix_chance(6)) {
        payload.n = 0;
        item(&payload, 7);
    }
    if (mix_chance(40))
        damage(&payload);
    prefix(to, &payload);
    if (mix_chance(10))
        damage(to);
}

void mix_request(struct bytes *to, const struct plain_settings *s)
{
    static struct entries e;
    e.count = e.body.n = 0;
    long_heads = mix_chance(50) ? 60 : 0;
    request_map(&e, s);
    frame_of(to, &e);
}

void mix_response(struct bytes *to, uint64_t command)
{
    static struct entries e;
    e.count = e.body.n = 0;
    long_heads = mix_chance(50) ? 60 : 0;
    response_map(&e, command);
    frame_of(to, &e);
}

/* ---- fields for the writers ---- */

static uint64_t spoil(uint64_t v)
{
    return mix_chance(15) ? edge() : v;
}

void mix_request_fields(struct plain_request *r, const struct plain_settings *s)
{
    memset(r, 0, sizeof *r);
    r->id = spoil(message_id());
    r->endpoint = spoil(usually(1, 255));
    r->feature = spoil(usually(5, 65535));
    r->command = spoil(usually(1 + mix_below(6), 9));
    r->omitted = mix_chance(500); /* beside every command and every duration */
    if (r->command == 1 || r->command == 3) {
        for (unsigned i = 0; i < 2; i++) {
            r->field[i].kind = mix_chance(600) ? PLAIN_NUMBER : r->command == 1 ? mix_below(2) : PLAIN_ABSENT;
            if (mix_chance(20))
                r->field[i].kind = mix_chance(500) ? PLAIN_NULL : edge();
            if (r->field[i].kind == PLAIN_NUMBER)
                r->field[i].value = mix_chance(900) ? amount(s) : (int64_t)edge();
        }
        r->duration = spoil(mix_chance(300) ? 0 : duration());
        r->cause = spoil(mix_below(256));
    } else if (r->command == 5) {
        for (unsigned i = 0; i < PLAIN_PHASES; i++) {
            r->phase[i].kind = mix_chance(8) ? edge() : mix_below(3);
            if (r->phase[i].kind == PLAIN_NUMBER)
                r->phase[i].value = mix_chance(900) ? current(s) : (int64_t)edge();
        }
        r->direction = spoil(mix_chance(20) ? 2 : mix_below(2));
        r->duration = spoil(mix_chance(300) ? 0 : duration());
        r->cause = spoil(mix_below(256));
    } else if (r->command == 2 || r->command == 4 || r->command == 6) {
        r->has_direction = mix_chance(500);
        if (r->has_direction)
            r->direction = spoil(mix_below(2));
    }
}

static int64_t maybe(uint64_t v)
{
    return mix_chance(400) ? -1 : (int64_t)(v & PLAIN_LARGEST);
}

void mix_response_fields(uint64_t command, struct plain_response *r)
{
    static const uint64_t statuses[] = {0, 0, 0, 4, 5, 9, 10, 11, 12, 13, 14};
    *r = (struct plain_response){.value = {-1, -1}, .reason = -1, .current = {-1, -1, -1}};
    r->id = spoil(message_id());
    r->status = spoil(mix_chance(950) ? PICK(statuses) : mix_below(17));
    r->has_result = r->status == 0 || (command == 1 && r->status >= 11 && r->status <= 14);
    if (mix_chance(30))
        r->has_result = !r->has_result;
    if (!r->has_result)
        return;
    r->applied = mix_chance(command == 1 ? 500 : 970);
    if (command == 1) {
        r->state = spoil(mix_below(5));
        r->reason = maybe(spoil(mix_chance(60) ? 5 : mix_below(5)));
    }
    if (command == 1 || command == 3)
        for (unsigned i = 0; i < 2; i++)
            r->value[i] = maybe(mix_chance(900) ? mix_below(50000000) : edge());
    if (command == 5)
        for (unsigned i = 0; i < PLAIN_PHASES; i++)
            r->current[i] = maybe(mix_chance(900) ? mix_below(40000) : edge());
    if (mix_chance(15))
        r->value[mix_below(2)] = r->current[mix_below(PLAIN_PHASES)] = -2;
}

/* ---- what is measured ---- */

/* Attributes by number, cells, and range: up to high, and from -1 - n with n below `below`. */
struct attribute {
    uint64_t number, cells, below, high;
};

enum { ATTRIBUTES = 24 };

static const struct attribute measured[ATTRIBUTES] = {
    {1, 1, BIT(63), INT64_MAX},  {2, 1, BIT(63), INT64_MAX},  {3, 1, 0, UINT64_MAX},       {10, 3, BIT(63), INT64_MAX},
    {11, 3, BIT(63), INT64_MAX}, {12, 3, BIT(63), INT64_MAX}, {20, 3, BIT(63), INT64_MAX}, {21, 3, 0, UINT32_MAX},
    {22, 3, 0, UINT32_MAX},      {23, 1, 0, UINT32_MAX},      {24, 1, 1000, 1000},         {30, 1, 0, UINT64_MAX},
    {31, 1, 0, UINT64_MAX},      {40, 1, BIT(63), INT64_MAX}, {41, 1, BIT(63), INT64_MAX}, {42, 1, 0, UINT32_MAX},
    {43, 1, 0, UINT64_MAX},      {44, 1, 0, UINT64_MAX},      {50, 1, 0, 100},             {51, 1, 0, 100},
    {52, 1, 0, UINT64_MAX},      {53, 1, 0, UINT64_MAX},      {54, 1, 0, UINT32_MAX},      {60, 1, 32768, 32767},
};

/* How often, of a thousand, a number is put past its range, or another thing in its place; and how often it is the last of it. */
static unsigned spoilt, at_end;

/* A number of a range, often at one of its ends. */
static struct plain_cell cell(const struct attribute *a)
{
    bool negative = a->below > 0 && mix_chance(400);
    uint64_t most = negative ? a->below - 1 : a->high, past = mix_chance(spoilt) ? 1 : 0;
    if (past == 1 && !negative && a->below == 0 && mix_chance(300))
        return (struct plain_cell){2, mix_below(3)};
    if (past == 1 || mix_chance(at_end))
        return (struct plain_cell){1 + negative, most + past};
    return (struct plain_cell){1 + negative, (mix_chance(300) ? mix_below(3) : mix_any() >> mix_below(64)) & most};
}

static void cell_item(struct bytes *to, const struct attribute *a)
{
    struct plain_cell c = cell(a);
    if (mix_chance(spoilt))
        item(to, 2);
    else
        head(to, c.mark == 2 ? 1 : 0, c.size);
}

/* Of three phases some; now and then none, or a fourth. */
static void cells_item(struct bytes *to, const struct attribute *a)
{
    static struct entries phases;
    phases.count = phases.body.n = 0;
    unsigned which = mix_chance(spoilt) ? 0 : mix_chance(at_end) ? 7 : 1 + (unsigned)mix_below(7);
    for (uint64_t p = 0; p < PLAIN_PHASES; p++)
        if (which >> p & 1) {
            key(&phases, p);
            cell_item(&phases.body, a);
        }
    if (mix_chance(spoilt)) {
        key(&phases, 3 + mix_below(2));
        cell_item(&phases.body, a);
    }
    close_map(to, &phases);
}

static void attribute_entries(struct entries *e)
{
    unsigned keep = mix_chance(300) ? 1000 : (unsigned)mix_below(600);
    spoilt = mix_chance(700) ? 0 : mix_chance(800) ? 20 : 300;
    at_end = mix_chance(100) ? 1000 : 200;
    unsigned unknowns = mix_chance(300) ? 100 : 0;
    uint64_t next = 0;
    for (unsigned i = 0; i < ATTRIBUTES; i++) {
        const struct attribute *a = &measured[i];
        if (mix_chance(unknowns) && next < a->number)
            unknown(e, next + mix_below(a->number - next), 7);
        next = a->number + 1;
        if (!mix_chance(keep))
            continue;
        key(e, a->number);
        (a->cells == 1 ? cell_item : cells_item)(&e->body, a);
    }
    if (mix_chance(unknowns))
        unknown(e, 61 + mix_below(1000), 7);
}

void mix_measurement(struct bytes *to)
{
    static struct entries e;
    e.count = e.body.n = to->n = 0;
    long_heads = mix_chance(20) ? 60 : 0;
    attribute_entries(&e);
    if (mix_chance(20)) {
        uint64_t n = mix_chance(500) ? mix_below(2100) : 2048 - e.body.n - 8 + mix_below(6);
        key(&e, 2000);
        string_item(&e.body, 2, n < MIX_MOST / 2 ? n : 0);
    }
    close_map(to, &e);
    if (mix_chance(10)) {
        to->n = 0;
        if (mix_chance(700))
            item(to, 7);
    }
    if (mix_chance(80))
        damage(to);
}

void mix_measurement_cells(struct plain_measurement *m)
{
    struct plain_cell *c = m->cell;
    unsigned keep = mix_chance(300) ? 1000 : (unsigned)mix_below(800);
    spoilt = mix_chance(800) ? 0 : 30;
    at_end = mix_chance(100) ? 1000 : 200;
    for (unsigned i = 0; i < ATTRIBUTES; i++)
        for (uint64_t k = 0; k < measured[i].cells; k++, c++) {
            *c = mix_chance(keep) ? cell(&measured[i]) : (struct plain_cell){0, mix_chance(100) ? edge() : 0};
            if (mix_chance(spoilt))
                c->mark = mix_chance(500) ? 3 : edge();
        }
}

/* ---- settings and inputs ---- */

void mix_settings(struct plain_settings *s, bool sound)
{
    memset(s, 0, sizeof *s);
    s->directions = mix_chance(700) ? 2 : mix_below(2);
    s->accepts_limits = mix_chance(900);
    s->accepts_setpoints = mix_chance(900);
    s->minimum = mix_chance(600) ? 1380000 : mix_below(3000);
    for (unsigned i = 0; i < 2; i++) {
        s->has_maximum[i] = mix_chance(500);
        if (s->has_maximum[i])
            s->maximum[i] = s->minimum + (mix_chance(200) ? 0 : mix_below(10000000));
        s->failsafe[i] = mix_chance(800) ? mix_below(9000000) : 0;
    }
    s->duration = mix_chance(800) ? 7200 : mix_chance(500) ? 86400 : 7200 + mix_below(79201);
    s->manager = mix_chance(500);
    s->phases = mix_chance(600) ? 3 : 1 + mix_below(3);
    s->accepts_currents = mix_chance(900);
    if (sound)
        return;
    switch (mix_below(8)) {
    case 0:
        s->directions = edge();
        break;
    case 1:
        s->minimum = edge();
        break;
    case 2:
        s->has_maximum[0] = true;
        s->maximum[0] = mix_chance(500) ? s->minimum - mix_below(2) : edge();
        break;
    case 3:
        s->has_maximum[1] = true;
        s->maximum[1] = edge();
        break;
    case 4:
        s->failsafe[mix_below(2)] = edge();
        break;
    case 5:
        s->phases = mix_chance(500) ? 4 * mix_below(2) : edge();
        break;
    default:
        s->duration = mix_chance(300) ? edge() : mix_chance(500) ? 7199 + mix_below(2) : 86400 + mix_below(2);
    }
}

void mix_inputs(struct plain_inputs *in, uint16_t *attributes, size_t *n)
{
    static const uint8_t known[] = {1,  2,  3,  10, 11, 12, 13, 14, 15, 16, 20, 21, 22, 23, 30, 31, 32,
                                    33, 40, 41, 42, 43, 50, 51, 52, 53, 60, 61, 70, 71, 72, 80, 81, 90};
    in->type = mix_chance(980) ? mix_below(11) : edge();
    in->map = mix_chance(970) ? mix_below(2048) | mix_below(2) : edge();
    in->phases = mix_chance(980) ? 1 + mix_below(3) : edge();
    in->directions = mix_chance(980) ? mix_below(3) : edge();
    in->limits = mix_chance(500);
    in->current = mix_chance(500);
    in->setpoints = mix_chance(500);
    in->process = mix_chance(500);
    unsigned keep = (unsigned)mix_below(1001);
    *n = 0;
    if (mix_chance(100))
        attributes[(*n)++] = 0;
    for (unsigned i = 0; i < sizeof known; i++)
        if (mix_chance(keep))
            attributes[(*n)++] = known[i];
    while (mix_chance(200) && *n < 60)
        attributes[*n] = (uint16_t)(200 + *n * 3), (*n)++;
    if (mix_chance(60) && *n > 0)
        attributes[mix_below(*n)] = (uint16_t)(mix_chance(500) ? mix_below(90) : mix_any());
}
