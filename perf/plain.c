/* Document 01 in plain C. State behind a pointer, one pass over a frame, one pass over the zones. */
#include "plain.h"
#include <string.h>

#define FOREVER UINT64_MAX

/* ---- strict CBOR ---- */

/* Majors by one more than on the wire, so that 0 is a key that did not stand there. */
enum kind { NONE, UNSIGNED, NEGATIVE, BYTES, TEXT, ARRAY, MAP, TAG, SIMPLE };

enum { FALSE = 20, TRUE = 21, NIL = 22 };

/* The head of what stood at a known key. */
struct item {
    uint64_t argument;
    uint8_t kind;
};

/* Known keys are below 6 in the envelope and in the one map beneath it that matters, and are the phases in a map of that. */
enum { KEYS = 6 };

struct scan {
    struct item outer[KEYS], inner[KEYS], phases[PLAIN_PHASES];
    bool is_map;
};

/* Where the maps beneath the envelope stand: its own key, then the key in there that may have phases. */
struct places {
    unsigned inner, phases;
};

/* An open map or array: entries still to come, the least key that may follow, how many keys are known, if any, and where those
   go. */
struct level {
    uint64_t left, least;
    struct item *known;
    uint8_t keys;
    bool map;
};

static inline uint32_t be16(const uint8_t *p)
{
    return (uint32_t)p[0] << 8 | p[1];
}

static inline uint32_t be32(const uint8_t *p)
{
    return (uint32_t)p[0] << 24 | (uint32_t)p[1] << 16 | (uint32_t)p[2] << 8 | p[3];
}

/* One strict head at p: what follows it, or NULL if it is cut, reserved or not the shortest. */
static inline const uint8_t *head(const uint8_t *p, const uint8_t *end, unsigned *kind, uint64_t *argument)
{
    if (p == end)
        return NULL;
    unsigned byte = *p++, low = byte & 31;
    *kind = (byte >> 5) + 1;
    *argument = low;
    if (low < 24)
        return p;
    switch (low) {
    case 24:
        if (end - p < 1 || p[0] < 24)
            return NULL;
        *argument = p[0];
        return p + 1;
    case 25:
        if (end - p < 2 || p[0] == 0)
            return NULL;
        *argument = be16(p);
        return p + 2;
    case 26:
        if (end - p < 4 || be16(p) == 0)
            return NULL;
        *argument = be32(p);
        return p + 4;
    case 27:
        if (end - p < 8 || be32(p) == 0)
            return NULL;
        *argument = (uint64_t)be32(p) << 32 | be32(p + 4);
        return p + 8;
    default:
        return NULL;
    }
}

/* Checks that p is one strict item, and remembers the known keys on the way: those of the payload's map, and those of the
   maps at these places. */
static bool scan(const uint8_t *p, size_t n, struct places at, struct scan *s)
{
    struct level stack[8], now = {1, 0, NULL, 0, false};
    const uint8_t *end = p + n;
    unsigned depth = 0, kind;
    uint64_t argument;
    *s = (struct scan){0};
    for (;;) {
        struct item *slot = NULL;
        now.left--;
        if (now.map) {
            p = head(p, end, &kind, &argument);
            if (p == NULL || kind != UNSIGNED || argument < now.least)
                return false;
            now.least = argument + 1;
            if (now.least == 0 && now.left > 0) /* no key can follow the largest */
                return false;
            if (argument < now.keys)
                slot = &now.known[argument];
        }
        p = head(p, end, &kind, &argument);
        if (p == NULL)
            return false;
        if (slot != NULL)
            *slot = (struct item){argument, (uint8_t)kind};
        switch (kind) {
        case UNSIGNED:
        case NEGATIVE:
            break;
        case BYTES:
        case TEXT:
            if (argument > (size_t)(end - p))
                return false;
            p += argument;
            break;
        case ARRAY:
        case MAP:
            if (depth == 8)
                return false;
            s->is_map |= depth == 0 && kind == MAP;
            stack[depth++] = now;
            now.keys = 0;
            if (depth == 1)
                now.known = s->outer, now.keys = KEYS;
            else if (depth == 2 && slot == &s->outer[at.inner])
                now.known = s->inner, now.keys = KEYS;
            else if (depth == 3 && slot == &s->inner[at.phases])
                now.known = s->phases, now.keys = PLAIN_PHASES;
            now.left = argument;
            now.least = 0;
            now.map = kind == MAP;
            break;
        case SIMPLE:
            if (argument < FALSE || argument > NIL)
                return false;
            break;
        default:
            return false;
        }
        while (now.left == 0) {
            if (depth == 0)
                return p == end;
            now = stack[--depth];
        }
    }
}

/* The payload behind a sound prefix: its length, or 0. */
static size_t payload(const uint8_t *in, size_t n)
{
    if (n < 5 || n > PLAIN_FRAME_MAX)
        return 0;
    return be32(in) == n - 4 ? n - 4 : 0;
}

/* ---- writing ---- */

static inline void put_be16(uint8_t *to, uint64_t v)
{
    to[0] = (uint8_t)(v >> 8);
    to[1] = (uint8_t)v;
}

static inline void put_be32(uint8_t *to, uint64_t v)
{
    to[0] = (uint8_t)(v >> 24);
    to[1] = (uint8_t)(v >> 16);
    to[2] = (uint8_t)(v >> 8);
    to[3] = (uint8_t)v;
}

/* The shortest head; what follows it. */
static inline uint8_t *put(uint8_t *to, unsigned major, uint64_t v)
{
    if (v < 24) {
        *to = (uint8_t)(major << 5 | v);
        return to + 1;
    }
    if (v <= 0xff) {
        to[0] = (uint8_t)(major << 5 | 24);
        to[1] = (uint8_t)v;
        return to + 2;
    }
    if (v <= 0xffff) {
        to[0] = (uint8_t)(major << 5 | 25);
        put_be16(to + 1, v);
        return to + 3;
    }
    if (v <= UINT32_MAX) {
        to[0] = (uint8_t)(major << 5 | 26);
        put_be32(to + 1, v);
        return to + 5;
    }
    to[0] = (uint8_t)(major << 5 | 27);
    put_be32(to + 1, v >> 32);
    put_be32(to + 5, v);
    return to + 9;
}

static uint8_t *put_signed(uint8_t *to, int64_t v)
{
    return v < 0 ? put(to, 1, (uint64_t)(-1 - v)) : put(to, 0, (uint64_t)v);
}

static uint8_t *put_bool(uint8_t *to, bool v)
{
    *to++ = v ? 0xf5 : 0xf4;
    return to;
}

/* Puts the prefix in front of a payload that ends at `end`; the whole length. */
static size_t close_frame(uint8_t *frame, const uint8_t *end)
{
    size_t length = (size_t)(end - frame) - 4;
    put_be32(frame, length);
    return length + 4;
}

/* A map's entry that is a field of a Set command; an absent one is left out. */
static uint8_t *put_field(uint8_t *to, unsigned key, const struct plain_field *f)
{
    if (f->kind == PLAIN_ABSENT)
        return to;
    to = put(to, 0, key);
    return f->kind == PLAIN_NULL ? put(to, 7, NIL) : put_signed(to, f->value);
}

/* A map's entry that is a value; an absent one is left out. */
static inline uint8_t *put_value(uint8_t *to, unsigned key, int64_t v)
{
    if (v < 0)
        return to;
    *to++ = (uint8_t)key;
    return put(to, 0, (uint64_t)v);
}

static bool put_frame(const uint8_t *frame, size_t length, uint8_t *out, size_t room)
{
    if (length > room)
        return false;
    memcpy(out, frame, length);
    return true;
}

/* ---- requests ---- */

static bool is_served(uint64_t command)
{
    return command >= 1 && command <= 6;
}

/* SetLimit and SetSetpoint, which name two directions. */
static bool sets_power(uint64_t command)
{
    return command == 1 || command == 3;
}

static bool fits(const struct item *i, uint64_t largest)
{
    return i->kind == UNSIGNED && i->argument <= largest;
}

static uint64_t read_envelope(const struct scan *s, struct plain_request *r)
{
    if (!s->is_map || !fits(&s->outer[1], UINT32_MAX) || !fits(&s->outer[2], 255) || !fits(&s->outer[3], 65535) ||
        !fits(&s->outer[4], 65535) || s->outer[5].kind != MAP)
        return 3;
    r->id = s->outer[1].argument;
    r->endpoint = s->outer[2].argument;
    r->feature = s->outer[3].argument;
    r->command = s->outer[4].argument;
    return r->endpoint == 1 && r->feature == 5 && is_served(r->command) ? 0 : 4;
}

static bool read_field(const struct item *i, bool nullable, struct plain_field *f)
{
    f->kind = PLAIN_ABSENT;
    f->value = 0;
    switch (i->kind) {
    case NONE:
        return true;
    case SIMPLE:
        f->kind = PLAIN_NULL;
        return nullable && i->argument == NIL;
    case UNSIGNED:
    case NEGATIVE:
        if (i->argument > PLAIN_LARGEST)
            return false;
        f->kind = PLAIN_NUMBER;
        f->value = i->kind == UNSIGNED ? (int64_t)i->argument : -1 - (int64_t)i->argument;
        return true;
    default:
        return false;
    }
}

/* Whether an item is a map of phases, and has no other key than those. */
static bool has_phases(const struct item *map, const struct item *phases)
{
    unsigned known = (phases[0].kind != NONE) + (phases[1].kind != NONE) + (phases[2].kind != NONE);
    return map->kind == MAP && map->argument == known;
}

/* Duration and cause of a Set command. */
static uint64_t read_ends(const struct item *i, struct plain_request *r)
{
    if ((i[3].kind != NONE && !fits(&i[3], UINT32_MAX)) || !fits(&i[4], 255))
        return 3;
    r->duration = i[3].argument;
    r->omitted = r->command == 3 && i[3].kind == NONE;
    r->cause = i[4].argument;
    return 0;
}

static uint64_t read_parameters(const struct scan *s, struct plain_request *r)
{
    const struct item *i = s->inner;
    if (sets_power(r->command)) {
        if (!read_field(&i[1], r->command == 1, &r->field[0]) || !read_field(&i[2], r->command == 1, &r->field[1]))
            return 3;
        return read_ends(i, r);
    }
    if (r->command == 5) {
        if (!has_phases(&i[1], s->phases) || !fits(&i[2], 1))
            return 3;
        for (unsigned k = 0; k < PLAIN_PHASES; k++)
            if (!read_field(&s->phases[k], true, &r->phase[k]))
                return 3;
        r->direction = i[2].argument;
        return read_ends(i, r);
    }
    if (i[1].kind != NONE && !fits(&i[1], 1))
        return 3;
    r->has_direction = i[1].kind != NONE;
    r->direction = i[1].argument;
    return 0;
}

/* 1, 2, 3, 4, then the parameters' 3. At 4 the id is in r. */
static inline uint64_t read_request(const uint8_t *in, size_t n, struct plain_request *r)
{
    struct scan s;
    size_t length = payload(in, n);
    if (length == 0)
        return 1;
    if (!scan(in + 4, length, (struct places){5, 1}, &s))
        return 2;
    uint64_t number = read_envelope(&s, r);
    return number != 0 ? number : read_parameters(&s, r);
}

uint64_t plain_read_request(const uint8_t *in, size_t n, struct plain_request *r)
{
    struct plain_request read = {0};
    uint64_t number = read_request(in, n, &read);
    if (number == 0)
        *r = read;
    return number;
}

static bool request_in_range(const struct plain_request *r)
{
    if (r->id > UINT32_MAX || r->endpoint > 255 || r->feature > 65535 || r->command > 65535)
        return false;
    if (sets_power(r->command)) {
        for (unsigned i = 0; i < 2; i++)
            if (r->field[i].kind > PLAIN_NUMBER || (r->field[i].kind == PLAIN_NULL && r->command == 3))
                return false;
        return r->duration <= UINT32_MAX && r->cause <= 255;
    }
    if (r->command == 5) {
        for (unsigned i = 0; i < PLAIN_PHASES; i++)
            if (r->phase[i].kind > PLAIN_NUMBER)
                return false;
        return r->direction <= 1 && r->duration <= UINT32_MAX && r->cause <= 255;
    }
    return !is_served(r->command) || !r->has_direction || r->direction <= 1;
}

/* How many of so many fields stand. */
static unsigned standing(const struct plain_field *f, unsigned n)
{
    unsigned count = 0;
    for (unsigned i = 0; i < n; i++)
        count += f[i].kind != PLAIN_ABSENT;
    return count;
}

/* Whether a Set command's duration is written: a 0 is left out, save a setpoint's that is not omitted. */
static bool has_duration(const struct plain_request *r)
{
    return r->duration != 0 || (r->command == 3 && !r->omitted);
}

/* Duration and cause of a Set command. */
static uint8_t *put_ends(uint8_t *to, const struct plain_request *r)
{
    if (has_duration(r))
        to = put(put(to, 0, 3), 0, r->duration);
    return put(put(to, 0, 4), 0, r->cause);
}

static uint8_t *put_parameters(uint8_t *to, const struct plain_request *r)
{
    if (sets_power(r->command)) {
        to = put(to, 5, 1 + standing(r->field, 2) + has_duration(r));
        for (unsigned i = 0; i < 2; i++)
            to = put_field(to, i + 1, &r->field[i]);
        return put_ends(to, r);
    }
    if (r->command == 5) {
        to = put(to, 5, 3 + has_duration(r));
        to = put(put(to, 0, 1), 5, standing(r->phase, PLAIN_PHASES));
        for (unsigned i = 0; i < PLAIN_PHASES; i++)
            to = put_field(to, i, &r->phase[i]);
        return put_ends(put(put(to, 0, 2), 0, r->direction), r);
    }
    to = put(to, 5, r->has_direction);
    return r->has_direction ? put(put(to, 0, 1), 0, r->direction) : to;
}

struct plain_written plain_write_request(const struct plain_request *r, uint8_t *out, size_t room)
{
    uint8_t frame[PLAIN_REQUEST_MAX], *to = frame + 4;
    if (!request_in_range(r))
        return (struct plain_written){3, 0};
    if (r->endpoint != 1 || r->feature != 5 || !is_served(r->command))
        return (struct plain_written){4, 0};
    to = put(to, 5, 5);
    to = put(put(to, 0, 1), 0, r->id);
    to = put(put(to, 0, 2), 0, r->endpoint);
    to = put(put(to, 0, 3), 0, r->feature);
    to = put(put(to, 0, 4), 0, r->command);
    to = put_parameters(put(to, 0, 5), r);
    size_t length = close_frame(frame, to);
    if (!put_frame(frame, length, out, room))
        return (struct plain_written){15, 0};
    return (struct plain_written){0, length};
}

/* ---- responses ---- */

static bool is_status(uint64_t v)
{
    return v == 0 || v == 4 || v == 5 || (v >= 9 && v <= 14);
}

static bool has_result(uint64_t command, uint64_t status)
{
    return status == 0 || (command == 1 && status >= 11 && status <= 14);
}

static bool read_value(const struct item *i, int64_t *v)
{
    *v = i->kind == NONE ? -1 : (int64_t)i->argument;
    return i->kind == NONE || fits(i, PLAIN_LARGEST);
}

static bool read_result(uint64_t command, const struct item *i, const struct item *phases, struct plain_response *r)
{
    if (command == 1) {
        if (i[1].kind != SIMPLE || i[1].argument == NIL || !fits(&i[2], 4) || (i[5].kind != NONE && !fits(&i[5], 4)))
            return false;
        r->applied = i[1].argument == TRUE;
        r->state = i[2].argument;
        r->reason = i[5].kind == NONE ? -1 : (int64_t)i[5].argument;
        return read_value(&i[3], &r->value[0]) && read_value(&i[4], &r->value[1]);
    }
    if (i[1].kind != SIMPLE || i[1].argument != TRUE)
        return false;
    r->applied = true;
    if (command == 5)
        return has_phases(&i[2], phases) && read_value(&phases[0], &r->current[0]) && read_value(&phases[1], &r->current[1]) &&
               read_value(&phases[2], &r->current[2]);
    return command != 3 || (read_value(&i[2], &r->value[0]) && read_value(&i[3], &r->value[1]));
}

static const struct plain_response no_response = {.value = {-1, -1}, .reason = -1, .current = {-1, -1, -1}};

uint64_t plain_read_response(uint64_t command, const uint8_t *in, size_t n, struct plain_response *r)
{
    struct scan s;
    struct plain_response read = no_response;
    if (!is_served(command))
        return 4;
    size_t length = payload(in, n);
    if (length == 0)
        return 1;
    if (!scan(in + 4, length, (struct places){3, 2}, &s))
        return 2;
    const struct item *o = s.outer;
    if (!s.is_map || !fits(&o[1], UINT32_MAX) || !fits(&o[2], 14) || !is_status(o[2].argument))
        return 3;
    bool wanted = has_result(command, o[2].argument);
    if (o[3].kind != (wanted ? MAP : NONE) || (wanted && !read_result(command, s.inner, s.phases, &read)))
        return 3;
    read.id = o[1].argument;
    read.status = o[2].argument;
    read.has_result = wanted;
    *r = read;
    return 0;
}

static bool response_in_range(uint64_t command, const struct plain_response *r)
{
    if (r->id > UINT32_MAX || !is_status(r->status) || r->has_result != has_result(command, r->status))
        return false;
    if (!r->has_result)
        return true;
    if (command == 1 && (r->state > 4 || r->reason < -1 || r->reason > 4))
        return false;
    if (command != 1 && !r->applied)
        return false;
    if (command == 5)
        return r->current[0] >= -1 && r->current[1] >= -1 && r->current[2] >= -1;
    return !sets_power(command) || (r->value[0] >= -1 && r->value[1] >= -1);
}

/* Writes a response that is in range at frame, with room for the longest; its length. */
static inline size_t encode_response(uint8_t *frame, uint64_t command, const struct plain_response *r)
{
    uint8_t *to = frame + 4;
    *to++ = r->has_result ? 0xa3 : 0xa2;
    *to++ = 1;
    to = put(to, 0, r->id);
    *to++ = 2;
    *to++ = (uint8_t)r->status;
    if (!r->has_result)
        return close_frame(frame, to);
    *to++ = 3;
    unsigned entries = 1, key = 2;
    if (command == 1)
        entries += 1 + (r->reason >= 0), key = 3;
    if (sets_power(command))
        entries += (r->value[0] >= 0) + (r->value[1] >= 0);
    *to++ = (uint8_t)(0xa0 | (entries + (command == 5)));
    *to++ = 1;
    to = put_bool(to, r->applied);
    if (command == 1) {
        *to++ = 2;
        *to++ = (uint8_t)r->state;
    }
    if (sets_power(command))
        for (unsigned i = 0; i < 2; i++)
            to = put_value(to, key + i, r->value[i]);
    if (command == 1 && r->reason >= 0) {
        *to++ = 5;
        *to++ = (uint8_t)r->reason;
    }
    if (command == 5) {
        *to++ = 2;
        *to++ = (uint8_t)(0xa0 | ((r->current[0] >= 0) + (r->current[1] >= 0) + (r->current[2] >= 0)));
        for (unsigned i = 0; i < PLAIN_PHASES; i++)
            to = put_value(to, i, r->current[i]);
    }
    return close_frame(frame, to);
}

struct plain_written plain_write_response(uint64_t command, const struct plain_response *r, uint8_t *out, size_t room)
{
    uint8_t frame[PLAIN_RESPONSE_MAX];
    if (!is_served(command))
        return (struct plain_written){4, 0};
    if (!response_in_range(command, r))
        return (struct plain_written){3, 0};
    size_t length = encode_response(frame, command, r);
    if (!put_frame(frame, length, out, room))
        return (struct plain_written){15, 0};
    return (struct plain_written){0, length};
}

/* ---- the device ---- */

static bool in_range(const struct plain_settings *s)
{
    if (s->directions > 2 || s->minimum > PLAIN_LARGEST || s->duration < 7200 || s->duration > 86400)
        return false;
    if (s->phases < 1 || s->phases > PLAIN_PHASES)
        return false;
    for (unsigned i = 0; i < 2; i++)
        if (s->failsafe[i] > PLAIN_LARGEST || (s->has_maximum[i] && s->maximum[i] > PLAIN_LARGEST))
            return false;
    return !s->has_maximum[0] || s->maximum[0] >= s->minimum;
}

uint64_t plain_start(struct plain *d, const struct plain_settings *s)
{
    memset(d, 0, sizeof *d);
    if (!in_range(s)) {
        d->settings.duration = 7200;
        d->settings.phases = 1;
        return 16;
    }
    d->settings = *s;
    return 0;
}

static bool late(const struct plain *d, uint64_t time)
{
    return time < d->clock || time > PLAIN_LAST_SECOND;
}

static bool supports(const struct plain *d, uint64_t direction)
{
    return d->settings.directions == 2 || d->settings.directions == direction;
}

static struct plain_zone *find(struct plain *d, uint64_t zone)
{
    if (zone == 0)
        return NULL;
    for (unsigned i = 0; i < PLAIN_ZONES; i++)
        if (d->zones[i].id == zone)
            return &d->zones[i];
    return NULL;
}

/* A link went away at time: if it was the last, the failsafe row begins. */
static void one_down(struct plain *d, uint64_t time)
{
    if (--d->up == 0)
        d->since = time;
}

uint64_t plain_join(struct plain *d, uint64_t zone, uint64_t rank, uint64_t time)
{
    if (late(d, time))
        return 5;
    if (zone < 1 || zone > 255 || rank < 1 || rank > PLAIN_RANKS)
        return 6;
    struct plain_zone *open = NULL;
    for (unsigned i = 0; i < PLAIN_ZONES; i++) {
        if (d->zones[i].id == zone)
            return 7;
        if (open == NULL && d->zones[i].id == 0)
            open = &d->zones[i];
    }
    if (open == NULL)
        return 8;
    open->id = (uint16_t)zone; /* a free slot is all zero */
    open->rank = (uint8_t)rank;
    open->up = true;
    d->joined++;
    d->up++;
    d->clock = time;
    return 0;
}

uint64_t plain_leave(struct plain *d, uint64_t zone, uint64_t time)
{
    if (late(d, time))
        return 5;
    struct plain_zone *z = find(d, zone);
    if (z == NULL)
        return 9;
    if (z->up)
        one_down(d, time);
    memset(z, 0, sizeof *z);
    d->joined--;
    d->clock = time;
    return 0;
}

uint64_t plain_lost(struct plain *d, uint64_t zone, uint64_t time)
{
    if (late(d, time))
        return 5;
    struct plain_zone *z = find(d, zone);
    if (z == NULL)
        return 9;
    if (!z->up)
        return 7;
    z->up = false;
    one_down(d, time);
    d->clock = time;
    return 0;
}

uint64_t plain_back(struct plain *d, uint64_t zone, uint64_t time)
{
    if (late(d, time))
        return 5;
    struct plain_zone *z = find(d, zone);
    if (z == NULL)
        return 9;
    if (z->up)
        return 7;
    z->up = true;
    d->up++;
    d->clock = time;
    return 0;
}

uint64_t plain_override(struct plain *d, uint64_t reason, uint64_t direction, uint64_t time)
{
    if (late(d, time))
        return 5;
    if (reason > 4 || direction > 1)
        return 18;
    if (reason != 2 && direction != (reason == 4))
        return 18;
    if (reason > 2 && !d->settings.manager)
        return 18;
    d->overridden = true;
    d->clock = time;
    return 0;
}

uint64_t plain_clear(struct plain *d, uint64_t time)
{
    if (late(d, time))
        return 5;
    if (!d->overridden)
        return 7;
    d->overridden = false;
    d->clock = time;
    return 0;
}

uint64_t plain_move(struct plain *d, uint64_t time)
{
    if (late(d, time))
        return 5;
    d->clock = time;
    return 0;
}

/* ---- what holds at a second ---- */

/* The limits of power and of current, by their place among the held values. */
enum { LOWS = PLAIN_HELDS - 2 };

static inline unsigned low_at(unsigned i)
{
    return i < 2 ? i : i + 2;
}

static inline uint64_t least(uint64_t a, uint64_t b)
{
    return a < b ? a : b;
}

/* The next second at which a limit or a current, or a setpoint, expires. */
struct next {
    uint64_t lows, leads;
};

/* Limits and currents: the smallest unexpired. Setpoints: the best rank's, then the smaller id's. Commands in an unsupported
   direction are refused, so no zone holds a value there. */
static inline struct next zones_hold(const struct plain *d, uint64_t time, int64_t *v)
{
    uint64_t low[LOWS], lead[2] = {FOREVER, FOREVER};
    unsigned best[2] = {~0u, ~0u};
    struct next next = {FOREVER, FOREVER};
    for (unsigned i = 0; i < LOWS; i++)
        low[i] = FOREVER;
    for (const struct plain_zone *z = d->zones; z < d->zones + PLAIN_ZONES; z++) {
        if (z->id == 0)
            continue;
        unsigned order = (unsigned)z->rank << 8 | z->id;
        for (unsigned i = 0; i < LOWS; i++) {
            const struct plain_held *l = &z->held[low_at(i)];
            if (time < l->until) {
                if (l->value < low[i])
                    low[i] = l->value;
                if (l->until < next.lows)
                    next.lows = l->until;
            }
        }
        for (unsigned i = 0; i < 2; i++) {
            const struct plain_held *s = &z->held[2 + i];
            if (time < s->until) {
                if (order < best[i]) {
                    best[i] = order;
                    lead[i] = s->value;
                }
                if (s->until < next.leads)
                    next.leads = s->until;
            }
        }
    }
    for (unsigned i = 0; i < LOWS; i++)
        v[1 + low_at(i)] = (int64_t)low[i];
    for (unsigned i = 0; i < 2; i++)
        v[3 + i] = (int64_t)lead[i];
    return next;
}

/* The eleven values at a second, and the next second at which they may change. */
static inline uint64_t values(const struct plain *d, uint64_t time, int64_t *v)
{
    uint64_t end = d->since + d->settings.duration;
    if (d->up > 0) {
        struct next next = zones_hold(d, time, v);
        v[0] = d->overridden ? 4 : v[1] >= 0 || v[2] >= 0 ? 2 : 1;
        return least(next.lows, next.leads);
    }
    if (d->joined > 0 && time < end) {
        struct next next = zones_hold(d, time, v);
        v[0] = 3;
        v[3] = v[4] = -1;
        for (unsigned i = 0; i < 2; i++)
            if (supports(d, i))
                v[1 + i] = (int64_t)least((uint64_t)v[1 + i], d->settings.failsafe[i]);
        return least(next.lows, end);
    }
    v[0] = d->overridden ? 4 : 0;
    for (unsigned i = 1; i < PLAIN_VALUES; i++)
        v[i] = -1;
    return FOREVER;
}

struct plain_answer plain_ask(const struct plain *d)
{
    struct plain_answer a;
    values(d, d->clock, a.value);
    return a;
}

static bool same(const int64_t *a, const int64_t *b)
{
    int64_t differ = 0;
    for (unsigned i = 0; i < PLAIN_VALUES; i++)
        differ |= a[i] ^ b[i];
    return differ == 0;
}

/* Walks the expiries after time; writes rows where rows is not NULL; their count. */
static size_t walk(const struct plain *d, uint64_t time, int64_t *rows)
{
    int64_t now[PLAIN_VALUES], then[PLAIN_VALUES];
    size_t count = 0;
    uint64_t at = values(d, time, now);
    while (at <= PLAIN_LAST_SECOND) {
        uint64_t next = values(d, at, then);
        if (!same(now, then)) {
            if (rows != NULL) {
                rows[PLAIN_ROW * count] = (int64_t)at;
                memcpy(&rows[PLAIN_ROW * count + 1], then, sizeof then);
            }
            memcpy(now, then, sizeof now);
            count++;
        }
        at = next;
    }
    return count;
}

struct plain_written plain_plan(const struct plain *d, int64_t *rows, size_t room)
{
    if (room < PLAIN_ROW * PLAIN_ROWS && PLAIN_ROW * walk(d, d->clock, NULL) > room)
        return (struct plain_written){15, 0};
    return (struct plain_written){0, walk(d, d->clock, rows)};
}

/* The nearest second after one at which a held value or the failsafe ends, past the last where there is none: every end is looked
   at, whether it counts or not. */
static uint64_t next_end(const struct plain *d, uint64_t after)
{
    uint64_t next = FOREVER, end = d->since + d->settings.duration;
    for (const struct plain_zone *z = d->zones; z < d->zones + PLAIN_ZONES; z++)
        for (unsigned i = 0; z->id != 0 && i < PLAIN_HELDS; i++)
            if (z->held[i].until > after)
                next = least(next, z->held[i].until);
    return end > after ? least(next, end) : next;
}

/* The slow way to the row after a second: all values at each end, and at the second before it. */
static bool next_row(const struct plain *d, uint64_t after, struct plain_row *row)
{
    int64_t before[PLAIN_VALUES];
    for (uint64_t at = next_end(d, after); at <= PLAIN_LAST_SECOND; at = next_end(d, at)) {
        row->second = at;
        values(d, at, row->value);
        values(d, at - 1, before);
        if (!same(before, row->value))
            return true;
    }
    return false;
}

struct plain_written plain_plain_plan(const struct plain *d, struct plain_row *rows, size_t room)
{
    struct plain_row row = {.second = d->clock};
    size_t count = 0;
    while (next_row(d, row.second, &row))
        count++;
    if (count > room)
        return (struct plain_written){15, 0};
    row.second = d->clock;
    for (size_t i = 0; i < count; i++) {
        next_row(d, row.second, &row);
        rows[i] = row;
    }
    return (struct plain_written){0, count};
}

/* ---- commands ---- */

static bool names(const struct plain_request *r, unsigned direction)
{
    if (sets_power(r->command))
        return r->field[direction].kind != PLAIN_ABSENT;
    return (r->command == 5 || r->has_direction) && r->direction == direction;
}

static bool accepts(const struct plain_settings *s, uint64_t command)
{
    return command <= 2 ? s->accepts_limits : command <= 4 ? s->accepts_setpoints : s->accepts_currents;
}

/* Whether a Set command names something, all of it that is there, and no negative value. */
static bool is_sound(const struct plain_settings *s, const struct plain_request *r)
{
    if (sets_power(r->command))
        return standing(r->field, 2) > 0 && r->field[0].value >= 0 && r->field[1].value >= 0;
    if (r->command != 5)
        return true;
    for (unsigned i = 0; i < PLAIN_PHASES; i++)
        if (r->phase[i].value < 0 || (r->phase[i].kind != PLAIN_ABSENT && i >= s->phases))
            return false;
    return standing(r->phase, PLAIN_PHASES) > 0;
}

static uint64_t judge(const struct plain *d, const struct plain_zone *z, const struct plain_request *r)
{
    const struct plain_settings *s = &d->settings;
    if (z == NULL)
        return 9;
    if (!z->up)
        return 10;
    if (!accepts(s, r->command))
        return 11;
    for (unsigned i = 0; i < 2; i++)
        if (names(r, i) && !supports(d, i))
            return 11;
    if ((r->command == 1 || r->command == 5) && d->overridden)
        return 12;
    if (!is_sound(s, r))
        return 13;
    /* 0 means off, and is never too low. */
    if (r->command == 1 && r->field[0].kind == PLAIN_NUMBER && r->field[0].value != 0
        && (uint64_t)r->field[0].value < s->minimum)
        return 14;
    return 0;
}

/* Stores a field of a Set command, no more than this; whether it was capped. */
static inline bool store(struct plain_held *h, const struct plain_field *f, uint64_t most, uint64_t until)
{
    if (f->kind == PLAIN_ABSENT)
        return false;
    if (f->kind == PLAIN_NULL) {
        *h = (struct plain_held){0, 0};
        return false;
    }
    uint64_t value = (uint64_t)f->value;
    *h = (struct plain_held){least(value, most), until};
    return value > most;
}

/* Seconds after which a setpoint ends whose duration was left out. */
enum { FORGOTTEN = 3600 };

/* The second at which what a Set command sets ends. */
static uint64_t end_of(const struct plain_request *r, uint64_t time)
{
    if (r->duration != 0)
        return time + r->duration;
    return r->command == 3 && r->omitted ? time + FORGOTTEN : FOREVER;
}

/* Applies an accepted command to its zone; whether a limit was capped. */
static bool apply(const struct plain *d, struct plain_held *held, const struct plain_request *r, uint64_t time)
{
    const struct plain_settings *s = &d->settings;
    bool capped = false;
    if (!sets_power(r->command) && r->command != 5) {
        struct plain_held *h = &held[r->command - 2];
        for (unsigned i = 0; i < (r->command == 6 ? 2 * PLAIN_PHASES : 2); i++)
            if (!r->has_direction || r->direction == i % 2)
                h[i] = (struct plain_held){0, 0};
        return false;
    }
    uint64_t until = end_of(r, time);
    if (r->command == 5) {
        for (unsigned i = 0; i < PLAIN_PHASES; i++)
            store(&held[4 + 2 * i + r->direction], &r->phase[i], FOREVER, until);
        return false;
    }
    for (unsigned i = 0; i < 2; i++) {
        uint64_t most = r->command == 1 && s->has_maximum[i] ? s->maximum[i] : FOREVER;
        capped |= store(&held[r->command - 1 + i], &r->field[i], most, until);
    }
    return capped;
}

static int64_t reject_reason(uint64_t number)
{
    return number == 11 ? 4 : number == 12 ? 3 : number == 13 ? 2 : 0;
}

/* Writes a response if it has room: its length, or 0. */
static size_t respond(uint64_t command, const struct plain_response *r, uint8_t *out, size_t room)
{
    if (room >= PLAIN_RESPONSE_MAX)
        return encode_response(out, command, r);
    uint8_t frame[PLAIN_RESPONSE_MAX];
    size_t length = encode_response(frame, command, r);
    return put_frame(frame, length, out, room) ? length : 0;
}

static void take_values(struct plain_response *p, const struct plain_request *r, const int64_t *v)
{
    if (r->command == 5) {
        for (unsigned i = 0; i < PLAIN_PHASES; i++)
            p->current[i] = v[5 + 2 * i + r->direction];
        return;
    }
    p->state = (uint64_t)v[0];
    p->value[0] = v[r->command];
    p->value[1] = v[r->command + 1];
}

struct plain_written plain_frame(struct plain *d, uint64_t zone, uint64_t time, const uint8_t *in, size_t n, uint8_t *out,
                                 size_t room)
{
    struct plain_request r;
    int64_t v[PLAIN_VALUES];
    uint64_t number = read_request(in, n, &r);
    if (number >= 1 && number <= 3)
        return (struct plain_written){number, 0};
    struct plain_zone *z = NULL;
    if (number == 0)
        number = late(d, time) ? 5 : judge(d, z = find(d, zone), &r);
    struct plain_response p = {r.id, number, false, false, 0, {-1, -1}, -1, {-1, -1, -1}};
    if (number != 0) {
        if (r.command == 1 && number >= 11) {
            values(d, time, v);
            p.has_result = true;
            p.reason = reject_reason(number);
            take_values(&p, &r, v);
        }
        return (struct plain_written){number, respond(r.command, &p, out, room)};
    }
    /* The response shows the command's own effect, so it is stored first and put back if the response has no room. */
    struct plain_zone before;
    if (room < PLAIN_RESPONSE_MAX)
        before = *z;
    p.has_result = p.applied = true;
    if (apply(d, z->held, &r, time))
        p.reason = 1;
    if (sets_power(r.command) || r.command == 5) {
        values(d, time, v);
        take_values(&p, &r, v);
    }
    size_t length = respond(r.command, &p, out, room);
    if (length == 0) {
        *z = before;
        return (struct plain_written){15, 0};
    }
    d->clock = time;
    return (struct plain_written){0, length};
}

/* ---- conformance ---- */

enum { CORE = 1, FLEX = 2, BATTERY = 4, EMOB = 8, PROCESS = 128, FORECAST = 256, ASYMMETRIC = 512, V2X = 1024 };

/* Document 003 section 2.3 by endpoint type; types 8, 9 and 10 have no row. */
static const struct {
    uint16_t required, invalid;
} types[11] = {
    {0, 2047},
    {CORE, BATTERY | EMOB | V2X | FLEX | PROCESS},
    {CORE, BATTERY | EMOB | V2X},
    {CORE, BATTERY | EMOB | V2X | FLEX | PROCESS},
    {CORE | BATTERY, EMOB | V2X},
    {CORE | EMOB, BATTERY},
    {CORE, BATTERY | EMOB | V2X},
    {CORE, BATTERY | EMOB | V2X},
};

enum condition {
    OPTIONAL,
    ALWAYS,
    IF_V2X,
    IF_PROCESS,
    IF_LIMITS,
    IF_LIMITS_PRODUCTION,
    IF_ASYMMETRIC_CURRENT,
    IF_ASYMMETRIC_BOTH,
    IF_SETPOINTS,
    IF_SETPOINTS_PRODUCTION,
    IF_FLEX,
    IF_FORECAST,
    IF_PRODUCTION,
    IF_PROCESS_STATE
};

/* Document 003 section 3.3. */
static const struct {
    uint8_t number, condition;
} attributes_table[33] = {
    {1, ALWAYS},
    {2, ALWAYS},
    {3, OPTIONAL},
    {10, ALWAYS},
    {11, ALWAYS},
    {12, ALWAYS},
    {13, IF_V2X},
    {14, ALWAYS},
    {15, OPTIONAL},
    {16, IF_PROCESS},
    {20, IF_LIMITS},
    {21, IF_LIMITS},
    {22, IF_LIMITS_PRODUCTION},
    {23, IF_LIMITS_PRODUCTION},
    {30, IF_ASYMMETRIC_CURRENT},
    {31, IF_ASYMMETRIC_CURRENT},
    {32, IF_ASYMMETRIC_BOTH},
    {33, IF_ASYMMETRIC_BOTH},
    {40, IF_SETPOINTS},
    {41, IF_SETPOINTS},
    {42, IF_SETPOINTS_PRODUCTION},
    {43, IF_SETPOINTS_PRODUCTION},
    {50, IF_V2X},
    {51, IF_V2X},
    {52, IF_V2X},
    {53, IF_V2X},
    {60, IF_FLEX},
    {61, IF_FORECAST},
    {70, ALWAYS},
    {71, IF_PRODUCTION},
    {72, ALWAYS},
    {80, IF_PROCESS},
    {81, IF_PROCESS_STATE},
};

static bool mandatory(enum condition c, const struct plain_inputs *in)
{
    switch (c) {
    case OPTIONAL:
        return false;
    case ALWAYS:
        return true;
    case IF_V2X:
        return in->map & V2X;
    case IF_PROCESS:
        return in->map & PROCESS;
    case IF_LIMITS:
        return in->limits;
    case IF_LIMITS_PRODUCTION:
        return in->limits && in->directions != 0;
    case IF_ASYMMETRIC_CURRENT:
        return (in->map & ASYMMETRIC) && in->current;
    case IF_ASYMMETRIC_BOTH:
        return (in->map & ASYMMETRIC) && in->directions == 2;
    case IF_SETPOINTS:
        return in->setpoints;
    case IF_SETPOINTS_PRODUCTION:
        return in->setpoints && in->directions != 0;
    case IF_FLEX:
        return in->map & FLEX;
    case IF_FORECAST:
        return in->map & FORECAST;
    case IF_PRODUCTION:
        return in->directions != 0;
    case IF_PROCESS_STATE:
        return (in->map & PROCESS) && in->process;
    }
    return false;
}

struct pairs {
    uint8_t group[PLAIN_PAIRS], number[PLAIN_PAIRS];
    size_t count;
};

static void add(struct pairs *p, bool breach, unsigned group, unsigned number)
{
    if (!breach)
        return;
    p->group[p->count] = (uint8_t)group;
    p->number[p->count++] = (uint8_t)number;
}

static void add_attributes(struct pairs *p, const struct plain_inputs *in, const uint16_t *attributes, size_t n)
{
    size_t at = 0;
    for (unsigned i = 0; i < 33; i++) {
        unsigned number = attributes_table[i].number;
        while (at < n && attributes[at] < number)
            at++;
        bool listed = at < n && attributes[at] == number;
        add(p, !listed && mandatory(attributes_table[i].condition, in), 6, number);
    }
}

struct plain_written plain_report(const struct plain_inputs *in, const uint16_t *attributes, size_t n, uint64_t *pairs,
                                  size_t room)
{
    struct pairs p;
    p.count = 0;
    if (in->type > 10 || in->map > 2047 || in->phases < 1 || in->phases > 3 || in->directions > 2)
        return (struct plain_written){16, 0};
    for (size_t i = 1; i < n; i++)
        if (attributes[i] <= attributes[i - 1])
            return (struct plain_written){17, 0};
    for (unsigned bit = 1; bit <= 10; bit++)
        add(&p, (in->map >> bit & 1) && !(in->map & (bit == 10 ? EMOB : CORE)), 1, bit);
    add(&p, (in->map & BATTERY) && (in->map & EMOB), 2, 2);
    add(&p, (in->map & ASYMMETRIC) && in->phases == 1, 3, 9);
    add(&p, (in->map & V2X) && in->directions != 2, 3, 10);
    for (unsigned bit = 0; bit <= 10; bit++)
        add(&p, types[in->type].required >> bit & 1 && !(in->map >> bit & 1), 4, bit);
    for (unsigned bit = 0; bit <= 10; bit++)
        add(&p, types[in->type].invalid >> bit & 1 && (in->map >> bit & 1), 5, bit);
    if (in->type != 0)
        add_attributes(&p, in, attributes, n);
    if (2 * p.count > room)
        return (struct plain_written){15, 0};
    for (size_t i = 0; i < p.count; i++) {
        pairs[2 * i] = p.group[i];
        pairs[2 * i + 1] = p.number[i];
    }
    return (struct plain_written){0, p.count};
}

/* ---- frames that come in scraps ---- */

static bool is_open(const struct plain_receiver *r)
{
    if (r->closed != 0)
        return false;
    if (r->need == 0)
        return r->have < 4;
    return r->have >= 4 && r->have < r->need && r->need <= PLAIN_FRAME_MAX;
}

/* The prefix, part of which may stand in the room already. */
static size_t prefix(const struct plain_receiver *r, const uint8_t *room, const uint8_t *scrap)
{
    size_t length = 0;
    for (size_t i = 0; i < 4; i++)
        length = length << 8 | (i < r->have ? room[i] : scrap[i - r->have]);
    return length;
}

struct plain_received plain_receive(struct plain_receiver *r, uint8_t *room, size_t room_length, const uint8_t *scrap, size_t n)
{
    if (room_length < PLAIN_FRAME_MAX)
        return (struct plain_received){15, 0, 0};
    if (!is_open(r))
        return (struct plain_received){1, 0, 0};
    if (r->need == 0 && n >= 4 - r->have) {
        size_t length = prefix(r, room, scrap);
        if (length == 0 || length > PLAIN_FRAME_MAX - 4) {
            *r = (struct plain_receiver){0, 0, 1};
            return (struct plain_received){1, 0, 0};
        }
        r->need = 4 + length;
    }
    size_t left = r->need == 0 ? n : r->need - r->have, taken = n < left ? n : left;
    memcpy(room + r->have, scrap, taken);
    r->have += taken;
    if (r->have != r->need)
        return (struct plain_received){0, taken, 0};
    uint64_t length = r->need;
    if (length != 0)
        *r = (struct plain_receiver){0, 0, 0};
    return (struct plain_received){0, taken, length};
}

/* ---- what is measured ---- */

/* A natural number up to high, or -1 - n with n below `below`. */
struct range {
    uint64_t below, high;
};

enum type { INT64, UINT64, UINT32, INT16, FACTOR, PERCENT };

static const struct range type_ranges[] = {
    [INT64] = {UINT64_C(1) << 63, INT64_MAX},
    [UINT64] = {0, UINT64_MAX},
    [UINT32] = {0, UINT32_MAX},
    [INT16] = {32768, 32767},
    [FACTOR] = {1000, 1000},
    [PERCENT] = {0, 100},
};

/* Document 002: number, cells, type. */
static const struct measured {
    uint8_t number, cells, type;
} measured[] = {
    {1, 1, INT64},    /* acActivePower */
    {2, 1, INT64},    /* acReactivePower */
    {3, 1, UINT64},   /* acApparentPower */
    {10, 3, INT64},   /* acActivePowerPerPhase */
    {11, 3, INT64},   /* acReactivePowerPerPhase */
    {12, 3, INT64},   /* acApparentPowerPerPhase */
    {20, 3, INT64},   /* acCurrentPerPhase */
    {21, 3, UINT32},  /* acVoltagePerPhase */
    {22, 3, UINT32},  /* acVoltagePhaseToPhasePair */
    {23, 1, UINT32},  /* acFrequency */
    {24, 1, FACTOR},  /* powerFactor */
    {30, 1, UINT64},  /* acEnergyConsumed */
    {31, 1, UINT64},  /* acEnergyProduced */
    {40, 1, INT64},   /* dcPower */
    {41, 1, INT64},   /* dcCurrent */
    {42, 1, UINT32},  /* dcVoltage */
    {43, 1, UINT64},  /* dcEnergyIn */
    {44, 1, UINT64},  /* dcEnergyOut */
    {50, 1, PERCENT}, /* stateOfCharge */
    {51, 1, PERCENT}, /* stateOfHealth */
    {52, 1, UINT64},  /* stateOfEnergy */
    {53, 1, UINT64},  /* useableCapacity */
    {54, 1, UINT32},  /* cycleCount */
    {60, 1, INT16},   /* temperature */
};

static const struct measured *const measured_end = measured + sizeof measured / sizeof *measured;

/* The cells of attributes 1, 10 and 40. */
enum { POWER_CELL = 0, PHASE_CELL = 3, DC_CELL = 25 };

static bool cell_fits(const struct plain_cell *c, const struct range *r)
{
    switch (c->mark) {
    case 0:
        return true;
    case 1:
        return c->size <= r->high;
    case 2:
        return c->size < r->below;
    default:
        return false;
    }
}

/* A number of a range at p, in a payload that was scanned: what follows it, or NULL. */
static const uint8_t *read_cell(const uint8_t *p, const uint8_t *end, const struct range *r, struct plain_cell *to)
{
    unsigned kind;
    p = head(p, end, &kind, &to->size);
    to->mark = kind;
    return kind <= NEGATIVE && cell_fits(to, r) ? p : NULL;
}

/* A map of phases at p, which is not empty: what follows it, or NULL. */
static const uint8_t *read_phases(const uint8_t *p, const uint8_t *end, const struct range *r, struct plain_cell *to)
{
    unsigned kind;
    uint64_t left, phase;
    p = head(p, end, &kind, &left);
    if (kind != MAP || left == 0)
        return NULL;
    for (; left > 0 && p != NULL; left--) {
        p = head(p, end, &kind, &phase);
        p = phase < PLAIN_PHASES ? read_cell(p, end, r, &to[phase]) : NULL;
    }
    return p;
}

/* What follows the item at p, in a payload that was scanned. */
static const uint8_t *skip(const uint8_t *p, const uint8_t *end)
{
    unsigned kind;
    uint64_t argument;
    for (uint64_t items = 1; items > 0; items--) {
        p = head(p, end, &kind, &argument);
        if (kind == BYTES || kind == TEXT)
            p += argument;
        else if (kind == ARRAY || kind == MAP)
            items += kind == MAP ? 2 * argument : argument;
    }
    return p;
}

/* The entries of the map at p beside the table: both ascend. */
static bool read_attributes(const uint8_t *p, const uint8_t *end, struct plain_cell *to)
{
    const struct measured *a = measured;
    unsigned kind;
    uint64_t left, key;
    p = head(p, end, &kind, &left);
    for (; left > 0 && p != NULL; left--) {
        p = head(p, end, &kind, &key);
        for (; a < measured_end && a->number < key; a++)
            to += a->cells;
        if (a == measured_end) /* no larger key is known */
            return true;
        if (a->number != key)
            p = skip(p, end);
        else
            p = (a->cells == 1 ? read_cell : read_phases)(p, end, &type_ranges[a->type], to);
    }
    return p != NULL;
}

uint64_t plain_read_measurement(const uint8_t *in, size_t n, struct plain_measurement *m)
{
    struct scan s;
    struct plain_measurement read = {0};
    if (n < 1 || n > PLAIN_FRAME_MAX - 4)
        return 1;
    if (!scan(in, n, (struct places){0, 0}, &s))
        return 2;
    if (!s.is_map || !read_attributes(in, in + n, read.cell))
        return 3;
    *m = read;
    return 0;
}

/* How many of an attribute's cells are there; more than there are where one is out of range. */
static unsigned cells_there(const struct measured *a, const struct plain_cell *c)
{
    unsigned there = 0;
    for (unsigned i = 0; i < a->cells; i++) {
        if (!cell_fits(&c[i], &type_ranges[a->type]))
            return PLAIN_CELLS;
        there += c[i].mark != 0;
    }
    return there;
}

static uint8_t *put_cell(uint8_t *to, unsigned key, const struct plain_cell *c)
{
    if (c->mark == 0)
        return to;
    return put(put(to, 0, key), c->mark == 2 ? 1 : 0, c->size);
}

static uint8_t *put_attribute(uint8_t *to, const struct measured *a, const struct plain_cell *c)
{
    unsigned there = cells_there(a, c);
    if (there == 0)
        return to;
    if (a->cells == 1)
        return put_cell(to, a->number, c);
    to = put(put(to, 0, a->number), 5, there);
    for (unsigned i = 0; i < a->cells; i++)
        to = put_cell(to, i, &c[i]);
    return to;
}

struct plain_written plain_write_measurement(const struct plain_measurement *m, uint8_t *out, size_t room)
{
    uint8_t payload[PLAIN_MEASUREMENT_MAX];
    const struct plain_cell *c = m->cell;
    unsigned entries = 0;
    for (const struct measured *a = measured; a < measured_end; c += a->cells, a++) {
        unsigned there = cells_there(a, c);
        if (there > a->cells)
            return (struct plain_written){3, 0};
        entries += there > 0;
    }
    uint8_t *to = put(payload, 5, entries);
    c = m->cell;
    for (const struct measured *a = measured; a < measured_end; c += a->cells, a++)
        to = put_attribute(to, a, c);
    size_t length = (size_t)(to - payload);
    return put_frame(payload, length, out, room) ? (struct plain_written){0, length} : (struct plain_written){15, 0};
}

/* The load convention: positive flows in, negative flows out. */
static uint64_t flow_of(const struct plain_cell *c)
{
    if (c->mark == 1)
        return c->size == 0 ? PLAIN_FLOW_NONE : PLAIN_FLOW_IN;
    return c->mark == 2 ? PLAIN_FLOW_OUT : PLAIN_FLOW_ABSENT;
}

uint64_t plain_power_flow(const struct plain_measurement *m)
{
    return flow_of(&m->cell[POWER_CELL]);
}

uint64_t plain_dc_flow(const struct plain_measurement *m)
{
    return flow_of(&m->cell[DC_CELL]);
}

uint64_t plain_phase_flow(const struct plain_measurement *m, uint64_t phase)
{
    return phase < PLAIN_PHASES ? flow_of(&m->cell[PHASE_CELL + phase]) : PLAIN_FLOW_ABSENT;
}

/* ---- a tick counter ---- */

struct plain_second plain_tick(struct plain_front *f, uint32_t tick)
{
    if (!f->begun) {
        *f = (struct plain_front){true, tick, 0, 0};
        return (struct plain_second){0, 0};
    }
    uint32_t step = tick - f->last;
    uint64_t passed = (uint64_t)f->remainder + step;
    if (step >= 1u << 31 || f->seconds > PLAIN_LAST_SECOND || passed / 1000 > PLAIN_LAST_SECOND - f->seconds)
        return (struct plain_second){5, -1};
    *f = (struct plain_front){true, tick, (uint32_t)(passed % 1000), f->seconds + passed / 1000};
    return (struct plain_second){0, (int64_t)f->seconds};
}
