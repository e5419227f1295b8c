/* The proved kernel's exports as the second kernel of the harness. */
#include "cekarum.h"
#include "kernel.h"
#include <string.h>

/* A maximum that is told and is the largest number is out of range, as the number below it is; told alone it would be none. */
static uint64_t maximum(bool has, uint64_t value) { return !has ? CEKARUM_NONE : value == CEKARUM_NONE ? value - 1 : value; }

static uint64_t start(void *d, const struct plain_settings *s)
{
    struct cekarum_settings t = {.directions = s->directions,
                                 .accepts_limits = s->accepts_limits,
                                 .accepts_setpoints = s->accepts_setpoints,
                                 .minimum = s->minimum,
                                 .maximum = {maximum(s->has_maximum[0], s->maximum[0]), maximum(s->has_maximum[1], s->maximum[1])},
                                 .failsafe = {s->failsafe[0], s->failsafe[1]},
                                 .failsafe_duration = s->duration,
                                 .energy_manager = s->manager,
                                 .phases = s->phases,
                                 .accepts_current_limits = s->accepts_currents};
    return cekarum_start(d, t);
}

static uint64_t join(void *d, uint64_t zone, uint64_t rank, uint64_t time) { return cekarum_join(d, zone, rank, time); }
static uint64_t leave(void *d, uint64_t zone, uint64_t time) { return cekarum_leave(d, zone, time); }
static uint64_t lost(void *d, uint64_t zone, uint64_t time) { return cekarum_lost(d, zone, time); }
static uint64_t back(void *d, uint64_t zone, uint64_t time) { return cekarum_back(d, zone, time); }
static uint64_t clear(void *d, uint64_t time) { return cekarum_clear(d, time); }
static uint64_t move(void *d, uint64_t time) { return cekarum_move(d, time); }

static uint64_t override(void *d, uint64_t reason, uint64_t direction, uint64_t time)
{
    return cekarum_override(d, reason, direction, time);
}

static struct plain_answer ask(const void *d)
{
    struct cekarum_answer a = cekarum_ask(d);
    struct plain_answer b;
    for (unsigned i = 0; i < PLAIN_VALUES; i++)
        b.value[i] = a.values[i];
    return b;
}

static struct plain_written written(struct cekarum_written w)
{
    return (struct plain_written){w.number, w.length};
}

static struct plain_written frame(void *d, uint64_t zone, uint64_t time, const uint8_t *in, size_t n, uint8_t *out, size_t room)
{
    return written(cekarum_frame(d, zone, time, in, n, out, room));
}

static struct plain_written plan(const void *d, int64_t *rows, size_t room)
{
    return written(cekarum_plan(d, rows, room));
}

/* Field by field, so that a field under another's name shows. */
static struct cekarum_row named(const struct plain_row *r)
{
    const int64_t *v = r->value;
    return (struct cekarum_row){.second = r->second,
                                .state = v[0],
                                .limit_consumption = v[1],
                                .limit_production = v[2],
                                .setpoint_consumption = v[3],
                                .setpoint_production = v[4],
                                .a_consumption = v[5],
                                .a_production = v[6],
                                .b_consumption = v[7],
                                .b_production = v[8],
                                .c_consumption = v[9],
                                .c_production = v[10]};
}

static struct plain_row numbered(const struct cekarum_row *r)
{
    return (struct plain_row){r->second,
                              {r->state, r->limit_consumption, r->limit_production, r->setpoint_consumption, r->setpoint_production,
                               r->a_consumption, r->a_production, r->b_consumption, r->b_production, r->c_consumption,
                               r->c_production}};
}

/* The records past the room are lent too, and must come back as they were. */
static struct plain_written records(const void *d, struct plain_row *rows, size_t room)
{
    struct cekarum_row lent[PLAIN_RECORDS];
    for (size_t i = 0; i < PLAIN_RECORDS; i++)
        lent[i] = named(&rows[i]);
    struct plain_written w = written(cekarum_plain_plan(d, lent, room));
    for (size_t i = 0; i < PLAIN_RECORDS; i++)
        rows[i] = numbered(&lent[i]);
    return w;
}

/* Words and values that a read is lent, filled as what the harness lends; room for those of each read. */
struct lent {
    uint64_t words[CEKARUM_MEASUREMENT_WORDS];
    int64_t values[6];
};

static struct lent filled(const void *as)
{
    struct lent lent;
    memset(&lent, *(const uint8_t *)as, sizeof lent);
    return lent;
}

static bool is_left(const struct lent *lent, const void *as)
{
    struct lent before = filled(as);
    return memcmp(lent, &before, sizeof before) == 0;
}

/* Read through the struct, and over lent words through the export beneath it. At a refusal all of the struct is 0 and the words
   are left; where one of both is not so, r gets what the struct has, and the harness sees it. */
static uint64_t read_request(const uint8_t *in, size_t n, struct plain_request *r)
{
    static const struct plain_request nothing;
    struct lent lent = filled(r);
    uint64_t number = cekarum_interface_2_read_request(in, n, lent.words, lent.values);
    struct cekarum_request_read got = cekarum_read_request(in, n);
    struct cekarum_request q = got.request;
    struct plain_request read = {.id = q.id,
                                 .endpoint = q.endpoint,
                                 .feature = q.feature,
                                 .command = q.command,
                                 .field = {{q.consumption.kind, q.consumption.value}, {q.production.kind, q.production.value}},
                                 .duration = q.duration,
                                 .cause = q.cause,
                                 .has_direction = q.directed,
                                 .direction = q.direction,
                                 .omitted = q.duration_omitted};
    for (unsigned i = 0; i < PLAIN_PHASES; i++)
        read.phase[i] = (struct plain_field){q.phases[i].kind, q.phases[i].value};
    if (number == 0 || number != got.number || !is_left(&lent, r) || !same_request(&read, &nothing))
        *r = read;
    return got.number;
}

static struct plain_written write_request(const struct plain_request *r, uint8_t *out, size_t room)
{
    struct cekarum_request q = {.id = r->id,
                                .endpoint = r->endpoint,
                                .feature = r->feature,
                                .command = r->command,
                                .consumption = {r->field[0].kind, r->field[0].value},
                                .production = {r->field[1].kind, r->field[1].value},
                                .duration = r->duration,
                                .cause = r->cause,
                                .directed = r->has_direction,
                                .direction = r->direction,
                                .duration_omitted = r->omitted};
    for (unsigned i = 0; i < PLAIN_PHASES; i++)
        q.phases[i] = (struct cekarum_field){r->phase[i].kind, r->phase[i].value};
    return written(cekarum_write_request(q, out, room));
}

static uint64_t read_response(uint64_t command, const uint8_t *in, size_t n, struct plain_response *r)
{
    static const struct plain_response nothing = {.value = {-1, -1}, .reason = -1, .current = {-1, -1, -1}};
    struct lent lent = filled(r);
    uint64_t number = cekarum_interface_2_read_response(command, in, n, lent.words, lent.values);
    struct cekarum_response_read got = cekarum_read_response(command, in, n);
    struct cekarum_response p = got.response;
    struct plain_response read = {.id = p.id,
                                  .status = p.status,
                                  .has_result = p.result,
                                  .applied = p.applied,
                                  .state = p.state,
                                  .value = {p.consumption, p.production},
                                  .reason = p.reason,
                                  .current = {p.currents[0], p.currents[1], p.currents[2]}};
    if (number == 0 || number != got.number || !is_left(&lent, r) || !same_response(&read, &nothing))
        *r = read;
    return got.number;
}

static struct plain_written write_response(uint64_t command, const struct plain_response *r, uint8_t *out, size_t room)
{
    struct cekarum_response p = {.id = r->id,
                                 .status = r->status,
                                 .result = r->has_result,
                                 .applied = r->applied,
                                 .state = r->state,
                                 .consumption = r->value[0],
                                 .production = r->value[1],
                                 .reason = r->reason,
                                 .currents = {r->current[0], r->current[1], r->current[2]}};
    return written(cekarum_write_response(command, p, out, room));
}

static struct plain_received receive(struct plain_receiver *r, uint8_t *room, size_t room_length, const uint8_t *scrap, size_t n)
{
    struct cekarum_receiver words = {{r->have, r->need, r->closed}};
    struct cekarum_received got = cekarum_receive(&words, room, room_length, scrap, n);
    *r = (struct plain_receiver){words.words[0], words.words[1], words.words[2]};
    return (struct plain_received){got.number, got.taken, got.length};
}

static struct plain_second tick(struct plain_front *f, uint32_t tick)
{
    struct cekarum_front words = {{f->begun, f->last, f->seconds, f->remainder}};
    struct cekarum_second got = cekarum_tick(&words, tick);
    *f = (struct plain_front){words.words[0] != 0, (uint32_t)words.words[1], (uint32_t)words.words[3], words.words[2]};
    return (struct plain_second){got.number, got.seconds};
}

static struct plain_written report(const struct plain_inputs *in, const uint16_t *attributes, size_t n, uint64_t *pairs,
                                   size_t room)
{
    struct cekarum_inputs i = {in->type,   in->map,     in->phases,    in->directions,
                               in->limits, in->current, in->setpoints, in->process};
    return written(cekarum_report(i, attributes, n, pairs, room));
}

/* Cells are two words each, as they are beneath the header. */
static void to_words(const struct plain_measurement *m, uint64_t *words)
{
    for (unsigned i = 0; i < PLAIN_CELLS; i++) {
        words[2 * i] = m->cell[i].mark;
        words[2 * i + 1] = m->cell[i].size;
    }
}

static void to_cells(const uint64_t *words, struct plain_measurement *m)
{
    for (unsigned i = 0; i < PLAIN_CELLS; i++)
        m->cell[i] = (struct plain_cell){words[2 * i], words[2 * i + 1]};
}

/* Whether the struct can say what the words say: not a mark that is none, nor a number that its field cannot hold. */
static bool named_measurement(const struct plain_measurement *m, struct cekarum_measurement *named)
{
    uint64_t words[CEKARUM_MEASUREMENT_WORDS], again[CEKARUM_MEASUREMENT_WORDS];
    to_words(m, words);
    cekarum_measurement_of(words, named);
    cekarum_measurement_words(named, again);
    for (unsigned i = 0; i < CEKARUM_MEASUREMENT_WORDS; i++)
        if (words[i] != again[i])
            return false;
    return true;
}

/* As a request is read; of nothing all words are 0. */
static uint64_t read_measurement(const uint8_t *in, size_t n, struct plain_measurement *m)
{
    static const uint64_t nothing[CEKARUM_MEASUREMENT_WORDS];
    struct lent lent = filled(m);
    uint64_t words[CEKARUM_MEASUREMENT_WORDS];
    uint64_t number = cekarum_interface_2_read_measurement(in, n, lent.words);
    struct cekarum_measurement_read got = cekarum_read_measurement(in, n);
    cekarum_measurement_words(&got.measurement, words);
    if (number == 0 || number != got.number || !is_left(&lent, m) || got.measurement.there != 0 ||
        memcmp(words, nothing, sizeof words) != 0)
        to_cells(words, m);
    return got.number;
}

static struct plain_written write_measurement(const struct plain_measurement *m, uint8_t *out, size_t room)
{
    struct cekarum_measurement named;
    if (named_measurement(m, &named))
        return written(cekarum_write_measurement(&named, out, room));
    uint64_t words[CEKARUM_MEASUREMENT_WORDS];
    struct plain_written w;
    to_words(m, words);
    w.number = cekarum_interface_2_write_measurement(words, out, room, &w.length);
    return w;
}

static uint64_t power_flow(const struct plain_measurement *m)
{
    struct cekarum_measurement named;
    uint64_t words[CEKARUM_MEASUREMENT_WORDS];
    to_words(m, words);
    return named_measurement(m, &named) ? cekarum_power_flow(&named) : cekarum_interface_2_power_flow(words);
}

static uint64_t dc_flow(const struct plain_measurement *m)
{
    struct cekarum_measurement named;
    uint64_t words[CEKARUM_MEASUREMENT_WORDS];
    to_words(m, words);
    return named_measurement(m, &named) ? cekarum_dc_flow(&named) : cekarum_interface_2_dc_flow(words);
}

static uint64_t phase_flow(const struct plain_measurement *m, uint64_t phase)
{
    struct cekarum_measurement named;
    uint64_t words[CEKARUM_MEASUREMENT_WORDS];
    to_words(m, words);
    return named_measurement(m, &named) ? cekarum_phase_flow(&named, phase) : cekarum_interface_2_phase_flow(words, phase);
}

const struct kernel second_kernel = {
    .name = "proved",
    .size = 8 * CEKARUM_WORDS,
    .start = start,
    .join = join,
    .leave = leave,
    .lost = lost,
    .back = back,
    .override = override,
    .clear = clear,
    .move = move,
    .frame = frame,
    .ask = ask,
    .plan = plan,
    .records = records,
    .read_request = read_request,
    .write_request = write_request,
    .read_response = read_response,
    .write_response = write_response,
    .receive = receive,
    .tick = tick,
    .report = report,
    .read_measurement = read_measurement,
    .write_measurement = write_measurement,
    .power_flow = power_flow,
    .dc_flow = dc_flow,
    .phase_flow = phase_flow,
};
