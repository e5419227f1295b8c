/* Document 01 in plain C: the yardstick that the proved kernel is compared with. No heap, no libc state. */
#ifndef PLAIN_H
#define PLAIN_H
#include <stdbool.h>
#include <stddef.h>
#include <stdint.h>

enum { PLAIN_ZONES = 8, PLAIN_RANKS = 3, PLAIN_PHASES = 3, PLAIN_ROWS = 80, PLAIN_PAIRS = 64 };

/* Values that a zone may hold, values of an answer (the control state first), numbers of a plan's row (the second first). */
enum { PLAIN_HELDS = 10, PLAIN_VALUES = 11, PLAIN_ROW = 12 };

/* The longest response and the longest request that a writer makes, prefix included. */
enum { PLAIN_RESPONSE_MAX = 49, PLAIN_REQUEST_MAX = 62, PLAIN_FRAME_MAX = 2052 };

#define PLAIN_LAST_SECOND ((UINT64_C(1) << 40) - 1)
#define PLAIN_LARGEST ((uint64_t)INT64_MAX)

struct plain_settings {
    uint64_t directions; /* 0 consumption, 1 production, 2 both */
    bool accepts_limits, accepts_setpoints;
    uint64_t minimum;
    bool has_maximum[2];
    uint64_t maximum[2];
    uint64_t failsafe[2];
    uint64_t duration;
    bool manager;
    uint64_t phases; /* 1 to 3 */
    bool accepts_currents;
};

struct plain_held {
    uint64_t value, until; /* holds while t < until; never set is {0, 0} */
};

/* held: two limits, two setpoints, then currents phase by phase; of each two consumption, then production */
struct plain_zone {
    uint16_t id; /* 0: a free slot */
    uint8_t rank;
    bool up;
    struct plain_held held[PLAIN_HELDS];
};

struct plain {
    struct plain_settings settings;
    uint64_t clock, since; /* since: the second since which no link is up */
    bool overridden;
    uint8_t joined, up; /* counts of zones */
    struct plain_zone zones[PLAIN_ZONES];
};

/* A refusal number and a length: bytes of a frame, rows of a plan, pairs of a report. */
struct plain_written {
    uint64_t number, length;
};

/* Values: control state, then as a zone holds them; -1 is absent. */
struct plain_answer {
    int64_t value[PLAIN_VALUES];
};

enum { PLAIN_ABSENT, PLAIN_NULL, PLAIN_NUMBER };

struct plain_field {
    uint64_t kind;
    int64_t value;
};

/* Commands 1 and 3 use field, duration and cause; 5 uses phase, direction, duration and cause; 2, 4 and 6 use direction (0, 1,
   or absent: has_direction false). omitted, of 3 alone, beside a duration of 0: none stands in the frame, and it ends. */
struct plain_request {
    uint64_t id, endpoint, feature, command;
    struct plain_field field[2];
    uint64_t duration, cause;
    bool has_direction;
    uint64_t direction;
    struct plain_field phase[PLAIN_PHASES];
    bool omitted;
};

/* value: limits or setpoints, current: by phase, -1 is absent; reason: -1 is absent. */
struct plain_response {
    uint64_t id, status;
    bool has_result, applied;
    uint64_t state;
    int64_t value[2], reason, current[PLAIN_PHASES];
};

struct plain_inputs {
    uint64_t type, map, phases, directions;
    bool limits, current, setpoints, process;
};

uint64_t plain_start(struct plain *d, const struct plain_settings *s);
uint64_t plain_join(struct plain *d, uint64_t zone, uint64_t rank, uint64_t time);
uint64_t plain_leave(struct plain *d, uint64_t zone, uint64_t time);
uint64_t plain_lost(struct plain *d, uint64_t zone, uint64_t time);
uint64_t plain_back(struct plain *d, uint64_t zone, uint64_t time);
uint64_t plain_override(struct plain *d, uint64_t reason, uint64_t direction, uint64_t time);
uint64_t plain_clear(struct plain *d, uint64_t time);
uint64_t plain_move(struct plain *d, uint64_t time);
struct plain_written plain_frame(struct plain *d, uint64_t zone, uint64_t time, const uint8_t *in, size_t n, uint8_t *out,
                                 size_t room);

/* At the device's own second; nothing moves. */
struct plain_answer plain_ask(const struct plain *d);
struct plain_written plain_plan(const struct plain *d, int64_t *rows, size_t room);

/* A row of a plan as a record; value: as an answer's. */
struct plain_row {
    uint64_t second;
    int64_t value[PLAIN_VALUES];
};

/* The plan made the slow way; room in records. */
struct plain_written plain_plain_plan(const struct plain *d, struct plain_row *rows, size_t room);

/* A refused read leaves what it is lent as it was. */
uint64_t plain_read_request(const uint8_t *in, size_t n, struct plain_request *r);
struct plain_written plain_write_request(const struct plain_request *r, uint8_t *out, size_t room);
uint64_t plain_read_response(uint64_t command, const uint8_t *in, size_t n, struct plain_response *r);
struct plain_written plain_write_response(uint64_t command, const struct plain_response *r, uint8_t *out, size_t room);

/* Frames that come in scraps: have bytes stand in the room, need in all once the prefix is whole. All zero to begin. */
struct plain_receiver {
    uint64_t have, need, closed;
};

struct plain_received {
    uint64_t number, taken, length;
};

struct plain_received plain_receive(struct plain_receiver *r, uint8_t *room, size_t room_length, const uint8_t *scrap, size_t n);

/* What is measured: cells in the order of document 002's attributes, three for a map of phases. The mark 0: nothing; 1: size;
   2: -1 - size. */
enum { PLAIN_CELLS = 36, PLAIN_MEASUREMENT_MAX = 326 };

struct plain_cell {
    uint64_t mark, size;
};

struct plain_measurement {
    struct plain_cell cell[PLAIN_CELLS];
};

enum { PLAIN_FLOW_ABSENT, PLAIN_FLOW_NONE, PLAIN_FLOW_IN, PLAIN_FLOW_OUT };

uint64_t plain_read_measurement(const uint8_t *in, size_t n, struct plain_measurement *m);
struct plain_written plain_write_measurement(const struct plain_measurement *m, uint8_t *out, size_t room);

/* The flow of attribute 1, of 40, and of a phase of 10. */
uint64_t plain_power_flow(const struct plain_measurement *m);
uint64_t plain_dc_flow(const struct plain_measurement *m);
uint64_t plain_phase_flow(const struct plain_measurement *m, uint64_t phase);

/* A counter of milliseconds in 32 bits: the last accepted reading, the seconds it gave, the milliseconds left over. */
struct plain_front {
    bool begun;
    uint32_t last, remainder;
    uint64_t seconds;
};

struct plain_second {
    uint64_t number;
    int64_t seconds;
};

struct plain_second plain_tick(struct plain_front *f, uint32_t tick);

/* Pairs: two numbers each, group then bit or attribute. */
struct plain_written plain_report(const struct plain_inputs *in, const uint16_t *attributes, size_t n, uint64_t *pairs,
                                  size_t room);
#endif
