/* Cekarum: the control kernel for one energy endpoint, for C11 and C++17.
 *
 * Link libcekarum.a (bin/archive TARGET makes it for each board). The kernel has no state of its own, takes no memory and calls
 * nothing but what a compiler calls by itself to copy bytes and to reckon with 64 bits (docs/BOARDS.md lists it for each board):
 * all that it reads and writes is what a call lends it. Every call ends with an answer, for every number and every byte it is
 * given; nothing has to be checked first.
 *
 * What a driver must keep, all of it:
 * - no pointer is NULL, not even beside the count 0 (lend any valid address);
 * - each pointer is aligned as its type is, and all the elements that its count says may be read and, where it is not to const,
 *   written; a device has CEKARUM_WORDS words;
 * - two lent things of one call do not overlap, unless both are only read;
 * - calls on one device do not overlap in time; calls on two devices may.
 *
 * A refusal changes nothing that was lent: neither the device nor its clock, nor a buffer, a receiver or a front. There are three
 * exceptions: cekarum_start makes a fresh device that accepts nothing, cekarum_frame may write a response frame to the front of
 * its output, and cekarum_receive closes its receiver at a bad length. What lies behind a response, the rows or the pairs stays
 * as it was.
 *
 * Beside a refusal stands:
 * - 0 for what was written or taken (bytes, rows, pairs), except the length of a response that cekarum_frame wrote;
 * - -1 for the seconds of a tick;
 * - of a request that was to be read, 0 and no in all members;
 * - of a response that was to be read, 0 and no, and -1 for its values and its reason;
 * - of a measurement that was to be read, nothing is there, and all numbers are 0.
 */
#ifndef CEKARUM_H
#define CEKARUM_H

#include <stdbool.h>
#include <stdint.h>

#ifdef __cplusplus
extern "C" {
#endif

/* The version, the same as the file VERSION's: as text, as numbers, and as one number that grows with it. */
#define CEKARUM_VERSION "0.13.0"
#define CEKARUM_VERSION_MAJOR 0
#define CEKARUM_VERSION_MINOR 13
#define CEKARUM_VERSION_PATCH 0
#define CEKARUM_VERSION_NUMBER (1000000 * CEKARUM_VERSION_MAJOR + 1000 * CEKARUM_VERSION_MINOR + CEKARUM_VERSION_PATCH)

/* One line in the archive that says what it is: version, commit, target, interface, toolchain, and whether it is proved. */
extern const char cekarum_made_by[];

/* What this header and the archive have agreed upon: the functions of the library, what they take and what they leave. The number
 * is part of their names, so that a header and an archive of two interfaces do not link: `undefined reference to
 * cekarum_interface_2_start` says that the archive is of another interface than 2. Take both from one folder of bin/archive. */
#define CEKARUM_INTERFACE 2

/* The functions of the library, the same on every board: numbers of 64 bits, pointers, and counts of 64 bits behind them; each
 * gives its refusal number, save the ask, which has none. They are for this header alone: call what stands below. */
uint64_t cekarum_interface_2_start(uint64_t *device, const uint64_t *settings);
uint64_t cekarum_interface_2_join(uint64_t *device, uint64_t zone, uint64_t rank, uint64_t time);
uint64_t cekarum_interface_2_leave(uint64_t *device, uint64_t zone, uint64_t time);
uint64_t cekarum_interface_2_lost(uint64_t *device, uint64_t zone, uint64_t time);
uint64_t cekarum_interface_2_back(uint64_t *device, uint64_t zone, uint64_t time);
uint64_t cekarum_interface_2_override(uint64_t *device, uint64_t reason, uint64_t direction, uint64_t time);
uint64_t cekarum_interface_2_clear(uint64_t *device, uint64_t time);
uint64_t cekarum_interface_2_move(uint64_t *device, uint64_t time);
void cekarum_interface_2_ask(const uint64_t *device, int64_t *values);
uint64_t cekarum_interface_2_plan(const uint64_t *device, int64_t *rows, uint64_t room, uint64_t *count);
uint64_t cekarum_interface_2_frame(uint64_t *device, uint64_t zone, uint64_t time, const uint8_t *in, uint64_t in_length,
                                   uint8_t *out, uint64_t out_length, uint64_t *written);
uint64_t cekarum_interface_2_read_request(const uint8_t *in, uint64_t in_length, uint64_t *words, int64_t *values);
uint64_t cekarum_interface_2_write_request(const uint64_t *words, const int64_t *values, uint8_t *out, uint64_t out_length,
                                           uint64_t *written);
uint64_t cekarum_interface_2_read_response(uint64_t command, const uint8_t *in, uint64_t in_length, uint64_t *words,
                                           int64_t *values);
uint64_t cekarum_interface_2_write_response(uint64_t command, const uint64_t *words, const int64_t *values, uint8_t *out,
                                            uint64_t out_length, uint64_t *written);
uint64_t cekarum_interface_2_report(const uint64_t *inputs, const uint16_t *attributes, uint64_t attribute_count, uint64_t *pairs,
                                    uint64_t room, uint64_t *count);

/* Words of a device. The driver lends all of them to each call and never looks inside. */
#define CEKARUM_WORDS 191

/* Enough room for every answer. */
#define CEKARUM_FRAME_MAX 2052   /* bytes of the longest frame, prefix and payload */
#define CEKARUM_RESPONSE_MAX 49  /* bytes of the longest response frame */
#define CEKARUM_REQUEST_MAX 62   /* bytes of the longest request frame that is written */
#define CEKARUM_PLAN_MAX 960     /* numbers of the longest plan: 80 rows of 12 */
#define CEKARUM_ROWS_MAX 80      /* records of the longest plan */
#define CEKARUM_REPORT_MAX 96    /* numbers of the longest report: 48 pairs */

/* The last second the clock can show. */
#define CEKARUM_LAST_SECOND ((UINT64_C(1) << 40) - 1)

/* Refusal numbers. Where several apply, the first in the order that a call names is given. */
enum {
    CEKARUM_OK = 0,
    CEKARUM_BAD_LENGTH = 1,      /* prefix or payload length wrong */
    CEKARUM_BAD_CBOR = 2,        /* payload is not the strict CBOR */
    CEKARUM_BAD_MESSAGE = 3,     /* not a map, a needed key missing, or a known key with a wrong type or range */
    CEKARUM_NOT_SERVED = 4,      /* endpoint, feature or command is not served */
    CEKARUM_BAD_TIME = 5,        /* time before the last accepted call's, or past the last second */
    CEKARUM_BAD_ZONE = 6,        /* join: id outside 1 to 255, or rank outside 1 to 3 */
    CEKARUM_ALREADY = 7,         /* id already joined; link already as told; no override to clear */
    CEKARUM_FULL = 8,            /* eight zones joined */
    CEKARUM_NOT_JOINED = 9,      /* zone not joined */
    CEKARUM_LINK_DOWN = 10,      /* command from a zone whose link is down */
    CEKARUM_NOT_SUPPORTED = 11,  /* limits, setpoints or current limits not accepted, or a named direction not supported */
    CEKARUM_OVERRIDDEN = 12,     /* SetLimit or SetCurrentLimits while an override is set */
    CEKARUM_BAD_VALUE = 13,      /* a Set command with a negative value or naming nothing, or a phase from the phase count up */
    CEKARUM_BELOW_MINIMUM = 14,  /* a consumption limit below the minimum, 0 aside: that means off */
    CEKARUM_NO_SPACE = 15,       /* nothing else is refused, and the output is longer than the lent buffer */
    CEKARUM_NO_ROOM = 15,        /* the same by its name before version 0.13 */
    CEKARUM_BAD_SETTINGS = 16,   /* bad settings, or conformance inputs out of range */
    CEKARUM_NOT_ASCENDING = 17,  /* attribute list not strictly ascending */
    CEKARUM_BAD_OVERRIDE = 18    /* override reason and direction do not go together */
};

/* Control states. */
enum { CEKARUM_AUTONOMOUS = 0, CEKARUM_CONTROLLED = 1, CEKARUM_LIMITED = 2, CEKARUM_FAILSAFE = 3, CEKARUM_OVERRIDE = 4 };

/* A refusal number and how much was written: bytes of a frame, rows of a plan, pairs of a report. */
struct cekarum_written {
    uint64_t number;
    uint64_t length;
};

/* ---- starting ---- */

/* No contractual maximum. */
#define CEKARUM_NONE UINT64_MAX

/* Powers in mW, 0 to 2^63 - 1. Pairs go by direction: [0] consumption, [1] production. */
struct cekarum_settings {
    uint64_t directions; /* supported: 0 consumption, 1 production, 2 both */
    bool accepts_limits;
    bool accepts_setpoints;
    uint64_t minimum; /* the smallest consumption limit that can be set */
    uint64_t maximum[2]; /* contractual: a higher limit is stored as this; CEKARUM_NONE: there is none */
    uint64_t failsafe[2]; /* the largest that a limit is while zones are joined and no link is up */
    uint64_t failsafe_duration; /* 7,200 to 86,400 s */
    bool energy_manager;
    uint64_t phases; /* 1 to 3 */
    bool accepts_current_limits;
};

/* Makes a fresh device, with its clock at 0, whatever the words held before.
 * Refuses: 16 for a setting out of range, or a maximum[0] below the minimum. The device is then fresh too: it accepts nothing,
 * consumption only, one phase, failsafe duration 7,200, all else 0, none or no. */
static inline uint64_t cekarum_start(uint64_t *device, struct cekarum_settings settings)
{
    const uint64_t words[12] = {settings.directions,  settings.accepts_limits, settings.accepts_setpoints, settings.minimum,
                                settings.maximum[0],  settings.maximum[1],     settings.failsafe[0],       settings.failsafe[1],
                                settings.failsafe_duration, settings.energy_manager, settings.phases,
                                settings.accepts_current_limits};
    return cekarum_interface_2_start(device, words);
}

/* ---- zones, links, override, the clock ----
 * An accepted call moves the clock to its time, and so does an accepted frame; no other call moves it. Each gives its refusal
 * number, 0 if accepted.
 * Give times of a clock that never goes back, not the time of day: a time before the last accepted one is refused with 5, and after
 * one call at CEKARUM_LAST_SECOND every earlier time is, for good. */

/* Joins a zone, link up, with no values; rank 1 is the highest, 3 the lowest. Refuses: 5, 6, 7, 8.
 * A zone that connects again is told so: where cekarum_join gives 7 it is joined still, with what it set; call cekarum_back. */
static inline uint64_t cekarum_join(uint64_t *device, uint64_t zone, uint64_t rank, uint64_t time)
{
    return cekarum_interface_2_join(device, zone, rank, time);
}

/* Removes a zone and all its values. Refuses: 5, 9. */
static inline uint64_t cekarum_leave(uint64_t *device, uint64_t zone, uint64_t time)
{
    return cekarum_interface_2_leave(device, zone, time);
}

/* A zone's link went down; what it set stays. When no link is up any more, the failsafe begins: no limit is above the failsafe's,
 * and setpoints are absent. It ends when a link is up again, or after failsafe_duration seconds; behind that end nothing holds, and
 * all values are absent. Refuses: 5, 9, 7. */
static inline uint64_t cekarum_lost(uint64_t *device, uint64_t zone, uint64_t time)
{
    return cekarum_interface_2_lost(device, zone, time);
}

/* A zone's link is up again. Refuses: 5, 9, 7. */
static inline uint64_t cekarum_back(uint64_t *device, uint64_t zone, uint64_t time)
{
    return cekarum_interface_2_back(device, zone, time);
}

/* Sets the override, or replaces it: the box cannot follow limits, and says why. No value changes by it; until it is cleared,
 * SetLimit and SetCurrentLimits are refused with 12, and the control state says OVERRIDE outside the failsafe.
 * Reasons: 0 the box protects itself from damage, 1 safety asks for it (both with consumption, direction 0); 2 a law or a
 * regulation asks for it (either direction); on an energy manager also 3 loads that nobody controls (consumption) and 4 producers
 * that nobody controls (production, direction 1). Refuses: 5, 18. */
static inline uint64_t cekarum_override(uint64_t *device, uint64_t reason, uint64_t direction, uint64_t time)
{
    return cekarum_interface_2_override(device, reason, direction, time);
}

/* Clears the override. Refuses: 5, 7. */
static inline uint64_t cekarum_clear(uint64_t *device, uint64_t time)
{
    return cekarum_interface_2_clear(device, time);
}

/* Moves the clock to this second and nothing else: before an ask or a plan, where no other call has brought the device up to now.
 * Refuses: 5. */
static inline uint64_t cekarum_move(uint64_t *device, uint64_t time)
{
    return cekarum_interface_2_move(device, time);
}

/* ---- what holds, and what will change ----
 * At the device's own second: that of the last accepted call, 0 before the first. These calls take no time and only read the
 * device, so that a display may poll as it likes and no command is refused for it. */

/* Places in cekarum_answer's values and, after the second, in a plan's row. */
enum {
    CEKARUM_STATE = 0,
    CEKARUM_LIMIT_CONSUMPTION = 1,
    CEKARUM_LIMIT_PRODUCTION = 2,
    CEKARUM_SETPOINT_CONSUMPTION = 3,
    CEKARUM_SETPOINT_PRODUCTION = 4,
    CEKARUM_CURRENT = 5 /* the first of six current limits: CEKARUM_CURRENT + 2 * phase (A 0, B 1, C 2) + direction */
};

/* Limits and setpoints in mW, current limits in mA, -1 is absent. A limit that is absent is no limit: a fresh device has none, and
 * the contractual maximum is none by itself, it only caps what zones set. A setpoint is not cut by a limit: keep to both. */
struct cekarum_answer {
    int64_t values[11];
};

/* What holds at the device's own second. Refuses nothing. */
static inline struct cekarum_answer cekarum_ask(const uint64_t *device)
{
    struct cekarum_answer answer;
    cekarum_interface_2_ask(device, &answer.values[0]);
    return answer;
}

/* Every second after the device's own at which the control state or one of the ten values changes if only the clock moves, in
 * order: twelve numbers a row: the second, then the values of cekarum_answer in their order; -1 is absent. With the clock moved
 * there, or to any second before the next row's, cekarum_ask gives the row's values.
 * room is counted in numbers; CEKARUM_PLAN_MAX is always enough. length is in rows. Refuses: 15. */
static inline struct cekarum_written cekarum_plan(const uint64_t *device, int64_t *rows, uint64_t room)
{
    struct cekarum_written plan;
    plan.number = cekarum_interface_2_plan(device, rows, room, &plan.length);
    return plan;
}

/* A row of the plan as a record, so that a debugger shows names: the second, the control state from then on, then limits and
 * setpoints in mW and current limits in mA by phase; -1 is absent. */
struct cekarum_row {
    uint64_t second;
    int64_t state;
    int64_t limit_consumption;
    int64_t limit_production;
    int64_t setpoint_consumption;
    int64_t setpoint_production;
    int64_t a_consumption;
    int64_t a_production;
    int64_t b_consumption;
    int64_t b_production;
    int64_t c_consumption;
    int64_t c_production;
};

/* The export beneath cekarum_plain_plan; nothing else calls it. */
uint64_t cekarum_interface_2_plain_plan(const uint64_t *device, struct cekarum_row *rows, uint64_t room, uint64_t *count);

/* The rows of cekarum_plan, made the slow way for a test bench.
 * room and length are in records; CEKARUM_ROWS_MAX is always enough. Refuses: 15. */
static inline struct cekarum_written cekarum_plain_plan(const uint64_t *device, struct cekarum_row *rows, uint64_t room)
{
    struct cekarum_written plan;
    plan.number = cekarum_interface_2_plain_plan(device, rows, room, &plan.length);
    return plan;
}

/* ---- frames ---- */

/* Applies one frame (four bytes of length, then the payload) that came from a zone, and writes the response.
 * Refuses, in this order: 1, 2, 3 (envelope), 4, 3 (parameters), 5, 9, 10, 11, 12, 13, 14, 15. At 4, 5 and 9 to 14 the response
 * says so in its status and is written if it has room; if it has none, length is 0 and out stays as it was. At 1, 2, 3 and 15
 * there is no response. CEKARUM_RESPONSE_MAX bytes of room are always enough. length is in bytes.
 * What a driver does then: after 2 or 3 the stream is still in step; drop the frame and go on, or close a peer that sends such
 * frames. After 1 it is not known where the next frame starts: close the connection, and tell the zone's link lost. */
static inline struct cekarum_written cekarum_frame(uint64_t *device, uint64_t zone, uint64_t time, const uint8_t *in,
                                                   uint64_t in_length, uint8_t *out, uint64_t out_length)
{
    struct cekarum_written response;
    response.number = cekarum_interface_2_frame(device, zone, time, in, in_length, out, out_length, &response.length);
    return response;
}

/* ---- frames that come in scraps ---- */

/* Where one connection stands in its stream of frames. All zero for a new connection; the driver never looks inside. */
struct cekarum_receiver {
    uint64_t words[3];
};

struct cekarum_received {
    uint64_t number;
    uint64_t taken;  /* bytes of the scrap that were taken; the driver calls again with the others */
    uint64_t length; /* bytes of the frame that is whole now, at the front of room until the next call; 0: none is */
};

/* The export beneath cekarum_receive; nothing else calls it. */
uint64_t cekarum_interface_2_receive(uint64_t *receiver, uint8_t *room, uint64_t room_length, const uint8_t *scrap,
                                     uint64_t scrap_length, uint64_t *counts);

/* Takes what the network brought, of every length, none included, up to the end of one frame. The receiver and the room belong
 * together and are kept between the calls of one connection; CEKARUM_FRAME_MAX bytes of room are needed and always enough.
 * Refuses: 15 for less room, tested first; 1 for a length of 0 or above 2,048, which closes the receiver: every later call is
 * refused with 1 too, until the connection is made anew and the receiver is made zero with it. The same for words that no call
 * leaves. Beside a refusal nothing is taken, and the room stays as it was. */
static inline struct cekarum_received cekarum_receive(struct cekarum_receiver *receiver, uint8_t *room, uint64_t room_length,
                                                      const uint8_t *scrap, uint64_t scrap_length)
{
    uint64_t counts[2] = {0, 0};
    struct cekarum_received received;
    received.number = cekarum_interface_2_receive(receiver->words, room, room_length, scrap, scrap_length, counts);
    received.taken = counts[0];
    received.length = counts[1];
    return received;
}

/* ---- a board that has only a tick counter ---- */

/* Turns the readings of one counter, which counts milliseconds in 32 bits and returns to zero after about 49.7 days, into the
 * seconds that the calls above take. All zero before the first reading; the driver never looks inside. */
struct cekarum_front {
    uint64_t words[4];
};

struct cekarum_second {
    uint64_t number;
    int64_t seconds; /* since the first reading; -1 beside a refusal */
};

/* The export beneath cekarum_tick; nothing else calls it. */
uint64_t cekarum_interface_2_tick(uint64_t *front, uint64_t tick, int64_t *seconds);

/* Takes a reading. The first gives second 0. Read at least once in 2^31 ms, some 24.8 days, and the seconds are the true
 * milliseconds since the first reading divided by 1,000, rounded down, whatever the counter showed then and however often it has
 * returned to zero. Two readings further apart look nearer than they were, or like a step back.
 * Refuses: 5 for a step back, which is a difference to the last accepted reading of 2^31 or more, and where the seconds would pass
 * CEKARUM_LAST_SECOND. A refused reading changes nothing. */
static inline struct cekarum_second cekarum_tick(struct cekarum_front *front, uint32_t tick)
{
    struct cekarum_second read;
    read.number = cekarum_interface_2_tick(front->words, tick, &read.seconds);
    return read;
}

/* ---- messages, for the other side of the wire ---- */

/* What a field of a Set command is. */
enum { CEKARUM_ABSENT = 0, CEKARUM_NULL = 1, CEKARUM_NUMBER = 2 };

struct cekarum_field {
    uint64_t kind; /* absent, null (not in SetSetpoint) or a number */
    int64_t value; /* mW or mA; 0 when read and passed over when written, unless the kind is a number */
};

/* Commands 1 SetLimit and 3 SetSetpoint use the two fields, 5 SetCurrentLimits the phases and the direction, all three duration
 * and cause, and SetSetpoint alone duration_omitted; 2 ClearLimit, 4 ClearSetpoint and 6 ClearCurrentLimits use the direction if
 * directed. The other members are 0 or no when read and passed over when written.
 * A duration of 0 is until replaced, a request that starts all zero included. Of a setpoint the 0 is written; of limits and
 * currents it is left out, which is the same there. A setpoint without a duration ends after 3,600 s: duration_omitted beside a
 * duration of 0 leaves it out, and is yes where none was read. Beside another duration it is no when read and passed over when
 * written. */
struct cekarum_request {
    uint64_t id;       /* 32 bits */
    uint64_t endpoint; /* 1 is served; 8 bits */
    uint64_t feature;  /* 5 is served; 16 bits */
    uint64_t command;  /* 1 to 6 are served; 16 bits */
    struct cekarum_field consumption;
    struct cekarum_field production;
    uint64_t duration; /* seconds, 32 bits */
    uint64_t cause;    /* 0 to 255, not kept. Of limits: 0 grid emergency, 1 grid optimisation, 2 local protection, 3 local
                        * optimisation, 4 user preference; of setpoints: 0 grid request, 1 self-consumption, 2 price
                        * optimisation, 3 phase balancing, 4 user preference */
    bool directed;      /* whether a clear names a direction; if not, it clears both */
    uint64_t direction; /* 0 or 1 */
    struct cekarum_field phases[3]; /* mA by phase: A, B, C */
    bool duration_omitted; /* whether a setpoint goes out, or came, without a duration: it ends after 3,600 s */
};

struct cekarum_request_read {
    uint64_t number;
    struct cekarum_request request;
};

/* Reads a frame without applying it. Refuses: 1, 2, 3 (envelope), 4, 3 (parameters). All of the request is then 0 or no. */
static inline struct cekarum_request_read cekarum_read_request(const uint8_t *in, uint64_t in_length)
{
    struct cekarum_request_read read;
    uint64_t words[14] = {0}; /* what stands beside a refusal, which leaves them */
    int64_t values[5] = {0};
    read.number = cekarum_interface_2_read_request(in, in_length, words, values);
    read.request.id = words[0];
    read.request.endpoint = words[1];
    read.request.feature = words[2];
    read.request.command = words[3];
    read.request.consumption.kind = words[4];
    read.request.consumption.value = values[0];
    read.request.production.kind = words[5];
    read.request.production.value = values[1];
    read.request.duration = words[6];
    read.request.cause = words[7];
    read.request.directed = words[8] != 0;
    read.request.direction = words[9];
    for (int phase = 0; phase < 3; phase++) {
        read.request.phases[phase].kind = words[10 + phase];
        read.request.phases[phase].value = values[2 + phase];
    }
    read.request.duration_omitted = words[13] != 0;
    return read;
}

/* Writes a request frame. Refuses: 3 for a value out of range (a kind above 2, or null in SetSetpoint, included), 4 for an
 * endpoint, feature or command that is not served, 15. Negative values and a Set command that names nothing are written: a device
 * refuses them with 13. CEKARUM_REQUEST_MAX bytes of room are always enough. */
static inline struct cekarum_written cekarum_write_request(struct cekarum_request request, uint8_t *out, uint64_t out_length)
{
    const uint64_t words[14] = {request.id,
                                request.endpoint,
                                request.feature,
                                request.command,
                                request.consumption.kind,
                                request.production.kind,
                                request.duration,
                                request.cause,
                                request.directed,
                                request.direction,
                                request.phases[0].kind,
                                request.phases[1].kind,
                                request.phases[2].kind,
                                request.duration_omitted};
    const int64_t values[5] = {request.consumption.value, request.production.value, request.phases[0].value,
                               request.phases[1].value, request.phases[2].value};
    struct cekarum_written written;
    written.number = cekarum_interface_2_write_request(words, values, out, out_length, &written.length);
    return written;
}

/* The result stands at status 0, and for SetLimit also at 11 to 14. SetLimit: applied, state, the two effective limits and the
 * reject reason; SetSetpoint: applied (true) and the two effective setpoints; SetCurrentLimits: applied (true) and the effective
 * currents of its direction; the clears: applied (true). Absent is -1. */
struct cekarum_response {
    uint64_t id;
    uint64_t status; /* 0, 4, 5, 9 to 14 */
    bool result;   /* whether a result stands; if not, what follows is no, 0 or -1 when read and passed over when written */
    bool applied;
    uint64_t state;
    int64_t consumption; /* mW */
    int64_t production;
    int64_t reason; /* 0 below minimum, 1 above contractual, 2 invalid, 3 override, 4 not supported */
    int64_t currents[3]; /* mA by phase: A, B, C */
};

struct cekarum_response_read {
    uint64_t number;
    struct cekarum_response response;
};

/* Reads the response to a command. Refuses: 4 for a command that is not served, 1, 2, 3. All is then 0 or no, and -1 what a
 * response may lack: its values and its reason. */
static inline struct cekarum_response_read cekarum_read_response(uint64_t command, const uint8_t *in, uint64_t in_length)
{
    struct cekarum_response_read read;
    uint64_t words[5] = {0}; /* what stands beside a refusal, which leaves them */
    int64_t values[6] = {-1, -1, -1, -1, -1, -1};
    read.number = cekarum_interface_2_read_response(command, in, in_length, words, values);
    read.response.id = words[0];
    read.response.status = words[1];
    read.response.result = words[2] != 0;
    read.response.applied = words[3] != 0;
    read.response.state = words[4];
    read.response.consumption = values[0];
    read.response.production = values[1];
    read.response.reason = values[2];
    for (int phase = 0; phase < 3; phase++)
        read.response.currents[phase] = values[3 + phase];
    return read;
}

/* Writes the response to a command. Refuses: 4 for a command that is not served; 3 for a value out of range (a negative one
 * other than -1 included), a status that is none, a result that is missing or does not stand there, or applied false in another
 * result than SetLimit's; 15. */
static inline struct cekarum_written cekarum_write_response(uint64_t command, struct cekarum_response response, uint8_t *out,
                                                            uint64_t out_length)
{
    const uint64_t words[5] = {response.id, response.status, response.result, response.applied, response.state};
    const int64_t values[6] = {response.consumption, response.production,  response.reason,
                               response.currents[0], response.currents[1], response.currents[2]};
    struct cekarum_written written;
    written.number = cekarum_interface_2_write_response(command, words, values, out, out_length, &written.length);
    return written;
}

/* ---- conformance ---- */

struct cekarum_inputs {
    uint64_t type;       /* endpoint type, 0 to 10 */
    uint64_t map;        /* feature map, 11 bits */
    uint64_t phases;     /* 1 to 3 */
    uint64_t directions; /* as in the settings */
    bool accepts_limits;
    bool accepts_current_limits;
    bool accepts_setpoints;
    bool has_process; /* process state is not NONE */
};

/* Every breach, once, ascending: two numbers a pair, group then bit or attribute. room is counted in numbers;
 * CEKARUM_REPORT_MAX is always enough. length is in pairs. Refuses: 16, 17, 15. */
static inline struct cekarum_written cekarum_report(struct cekarum_inputs inputs, const uint16_t *attributes, uint64_t count,
                                                    uint64_t *pairs, uint64_t room)
{
    const uint64_t words[8] = {inputs.type,           inputs.map,
                               inputs.phases,         inputs.directions,
                               inputs.accepts_limits, inputs.accepts_current_limits,
                               inputs.accepts_setpoints, inputs.has_process};
    struct cekarum_written report;
    report.number = cekarum_interface_2_report(words, attributes, count, pairs, room, &report.length);
    return report;
}

/* ---- what the box measures: the Measurement feature, 0x0004 ----
 * A payload is a map alone, without the four bytes of a frame. No device has to do with it. */

#define CEKARUM_MEASUREMENT_MAX 326 /* bytes of the longest payload that is written */

/* Places, in the order of the attributes: CEKARUM_THERE of one is its bit in `there`. From a PER_PHASE on three, of the phases A,
 * B and C, and from the PAIR on three, AB, BC and CA: CEKARUM_THERE(CEKARUM_AC_CURRENT_PER_PHASE + 2) is phase C's. */
enum {
    CEKARUM_AC_ACTIVE_POWER = 0,
    CEKARUM_AC_REACTIVE_POWER = 1,
    CEKARUM_AC_APPARENT_POWER = 2,
    CEKARUM_AC_ACTIVE_POWER_PER_PHASE = 3,
    CEKARUM_AC_REACTIVE_POWER_PER_PHASE = 6,
    CEKARUM_AC_APPARENT_POWER_PER_PHASE = 9,
    CEKARUM_AC_CURRENT_PER_PHASE = 12,
    CEKARUM_AC_VOLTAGE_PER_PHASE = 15,
    CEKARUM_AC_VOLTAGE_PHASE_TO_PHASE_PAIR = 18,
    CEKARUM_AC_FREQUENCY = 21,
    CEKARUM_POWER_FACTOR = 22,
    CEKARUM_AC_ENERGY_CONSUMED = 23,
    CEKARUM_AC_ENERGY_PRODUCED = 24,
    CEKARUM_DC_POWER = 25,
    CEKARUM_DC_CURRENT = 26,
    CEKARUM_DC_VOLTAGE = 27,
    CEKARUM_DC_ENERGY_IN = 28,
    CEKARUM_DC_ENERGY_OUT = 29,
    CEKARUM_STATE_OF_CHARGE = 30,
    CEKARUM_STATE_OF_HEALTH = 31,
    CEKARUM_STATE_OF_ENERGY = 32,
    CEKARUM_USEABLE_CAPACITY = 33,
    CEKARUM_CYCLE_COUNT = 34,
    CEKARUM_TEMPERATURE = 35
};

#define CEKARUM_THERE(place) (UINT64_C(1) << (place))

/* The attributes, with document 002's number, unit and, where the type is wider, range. What is not there is 0 when read and
 * passed over when written. Power and current: positive flows in, negative flows out. */
struct cekarum_measurement {
    uint64_t there;                              /* CEKARUM_THERE of each place that is there; other bits are passed over */
    int64_t ac_active_power;                     /* 1, mW */
    int64_t ac_reactive_power;                   /* 2, mVAR */
    uint64_t ac_apparent_power;                  /* 3, mVA */
    int64_t ac_active_power_per_phase[3];        /* 10, mW */
    int64_t ac_reactive_power_per_phase[3];      /* 11, mVAR */
    int64_t ac_apparent_power_per_phase[3];      /* 12, mVA */
    int64_t ac_current_per_phase[3];             /* 20, mA */
    uint32_t ac_voltage_per_phase[3];            /* 21, mV, phase to neutral */
    uint32_t ac_voltage_phase_to_phase_pair[3];  /* 22, mV, by pair: AB, BC, CA */
    uint32_t ac_frequency;                       /* 23, mHz */
    int16_t power_factor;                        /* 24, thousandths, -1,000 to 1,000 */
    uint64_t ac_energy_consumed;                 /* 30, mWh */
    uint64_t ac_energy_produced;                 /* 31, mWh */
    int64_t dc_power;                            /* 40, mW */
    int64_t dc_current;                          /* 41, mA */
    uint32_t dc_voltage;                         /* 42, mV */
    uint64_t dc_energy_in;                       /* 43, mWh */
    uint64_t dc_energy_out;                      /* 44, mWh */
    uint8_t state_of_charge;                     /* 50, percent, 0 to 100 */
    uint8_t state_of_health;                     /* 51, percent, 0 to 100 */
    uint64_t state_of_energy;                    /* 52, mWh */
    uint64_t useable_capacity;                   /* 53, mWh */
    uint32_t cycle_count;                        /* 54 */
    int16_t temperature;                         /* 60, hundredths of a degree Celsius */
};

/* The exports beneath the calls below, and the words that they take: two for each place, first 0 for nothing, 1 for the number n,
 * 2 for -1 - n, then n. Nothing else calls them. */
#define CEKARUM_MEASUREMENT_WORDS 72
uint64_t cekarum_interface_2_read_measurement(const uint8_t *in, uint64_t in_length, uint64_t *words);
uint64_t cekarum_interface_2_write_measurement(const uint64_t *words, uint8_t *out, uint64_t out_length, uint64_t *written);
uint64_t cekarum_interface_2_power_flow(const uint64_t *words);
uint64_t cekarum_interface_2_dc_flow(const uint64_t *words);
uint64_t cekarum_interface_2_phase_flow(const uint64_t *words, uint64_t phase);

/* A cast, as each of the two languages writes it. */
#ifdef __cplusplus
#define CEKARUM_AS(type, number) static_cast<type>(number)
#else
#define CEKARUM_AS(type, number) ((type)(number))
#endif

/* A number to its words, and from them; the words of what is not there are 0. */
static inline void cekarum_put_unsigned(uint64_t *words, uint64_t there, int place, uint64_t value)
{
    const bool is = (there >> place & 1) != 0;
    words[2 * place] = is;
    words[2 * place + 1] = is ? value : 0;
}

static inline void cekarum_put_signed(uint64_t *words, uint64_t there, int place, int64_t value)
{
    cekarum_put_unsigned(words, there, place, value < 0 ? ~CEKARUM_AS(uint64_t, value) : CEKARUM_AS(uint64_t, value));
    words[2 * place] <<= value < 0;
}

static inline int64_t cekarum_get_signed(const uint64_t *words, int place)
{
    return words[2 * place] == 2 ? -1 - CEKARUM_AS(int64_t, words[2 * place + 1]) : CEKARUM_AS(int64_t, words[2 * place + 1]);
}

/* The words of a measurement. */
static inline void cekarum_measurement_words(const struct cekarum_measurement *m, uint64_t *words)
{
    const uint64_t there = m->there;
    cekarum_put_signed(words, there, CEKARUM_AC_ACTIVE_POWER, m->ac_active_power);
    cekarum_put_signed(words, there, CEKARUM_AC_REACTIVE_POWER, m->ac_reactive_power);
    cekarum_put_unsigned(words, there, CEKARUM_AC_APPARENT_POWER, m->ac_apparent_power);
    for (int i = 0; i < 3; i++) {
        cekarum_put_signed(words, there, CEKARUM_AC_ACTIVE_POWER_PER_PHASE + i, m->ac_active_power_per_phase[i]);
        cekarum_put_signed(words, there, CEKARUM_AC_REACTIVE_POWER_PER_PHASE + i, m->ac_reactive_power_per_phase[i]);
        cekarum_put_signed(words, there, CEKARUM_AC_APPARENT_POWER_PER_PHASE + i, m->ac_apparent_power_per_phase[i]);
        cekarum_put_signed(words, there, CEKARUM_AC_CURRENT_PER_PHASE + i, m->ac_current_per_phase[i]);
        cekarum_put_unsigned(words, there, CEKARUM_AC_VOLTAGE_PER_PHASE + i, m->ac_voltage_per_phase[i]);
        cekarum_put_unsigned(words, there, CEKARUM_AC_VOLTAGE_PHASE_TO_PHASE_PAIR + i, m->ac_voltage_phase_to_phase_pair[i]);
    }
    cekarum_put_unsigned(words, there, CEKARUM_AC_FREQUENCY, m->ac_frequency);
    cekarum_put_signed(words, there, CEKARUM_POWER_FACTOR, m->power_factor);
    cekarum_put_unsigned(words, there, CEKARUM_AC_ENERGY_CONSUMED, m->ac_energy_consumed);
    cekarum_put_unsigned(words, there, CEKARUM_AC_ENERGY_PRODUCED, m->ac_energy_produced);
    cekarum_put_signed(words, there, CEKARUM_DC_POWER, m->dc_power);
    cekarum_put_signed(words, there, CEKARUM_DC_CURRENT, m->dc_current);
    cekarum_put_unsigned(words, there, CEKARUM_DC_VOLTAGE, m->dc_voltage);
    cekarum_put_unsigned(words, there, CEKARUM_DC_ENERGY_IN, m->dc_energy_in);
    cekarum_put_unsigned(words, there, CEKARUM_DC_ENERGY_OUT, m->dc_energy_out);
    cekarum_put_unsigned(words, there, CEKARUM_STATE_OF_CHARGE, m->state_of_charge);
    cekarum_put_unsigned(words, there, CEKARUM_STATE_OF_HEALTH, m->state_of_health);
    cekarum_put_unsigned(words, there, CEKARUM_STATE_OF_ENERGY, m->state_of_energy);
    cekarum_put_unsigned(words, there, CEKARUM_USEABLE_CAPACITY, m->useable_capacity);
    cekarum_put_unsigned(words, there, CEKARUM_CYCLE_COUNT, m->cycle_count);
    cekarum_put_signed(words, there, CEKARUM_TEMPERATURE, m->temperature);
}

/* The measurement of words that were read: each number is in its range. */
static inline void cekarum_measurement_of(const uint64_t *words, struct cekarum_measurement *m)
{
    m->there = 0;
    for (int place = 0; place <= CEKARUM_TEMPERATURE; place++)
        m->there |= words[2 * place] != 0 ? CEKARUM_THERE(place) : 0;
    m->ac_active_power = cekarum_get_signed(words, CEKARUM_AC_ACTIVE_POWER);
    m->ac_reactive_power = cekarum_get_signed(words, CEKARUM_AC_REACTIVE_POWER);
    m->ac_apparent_power = words[2 * CEKARUM_AC_APPARENT_POWER + 1];
    for (int i = 0; i < 3; i++) {
        m->ac_active_power_per_phase[i] = cekarum_get_signed(words, CEKARUM_AC_ACTIVE_POWER_PER_PHASE + i);
        m->ac_reactive_power_per_phase[i] = cekarum_get_signed(words, CEKARUM_AC_REACTIVE_POWER_PER_PHASE + i);
        m->ac_apparent_power_per_phase[i] = cekarum_get_signed(words, CEKARUM_AC_APPARENT_POWER_PER_PHASE + i);
        m->ac_current_per_phase[i] = cekarum_get_signed(words, CEKARUM_AC_CURRENT_PER_PHASE + i);
        m->ac_voltage_per_phase[i] = CEKARUM_AS(uint32_t, words[2 * (CEKARUM_AC_VOLTAGE_PER_PHASE + i) + 1]);
        m->ac_voltage_phase_to_phase_pair[i] = CEKARUM_AS(uint32_t, words[2 * (CEKARUM_AC_VOLTAGE_PHASE_TO_PHASE_PAIR + i) + 1]);
    }
    m->ac_frequency = CEKARUM_AS(uint32_t, words[2 * CEKARUM_AC_FREQUENCY + 1]);
    m->power_factor = CEKARUM_AS(int16_t, cekarum_get_signed(words, CEKARUM_POWER_FACTOR));
    m->ac_energy_consumed = words[2 * CEKARUM_AC_ENERGY_CONSUMED + 1];
    m->ac_energy_produced = words[2 * CEKARUM_AC_ENERGY_PRODUCED + 1];
    m->dc_power = cekarum_get_signed(words, CEKARUM_DC_POWER);
    m->dc_current = cekarum_get_signed(words, CEKARUM_DC_CURRENT);
    m->dc_voltage = CEKARUM_AS(uint32_t, words[2 * CEKARUM_DC_VOLTAGE + 1]);
    m->dc_energy_in = words[2 * CEKARUM_DC_ENERGY_IN + 1];
    m->dc_energy_out = words[2 * CEKARUM_DC_ENERGY_OUT + 1];
    m->state_of_charge = CEKARUM_AS(uint8_t, words[2 * CEKARUM_STATE_OF_CHARGE + 1]);
    m->state_of_health = CEKARUM_AS(uint8_t, words[2 * CEKARUM_STATE_OF_HEALTH + 1]);
    m->state_of_energy = words[2 * CEKARUM_STATE_OF_ENERGY + 1];
    m->useable_capacity = words[2 * CEKARUM_USEABLE_CAPACITY + 1];
    m->cycle_count = CEKARUM_AS(uint32_t, words[2 * CEKARUM_CYCLE_COUNT + 1]);
    m->temperature = CEKARUM_AS(int16_t, cekarum_get_signed(words, CEKARUM_TEMPERATURE));
}

struct cekarum_measurement_read {
    uint64_t number;
    struct cekarum_measurement measurement;
};

/* Reads a payload. Refuses: 1 for a length outside 1 to 2,048; 2; 3 for what is no map, for an attribute of another type or out
 * of its range, and for a map of phases that is empty or has another key than 0 to 2. Nothing is then there, and all is 0.
 * Unknown keys are passed over. */
static inline struct cekarum_measurement_read cekarum_read_measurement(const uint8_t *in, uint64_t in_length)
{
    struct cekarum_measurement_read read;
    uint64_t words[CEKARUM_MEASUREMENT_WORDS] = {0}; /* nothing is there beside a refusal, which leaves them */
    read.number = cekarum_interface_2_read_measurement(in, in_length, words);
    cekarum_measurement_of(words, &read.measurement);
    return read;
}

/* Writes the payload of what is there. Refuses: 3 for a number out of its range, 15. CEKARUM_MEASUREMENT_MAX bytes of room are
 * always enough. length is in bytes. */
static inline struct cekarum_written cekarum_write_measurement(const struct cekarum_measurement *measurement, uint8_t *out,
                                                               uint64_t out_length)
{
    struct cekarum_written written;
    uint64_t words[CEKARUM_MEASUREMENT_WORDS];
    cekarum_measurement_words(measurement, words);
    written.number = cekarum_interface_2_write_measurement(words, out, out_length, &written.length);
    return written;
}

/* Which way power flows: absent where it was not measured, none where it is 0. */
enum { CEKARUM_FLOW_ABSENT = 0, CEKARUM_FLOW_NONE = 1, CEKARUM_FLOW_IN = 2, CEKARUM_FLOW_OUT = 3 };

/* The flow of ac_active_power, of dc_power, and of a phase (A 0, B 1, C 2) of ac_active_power_per_phase; of no other phase: it is
 * absent. */
static inline uint64_t cekarum_power_flow(const struct cekarum_measurement *measurement)
{
    uint64_t words[CEKARUM_MEASUREMENT_WORDS];
    cekarum_measurement_words(measurement, words);
    return cekarum_interface_2_power_flow(words);
}

static inline uint64_t cekarum_dc_flow(const struct cekarum_measurement *measurement)
{
    uint64_t words[CEKARUM_MEASUREMENT_WORDS];
    cekarum_measurement_words(measurement, words);
    return cekarum_interface_2_dc_flow(words);
}

static inline uint64_t cekarum_phase_flow(const struct cekarum_measurement *measurement, uint64_t phase)
{
    uint64_t words[CEKARUM_MEASUREMENT_WORDS];
    cekarum_measurement_words(measurement, words);
    return cekarum_interface_2_phase_flow(words, phase);
}

#ifdef __cplusplus
}
#endif
#endif
