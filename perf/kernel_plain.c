/* plain.c as a kernel of the harness. With other.h in front it is the second one, under other names. */
#include "kernel.h"

#ifndef KERNEL
#define KERNEL first_kernel
#define KERNEL_NAME "plain"
#endif

static uint64_t start(void *d, const struct plain_settings *s) { return plain_start(d, s); }
static uint64_t join(void *d, uint64_t zone, uint64_t rank, uint64_t time) { return plain_join(d, zone, rank, time); }
static uint64_t leave(void *d, uint64_t zone, uint64_t time) { return plain_leave(d, zone, time); }
static uint64_t lost(void *d, uint64_t zone, uint64_t time) { return plain_lost(d, zone, time); }
static uint64_t back(void *d, uint64_t zone, uint64_t time) { return plain_back(d, zone, time); }
static uint64_t clear(void *d, uint64_t time) { return plain_clear(d, time); }
static uint64_t move(void *d, uint64_t time) { return plain_move(d, time); }
static struct plain_answer ask(const void *d) { return plain_ask(d); }
static struct plain_written plan(const void *d, int64_t *rows, size_t room) { return plain_plan(d, rows, room); }

static uint64_t override(void *d, uint64_t reason, uint64_t direction, uint64_t time)
{
    return plain_override(d, reason, direction, time);
}

static struct plain_written frame(void *d, uint64_t zone, uint64_t time, const uint8_t *in, size_t n, uint8_t *out, size_t room)
{
    return plain_frame(d, zone, time, in, n, out, room);
}

static struct plain_written records(const void *d, struct plain_row *rows, size_t room)
{
    return plain_plain_plan(d, rows, room);
}

const struct kernel KERNEL = {
    .name = KERNEL_NAME,
    .size = sizeof(struct plain),
    .start = start,
    .join = join,
    .leave = leave,
    .lost = lost,
    .back = back,
    .override = override,
    .clear = clear,
    .move = move,
    .frame = frame,
    .ask = ask,
    .plan = plan,
    .records = records,
    .read_request = plain_read_request,
    .write_request = plain_write_request,
    .read_response = plain_read_response,
    .write_response = plain_write_response,
    .receive = plain_receive,
    .tick = plain_tick,
    .report = plain_report,
    .read_measurement = plain_read_measurement,
    .write_measurement = plain_write_measurement,
    .power_flow = plain_power_flow,
    .dc_flow = plain_dc_flow,
    .phase_flow = plain_phase_flow,
};
