/* The calls of one kernel, in plain.h's types, so that two kernels can be driven alike. */
#ifndef KERNEL_H
#define KERNEL_H
#include "plain.h"

/* Records that are behind rows in records, of which room are lent. */
enum { PLAIN_RECORDS = PLAIN_ROWS + 4 };

struct kernel {
    const char *name;
    size_t size; /* bytes of a device */
    uint64_t (*start)(void *d, const struct plain_settings *s);
    uint64_t (*join)(void *d, uint64_t zone, uint64_t rank, uint64_t time);
    uint64_t (*leave)(void *d, uint64_t zone, uint64_t time);
    uint64_t (*lost)(void *d, uint64_t zone, uint64_t time);
    uint64_t (*back)(void *d, uint64_t zone, uint64_t time);
    uint64_t (*override)(void *d, uint64_t reason, uint64_t direction, uint64_t time);
    uint64_t (*clear)(void *d, uint64_t time);
    uint64_t (*move)(void *d, uint64_t time);
    struct plain_written (*frame)(void *d, uint64_t zone, uint64_t time, const uint8_t *in, size_t n, uint8_t *out, size_t room);
    struct plain_answer (*ask)(const void *d);
    struct plain_written (*plan)(const void *d, int64_t *rows, size_t room);
    struct plain_written (*records)(const void *d, struct plain_row *rows, size_t room);
    uint64_t (*read_request)(const uint8_t *in, size_t n, struct plain_request *r);
    struct plain_written (*write_request)(const struct plain_request *r, uint8_t *out, size_t room);
    uint64_t (*read_response)(uint64_t command, const uint8_t *in, size_t n, struct plain_response *r);
    struct plain_written (*write_response)(uint64_t command, const struct plain_response *r, uint8_t *out, size_t room);
    struct plain_received (*receive)(struct plain_receiver *r, uint8_t *room, size_t room_length, const uint8_t *scrap, size_t n);
    uint64_t (*read_measurement)(const uint8_t *in, size_t n, struct plain_measurement *m);
    struct plain_written (*write_measurement)(const struct plain_measurement *m, uint8_t *out, size_t room);
    uint64_t (*power_flow)(const struct plain_measurement *m);
    uint64_t (*dc_flow)(const struct plain_measurement *m);
    uint64_t (*phase_flow)(const struct plain_measurement *m, uint64_t phase);
    struct plain_second (*tick)(struct plain_front *f, uint32_t tick);
    struct plain_written (*report)(const struct plain_inputs *in, const uint16_t *attributes, size_t n, uint64_t *pairs,
                                   size_t room);
};

/* Whether all fields are the same; what a command does not use is absent, 0 or no when read. */
bool same_request(const struct plain_request *x, const struct plain_request *y);
bool same_response(const struct plain_response *x, const struct plain_response *y);

/* The first is always plain.c; the second is the proved kernel, or a copy of plain.c that tries the harness. */
extern const struct kernel first_kernel, second_kernel;
#endif
