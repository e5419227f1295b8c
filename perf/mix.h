/* Seeded random material: numbers, frames, settings, conformance inputs. The same seed gives the same mix everywhere. */
#ifndef MIX_H
#define MIX_H
#include "plain.h"

enum { MIX_MOST = 4096 };

struct bytes {
    size_t n;
    uint8_t at[MIX_MOST];
};

void mix_seed(uint64_t seed);
uint64_t mix_any(void);               /* 64 bits */
uint64_t mix_below(uint64_t n);       /* 0 to n - 1 */
bool mix_chance(unsigned of_thousand);

/* The device's settings steer the values that frames carry. */
void mix_settings(struct plain_settings *s, bool sound);
void mix_inputs(struct plain_inputs *in, uint16_t *attributes, size_t *n);

/* Frames: prefix and payload. Most are sound; the others are damaged, oversize or off by one somewhere. */
void mix_request(struct bytes *to, const struct plain_settings *s);
void mix_response(struct bytes *to, uint64_t command); /* half of the results are this command's */
void mix_request_fields(struct plain_request *r, const struct plain_settings *s);
void mix_response_fields(uint64_t command, struct plain_response *r);

/* Payloads of what is measured, and cells for the writer: most are sound. */
void mix_measurement(struct bytes *to);
void mix_measurement_cells(struct plain_measurement *m);
#endif
