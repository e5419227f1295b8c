/* Every call of document 01 that a driver makes, so that the linker shows what they take: it is linked and never run. */
#include "cekarum.h"

static uint64_t device[CEKARUM_WORDS];
static int64_t rows[CEKARUM_PLAN_MAX];
static uint8_t frame[CEKARUM_FRAME_MAX], response[CEKARUM_RESPONSE_MAX];

int main(int argc, char **argv)
{
    const uint64_t n = (uint64_t)argc + (argv == 0);
    const struct cekarum_settings settings = {.directions = n};
    uint64_t sum = cekarum_start(device, settings);
    sum += cekarum_join(device, n, n, n) + cekarum_leave(device, n, n) + cekarum_lost(device, n, n) + cekarum_back(device, n, n);
    sum += cekarum_override(device, n, n, n) + cekarum_clear(device, n) + cekarum_move(device, n);
    sum += cekarum_frame(device, n, n, frame, n, response, sizeof response).number;
    sum += (uint64_t)cekarum_ask(device).values[0] + cekarum_plan(device, rows, CEKARUM_PLAN_MAX).number;
    return (int)sum;
}
