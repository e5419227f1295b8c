/* What a box measures, read from a payload and printed with its units: a battery that is charged, a meter that feeds in, and a
   payload that is refused; then a reading of the box's own, written. */
#include "cekarum.h"
#include <stdio.h>

static bool is_there(const struct cekarum_measurement *m, int place)
{
    return (m->there & CEKARUM_THERE(place)) != 0;
}

/* Whole units and thousandths of them; the most negative number has no positive one. */
static void print_thousandths(const char *name, int64_t value, const char *unit)
{
    uint64_t size = value < 0 ? ~(uint64_t)value + 1 : (uint64_t)value;
    printf("  %s %s%llu.%03u%s\n", name, value < 0 ? "-" : "", (unsigned long long)(size / 1000), (unsigned)(size % 1000), unit);
}

static void print_unsigned(const char *name, uint64_t value, const char *unit)
{
    printf("  %s %llu.%03u%s\n", name, (unsigned long long)(value / 1000), (unsigned)(value % 1000), unit);
}

static void print_signed_at(const struct cekarum_measurement *m, int place, const char *name, int64_t value, const char *unit)
{
    if (is_there(m, place))
        print_thousandths(name, value, unit);
}

static void print_unsigned_at(const struct cekarum_measurement *m, int place, const char *name, uint64_t value, const char *unit)
{
    if (is_there(m, place))
        print_unsigned(name, value, unit);
}

static void print_whole_at(const struct cekarum_measurement *m, int place, const char *name, uint64_t value, const char *unit)
{
    if (is_there(m, place))
        printf("  %s %llu%s\n", name, (unsigned long long)value, unit);
}

static void print_phases(const struct cekarum_measurement *m)
{
    static const char *const phases[3] = {"phase A", "phase B", "phase C"}, *const pairs[3] = {"A to B", "B to C", "C to A"};
    for (int i = 0; i < 3; i++) {
        print_signed_at(m, CEKARUM_AC_ACTIVE_POWER_PER_PHASE + i, phases[i], m->ac_active_power_per_phase[i], " W");
        print_signed_at(m, CEKARUM_AC_REACTIVE_POWER_PER_PHASE + i, phases[i], m->ac_reactive_power_per_phase[i], " VAR");
        print_signed_at(m, CEKARUM_AC_APPARENT_POWER_PER_PHASE + i, phases[i], m->ac_apparent_power_per_phase[i], " VA");
        print_signed_at(m, CEKARUM_AC_CURRENT_PER_PHASE + i, phases[i], m->ac_current_per_phase[i], " A");
        print_unsigned_at(m, CEKARUM_AC_VOLTAGE_PER_PHASE + i, phases[i], m->ac_voltage_per_phase[i], " V");
    }
    for (int i = 0; i < 3; i++)
        print_unsigned_at(m, CEKARUM_AC_VOLTAGE_PHASE_TO_PHASE_PAIR + i, pairs[i], m->ac_voltage_phase_to_phase_pair[i], " V");
}

static void print_ac(const struct cekarum_measurement *m)
{
    print_signed_at(m, CEKARUM_AC_ACTIVE_POWER, "active power", m->ac_active_power, " W");
    print_signed_at(m, CEKARUM_AC_REACTIVE_POWER, "reactive power", m->ac_reactive_power, " VAR");
    print_unsigned_at(m, CEKARUM_AC_APPARENT_POWER, "apparent power", m->ac_apparent_power, " VA");
    print_phases(m);
    print_unsigned_at(m, CEKARUM_AC_FREQUENCY, "frequency", m->ac_frequency, " Hz");
    print_signed_at(m, CEKARUM_POWER_FACTOR, "power factor", m->power_factor, "");
    print_unsigned_at(m, CEKARUM_AC_ENERGY_CONSUMED, "energy consumed", m->ac_energy_consumed, " Wh");
    print_unsigned_at(m, CEKARUM_AC_ENERGY_PRODUCED, "energy produced", m->ac_energy_produced, " Wh");
}

static void print_dc(const struct cekarum_measurement *m)
{
    print_signed_at(m, CEKARUM_DC_POWER, "dc power", m->dc_power, " W");
    print_signed_at(m, CEKARUM_DC_CURRENT, "dc current", m->dc_current, " A");
    print_unsigned_at(m, CEKARUM_DC_VOLTAGE, "dc voltage", m->dc_voltage, " V");
    print_unsigned_at(m, CEKARUM_DC_ENERGY_IN, "dc energy in", m->dc_energy_in, " Wh");
    print_unsigned_at(m, CEKARUM_DC_ENERGY_OUT, "dc energy out", m->dc_energy_out, " Wh");
    print_whole_at(m, CEKARUM_STATE_OF_CHARGE, "state of charge", m->state_of_charge, " %");
    print_whole_at(m, CEKARUM_STATE_OF_HEALTH, "state of health", m->state_of_health, " %");
    print_unsigned_at(m, CEKARUM_STATE_OF_ENERGY, "state of energy", m->state_of_energy, " Wh");
    print_unsigned_at(m, CEKARUM_USEABLE_CAPACITY, "useable capacity", m->useable_capacity, " Wh");
    print_whole_at(m, CEKARUM_CYCLE_COUNT, "cycles", m->cycle_count, "");
    print_signed_at(m, CEKARUM_TEMPERATURE, "temperature", 10 * (int64_t)m->temperature, " degrees Celsius");
}

static void print_flow(const char *name, uint64_t flow)
{
    static const char *const says[] = {"", "no flow", "flows in", "flows out"};
    if (flow != CEKARUM_FLOW_ABSENT)
        printf("  %s: %s\n", name, says[flow]);
}

static void show(const char *name, const uint8_t *payload, uint64_t length)
{
    struct cekarum_measurement_read read = cekarum_read_measurement(payload, length);
    const struct cekarum_measurement *m = &read.measurement;
    if (read.number != CEKARUM_OK) {
        printf("%s: refused with %llu\n", name, (unsigned long long)read.number);
        return;
    }
    printf("%s:\n", name);
    print_ac(m);
    print_dc(m);
    print_flow("active power", cekarum_power_flow(m));
    print_flow("dc power", cekarum_dc_flow(m));
    print_flow("phase A", cekarum_phase_flow(m, 0));
    print_flow("phase B", cekarum_phase_flow(m, 1));
    print_flow("phase C", cekarum_phase_flow(m, 2));
}

/* Document 002's battery that is charged with 2 kW. */
static const uint8_t battery[] = {
    0xab, 0x18, 0x28, 0x1a, 0x00, 0x1e, 0x84, 0x80,       /* 40: 2,000,000 mW */
    0x18, 0x29, 0x19, 0x0f, 0xa0,                         /* 41: 4,000 mA */
    0x18, 0x2a, 0x1a, 0x00, 0x07, 0xa1, 0x20,             /* 42: 500,000 mV */
    0x18, 0x2b, 0x1a, 0x32, 0xa9, 0xf8, 0x80,             /* 43: 850,000,000 mWh */
    0x18, 0x2c, 0x1a, 0x2e, 0x7d, 0xdb, 0x00,             /* 44: 780,000,000 mWh */
    0x18, 0x32, 0x18, 0x41, 0x18, 0x33, 0x18, 0x61,       /* 50: 65 %, 51: 97 % */
    0x18, 0x34, 0x1a, 0x00, 0x63, 0x2e, 0xa0,             /* 52: 6,500,000 mWh */
    0x18, 0x35, 0x1a, 0x00, 0x98, 0x96, 0x80,             /* 53: 10,000,000 mWh */
    0x18, 0x36, 0x19, 0x01, 0x56,                         /* 54: 342 */
    0x18, 0x3c, 0x19, 0x0b, 0x22,                         /* 60: 2,850, 28.5 degrees */
};

/* A state of charge of 101. */
static const uint8_t overfull[] = {0xa1, 0x18, 0x32, 0x18, 0x65};

int main(void)
{
    struct cekarum_measurement feeding = {.ac_active_power = -5000000,
                                          .ac_active_power_per_phase = {-2500000, -2500000, 0},
                                          .ac_voltage_per_phase = {230500, 231000, 229800},
                                          .ac_frequency = 50020,
                                          .power_factor = -998,
                                          .ac_energy_produced = 8450000000};
    uint8_t payload[CEKARUM_MEASUREMENT_MAX];
    feeding.there = CEKARUM_THERE(CEKARUM_AC_ACTIVE_POWER) | CEKARUM_THERE(CEKARUM_AC_FREQUENCY) |
                    CEKARUM_THERE(CEKARUM_POWER_FACTOR) | CEKARUM_THERE(CEKARUM_AC_ENERGY_PRODUCED);
    for (int i = 0; i < 3; i++)
        feeding.there |= CEKARUM_THERE(CEKARUM_AC_ACTIVE_POWER_PER_PHASE + i) | CEKARUM_THERE(CEKARUM_AC_VOLTAGE_PER_PHASE + i);
    show("battery", battery, sizeof battery);
    show("overfull battery", overfull, sizeof overfull);
    struct cekarum_written written = cekarum_write_measurement(&feeding, payload, sizeof payload);
    printf("written: %llu bytes\n", (unsigned long long)written.length);
    show("inverter", payload, written.length);
    feeding.power_factor = -1001;
    printf("power factor -1.001: refused with %llu\n",
           (unsigned long long)cekarum_write_measurement(&feeding, payload, sizeof payload).number);
    return 0;
}
