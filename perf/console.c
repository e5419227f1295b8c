/* The console over plain.c: lines of text in, one line of answer for each. */
#include "plain.h"
#include "rescue.h"
#include <stdio.h>
#include <string.h>

enum { LONGEST = 16384, WORDS = 14, PAIRS_ROOM = 2 * PLAIN_PAIRS };

static struct plain device;
static uint8_t bytes[LONGEST];
static size_t byte_count;
static uint16_t attributes[LONGEST];
static size_t attribute_count;

/* A decimal number, with or without a minus; one that 64 bits cannot hold becomes the largest, which is out of every range. */
static bool number(const char *s, uint64_t *v, bool *negative)
{
    uint64_t got = 0;
    bool large = false;
    *negative = *s == '-';
    if (*negative)
        s++;
    if (*s == 0)
        return false;
    for (; *s != 0; s++) {
        if (*s < '0' || *s > '9')
            return false;
        unsigned digit = (unsigned)(*s - '0');
        if (got > (UINT64_MAX - digit) / 10)
            large = true;
        else
            got = got * 10 + digit;
    }
    *negative = *negative && (got != 0 || large);
    *v = large || *negative ? UINT64_MAX : got;
    return true;
}

static bool natural(const char *s, uint64_t *v)
{
    bool negative;
    return number(s, v, &negative);
}

static bool flag(const char *s, bool *v)
{
    uint64_t got;
    if (!natural(s, &got) || got > 1)
        return false;
    *v = got == 1;
    return true;
}

/* A room is cut to the longest answer. */
static bool room_of(const char *s, size_t longest, size_t *v)
{
    uint64_t got;
    bool negative;
    if (!number(s, &got, &negative) || negative)
        return false;
    *v = got > longest ? longest : (size_t)got;
    return true;
}

static bool maximum(const char *s, bool *has, uint64_t *v)
{
    *has = strcmp(s, "-") != 0;
    *v = 0;
    return !*has || natural(s, v);
}

static int hex(char c)
{
    return c >= '0' && c <= '9' ? c - '0' : c >= 'a' && c <= 'f' ? c - 'a' + 10 : -1;
}

static bool read_bytes(const char *s)
{
    byte_count = 0;
    if (strcmp(s, "-") == 0)
        return true;
    if (*s == 0 || strlen(s) % 2 != 0)
        return false;
    for (; *s != 0; s += 2) {
        int high = hex(s[0]), low = hex(s[1]);
        if (high < 0 || low < 0)
            return false;
        bytes[byte_count++] = (uint8_t)(high << 4 | low);
    }
    return true;
}

static bool read_attributes(char *s)
{
    attribute_count = 0;
    if (strcmp(s, "-") == 0)
        return true;
    for (;;) {
        char *comma = strchr(s, ',');
        uint64_t v;
        if (comma != NULL)
            *comma = 0;
        if (!natural(s, &v) || v > 65535)
            return false;
        attributes[attribute_count++] = (uint16_t)v;
        if (comma == NULL)
            return true;
        s = comma + 1;
    }
}

static void print_some(uint64_t n, const uint8_t *out, size_t length)
{
    printf("%llu ", (unsigned long long)n);
    if (length == 0)
        putchar('-');
    for (size_t i = 0; i < length; i++)
        printf("%02x", out[i]);
}

static void print_bytes(uint64_t n, const uint8_t *out, size_t length)
{
    print_some(n, out, length);
    putchar('\n');
}

static bool print_number(uint64_t n)
{
    printf("%llu\n", (unsigned long long)n);
    return true;
}

static bool do_start(char **w)
{
    struct plain_settings s = {0};
    if (!natural(w[1], &s.directions) || !flag(w[2], &s.accepts_limits) || !flag(w[3], &s.accepts_setpoints) ||
        !natural(w[4], &s.minimum) || !maximum(w[5], &s.has_maximum[0], &s.maximum[0]) ||
        !maximum(w[6], &s.has_maximum[1], &s.maximum[1]) || !natural(w[7], &s.failsafe[0]) ||
        !natural(w[8], &s.failsafe[1]) || !natural(w[9], &s.duration) || !flag(w[10], &s.manager) ||
        !natural(w[11], &s.phases) || !flag(w[12], &s.accepts_currents))
        return false;
    return print_number(plain_start(&device, &s));
}

static bool do_join(char **w)
{
    uint64_t zone, rank, time;
    return natural(w[1], &zone) && natural(w[2], &rank) && natural(w[3], &time) &&
           print_number(plain_join(&device, zone, rank, time));
}

static bool do_zone(char **w)
{
    uint64_t zone, time;
    if (!natural(w[1], &zone) || !natural(w[2], &time))
        return false;
    return print_number(strcmp(w[0], "leave") == 0  ? plain_leave(&device, zone, time)
                        : strcmp(w[0], "lost") == 0 ? plain_lost(&device, zone, time)
                                                    : plain_back(&device, zone, time));
}

static bool do_override(char **w)
{
    uint64_t reason, direction, time;
    return natural(w[1], &reason) && natural(w[2], &direction) && natural(w[3], &time) &&
           print_number(plain_override(&device, reason, direction, time));
}

static bool do_clear(char **w)
{
    uint64_t time;
    return natural(w[1], &time) && print_number(plain_clear(&device, time));
}

static bool do_move(char **w)
{
    uint64_t time;
    return natural(w[1], &time) && print_number(plain_move(&device, time));
}

static bool do_ask(char **w)
{
    (void)w;
    struct plain_answer a = plain_ask(&device);
    printf("0");
    for (int i = 0; i < PLAIN_VALUES; i++)
        printf(" %lld", (long long)a.value[i]);
    putchar('\n');
    return true;
}

static bool do_plan(char **w)
{
    static int64_t rows[PLAIN_ROW * PLAIN_ROWS];
    size_t room;
    if (!room_of(w[1], PLAIN_ROW * PLAIN_ROWS, &room))
        return false;
    struct plain_written r = plain_plan(&device, rows, room);
    printf("%llu", (unsigned long long)r.number);
    for (size_t i = 0; i < PLAIN_ROW * r.length; i++)
        printf(" %lld", (long long)rows[i]);
    putchar('\n');
    return true;
}

static bool do_rows(char **w)
{
    static struct plain_row rows[PLAIN_ROWS];
    size_t room;
    if (!room_of(w[1], PLAIN_ROWS, &room))
        return false;
    struct plain_written r = plain_plain_plan(&device, rows, room);
    printf("%llu", (unsigned long long)r.number);
    for (size_t i = 0; i < r.length; i++) {
        printf(" %llu", (unsigned long long)rows[i].second);
        for (unsigned j = 0; j < PLAIN_VALUES; j++)
            printf(" %lld", (long long)rows[i].value[j]);
    }
    putchar('\n');
    return true;
}

static bool do_frame(char **w)
{
    uint8_t out[PLAIN_FRAME_MAX];
    uint64_t zone, time;
    size_t room;
    if (!natural(w[1], &zone) || !natural(w[2], &time) || !room_of(w[3], sizeof out, &room) || !read_bytes(w[4]))
        return false;
    struct plain_written r = plain_frame(&device, zone, time, bytes, byte_count, out, room);
    print_bytes(r.number, out, r.length);
    return true;
}

static bool do_request(char **w)
{
    uint8_t out[PLAIN_REQUEST_MAX];
    struct plain_request r;
    struct plain_written again = {0, 0};
    if (!read_bytes(w[1]))
        return false;
    uint64_t n = plain_read_request(bytes, byte_count, &r);
    if (n == 0)
        again = plain_write_request(&r, out, sizeof out);
    print_bytes(n, out, again.length);
    return true;
}

static bool do_response(char **w)
{
    uint8_t out[PLAIN_RESPONSE_MAX];
    struct plain_response r;
    struct plain_written again = {0, 0};
    uint64_t command;
    if (!natural(w[1], &command) || !read_bytes(w[2]))
        return false;
    uint64_t n = plain_read_response(command, bytes, byte_count, &r);
    if (n == 0)
        again = plain_write_response(command, &r, out, sizeof out);
    print_bytes(n, out, again.length);
    return true;
}

static bool do_scrap(char **w)
{
    static struct plain_receiver receiver;
    static uint8_t room[PLAIN_FRAME_MAX];
    bool fresh = strcmp(w[1], "new") == 0;
    size_t lent;
    if ((!fresh && strcmp(w[1], "same") != 0) || !room_of(w[2], sizeof room, &lent) || !read_bytes(w[3]))
        return false;
    if (fresh) {
        receiver = (struct plain_receiver){0, 0, 0};
        memset(room, 0, sizeof room);
    }
    struct plain_received r = plain_receive(&receiver, room, lent, bytes, byte_count);
    printf("%llu ", (unsigned long long)r.number);
    print_bytes(r.taken, room, r.length);
    return true;
}

/* A flow that is there, behind a space and under its name; how many that were. */
static unsigned print_flow(const char *name, uint64_t flow)
{
    static const char *const says[] = {"absent", "none", "in", "out"};
    if (flow == PLAIN_FLOW_ABSENT)
        return 0;
    printf(" %s:%s", name, says[flow]);
    return 1;
}

static bool do_meas(char **w)
{
    static const char *const phases[] = {"10.0", "10.1", "10.2"};
    uint8_t out[PLAIN_MEASUREMENT_MAX];
    struct plain_measurement m = {0}; /* no flow beside a refusal */
    struct plain_written again = {0, 0};
    if (!read_bytes(w[1]))
        return false;
    uint64_t n = plain_read_measurement(bytes, byte_count, &m);
    if (n == 0)
        again = plain_write_measurement(&m, out, sizeof out);
    print_some(n, out, again.length);
    unsigned flows = print_flow("1", plain_power_flow(&m)) + print_flow("40", plain_dc_flow(&m));
    for (unsigned i = 0; i < PLAIN_PHASES; i++)
        flows += print_flow(phases[i], plain_phase_flow(&m, i));
    printf(flows == 0 ? " -\n" : "\n");
    return true;
}

static bool do_rescue(char **w)
{
    static uint8_t out[MOST];
    size_t kept = 0, from = 0;
    if (!read_bytes(w[1]))
        return false;
    for (size_t at = 0, length; at < byte_count; at += length == 0 ? 1 : length) {
        length = record_length(bytes + at, byte_count - at);
        memcpy(out + kept, bytes + at, length);
        kept += length;
    }
    print_some(0, out, kept);
    unsigned runs = 0;
    for (size_t at = 0; at <= byte_count;) {
        size_t length = at < byte_count ? record_length(bytes + at, byte_count - at) : 0;
        if (at == byte_count || length > 0) {
            if (from < at)
                runs++, printf(" %lu:%lu", (unsigned long)from, (unsigned long)(at - from));
            from = at + length;
        }
        at += length == 0 ? 1 : length;
    }
    printf(runs == 0 ? " -\n" : "\n");
    return true;
}

static bool do_tick(char **w)
{
    static struct plain_front front;
    bool fresh = strcmp(w[1], "new") == 0;
    uint64_t tick;
    if ((!fresh && strcmp(w[1], "same") != 0) || !natural(w[2], &tick) || tick > UINT32_MAX)
        return false;
    if (fresh)
        front = (struct plain_front){false, 0, 0, 0};
    struct plain_second r = plain_tick(&front, (uint32_t)tick);
    printf("%llu %lld\n", (unsigned long long)r.number, (long long)r.seconds);
    return true;
}

static bool do_conf(char **w)
{
    static uint64_t pairs[PAIRS_ROOM];
    struct plain_inputs in;
    size_t room;
    if (!natural(w[1], &in.type) || !natural(w[2], &in.map) || !natural(w[3], &in.phases) || !natural(w[4], &in.directions) ||
        !flag(w[5], &in.limits) || !flag(w[6], &in.current) || !flag(w[7], &in.setpoints) || !flag(w[8], &in.process) ||
        !room_of(w[9], PAIRS_ROOM, &room) || !read_attributes(w[10]))
        return false;
    struct plain_written r = plain_report(&in, attributes, attribute_count, pairs, room);
    printf("%llu", (unsigned long long)r.number);
    if (r.length == 0)
        printf(" -");
    for (size_t i = 0; i < r.length; i++)
        printf(" %llu:%llu", (unsigned long long)pairs[2 * i], (unsigned long long)pairs[2 * i + 1]);
    putchar('\n');
    return true;
}

static const struct {
    const char *word;
    int words;
    bool (*run)(char **);
} commands[] = {
    {"start", 13, do_start},   {"join", 4, do_join},         {"leave", 3, do_zone},
    {"lost", 3, do_zone},      {"back", 3, do_zone},         {"override", 4, do_override},
    {"clear", 2, do_clear},    {"move", 2, do_move},         {"ask", 1, do_ask},
    {"plan", 2, do_plan},      {"request", 2, do_request},   {"response", 3, do_response},
    {"rows", 2, do_rows},      {"frame", 5, do_frame},       {"scrap", 4, do_scrap},
    {"conf", 11, do_conf},     {"meas", 2, do_meas},
    {"tick", 3, do_tick},      {"rescue", 2, do_rescue},
};

/* Words parted by one space: their count, or -1 where there are too many. */
static int split(char *line, char **words)
{
    int count = 0;
    for (;;) {
        if (count == WORDS)
            return -1;
        words[count++] = line;
        line = strchr(line, ' ');
        if (line == NULL)
            return count;
        *line++ = 0;
    }
}

static bool run_line(char *line, size_t length)
{
    char *words[WORDS];
    if (memchr(line, 0, length) != NULL)
        return false;
    int count = split(line, words);
    for (size_t i = 0; i < sizeof commands / sizeof *commands; i++)
        if (count == commands[i].words && strcmp(words[0], commands[i].word) == 0)
            return commands[i].run(words);
    return false;
}

int main(void)
{
    static char line[LONGEST + 2];
    static const struct plain_settings bad = {.directions = 3};
    size_t length = 0;
    int c;
    plain_start(&device, &bad);
    do {
        c = getchar();
        if (c != '\n' && c != EOF) {
            if (length <= LONGEST)
                line[length++] = (char)c;
            continue;
        }
        line[length] = 0;
        if (length > 0 && (length > LONGEST || !run_line(line, length)))
            printf("bad line\n");
        length = 0;
    } while (c != EOF);
    return 0;
}
