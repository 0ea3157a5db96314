/* bench check: whether C and the library give the same answers. bench time: how many a second, side by side. bench once WHAT DATA WHO: one turn
 * over the smaller data, for an instruction count; bench never WHAT DATA WHO: all but that turn, for what such a count is too high by.
 * A result is a line: what, data, who, figure, unit. */
#include <stdio.h>
#include <stdlib.h>
#include <string.h>
#include <time.h>
#include "plain.h"
#include "warpsorrel.h"

/* ---- data, always the same */

static uint64_t state;

static uint64_t draw(uint64_t below) {
    state += UINT64_C(0x9e3779b97f4a7c15);
    uint64_t z = state;
    z = (z ^ z >> 30) * UINT64_C(0xbf58476d1ce4e5b9);
    z = (z ^ z >> 27) * UINT64_C(0x94d049bb133111eb);
    return (z ^ z >> 31) % below;
}

#define MOST 16384
#define FEW 1000

static const char *const waters[] = {"uniform", "sea-like", "one-salinity"};
static struct reading {
    int64_t sigma, tau, pi;
    double s, t, p;
    float salinity, temperature, pressure;
} readings[MOST];

/* Pressure over its whole range, and temperature from the coldest on; the salinity over its range too, or from 33 to 36, or 35. */
static void take_from(const char *which, int64_t coldest) {
    state = 1;
    for (int i = 0; i < MOST; i++) {
        struct reading *r = &readings[i];
        r->sigma = which == waters[0] ? (int64_t)draw(42001) : which == waters[1] ? 33000 + (int64_t)draw(3001) : 35000;
        r->tau = coldest + (int64_t)draw((uint64_t)(40001 - coldest));
        r->pi = (int64_t)draw(100001);
        r->s = (double)r->sigma / 1000;
        r->t = (double)r->tau / 1000;
        r->p = (double)r->pi / 100;
        r->salinity = (float)r->s;
        r->temperature = (float)r->t;
        r->pressure = (float)r->p;
    }
}

static void take_readings(const char *which) {
    take_from(which, -2000);
}

/* Those that have a ln K0. */
static void take_mild(const char *which) {
    take_from(which, 0);
}

/* By the old kinds, and by those of records with the probe's number. */
static const char *const streams[] = {"deep", "surface", "missing"}, *const numbered[] = {"deep-17", "surface-18", "missing-19"};
/* The longest stream that has a page, and a byte more, which makes one that is too long. */
#define STREAM 60000
static uint8_t stream[STREAM + 1], page[WARPSORREL_PAGE], other_page[WARPSORREL_PAGE];

static size_t put_record(size_t at, uint32_t kind, uint32_t floats, const struct reading *r, uint16_t probe) {
    uint32_t number = kind > 16 ? 2 : 0, body = number + 4 * floats;
    uint8_t head[4] = {(uint8_t)body, 0, (uint8_t)kind, 0}, low_first[2] = {(uint8_t)probe, (uint8_t)(probe >> 8)};
    float own[3] = {r->salinity, r->temperature, r->pressure};
    memcpy(stream + at, head, 4);
    memcpy(stream + at + 4, low_first, number);
    memcpy(stream + at + 4 + number, own, 4 * floats);
    return at + 4 + body;
}

/* 60,000 bytes of records of one kind, no two of them with one number; what is left is filled up with missing probes. */
static void take_stream(const char *which) {
    uint32_t d = 0, is_numbered;
    while (which != streams[d] && which != numbered[d]) d++;
    is_numbered = which == numbered[d];
    uint32_t kind = d + 1 + 16 * is_numbered, floats = d == 0 ? 3 : d == 1 ? 2 : 0, length = 4 + 2 * is_numbered + 4 * floats;
    size_t at = 0;
    uint16_t i = 0;
    take_readings(waters[0]);
    for (; at + length <= STREAM; i++) at = put_record(at, kind, floats, &readings[i], i);
    for (; at < STREAM; i++) at = put_record(at, STREAM - at >= 6 ? 19 : 3, 0, &readings[i], i);
}

/* The same with one number throughout. */
static void take_one_probe(const char *which) {
    take_stream(which);
    for (size_t at = 0; at < STREAM; at += 4u + stream[at])
        if (stream[at + 2] > 16) memcpy(stream + at + 4, "\1\2", 2);
}

static const char *const shapes[] = {"accepted", "refused", "sheet"};
/* Rows in a timed turn, so many that no processor learns them by heart; the longest row, with bytes to spare. */
#define ROWS 2048
#define ROW 80
static struct row rows[MOST];
static uint8_t table[ROWS * ROW];

/* The uniform readings from 0 degrees C on two by two, as details prints them, or all of them missing, each of another probe; or as the sheet does,
 * which is through with them after half the rows and starts again. */
static void take_rows(const char *which) {
    take_mild(waters[0]);
    for (int i = 0; i < MOST; i++) {
        const struct reading *r = &readings[i];
        int number = i / 2 + 1, side = i % 2;
        if (which == shapes[0]) {
            int64_t channel[8], ln_k0;
            warpsorrel_channel(1, 0, r->salinity, r->temperature, r->pressure, channel);
            warpsorrel_co2(1, r->salinity, r->temperature, r->pressure, &ln_k0);
            int density = (int)channel[3], bulk = (int)channel[4], letters = 0;
            for (int k = 5; k < 8; k++) letters = letters << 8 | " boa"[channel[k]];
            rows[i] = (struct row){ACCEPTED, number, side, {(int)r->sigma, (int)r->tau, (int)r->pi, density, bulk, (int)ln_k0, letters, i},
                                   {r->s, r->t, r->p, density / 1000.0, bulk / 100.0, (double)ln_k0 / 1e6}};
        } else if (which == shapes[1]) {
            rows[i] = (struct row){REFUSED, number, side, {1, 1, 1, 1, 1, 1, 1, i}, {0}};
        } else {
            int pair = i % (MOST / 2);
            int64_t out[3];
            r = &readings[2 * pair];
            warpsorrel_needle(1, 0, r[0].salinity, r[0].temperature, r[0].pressure, 1, 0, r[1].salinity, r[1].temperature, r[1].pressure, out);
            int left = (int)out[0], right = (int)out[1], needle = (int)out[2];
            rows[i] = (struct row){SHEET, pair + 1, 0, {left, right, needle}, {left, right, needle}};
        }
    }
}

/* ---- what is measured; each gives a number that depends on every answer */

#define GRID(name, density) \
    static uint64_t name(int n) { \
        uint64_t sum = 0; \
        for (int i = 0; i < n; i++) sum += density(readings[i].sigma, readings[i].tau, readings[i].pi); \
        return sum; \
    }
GRID(library_grid, warpsorrel_density)
GRID(plain_grid, plain_density)
GRID(jump_grid, jump_density)
GRID(sqrt_grid, sqrt_density)

static uint64_t double_grid(int n) {
    double sum = 0;
    for (int i = 0; i < n; i++) sum += double_density(readings[i].s, readings[i].t, readings[i].p);
    return (uint64_t)sum;
}

/* From floats, all checks, by all eight words; each of another probe. */
#define CHANNEL(name, channel) \
    static uint64_t name(int n) { \
        int64_t out[8], sum = 0; \
        for (int i = 0; i < n; i++) { \
            sum += channel(1, (uint16_t)i, readings[i].salinity, readings[i].temperature, readings[i].pressure, out); \
            for (int k = 0; k < 8; k++) sum += out[k]; \
        } \
        return (uint64_t)sum; \
    }
CHANNEL(library_channel, warpsorrel_channel)
CHANNEL(c_channel, plain_channel)

#define NEEDLE(name, needle) \
    static uint64_t name(int n) { \
        int64_t out[3], sum = 0; \
        for (int i = 0; i + 1 < n; i += 2) { \
            const struct reading *l = &readings[i], *r = l + 1; \
            sum += needle(1, (uint16_t)i, l->salinity, l->temperature, l->pressure, 1, (uint16_t)(i + 1), r->salinity, r->temperature, r->pressure, \
                          out); \
            sum += out[2]; \
        } \
        return (uint64_t)sum; \
    }
NEEDLE(library_needle, warpsorrel_needle)
NEEDLE(c_needle, plain_needle)

/* From floats too; the doubles check nothing and round nothing. */
static uint64_t formula_needle(int n) {
    double sum = 0;
    for (int i = 0; i + 1 < n; i += 2) {
        const struct reading *l = &readings[i], *r = l + 1;
        sum += double_needle(l->salinity, l->temperature, l->pressure, r->salinity, r->temperature, r->pressure);
    }
    return (uint64_t)(int64_t)sum;
}

#define CO2(name, co2) \
    static uint64_t name(int n) { \
        int64_t out, sum = 0; \
        for (int i = 0; i < n; i++) { \
            sum += co2(1, readings[i].salinity, readings[i].temperature, readings[i].pressure, &out); \
            sum += out; \
        } \
        return (uint64_t)sum; \
    }
CO2(library_co2, warpsorrel_co2)
CO2(c_co2, plain_co2)

/* From floats too, and nothing checked or rounded. */
static uint64_t formula_co2(int n) {
    double sum = 0;
    for (int i = 0; i < n; i++) sum += double_co2(readings[i].salinity, readings[i].temperature);
    return (uint64_t)(int64_t)sum;
}

#define PAGE(name, write) \
    static uint64_t name(int n) { \
        uint64_t sum = 0; \
        for (int i = 0; i < n; i++) { \
            size_t count; \
            sum += write(stream, STREAM, page, sizeof page, &count); \
            sum += count; \
        } \
        return sum; \
    }
PAGE(library_page, warpsorrel_page)
PAGE(c_page, plain_page)

/* One after the other, as a table has them. */
#define ROWS_BY(name, put) \
    static uint64_t name(int n) { \
        size_t at = 0; \
        for (int i = 0; i < n; i++) at = put(&rows[i], table, sizeof table, at); \
        return at; \
    }
ROWS_BY(library_rows, library_row)
ROWS_BY(whole_rows, whole_row)
ROWS_BY(double_rows, double_row)

static const struct work {
    const char *what, *who;
    uint64_t (*run)(int);
    int many, few; /* readings, pages or rows in a timed turn, in a counted one */
    double answers; /* a turn's answers to a reading, page or row */
    const char *unit;
} works[] = {
    {"reading", "library", library_grid, MOST, FEW, 1, "million"},
    {"reading", "plain", plain_grid, MOST, FEW, 1, "million"},
    {"reading", "plain-jump", jump_grid, MOST, FEW, 1, "million"},
    {"reading", "plain-sqrt", sqrt_grid, MOST, FEW, 1, "million"},
    {"reading", "double", double_grid, MOST, FEW, 1, "million"},
    {"channel", "library", library_channel, MOST, FEW, 1, "million"},
    {"channel", "plain", c_channel, MOST, FEW, 1, "million"},
    {"needle", "library", library_needle, MOST, FEW, 0.5, "million"},
    {"needle", "plain", c_needle, MOST, FEW, 0.5, "million"},
    {"needle", "double", formula_needle, MOST, FEW, 0.5, "million"},
    {"co2", "library", library_co2, MOST, FEW, 1, "million"},
    {"co2", "plain", c_co2, MOST, FEW, 1, "million"},
    {"co2", "double", formula_co2, MOST, FEW, 1, "million"},
    {"page", "library", library_page, 2, 1, 1, "thousand"},
    {"page", "plain", c_page, 2, 1, 1, "thousand"},
    {"row", "library", library_rows, ROWS, FEW / 5, 1, "million rows"},
    {"row", "snprintf", whole_rows, ROWS, FEW / 5, 1, "million rows"},
    {"row", "snprintf-double", double_rows, ROWS, FEW / 5, 1, "million rows"},
};
#define WORKS (int)(sizeof works / sizeof *works)

static const struct {
    const char *what;
    const char *const *data;
    void (*take)(const char *);
} all[] = {{"reading", waters, take_readings}, {"channel", waters, take_readings}, {"needle", waters, take_readings}, {"co2", waters, take_mild},
           {"page", streams, take_stream}, {"page", numbered, take_stream}, {"row", shapes, take_rows}};
#define ALL (int)(sizeof all / sizeof *all)

/* Whether a work answers to a thing's data: a refused row has no doubles. */
static int answers(int i, int a, int d) {
    return strcmp(works[i].what, all[a].what) == 0 && (works[i].run != double_rows || all[a].data[d] != shapes[1]);
}

/* ---- check */

static int differs(const char *what, const char *data, int i) {
    printf("differs: %s, %s data, number %d\n", what, data, i);
    return 1;
}

/* A report's floats, or one of them of any sort: refused, next to zero, at an end of a range; on the grid, beside it, a half. */
static void any_floats(const struct reading *r, float floats[3]) {
    static const uint32_t sorts[] = {0x7fc00000, 0xff800001, 0x7f800000, 0xff800000, 0x00000000, 0x80000000, 0x80000001, 0x42280000,
                                     0x42280001, 0x42200000, 0x42200001, 0xbf800000, 0x447a0001, 0x00000001, 0x447a0000, 0xbf800001,
                                     0xbf7fffff, 0x3e000000, 0x3e000001, 0x3dffffff, 0x3d800000, 0xbd800000, 0x3d800001, 0xbd800001};
    const float own[3] = {r->salinity, r->temperature, r->pressure};
    memcpy(floats, own, sizeof own);
    if (draw(2) == 0) memcpy(&floats[draw(3)], &sorts[draw(sizeof sorts / sizeof *sorts)], 4);
}

static int channel_differs(const struct reading *r, uint32_t kind, uint16_t probe) {
    float floats[3];
    int64_t one[8], two[8];
    any_floats(r, floats);
    uint32_t refusal = warpsorrel_channel(kind, probe, floats[0], floats[1], floats[2], one);
    return refusal != plain_channel(kind, probe, floats[0], floats[1], floats[2], two) || memcmp(one, two, sizeof one) != 0;
}

static int co2_differs(const struct reading *r, uint32_t kind) {
    float floats[3];
    int64_t one, two;
    any_floats(r, floats);
    uint32_t refusal = warpsorrel_co2(kind, floats[0], floats[1], floats[2], &one);
    return refusal != plain_co2(kind, floats[0], floats[1], floats[2], &two) || one != two;
}

/* Whether the two pages of so many bytes differ, in a room of so many: refusal, count, bytes. */
static int pages_differ(size_t length, size_t room) {
    size_t one, two;
    uint32_t refusal = warpsorrel_page(stream, length, page, room, &one);
    return refusal != plain_page(stream, length, other_page, room, &two) || one != two || memcmp(page, other_page, one) != 0;
}

/* Whether a row differs, put at a place where another might have ended. */
static int row_differs(const struct row *r, size_t at) {
    size_t (*const put[])(const struct row *, uint8_t *, size_t, size_t) = {library_row, whole_row, double_row}, past[3];
    uint8_t out[3][2 * ROW];
    for (int k = 0; k < (r->shape == REFUSED ? 2 : 3); k++) {
        memset(out[k], k, sizeof out[k]);
        past[k] = put[k](r, out[k], sizeof out[k], at);
        if (past[k] != past[0] || memcmp(out[k] + at, out[0] + at, past[0] - at) != 0) return 1;
    }
    return 0;
}

static double pressure_of(const struct reading *r, uint32_t kind) {
    return kind == WARPSORREL_DEEP || kind == WARPSORREL_NUMBERED_DEEP ? r->p : 0;
}

static int check(void) {
    static const uint32_t kinds[] = {WARPSORREL_DEEP, WARPSORREL_DEEP, WARPSORREL_DEEP, WARPSORREL_SURFACE, WARPSORREL_SURFACE,
                                     WARPSORREL_MISSING, 4, WARPSORREL_CUT, WARPSORREL_UNKNOWN, WARPSORREL_LENGTH, WARPSORREL_NUMBERED_DEEP,
                                     WARPSORREL_NUMBERED_DEEP, WARPSORREL_NUMBERED_SURFACE, WARPSORREL_NUMBERED_MISSING, 20};
    static const uint16_t probes[] = {0, 0, 1, 256, 513, 513, 513, 65535};
    for (int d = 0; d < 3; d++) {
        take_readings(waters[d]);
        for (int i = 0; i < MOST; i++) {
            const struct reading *r = &readings[i], *l = &readings[(i + 1) % MOST];
            uint32_t density = warpsorrel_density(r->sigma, r->tau, r->pi);
            if (density != plain_density(r->sigma, r->tau, r->pi) || density != jump_density(r->sigma, r->tau, r->pi) ||
                density != sqrt_density(r->sigma, r->tau, r->pi))
                return differs("reading", waters[d], i);
            double off = double_density(r->s, r->t, r->p) - density / 1000.0;
            if (off > 0.0006 || off < -0.0006) return differs("reading in doubles", waters[d], i);
            int64_t one[3], two[3];
            uint32_t lk = kinds[draw(sizeof kinds / sizeof *kinds)], rk = kinds[draw(sizeof kinds / sizeof *kinds)];
            uint16_t ln = probes[draw(sizeof probes / sizeof *probes)], rn = probes[draw(sizeof probes / sizeof *probes)];
            uint32_t refusal = warpsorrel_needle(lk, ln, l->salinity, l->temperature, l->pressure, rk, rn, r->salinity, r->temperature, r->pressure,
                                                 one);
            if (refusal != plain_needle(lk, ln, l->salinity, l->temperature, l->pressure, rk, rn, r->salinity, r->temperature, r->pressure, two) ||
                memcmp(one, two, sizeof one) != 0)
                return differs("needle", waters[d], i);
            off = double_needle(l->s, l->t, pressure_of(l, lk), r->s, r->t, pressure_of(r, rk)) - (double)one[2] / 1000;
            if (refusal == 0 && (off > 0.0012 || off < -0.0012)) return differs("needle in doubles", waters[d], i);
            if (channel_differs(r, lk, ln)) return differs("channel", waters[d], i);
            if (co2_differs(r, rk)) return differs("ln K0", waters[d], i);
        }
        take_mild(waters[d]);
        for (int i = 0; i < MOST; i++) {
            const struct reading *r = &readings[i];
            int64_t ln_k0;
            if (co2_differs(r, WARPSORREL_DEEP) || warpsorrel_co2(WARPSORREL_DEEP, r->salinity, r->temperature, r->pressure, &ln_k0) != 0)
                return differs("ln K0", waters[d], i);
            double off = double_co2(r->s, r->t) - (double)ln_k0 / 1e6;
            if (off > 0.000002 || off < -0.000002) return differs("ln K0 in doubles", waters[d], i);
        }
        take_stream(streams[d]);
        if (pages_differ(STREAM, sizeof page)) return differs("page", streams[d], 0);
        if (pages_differ(STREAM, sizeof page - 1)) return differs("page refused", streams[d], 0);
        if (pages_differ(STREAM + 1, sizeof page)) return differs("page too long", streams[d], 0);
        take_stream(numbered[d]);
        if (pages_differ(STREAM, sizeof page)) return differs("page", numbered[d], 0);
        take_one_probe(numbered[d]);
        if (pages_differ(STREAM, sizeof page)) return differs("page of one probe", numbered[d], 0);
        take_rows(shapes[d]);
        for (int i = 0; i < MOST; i++)
            if (row_differs(&rows[i], (size_t)i % ROW)) return differs("row", shapes[d], i);
    }
    printf("the library and C agree: %d readings, %d channels, %d needles, %d of ln K0, 9 pages, %d rows\n", 3 * MOST, 3 * MOST, 3 * MOST,
           6 * MOST, 3 * MOST);
    return 0;
}

/* ---- time */

static double now(void) {
    struct timespec t;
    clock_gettime(CLOCK_MONOTONIC, &t);
    return (double)t.tv_sec + 1e-9 * (double)t.tv_nsec;
}

static volatile uint64_t sink;

/* Everyone has a turn in every round; the best turn counts. */
static void time_all(int rounds) {
    for (int a = 0; a < ALL; a++) {
        for (int d = 0; d < 3; d++) {
            const char *what = all[a].what, *data = all[a].data[d];
            double best[WORKS];
            all[a].take(data);
            for (int i = 0; i < WORKS; i++) best[i] = 1e9;
            for (int round = 0; round < rounds; round++) {
                for (int i = 0; i < WORKS; i++) {
                    if (!answers(i, a, d)) continue;
                    double start = now();
                    sink += works[i].run(works[i].many);
                    double took = now() - start;
                    if (took < best[i]) best[i] = took;
                }
            }
            for (int i = 0; i < WORKS; i++) {
                if (!answers(i, a, d)) continue;
                double rate = works[i].many * works[i].answers / best[i];
                printf("%s\t%s\t%s\t%.3f\t%s a second\n", what, data, works[i].who, rate / (works[i].unit[0] == 'm' ? 1e6 : 1e3), works[i].unit);
            }
        }
    }
}

/* ---- once: the answers of the turn are printed, which is what a count is divided by */

static int once(int turns, const char *what, const char *data, const char *who) {
    for (int a = 0; a < ALL; a++) {
        for (int d = 0; d < 3; d++) {
            if (strcmp(all[a].what, what) != 0 || strcmp(all[a].data[d], data) != 0) continue;
            for (int i = 0; i < WORKS; i++) {
                if (!answers(i, a, d) || strcmp(works[i].who, who) != 0) continue;
                all[a].take(all[a].data[d]);
                sink = works[i].run(turns * works[i].few);
                printf("%.0f\n", works[i].few * works[i].answers);
                return 0;
            }
        }
    }
    return 2;
}

int main(int argc, char **argv) {
    if (argc == 2 && strcmp(argv[1], "check") == 0) return check();
    if (argc == 3 && strcmp(argv[1], "time") == 0) return time_all(atoi(argv[2])), 0;
    if (argc == 5 && strcmp(argv[1], "once") == 0) return once(1, argv[2], argv[3], argv[4]);
    if (argc == 5 && strcmp(argv[1], "never") == 0) return once(0, argv[2], argv[3], argv[4]);
    fprintf(stderr, "bench check | time ROUNDS | once WHAT DATA WHO | never WHAT DATA WHO\n");
    return 2;
}
