/* Every input is a stream. Held to the oracle: the count of pairs; the page, its refusal and its count; the first pair, the last, one past
 * the end and two picked by the input's bytes, each by all its words; and channels, needle and line of such a pair's reports, a channel at the
 * surface with another pressure as well, all of them as of other probes too, whose numbers are often one and the same, and with the sides
 * swapped; ln K0 of every report, with another pressure too; the root of every report's salinity, and of numbers
 * that are mostly off the grid, with a line of its search. The densities and the needle of such a pair are held as well to what is proved of them
 * beside the published formula at the floats as sent, ln K0 to its equation on the grid, a root to the squares on either side. The bytes and
 * words past an answer and beside it have to keep their values; a room that is too short has to be left untouched. The rounding mode and
 * flush-to-zero are the input's choice: they must change nothing. Called with --long, the input is repeated to about 60,000 bytes, the length
 * from which a stream is too long. */
#include <math.h>
#include <stdint.h>
#include <stdio.h>
#include <stdlib.h>
#include <string.h>
#include <xmmintrin.h>
#include "oracle.h"
#include "warpsorrel.h"

#define KEPT 0xa5
#define WINDOW 512

/* The rooms lie between kept bytes. They hold KEPT throughout; what a page or a line takes is put back after it is compared. */
static uint8_t room[64 + WARPSORREL_PAGE + 64], short_room[64 + WARPSORREL_PAGE + 64], expected[WARPSORREL_PAGE + 64], repeated[60100];
static uint8_t line_room[64 + 2 * WARPSORREL_LINE + 64];
static int is_long;
static uint64_t calls;
static const uint8_t *now;
static size_t now_length;

/* The stream is kept by hand: an emulator may not outlive the fuzzer's own way to keep it. */
static void fail(const char *what) {
    fprintf(stderr, "differs after %llu executions: %s\n", (unsigned long long)calls, what);
    FILE *out = fopen("target/fuzz/difference", "wb");
    if (out != NULL) {
        if (now != NULL) fwrite(now, 1, now_length, out);
        fclose(out);
    }
    _Exit(1);
}

static int kept(const uint8_t *at, size_t n) {
    return n == 0 || (*at == KEPT && memcmp(at, at + 1, n - 1) == 0);
}

/* A stray byte stays where it is, so that looking at all of both rooms now and then misses none. */
static void look_at_all(void) {
    if (!kept(room, sizeof room)) fail("a byte past the page");
    if (!kept(short_room, sizeof short_room)) fail("a byte of a room that is too short");
}

/* ---- words lent to the library, between two others */

#define UNTOUCHED INT64_C(0x5a5a5a5a5a5a5a5a)
static int64_t words[10];
static size_t counts[3];

static int64_t *lend_words(void) {
    for (int i = 0; i < 10; i++) words[i] = UNTOUCHED;
    return words + 1;
}

static void compare_words(const char *what, const int64_t *right, size_t n) {
    if (memcmp(words + 1, right, n * sizeof *right) != 0) fail(what);
    if (words[0] != UNTOUCHED || words[n + 1] != UNTOUCHED) fail("a word beside those lent");
}

static size_t *lend_count(void) {
    for (int i = 0; i < 3; i++) counts[i] = (size_t)UNTOUCHED;
    return counts + 1;
}

static void compare_count(const char *what, size_t right) {
    if (counts[1] != right) fail(what);
    if (counts[0] != (size_t)UNTOUCHED || counts[2] != (size_t)UNTOUCHED) fail("a word beside the count");
}

/* ---- one pair */

struct report {
    uint32_t kind;
    uint16_t probe;
    float salinity, temperature, pressure;
};

/* The bits as they are. An unknown kind is a record's own or, as often, the one that stands for all of them. A reading's kind is its record's or, as
 * often, the other one, old or numbered, which means the same: the number is handed over beside it. */
static struct report report_of(const struct oracle_report *from, uint32_t refusal) {
    struct report to;
    int is_reading = refusal < 6;
    to.kind = refusal == 7 && calls % 2 == 0 ? WARPSORREL_UNKNOWN : is_reading && calls / 2 % 2 == 0 ? from->kind ^ 16 : from->kind;
    to.probe = from->probe;
    memcpy(&to.salinity, &from->floats[0], 4);
    memcpy(&to.temperature, &from->floats[1], 4);
    memcpy(&to.pressure, &from->floats[2], 4);
    return to;
}

/* Two reports, as the oracle has them and as the library is given them, and the channels that they make. */
struct two {
    struct oracle_report reports[2];
    struct oracle_channel channels[2];
    struct report given[2];
};

static void look_at_line(uint32_t number, const struct two *two, size_t lent) {
    struct report l = two->given[0], r = two->given[1];
    uint8_t right[64], *out = lent == 0 ? NULL : line_room + 64;
    uint32_t refusal = lent < WARPSORREL_LINE ? 30 : number == 0 || number > 9999 ? 31 : 0;
    size_t count = refusal ? 0 : oracle_line(number, two->reports, two->channels, right);
    if (warpsorrel_line(number, l.kind, l.probe, l.salinity, l.temperature, l.pressure, r.kind, r.probe, r.salinity, r.temperature, r.pressure, out,
                        lent, lend_count()) != refusal)
        fail("the refusal of the line");
    compare_count("the count of the line", count);
    if (count > 0 && memcmp(out, right, count) != 0) fail("the line");
    if (count > 0) memset(out, KEPT, count);
    if (!kept(line_room, sizeof line_room)) fail("a byte beside the line");
}

/* Proved of a reading as sent, in kg/m3 beside the formula: a shown density within 0.0014; a needle within 0.0028, both waters at the greater
 * pressure, and from 3 on in the formula's order. The formula is in doubles here, which the allowance is for. */
#define ALLOWANCE 1e-7

static void look_at_formula(const struct oracle_report reports[2], const struct oracle_channel c[2], struct oracle_needle n) {
    double pressure[2] = {0, 0};
    for (int i = 0; i < 2; i++) {
        if (c[i].refusal) continue;
        pressure[i] = oracle_pressure(&reports[i]);
        double off = (double)c[i].density / 1000 - oracle_formula(&reports[i], pressure[i]);
        if (!(fabs(off) <= 0.0014 + ALLOWANCE)) fail("a density and the formula as sent");
    }
    if (n.refusal) return;
    double most = pressure[0] > pressure[1] ? pressure[0] : pressure[1];
    double difference = oracle_formula(&reports[1], most) - oracle_formula(&reports[0], most);
    if ((n.value >= 3 && !(difference > 0)) || (n.value <= -3 && !(difference < 0))) fail("the needle and the formula's order as sent");
    if (!(fabs((double)n.value / 1000 - difference) <= 0.0028 + ALLOWANCE)) fail("the needle and the formula's difference as sent");
}

/* Some that nothing may read. */
static uint32_t unread_pressure(void) {
    static const uint32_t unread[] = {0x7fc00000, 0xff800001, 0x7f800000, 0xff800000, 0x447a0001, 0x80000001, 0, 0x3c23d70a, 0x3c23d70b, 1};
    static unsigned turn;
    return unread[turn++ % (sizeof unread / sizeof *unread)];
}

/* At the surface the pressure is not read, nor is it remarked on. */
static void look_at_channel(struct report r, const struct oracle_channel *c) {
    int64_t right[8] = {c->sigma, c->tau, c->pi, c->density, c->bulk, c->remarks[0], c->remarks[1], c->remarks[2]};
    if (warpsorrel_channel(r.kind, r.probe, r.salinity, r.temperature, r.pressure, lend_words()) != c->refusal) fail("a channel's refusal");
    compare_words("a channel", right, 8);
    if (r.kind != WARPSORREL_SURFACE && r.kind != WARPSORREL_NUMBERED_SURFACE) return;
    uint32_t other = unread_pressure();
    memcpy(&r.pressure, &other, 4);
    if (warpsorrel_channel(r.kind, r.probe, r.salinity, r.temperature, r.pressure, lend_words()) != c->refusal)
        fail("a channel's refusal, another pressure");
    compare_words("a channel, another pressure", right, 8);
}

static void look_at_needle(const struct two *two) {
    struct report l = two->given[0], r = two->given[1];
    struct oracle_needle n = oracle_needle(two->reports, two->channels);
    int64_t right[3] = {two->channels[0].density, two->channels[1].density, n.value};
    uint32_t refusal = warpsorrel_needle(l.kind, l.probe, l.salinity, l.temperature, l.pressure, r.kind, r.probe, r.salinity, r.temperature,
                                         r.pressure, lend_words());
    if (refusal != n.refusal) fail("the needle's refusal");
    compare_words("the needle", right, 3);
}

/* Of two numbers: one and the same; 0 twice, or once; alike but for a bit, for the high byte, for the low byte; one with its bytes the other way
 * round; any two. */
static void draw_numbers(uint64_t drawn, uint16_t numbers[2]) {
    uint16_t one = (uint16_t)(drawn >> 40 & 1 ? drawn % 4 : drawn), any = (uint16_t)(drawn >> 16);
    uint16_t others[] = {one, one, one, 0, (uint16_t)(one ^ 1u << any % 16), (uint16_t)(one ^ any << 8), (uint16_t)(one ^ (any & 255)),
                         (uint16_t)(one << 8 | one >> 8), any};
    unsigned way = drawn >> 44 & 15, count = sizeof others / sizeof *others;
    numbers[0] = way == count ? 0 : one;
    numbers[1] = way == count ? 0 : others[way % count];
}

/* The same two as of other probes, and then swapped: the channels stay as they are. The line is written in a room of WARPSORREL_LINE. */
static void look_at_probes(struct two two, uint32_t number, uint64_t drawn) {
    uint16_t numbers[2];
    draw_numbers(drawn, numbers);
    for (int i = 0; i < 2; i++) {
        two.reports[i].probe = two.given[i].probe = numbers[i];
        look_at_channel(two.given[i], &two.channels[i]);
    }
    struct two swapped = {{two.reports[1], two.reports[0]}, {two.channels[1], two.channels[0]}, {two.given[1], two.given[0]}};
    look_at_needle(&two);
    look_at_needle(&swapped);
    look_at_line(number, &two, WARPSORREL_LINE);
    look_at_line(number, &swapped, WARPSORREL_LINE);
}

/* The pressure is not read: with the stream's own and with another, as deep and as surface, the answer is the same. Proved on the grid: within 2
 * millionths of the equation. */
static void look_at_co2(const struct oracle_report *report) {
    struct oracle_co2 right = oracle_co2(report);
    struct report r = report_of(report, right.refusal);
    if (warpsorrel_co2(r.kind, r.salinity, r.temperature, r.pressure, lend_words()) != right.refusal) fail("the refusal of ln K0");
    compare_words("ln K0", &right.value, 1);
    uint32_t other = unread_pressure();
    memcpy(&r.pressure, &other, 4);
    uint32_t old = r.kind & ~16u;
    if (old == WARPSORREL_DEEP || old == WARPSORREL_SURFACE) r.kind ^= 3;
    if (warpsorrel_co2(r.kind, r.salinity, r.temperature, r.pressure, lend_words()) != right.refusal) fail("the refusal of ln K0, another pressure");
    compare_words("ln K0, another pressure", &right.value, 1);
    if (right.refusal) return;
    if (!(fabs((double)right.value / 1e6 - oracle_equation(report)) <= 2e-6 + ALLOWANCE / 100)) fail("ln K0 and its equation");
}

/* Proved: its square is at most sigma times 100,000, and the next one is greater. */
static void look_at_root(int64_t sigma, uint32_t trials) {
    struct oracle_root right = oracle_root(sigma, trials);
    int64_t search[4] = {right.root, right.bit, right.rest, right.so_far}, w = right.root;
    if (warpsorrel_root(sigma, trials, (uint64_t *)lend_words()) != right.refusal) fail("the refusal of a root");
    compare_words("a root or a line of its search", search, 4);
    if (right.refusal) return;
    if (w * w > sigma * 100000 || (w + 1) * (w + 1) <= sigma * 100000) fail("a root and the squares on either side");
}

/* As many trials as change something and up to two more, a power of two, or any number. */
static uint32_t trials_of(uint64_t drawn) {
    unsigned way = drawn >> 61;
    return way > 1 ? (uint32_t)(drawn >> 32) % 19 : way == 1 ? UINT32_C(1) << (drawn >> 32) % 32 : (uint32_t)(drawn >> 16);
}

/* The salinity on the grid; the bits of salinity and temperature as numbers, alone and one before the other. */
static void look_at_roots(const struct oracle_report *report, uint64_t drawn) {
    uint64_t bits = report->floats[0];
    look_at_root(oracle_sigma(report), trials_of(drawn));
    look_at_root((int64_t)bits, trials_of(drawn * 3));
    look_at_root((int64_t)(bits | (uint64_t)report->floats[1] << 32), trials_of(drawn * 5));
}

/* The line is written in a room of WARPSORREL_LINE and in one of lent bytes. */
static void look_at_pair(const uint8_t *stream, size_t length, size_t before, uint32_t number, size_t lent, uint64_t drawn) {
    struct two two;
    memset(&two, 0, sizeof two);
    int found = oracle_pair(stream, length, before, two.reports, two.channels);
    const struct oracle_channel *c = two.channels;
    struct oracle_needle n = found ? oracle_needle(two.reports, c) : (struct oracle_needle){0, 0};
    int64_t right[8] = {c[0].refusal, c[0].density, c[0].bulk, c[1].refusal, c[1].density, c[1].bulk, n.refusal, n.value};
    if (warpsorrel_pair(stream, length, before, lend_words()) != (uint32_t)found) fail("whether there is such a pair");
    compare_words("a pair", right, 8);
    if (!found) return;

    for (int i = 0; i < 2; i++) {
        two.given[i] = report_of(&two.reports[i], c[i].refusal);
        look_at_channel(two.given[i], &c[i]);
    }
    look_at_needle(&two);
    look_at_formula(two.reports, c, n);
    look_at_line(number, &two, WARPSORREL_LINE);
    look_at_line(number, &two, lent);
    look_at_probes(two, number, drawn);
}

int LLVMFuzzerInitialize(int *argc, char ***argv) {
    for (int i = 1; i < *argc; i++) is_long |= strcmp((*argv)[i], "--long") == 0;
    memset(room, KEPT, sizeof room);
    memset(short_room, KEPT, sizeof short_room);
    memset(line_room, KEPT, sizeof line_room);
    atexit(look_at_all);
    return 0;
}

/* mixed depends on all of the input's bytes. */
static void look_at_stream(const uint8_t *stream, size_t length, uint64_t mixed) {
    if (is_long) {
        if (length == 0) return;
        size_t wanted = 59992 + mixed % 16;
        for (size_t i = 0; i < wanted; i++) repeated[i] = stream[i % length];
        stream = repeated;
        length = wanted;
    }
    if (length == 0) stream = NULL; /* which the header allows */
    now = stream;
    now_length = length;
    calls++;
    size_t pairs = oracle_pairs(stream, length);
    if (warpsorrel_pairs(stream, length) != pairs) fail("the count of pairs");

    /* pair numbers at an end of their range, where a digit more is, or anywhere; the last place is far past every end */
    static const uint32_t ends[] = {0, 1, 9, 10, 99, 100, 999, 1000, 9999, 10000, UINT32_MAX};
    uint32_t number = mixed >> 8 & 1 ? ends[(mixed >> 9) % (sizeof ends / sizeof *ends)] : (uint32_t)(mixed >> 16) % 10001;
    size_t lent = (size_t)(mixed >> 40) % (2 * WARPSORREL_LINE + 1);
    const size_t places[] = {0, pairs - (pairs > 0), pairs, (size_t)(mixed >> 32) % (pairs + 1), (size_t)mixed | SIZE_MAX / 2 + 1};
    for (size_t i = 0; i < sizeof places / sizeof *places; i++) look_at_pair(stream, length, places[i], number, lent, mixed * (2 * i + 1));
    /* numbers at an end of the grid, that come round to it in fewer bits, or anywhere */
    static const int64_t off[] = {-1, -2, 42001, 42002, -42000, INT64_C(1) << 31, INT64_C(1) << 32, (INT64_C(1) << 32) + 35000, -(INT64_C(1) << 32),
                                  INT64_MAX, INT64_MIN};
    uint64_t drawn = mixed;
    look_at_root(off[(mixed >> 12) % (sizeof off / sizeof *off)], trials_of(mixed));
    look_at_root((int64_t)mixed, trials_of(mixed * 3));
    look_at_root((int64_t)(mixed >> 20) % 42001, trials_of(mixed * 5));
    struct oracle_report reports[2];
    for (size_t at = 0; oracle_next(stream, length, &at, reports);) {
        for (int i = 0; i < 2; i++) {
            look_at_co2(&reports[i]);
            drawn = drawn * 6364136223846793005u + 1442695040888963407u;
            look_at_roots(&reports[i], drawn);
        }
    }

    const size_t too_short[] = {WARPSORREL_PAGE - 1, (size_t)(calls * 40503 % WARPSORREL_PAGE), 0};
    for (int i = 0; i < 3; i++) {
        uint8_t *out = too_short[i] == 0 ? NULL : short_room + 64;
        if (warpsorrel_page(stream, length, out, too_short[i], lend_count()) != 30) fail("no refusal of a room that is too short");
        compare_count("bytes reported for a room that is too short", 0);
    }
    if (!kept(short_room, WINDOW)) fail("a byte of a room that is too short");

    uint8_t *page = room + 64;
    size_t count = oracle_page(stream, length, expected);
    if (warpsorrel_page(stream, length, page, WARPSORREL_PAGE, lend_count()) != 0) fail("a refusal of the page");
    compare_count("the length of the page", count);
    if (memcmp(page, expected, count) != 0) fail("the page");
    memset(page, KEPT, count);
    if (!kept(page + count, WINDOW < WARPSORREL_PAGE - count ? WINDOW : WARPSORREL_PAGE - count)) fail("a byte past the page");
    if (!kept(room, 64) || !kept(room + 64 + WARPSORREL_PAGE, 64)) fail("a byte beside the room");
    if (calls % 4096 == 0) look_at_all();
}

int LLVMFuzzerTestOneInput(const uint8_t *stream, size_t length) {
    uint64_t mixed = 1469598103934665603u;
    for (size_t i = 0; i < length; i++) mixed = (mixed ^ stream[i]) * 1099511628211u;
    unsigned mode = _mm_getcsr();
    _mm_setcsr((mode & ~0xe040u) | (unsigned)(mixed >> 24 & 7) << 13 | (unsigned)(mixed >> 27 & 1) << 6);
    look_at_stream(stream, length, mixed);
    _mm_setcsr(mode);
    return 0;
}

/* ---- half of all changes know what a record is */

size_t LLVMFuzzerMutate(uint8_t *data, size_t size, size_t most);

static const uint32_t floats[] = {
    0x00000000, 0x80000000, 0x00000001, 0x80000001, 0x3f800000, 0x42280000, 0x42280001, 0x4227ffff, 0xc0000000, 0xc0000001, 0xbfffffff,
    0x42200000, 0x42200001, 0x421fffff, 0x447a0000, 0x447a0001, 0x4479ffff, 0x7f800000, 0xff800000, 0x7fc00000, 0x7f800001, 0xffffffff,
    0x3d800000, 0xbd800000, 0x3a03126f, 0x3a031270, 0x420c0000, 0x40a00000, 0x41c80000, 0x7f7fffff, 0xbf800000, 0xba03126f, 0x41d6cccd,
    0x3e000000, 0x3e000001, 0x3dffffff, 0xbe000000, 0xbe000001, 0xbdffffff, 0x3a83126f, 0x3a83126e, 0xba83126f, 0x3c23d70a, 0x3c23d70b,
    0x007fffff, 0x807fffff,
};
#define FLOATS (sizeof floats / sizeof *floats)

/* So few that two records often have the same. */
static const uint16_t numbers[] = {0x0201, 0x0201, 0x0102, 0x0001, 0x0100, 0x0000, 0xffff, 0x00ff};
#define NUMBERS (sizeof numbers / sizeof *numbers)
#define LONGEST_RECORD 18

static void put_number(uint8_t *at, uint16_t number) {
    at[0] = (uint8_t)number;
    at[1] = (uint8_t)(number >> 8);
}

static size_t put_record(uint8_t *at, uint32_t seed) {
    unsigned holds = 1 + seed % 3, numbered = seed / 3 % 2, floats_of = holds == 1 ? 3 : holds == 2 ? 2 : 0, body = 2 * numbered + 4 * floats_of;
    at[0] = (uint8_t)body;
    at[1] = 0;
    at[2] = (uint8_t)(holds + 16 * numbered);
    at[3] = 0;
    if (numbered) put_number(at + 4, numbers[seed / 6 % NUMBERS]);
    for (unsigned i = 0; i < floats_of; i++) {
        seed = seed * 1664525 + 1013904223;
        uint32_t bits = floats[(seed >> 8) % FLOATS];
        float most = i == 0 ? 42.0f : i == 1 ? 40.0f : 1000.0f, within = most * (float)(seed >> 8 & 0xffff) / 65536.0f;
        if (seed >> 28 < 8) memcpy(&bits, &within, 4);
        memcpy(at + 4 + 2 * numbered + 4 * i, &bits, 4);
    }
    return 4 + body;
}

size_t LLVMFuzzerCustomMutator(uint8_t *data, size_t size, size_t most, unsigned seed) {
    if (seed % 2 == 0) return LLVMFuzzerMutate(data, size, most);
    /* a new record at the start, at the end, or in place of what stands at a record's start; a number or a float in a body */
    uint8_t fresh[LONGEST_RECORD];
    size_t n = put_record(fresh, seed >> 3), at = 0;
    int way = seed >> 1 & 3;
    if (way == 0 && size + n <= most) {
        memmove(data + n, data, size);
        memcpy(data, fresh, n);
        return size + n;
    }
    if (way == 1 && size + n <= most) {
        memcpy(data + size, fresh, n);
        return size + n;
    }
    for (unsigned steps = seed >> 8 & 15; steps > 0 && size - at >= 4 && size - at - 4 > data[at]; steps--) at += 4u + data[at];
    if (way == 2) {
        if (at + n > most) return size;
        memcpy(data + at, fresh, n);
        return at + n > size ? at + n : size;
    }
    size_t number = at + 6 <= size && data[at + 2] > 16 ? 2 : 0;
    if (number && seed >> 31) put_number(data + at + 4, numbers[(seed >> 12) % NUMBERS]);
    else if (at + 8 + number <= size) memcpy(data + at + 4 + number, &floats[(seed >> 12) % FLOATS], 4);
    return size;
}
