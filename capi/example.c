/* Two waters compared, from C: every function of warpsorrel.h once or more. It prints capi/expected. */
#include <inttypes.h>
#include <math.h>
#include <stdio.h>
#include <stdlib.h>
#include <string.h>
#include "warpsorrel.h"

/* The root that a salinity's densities use, and a line of its search on paper. */
struct root {
    uint32_t refusal;
    uint64_t root, bit, rest, so_far;
};

/* A probe's report, or what stands for a record that gave none. */
struct report {
    const char *name;
    uint32_t kind;
    uint16_t probe; /* its number; 0 for a probe without one */
    float salinity, temperature, pressure;
};

/* What the panel says of a report, of two, and of a pair in a stream. */
struct channel {
    uint32_t refusal;
    int64_t sigma, tau, pi, density, bulk;
    int64_t remarks[3]; /* of the salinity, the temperature, the pressure */
};

struct co2 {
    uint32_t refusal;
    int64_t ln_k0;
};

struct needle {
    uint32_t refusal;
    int64_t left, right, value;
};

struct side {
    int64_t refusal, density, bulk;
};

struct pair {
    uint32_t found;
    struct side left, right;
    int64_t needle_refusal, needle;
};

static struct root root_of(int64_t sigma, uint32_t trials) {
    uint64_t out[4];
    uint32_t refusal = warpsorrel_root(sigma, trials, out);
    return (struct root){refusal, out[0], out[1], out[2], out[3]};
}

static struct channel channel_of(struct report r) {
    int64_t out[8];
    uint32_t refusal = warpsorrel_channel(r.kind, r.probe, r.salinity, r.temperature, r.pressure, out);
    return (struct channel){refusal, out[0], out[1], out[2], out[3], out[4], {out[5], out[6], out[7]}};
}

static struct co2 co2_of(struct report r) {
    struct co2 c;
    c.refusal = warpsorrel_co2(r.kind, r.salinity, r.temperature, r.pressure, &c.ln_k0);
    return c;
}

static struct needle needle_of(struct report l, struct report r) {
    int64_t out[3];
    uint32_t refusal = warpsorrel_needle(l.kind, l.probe, l.salinity, l.temperature, l.pressure,
                                         r.kind, r.probe, r.salinity, r.temperature, r.pressure, out);
    return (struct needle){refusal, out[0], out[1], out[2]};
}

static struct pair pair_of(const uint8_t *stream, size_t length, size_t before) {
    int64_t out[8];
    uint32_t found = warpsorrel_pair(stream, length, before, out);
    return (struct pair){found, {out[0], out[1], out[2]}, {out[3], out[4], out[5]}, out[6], out[7]};
}

static const char *words_of(uint32_t refusal) {
    switch (refusal) {
    case WARPSORREL_REFUSED_MISSING: return "missing";
    case WARPSORREL_REFUSED_NOT_FINITE: return "a NaN or an infinity";
    case WARPSORREL_REFUSED_SALINITY: return "the salinity is not from 0 to 42";
    case WARPSORREL_REFUSED_TEMPERATURE: return "the temperature is not from -2 to 40 degrees C";
    case WARPSORREL_REFUSED_PRESSURE: return "the pressure is not from 0 to 1,000 bar";
    case WARPSORREL_REFUSED_CUT: return "the record is cut short";
    case WARPSORREL_REFUSED_KIND: return "the kind is none of 1, 2, 3, 17, 18, 19";
    case WARPSORREL_REFUSED_LENGTH: return "the length is not the kind's own";
    case WARPSORREL_REFUSED_ROOM: return "the room is too small";
    case WARPSORREL_REFUSED_PAIR_NUMBER: return "the pair number is not from 1 to 9,999";
    case WARPSORREL_REFUSED_SAME_PROBE: return "both sides have the same probe number, other than 0";
    default: return "no refusal of this version";
    }
}

static const char *word_of(int64_t remark) {
    switch (remark) {
    case WARPSORREL_BELOW: return "below";
    case WARPSORREL_ON: return "on";
    case WARPSORREL_ABOVE: return "above";
    default: return "none"; /* 0: the channel is refused */
    }
}

static void tell(uint32_t refusal) {
    if (refusal > WARPSORREL_REFUSED_RIGHT) {
        printf("  %" PRIu32 ": right: %s\n", refusal, words_of(refusal - WARPSORREL_REFUSED_RIGHT));
    } else if (refusal > WARPSORREL_REFUSED_LEFT) {
        printf("  %" PRIu32 ": left: %s\n", refusal, words_of(refusal - WARPSORREL_REFUSED_LEFT));
    } else if (refusal != 0) {
        printf("  %" PRIu32 ": %s\n", refusal, words_of(refusal));
    }
}

static void show_grid(int64_t sigma, int64_t tau, int64_t pi) {
    printf("grid %" PRId64 " %" PRId64 " %" PRId64 ": refusal %" PRIu32 ", density %" PRIu32 ", bulk modulus %" PRIu32 "\n", sigma, tau, pi,
           warpsorrel_refusal(sigma, tau, pi), warpsorrel_density(sigma, tau, pi), warpsorrel_bulk(sigma, tau, pi));
    tell(warpsorrel_refusal(sigma, tau, pi));
}

static void show_root(int64_t sigma, uint32_t trials) {
    struct root r = root_of(sigma, trials);
    printf("root of %" PRId64 ", trials %" PRIu32 ": refusal %" PRIu32 ", root %" PRIu64 ", trial bit %" PRIu64 ", rest %" PRIu64
           ", root so far %" PRIu64 "\n", sigma, trials, r.refusal, r.root, r.bit, r.rest, r.so_far);
    tell(r.refusal);
}

static void show_channel(struct report r) {
    struct channel c = channel_of(r);
    printf("%s: refusal %" PRIu32 ", grid %" PRId64 " %" PRId64 " %" PRId64 ", density %" PRId64 ", bulk modulus %" PRId64
           ", remarks %s %s %s\n", r.name, c.refusal, c.sigma, c.tau, c.pi, c.density, c.bulk, word_of(c.remarks[0]), word_of(c.remarks[1]),
           word_of(c.remarks[2]));
    tell(c.refusal);
}

/* For carbon dioxide the temperature has a range of its own, and so has the refusal its own words. */
static void show_co2(struct report r) {
    struct co2 c = co2_of(r);
    printf("co2 of %s: refusal %" PRIu32 ", ln K0 %" PRId64 "\n", r.name, c.refusal, c.ln_k0);
    if (c.refusal == WARPSORREL_REFUSED_TEMPERATURE) printf("  %" PRIu32 ": the temperature is not from 0 to 40 degrees C\n", c.refusal);
    else if (c.refusal != 0) tell(c.refusal);
    else printf("  K0 is %.6f mol/(kg atm)\n", exp((double)c.ln_k0 / 1e6));
}

static void show_needle(struct report l, struct report r) {
    struct needle n = needle_of(l, r);
    printf("needle of %s, %s: refusal %" PRIu32 ", densities %" PRId64 " %" PRId64 ", needle %" PRId64 "\n", l.name, r.name, n.refusal,
           n.left, n.right, n.value);
    tell(n.refusal);
}

static void show_recorder(uint32_t shown) {
    float value = warpsorrel_recorder(shown);
    uint32_t bits;
    memcpy(&bits, &value, sizeof bits);
    printf("recorder %" PRIu32 ": %.3f, bits %08" PRIx32 "\n", shown, value, bits);
}

/* room is WARPSORREL_LINE or less. */
static void show_line(uint32_t number, struct report l, struct report r, size_t room) {
    uint8_t out[WARPSORREL_LINE];
    size_t count;
    uint32_t refusal = warpsorrel_line(number, l.kind, l.probe, l.salinity, l.temperature, l.pressure,
                                       r.kind, r.probe, r.salinity, r.temperature, r.pressure, out, room, &count);
    printf("line %" PRIu32 " of %s, %s in a room of %zu: refusal %" PRIu32 ", %zu bytes\n", number, l.name, r.name, room, refusal, count);
    fwrite(out, 1, count, stdout);
    tell(refusal);
}

static void show_pair(const uint8_t *stream, size_t length, size_t before) {
    struct pair p = pair_of(stream, length, before);
    if (!p.found) {
        printf("pair with %zu before it: none\n", before);
        return;
    }
    printf("pair with %zu before it: left %" PRId64 " %" PRId64 " %" PRId64 ", right %" PRId64 " %" PRId64 " %" PRId64 ", needle %" PRId64
           " %" PRId64 "\n", before, p.left.refusal, p.left.density, p.left.bulk, p.right.refusal, p.right.density, p.right.bulk,
           p.needle_refusal, p.needle);
    tell((uint32_t)p.needle_refusal);
}

static void show_page(const uint8_t *stream, size_t length, size_t room) {
    uint8_t *out = malloc(room);
    if (out == NULL) exit(2);
    size_t count;
    uint32_t refusal = warpsorrel_page(stream, length, out, room, &count);
    printf("page in a room of %zu: refusal %" PRIu32 ", %zu bytes\n", room, refusal, count);
    fwrite(out, 1, count, stdout);
    tell(refusal);
    free(out);
}

static void show_stream(const uint8_t *stream, size_t length) {
    size_t pairs = warpsorrel_pairs(stream, length);
    printf("stream of %zu bytes: %zu pairs\n", length, pairs);
    for (size_t before = 0; before <= pairs; before++) show_pair(stream, length, before);
    show_page(stream, length, WARPSORREL_PAGE);
}

int main(void) {
    /* A shared library may be another one than this program was compiled for. */
    if (warpsorrel_version() != WARPSORREL_VERSION) {
        fprintf(stderr, "the library is of version %" PRIu32 ", and this program was written for version %u\n", warpsorrel_version(),
                WARPSORREL_VERSION);
        return 2;
    }
    printf("version %" PRIu32 "\n", warpsorrel_version());
    show_grid(35000, 25000, 100000);
    show_grid(42001, 25000, 100000);
    show_root(35000, 0);
    show_root(35000, 1);
    show_root(35000, 16);
    show_root(12345, 16);
    show_root(0, 0);
    show_root(42001, 16);

    const struct report fjord = {"fjord", WARPSORREL_SURFACE, 0, 28.5f, 12.25f, 0};
    const struct report deep = {"deep", WARPSORREL_DEEP, 0, 34.25f, 7.5f, 4};
    const struct report shallow = {"shallow", WARPSORREL_DEEP, 0, 34.25f, 7.5f, 0.4f}; /* the deep one's water */
    const struct report brine = {"brine", WARPSORREL_DEEP, 0, 42.25f, 7.5f, 4};
    const struct report none = {"none", WARPSORREL_MISSING, 0, 0, 0, 0};
    const struct report broken = {"broken", WARPSORREL_SURFACE, 0, NAN, 7.5f, 0};
    const struct report hot = {"hot", WARPSORREL_SURFACE, 0, 34.25f, 40.5f, 0};
    const struct report abyss = {"abyss", WARPSORREL_DEEP, 0, 34.25f, 7.5f, 1000.5f};
    const struct report frost = {"frost", WARPSORREL_SURFACE, 0, 34.25f, -1, 0};
    const struct report blind = {"blind", WARPSORREL_DEEP, 0, 34.25f, 7.5f, NAN}; /* the deep one's water, its depth not known */
    /* Off the grid: no 32-bit float is just 5.1, 33.9 or -1.1, and 0.004 bar goes to 0.00. A surface's pressure is not read: it is on. */
    const struct report bench = {"bench", WARPSORREL_DEEP, 0, 35, 5.1f, 0.004f};
    const struct report winter = {"winter", WARPSORREL_SURFACE, 0, 33.9f, -1.1f, NAN};
    /* Numbered probes: the fjord's water and the deep one's again, whose channels do not depend on the number; probe 17 in the other's place as well,
     * its number beside the kind without one, which says the same; and probe 17 does not answer. */
    const struct report upper = {"upper", WARPSORREL_NUMBERED_SURFACE, 17, 28.5f, 12.25f, 0};
    const struct report lower = {"lower", WARPSORREL_NUMBERED_DEEP, 18, 34.25f, 7.5f, 4};
    const struct report twice = {"twice", WARPSORREL_DEEP, 17, 34.25f, 7.5f, 4};
    const struct report lost = {"lost", WARPSORREL_NUMBERED_MISSING, 17, 0, 0, 0};
    /* Records that gave no reading have a channel, and a place on a line, too. */
    const struct report cut = {"cut", WARPSORREL_CUT, 0, 0, 0, 0};
    const struct report unknown = {"unknown", WARPSORREL_UNKNOWN, 0, 0, 0, 0};
    const struct report length = {"length", WARPSORREL_LENGTH, 0, 0, 0, 0};
    const struct report every[] = {fjord, deep, none, broken, brine, hot, abyss, frost, blind, bench, winter, upper, lower, twice, lost, cut,
                                   unknown, length};
    for (size_t i = 0; i < sizeof every / sizeof *every; i++) show_channel(every[i]);
    /* The frost has a density and no ln K0; the abyss and the blind one, whose pressures are refused, have the deep one's ln K0 and no density. */
    for (size_t i = 0; i < sizeof every / sizeof *every; i++) show_co2(every[i]);
    show_needle(fjord, deep);
    show_needle(deep, fjord);
    show_needle(shallow, deep);
    show_needle(fjord, brine);
    show_needle(none, deep);
    /* Two probes, and one in both sockets: no needle, and both densities all the same. A side that is refused comes first. */
    show_needle(upper, lower);
    show_needle(upper, twice);
    show_needle(lost, twice);
    show_recorder((uint32_t)channel_of(deep).density);
    show_recorder(16384000);

    show_line(1, fjord, deep, WARPSORREL_LINE);
    show_line(9999, deep, fjord, WARPSORREL_LINE);
    show_line(2, fjord, cut, WARPSORREL_LINE);
    show_line(3, length, deep, WARPSORREL_LINE);
    show_line(4, unknown, none, WARPSORREL_LINE);
    show_line(5, upper, lower, WARPSORREL_LINE);
    show_line(6, upper, twice, WARPSORREL_LINE);
    show_line(1, fjord, deep, WARPSORREL_LINE - 1);
    show_line(10000, fjord, deep, WARPSORREL_LINE);
    show_line(0, fjord, deep, WARPSORREL_LINE);

    static const uint8_t stream[] = {0x08, 0, 2, 0, 0, 0, 0, 0, 0, 0, 0xA0, 0x40, 0x08, 0, 2, 0, 0, 0, 0x0C, 0x42, 0, 0, 0xA0, 0x40,
                                     0x00, 0, 3, 0, 0x08, 0, 2, 0, 0, 0, 0, 0, 0, 0, 0xA0, 0x40};
    show_stream(stream, sizeof stream);
    show_page(stream, sizeof stream, WARPSORREL_PAGE - 1);

    /* Records with a probe's number: 513 in both sockets, then 513 and 514, then 513 missing. */
    static const uint8_t numbered[] = {0x0A, 0, 18, 0, 1, 2, 0, 0, 0, 0, 0, 0, 0xA0, 0x40, 0x0A, 0, 18, 0, 1, 2, 0, 0, 0x0C, 0x42, 0, 0, 0xA0, 0x40,
                                       0x0A, 0, 18, 0, 1, 2, 0, 0, 0, 0, 0, 0, 0xA0, 0x40, 0x0A, 0, 18, 0, 2, 2, 0, 0, 0x0C, 0x42, 0, 0, 0xA0, 0x40,
                                       0x02, 0, 19, 0, 1, 2, 0x0E, 0, 17, 0, 2, 2, 0, 0, 0x0C, 0x42, 0, 0, 0xA0, 0x40, 0, 0, 0xC8, 0x42};
    show_stream(numbered, sizeof numbered);
    return 0;
}
