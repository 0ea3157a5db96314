/* The driver's panel with one fault, to see that tests/calls.py finds it. Linked with --wrap for main and for every function below; the
 * driver's first argument is the fault's name, as it stands in has() here; or a call's name and, past a colon and a blank, what stands in slips()
 * here, of needle, line, pair or page, or in misreads(), of pair or page. Without one nothing is changed. */
#include <stdio.h>
#include <stdlib.h>
#include <string.h>
#include <xmmintrin.h>
#include "warpsorrel.h"

__typeof__(warpsorrel_root) __real_warpsorrel_root, __wrap_warpsorrel_root;
__typeof__(warpsorrel_channel) __real_warpsorrel_channel, __wrap_warpsorrel_channel;
__typeof__(warpsorrel_co2) __real_warpsorrel_co2, __wrap_warpsorrel_co2;
__typeof__(warpsorrel_needle) __real_warpsorrel_needle, __wrap_warpsorrel_needle;
__typeof__(warpsorrel_recorder) __real_warpsorrel_recorder, __wrap_warpsorrel_recorder;
__typeof__(warpsorrel_line) __real_warpsorrel_line, __wrap_warpsorrel_line;
__typeof__(warpsorrel_pairs) __real_warpsorrel_pairs, __wrap_warpsorrel_pairs;
__typeof__(warpsorrel_pair) __real_warpsorrel_pair, __wrap_warpsorrel_pair;
__typeof__(warpsorrel_page) __real_warpsorrel_page, __wrap_warpsorrel_page;

static const char *fault = "";

static int has(const char *name) {
    return strcmp(fault, name) == 0;
}

static int is_of(const char *call) {
    size_t n = strlen(call);
    return strncmp(fault, call, n) == 0 && strncmp(fault + n, ": ", 2) == 0;
}

static int slips(const char *call, const char *name) {
    return is_of(call) && strcmp(fault + strlen(call) + 2, name) == 0;
}

static int misreads(const char *call, const char *name) {
    return slips(call, name);
}

int __real_main(void);
int __wrap_main(int argc, char **argv) {
    fault = argc > 1 ? argv[1] : "";
    return __real_main();
}

/* ---- floats: a product with 1 is zero where denormals are flushed; a sum with next to nothing shows how the processor rounds */

static volatile float one = 1, little = 1e-9f;

static int flushing(void) {
    return (_mm_getcsr() & 0x8040) == 0x8040;
}

static int rounding(unsigned mode) {
    return (_mm_getcsr() >> 13 & 3) == mode;
}

static uint32_t bits_of(float x) {
    uint32_t bits;
    memcpy(&bits, &x, sizeof bits);
    return bits;
}

static int is_finite(float x) {
    return (bits_of(x) >> 23 & 255) != 255;
}

float __wrap_warpsorrel_recorder(uint32_t shown) {
    if (has("recorder: ends one early") && shown == 16383999) return 0;
    if (has("recorder: 0 where denormals are flushed") && flushing()) return 0;
    return __real_warpsorrel_recorder(shown);
}

/* ---- kinds and numbers */

static int is_numbered(uint32_t kind) {
    return kind >= WARPSORREL_NUMBERED_DEEP && kind <= WARPSORREL_NUMBERED_MISSING;
}

static uint32_t old_kind(uint32_t kind) {
    return is_numbered(kind) ? kind - 16 : kind;
}

static int is_known(uint32_t kind) {
    return old_kind(kind) >= WARPSORREL_DEEP && old_kind(kind) <= WARPSORREL_MISSING;
}

/* A number that another is taken for; two that are taken for one are one probe's, and 0 is none. */
static uint16_t slipped_number(const char *call, int is_right, uint16_t own, uint16_t other) {
    uint16_t left = is_right ? other : own, right = is_right ? own : other;
    if (slips(call, "numbers passed over")) return 0;
    if (slips(call, "32 for number 0")) return own ? own : 0x5a5a;
    if (slips(call, "32 for number 0 on the left")) return is_right || own ? own : right;
    if (slips(call, "32 for two numbers")) return is_right && left && right ? left == right ? left ^ 0x4000 : left : own;
    if (slips(call, "the left's number for both")) return left;
    if (slips(call, "the right's number for both")) return right;
    if (slips(call, "the low bytes alone compared")) return own ? own | 0xff00 : 0;
    if (slips(call, "the high bytes alone compared")) return own ? own | 0x00ff : 0;
    if (slips(call, "the last bit not compared")) return own ? own | 1 : 0;
    if (slips(call, "the first bit not compared")) return own ? own | 0x8000 : 0;
    if (slips(call, "numbers in 15 bits")) return own & 0x7fff;
    if (slips(call, "no number where the low byte is 0")) return own & 0xff ? own : 0;
    if (slips(call, "no number where the high byte is 0")) return own >> 8 ? own : 0;
    if (slips(call, "the left's number big-endian")) return is_right ? own : (uint16_t)(own << 8 | own >> 8);
    if (slips(call, "65,535 for no number")) return own == 65535 ? 0 : own;
    return own;
}

/* What is answered for a needle: 32 in the place of another refusal or another in its place, and the densities beside it. */
struct shown {
    long refusal, left, right;
    int is_left_hidden, is_right_hidden;
};

static void slip_at_32(const char *call, struct shown *s, int is_one_probe) {
    if (slips(call, "32 before 101") && is_one_probe && s->refusal / 100 == 1) s->refusal = 32;
    if (slips(call, "32 before 201") && is_one_probe && s->refusal / 100 == 2) s->refusal = 32;
    if (slips(call, "32 before 101, but for a missing probe") && is_one_probe && s->refusal / 100 == 1 && s->refusal != 101) s->refusal = 32;
    if (s->refusal != 32) return;
    if (slips(call, "33 for 32")) s->refusal = 33;
    if (slips(call, "132 for 32")) s->refusal = 132;
    if (slips(call, "0 for 32")) s->refusal = 0;
    if (slips(call, "32, and no left density")) s->left = 0, s->is_left_hidden = 1;
    if (slips(call, "32, and no right density")) s->right = 0, s->is_right_hidden = 1;
    if (slips(call, "32, and the left density twice")) s->right = s->left;
}

/* ---- channels: refused or not, and the remark of each float, with a slip */

typedef __int128 whole;

static volatile int fifth = 4, ninth = 8, before_them = -1; /* unknown to the compiler, which would warn */

static int64_t seen_from(whole point, whole value) {
    return value < point ? WARPSORREL_BELOW : value > point ? WARPSORREL_ABOVE : WARPSORREL_ON;
}

static int64_t seen_in_doubles(double point, double value) {
    return value < point ? WARPSORREL_BELOW : value > point ? WARPSORREL_ABOVE : WARPSORREL_ON;
}

/* A float of the ranges in steps, times 2 to the 90; nearer to zero than any test looks it is only kept off it. */
static whole in_steps(uint32_t bits, int64_t steps) {
    int exponent = bits >> 23 & 255, up = exponent - 60;
    whole size = (whole)(bits & 0x7fffff) + (exponent ? 0x800000 : 0);
    size = up < 0 ? size : size << up;
    return (bits >> 31 ? -size : size) * steps;
}

#define STEP ((whole)1 << 90)

/* As right says, or not; number is the float's grid number. */
static int64_t slipped(int place, float x, int64_t number, int64_t right) {
    int64_t steps = place == 2 ? 100 : 1000;
    uint32_t bits = bits_of(x), size = bits & 0x7fffffff;
    whole point = number * STEP, off = in_steps(bits, steps) - point;
    int is_negative = bits >> 31, is_denormal = size > 0 && size < 0x800000, is_half = 2 * off == STEP || 2 * off == -STEP;
    volatile float product = x * (float)steps, nearest = (float)number / (float)steps, moved = x + little;
    volatile double wide = x;
    if (has("channel: below and above exchanged")) return 4 - right;
    if (has("channel: below and above exchanged where a temperature is negative") && is_negative) return 4 - right;
    if (has("channel: above for all that is off") && right == WARPSORREL_BELOW) return WARPSORREL_ABOVE;
    if (has("channel: below for all that is off") && right == WARPSORREL_ABOVE) return WARPSORREL_BELOW;
    if (has("channel: on for everything")) return WARPSORREL_ON;
    if (has("channel: on within 2^-24 of the grid point") && (off < 0 ? -off : off) < steps * STEP >> 24) return WARPSORREL_ON;
    if (has("channel: on for the float nearest to the grid point") && x == nearest) return WARPSORREL_ON;
    if (has("channel: on where the grid number is 0") && number == 0) return WARPSORREL_ON;
    if (has("channel: above where the grid number is 0") && number == 0 && right == WARPSORREL_BELOW) return WARPSORREL_ABOVE;
    if (has("channel: never on where the grid number is not 0") && number && right == WARPSORREL_ON) return WARPSORREL_ABOVE;
    if (has("channel: seen from the float nearest to the grid point")) return seen_in_doubles(nearest, x);
    if (has("channel: the product rounded to a float")) return seen_in_doubles((double)number, product);
    if (has("channel: the product in the mode there is")) return seen_in_doubles((double)number, wide * (double)steps);
    if (has("channel: a temperature rounded in the mode there is") && place == 1 && x > 1) return seen_from(point, in_steps(bits_of(moved), steps));
    if (has("channel: a salinity seen from the hundredths") && place == 0) return seen_from((number + 5) / 10 * STEP, in_steps(bits, 100));
    if (has("channel: a pressure seen from the tenths") && place == 2) return seen_from((number + 5) / 10 * STEP, in_steps(bits, 10));
    if (has("channel: 0 for on") && right == WARPSORREL_ON) return 0;
    if (has("channel: remarks from 0 on")) return right - 1;
    if (has("channel: a half above") && is_half) return WARPSORREL_ABOVE;
    if (has("channel: a half above where a temperature is negative") && is_half && is_negative) return WARPSORREL_ABOVE;
    if (has("channel: a half on") && is_half) return WARPSORREL_ON;
    if (has("channel: minus zero below") && bits == 0x80000000) return WARPSORREL_BELOW;
    if (has("channel: minus zero of a pressure below") && bits == 0x80000000 && place == 2) return WARPSORREL_BELOW;
    if (has("channel: a denormal on") && is_denormal) return WARPSORREL_ON;
    if (has("channel: a denormal on where denormals are flushed") && is_denormal && flushing()) return WARPSORREL_ON;
    if (has("channel: a denormal temperature above") && is_denormal && place == 1) return WARPSORREL_ABOVE;
    if (has("channel: the least float on") && size == 1) return WARPSORREL_ON;
    if (has("channel: the least normal float on") && size == 0x800000) return WARPSORREL_ON;
    return right;
}

uint32_t __wrap_warpsorrel_channel(uint32_t kind, uint16_t probe, float salinity, float temperature, float pressure, int64_t out[8]) {
    int64_t was[8], other[8] = {0};
    memcpy(was, out, sizeof was);
    if (has("channel: kind 17 refused by 7") && kind == 17) kind = 4;
    if (has("channel: kind 18 refused by 7") && kind == 18) kind = 4;
    if (has("channel: kind 19 refused by 7") && kind == 19) kind = 4;
    if (has("channel: kind 17 read as surface") && kind == 17) kind = 2;
    if (has("channel: kind 18 read as deep") && kind == 18) kind = 1;
    if (has("channel: kind 19 read as surface") && kind == 19) kind = 2;
    if (has("channel: kind 16 read as deep") && kind == 16) kind = 1;
    if (has("channel: kind 20 missing") && kind == 20) kind = 3;
    if (has("channel: the kind in eight bits") && kind < 65536) kind = (uint8_t)kind;
    if (has("channel: the kind without its sixth bit") && is_known(kind & ~32u)) kind &= ~32u;
    if (has("channel: a numbered kind refused without a number") && is_numbered(kind) && probe == 0) kind = 4;
    if (has("channel: an old kind refused with a number") && is_known(kind) && !is_numbered(kind) && probe) kind = 4;
    if (has("channel: a number of 16 bits refused") && probe > 32767) kind = 4;
    if (has("channel: a denormal salinity flushed")) salinity *= one;
    if (has("channel: a denormal pressure flushed")) pressure *= one;
    if (has("channel: the rounding mode changed")) _mm_setcsr(_mm_getcsr() | 0x6000);
    uint32_t refusal = __real_warpsorrel_channel(kind, probe, salinity, temperature, pressure, out);
    int is_surface = old_kind(kind) == WARPSORREL_SURFACE;
    if (has("channel: the number added to the salinity") && !refusal) out[0] += probe;
    if (has("channel: the number for the density") && !refusal && probe) out[3] = probe;
    if (has("channel: a remark less with a number") && !refusal && probe) out[7] = 0;
    int64_t *remarks = out + 5, right[3] = {out[5], out[6], out[7]};

    /* refused: no remark */
    if (has("channel: refused, and the remarks not written") && refusal) memcpy(remarks, was + 5, sizeof right);
    if (has("channel: refused, and on for a remark") && refusal) remarks[0] = remarks[1] = remarks[2] = WARPSORREL_ON;
    if (has("channel: refused by 5, and the remarks left of salinity and temperature") && refusal == 5) {
        __real_warpsorrel_channel(WARPSORREL_SURFACE, 0, salinity, temperature, 0, other);
        memcpy(remarks, other + 5, 2 * sizeof *remarks);
    }
    if (has("channel: refused by 4, and the salinity's remark left") && refusal == 4) {
        __real_warpsorrel_channel(WARPSORREL_SURFACE, 0, salinity, 0, 0, other);
        remarks[0] = other[5];
    }
    if (has("channel: missing, and on for a remark") && refusal == 1) remarks[2] = WARPSORREL_ON;

    /* accepted */
    if (!refusal) {
        remarks[0] = slipped(0, salinity, out[0], right[0]);
        remarks[1] = slipped(1, temperature, out[1], right[1]);
        if (!is_surface) remarks[2] = slipped(2, pressure, out[2], right[2]);
    }
    if (has("channel: a surface's pressure read for its remark") && is_surface && !refusal)
        remarks[2] = __real_warpsorrel_channel(WARPSORREL_DEEP, 0, salinity, temperature, pressure, other) ? right[2] : other[7];
    if (has("channel: above for a surface's NaN or infinity") && is_surface && !refusal && !is_finite(pressure)) remarks[2] = WARPSORREL_ABOVE;
    if (has("channel: 0 for a surface's pressure") && is_surface) remarks[2] = 0;
    if (has("channel: the pressure's remark not written")) remarks[2] = was[7];
    if (has("channel: a surface's third remark not written") && is_surface) remarks[2] = was[7];
    if (has("channel: no remark written")) memcpy(remarks, was + 5, sizeof right);
    if (has("channel: a remark in 32 bits")) memcpy((uint8_t *)&remarks[1] + 4, (uint8_t *)&was[6] + 4, 4);
    if (has("channel: the temperature's remark first")) remarks[0] = right[1], remarks[1] = right[0];
    if (has("channel: the pressure's remark first")) remarks[0] = right[2], remarks[2] = right[0];
    if (has("channel: the temperature's remark for the pressure's") && !is_surface) remarks[2] = right[1];
    if (has("channel: the remarks before the density")) {
        memcpy(other, out, sizeof other);
        memcpy(out + 3, other + 5, 3 * sizeof *out);
        memcpy(out + 6, other + 3, 2 * sizeof *out);
    }
    if (has("channel: a ninth word")) out[ninth] = 0;
    if (has("channel: the word before the first")) out[before_them] = 0;
    return refusal;
}

/* ---- the root: its search on paper once more, with a slip */

/* The line after so many trials: trial bit, rest, root so far. */
static void search(uint64_t n, uint32_t trials, uint64_t line[3]) {
    uint64_t bit = 0, rest = n, root = 0;
    for (uint64_t power = 1; power <= n; power *= 4) bit = power;
    if (has("search: the first trial bit a pair too high")) bit *= 4;
    if (has("search: the first trial bit a pair too low")) bit /= 4;
    if (has("search: the same first trial bit for all") && n) bit = UINT64_C(1) << 30;
    if (has("search: one trial fewer") && trials) trials -= 1;
    if (has("search: one trial too many") && trials < UINT32_MAX) trials += 1;
    uint64_t last = has("search: the last bit never tried") ? 4 : 1;
    int past_the_last = has("search: trials go on where no bit is left");
    if (past_the_last && trials > 64) trials = 64;
    for (; trials && (bit >= last || past_the_last); trials--) {
        uint64_t sum = root + bit, half = root / 2;
        if (has("search: a sum that is the rest not kept") ? sum < rest : sum <= rest) {
            if (!has("search: the rest not reduced")) rest -= has("search: the rest reduced by the bit alone") ? bit : sum;
            root = has("search: the bit halved with the root") ? sum / 2 : half + bit;
        } else if (!has("search: the root not halved where the bit is not kept")) {
            root = half;
        }
        bit /= 4;
    }
    line[0] = bit;
    line[1] = rest;
    line[2] = root;
}

static uint64_t rooted(uint64_t n) {
    uint64_t line[3];
    search(n, 16, line);
    return line[2];
}

uint32_t __wrap_warpsorrel_root(int64_t sigma, uint32_t trials, uint64_t out[4]) {
    uint64_t was[4];
    memcpy(was, out, sizeof was);
    if (has("root: the rounding mode changed")) _mm_setcsr(_mm_getcsr() | 0x6000);
    if (has("root: none where it rounds up") && rounding(2)) sigma = 0;
    if (has("root: sigma in 32 bits")) sigma = (int32_t)sigma;
    if (has("root: sigma without its sign") && sigma < 0 && sigma >= -42000) sigma = -sigma;
    if (has("root: the trials in 8 bits")) trials = (uint8_t)trials;
    if (has("root: the trials in 16 bits")) trials = (uint16_t)trials;
    if (has("root: the trials with a sign") && trials > INT32_MAX) trials = 0;
    if (has("root: a shift by the trials, which comes round at 32")) trials %= 32;
    uint32_t right = __real_warpsorrel_root(sigma, trials, out), refusal = right;
    uint64_t n = (uint64_t)sigma * 100000, w = out[0];

    /* refused, or not */
    if (has("root: 42,000 refused") && sigma == 42000) refusal = 3;
    if (has("root: 42,001 taken") && sigma == 42001) refusal = 0;
    if (has("root: 0 refused") && sigma == 0) refusal = 3;
    if (refusal != right) memset(out, 0, sizeof was);
    if (refusal < right) {
        out[0] = rooted(n);
        search(n, trials, out + 1);
    }
    if (has("root: refused by 4") && refusal) refusal = 4;
    if (has("root: refused, and the words not written") && refusal) memcpy(out, was, sizeof was);
    if (has("root: refused, and the rest left") && refusal) out[2] = n;
    if (has("root: refused, and the last word not written") && refusal) out[3] = was[3];

    /* the words */
    if (strncmp(fault, "search: ", 8) == 0 && !refusal) search(n, trials, out + 1);
    if (has("root: rounded up") && !refusal) out[0] += w * w < n;
    if (has("root: rounded to the nearest") && !refusal) out[0] += n - w * w > w;
    if (has("root: worked out in floats") && !refusal) out[0] = (uint64_t)_mm_cvtss_f32(_mm_sqrt_ss(_mm_set_ss((float)n)));
    if (has("root: the root so far for the root")) out[0] = out[3];
    if (has("root: the root for the root so far")) out[3] = out[0];
    if (has("root: the root so far without its noughts")) out[3] /= out[1] ? 4 * out[1] : 1;
    if (has("root: the last word not written")) out[3] = was[3];
    if (has("root: a fifth word")) out[fifth] = 0;
    if (has("root: the word before the first")) out[before_them] = 0;
    return refusal;
}

/* ---- ln K0: by the definition once more, with a slip */

static whole over(whole a, whole b) {
    whole q = a / b;
    return q - (a % b < 0);
}

static whole odd_series(whole x, whole y, int terms) {
    whole power = (whole)100000000000 * x / y, sum = 0;
    for (int k = 0; k < terms; k++) {
        sum += power / (2 * k + 1);
        power = power * x * x / (y * y);
    }
    return sum;
}

static whole product(whole h, whole x) {
    return has("ln K0: a scaled product rounded towards zero") ? h * x / 100000 : over(h * x, 100000);
}

static int64_t ln_k0(int64_t sigma, int64_t tau) {
    whole n = tau + (has("ln K0: 273.16 for 273.15") ? 273160 : 273150);
    whole series = 2 * odd_series(n < 300000 ? 300000 - n : n - 300000, n + 300000, has("ln K0: 3 terms of the series") ? 3 : 4);
    whole ln3 = has("ln K0: ln 3 to its last digit") ? 109861228867 : 2 * odd_series(1, 2, has("ln K0: 15 terms for ln 3") ? 15 : 16);
    whole log = n < 300000 && !has("ln K0: the series added below 300 K") ? ln3 - series : ln3 + series;
    whole middle = has("ln K0: the sign of 0.023656 turned") ? 236560000000 : -236560000000;
    whole row = 235170000000 + product(middle + product(47036000000, n), n);
    whole fine = (whole)934517000000000000 / n - 6024090000000 + 233585 * log / 10000 + product(row, sigma);
    if (has("ln K0: 100/T rounded to the nearest")) fine += 2 * ((whole)934517000000000000 % n) >= n;
    if (has("ln K0: cut and not rounded")) fine -= 50000;
    if (has("ln K0: halves downward")) fine -= 1;
    return (int64_t)over(fine + 50000, 100000);
}

static int outside(float x, float most) {
    return is_finite(x) && !(x >= 0 && x <= most);
}

uint32_t __wrap_warpsorrel_co2(uint32_t kind, float salinity, float temperature, float pressure, int64_t *out) {
    int64_t was = *out, at[8];
    if (has("co2: a denormal salinity flushed")) salinity *= one;
    if (has("co2: a denormal temperature flushed")) temperature *= one;
    if (has("co2: the temperature rounded in the mode there is") && temperature > 1) temperature = temperature + little;
    if (has("co2: the rounding mode changed")) _mm_setcsr(_mm_getcsr() | 0x6000);
    if (has("co2: the kind in 16 bits")) kind = (uint16_t)kind;
    if (has("co2: a cut record refused by 7") && kind == WARPSORREL_CUT) kind = WARPSORREL_UNKNOWN;
    if (has("co2: a wrong length refused by 6") && kind == WARPSORREL_LENGTH) kind = WARPSORREL_CUT;
    if (has("co2: kind 17 refused by 7") && kind == 17) kind = 4;
    if (has("co2: kind 18 refused by 7") && kind == 18) kind = 4;
    if (has("co2: kind 19 refused by 7") && kind == 19) kind = 4;
    if (has("co2: kind 19 read") && kind == 19) kind = 2;
    if (has("co2: kind 20 missing") && kind == 20) kind = 3;
    uint32_t right = __real_warpsorrel_co2(kind, salinity, temperature, pressure, out), refusal = right;
    uint32_t dense = __real_warpsorrel_channel(kind, 0, salinity, temperature, pressure, at), bits = bits_of(temperature);
    int is_deep = old_kind(kind) == WARPSORREL_DEEP, is_read = is_deep || old_kind(kind) == WARPSORREL_SURFACE;

    /* refused, or not */
    if (has("co2: 2 for a NaN in the pressure") && is_deep && pressure != pressure) refusal = 2;
    if (has("co2: 2 for an infinite pressure") && is_deep && !is_finite(pressure) && pressure == pressure) refusal = 2;
    if (has("co2: 2 for a NaN in the pressure that a surface has not") && is_read && !is_deep && pressure != pressure) refusal = 2;
    if (has("co2: 2 for a NaN in the pressure of kind 17") && kind == 17 && pressure != pressure) refusal = 2;
    if (has("co2: 5 for a pressure outside its range") && dense == 5) refusal = 5;
    if (has("co2: refused as the density is")) refusal = dense;
    if (has("co2: 4 for minus zero") && !right && bits == 0x80000000) refusal = 4;
    if (has("co2: 4 for 40 degrees C") && !right && bits == 0x42200000) refusal = 4;
    if (has("co2: 3 for a salinity of 42") && !right && bits_of(salinity) == 0x42280000) refusal = 3;
    if (has("co2: 3 before 2") && right == 2 && outside(salinity, 42)) refusal = 3;
    if (has("co2: 4 before 3") && right == 3 && outside(temperature, 40)) refusal = 4;
    if (is_read) __real_warpsorrel_channel(WARPSORREL_SURFACE, 0, salinity, temperature, 0, at);
    if (right == 4 && !outside(-temperature, 2)) {
        if (has("co2: 4 only below -2 degrees C")) refusal = 0;
        if (has("co2: 4 only where the grid number is below 0") && at[1] == 0) refusal = 0;
        if (has("co2: no 4 for the denormal next to 0") && bits == 0x80000001) refusal = 0;
    }

    /* the value */
    if (refusal != right) *out = refusal ? 0 : ln_k0(at[0], at[1]);
    if (strncmp(fault, "ln K0: ", 7) == 0 && !refusal) *out = ln_k0(at[0], at[1]);
    if (has("co2: the value's sign turned")) *out = -*out;
    if (has("co2: refused, and the value not written") && refusal) *out = was;
    if (has("co2: refused, and the value left") && refusal && is_read) *out = ln_k0(35000, 5000);
    if (has("co2: refused by 4, and the value left") && refusal == 4 && !outside(-temperature, 2)) *out = ln_k0(at[0], at[1]);
    if (has("co2: the word past the value")) out[1] = 0;
    if (has("co2: the word before the value")) out[-1] = 0;
    return refusal;
}

/* ---- needles: sigma, tau, pi and density of two accepted readings come first in what a channel has */

static int64_t needle_at(const int64_t l[8], const int64_t r[8], int64_t pi) {
    return (int64_t)warpsorrel_density(r[0], r[1], pi) - (int64_t)warpsorrel_density(l[0], l[1], pi);
}

static int64_t lesser(const int64_t l[8], const int64_t r[8]) {
    return l[2] < r[2] ? l[2] : r[2];
}

static int64_t greater(const int64_t l[8], const int64_t r[8]) {
    return l[2] > r[2] ? l[2] : r[2];
}

uint32_t __wrap_warpsorrel_needle(uint32_t lk, uint16_t ln, float ls, float lt, float lp, uint32_t rk, uint16_t rn, float rs, float rt, float rp,
                                  int64_t out[3]) {
    int64_t l[8], r[8], was[3];
    memcpy(was, out, sizeof was);
    if (has("needle: the right's temperature rounded in the mode there is") && (rt > 1 || rt < -1)) rt = rt + little;
    if (has("needle: kind 17 on the left refused by 7") && lk == 17) lk = 4;
    if (has("needle: kind 18 on the right refused by 7") && rk == 18) rk = 4;
    if (has("needle: kind 19 on the left refused by 7") && lk == 19) lk = 4;
    if (has("needle: kind 19 on the right read") && rk == 19) rk = 2;
    if (has("needle: kind 20 on the left missing") && lk == 20) lk = 3;
    if (has("needle: the left's number passed over beside an old kind") && !is_numbered(lk)) ln = 0;
    if (has("needle: the right's number passed over beside an old kind") && !is_numbered(rk)) rn = 0;
    if (has("needle: the numbers of two deep readings passed over") && old_kind(lk) == 1 && old_kind(rk) == 1) ln = 0;
    uint16_t left = slipped_number("needle", 0, ln, rn), right = slipped_number("needle", 1, rn, ln);
    uint32_t refusal = __real_warpsorrel_needle(lk, left, ls, lt, lp, rk, right, rs, rt, rp, out);
    struct shown shown = {refusal, out[0], out[1], 0, 0};
    slip_at_32("needle", &shown, is_known(lk) && is_known(rk) && ln && ln == rn);
    out[0] = shown.left;
    out[1] = shown.right;
    __real_warpsorrel_channel(lk, 0, ls, lt, lp, l);
    __real_warpsorrel_channel(rk, 0, rs, rt, rp, r);
    if (shown.refusal == 32) {
        if (has("needle: 32, and the value left")) out[2] = needle_at(l, r, greater(l, r));
        if (has("needle: 32, and the value not written")) out[2] = was[2];
        if (has("needle: 32, and 32 for the value")) out[2] = 32;
        if (has("needle: 32, and the left density at the common pressure")) out[0] = warpsorrel_density(l[0], l[1], greater(l, r));
        if (has("needle: 32, and no word written")) memcpy(out, was, sizeof was);
        if (has("needle: 32 only where the waters differ") && out[0] == out[1]) shown.refusal = 0;
        if (has("needle: 32 only where the waters are alike") && out[0] != out[1]) {
            out[2] = needle_at(l, r, greater(l, r));
            shown.refusal = 0;
        }
    }
    if (refusal || shown.refusal) return (uint32_t)shown.refusal;
    if (has("needle: the difference of the printed densities")) out[2] = out[1] - out[0];
    if (has("needle: at the lesser pressure")) out[2] = needle_at(l, r, lesser(l, r));
    if (has("needle: at the left's pressure")) out[2] = needle_at(l, r, l[2]);
    if (has("needle: at the right's pressure")) out[2] = needle_at(l, r, r[2]);
    if (has("needle: at the surface")) out[2] = needle_at(l, r, 0);
    if (has("needle: the left's water on both sides")) out[2] = needle_at(l, l, greater(l, r));
    if (has("needle: the left density at the common pressure")) out[0] = warpsorrel_density(l[0], l[1], greater(l, r));
    if (has("needle: the right density at the common pressure")) out[1] = warpsorrel_density(r[0], r[1], greater(l, r));
    return 0;
}

/* ---- texts */

/* Another text in the place of the one that was written; past it the bytes are as the driver lends them. */
static void put(uint8_t *out, size_t *count, const char *text) {
    memset(out, 0x5a, *count);
    *count = strlen(text);
    memcpy(out, text, *count);
}

/* Each line of a page is changed, but for the header. */
static void change_lines(uint8_t *out, size_t *count, void (*change)(char line[64])) {
    static char text[2 * WARPSORREL_PAGE];
    size_t n = 0;
    text[0] = 0;
    for (size_t at = 0, end; at < *count; at = end) {
        char line[64] = "";
        for (end = at; out[end++] != '\n';) {}
        memcpy(line, out + at, end - at);
        if (at > 0) change(line);
        n += sprintf(text + n, "%s", line);
    }
    put(out, count, text);
}

/* The needle becomes the difference of the densities that stand beside it. */
static void subtract(char line[64]) {
    long number, left, right, needle;
    if (sscanf(line, "%ld %ld %ld %ld", &number, &left, &right, &needle) == 4) {
        sprintf(line, "%ld %ld %ld %ld\n", number, left, right, right - left);
    }
}

/* A line with the slip of a needle in it; the header has no number and stays. */
static void slip_in_line(const char *call, char line[64], int is_one_probe) {
    char left[16], right[16], needle[16], *places[] = {left, right, needle};
    unsigned number;
    if (sscanf(line, "%u %15s %15s %15s", &number, left, right, needle) != 4) return;
    struct shown is = {needle[0] == 'R' ? atol(needle + 1) : 0, atol(left), atol(right), 0, 0}, shown = is;
    slip_at_32(call, &shown, is_one_probe);
    if (shown.right != is.right) sprintf(right, "%ld", shown.right);
    if (shown.is_left_hidden) strcpy(left, "R32");
    if (shown.is_right_hidden) strcpy(right, "R32");
    if (shown.refusal != is.refusal) sprintf(needle, shown.refusal ? "R%ld" : "%ld", shown.refusal);
    int at = sprintf(line, "%u", number);
    for (int i = 0; i < 3; i++) at += sprintf(line + at, " %s", places[i]);
    sprintf(line + at, "\n");
}

uint32_t __wrap_warpsorrel_line(uint32_t number, uint32_t lk, uint16_t ln, float ls, float lt, float lp, uint32_t rk, uint16_t rn, float rs, float rt,
                                float rp, uint8_t *out, size_t room, size_t *count) {
    size_t was = *count;
    if (has("line: 31 before 30") && (number == 0 || number > 9999)) {
        *count = 0;
        return 31;
    }
    if (has("line: a denormal salinity flushed")) rs *= one;
    if (has("line: a room of 31 taken") && room == 31) room = 32;
    if (has("line: a room of 32 refused") && room == 32) room = 31;
    if (has("line: 10,000 taken") && number == 10000) number = 9999;
    if (has("line: 9,999 refused") && number == 9999) number = 10000;
    if (has("line: the number in 16 bits")) number = (uint16_t)number;
    if (has("line: the left's kind in 16 bits")) lk = (uint16_t)lk;
    if (has("line: a cut record refused by 7") && rk == WARPSORREL_CUT) rk = WARPSORREL_UNKNOWN;
    if (has("line: a wrong length refused by 6") && lk == WARPSORREL_LENGTH) lk = WARPSORREL_CUT;
    if (has("line: a surface's pressure read") && rk == WARPSORREL_SURFACE && rp != rp) rk = WARPSORREL_DEEP;
    if (has("line: kind 17 on the right refused by 7") && rk == 17) rk = 4;
    if (has("line: kind 18 on the left refused by 7") && lk == 18) lk = 4;
    if (has("line: kind 19 on the right refused by 7") && rk == 19) rk = 4;
    if (has("line: kind 20 on the right missing") && rk == 20) rk = 3;
    if (has("line: the left's number passed over beside an old kind") && !is_numbered(lk)) ln = 0;
    if (has("line: the right's number passed over beside an old kind") && !is_numbered(rk)) rn = 0;
    uint16_t left_number = slipped_number("line", 0, ln, rn), right_number = slipped_number("line", 1, rn, ln);
    uint32_t refusal = __real_warpsorrel_line(number, lk, left_number, ls, lt, lp, rk, right_number, rs, rt, rp, out, room, count);
    int is_one_probe = is_known(lk) && is_known(rk) && ln && ln == rn;
    if (!refusal && is_of("line")) {
        char text[64] = "";
        memcpy(text, out, *count);
        slip_in_line("line", text, is_one_probe);
        put(out, count, text);
    }
    int64_t l[8], r[8];
    if (!refusal && !is_one_probe && !__real_warpsorrel_channel(lk, 0, ls, lt, lp, l) && !__real_warpsorrel_channel(rk, 0, rs, rt, rp, r)) {
        char text[64];
        long left = l[3], right = r[3], is = needle_at(l, r, greater(l, r)), needle = is;
        if (has("line: the difference of the printed densities")) needle = right - left;
        if (has("line: the needle at the lesser pressure")) needle = needle_at(l, r, lesser(l, r));
        if (has("line: the left density at the common pressure")) left = warpsorrel_density(l[0], l[1], greater(l, r));
        if (has("line: the right density at the common pressure")) right = warpsorrel_density(r[0], r[1], greater(l, r));
        sprintf(text, "%u %ld %ld %ld\n", number, left, right, needle);
        if (left != l[3] || right != r[3] || needle != is) put(out, count, text);
    }
    if (has("line: refused, and a byte written") && refusal && room) out[0] = '0';
    if (has("line: refused, and the count not written") && refusal) *count = was;
    if (has("line: one byte fewer counted") && !refusal) *count -= 1;
    if (has("line: the rest of the 32 bytes cleared") && !refusal) memset(out + *count, 0, 32 - *count);
    if (has("line: a byte past the room") && room) out[room] = 0;
    return refusal;
}

/* ---- streams */

struct record {
    size_t past; /* where the next one starts */
    uint32_t kind, length;
    int is_whole, is_reading;
    uint16_t number; /* 0 for one that has none */
};

static struct record record_at(const uint8_t *stream, size_t length, size_t at) {
    struct record r = {length, 0, 0, 0, 0, 0};
    if (length - at < 4) return r;
    const uint8_t *head = stream + at;
    r.length = head[0] | (uint32_t)head[1] << 8;
    r.kind = head[2] | (uint32_t)head[3] << 8;
    if (length - at - 4 < r.length) return r;
    r.past = at + 4 + r.length;
    r.is_whole = 1;
    uint32_t old = old_kind(r.kind), floats = old == 1 ? 3 : old == 2 ? 2 : 0, before = is_numbered(r.kind) ? 2 : 0;
    r.is_reading = is_known(r.kind) && r.length == before + 4 * floats;
    if (r.is_reading && before) r.number = head[4] | head[5] << 8;
    return r;
}

/* Whether the pair at a place, which moves past it, is of readings with one number. */
static int next_is_one_probe(const uint8_t *stream, size_t length, size_t *at) {
    struct record l = record_at(stream, length, *at), r = {length, 0, 0, 0, 0, 0};
    if (l.past < length) r = record_at(stream, length, l.past);
    *at = r.past;
    return l.is_reading && r.is_reading && l.number && l.number == r.number;
}

static int is_one_probe_at(const uint8_t *stream, size_t length, size_t before) {
    size_t at = 0;
    int is_so = 0;
    for (; at < length; before--) {
        is_so = next_is_one_probe(stream, length, &at);
        if (before == 0) return is_so;
    }
    return 0;
}

/* The lines of a page come in the order of their pairs. */
static const uint8_t *page_stream;
static size_t page_length, page_at;

static void slip_in_next(char line[64]) {
    slip_in_line("page", line, next_is_one_probe(page_stream, page_length, &page_at));
}

static void slip_in_page(const uint8_t *stream, size_t length, uint8_t *out, size_t *count) {
    if (length > 60000) return;
    page_stream = stream;
    page_length = length;
    page_at = 0;
    change_lines(out, count, slip_in_next);
}

/* A whole record as it is misread: the record that is read so, rightly. Its length and kind are changed, and its body in its place. */
static void misread(const char *call, uint32_t *kind, uint32_t *length, uint8_t *body) {
    if (misreads(call, "kind 17 of 12 bytes, and no number") && *kind == 17) *kind = 1;
    if (misreads(call, "kind 18 of 8 bytes, and no number") && *kind == 18) *kind = 2;
    if (misreads(call, "kind 19 of 0 bytes, and no number") && *kind == 19) *kind = 3;
    if (misreads(call, "kind 17 refused by 7") && *kind == 17) *kind = 4;
    if (misreads(call, "kind 18 refused by 7") && *kind == 18) *kind = 4;
    if (misreads(call, "kind 19 refused by 7") && *kind == 19) *kind = 4;
    if (misreads(call, "kind 1 of 14 bytes, with a number") && *kind == 1) *kind = 17;
    if (misreads(call, "kind 2 of 10 bytes taken") && *kind == 2 && *length == 10) *length = 8;
    if (misreads(call, "kind 3 of 2 bytes taken") && *kind == 3 && *length == 2) *length = 0;
    if (misreads(call, "kind 17 of 12 bytes taken") && *kind == 17 && *length == 12) *kind = 1;
    if (misreads(call, "kind 19 of 0 bytes taken") && *kind == 19 && *length == 0) *kind = 3;
    if (misreads(call, "kind 19 of any length from 2 on taken") && *kind == 19 && *length > 2) *length = 2;
    if (misreads(call, "kind 17 of more than 14 bytes taken") && *kind == 17 && *length > 14) *length = 14;
    if (misreads(call, "the kind in five bits") && *kind > 31) *kind &= 31;
    if (misreads(call, "the kind in eight bits") && *kind > 255) *kind &= 255;
    if (misreads(call, "the kind big-endian") && *kind) *kind = (*kind & 255) << 8 | *kind >> 8;
    if (misreads(call, "kind 18 read as 17") && *kind == 18) *kind = 17;
    if (misreads(call, "the number after the floats") && is_numbered(*kind) && *length >= 2) {
        uint8_t last[2] = {body[*length - 2], body[*length - 1]};
        memmove(body + 2, body, *length - 2);
        memcpy(body, last, 2);
    }
    if (misreads(call, "the number between the floats") && is_numbered(*kind) && *length >= 6) {
        uint8_t second[2] = {body[4], body[5]};
        memmove(body + 2, body, 4);
        memcpy(body, second, 2);
    }
    if (misreads(call, "the floats from the number on") && (*kind == 17 || *kind == 18) && *length >= 2) memmove(body + 2, body, *length - 2);
}

/* The stream as a call with this fault sees it. A long one is seen as it is: it would only take its time. */
static const uint8_t *seen(const char *call, const uint8_t *stream, size_t *length) {
    static uint8_t copy[1 << 15];
    size_t to = 0, at = 0;
    int is_right = 0;
    uint16_t before = 0;
    if (!is_of(call) || *length == 0 || *length > sizeof copy / 2) return stream;
    for (; at < *length; is_right = !is_right) {
        struct record r = record_at(stream, *length, at);
        if (!r.is_whole) break;
        uint16_t other = is_right ? before : r.past < *length ? record_at(stream, *length, r.past).number : 0;
        uint16_t number = r.is_reading ? slipped_number(call, is_right, r.number, other) : 0;
        uint32_t kind = r.kind, body = r.length, more = r.is_reading && !is_numbered(kind) && number ? 2 : 0;
        memcpy(copy + to + 4 + more, stream + at + 4, body);
        if (more) kind += 16;
        if (more || (r.is_reading && is_numbered(kind))) memcpy(copy + to + 4, &number, 2);
        body += more;
        misread(call, &kind, &body, copy + to + 4);
        uint8_t head[4] = {(uint8_t)body, (uint8_t)(body >> 8), (uint8_t)kind, (uint8_t)(kind >> 8)};
        memcpy(copy + to, head, 4);
        to += 4 + body;
        before = r.number;
        at = r.past;
    }
    memcpy(copy + to, stream + at, *length - at);
    *length = to + *length - at;
    return copy;
}

size_t __wrap_warpsorrel_pairs(const uint8_t *stream, size_t length) {
    size_t count = __real_warpsorrel_pairs(stream, length);
    if (has("pairs: 0 over 60,000 bytes") && length > 60000) return 0;
    if (has("pairs: 0 where it rounds down") && rounding(1)) return 0;
    if (has("pairs: none past 9,999") && count > 9999) return 9999;
    if (has("pairs: a left alone not counted") && length % 8 == 4) return count - 1;
    return count;
}

uint32_t __wrap_warpsorrel_pair(const uint8_t *stream, size_t length, size_t before, int64_t out[8]) {
    int64_t was[8];
    memcpy(was, out, sizeof was);
    if (has("pair: only the first 60,000 bytes") && length > 60000) length = 60000;
    if (has("pair: none where denormals are flushed") && flushing()) length = 0;
    if (has("pair: before in 32 bits")) before = (uint32_t)before;
    if (has("pair: counted from 1") && before) before -= 1;
    if (has("pair: the first again") && before < __real_warpsorrel_pairs(stream, length)) before = 0;
    size_t seen_length = length;
    const uint8_t *seen_stream = seen("pair", stream, &seen_length);
    uint32_t there = __real_warpsorrel_pair(seen_stream, seen_length, before, out);
    struct shown shown = {out[6], out[1], out[4], 0, 0};
    slip_at_32("pair", &shown, is_of("pair") && there && is_one_probe_at(stream, length, before));
    out[6] = shown.refusal;
    out[1] = shown.left;
    out[4] = shown.right;
    if (has("pair: 32, and the value left") && out[6] == 32) out[7] = out[4] - out[1];
    if (has("pair: 32, and the value not written") && out[6] == 32) out[7] = was[7];
    if (has("pair: 32, and no left bulk modulus") && out[6] == 32) out[2] = 0;
    if (has("pair: 32, and no right bulk modulus") && out[6] == 32) out[5] = 0;
    if (has("pair: 32, and the left refused by it") && out[6] == 32) out[0] = 32;
    if (has("pair: 32, and no such pair") && out[6] == 32) there = 0;
    if (has("pair: the left's bulk modulus for the right")) out[5] = out[2];
    if (has("pair: the left's density for the right")) out[4] = out[1];
    if (has("pair: the needle of right and left")) out[7] = -out[7];
    if (has("pair: the difference of the printed densities") && !out[6]) out[7] = out[4] - out[1];
    if (has("pair: none, and the words not written") && !there) memcpy(out, was, sizeof was);
    if (has("pair: a ninth word")) out[ninth] = 0;
    if (has("pair: the stream changed") && length) ((uint8_t *)stream)[length / 2] ^= 1;
    if (has("pair: a byte past the stream read") && length) out[0] += ((volatile const uint8_t *)stream)[length] & 0;
    return there;
}

uint32_t __wrap_warpsorrel_page(const uint8_t *stream, size_t length, uint8_t *out, size_t room, size_t *count) {
    size_t was = *count;
    if (has("page: a room one short taken") && room == WARPSORREL_PAGE - 1) room += 1;
    if (has("page: the least room refused") && room == WARPSORREL_PAGE) room -= 1;
    if (has("page: none where it rounds to zero") && rounding(3)) length = 0;
    if (has("page: 60,001 bytes have a page") && length == 60001) length -= 1;
    size_t seen_length = length;
    const uint8_t *seen_stream = seen("page", stream, &seen_length);
    uint32_t refusal = __real_warpsorrel_page(seen_stream, seen_length, out, room, count);
    if (!refusal && is_of("page")) slip_in_page(stream, length, out, count);
    if (has("page: the difference of the printed densities") && !refusal) change_lines(out, count, subtract);
    if (has("page: the byte past its end touched") && !refusal) out[*count] = 0;
    if (has("page: the byte before its start touched") && room) out[-1] = 0;
    if (has("page: refused, and the last byte written") && refusal && room) out[room - 1] = 0;
    if (has("page: refused, and the count not written") && refusal) *count = was;
    if (has("page: a word past the count") && !refusal) count[1] = 0;
    if (has("page: NULL written to") && !out) *(volatile uint8_t *)out = 0;
    return refusal;
}
