/* The panel's C ABI: link libwarpsorrel.a or libwarpsorrel.so, which capi/build leaves in target/capi. Their code is x86-64's, for the calling
 * convention that Linux has there (System V).
 *
 * Every function answers every number, every float pattern and every stream of bytes: bad input is refused by number, and no value has to be
 * checked first. Every function is reentrant, allocates nothing and keeps nothing between calls, and calls nothing outside the library. So any
 * number of threads may call them at once.
 *
 * What C cannot say in a declaration is asked of the caller all the same:
 *   - a pointer points to as many bytes or numbers as its declaration or its length says; where a length is 0, it may be NULL;
 *   - what a call is lent to write (out, count) overlaps nothing else that it is given. Above all stream and out must not overlap: a page
 *     written over its own stream comes out wrong, and nothing says so;
 *   - nobody else writes what a call reads, or reads or writes what it writes, while it runs.
 *
 * Of the floating-point environment two things are asked: exceptions are masked, as a program starts; and warpsorrel_recorder, which divides
 * once, in the rounding mode that it finds, keeps its promise to nearest, the mode that a program starts with. No mode changes an answer of any
 * other function: not the rounding mode, nor flush-to-zero or denormals-are-zero (as a program linked with -ffast-math sets them), because floats
 * are compared with NaN and infinity and otherwise taken apart by their bits. A call leaves the modes as it finds them; it may set the flags
 * that record exceptions. */
#ifndef WARPSORREL_H
#define WARPSORREL_H

#include <stddef.h>
#include <stdint.h>

#ifdef __cplusplus
extern "C" {
#endif

/* ---- The version of what is declared here. It goes up when a call that was there changes what it takes or what it answers; new calls alone do
 * not raise it. A program that loads the library at run time asks once, at its start, and goes on only with the number that it was written for:
 * one written for an earlier version hands over no probe number, so that the library would take its out for one and write somewhere else. */
#define WARPSORREL_VERSION 4u

/* The version of the library: WARPSORREL_VERSION, if the two belong together. */
uint32_t warpsorrel_version(void);

/* ---- Refusals; 0 is none. Of several the first of 6, 7, 8, 1, 2, 3, 4, 5 is answered. 30 and 31 are for a line or a page that is not written,
 * and there 30 comes first. 32 is a needle's alone, where neither side is refused: both have one number, as a probe in both sockets has. */
#define WARPSORREL_REFUSED_MISSING 1u      /* missing */
#define WARPSORREL_REFUSED_NOT_FINITE 2u   /* a NaN or an infinity */
#define WARPSORREL_REFUSED_SALINITY 3u     /* the salinity is not from 0 to 42 */
#define WARPSORREL_REFUSED_TEMPERATURE 4u  /* the temperature is not from -2 to 40 degrees C; for warpsorrel_co2: from 0 to 40 */
#define WARPSORREL_REFUSED_PRESSURE 5u     /* the pressure is not from 0 to 1,000 bar */
#define WARPSORREL_REFUSED_CUT 6u          /* the record is cut short */
#define WARPSORREL_REFUSED_KIND 7u         /* the kind is none of 1, 2, 3, 17, 18, 19 */
#define WARPSORREL_REFUSED_LENGTH 8u       /* the length is not the kind's own */
#define WARPSORREL_REFUSED_ROOM 30u        /* the room is too small */
#define WARPSORREL_REFUSED_PAIR_NUMBER 31u /* the pair number is not from 1 to 9,999 */
#define WARPSORREL_REFUSED_SAME_PROBE 32u  /* both sides have the same probe number, other than 0 */

/* Every other refusal of a needle is one of these plus the refusal of that side, 1 to 8: 103 is "left: the salinity is not from 0 to 42". */
#define WARPSORREL_REFUSED_LEFT 100u
#define WARPSORREL_REFUSED_RIGHT 200u

/* ---- Grid numbers: sigma is the salinity in 0.001 (0 to 42,000), tau the temperature in 0.001 degrees C (-2,000 to 40,000),
 * pi the pressure above the atmosphere in 0.01 bar (0 to 100,000). */

/* 0, or the refusal: 3 for the salinity, then 4 for the temperature, then 5 for the pressure. */
uint32_t warpsorrel_refusal(int64_t sigma, int64_t tau, int64_t pi);

/* The density in 0.001 kg/m3, within 0.0006 kg/m3 of the published formula; 0 if refused. */
uint32_t warpsorrel_density(int64_t sigma, int64_t tau, int64_t pi);

/* The secant bulk modulus in 0.01 bar, rounded down; 0 if refused. */
uint32_t warpsorrel_bulk(int64_t sigma, int64_t tau, int64_t pi);

/* The root that every density of this salinity uses, and how it is found: a line of its search on paper (docs/ROOT.md), after so many trials. The root w
 * is the greatest whole number whose square is at most sigma times 100,000. 0, or the refusal 3. out gets w, then the line's trial bit, rest and root so
 * far; four noughts if refused. The search is over where the trial bit is 0: the root so far is w then, and more trials change nothing. 16 are enough
 * for every salinity. */
uint32_t warpsorrel_root(int64_t sigma, uint32_t trials, uint64_t out[4]);

/* ---- Reports: practical salinity, temperature in degrees C, pressure in bar above the atmosphere. The kind is a record's: deep, surface
 * (the pressure is taken as 0 and its float not read), missing (no float is read). Three more, which no record has for a kind, stand for a
 * record that gave no reading: CUT for refusal 6, LENGTH for 8, UNKNOWN for 7 (no float is read). Every other kind is refused by 7 too.
 *
 * The probe's number is from 0 to 65,535, and 0 is that of a probe without one. It changes nothing of a channel; it only keeps a needle from
 * comparing a probe with itself, and two with 0 are compared. C cuts a greater number off in silence: 65,536 would come as 0. The numbered kinds
 * are those of records that carry a number. To a call they mean the same as the three before them, since it takes the number from its argument:
 * kind 1 with number 513 and kind 17 with it are one report. For a record of kind 1, 2 or 3, which carries none, give 0. */
#define WARPSORREL_DEEP 1u
#define WARPSORREL_SURFACE 2u
#define WARPSORREL_MISSING 3u
#define WARPSORREL_NUMBERED_DEEP 17u
#define WARPSORREL_NUMBERED_SURFACE 18u
#define WARPSORREL_NUMBERED_MISSING 19u
#define WARPSORREL_CUT 65542u
#define WARPSORREL_UNKNOWN 65543u
#define WARPSORREL_LENGTH 65544u

/* Remarks: where the exact value of a float lies, seen from its grid point. A float halfway between two grid points goes to the upper one, so that
 * it lies below; minus zero is on. Of two floats with one grid number, the greater remark is the greater float's. 0 is none of them. Only multiples
 * of 1/8 can be on, of a pressure multiples of 1/4: no float is 35.001, and the one nearest to it is below. */
#define WARPSORREL_BELOW 1 /* below its grid point */
#define WARPSORREL_ON 2    /* on its grid point */
#define WARPSORREL_ABOVE 3 /* above its grid point */

/* 0, or the refusal: 6, 7, 8 by the kind, 1 missing, 2 a NaN or an infinity, 3, 4, 5 outside the range of the salinity, the temperature,
 * the pressure. out gets sigma, tau, pi, the density and the bulk modulus, then the remarks of the salinity, the temperature and the pressure;
 * eight noughts if refused. A surface report's pressure is always on. The density is within 0.0014 kg/m3 of the published formula at the floats
 * as they were sent, and within 0.0006 at sigma, tau, pi. The answer is the same for every probe number. */
uint32_t warpsorrel_channel(uint32_t kind, uint16_t probe, float salinity, float temperature, float pressure, int64_t out[8]);

/* How much carbon dioxide the water will hold: ln K0 of Weiss (1974). 0, or the refusal: 6, 7, 8 by the kind, 1 missing, 2 a NaN or an infinity
 * in the salinity or the temperature, 3 a salinity that is not from 0 to 42, 4 a temperature that is not from 0 to 40 degrees C. The pressure is
 * not read, of a deep report either: whatever it is, a NaN too, the answer is the same. out gets ln K0 in millionths, within 2 of the published
 * equation at sigma and tau; 0 if refused. K0, in mol/(kg atm), is exp(*out / 1e6). No probe number is taken: it would change nothing. */
uint32_t warpsorrel_co2(uint32_t kind, float salinity, float temperature, float pressure, int64_t *out);

/* 0, or 100 plus the left's refusal, otherwise 200 plus the right's, otherwise 32 where both have the same probe number, other than 0. out gets the
 * left density and the right density, each at its own pressure (0 where that one is refused; at 32 both are given), and the needle: right minus
 * left in 0.001 kg/m3, both waters at the greater of the two pressures, plus where the right is heavier; 0 if refused, by 32 too. Where the
 * pressures differ, the needle need not be the difference of the two densities beside it. A needle of 3 or more, either way, names the heavier of
 * the two waters as they were sent, by the published formula; 2 does so of the two on the grid alone. */
uint32_t warpsorrel_needle(uint32_t left_kind, uint16_t left_probe, float left_salinity, float left_temperature, float left_pressure,
                           uint32_t right_kind, uint16_t right_probe, float right_salinity, float right_temperature, float right_pressure,
                           int64_t out[3]);

/* The recorder's float of a shown density, in kg/m3: shown / 1000 below 16,384,000, where it stands for shown alone; else 0. */
float warpsorrel_recorder(uint32_t shown);

/* The least room for a line. No line has more than 30 bytes. */
#define WARPSORREL_LINE 32

/* The sheet's line of two reports and a pair number, at the start of out: number, left density, right density and needle as warpsorrel_needle
 * gives them, a line feed; a refused place shows R and its number: "1 1027675 997048 R32" where both sides are one probe. 0, and count gets the
 * bytes written; the bytes past them keep their values. Or the refusal: 30 for a room under WARPSORREL_LINE, then 31 for a pair number of 0 or
 * over 9,999; count gets 0 then, and out is untouched. */
uint32_t warpsorrel_line(uint32_t number,
                         uint32_t left_kind, uint16_t left_probe, float left_salinity, float left_temperature, float left_pressure,
                         uint32_t right_kind, uint16_t right_probe, float right_salinity, float right_temperature, float right_pressure,
                         uint8_t *out, size_t room, size_t *count);

/* ---- Streams of records, as the panel's probes write them (docs/FORMAT.md). */

/* How many pairs a stream has, of any length: the limit of 60,000 bytes is the page's alone. */
size_t warpsorrel_pairs(const uint8_t *stream, size_t length);

/* The pair of a stream with so many pairs before it (0 for the sheet's pair 1): 1, and out gets refusal, density and bulk modulus of the left,
 * then those of the right, each at its own pressure, then refusal and value of the needle, as of warpsorrel_needle. 0 where the stream has no
 * such pair; out gets eight noughts then. */
uint32_t warpsorrel_pair(const uint8_t *stream, size_t length, size_t before, int64_t out[8]);

/* The least room for a page, and the longest page there is. */
#define WARPSORREL_PAGE 118916

/* The stream's page, at the start of out: 0, and count gets the bytes written; the bytes past them keep their values. Or the refusal 30 for a
 * room under WARPSORREL_PAGE; count gets 0 then, and out is untouched. A stream over 60,000 bytes has the page "too long". stream and out must
 * not overlap. */
uint32_t warpsorrel_page(const uint8_t *stream, size_t length, uint8_t *out, size_t room, size_t *count);

#ifdef __cplusplus
}
#endif

#endif
