/* The answers about a stream once more, from the definition: see oracle.c. */
#ifndef ORACLE_H
#define ORACLE_H

#include <stddef.h>
#include <stdint.h>

/* What stands in a channel, as the C ABI takes it: a kind, the probe's number, and floats by their bits. A float that is not to be read is a NaN. */
struct oracle_report {
    uint32_t kind;
    uint16_t probe; /* 0 where the record has none */
    uint32_t floats[3];
};

/* What a channel answers; noughts if refused. The remarks are of salinity, temperature, pressure: 1 below its grid point, 2 on it, 3 above it. */
struct oracle_channel {
    uint32_t refusal;
    int64_t sigma, tau, pi, density, bulk, remarks[3];
};

struct oracle_needle {
    uint32_t refusal;
    int64_t value;
};

/* ln K0 in millionths; 0 if refused. */
struct oracle_co2 {
    uint32_t refusal;
    int64_t value;
};

/* The root of a salinity's grid number, and the trial bit, the rest and the root so far of a line of its search on paper; noughts if refused. */
struct oracle_root {
    uint32_t refusal;
    int64_t root, bit, rest, so_far;
};

size_t oracle_pairs(const uint8_t *stream, size_t length);

/* The pair with so many before it, left then right; 0 where there is none. */
int oracle_pair(const uint8_t *stream, size_t length, size_t before, struct oracle_report reports[2], struct oracle_channel channels[2]);

/* The reports of the pair at a place, which moves past it; 0 at the stream's end. */
int oracle_next(const uint8_t *stream, size_t length, size_t *at, struct oracle_report reports[2]);

/* The salinity on the grid, whatever the other floats are; -1 where the report has none from 0 to 42. */
int64_t oracle_sigma(const struct oracle_report *report);

/* The line is that after so many trials. */
struct oracle_root oracle_root(int64_t sigma, uint32_t trials);

/* By salinity and temperature alone. */
struct oracle_co2 oracle_co2(const struct oracle_report *report);

/* The published equation for ln K0 in doubles, of a report that is not refused, at its salinity and temperature on the grid. */
double oracle_equation(const struct oracle_report *report);

/* Both waters at the greater of the two pressures; of the reports the numbers alone are looked at. */
struct oracle_needle oracle_needle(const struct oracle_report reports[2], const struct oracle_channel channels[2]);

/* The published formula in doubles, of a report that is not refused, at the floats as sent: the pressure (bar; 0 at the surface), and the density
 * (kg/m3) with the water at a pressure. No mode that the processor rounds in changes it by as much as 10^-9. */
double oracle_pressure(const struct oracle_report *report);
double oracle_formula(const struct oracle_report *report, double pressure);

/* out has room for the longest line, the longest page. */
size_t oracle_line(uint32_t number, const struct oracle_report reports[2], const struct oracle_channel channels[2], uint8_t *out);
size_t oracle_page(const uint8_t *stream, size_t length, uint8_t *out);

#endif
