/* What the library is measured beside. */
#ifndef PLAIN_H
#define PLAIN_H

#include <stddef.h>
#include <stdint.h>

/* plain.c: the same whole-number recipe and the same whole-number definition of ln K0, written in C as usual; with the root by the search that the
 * recipe names. */
uint32_t plain_density(int64_t sigma, int64_t tau, int64_t pi);
uint32_t plain_channel(uint32_t kind, uint16_t probe, float salinity, float temperature, float pressure, int64_t out[8]);
uint32_t plain_needle(uint32_t left_kind, uint16_t left_probe, float left_salinity, float left_temperature, float left_pressure, uint32_t right_kind,
                      uint16_t right_probe, float right_salinity, float right_temperature, float right_pressure, int64_t out[3]);
uint32_t plain_co2(uint32_t kind, float salinity, float temperature, float pressure, int64_t *out);
uint32_t plain_page(const uint8_t *stream, size_t length, uint8_t *out, size_t room, size_t *count);

/* The same file, compiled so that the root's search jumps on every digit. */
uint32_t jump_density(int64_t sigma, int64_t tau, int64_t pi);

/* The same file with the root taken by the processor's square root of a double. */
uint32_t sqrt_density(int64_t sigma, int64_t tau, int64_t pi);

/* double.c: the published formula in doubles; practical salinity, degrees C, bar; kg/m3. The needle alone, without the densities beside it. */
double double_density(double salinity, double temperature, double pressure);
double double_needle(double left_salinity, double left_temperature, double left_pressure, double right_salinity, double right_temperature,
                     double right_pressure);

/* The published equation for ln K0 in doubles. */
double double_co2(double salinity, double temperature);

/* A row of the program details, of an accepted reading or a refused one, or of the sheet. */
struct row {
    enum { ACCEPTED, REFUSED, SHEET } shape;
    int number, side;
    int whole[8];   /* sigma, tau, pi, density, bulk modulus, ln K0, the remarks' letters, a byte each, the probe's number; seven times the refusal
                     * and the number; of the sheet left, right and needle */
    double real[6]; /* the same numbers as doubles, where there is no refusal: with their units of 1, of the sheet as they are shown */
};

/* rows.c: the row into a buffer from a place on, and the place past it. By the library's row writer; by snprintf of whole numbers; by snprintf
 * of doubles, which a refused row has none of. */
size_t library_row(const struct row *r, uint8_t *out, size_t room, size_t at);
size_t whole_row(const struct row *r, uint8_t *out, size_t room, size_t at);
size_t double_row(const struct row *r, uint8_t *out, size_t room, size_t at);

#endif
