/* One row in three ways: by the library's row writer, and by C's snprintf, of whole numbers and of doubles. */
#include <stdio.h>
#include <stdlib.h>
#include "plain.h"

/* crates/cells' Cell and put_row, as they are compiled: a slice is handed over as a pointer and a length. A cell is a number with so many decimal places, R
 * and a number, or a word. */
enum { FIXED, REFUSAL, WORD };
struct cell {
    uint8_t kind, places;
    int64_t value;
};
size_t put_row(const struct cell *cells, size_t many, uint8_t separator, uint8_t *buf, size_t room, size_t at);

/* The program's own main comes along with the writer, and asks this; it is not called. */
int rattle_errno(void);
int rattle_errno(void) { return 0; }

/* What the cells of a row are: their kinds, and the places of those that are numbers. */
static const uint8_t accepted[] = {FIXED, WORD, FIXED, FIXED, FIXED, FIXED, FIXED, FIXED, WORD, FIXED}, places[] = {0, 0, 3, 3, 2, 3, 2, 6, 0, 0};
static const uint8_t refused[] = {FIXED, WORD, REFUSAL, REFUSAL, REFUSAL, REFUSAL, REFUSAL, REFUSAL, REFUSAL, FIXED};

static const char *const sides[] = {"left", "right"};
/* The same, a letter a byte. */
static const int64_t words[] = {0x6c656674, 0x7269676874};

size_t library_row(const struct row *r, uint8_t *out, size_t room, size_t at) {
    const int *w = r->whole;
    struct cell cells[10];
    if (r->shape == SHEET) {
        for (int i = 0; i < 4; i++) cells[i] = (struct cell){FIXED, 0, i ? w[i - 1] : r->number};
        return put_row(cells, 4, ' ', out, room, at);
    }
    const uint8_t *kinds = r->shape == REFUSED ? refused : accepted;
    for (int i = 0; i < 10; i++) cells[i] = (struct cell){kinds[i], places[i], i > 1 ? w[i - 2] : i ? words[r->side] : r->number};
    return put_row(cells, 10, ',', out, room, at);
}

#define PRINT(...) (at + (size_t)snprintf((char *)out + at, room - at, __VA_ARGS__))
#define LETTERS(word) (word) >> 16, (word) >> 8 & 255, (word) & 255

/* Of the numbers with a point a temperature can be below 0, and ln K0 always is; above -1 the whole part alone would lose the minus. */
size_t whole_row(const struct row *r, uint8_t *out, size_t room, size_t at) {
    const int *w = r->whole, n = r->number;
    const char *side = sides[r->side];
    if (r->shape == SHEET) return PRINT("%d %d %d %d\n", n, w[0], w[1], w[2]);
    if (r->shape == REFUSED) return PRINT("%d,%s,R%d,R%d,R%d,R%d,R%d,R%d,R%d,%d\n", n, side, w[0], w[1], w[2], w[3], w[4], w[5], w[6], w[7]);
    int t = abs(w[1]), k = abs(w[5]);
    return PRINT("%d,%s,%d.%03d,%s%d.%03d,%d.%02d,%d.%03d,%d.%02d,-%d.%06d,%c%c%c,%d\n", n, side, w[0] / 1000, w[0] % 1000, w[1] < 0 ? "-" : "",
                 t / 1000, t % 1000, w[2] / 100, w[2] % 100, w[3] / 1000, w[3] % 1000, w[4] / 100, w[4] % 100, k / 1000000, k % 1000000,
                 LETTERS(w[6]), w[7]);
}

size_t double_row(const struct row *r, uint8_t *out, size_t room, size_t at) {
    const double *d = r->real;
    if (r->shape == SHEET) return PRINT("%d %.0f %.0f %.0f\n", r->number, d[0], d[1], d[2]);
    return PRINT("%d,%s,%.3f,%.3f,%.2f,%.3f,%.2f,%.6f,%c%c%c,%d\n", r->number, sides[r->side], d[0], d[1], d[2], d[3], d[4], d[5],
                 LETTERS(r->whole[6]), r->whole[7]);
}
