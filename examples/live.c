/* Watches two probes: a line of standard input is a pair, left then right, as KIND PROBE SALINITY TEMPERATURE PRESSURE each. */
#include <inttypes.h>
#include <stdio.h>
#include "warpsorrel.h"

int main(void) {
    char line[256], more[2];
    while (fgets(line, sizeof line, stdin)) {
        uint32_t left, right; /* kinds: 1 deep, 2 surface, 3 missing; 17, 18 and 19 say the same here */
        int64_t lprobe = 0, rprobe = 0; /* the probes' numbers, to 65,535; 0 for a probe without one */
        float ls = 0, lt = 0, lp = 0, rs = 0, rt = 0, rp = 0;
        int64_t out[3]; /* the densities, each at its own pressure, and the needle, at the greater of the two; in 0.001 kg/m3 */
        int found = sscanf(line, "%" SCNu32 "%" SCNd64 "%f%f%f%" SCNu32 "%" SCNd64 "%f%f%f%1s", &left, &lprobe, &ls, &lt, &lp,
                           &right, &rprobe, &rs, &rt, &rp, more);
        int numbers = lprobe >= 0 && lprobe <= UINT16_MAX && rprobe >= 0 && rprobe <= UINT16_MAX;
        if (found != 10 || !numbers) left = right = WARPSORREL_CUT; /* not such ten numbers: no reading */
        uint32_t refused = warpsorrel_needle(left, (uint16_t)lprobe, ls, lt, lp, right, (uint16_t)rprobe, rs, rt, rp, out);
        if (refused) printf("no needle: R%" PRIu32 "\n", refused); /* before all else: a refused needle is 0 too */
        else if (imaxabs(out[2]) < 3) puts("alike");
        else printf("the %s is heavier by %.3f kg/m3\n", out[2] > 0 ? "right" : "left", imaxabs(out[2]) / 1000.0);
        if (fflush(stdout)) return 1; /* the answer goes out now, not when a buffer is full */
    }
}
