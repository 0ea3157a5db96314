/* EOS-80 in doubles, as it is usually programmed: Millero and Poisson (1981) at one atmosphere; Millero, Chen, Bradshaw and Schleicher
 * (1980) under pressure. Coefficients as printed in UNESCO Technical Papers in Marine Science 38 and 44. And ln K0 of Weiss (1974), as the handbook
 * of CO2 measurements prints it. Nothing is checked. */
#include <math.h>
#include "plain.h"

double double_density(double s, double t, double p) {
    double w = sqrt(s);
    double water = 999.842594 + t * (6.793952e-2 + t * (-9.095290e-3 + t * (1.001685e-4 + t * (-1.120083e-6 + t * 6.536332e-9))));
    double salt = 8.24493e-1 + t * (-4.0899e-3 + t * (7.6438e-5 + t * (-8.2467e-7 + t * 5.3875e-9)));
    double rooted = -5.72466e-3 + t * (1.0227e-4 + t * -1.6546e-6);
    double surface = water + s * (salt + w * rooted + s * 4.8314e-4);

    double k0 = 19652.21 + t * (148.4206 + t * (-2.327105 + t * (1.360477e-2 + t * -5.155288e-5))) +
                s * (54.6746 + t * (-0.603459 + t * (1.09987e-2 + t * -6.1670e-5)) + w * (7.944e-2 + t * (1.6483e-2 + t * -5.3009e-4)));
    double a = 3.239908 + t * (1.43713e-3 + t * (1.16092e-4 + t * -5.77905e-7)) +
               s * (2.2838e-3 + t * (-1.0981e-5 + t * -1.6078e-6) + w * 1.91075e-4);
    double b = 8.50935e-5 + t * (-6.12293e-6 + t * 5.2787e-8) + s * (-9.9348e-7 + t * (2.0816e-8 + t * 9.1697e-10));
    double k = k0 + p * (a + p * b);
    return surface / (1 - p / k);
}

double double_needle(double ls, double lt, double lp, double rs, double rt, double rp) {
    double p = lp > rp ? lp : rp;
    return double_density(rs, rt, p) - double_density(ls, lt, p);
}

double double_co2(double s, double t) {
    double h = (t + 273.15) / 100;
    return 93.4517 / h - 60.2409 + 23.3585 * log(h) + s * (0.023517 + h * (-0.023656 + h * 0.0047036));
}
