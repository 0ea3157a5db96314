//! The definition once more, by other means: UNESCO's printed coefficients, put on the common scale here, and 128-bit
//! whole numbers. It shares no line and no table with the crates.

/// A refusal's number, or the shown density and the bulk modulus in hundredths of a bar.
pub type Answer = Result<(u32, u32), u32>;

/// A printed decimal as a whole number of units of 10^-9, after a move of the decimal point by `shift` places.
fn decimal(text: &str, shift: i32) -> i128 {
    let (mantissa, exponent) = match text.split_once('e') {
        Some((m, e)) => (m, e.parse::<i32>().unwrap()),
        None => (text, 0),
    };
    let (sign, digits) = match mantissa.strip_prefix('-') {
        Some(rest) => (-1, rest),
        None => (1, mantissa),
    };
    let (whole, fraction) = digits.split_once('.').unwrap_or((digits, ""));
    let value: i128 = format!("{whole}{fraction}").parse().unwrap();
    let places = exponent + shift + 9 - fraction.len() as i32;
    assert!(places >= 0, "{text} is not a whole number of units");
    sign * value * 10i128.pow(places as u32)
}

/// A row as printed, lowest power of the temperature first; it multiplies salinity to the `half_salt`/2 and pressure to
/// the `press`. Temperature and salinity go to hundredths, pressure to thousandths.
fn row(printed: &[&str], half_salt: i32, press: i32) -> Vec<i128> {
    (0..).zip(printed).map(|(i, c)| decimal(c, 2 * i + half_salt + 3 * press)).collect()
}

/// Millero and Poisson (1981); Millero, Chen, Bradshaw and Schleicher (1980); both in UNESCO Technical Papers 38 and 44.
pub struct Formula {
    density: [Vec<i128>; 4],
    at_rest: [Vec<i128>; 3],
    first: [Vec<i128>; 3],
    second: [Vec<i128>; 2],
}

impl Formula {
    pub fn printed() -> Formula {
        Formula {
            density: [
                row(&["999.842594", "6.793952e-2", "-9.095290e-3", "1.001685e-4", "-1.120083e-6", "6.536332e-9"], 0, 0),
                row(&["8.24493e-1", "-4.0899e-3", "7.6438e-5", "-8.2467e-7", "5.3875e-9"], 2, 0),
                row(&["-5.72466e-3", "1.0227e-4", "-1.6546e-6"], 3, 0),
                row(&["4.8314e-4"], 4, 0),
            ],
            at_rest: [
                row(&["19652.21", "148.4206", "-2.327105", "1.360477e-2", "-5.155288e-5"], 0, 0),
                row(&["54.6746", "-0.603459", "1.09987e-2", "-6.1670e-5"], 2, 0),
                row(&["7.944e-2", "1.6483e-2", "-5.3009e-4"], 3, 0),
            ],
            first: [
                row(&["3.239908", "1.43713e-3", "1.16092e-4", "-5.77905e-7"], 0, 1),
                row(&["2.2838e-3", "-1.0981e-5", "-1.6078e-6"], 2, 1),
                row(&["1.91075e-4"], 3, 1),
            ],
            second: [
                row(&["8.50935e-5", "-6.12293e-6", "5.2787e-8"], 0, 2),
                row(&["-9.9348e-7", "2.0816e-8", "9.1697e-10"], 2, 2),
            ],
        }
    }

    /// Density and bulk modulus at grid numbers, by the recipe's whole numbers.
    pub fn water(&self, sigma: i64, tau: i64, pi: i64) -> Answer {
        for (value, low, high, number) in [(sigma, 0, 42_000, 3), (tau, -2_000, 40_000, 4), (pi, 0, 100_000, 5)] {
            if value < low || high < value {
                return Err(number);
            }
        }
        let (s, t, p) = (sigma as i128, tau as i128, pi as i128);
        let w = root(s * 100_000);
        let at = |row: &Vec<i128>| nested(row, t);
        let [dw, ds, dr, dss] = [0, 1, 2, 3].map(|i| at(&self.density[i]));
        let d = dw + scaled(s, ds + scaled(w, dr) + scaled(s, dss));
        let [kw, ks, kr] = [0, 1, 2].map(|i| at(&self.at_rest[i]));
        let [aw, a_s, ar] = [0, 1, 2].map(|i| at(&self.first[i]));
        let [bw, bs] = [0, 1].map(|i| at(&self.second[i]));
        let k = kw + scaled(s, ks + scaled(w, kr)) + scaled(p, aw + scaled(s, a_s + scaled(w, ar)) + scaled(p, bw + scaled(s, bs)));
        let m = down(d, 1_000);
        let n = down(k, 10_000) - 1_000 * p;
        assert!(n > 0 && m > 0);
        let density = m + down(m * 1_000 * p, n);
        Ok((down(density + 500, 1_000) as u32, down(k, 10_000_000) as u32))
    }
}

/// Division rounded towards minus infinity.
fn down(a: i128, b: i128) -> i128 {
    a.div_euclid(b)
}

fn scaled(x: i128, h: i128) -> i128 {
    down(h * x, 100_000)
}

fn nested(row: &[i128], t: i128) -> i128 {
    let mut coefficients = row.iter().rev();
    let highest = *coefficients.next().unwrap();
    coefficients.fold(highest, |value, c| c + scaled(t, value))
}

/// The greatest whole number whose square is at most n, from the machine's root and mended.
pub fn root(n: i128) -> i128 {
    let mut w = (n as f64).sqrt() as i128;
    while w * w > n {
        w -= 1;
    }
    while (w + 1) * (w + 1) <= n {
        w += 1;
    }
    w
}
