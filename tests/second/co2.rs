//! How much carbon dioxide a water will hold: ln K0 of Weiss (1974), as the handbook of CO2 measurements has it in its equation (30). It is held to
//! the definition once more, in 128-bit whole numbers, and to the equation itself, between two bounds that the true value lies between.

use crate::channel::{self, any_of, floats_of, Report, CUT, LENGTH};
use crate::floats::{Float, INFINITE};
use crate::panel::{long, Panel};
use crate::random::Random;
use crate::Tally;
use std::collections::BTreeSet;

/// A refusal's number, or ln K0 in millionths.
pub type Co2 = Result<i64, u32>;

/// As printed: with 100/T, alone, with ln(T/100); then with S times (T/100) to the powers 0, 1, 2.
const PRINTED: [&str; 3] = ["93.4517", "-60.2409", "23.3585"];
const PRINTED_SALT: [&str; 3] = ["0.023517", "-0.023656", "0.0047036"];

/// A printed decimal as a whole number of units of 10^-places.
fn decimal(text: &str, places: usize) -> i128 {
    let (whole, fraction) = text.split_once('.').unwrap();
    assert!(fraction.len() <= places);
    format!("{whole}{fraction:0<places$}").parse().unwrap()
}

fn down(a: i128, b: i128) -> i128 {
    a.div_euclid(b)
}

fn up(a: i128, b: i128) -> i128 {
    -down(-a, b)
}

// ---- the definition

/// What the definition could be mistaken for. Each is seen at few points of the grid or at nearly all.
#[derive(Clone, Copy, PartialEq, Debug)]
enum Slip {
    None,
    FifteenTerms,
    ThreeTerms,
    Ln3Itself,
    TowardsZero,
    NearestCold,
    HalvesDown,
    Kelvin16,
    SeriesAdded,
    SaltAdded,
}

/// In units of 10^-11, every division rounded down.
const UNIT: i128 = 100_000_000_000;

/// Twice x/y + (x/y)^3/3 + (x/y)^5/5 and on, each power from the one before.
fn twice_odd(x: i128, y: i128, terms: i128) -> i128 {
    let (mut power, mut sum) = (UNIT * x / y, 0);
    for k in 0..terms {
        sum += power / (2 * k + 1);
        power = power * (x * x) / (y * y);
    }
    2 * sum
}

struct Definition {
    slip: Slip,
    by_cold: i128,
    alone: i128,
    by_log: i128,
    ln3: i128,
    /// For S/100, which is sigma/10^5: a hundred times what is printed.
    salt: [i128; 3],
}

impl Definition {
    fn with(slip: Slip) -> Definition {
        let [by_cold, alone, by_log] = PRINTED.map(|c| decimal(c, 11));
        let [first, second, third] = PRINTED_SALT.map(|c| decimal(c, 13));
        let ln3 = match slip {
            Slip::Ln3Itself => 109_861_228_867,
            Slip::FifteenTerms => twice_odd(1, 2, 15),
            _ => twice_odd(1, 2, 16),
        };
        Definition { slip, by_cold, alone, by_log, ln3, salt: [first, if slip == Slip::SaltAdded { -second } else { second }, third] }
    }

    fn right() -> Definition {
        Definition::with(Slip::None)
    }

    fn scaled(&self, h: i128, x: i128) -> i128 {
        if self.slip == Slip::TowardsZero { h * x / 100_000 } else { down(h * x, 100_000) }
    }

    /// At grid numbers, in millionths.
    fn ln_k0(&self, sigma: i64, tau: i64) -> i64 {
        let is = |slip| self.slip == slip;
        let n = i128::from(tau) + if is(Slip::Kelvin16) { 273_160 } else { 273_150 };
        let rest = twice_odd((n - 300_000).abs(), n + 300_000, if is(Slip::ThreeTerms) { 3 } else { 4 });
        let log = if n < 300_000 && !is(Slip::SeriesAdded) { self.ln3 - rest } else { self.ln3 + rest };
        // 100/T is 10^5/n
        let cold = down(self.by_cold * 100_000 + if is(Slip::NearestCold) { n / 2 } else { 0 }, n);
        let [first, second, third] = self.salt;
        let row = first + self.scaled(second + self.scaled(third, n), n);
        let fine = self.alone + cold + down(self.by_log * log, UNIT) + self.scaled(row, sigma.into());
        down(fine + if is(Slip::HalvesDown) { 49_999 } else { 50_000 }, 100_000).try_into().unwrap()
    }

    /// Of a report, by its salinity and temperature alone.
    fn co2(&self, report: &Report) -> Co2 {
        if floats_of(report.kind)? == 0 {
            return Err(1);
        }
        let [salinity, temperature, _] = report.floats;
        if salinity.exact().is_none() || temperature.exact().is_none() {
            return Err(2);
        }
        if !salinity.within(0, 42) {
            return Err(3);
        }
        if !temperature.within(0, 40) {
            return Err(4);
        }
        Ok(self.ln_k0(salinity.grid(1_000), temperature.grid(1_000)))
    }
}

// ---- the equation, in units of 10^-25: low and high, the true value between them

const FINE: i128 = 100_000_000_000_000 * UNIT;
const MILLIONTH: i128 = FINE / 1_000_000;
const ALLOWED: i128 = 2 * MILLIONTH;

#[derive(Clone, Copy)]
struct Between {
    low: i128,
    high: i128,
}

/// Twice the odd series, so many terms, and no more than the rest of it; x/y is at most one half, so that the rest is less than twice its first.
fn bounded(x: i128, y: i128, terms: i128) -> Between {
    let (mut low, mut high) = (down(FINE * x, y), up(FINE * x, y));
    let mut sum = Between { low: 0, high: 0 };
    for k in 0..terms {
        sum = Between { low: sum.low + down(low, 2 * k + 1), high: sum.high + up(high, 2 * k + 1) };
        (low, high) = (down(low * (x * x), y * y), up(high * (x * x), y * y));
    }
    Between { low: 2 * sum.low, high: 2 * (sum.high + up(2 * high, 2 * terms + 1)) }
}

struct Equation {
    by_cold: i128,
    alone: i128,
    by_log: i128,
    salt: [i128; 3],
    ln3: Between,
}

/// With 40 terms for ln 3 and 12 for the rest, where the definition has 16 and 4.
impl Equation {
    fn printed() -> Equation {
        let [by_cold, alone, by_log] = PRINTED.map(|c| decimal(c, 4));
        Equation { by_cold, alone, by_log, salt: PRINTED_SALT.map(|c| decimal(c, 7)), ln3: bounded(1, 2, 40) }
    }

    fn at(&self, sigma: i64, tau: i64) -> Between {
        let (s, n, ln3) = (i128::from(sigma), i128::from(tau) + 273_150, self.ln3);
        let rest = bounded((n - 300_000).abs(), n + 300_000, 12);
        let log = if n < 300_000 {
            Between { low: ln3.low - rest.high, high: ln3.high - rest.low }
        } else {
            Between { low: ln3.low + rest.low, high: ln3.high + rest.high }
        };
        let cold = self.by_cold * (FINE / 10_000) * 100_000;
        // no division: sigma/10^3 times units of 10^-7, over 10^10 for (T/100)^2
        let [first, second, third] = self.salt;
        let salt = s * (first * 10_000_000_000 + second * 100_000 * n + third * n * n) * 100_000;
        let exact = self.alone * (FINE / 10_000) + salt;
        Between { low: exact + down(cold, n) + down(self.by_log * log.low, 10_000), high: exact + up(cold, n) + up(self.by_log * log.high, 10_000) }
    }

    /// How far millionths are from it, at most, in units of 10^-25.
    fn error(&self, sigma: i64, tau: i64, shown: i64) -> i128 {
        let (shown, by) = (i128::from(shown) * MILLIONTH, self.at(sigma, tau));
        assert!(0 < by.high - by.low && by.high - by.low < 100_000, "the bounds are too far apart");
        (shown - by.low).abs().max((shown - by.high).abs())
    }
}

// ---- the panel

pub fn request(report: &Report, bytes: &mut Vec<u8>) {
    bytes.push(b'o');
    report.put_without_number(bytes);
}

/// The panel's answer; a refusal comes with a nought.
pub fn answer(bytes: [u8; 16]) -> Co2 {
    match (long(&bytes, 0), long(&bytes, 1)) {
        (0, value) => Ok(value),
        (number, 0) => Err(number.try_into().unwrap()),
        _ => Err(u32::MAX),
    }
}

/// At grid numbers, by floats that are put there; deep with any pressure at all, or surface.
fn at(sigma: i64, tau: i64, random: &mut Random) -> Report {
    let report = Report::at([sigma, tau, 0], random);
    // half a step below 0 degrees C is put on 0, and refused
    let report = if tau == 0 { report.with(1, Float::nearest(random.between(0, 49).into(), 100_000)) } else { report };
    let pressure = [0x7fc0_0000, 0xff80_0001, INFINITE, 0x447a_0001, 0x8000_0001, random.next() as u32];
    Report { kind: any_of([1, 2, 17, 18], random), ..report.with(2, Float(pressure[random.between(0, 5) as usize])) }
}

/// Holds the panel to the definition and to the equation at grid numbers. The largest error goes on in `largest`.
fn on_grid(panel: &Panel, largest: &mut i128, name: &str, points: &[(i64, i64)]) -> Tally {
    let (mut tally, mut random) = (Tally::new(name), Random(12));
    let (definition, equation) = (Definition::right(), Equation::printed());
    let asked: Vec<_> = points.iter().map(|&(sigma, tau)| (sigma, tau, at(sigma, tau, &mut random))).collect();
    panel.ask(&asked, |x, bytes| request(&x.2, bytes), |(sigma, tau, report), bytes| {
        let said = answer(bytes);
        tally.same(said, Ok(definition.ln_k0(*sigma, *tau)), report);
        if let Ok(value) = said {
            let off = equation.error(*sigma, *tau, value);
            tally.same(off <= ALLOWED, true, &(sigma, tau, "within 2 millionths of the equation"));
            *largest = off.max(*largest);
        }
    });
    tally
}

/// Holds the panel to the definition at each report; `seen` gets the panel's refusals, 0 for none.
fn compare(panel: &Panel, seen: &mut BTreeSet<u32>, name: &str, reports: &[Report]) -> Tally {
    let (mut tally, definition) = (Tally::new(name), Definition::right());
    panel.ask(reports, request, |report, bytes| {
        let said = answer(bytes);
        seen.insert(said.err().unwrap_or(0));
        tally.same(said, definition.co2(report), report);
    });
    tally
}

// ---- what is tried

/// The handbook prints one value for its equation, and no table: ln K0 is -3.5617 at salinity 35 and 25 degrees C. And what SPEC prints.
fn published(panel: &Panel) -> Tally {
    let (mut tally, definition) = (Tally::new("ln K0 as printed"), Definition::right());
    let mut random = Random(13);
    let points = [(35_000, 25_000, -3_561_652), (35_000, 5_000, -2_953_995), (42_000, 40_000, -3_920_767), (0, 0, -2_556_496)];
    let asked = points.map(|(sigma, tau, said)| (at(sigma, tau, &mut random), said));
    panel.ask(&asked, |x, bytes| request(&x.0, bytes), |(report, said), bytes| {
        tally.same(answer(bytes), Ok(*said), report);
        tally.same(definition.co2(report), Ok(*said), report);
    });
    tally.same(down((definition.ln_k0(35_000, 25_000) + 50).into(), 100), -35_617, &"the handbook's value");
    tally
}

/// Points found by search, and what is seen there.
const HARD: [(Slip, &[(i64, i64)]); 9] = [
    (Slip::FifteenTerms, &[(16_568, 1_291), (19_574, 8_910), (7_314, 20_011), (2_989, 20_773), (15_512, 12_581), (33_887, 14_590), (27_553, 37_496)]),
    (Slip::ThreeTerms, &[(1_586, 2_207), (23_481, 411), (34_260, 677), (25_814, 3_508), (20_219, 384), (36_154, 146), (15_106, 3_135)]),
    (Slip::Ln3Itself, &[(23_181, 24_077), (17_836, 26_156), (39_223, 29_060), (12_458, 7_145), (21_064, 16_787), (4_226, 27_021)]),
    (Slip::TowardsZero, &[(10_419, 13_397), (29_012, 15_434), (8_969, 39_043), (39_357, 30_323), (29_364, 34_572), (4_082, 30_637)]),
    (Slip::NearestCold, &[(4_803, 7_990), (21_009, 6_969), (19_485, 22_321), (19_685, 4_352), (20_857, 3_441), (25_199, 18_647)]),
    (Slip::HalvesDown, &[(20_377, 29_943), (27_639, 18_055), (6_627, 39_804), (26_214, 7_303), (6_184, 34_685), (41_748, 9_826)]),
    (Slip::Kelvin16, &[(35_000, 25_000), (0, 0), (42_000, 0), (0, 40_000), (42_000, 40_000)]),
    (Slip::SeriesAdded, &[(35_000, 25_000), (0, 0), (42_000, 0), (20_000, 26_848)]),
    (Slip::SaltAdded, &[(35_000, 25_000), (42_000, 0), (42_000, 40_000), (1, 20_000)]),
];

/// Each of them, where its slip has to make a difference.
fn hard() -> Vec<(i64, i64)> {
    let right = Definition::right();
    for (slip, points) in HARD {
        let slipped = Definition::with(slip);
        assert!(points.iter().all(|&(sigma, tau)| slipped.ln_k0(sigma, tau) != right.ln_k0(sigma, tau)), "{slip:?} is not seen at its points");
    }
    HARD.iter().flat_map(|(_, points)| points.iter().copied()).collect()
}

/// Salinity 0 to 42 by 1, 0 to 40 degrees C by 1.
fn table() -> Vec<(i64, i64)> {
    (0..=42).flat_map(|s| (0..=40).map(move |t| (1_000 * s, 1_000 * t))).collect()
}

/// Every point of the four edges, of those next to them, and of those about 300 K, where the series turns.
fn edges() -> Vec<(i64, i64)> {
    let across = [0, 1, 41_999, 42_000].into_iter().flat_map(|s| (0..=40_000).map(move |t| (s, t)));
    let along = [0, 1, 26_849, 26_850, 26_851, 39_999, 40_000].into_iter().flat_map(|t| (0..=42_000).map(move |s| (s, t)));
    across.chain(along).collect()
}

fn anywhere() -> Vec<(i64, i64)> {
    let mut random = Random(14);
    (0..1_000_000).map(|_| (random.between(0, 42_000), random.between(0, 40_000))).collect()
}

/// A refused record in the place of a reading, with floats of every sort.
fn records() -> Vec<Report> {
    let mut random = Random(15);
    let mut reports = Vec::new();
    for kind in [CUT, LENGTH, 65_541, 65_543, 65_545, 65_537, 65_538, 65_539, 65_553, 65_554, 65_555] {
        reports.extend((0..100).map(|i| Report { kind, ..Report::ordinary(1, &mut random).with(i % 3, Float(random.next() as u32)) }));
    }
    reports
}

/// Where there is a density and no ln K0: temperatures from -2 to 0; then the least floats, and zero, of either sign.
fn cold() -> Vec<Report> {
    let mut random = Random(16);
    let mut floats: Vec<Float> = (-2_000..=0).map(|tau| Float::nearest(tau, 1_000)).collect();
    floats.extend((0..50).flat_map(|bits| [Float(bits), Float(bits).negated()]));
    let mut reports = Vec::new();
    for kind in [1, 2, 17, 18] {
        reports.extend(floats.iter().map(|f| Report::ordinary(kind, &mut random).with(1, *f)));
    }
    reports
}

pub fn all(panel: &Panel) -> Vec<Tally> {
    let mut largest = 0;
    let mut tallies = vec![published(panel)];
    for (name, points) in [
        ("ln K0 where it hangs on the last unit", hard()),
        ("ln K0 over a table of whole salinities and degrees C", table()),
        ("ln K0 along the edges of the grid and at 300 K", edges()),
        ("ln K0 at random grid numbers", anywhere()),
    ] {
        tallies.push(on_grid(panel, &mut largest, name, &points));
    }
    let in_units = largest * 1_000_000 / MILLIONTH;
    println!("second program: ln K0: largest error {}.{:06} millionths", in_units / 1_000_000, in_units % 1_000_000);
    assert!(largest > MILLIONTH / 2, "no error near the largest there is was met");

    let mut seen = BTreeSet::new();
    tallies.push(compare(panel, &mut seen, "ln K0 in place of refused records", &records()));
    tallies.push(compare(panel, &mut seen, "ln K0 from -2 degrees C to zero", &cold()));
    for (name, reports) in channel::sorts() {
        tallies.push(compare(panel, &mut seen, &format!("ln K0, {name}"), &reports()));
    }
    let mut refusals = Tally::new("refusals of ln K0, all seen");
    refusals.same(seen, BTreeSet::from([0, 1, 2, 3, 4, 6, 7, 8]), &"all reports");
    tallies.push(refusals);
    tallies
}
