//! Density and bulk modulus of grid readings: check points, UNESCO's values, corners, edges, refusals, random readings.

use crate::panel::{word, Panel};
use crate::random::Random;
use crate::recipe::{Answer, Formula};
use crate::Tally;

type Reading = [i64; 3];

fn request(reading: &Reading, bytes: &mut Vec<u8>) {
    bytes.push(b'g');
    reading.iter().for_each(|x| bytes.extend(x.to_le_bytes()));
}

/// The panel's answer; a refusal comes with two noughts.
fn answer(bytes: [u8; 12]) -> Answer {
    match (word(&bytes, 0), word(&bytes, 1), word(&bytes, 2)) {
        (0, density, bulk) => Ok((density, bulk)),
        (number, 0, 0) => Err(number),
        _ => Err(u32::MAX),
    }
}

/// Holds the panel to the second program's answer at each reading.
fn compare(panel: &Panel, formula: &Formula, name: &'static str, readings: &[Reading]) -> Tally {
    let mut tally = Tally::new(name);
    panel.ask(readings, request, |r, bytes| tally.same(answer(bytes), formula.water(r[0], r[1], r[2]), r));
    tally
}

const ENDS: [(i64, i64); 3] = [(0, 42_000), (-2_000, 40_000), (0, 100_000)];

/// What the papers print: shown densities in 0.001 kg/m3, and moduli in 10^-5 bar, of which the panel shows hundredths of a
/// bar, rounded down.
pub const DENSITIES: [(Reading, u32); 9] = [
    ([0, 5_000, 0], 999_967),
    ([0, 5_000, 100_000], 1_044_128),
    ([0, 25_000, 0], 997_048),
    ([0, 25_000, 100_000], 1_037_902),
    ([35_000, 5_000, 0], 1_027_675),
    ([35_000, 5_000, 100_000], 1_069_489),
    ([35_000, 25_000, 0], 1_023_343),
    ([35_000, 25_000, 100_000], 1_062_538),
    // 1059.82037
    ([40_000, 40_000, 100_000], 1_059_820),
];
const MODULI: [(Reading, u32); 8] = [
    ([0, 5_000, 0], 2_033_780_375),
    ([0, 5_000, 100_000], 2_364_352_599),
    ([0, 25_000, 0], 2_210_072_106),
    ([0, 25_000, 100_000], 2_540_509_717),
    ([35_000, 5_000, 0], 2_218_593_358),
    ([35_000, 5_000, 100_000], 2_557_749_819),
    ([35_000, 25_000, 0], 2_372_634_949),
    ([35_000, 25_000, 100_000], 2_710_894_504),
];

fn published(panel: &Panel, formula: &Formula) -> Tally {
    let mut tally = Tally::new("published values");
    let at = |r: &Reading| formula.water(r[0], r[1], r[2]);
    panel.ask(&DENSITIES, |x, bytes| request(&x.0, bytes), |(r, shown), bytes| {
        tally.same(answer(bytes).map(|x| x.0), Ok(*shown), r);
        tally.same(at(r).map(|x| x.0), Ok(*shown), r);
    });
    panel.ask(&MODULI, |x, bytes| request(&x.0, bytes), |(r, bar), bytes| {
        tally.same(answer(bytes).map(|x| x.1), Ok(bar / 1_000), r);
        tally.same(at(r).map(|x| x.1), Ok(bar / 1_000), r);
    });
    tally
}

/// Every point of the box's twelve edges, so its corners too.
fn edges() -> Vec<Reading> {
    let mut readings = Vec::new();
    for along in 0..3 {
        let (a, b) = ((along + 1) % 3, (along + 2) % 3);
        for end in 0..4 {
            let mut at = [0; 3];
            at[a] = if end % 2 == 0 { ENDS[a].0 } else { ENDS[a].1 };
            at[b] = if end / 2 == 0 { ENDS[b].0 } else { ENDS[b].1 };
            for x in ENDS[along].0..=ENDS[along].1 {
                at[along] = x;
                readings.push(at);
            }
        }
    }
    readings
}

/// Numbers around every end and at the ends of the parameters' type, each with each; then wild ones. So the refusals' order.
fn outside() -> Vec<Reading> {
    let near = |(low, high): (i64, i64)| {
        [i64::MIN, i64::MIN + 1, -(1 << 32), low - 1, low, low + 1, (low + high) / 2, high - 1, high, high + 1, 1 << 32, i64::MAX - 1, i64::MAX]
    };
    let mut readings = Vec::new();
    for s in near(ENDS[0]) {
        for t in near(ENDS[1]) {
            readings.extend(near(ENDS[2]).map(|p| [s, t, p]));
        }
    }
    let mut random = Random(3);
    for _ in 0..100_000 {
        readings.push([0, 1, 2].map(|i| match random.next() % 3 {
            0 => random.next() as i64,
            _ => random.between(2 * ENDS[i].0 - 3, 2 * ENDS[i].1),
        }));
    }
    readings
}

fn anywhere() -> Vec<Reading> {
    let mut random = Random(1);
    (0..2_000_000).map(|_| ENDS.map(|(low, high)| random.between(low, high))).collect()
}

pub fn all(panel: &Panel, formula: &Formula) -> Vec<Tally> {
    vec![
        published(panel, formula),
        compare(panel, formula, "edges of the grid box", &edges()),
        compare(panel, formula, "refusals of grid numbers", &outside()),
        compare(panel, formula, "random grid readings", &anywhere()),
    ]
}
