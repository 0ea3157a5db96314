//! Remarks: on which side of its grid point each float lies. They are judged by what they mean, the exact value in steps beside the panel's own grid
//! number, and by four laws; the whole answer is held to channel.rs too. Tried are all floats about every grid point and every half, those
//! next to zero, and random patterns.

use crate::channel::{answer, any_of, any_probe, channel, floats_of, in_range, request, Report, Sort, QUANTITIES};
use crate::floats::{Float, INFINITE};
use crate::panel::Panel;
use crate::random::Random;
use crate::recipe::Formula;
use crate::Tally;
use std::cmp::Ordering;

/// What the panel says of a float that was read in a place: its grid number and remark.
#[derive(Clone, Copy, Debug)]
struct Said {
    place: u8,
    float: Float,
    number: i32,
    remark: i32,
}

impl Said {
    /// The floats of a place in their order; both zeros are one.
    fn order(&self) -> (u8, i64) {
        let size = i64::from(self.float.0 & 0x7fff_ffff);
        (self.place, if self.float.0 >> 31 == 0 { size } else { -size })
    }

    /// The exact value in steps, and the grid number beside it: two whole numbers of so many parts of a step.
    fn in_parts(&self) -> (i128, i128, i128) {
        let (value, shift) = self.float.exact().unwrap();
        (QUANTITIES[usize::from(self.place)].per_unit as i128 * value, i128::from(self.number) << shift, 1 << shift)
    }
}

/// What a remark says.
fn side(remark: i32) -> Option<Ordering> {
    match remark {
        1 => Some(Ordering::Less),
        2 => Some(Ordering::Equal),
        3 => Some(Ordering::Greater),
        _ => None,
    }
}

/// The laws, tried on all that was said of readings.
struct Laws {
    said: Vec<Said>,
    whole: Tally,
    eighths: Tally,
    half_step: Tally,
    in_order: Tally,
    /// How often each remark was met in each place.
    counts: [[u64; 3]; 3],
}

impl Laws {
    fn new() -> Laws {
        Laws {
            said: Vec::new(),
            whole: Tally::new("remarks: on where value times steps is whole, and nowhere else"),
            eighths: Tally::new("remarks: on at multiples of an eighth, of a pressure at quarters, and nowhere else"),
            half_step: Tally::new("remarks: they and the grid number tell the half step"),
            in_order: Tally::new("remarks: of one grid number, never lower for the greater float"),
            counts: [[0; 3]; 3],
        }
    }

    fn take(&mut self, said: Said) {
        let (value, point, step) = said.in_parts();
        self.whole.same(said.remark == 2, value % step == 0, &said);
        // n/1,000 is a float only where it is a multiple of 1/8, n/100 only where it is one of 1/4
        let parts = if said.place == 2 { 4 } else { 8 };
        let (exact, shift) = said.float.exact().unwrap();
        self.eighths.same(said.remark == 2, parts * exact % (1 << shift) == 0, &said);
        // from the half below up to the point, the point, from there up to the half above
        let lies = match side(said.remark) {
            Some(Ordering::Less) => 2 * point - step <= 2 * value && value < point,
            Some(Ordering::Equal) => value == point,
            Some(Ordering::Greater) => point < value && 2 * value < 2 * point + step,
            None => false,
        };
        self.half_step.same(lies, true, &said);
        self.counts[usize::from(said.place)][(said.remark - 1).clamp(0, 2) as usize] += 1;
        self.said.push(said);
    }

    /// Of two floats in one place the greater never has the lower grid number nor, with the same one, the lower remark.
    fn all(mut self) -> [Tally; 4] {
        self.said.sort_unstable_by_key(Said::order);
        for two in self.said.windows(2).filter(|two| two[0].place == two[1].place) {
            let [low, high] = [two[0], two[1]].map(|said| (said.number, said.remark));
            let fine = if two[0].order() == two[1].order() { low == high } else { low <= high };
            self.in_order.same(fine, true, &two);
        }
        [self.whole, self.eighths, self.half_step, self.in_order]
    }
}

/// Holds the panel to what a remark means and to the second program's whole answer; what was read goes to the laws.
fn compare(panel: &Panel, formula: &Formula, laws: &mut Laws, name: &str, reports: &[Report]) -> Tally {
    let mut tally = Tally::new(name);
    panel.ask(reports, request, |report, bytes| {
        let said = answer(bytes);
        tally.same(said, channel(formula, report), report);
        let Ok(eight) = said else { return };
        let small = |word: i64| i32::try_from(word).unwrap_or(i32::MIN);
        let count = floats_of(report.kind).unwrap_or(0);
        for place in 0..count {
            let said = Said { place: place as u8, float: report.floats[place], number: small(eight[place]), remark: small(eight[5 + place]) };
            let (value, point, _) = said.in_parts();
            tally.same(side(said.remark), Some(value.cmp(&point)), &said);
            laws.take(said);
        }
        if count == 2 {
            tally.same((eight[2], eight[7]), (0, 2), report);
        }
    });
    tally
}

/// The floats about a number of half steps: the nearest and two more each way. So those on either side of it, the one that equals it where there
/// is one, and one further each way.
fn about(halves: i64, per_unit: i64) -> Vec<Float> {
    let (halves, two) = (i128::from(halves), 2 * i128::from(per_unit));
    let floats: Vec<Float> = Float::nearest(halves, two).around(2).collect();
    let beside = |float: &Float| {
        let (value, shift) = float.exact().unwrap();
        (two * value).cmp(&(halves << shift))
    };
    if halves != 0 {
        let count = |is| floats.iter().filter(|f| beside(f) == is).count();
        assert!(count(Ordering::Less) >= 2 && count(Ordering::Greater) >= 2, "not all floats about {halves} half steps");
    }
    floats
}

/// About every grid point of a place and every half between two, from a number to another, ends included; about zero with either sign.
fn all_about(place: usize, low: i64, high: i64) -> Vec<Float> {
    let mut floats: Vec<Float> = (2 * low..=2 * high).flat_map(|halves| about(halves, QUANTITIES[place].per_unit)).collect();
    if low <= 0 && 0 <= high {
        floats.extend(about(0, QUANTITIES[place].per_unit).into_iter().map(Float::negated));
    }
    floats
}

/// Each float in some deep report, as many reports as the longest place has floats: a shorter one starts again. Some at the surface too, where the
/// pressure is not read.
fn beside_each_other(floats: [Vec<Float>; 3]) -> Vec<Report> {
    let most = floats.iter().map(Vec::len).max().unwrap();
    let mut random = Random(27);
    let mut at = |i: usize, kinds| {
        let kind = any_of(kinds, &mut random);
        Report { kind, probe: any_probe(&mut random), floats: [0, 1, 2].map(|place| floats[place][i % floats[place].len()]) }
    };
    let mut reports: Vec<Report> = (0..most).map(|i| at(i, [1, 17])).collect();
    reports.extend((0..most / 8).map(|i| at(8 * i, [2, 18])));
    reports
}

/// All that lie in the ranges.
fn points_and_halves() -> Vec<Report> {
    beside_each_other([0, 1, 2].map(|place| {
        let q = &QUANTITIES[place];
        let inside = |float: &Float| float.within(q.low, q.high);
        all_about(place, q.low * q.per_unit, q.high * q.per_unit).into_iter().filter(inside).collect()
    }))
}

/// Those outside, past the greater end and with the other sign, in a report that is good but for them.
fn outside() -> Vec<Report> {
    let mut random = Random(17);
    let mut reports = Vec::new();
    for (place, q) in QUANTITIES.iter().enumerate() {
        let high = q.high * q.per_unit;
        let floats = all_about(place, -high, 0).into_iter().chain(all_about(place, high, high + 100));
        let refused = floats.filter(|float| !float.within(q.low, q.high));
        reports.extend(refused.map(|float| Report::ordinary(1, &mut random).with(place, float)));
    }
    reports
}

/// The least floats, the greatest that are subnormal, powers of two and some between, the least normal ones; in each place, with either sign.
fn next_to_zero() -> Vec<Report> {
    let mut random = Random(18);
    let ends = (0..100).chain(0x7f_ff9c..0x80_0064).chain((0..24).flat_map(|i| [1 << i, (1 << i) + 1]));
    let floats: Vec<u32> = ends.chain((0..5_000).map(|_| random.between(1, 0x7f_ffff) as u32)).collect();
    let mut reports = Vec::new();
    for float in floats.into_iter().flat_map(|bits| [Float(bits), Float(bits).negated()]) {
        for place in 0..3 {
            reports.extend([1, 2, 17, 18].map(|kind| Report::ordinary(kind, &mut random).with(place, float)));
        }
    }
    reports
}

/// All patterns alike in all three places.
fn any_patterns() -> Vec<Report> {
    let mut random = Random(19);
    let mut any = |kind| Report { kind, probe: random.next() as u16, floats: [0; 3].map(|_| Float(random.next() as u32)) };
    (0..1_000_000).map(|i| any([1, 2, 17, 18][i % 4])).collect()
}

/// Any pattern with a sign that the range has and an exponent up to its greatest, mostly near that. Or all parts of the range alike. Or a multiple of
/// 1/8, which is on the grid, or a half of it for some pressures.
fn biased(place: usize, random: &mut Random) -> Float {
    let q = &QUANTITIES[place];
    match random.next() % 16 {
        0 => return Float::nearest(random.between(8 * q.low, 8 * q.high).into(), 8),
        1..=4 => return in_range(place, random),
        _ => (),
    }
    let [low, high] = [q.low, q.high].map(|end| Float::nearest(end.into(), 1));
    let end = if q.low < 0 && random.next() % 2 == 0 { low } else { high };
    let greatest = i64::from(end.0 >> 23 & 0xff);
    let least = if random.next() % 8 == 0 { 0 } else { greatest - 40 };
    Float(end.0 & 0x8000_0000 | (random.between(least, greatest) as u32) << 23 | random.next() as u32 & 0x7f_ffff)
}

/// Such in all three places; where the pressure is not read, any pattern at all.
fn patterns_of_the_ranges() -> Vec<Report> {
    let mut random = Random(20);
    let mut reports = Vec::new();
    for i in 0..1_000_000 {
        let report = Report { kind: [1, 2, 17, 18][i % 4], probe: i as u16, floats: [0, 1, 2].map(|place| biased(place, &mut random)) };
        let unread = [0x7fc0_0000, 0xff80_0001, INFINITE, 0x8000_0001, random.next() as u32, report.floats[2].0, random.next() as u32];
        reports.push(if i % 2 == 1 { report.with(2, Float(unread[i % 7])) } else { report });
    }
    reports
}

/// What is tried, a sort at a time.
fn sorts() -> [Sort; 5] {
    [
        ("remarks of all floats about grid points and halves", points_and_halves),
        ("the same outside the ranges", outside),
        ("remarks next to zero", next_to_zero),
        ("remarks of random patterns", any_patterns),
        ("remarks of random patterns, most in the ranges", patterns_of_the_ranges),
    ]
}

pub fn all(panel: &Panel, formula: &Formula) -> Vec<Tally> {
    let (mut laws, mut tallies) = (Laws::new(), Vec::new());
    for (name, reports) in sorts() {
        tallies.push(compare(panel, formula, &mut laws, name, &reports()));
    }
    let [s, t, p] = laws.counts;
    println!("second program: remarks tried, below, on and above: of salinities {s:?}, of temperatures {t:?}, of pressures {p:?}");
    assert!(laws.counts.iter().flatten().all(|count| *count > 10_000), "too few of a remark are tried");
    tallies.extend(laws.all());
    tallies
}
