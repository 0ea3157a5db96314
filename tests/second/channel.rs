//! Channels from floats: the examples of SPEC, limits, halves of the grid, bad values each with each, random floats. remarks.rs has more of them.

use crate::floats::{Float, INFINITE};
use crate::panel::{long, Panel};
use crate::random::Random;
use crate::recipe::Formula;
use crate::Tally;
use std::collections::BTreeSet;

/// A kind, the probe's number and three floats, of which the kind reads the first so many.
#[derive(Clone, Copy, Debug)]
pub struct Report {
    pub kind: u32,
    pub probe: u16,
    pub floats: [Float; 3],
}

/// The kinds, and how many floats each reads: deep, surface and missing, without a number in the record and with one.
pub const KINDS: [(u32, usize); 6] = [(1, 3), (2, 2), (3, 0), (17, 3), (18, 2), (19, 0)];

/// What stands for a record refused by 6 and by 8.
pub const CUT: u32 = 65_542;
pub const LENGTH: u32 = 65_544;

/// How many floats a kind reads, or what it is refused by.
pub fn floats_of(kind: u32) -> Result<usize, u32> {
    let found = KINDS.iter().find(|(own, _)| *own == kind);
    found.map(|(_, count)| *count).ok_or(match kind {
        CUT => 6,
        LENGTH => 8,
        _ => 7,
    })
}

/// A refusal's number, or the three grid numbers, the shown density, the bulk modulus and the remarks of salinity, temperature and pressure.
pub type Channel = Result<[i64; 8], u32>;

pub struct Quantity {
    pub low: i64,
    pub high: i64,
    pub per_unit: i64,
    pub refusal: u32,
}

pub const QUANTITIES: [Quantity; 3] = [
    Quantity { low: 0, high: 42, per_unit: 1_000, refusal: 3 },
    Quantity { low: -2, high: 40, per_unit: 1_000, refusal: 4 },
    Quantity { low: 0, high: 1_000, per_unit: 100, refusal: 5 },
];

/// Whatever the number is.
pub fn channel(formula: &Formula, report: &Report) -> Channel {
    let floats = match floats_of(report.kind)? {
        0 => return Err(1),
        count => &report.floats[..count],
    };
    if floats.iter().any(|f| f.exact().is_none()) {
        return Err(2);
    }
    // a pressure that is not read is 0, and on the grid
    let (mut at, mut remarks) = ([0; 3], [2; 3]);
    for (i, (f, q)) in floats.iter().zip(&QUANTITIES).enumerate() {
        if !f.within(q.low, q.high) {
            return Err(q.refusal);
        }
        at[i] = f.grid(q.per_unit);
        remarks[i] = f.remark(q.per_unit, at[i]);
    }
    let (density, bulk) = formula.water(at[0], at[1], at[2])?;
    Ok([at[0], at[1], at[2], density.into(), bulk.into(), remarks[0], remarks[1], remarks[2]])
}

impl Report {
    pub fn put(&self, bytes: &mut Vec<u8>) {
        bytes.extend(self.kind.to_le_bytes());
        bytes.extend(self.probe.to_le_bytes());
        self.put_floats(bytes);
    }

    /// For a call that takes no number.
    pub fn put_without_number(&self, bytes: &mut Vec<u8>) {
        bytes.extend(self.kind.to_le_bytes());
        self.put_floats(bytes);
    }

    fn put_floats(&self, bytes: &mut Vec<u8>) {
        self.floats.iter().for_each(|f| bytes.extend(f.0.to_le_bytes()));
    }

    /// In range everywhere, anywhere.
    pub fn ordinary(kind: u32, random: &mut Random) -> Report {
        Report { kind, probe: any_probe(random), floats: [0, 1, 2].map(|place| in_range(place, random)) }
    }

    /// At grid numbers, by any floats that are put there; at pressure 0 deep or surface.
    pub fn at(numbers: [i64; 3], random: &mut Random) -> Report {
        let floats = [0, 1, 2].map(|place| put_on(place, numbers[place], random));
        let report = Report { kind: any_of([1, 17], random), probe: any_probe(random), floats };
        if numbers[2] == 0 && random.between(0, 1) == 0 {
            return Report { kind: report.kind + 1, ..report.with(2, in_range(2, random)) };
        }
        report
    }

    pub fn with(mut self, place: usize, float: Float) -> Report {
        self.floats[place] = float;
        self
    }
}

pub fn any_of<T: Copy, const N: usize>(some: [T; N], random: &mut Random) -> T {
    some[random.between(0, N as i64 - 1) as usize]
}

/// Two that are drawn are often the same, and as often 0.
pub fn any_probe(random: &mut Random) -> u16 {
    match random.between(0, 9) {
        0..=3 => 0,
        4..=6 => 0x0201,
        7 => any_of([0x0102, 1, 0x0100, u16::MAX], random),
        _ => random.next() as u16,
    }
}

/// A float of the place's range, all parts of the range alike.
pub fn in_range(place: usize, random: &mut Random) -> Float {
    let q = &QUANTITIES[place];
    Float::nearest(random.between(q.low << 40, q.high << 40).into(), 1 << 40)
}

/// A float of the place's range that is put on a grid number.
fn put_on(place: usize, number: i64, random: &mut Random) -> Float {
    let q = &QUANTITIES[place];
    let hundredths = (100 * number + random.between(-49, 49)).clamp(100 * q.per_unit * q.low, 100 * q.per_unit * q.high);
    let float = Float::nearest(hundredths.into(), (100 * q.per_unit).into());
    assert_eq!(float.grid(q.per_unit), number);
    float
}

pub fn request(report: &Report, bytes: &mut Vec<u8>) {
    bytes.push(b'c');
    report.put(bytes);
}

/// The panel's answer; a refusal comes with eight noughts.
pub fn answer(bytes: [u8; 72]) -> Channel {
    let eight = [1, 2, 3, 4, 5, 6, 7, 8].map(|i| long(&bytes, i));
    match long(&bytes, 0) {
        0 => Ok(eight),
        number if eight == [0; 8] => Err(number.try_into().unwrap()),
        _ => Err(u32::MAX),
    }
}

/// Holds the panel to the second program's answer at each report; `seen` gets the panel's refusals, 0 for none.
fn compare(panel: &Panel, formula: &Formula, seen: &mut BTreeSet<u32>, name: &'static str, reports: &[Report]) -> Tally {
    let mut tally = Tally::new(name);
    panel.ask(reports, request, |report, bytes| {
        let said = answer(bytes);
        seen.insert(said.err().unwrap_or(0));
        tally.same(said, channel(formula, report), report);
    });
    tally
}

/// What SPEC says in so many words: grid numbers and remarks, or a refusal. The floats are patterns: 35, 5 and 100 at first.
fn examples() -> Vec<(Report, Result<[i64; 6], u32>)> {
    const ON: [i64; 3] = [2; 3];
    let at = |numbers: [i64; 3], remarks: [i64; 3]| Ok([numbers[0], numbers[1], numbers[2], remarks[0], remarks[1], remarks[2]]);
    let plain = Report { kind: 1, probe: 0, floats: [Float(0x420c_0000), Float(0x40a0_0000), Float(0x42c8_0000)] };
    let with = |place, bits| plain.with(place, Float(bits));
    let (minus_zero, nan, signalling, infinite) = (0x8000_0000, 0x7fc0_0000, 0x7f80_0001, INFINITE);
    vec![
        (plain, at([35_000, 5_000, 10_000], ON)),
        (Report { kind: 2, ..plain }, at([35_000, 5_000, 0], ON)),
        (Report { kind: 3, ..plain }, Err(1)),
        (Report { kind: 0, ..plain }, Err(7)),
        (Report { kind: 4, ..plain }, Err(7)),
        // with a number, and by the kinds of records that carry one
        (Report { probe: 513, ..plain }, at([35_000, 5_000, 10_000], ON)),
        (Report { kind: 17, probe: 513, ..plain }, at([35_000, 5_000, 10_000], ON)),
        (Report { kind: 17, probe: 0, ..plain }, at([35_000, 5_000, 10_000], ON)),
        (Report { kind: 18, probe: u16::MAX, ..with(2, nan) }, at([35_000, 5_000, 0], ON)),
        (Report { kind: 19, probe: 513, ..with(0, nan) }, Err(1)),
        (Report { kind: 16, probe: 513, ..plain }, Err(7)),
        (Report { kind: 20, probe: 513, ..plain }, Err(7)),
        // 0.0625 and -0.0625: halves go up, and are below then
        (with(1, 0x3d80_0000), at([35_000, 63, 10_000], [2, 1, 2])),
        (with(1, 0xbd80_0000), at([35_000, -62, 10_000], [2, 1, 2])),
        // the floats nearest to 0.001 and to -0.001, which are farther from zero; to 0.01 of a bar, which is nearer
        (with(0, 0x3a83_126f), at([1, 5_000, 10_000], [3, 2, 2])),
        (with(1, 0x3a83_126f), at([35_000, 1, 10_000], [2, 3, 2])),
        (with(1, 0xba83_126f), at([35_000, -1, 10_000], [2, 1, 2])),
        (with(2, 0x3c23_d70a), at([35_000, 5_000, 1], [2, 2, 1])),
        (Report { kind: 2, ..with(2, 0x3c23_d70a) }, at([35_000, 5_000, 0], ON)),
        // 42 and the next, -2 and the next below, 40 and the next, 1,000 and the next
        (with(0, 0x4228_0000), at([42_000, 5_000, 10_000], ON)),
        (with(0, 0x4228_0001), Err(3)),
        (with(1, 0xc000_0000), at([35_000, -2_000, 10_000], ON)),
        (with(1, 0xc000_0001), Err(4)),
        (with(1, 0x4220_0000), at([35_000, 40_000, 10_000], ON)),
        (with(1, 0x4220_0001), Err(4)),
        (with(2, 0x447a_0000), at([35_000, 5_000, 100_000], ON)),
        (with(2, 0x447a_0001), Err(5)),
        // 42.0001 would be 42,000 if it were rounded first
        (with(0, 0x4228_001a), Err(3)),
        // zero from both sides; the smallest float
        (with(0, minus_zero), at([0, 5_000, 10_000], ON)),
        (with(1, minus_zero), at([35_000, 0, 10_000], ON)),
        (with(2, minus_zero), at([35_000, 5_000, 0], ON)),
        (with(0, 1), at([0, 5_000, 10_000], [3, 2, 2])),
        (with(1, 1), at([35_000, 0, 10_000], [2, 3, 2])),
        (with(2, 1), at([35_000, 5_000, 0], [2, 2, 3])),
        (with(0, minus_zero + 1), Err(3)),
        (with(2, minus_zero + 1), Err(5)),
        (with(1, minus_zero + 1), at([35_000, 0, 10_000], [2, 1, 2])),
        // a NaN anywhere goes before any range; a float that is not read does not count
        (with(0, 0x4228_0001).with(1, Float(nan)), Err(2)),
        (with(0, 0x4228_0001).with(2, Float(signalling)), Err(2)),
        (with(0, infinite).with(1, Float(0xc000_0001)), Err(2)),
        (Report { kind: 2, ..with(2, nan) }, at([35_000, 5_000, 0], ON)),
        (Report { kind: 3, ..with(0, nan) }, Err(1)),
        (Report { kind: 9, ..with(0, nan) }, Err(7)),
    ]
}

fn paper(panel: &Panel, formula: &Formula) -> Tally {
    let mut tally = Tally::new("SPEC's examples of floats");
    let placed = |c: Channel| c.map(|[s, t, p, _, _, of_s, of_t, of_p]| [s, t, p, of_s, of_t, of_p]);
    panel.ask(&examples(), |x, bytes| request(&x.0, bytes), |(report, said), bytes| {
        tally.same(placed(answer(bytes)), *said, report);
        tally.same(placed(channel(formula, report)), *said, report);
    });
    tally
}

/// Each float in each place, in deep and in surface reports whose other floats are ordinary.
fn everywhere(floats: &[Float]) -> Vec<Report> {
    let mut random = Random(4);
    let mut reports = Vec::new();
    for place in 0..3 {
        for kind in [1, 2, 17, 18] {
            reports.extend(floats.iter().map(|f| Report::ordinary(kind, &mut random).with(place, *f)));
        }
    }
    reports
}

/// All floats about the ends of the ranges, tenfold pressure, zero, the least normal, the largest, infinity, the NaNs' ends,
/// with either sign.
fn limits() -> Vec<Report> {
    let whole = [2, 40, 42, 100, 1_000, 10_000].map(|n| Float::nearest(n, 1));
    let special = [0, 0x80_0000, INFINITE - 1, INFINITE, 0x7fc0_0000, 0x7fff_ffff].map(Float);
    let middles = whole.into_iter().chain(special).flat_map(|f| [f, f.negated()]);
    everywhere(&middles.flat_map(|f| f.around(300)).collect::<Vec<_>>())
}

/// One bit of the fraction and all but one, under every exponent and either sign: NaNs, subnormals and all powers of two.
fn patterns() -> Vec<Report> {
    let mut floats = Vec::new();
    for head in 0..512 {
        let fractions = (0..23).flat_map(|i| [1 << i, 0x7f_ffff ^ (1 << i)]).chain([0, 0x7f_ffff]);
        floats.extend(fractions.map(|f: u32| Float(head << 23 | f)));
    }
    everywhere(&floats)
}

/// The floats nearest to each half of the grid, and two more each way.
fn halves() -> Vec<Report> {
    let mut random = Random(5);
    let mut reports = Vec::new();
    for (place, q) in QUANTITIES.iter().enumerate() {
        for below in q.low * q.per_unit..q.high * q.per_unit {
            let half = Float::nearest((2 * below + 1).into(), (2 * q.per_unit).into());
            for kind in if place == 2 { 1..=1 } else { 1..=2 } {
                let kind = kind + any_of([0, 16], &mut random);
                reports.extend(half.around(2).map(|f| Report::ordinary(kind, &mut random).with(place, f)));
            }
        }
    }
    reports
}

/// Good and bad floats of each place, each with each, in reports of all kinds: so the refusals' order.
fn bad_with_bad() -> Vec<Report> {
    let bag = |q: &Quantity| {
        let [low, high] = [q.low, q.high].map(|end| Float::nearest(end.into(), 1));
        let below = if q.low == 0 { Float(0x8000_0001) } else { Float(low.0 + 1) };
        let wild = [0x7fc0_0000, 0x7f80_0001, 0xffff_ffff, INFINITE, 0xff80_0000, 0x7f7f_ffff, 0xff7f_ffff, 0x8000_0000, 0x3f80_0000];
        [low, high, below, Float(high.0 + 1)].into_iter().chain(wild.map(Float)).collect::<Vec<_>>()
    };
    let [salinities, temperatures, pressures] = [0, 1, 2].map(|i| bag(&QUANTITIES[i]));
    let (mut reports, mut random) = (Vec::new(), Random(26));
    for kind in KINDS.map(|(kind, _)| kind).into_iter().chain(WRONG_KINDS) {
        for s in &salinities {
            for t in &temperatures {
                reports.extend(pressures.iter().map(|p| Report { kind, probe: any_probe(&mut random), floats: [*s, *t, *p] }));
            }
        }
    }
    reports
}

/// Kinds that are none of the six, though some are if only their low bits are read, or all but one.
pub const WRONG_KINDS: [u32; 20] =
    [0, 4, 5, 6, 7, 8, 9, 16, 20, 33, 49, 255, 257, 273, 0x1100, 0x1_0002, 0x1_0011, 0x8000_0001, 0x0300_0003, u32::MAX];

/// One place from all bit patterns alike or from its range, the others ordinary; deep and surface.
fn anywhere(place: usize) -> Vec<Report> {
    let mut random = Random(6 + place as u64);
    let mut reports = Vec::new();
    for i in 0..2_000_000 {
        let report = Report::ordinary(1 + i % 2 + 16 * (i / 4 % 2), &mut random);
        reports.push(if i % 4 < 2 { report.with(place, Float(random.next() as u32)) } else { report });
    }
    reports
}

/// A sort of reports: its name, and what makes them.
pub type Sort = (&'static str, fn() -> Vec<Report>);

/// The sorts of reports that every answer to one report is held to.
pub fn sorts() -> [Sort; 7] {
    [
        ("floats about the limits", limits),
        ("floats of every exponent", patterns),
        ("floats about the halves of the grid", halves),
        ("bad floats, each with each", bad_with_bad),
        ("random salinities as floats", || anywhere(0)),
        ("random temperatures as floats", || anywhere(1)),
        ("random pressures as floats", || anywhere(2)),
    ]
}

pub fn all(panel: &Panel, formula: &Formula) -> Vec<Tally> {
    assert_eq!([35, 5, 42].map(|n| Float::nearest(n, 1)), [0x420c_0000, 0x40a0_0000, 0x4228_0000].map(Float));
    let mut seen = BTreeSet::new();
    let mut tallies = vec![paper(panel, formula)];
    for (name, reports) in sorts() {
        tallies.push(compare(panel, formula, &mut seen, name, &reports()));
    }
    let mut refusals = Tally::new("refusals of channels, all seen");
    refusals.same(seen, BTreeSet::from([0, 1, 2, 3, 4, 5, 7]), &"all reports");
    tallies.push(refusals);
    tallies
}
