//! Probe numbers. One probe on both sides has no needle: 32, after a side's own refusal and with both densities. That is judged by the panel's own
//! channels and the two numbers, and the value by needle.rs; a line by the needle. And nothing else hangs on a number or on which of its two kinds a
//! report has: the answers to all of them are held to each other.

use crate::channel::{self, any_of, any_probe, channel, floats_of, Channel, Report, CUT, KINDS, LENGTH, WRONG_KINDS};
use crate::co2;
use crate::floats::{Float, INFINITE};
use crate::needle::{self, expected, from_bag, replies, Pair, Reply};
use crate::panel::{bytes, long, Panel};
use crate::random::Random;
use crate::recipe::Formula;
use crate::Tally;
use std::collections::BTreeSet;
use std::io::Read;

// ---- the panel

/// Both channels, the needle both ways round, the line both ways round.
fn request(pair: &Pair, to: &mut Vec<u8>) {
    pair.iter().for_each(|report| channel::request(report, to));
    needle::request(pair, to);
    for (left, right) in [(0, 1), (1, 0)] {
        request_line(&[pair[left], pair[right]], to);
    }
}

const LINE: u32 = 9_999;
const ROOM: u64 = 32;

fn request_line(pair: &Pair, to: &mut Vec<u8>) {
    to.push(b'l');
    to.extend(LINE.to_le_bytes());
    pair.iter().for_each(|report| report.put(to));
    to.extend(ROOM.to_le_bytes());
}

/// A refusal, which there is none of here, and the text.
fn line(from: &mut dyn Read) -> (i64, String) {
    let head: [u8; 16] = bytes(from);
    let mut text = vec![0; usize::try_from(long(&head, 1)).expect("a count")];
    from.read_exact(&mut text).expect("the driver stopped answering");
    (long(&head, 0), String::from_utf8_lossy(&text).into_owned())
}

/// A place is R and its refusal, or its number.
fn line_of([refusal, ..]: Reply, channels: [Channel; 2], value: i64) -> (i64, String) {
    let [left, right] = channels.map(|c| c.map_or_else(|number| format!("R{number}"), |eight| eight[3].to_string()));
    let last = if refusal == 0 { value.to_string() } else { format!("R{refusal}") };
    (0, format!("{LINE} {left} {right} {last}\n"))
}

// ---- the law

/// What the panel's own channels and the two numbers make of a needle but its value; none where there is one.
fn refused([left, right]: [Channel; 2], probes: [u16; 2]) -> Option<Reply> {
    let [l, r] = [left, right].map(|c| c.map_or(0, |eight| eight[3]));
    let is_one_probe = probes[0] != 0 && probes[0] == probes[1];
    match (left, right) {
        (Err(number), _) => Some([100 + i64::from(number), l, r, 0]),
        (Ok(_), Err(number)) => Some([200 + i64::from(number), l, r, 0]),
        (Ok(_), Ok(_)) => is_one_probe.then_some([32, l, r, 0]),
    }
}

/// What was tried and seen.
struct Laws {
    thirty_two: Tally,
    swapped: Tally,
    values: Tally,
    lines: Tally,
    seen: BTreeSet<i64>,
}

impl Laws {
    fn new() -> Laws {
        Laws {
            thirty_two: Tally::new("probes: 32 exactly where both are accepted and have one number other than 0, both densities given"),
            swapped: Tally::new("probes: swapped, 32 stays and a value turns its sign"),
            values: Tally::new("probes: values and refusals beside the second program's"),
            lines: Tally::new("probes: lines, as their needles"),
            seen: BTreeSet::new(),
        }
    }

    fn hold(&mut self, panel: &Panel, formula: &Formula, pairs: &[Pair]) {
        panel.ask_by(pairs, request, |pair, from| {
            let channels = [channel::answer(bytes(from)), channel::answer(bytes(from))];
            let [one, other] = replies(bytes(from));
            let lines = [line(from), line(from)];
            let ([left, right], probes) = (channels, pair.map(|report| report.probe));
            self.seen.extend([one[0], other[0]]);

            // by the panel's channels alone
            let is = refused(channels, probes);
            let densities = channels.map(|c| c.map_or(0, |eight| eight[3]));
            self.thirty_two.same(one, is.unwrap_or([0, densities[0], densities[1], one[3]]), pair);
            self.thirty_two.same(one[0] == 32, is.map_or(false, |reply| reply[0] == 32), pair);
            self.thirty_two.same(other, refused([right, left], [probes[1], probes[0]]).unwrap_or([0, densities[1], densities[0], other[3]]), pair);
            if left.is_ok() && right.is_ok() {
                self.swapped.same(other, [one[0], one[2], one[1], -one[3]], pair);
            }
            // by the second program's
            let second = pair.map(|report| channel(formula, &report));
            self.values.same(one, expected(formula, (&second[0], probes[0]), (&second[1], probes[1])), pair);
            self.values.same(other, expected(formula, (&second[1], probes[1]), (&second[0], probes[0])), pair);
            let texts = [line_of(one, [left, right], one[3]), line_of(other, [right, left], other[3])];
            self.lines.same(lines, texts, pair);
        });
    }
}

// ---- what is tried

/// Numbers that differ in the low byte alone, in the high byte alone, in one bit, in the order of their bytes.
const PROBES: [u16; 22] = [
    0, 1, 2, 3, 17, 0x00fe, 0x00ff, 0x0100, 0x0101, 0x0102, 0x0201, 0x0202, 0x0301, 0x1100, 0x1111, 0x7fff, 0x8000, 0x8001, 0x8201, 0xff00, 0xfffe,
    0xffff,
];

fn accepted(random: &mut Random) -> Report {
    Report::ordinary(any_of([1, 2, 17, 18], random), random)
}

fn with_probes(pair: Pair, probes: [u16; 2]) -> Pair {
    [Report { probe: probes[0], ..pair[0] }, Report { probe: probes[1], ..pair[1] }]
}

/// Every number on both sides, of two readings or of one that stands on both.
fn every_number() -> Vec<Pair> {
    let mut random = Random(28);
    let mut pairs = Vec::new();
    for probe in 0..=u16::MAX {
        let one = accepted(&mut random);
        let other = if probe % 2 == 0 { one } else { accepted(&mut random) };
        pairs.push(with_probes([one, other], [probe, probe]));
    }
    pairs
}

/// Every number beside 0, itself with its bytes turned, with a bit changed, with one of its bytes changed; either first.
fn every_neighbour() -> Vec<Pair> {
    let mut random = Random(29);
    let mut pairs = Vec::new();
    for probe in 0..=u16::MAX {
        let any = random.next() as u16;
        for (i, other) in [0, probe.swap_bytes(), probe ^ 1 << (any % 16), probe ^ (any & 0xff), probe ^ (any & 0xff00)].into_iter().enumerate() {
            let pair = [accepted(&mut random), accepted(&mut random)];
            pairs.push(with_probes(pair, if (i + usize::from(probe)) % 2 == 0 { [probe, other] } else { [other, probe] }));
        }
    }
    pairs
}

/// Numbers each with each, by every two kinds, wrong ones too.
fn kinds_and_numbers() -> Vec<Pair> {
    let mut random = Random(30);
    let mut pairs = Vec::new();
    let kinds: Vec<u32> = KINDS.iter().map(|(kind, _)| *kind).chain([CUT, CUT + 1, LENGTH, 16, 20, 33]).collect();
    for left in &kinds {
        for right in &kinds {
            let pair = [*left, *right].map(|kind| Report::ordinary(kind, &mut random));
            pairs.extend(PROBES.iter().flat_map(|one| PROBES.map(|other| with_probes(pair, [*one, other]))));
        }
    }
    pairs
}

/// One of each refusal that a record or a reading has, and one of none; by old kinds and by numbered ones where there are two.
fn ways(random: &mut Random) -> Vec<Report> {
    let mut reports: Vec<Report> = [CUT, LENGTH, CUT + 1].map(|kind| Report::ordinary(kind, random)).to_vec();
    for more in [0, 16] {
        reports.push(Report::ordinary(3 + more, random));
        for (place, bits) in [(0, 0x7fc0_0000), (1, INFINITE), (0, 0x4228_0001), (1, 0xc000_0001)] {
            reports.push(Report::ordinary(any_of([1, 2], random) + more, random).with(place, Float(bits)));
        }
        reports.push(Report::ordinary(1 + more, random).with(2, Float(0x447a_0001)));
        reports.extend([1, 2].map(|kind| Report::ordinary(kind + more, random)));
    }
    reports
}

/// Each with each, of one probe, of two, and of none.
fn refused_beside() -> Vec<Pair> {
    let mut random = Random(31);
    let mut pairs = Vec::new();
    for _ in 0..40 {
        let (lefts, rights) = (ways(&mut random), ways(&mut random));
        let any = random.next() as u16;
        for left in &lefts {
            for right in &rights {
                for probes in [[0x0201, 0x0201], [0x0201, 0x0102], [0, 0], [0, 0x0201], [0x0201, 0], [any, any], [u16::MAX; 2]] {
                    pairs.push(with_probes([*left, *right], probes));
                }
            }
        }
    }
    pairs
}

/// Any reports with any numbers, half of them with one.
fn any_pairs() -> Vec<Pair> {
    let mut random = Random(32);
    let mut pairs = Vec::new();
    for i in 0..300_000 {
        let pair = [from_bag(&mut random), from_bag(&mut random)];
        let any = any_of([random.next() as u16, random.between(1, 4) as u16], &mut random);
        pairs.push(if i % 2 == 0 { with_probes(pair, [any, any]) } else { pair });
    }
    pairs
}

// ---- what a number does not change

/// A report with the other of its two kinds.
fn twin(report: &Report) -> Report {
    Report { kind: if floats_of(report.kind).is_ok() { report.kind ^ 16 } else { report.kind }, ..*report }
}

/// A report as it is, with other numbers, and by its other kind.
fn forms(report: &Report) -> [Report; 6] {
    let [other, turned] = [report.probe ^ 1, report.probe.swap_bytes()];
    let with = |probe| Report { probe, ..*report };
    [*report, with(0), with(u16::MAX), with(turned), twin(report), twin(&with(other))]
}

/// Channel and ln K0 in all these forms are the same.
fn alike(panel: &Panel, name: &str, reports: &[Report]) -> Tally {
    let mut tally = Tally::new(name);
    let all = |report: &Report, to: &mut Vec<u8>| {
        forms(report).iter().for_each(|form| channel::request(form, to));
        [*report, twin(report)].iter().for_each(|form| co2::request(form, to));
    };
    panel.ask_by(reports, all, |report, from| {
        let channels: [Channel; 6] = [(); 6].map(|_| channel::answer(bytes(from)));
        let gas = [(); 2].map(|_| co2::answer(bytes(from)));
        tally.same(channels, [channels[0]; 6], report);
        tally.same(gas, [gas[0]; 2], report);
    });
    tally
}

/// So are needles and lines by the other kinds of their reports.
fn alike_in_pairs(panel: &Panel, pairs: &[Pair]) -> Tally {
    let mut tally = Tally::new("probes: needles and lines by either kind of each report");
    let all = |pair: &Pair, to: &mut Vec<u8>| {
        let [l, r] = *pair;
        for form in [[l, r], [twin(&l), r], [l, twin(&r)], [twin(&l), twin(&r)]] {
            needle::request(&form, to);
            request_line(&form, to);
        }
    };
    panel.ask_by(pairs, all, |pair, from| {
        let said = [(); 4].map(|_| (replies(bytes(from)), line(from)));
        for other in &said[1..] {
            tally.same(other, &said[0], pair);
        }
    });
    tally
}

/// Ends of the ranges, bad floats each with each, wrong kinds; random floats.
fn edges_and_any() -> Vec<Report> {
    let mut random = Random(33);
    let sorts = channel::sorts();
    let mut reports: Vec<Report> = [0, 3].iter().flat_map(|i| sorts[*i].1()).step_by(3).collect();
    for _ in 0..200_000 {
        let kind = any_of([1, 2, 3, 17, 18, 19, any_of(WRONG_KINDS, &mut random)], &mut random);
        let report = Report { probe: any_probe(&mut random), ..Report::ordinary(kind, &mut random) };
        reports.push(report.with(random.between(0, 2) as usize, Float(random.next() as u32)));
    }
    reports
}

pub fn all(panel: &Panel, formula: &Formula) -> Vec<Tally> {
    let mut laws = Laws::new();
    for pairs in [every_number(), every_neighbour(), kinds_and_numbers(), refused_beside(), any_pairs()] {
        laws.hold(panel, formula, &pairs);
    }
    let mut refusals = Tally::new("probes: refusals, all seen");
    let of_sides = [100, 200].into_iter().flat_map(|side| (1..=8).map(move |number| side + number));
    refusals.same(laws.seen, of_sides.chain([0, 32]).collect(), &"all pairs");
    let mut pairs = any_pairs();
    pairs.truncate(100_000);
    vec![
        laws.thirty_two,
        laws.swapped,
        laws.values,
        laws.lines,
        refusals,
        alike(panel, "probes: channels and ln K0 by either kind and with any number", &edges_and_any()),
        alike_in_pairs(panel, &pairs),
    ]
}
