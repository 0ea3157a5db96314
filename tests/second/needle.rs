//! The needle of two reports, both waters at the greater of the two pressures; every pair is asked both ways round. probes.rs has more of those that
//! are one probe's.

use crate::channel::{any_of, channel, floats_of, Channel, Report, WRONG_KINDS};
use crate::floats::{Float, INFINITE};
use crate::grid::DENSITIES;
use crate::panel::{long, Panel};
use crate::random::Random;
use crate::recipe::Formula;
use crate::Tally;
use std::collections::BTreeSet;

pub type Pair = [Report; 2];

/// A refusal's number, left density, right density, needle.
pub type Reply = [i64; 4];

fn shown(formula: &Formula, [s, t]: [i64; 2], p: i64) -> i64 {
    formula.water(s, t, p).unwrap().0.into()
}

/// Right minus left, both waters at one pressure.
fn difference(formula: &Formula, left: &[i64; 8], right: &[i64; 8], p: i64) -> i64 {
    let at = |[s, t, own, density, ..]: [i64; 8]| if own == p { density } else { shown(formula, [s, t], p) };
    at(*right) - at(*left)
}

/// The densities stand at their own pressures, the needle at the greater of the two; there is none where both have one probe's number.
pub fn expected(formula: &Formula, left: (&Channel, u16), right: (&Channel, u16)) -> Reply {
    let density = |c: &Channel| c.map_or(0, |eight| eight[3]);
    let (l, r) = (density(left.0), density(right.0));
    match (left.0, right.0) {
        (Err(n), _) => [100 + i64::from(*n), l, r, 0],
        (_, Err(n)) => [200 + i64::from(*n), l, r, 0],
        _ if left.1 == right.1 && left.1 > 0 => [32, l, r, 0],
        (Ok(a), Ok(b)) => [0, l, r, difference(formula, a, b, a[2].max(b[2]))],
    }
}

/// Left and right, then right and left.
pub fn request(pair: &Pair, bytes: &mut Vec<u8>) {
    for (left, right) in [(0, 1), (1, 0)] {
        bytes.push(b'n');
        pair[left].put(bytes);
        pair[right].put(bytes);
    }
}

pub fn replies(bytes: [u8; 64]) -> [Reply; 2] {
    [0, 4].map(|first| [0, 1, 2, 3].map(|i| long(&bytes, first + i)))
}

/// Needles between the waters that UNESCO prints at the surface and at 1,000 bar, by the printed densities alone.
fn published(panel: &Panel, formula: &Formula) -> Tally {
    let mut tally = Tally::new("needles of published values");
    let mut random = Random(11);
    let printed = |[s, t, _]: [i64; 3], p| i64::from(DENSITIES.iter().find(|x| x.0 == [s, t, p]).unwrap().1);
    let mut pairs = Vec::new();
    for (left, _) in &DENSITIES[..8] {
        for (right, _) in &DENSITIES[..8] {
            let deepest = left[2].max(right[2]);
            let needle = printed(*right, deepest) - printed(*left, deepest);
            for probes in [[0, 0], [513, 258], [513, 513]] {
                let pair = [(left, probes[0]), (right, probes[1])].map(|(at, probe)| Report { probe, ..Report::at(*at, &mut random) });
                let (refusal, needle) = if probes == [513, 513] { (32, 0) } else { (0, needle) };
                pairs.push((pair, [refusal, printed(*left, left[2]), printed(*right, right[2]), needle]));
            }
        }
    }
    panel.ask(&pairs, |x, bytes| request(&x.0, bytes), |(pair, said), bytes| {
        let [left, right] = pair.map(|report| channel(formula, &report));
        tally.same(replies(bytes)[0], *said, pair);
        tally.same(expected(formula, (&left, pair[0].probe), (&right, pair[1].probe)), *said, pair);
    });
    tally
}

/// Deep and surface in range; missing, wrong kinds and refused floats, one bad place or several.
pub fn from_bag(random: &mut Random) -> Report {
    let kind = any_of([1, 2, 17, 18], random);
    let report = Report::ordinary(kind, random);
    let place = random.between(0, 2) as usize;
    let bad = [0x7fc0_0000, 0xff80_0001, INFINITE, 0x4900_0000, 0xc900_0000, 0xc000_0001, 0x447a_0001, random.next() as u32];
    let mut a_bad_one = || Float(bad[random.between(0, 7) as usize]);
    let (first, second) = (a_bad_one(), a_bad_one());
    match random.between(0, 9) {
        0 => Report { kind: any_of([3, 19], random), ..report.with(place, first) },
        1 => Report { kind: WRONG_KINDS[random.between(0, WRONG_KINDS.len() as i64 - 1) as usize], ..report.with(place, first) },
        2 | 3 => report.with(place, first),
        4 => report.with(place, first).with((place + 1) % 3, second),
        _ => report,
    }
}

/// The right is the left but for one float or the kind, and the probe, so that a number taken from the wrong side is seen.
fn one_apart(random: &mut Random) -> Pair {
    let left = Report::ordinary(any_of([1, 2, 17, 18], random), random);
    let other = Report::ordinary(left.kind ^ 3, random);
    let right = match random.between(0, 3) as usize {
        3 => Report { kind: other.kind, ..left },
        place => left.with(place, other.floats[place]),
    };
    [left, Report { probe: other.probe, ..right }]
}

fn depth(random: &mut Random) -> i64 {
    [0, random.between(0, 1_200), random.between(0, 100_000)][random.between(0, 2) as usize]
}

fn water(random: &mut Random) -> [i64; 2] {
    [random.between(0, 42_000), random.between(-2_000, 40_000)]
}

/// Two waters on the grid, alike, nearly as heavy or any; at one pressure, a step of it apart, or at any two.
fn two_depths(random: &mut Random) -> Pair {
    let ([s, t], p) = (water(random), depth(random));
    let other = match random.between(0, 2) {
        0 => [s, t],
        1 => [(s + random.between(-4, 4)).clamp(0, 42_000), (t + random.between(-30, 30)).clamp(-2_000, 40_000)],
        _ => water(random),
    };
    let other_p = match random.between(0, 3) {
        0 => p,
        1 => (p + [-1, 1][random.between(0, 1) as usize]).clamp(0, 100_000),
        _ => depth(random),
    };
    [[s, t, p], [other[0], other[1], other_p]].map(|at| Report::at(at, random))
}

/// A colder and a warmer water, alike in density or nearly at a pressure between their two: the colder one is squeezed more, so that the
/// needle turns there.
fn turning(formula: &Formula, random: &mut Random) -> Pair {
    let (one, p, q) = (water(random), depth(random), depth(random));
    let (t, between) = (random.between(-2_000, 40_000), (p + q) / 2);
    let heavy = shown(formula, one, between);
    let (mut low, mut high) = (0, 42_000);
    while low < high {
        let middle = (low + high) / 2;
        if shown(formula, [middle, t], between) < heavy {
            low = middle + 1;
        } else {
            high = middle;
        }
    }
    [[one[0], one[1], p], [low, t, q]].map(|at| Report::at(at, random))
}

/// The sorts of needles that have to be among those tried: each tells a wrong needle from the right one, or a law speaks of it.
fn sorts(formula: &Formula, pair: &Pair, left: &[i64; 8], right: &[i64; 8], needle: i64) -> [(&'static str, bool); 14] {
    let printed = right[3] - left[3];
    let at_lesser = difference(formula, left, right, left[2].min(right[2]));
    let (at_left, at_right) = if left[2] < right[2] { (at_lesser, needle) } else { (needle, at_lesser) };
    let opposite = |n: i64| n.signum() * needle.signum() < 0;
    let one_water = left[..2] == right[..2];
    let unread = pair.iter().filter(|r| floats_of(r.kind) == Ok(2) && r.floats[2].within(0, 1_000)).map(|r| r.floats[2].grid(100)).max();
    let at_unread = unread.filter(|p| *p > left[2].max(right[2])).map(|p| difference(formula, left, right, p));
    [
        ("left heavier", needle < 0),
        ("right heavier", needle > 0),
        ("left deeper", left[2] > right[2]),
        ("right deeper", left[2] < right[2]),
        ("not the printed difference", printed != needle),
        ("another at the lesser pressure", at_lesser != needle),
        ("another at the left's", at_left != needle),
        ("another at the right's", at_right != needle),
        ("another at a pressure that is not read", at_unread.map_or(false, |n| n != needle)),
        ("the printed difference the other way", opposite(printed)),
        ("the lesser pressure the other way", opposite(at_lesser)),
        ("one water at two depths", one_water && left[2] != right[2]),
        ("two waters at one pressure", !one_water && left[2] == right[2]),
        ("a step of pressure apart and not the printed difference", (left[2] - right[2]).abs() == 1 && printed != needle),
    ]
}

pub fn all(panel: &Panel, formula: &Formula) -> Vec<Tally> {
    let mut random = Random(9);
    let mut pairs: Vec<Pair> = (0..600_000).map(|_| [from_bag(&mut random), from_bag(&mut random)]).collect();
    pairs.extend((0..200_000).map(|_| one_apart(&mut random)));
    pairs.extend((0..400_000).map(|_| two_depths(&mut random)));
    pairs.extend((0..50_000).map(|_| turning(formula, &mut random)));

    let mut tally = Tally::new("needles");
    let mut swapped = Tally::new("needles, sides swapped");
    let mut refused = Tally::new("needles of one probe, refused by 32 both ways round, both densities given");
    let mut none = Tally::new("needles of one water at two depths: 0");
    let mut level = Tally::new("needles at one pressure: the printed difference");
    let mut seen = BTreeSet::new();
    let mut counts = [("", 0); 14];
    panel.ask(&pairs, request, |pair, bytes| {
        let [one, other] = replies(bytes);
        let [left, right] = [0, 1].map(|i| channel(formula, &pair[i]));
        let probes = pair.map(|report| report.probe);
        let second = expected(formula, (&left, probes[0]), (&right, probes[1]));
        tally.same(one, second, pair);
        tally.same(other, expected(formula, (&right, probes[1]), (&left, probes[0])), pair);
        seen.extend([one[0], other[0]]);
        let (Ok(l), Ok(r)) = (left, right) else { return };
        if probes[0] == probes[1] && probes[0] != 0 {
            refused.same([one, other], [[32, l[3], r[3], 0], [32, r[3], l[3], 0]], pair);
        } else {
            swapped.same(other, [0, one[2], one[1], -one[3]], pair);
            if l[..2] == r[..2] {
                none.same(one[3], 0, pair);
            }
            if l[2] == r[2] {
                level.same(one[3], one[2] - one[1], pair);
            }
            for (count, (sort, is_so)) in counts.iter_mut().zip(sorts(formula, pair, &l, &r, second[3])) {
                *count = (sort, count.1 + u32::from(is_so));
            }
        }
    });
    println!("second program: needles tried: {}", counts.map(|(sort, count)| format!("{count} {sort}")).join(", "));
    assert!(counts.iter().all(|count| count.1 > 10_000), "too few needles of a sort are tried");
    assert!(refused.tried > 50_000, "one probe is too seldom on both sides");

    let mut refusals = Tally::new("refusals of needles, all seen");
    let all = BTreeSet::from([0, 32, 101, 102, 103, 104, 105, 107, 201, 202, 203, 204, 205, 207]);
    refusals.same(seen, all, &"all pairs");
    vec![published(panel, formula), tally, swapped, refused, none, level, refusals]
}
