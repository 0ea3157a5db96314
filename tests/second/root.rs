//! The root of every salinity, and every line of its search. The root is held to squares, and a line to what it means: nothing here goes from one
//! line to the next.

use crate::panel::{long, Panel};
use crate::random::Random;
use crate::recipe;
use crate::Tally;

/// A refusal's number, or the root, the trial bit, the rest and the root so far.
type Search = Result<[i64; 4], u32>;

/// A salinity's grid number and a number of trials.
type Asked = (i64, u32);

fn request((sigma, trials): &Asked, bytes: &mut Vec<u8>) {
    bytes.push(b'w');
    bytes.extend(sigma.to_le_bytes());
    bytes.extend(trials.to_le_bytes());
}

/// The panel's answer; a refusal comes with four noughts.
fn answer(bytes: [u8; 40]) -> Search {
    match (long(&bytes, 0), [1, 2, 3, 4].map(|i| long(&bytes, i))) {
        (0, words) => Ok(words),
        (number, [0, 0, 0, 0]) => Err(number as u32),
        _ => Err(u32::MAX),
    }
}

/// With `left` trials left of as many as n has pairs of binary digits, the root's last `left` digits are not known yet. Its others, with noughts for
/// these, make w: the trial bit is the square of the highest unknown one, the rest n less the square of w, the root so far w, moved up by `left`.
fn search((sigma, trials): &Asked) -> Search {
    if !(0..=42_000).contains(sigma) {
        return Err(3);
    }
    let n = *sigma as i128 * 100_000;
    let root = recipe::root(n);
    let pairs = (0..).find(|pairs| n < 4i128.pow(*pairs)).unwrap();
    let left = pairs.saturating_sub(*trials);
    let unknown = 2i128.pow(left);
    let w = root - root % unknown;
    let bit = if left == 0 { 0 } else { (unknown / 2).pow(2) };
    Ok([root, bit, n - w * w, w * unknown].map(|x| x as i64))
}

fn compare(panel: &Panel, name: &str, asked: &[Asked]) -> Tally {
    let mut tally = Tally::new(name);
    panel.ask(asked, request, |a, bytes| tally.same(answer(bytes), search(a), a));
    tally
}

/// That the greatest whole number is meant, by squares alone.
fn squares(panel: &Panel) -> Tally {
    let every: Vec<Asked> = (0..=42_000).map(|sigma| (sigma, 16)).collect();
    let mut tally = Tally::new("roots of all 42,001 salinities, by their squares");
    panel.ask(&every, request, |a, bytes| {
        let [w, bit, rest, so_far] = answer(bytes).unwrap_or([-1; 4]);
        let n = a.0 * 100_000;
        tally.same((w * w <= n && n < (w + 1) * (w + 1), bit, rest, so_far), (true, 0, n - w * w, w), a);
    });
    tally
}

/// Numbers around the ends of the grid and of the parameters' types, each with each; then wild ones.
fn outside() -> Vec<Asked> {
    let sigmas = [i64::MIN, -(1 << 32), -42_000, -1, 0, 1, 41_999, 42_000, 42_001, 1 << 31, 1 << 32, (1 << 32) + 35_000, i64::MAX];
    let trials = [0, 1, 15, 16, 17, 31, 32, 255, 256, 65_536, 1 << 31, u32::MAX];
    let mut random = Random(16);
    let wild = (0..200_000).map(|_| match random.next() % 3 {
        0 => (random.next() as i64, random.next() as u32),
        1 => (random.between(-3, 42_003), random.next() as u32),
        _ => (random.between(-42_000, 84_000), random.between(0, 20) as u32),
    });
    sigmas.iter().flat_map(|s| trials.map(|t| (*s, t))).chain(wild).collect()
}

pub fn all(panel: &Panel) -> Vec<Tally> {
    let lines: Vec<Asked> = (-2..=42_002).flat_map(|sigma| (0..=17).map(move |trials| (sigma, trials))).collect();
    vec![
        squares(panel),
        compare(panel, "every line of every root's search", &lines),
        compare(panel, "roots off the grid, and any number of trials", &outside()),
    ]
}
