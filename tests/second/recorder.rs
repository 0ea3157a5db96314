//! The recorder's float: one division, and the way back to the whole number.

use crate::floats::Float;
use crate::panel::{word, Panel};
use crate::random::Random;
use crate::Tally;

/// Below this the division is the recorder's; from here on it gives zero.
const TOO_LARGE: u32 = 16_384_000;

fn request(shown: &u32, bytes: &mut Vec<u8>) {
    bytes.push(b'r');
    bytes.extend(shown.to_le_bytes());
}

pub fn all(panel: &Panel) -> Vec<Tally> {
    let mut shown: Vec<u32> = (0..=1_200_000).collect();
    for middle in [TOO_LARGE, 1 << 24, 1 << 31] {
        shown.extend(middle - 1_000..=middle + 1_000);
    }
    shown.extend(u32::MAX - 1_000..=u32::MAX);
    let mut random = Random(10);
    shown.extend((0..100_000).map(|_| random.between(0, TOO_LARGE.into()) as u32));
    shown.extend((0..100_000).map(|_| random.next() as u32));

    let mut divided = Tally::new("recorder's floats");
    let mut back = Tally::new("recorder's floats put back on the grid");
    panel.ask(&shown, request, |n, bytes: [u8; 4]| {
        let float = Float(word(&bytes, 0));
        let below = *n < TOO_LARGE;
        divided.same(float, if below { Float::nearest((*n).into(), 1_000) } else { Float(0) }, n);
        if below {
            let number = float.exact().filter(|_| float.within(0, 16_384)).map(|_| float.grid(1_000));
            back.same(number, Some((*n).into()), n);
        }
    });
    vec![divided, back]
}
