//! Two waters compared, from Rust: every function of warpsorrel.h once or more, in safe clothes. It prints capi/expected.

/// The panel. Every function answers every argument, so that nothing here has to be checked first.
mod panel {
    mod abi {
        extern "C" {
            pub fn warpsorrel_version() -> u32;
            pub fn warpsorrel_refusal(sigma: i64, tau: i64, pi: i64) -> u32;
            pub fn warpsorrel_density(sigma: i64, tau: i64, pi: i64) -> u32;
            pub fn warpsorrel_bulk(sigma: i64, tau: i64, pi: i64) -> u32;
            pub fn warpsorrel_root(sigma: i64, trials: u32, out: *mut [u64; 4]) -> u32;
            pub fn warpsorrel_channel(kind: u32, probe: u16, salinity: f32, temperature: f32, pressure: f32, out: *mut [i64; 8]) -> u32;
            pub fn warpsorrel_co2(kind: u32, salinity: f32, temperature: f32, pressure: f32, out: *mut i64) -> u32;
            pub fn warpsorrel_needle(
                left_kind: u32, left_probe: u16, left_salinity: f32, left_temperature: f32, left_pressure: f32,
                right_kind: u32, right_probe: u16, right_salinity: f32, right_temperature: f32, right_pressure: f32,
                out: *mut [i64; 3],
            ) -> u32;
            pub fn warpsorrel_recorder(shown: u32) -> f32;
            pub fn warpsorrel_line(
                number: u32,
                left_kind: u32, left_probe: u16, left_salinity: f32, left_temperature: f32, left_pressure: f32,
                right_kind: u32, right_probe: u16, right_salinity: f32, right_temperature: f32, right_pressure: f32,
                out: *mut u8, room: usize, count: *mut usize,
            ) -> u32;
            pub fn warpsorrel_pairs(stream: *const u8, length: usize) -> usize;
            pub fn warpsorrel_pair(stream: *const u8, length: usize, before: usize, out: *mut [i64; 8]) -> u32;
            pub fn warpsorrel_page(stream: *const u8, length: usize, out: *mut u8, room: usize, count: *mut usize) -> u32;
        }
    }

    /// The version that these declarations were written for.
    pub const VERSION: u32 = 4;

    /// The version of the library.
    pub fn version() -> u32 {
        unsafe { abi::warpsorrel_version() }
    }

    /// Why something is refused, in words; a needle's refusal has its side before them, if it is a side's.
    pub fn words(refusal: u32) -> String {
        let words = match refusal % 100 {
            1 => "missing",
            2 => "a NaN or an infinity",
            3 => "the salinity is not from 0 to 42",
            4 => "the temperature is not from -2 to 40 degrees C",
            5 => "the pressure is not from 0 to 1,000 bar",
            6 => "the record is cut short",
            7 => "the kind is none of 1, 2, 3, 17, 18, 19",
            8 => "the length is not the kind's own",
            30 => "the room is too small",
            31 => "the pair number is not from 1 to 9,999",
            32 => "both sides have the same probe number, other than 0",
            _ => "no refusal of this version",
        };
        match refusal / 100 {
            1 => format!("left: {}", words),
            2 => format!("right: {}", words),
            _ => words.to_string(),
        }
    }

    /// The same of a ln K0. For carbon dioxide the temperature has a range of its own, and so has the refusal its own words.
    pub fn co2_words(refusal: u32) -> String {
        match refusal {
            4 => "the temperature is not from 0 to 40 degrees C".to_string(),
            _ => words(refusal),
        }
    }

    /// Where a float lay, seen from its grid point. A refused channel has no remark.
    pub fn word(remark: i64) -> &'static str {
        match remark {
            1 => "below",
            2 => "on",
            3 => "above",
            _ => "none",
        }
    }

    /// The least room for a line.
    pub const LINE: usize = 32;

    /// The least room for a page, and the longest page there is.
    pub const PAGE: usize = 118_916;

    /// A water's grid numbers: salinity in 0.001, temperature in 0.001 °C, pressure in 0.01 bar.
    #[derive(Clone, Copy)]
    pub struct Grid {
        pub sigma: i64,
        pub tau: i64,
        pub pi: i64,
    }

    impl Grid {
        pub fn refusal(self) -> u32 {
            unsafe { abi::warpsorrel_refusal(self.sigma, self.tau, self.pi) }
        }

        pub fn density(self) -> u32 {
            unsafe { abi::warpsorrel_density(self.sigma, self.tau, self.pi) }
        }

        pub fn bulk(self) -> u32 {
            unsafe { abi::warpsorrel_bulk(self.sigma, self.tau, self.pi) }
        }
    }

    /// The root that a salinity's densities use, and a line of its search on paper.
    pub struct Root {
        pub refusal: u32,
        pub root: u64,
        pub bit: u64,
        pub rest: u64,
        pub so_far: u64,
    }

    /// The root of a salinity in 0.001, and the line after so many trials.
    pub fn root(sigma: i64, trials: u32) -> Root {
        let mut out = [0; 4];
        let refusal = unsafe { abi::warpsorrel_root(sigma, trials, &mut out) };
        let [root, bit, rest, so_far] = out;
        Root { refusal, root, bit, rest, so_far }
    }

    /// A probe's report with the probe's number, 0 for a probe without one; or why its record gave none.
    #[derive(Clone, Copy)]
    pub enum Report {
        Deep { probe: u16, salinity: f32, temperature: f32, pressure: f32 },
        Surface { probe: u16, salinity: f32, temperature: f32 },
        Missing { probe: u16 },
        Cut,
        UnknownKind,
        WrongLength,
    }

    impl Report {
        /// The kinds 17, 18 and 19 of records with a number say no more here: the number goes over by itself.
        fn parts(self) -> (u32, u16, f32, f32, f32) {
            match self {
                Report::Deep { probe, salinity, temperature, pressure } => (1, probe, salinity, temperature, pressure),
                Report::Surface { probe, salinity, temperature } => (2, probe, salinity, temperature, f32::NAN), // a pressure that is not read
                Report::Missing { probe } => (3, probe, 0.0, 0.0, 0.0),
                Report::Cut => (65_542, 0, 0.0, 0.0, 0.0),
                Report::UnknownKind => (65_543, 0, 0.0, 0.0, 0.0),
                Report::WrongLength => (65_544, 0, 0.0, 0.0, 0.0),
            }
        }

        pub fn channel(self) -> Channel {
            let (kind, probe, salinity, temperature, pressure) = self.parts();
            let mut out = [0; 8];
            let refusal = unsafe { abi::warpsorrel_channel(kind, probe, salinity, temperature, pressure, &mut out) };
            let [sigma, tau, pi, density, bulk, remarks @ ..] = out;
            Channel { refusal, at: Grid { sigma, tau, pi }, density, bulk, remarks }
        }

        /// How much carbon dioxide the water will hold. The pressure is not read, and the probe's number has no part in it.
        pub fn co2(self) -> Co2 {
            let (kind, _, salinity, temperature, pressure) = self.parts();
            let mut ln_k0 = 0;
            let refusal = unsafe { abi::warpsorrel_co2(kind, salinity, temperature, pressure, &mut ln_k0) };
            Co2 { refusal, ln_k0 }
        }
    }

    pub struct Channel {
        pub refusal: u32,
        pub at: Grid,
        pub density: i64,
        pub bulk: i64,
        /// Of the salinity, the temperature, the pressure.
        pub remarks: [i64; 3],
    }

    /// ln K0 in millionths; 0 if refused.
    pub struct Co2 {
        pub refusal: u32,
        pub ln_k0: i64,
    }

    impl Co2 {
        /// In mol/(kg atm).
        pub fn k0(&self) -> Option<f64> {
            (self.refusal == 0).then(|| (self.ln_k0 as f64 / 1e6).exp())
        }
    }

    pub struct Needle {
        pub refusal: u32,
        pub left: i64,
        pub right: i64,
        pub value: i64,
    }

    pub fn needle(left: Report, right: Report) -> Needle {
        let (l, r) = (left.parts(), right.parts());
        let mut out = [0; 3];
        let refusal = unsafe { abi::warpsorrel_needle(l.0, l.1, l.2, l.3, l.4, r.0, r.1, r.2, r.3, r.4, &mut out) };
        let [left, right, value] = out;
        Needle { refusal, left, right, value }
    }

    pub fn recorder(shown: u32) -> f32 {
        unsafe { abi::warpsorrel_recorder(shown) }
    }

    /// The bytes written at the start of a buffer that was lent, or the refusal.
    fn written(refusal: u32, out: &[u8], count: usize) -> Result<&[u8], u32> {
        if refusal == 0 { Ok(&out[..count]) } else { Err(refusal) }
    }

    /// Writes the sheet's line of two reports at the start of `out` and gives it.
    pub fn line(number: u32, left: Report, right: Report, out: &mut [u8]) -> Result<&[u8], u32> {
        let (l, r) = (left.parts(), right.parts());
        let mut count = 0;
        let refusal = unsafe {
            abi::warpsorrel_line(number, l.0, l.1, l.2, l.3, l.4, r.0, r.1, r.2, r.3, r.4, out.as_mut_ptr(), out.len(), &mut count)
        };
        written(refusal, out, count)
    }

    pub fn pairs(stream: &[u8]) -> usize {
        unsafe { abi::warpsorrel_pairs(stream.as_ptr(), stream.len()) }
    }

    pub struct Side {
        pub refusal: i64,
        pub density: i64,
        pub bulk: i64,
    }

    pub struct Pair {
        pub left: Side,
        pub right: Side,
        pub needle_refusal: i64,
        pub needle: i64,
    }

    /// The pair of a stream with so many pairs before it, if there is one.
    pub fn pair(stream: &[u8], before: usize) -> Option<Pair> {
        let mut out = [0; 8];
        let found = unsafe { abi::warpsorrel_pair(stream.as_ptr(), stream.len(), before, &mut out) };
        let side = |at: usize| Side { refusal: out[at], density: out[at + 1], bulk: out[at + 2] };
        (found == 1).then(|| Pair { left: side(0), right: side(3), needle_refusal: out[6], needle: out[7] })
    }

    /// Writes a stream's page at the start of `out` and gives it.
    pub fn page<'a>(stream: &[u8], out: &'a mut [u8]) -> Result<&'a [u8], u32> {
        let mut count = 0;
        let refusal = unsafe { abi::warpsorrel_page(stream.as_ptr(), stream.len(), out.as_mut_ptr(), out.len(), &mut count) };
        written(refusal, out, count)
    }
}

use panel::{Grid, Report};

fn tell(refusal: u32) {
    if refusal != 0 {
        println!("  {}: {}", refusal, panel::words(refusal));
    }
}

fn show_grid(g: Grid) {
    println!("grid {} {} {}: refusal {}, density {}, bulk modulus {}", g.sigma, g.tau, g.pi, g.refusal(), g.density(), g.bulk());
    tell(g.refusal());
}

fn show_root(sigma: i64, trials: u32) {
    let r = panel::root(sigma, trials);
    println!(
        "root of {}, trials {}: refusal {}, root {}, trial bit {}, rest {}, root so far {}",
        sigma, trials, r.refusal, r.root, r.bit, r.rest, r.so_far
    );
    tell(r.refusal);
}

fn show_channel((name, report): (&str, Report)) {
    let c = report.channel();
    let remarks = c.remarks.map(panel::word).join(" ");
    println!(
        "{}: refusal {}, grid {} {} {}, density {}, bulk modulus {}, remarks {}",
        name, c.refusal, c.at.sigma, c.at.tau, c.at.pi, c.density, c.bulk, remarks
    );
    tell(c.refusal);
}

fn show_co2((name, report): (&str, Report)) {
    let c = report.co2();
    println!("co2 of {}: refusal {}, ln K0 {}", name, c.refusal, c.ln_k0);
    match c.k0() {
        None => println!("  {}: {}", c.refusal, panel::co2_words(c.refusal)),
        Some(k0) => println!("  K0 is {:.6} mol/(kg atm)", k0),
    }
}

fn show_needle(left: (&str, Report), right: (&str, Report)) {
    let n = panel::needle(left.1, right.1);
    println!("needle of {}, {}: refusal {}, densities {} {}, needle {}", left.0, right.0, n.refusal, n.left, n.right, n.value);
    tell(n.refusal);
}

fn show_recorder(shown: u32) {
    let value = panel::recorder(shown);
    println!("recorder {}: {:.3}, bits {:08x}", shown, value, value.to_bits());
}

/// What was written, or the number that refused it.
fn show_text(what: &str, room: usize, written: Result<&[u8], u32>) {
    let (refusal, text) = match written {
        Ok(text) => (0, text),
        Err(refusal) => (refusal, &[][..]),
    };
    println!("{} in a room of {}: refusal {}, {} bytes", what, room, refusal, text.len());
    print!("{}", std::str::from_utf8(text).expect("lines and pages are plain text"));
    tell(refusal);
}

fn show_line(number: u32, left: (&str, Report), right: (&str, Report), room: usize) {
    let mut out = vec![0; room];
    show_text(&format!("line {} of {}, {}", number, left.0, right.0), room, panel::line(number, left.1, right.1, &mut out));
}

fn show_pair(stream: &[u8], before: usize) {
    print!("pair with {} before it: ", before);
    match panel::pair(stream, before) {
        None => println!("none"),
        Some(p) => {
            println!(
                "left {} {} {}, right {} {} {}, needle {} {}",
                p.left.refusal, p.left.density, p.left.bulk, p.right.refusal, p.right.density, p.right.bulk, p.needle_refusal, p.needle
            );
            tell(p.needle_refusal as u32);
        }
    }
}

fn show_page(stream: &[u8], room: usize) {
    let mut out = vec![0; room];
    show_text("page", room, panel::page(stream, &mut out));
}

fn show_stream(stream: &[u8]) {
    let pairs = panel::pairs(stream);
    println!("stream of {} bytes: {} pairs", stream.len(), pairs);
    for before in 0..=pairs {
        show_pair(stream, before);
    }
    show_page(stream, panel::PAGE);
}

fn main() {
    assert_eq!(panel::version(), panel::VERSION, "the library is of another version than this program was written for");
    println!("version {}", panel::version());
    show_grid(Grid { sigma: 35_000, tau: 25_000, pi: 100_000 });
    show_grid(Grid { sigma: 42_001, tau: 25_000, pi: 100_000 });
    show_root(35_000, 0);
    show_root(35_000, 1);
    show_root(35_000, 16);
    show_root(12_345, 16);
    show_root(0, 0);
    show_root(42_001, 16);

    let fjord = ("fjord", Report::Surface { probe: 0, salinity: 28.5, temperature: 12.25 });
    let deep = ("deep", Report::Deep { probe: 0, salinity: 34.25, temperature: 7.5, pressure: 4.0 });
    let shallow = ("shallow", Report::Deep { probe: 0, salinity: 34.25, temperature: 7.5, pressure: 0.4 }); // the deep one's water
    let brine = ("brine", Report::Deep { probe: 0, salinity: 42.25, temperature: 7.5, pressure: 4.0 });
    let none = ("none", Report::Missing { probe: 0 });
    let broken = ("broken", Report::Surface { probe: 0, salinity: f32::NAN, temperature: 7.5 });
    let hot = ("hot", Report::Surface { probe: 0, salinity: 34.25, temperature: 40.5 });
    let abyss = ("abyss", Report::Deep { probe: 0, salinity: 34.25, temperature: 7.5, pressure: 1_000.5 });
    let frost = ("frost", Report::Surface { probe: 0, salinity: 34.25, temperature: -1.0 });
    // The deep one's water, its depth not known.
    let blind = ("blind", Report::Deep { probe: 0, salinity: 34.25, temperature: 7.5, pressure: f32::NAN });
    // Off the grid: no 32-bit float is just 5.1, 33.9 or -1.1, and 0.004 bar goes to 0.00. A surface's pressure is not read: it is on.
    let bench = ("bench", Report::Deep { probe: 0, salinity: 35.0, temperature: 5.1, pressure: 0.004 });
    let winter = ("winter", Report::Surface { probe: 0, salinity: 33.9, temperature: -1.1 });
    // Numbered probes: the fjord's water and the deep one's again, whose channels do not depend on the number; probe 17 in the other's place as well;
    // and probe 17 does not answer.
    let upper = ("upper", Report::Surface { probe: 17, salinity: 28.5, temperature: 12.25 });
    let lower = ("lower", Report::Deep { probe: 18, salinity: 34.25, temperature: 7.5, pressure: 4.0 });
    let twice = ("twice", Report::Deep { probe: 17, salinity: 34.25, temperature: 7.5, pressure: 4.0 });
    let lost = ("lost", Report::Missing { probe: 17 });
    // Records that gave no reading have a channel, and a place on a line, too.
    let cut = ("cut", Report::Cut);
    let unknown = ("unknown", Report::UnknownKind);
    let length = ("length", Report::WrongLength);
    let every = [
        fjord, deep, none, broken, brine, hot, abyss, frost, blind, bench, winter, upper, lower, twice, lost, cut, unknown, length,
    ];
    every.into_iter().for_each(show_channel);
    // The frost has a density and no ln K0; the abyss and the blind one, whose pressures are refused, have the deep one's ln K0 and no density.
    every.into_iter().for_each(show_co2);
    show_needle(fjord, deep);
    show_needle(deep, fjord);
    show_needle(shallow, deep);
    show_needle(fjord, brine);
    show_needle(none, deep);
    // Two probes, and one in both sockets: no needle, and both densities all the same. A side that is refused comes first.
    show_needle(upper, lower);
    show_needle(upper, twice);
    show_needle(lost, twice);
    show_recorder(deep.1.channel().density as u32);
    show_recorder(16_384_000);

    show_line(1, fjord, deep, panel::LINE);
    show_line(9_999, deep, fjord, panel::LINE);
    show_line(2, fjord, cut, panel::LINE);
    show_line(3, length, deep, panel::LINE);
    show_line(4, unknown, none, panel::LINE);
    show_line(5, upper, lower, panel::LINE);
    show_line(6, upper, twice, panel::LINE);
    show_line(1, fjord, deep, panel::LINE - 1);
    show_line(10_000, fjord, deep, panel::LINE);
    show_line(0, fjord, deep, panel::LINE);

    let stream = [
        0x08, 0, 2, 0, 0, 0, 0, 0, 0, 0, 0xA0, 0x40, 0x08, 0, 2, 0, 0, 0, 0x0C, 0x42, 0, 0, 0xA0, 0x40, //
        0x00, 0, 3, 0, 0x08, 0, 2, 0, 0, 0, 0, 0, 0, 0, 0xA0, 0x40,
    ];
    show_stream(&stream);
    show_page(&stream, panel::PAGE - 1);

    // Records with a probe's number: 513 in both sockets, then 513 and 514, then 513 missing.
    let numbered = [
        0x0A, 0, 18, 0, 1, 2, 0, 0, 0, 0, 0, 0, 0xA0, 0x40, 0x0A, 0, 18, 0, 1, 2, 0, 0, 0x0C, 0x42, 0, 0, 0xA0, 0x40, //
        0x0A, 0, 18, 0, 1, 2, 0, 0, 0, 0, 0, 0, 0xA0, 0x40, 0x0A, 0, 18, 0, 2, 2, 0, 0, 0x0C, 0x42, 0, 0, 0xA0, 0x40, //
        0x02, 0, 19, 0, 1, 2, 0x0E, 0, 17, 0, 2, 2, 0, 0, 0x0C, 0x42, 0, 0, 0xA0, 0x40, 0, 0, 0xC8, 0x42,
    ];
    show_stream(&numbered);
}
