//! The second program: it works everything out again and holds the compiled panel to it.

mod channel;
mod co2;
mod floats;
mod grid;
mod needle;
mod panel;
mod probes;
mod random;
mod recipe;
mod recorder;
mod remarks;
mod root;

/// What was tried and what came out wrong.
pub struct Tally {
    pub name: String,
    pub tried: u64,
    pub wrong: u64,
}

impl Tally {
    pub fn new(name: &str) -> Tally {
        Tally { name: name.to_string(), tried: 0, wrong: 0 }
    }

    /// Counts one comparison; the first few that fail are shown.
    pub fn same<T: PartialEq + std::fmt::Debug>(&mut self, panel: T, second: T, input: &dyn std::fmt::Debug) {
        self.tried += 1;
        if panel != second {
            self.wrong += 1;
            if self.wrong <= 5 {
                println!("{}: at {:?} the panel says {:?}, the second program {:?}", self.name, input, panel, second);
            }
        }
    }
}

fn main() {
    let panel = panel::Panel::new(std::env::args().skip(1).collect());
    let formula = recipe::Formula::printed();
    let mut tallies = grid::all(&panel, &formula);
    tallies.extend(root::all(&panel));
    tallies.extend(channel::all(&panel, &formula));
    tallies.extend(remarks::all(&panel, &formula));
    tallies.extend(co2::all(&panel));
    tallies.extend(needle::all(&panel, &formula));
    tallies.extend(probes::all(&panel, &formula));
    tallies.extend(recorder::all(&panel));
    let mut wrong = 0;
    for t in &tallies {
        println!("second program: {}: {} tried, {} wrong", t.name, t.tried, t.wrong);
        assert!(t.tried > 0);
        wrong += t.wrong;
    }
    if wrong > 0 {
        std::process::exit(1);
    }
}
