//! The compiled panel, behind the pipe of tests/driver.c: many requests go out, their answers come back in order.

use std::io::{BufReader, BufWriter, Read, Write};
use std::process::{Child, Command, Stdio};

pub struct Panel {
    command: Vec<String>,
}

impl Panel {
    /// The command that starts the driver.
    pub fn new(command: Vec<String>) -> Panel {
        assert!(!command.is_empty(), "give the command that starts the driver");
        Panel { command }
    }

    fn start(&self) -> Child {
        Command::new(&self.command[0])
            .args(&self.command[1..])
            .stdin(Stdio::piped())
            .stdout(Stdio::piped())
            .spawn()
            .expect("the driver does not start")
    }

    /// Sends each item's request and hands its answer, of N bytes, to `take`.
    pub fn ask<T: Send + Sync, const N: usize>(&self, items: &[T], request: fn(&T, &mut Vec<u8>), mut take: impl FnMut(&T, [u8; N])) {
        self.ask_by(items, request, |item, from| take(item, bytes(from)));
    }

    /// Sends each item's request and lets `take` read its answer.
    pub fn ask_by<T: Send + Sync>(&self, items: &[T], request: fn(&T, &mut Vec<u8>), mut take: impl FnMut(&T, &mut dyn Read)) {
        let mut driver = self.start();
        let mut to = BufWriter::with_capacity(1 << 16, driver.stdin.take().unwrap());
        let mut from = std::thread::scope(|scope| {
            // Made in here, so that a panic closes it and the driver ends.
            let mut from = BufReader::with_capacity(1 << 16, driver.stdout.take().unwrap());
            scope.spawn(move || {
                let mut bytes = Vec::new();
                for item in items {
                    bytes.clear();
                    request(item, &mut bytes);
                    to.write_all(&bytes).expect("the driver stopped reading");
                }
                to.flush().expect("the driver stopped reading");
            });
            for item in items {
                take(item, &mut from);
            }
            from
        });
        let mut more = Vec::new();
        from.read_to_end(&mut more).unwrap();
        assert!(more.is_empty(), "the driver answered more than it was asked");
        assert!(driver.wait().unwrap().success(), "the driver failed");
    }
}

/// The next N bytes of the answers.
pub fn bytes<const N: usize>(from: &mut dyn Read) -> [u8; N] {
    let mut answer = [0; N];
    from.read_exact(&mut answer).expect("the driver stopped answering");
    answer
}

/// The i-th 32-bit number of an answer.
pub fn word(answer: &[u8], i: usize) -> u32 {
    u32::from_le_bytes(answer[4 * i..4 * i + 4].try_into().unwrap())
}

/// The i-th signed 64-bit number of an answer.
pub fn long(answer: &[u8], i: usize) -> i64 {
    i64::from_le_bytes(answer[8 * i..8 * i + 8].try_into().unwrap())
}
