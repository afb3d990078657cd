//! How long the decoding of one value takes, next to a former commit's: `host/former COMMIT`, then
//! `cargo run --offline --release --features former --bin decoding_benchmark`.

use std::hint::black_box;
use std::time::Instant;

use poplarchime_host::measuring::medians;
use poplarchime_host::probe::{Decoder, FORMER, PRESENT};

const ROUNDS: usize = 1001;
const LENGTHS: [usize; 3] = [10, 200, 4000];
/// So many bytes are decoded in a row; the time of the calls that it takes is taken together.
const BATCH_BYTES: usize = 40_000;

/// A value as it is written, and what it stands for.
struct Value {
    what: &'static str,
    written: Vec<u8>,
    read: Vec<u8>,
}

/// Where the escapes are: so many plain bytes, an escape, so many plain bytes, and again.
#[derive(Clone, Copy)]
struct Pattern {
    what: &'static str,
    before: usize,
    behind: usize,
}

const NONE: Pattern = Pattern { what: "no escape", before: usize::MAX, behind: 0 };
const ONE_IN_TEN: Pattern = Pattern { what: "one in 10 bytes", before: 3, behind: 4 };
const ONE_IN_FIFTY: Pattern = Pattern { what: "one in 50 bytes", before: 23, behind: 24 };
const EVERY_SECOND: Pattern = Pattern { what: "after every 2nd byte", before: 2, behind: 0 };
const ONLY: Pattern = Pattern { what: "escapes only", before: 0, behind: 0 };

impl Pattern {
    /// No, few and many escapes.
    fn of(length: usize) -> [Pattern; 4] {
        let few = if length < 50 { ONE_IN_TEN } else { ONE_IN_FIFTY };
        [NONE, few, EVERY_SECOND, ONLY]
    }

    /// A value of exactly so many bytes. It ends in plain ones where there is no room for an escape.
    fn value(self, length: usize) -> Value {
        let mut value = Value { what: self.what, written: Vec::new(), read: Vec::new() };
        let mut letters = (b'a'..=b'z').cycle();
        while value.written.len() < length {
            value.plain(self.before.min(length - value.written.len()), &mut letters);
            let room = length - value.written.len();
            if room < 3 {
                value.plain(room, &mut letters);
                break;
            }
            value.escape(letters.next().expect("a letter"));
            value.plain(self.behind.min(room - 3), &mut letters);
        }
        value
    }
}

impl Value {
    fn plain(&mut self, count: usize, letters: &mut impl Iterator<Item = u8>) {
        let text: Vec<u8> = letters.take(count).collect();
        self.written.extend(&text);
        self.read.extend(&text);
    }

    fn escape(&mut self, byte: u8) {
        self.written.extend(format!("%{byte:02X}").bytes());
        self.read.push(byte);
    }
}

/// What is measured: one of the two functions.
#[derive(Clone, Copy)]
enum Task {
    Decode,
    Equals,
}

impl Task {
    fn run(self, decoder: &Decoder, value: &Value, out: &mut [u8]) -> usize {
        let written = black_box(&value.written[..]);
        match self {
            Task::Decode => decoder.decode(written, out),
            Task::Equals => decoder.equals(written, black_box(&value.read)).into(),
        }
    }

    /// Nanoseconds for one call, over a batch.
    fn time(self, decoder: &Decoder, value: &Value, out: &mut [u8]) -> f64 {
        let batch = BATCH_BYTES / value.written.len();
        let start = Instant::now();
        for _ in 0..batch {
            black_box(self.run(black_box(decoder), value, out));
            black_box(&mut *out);
        }
        start.elapsed().as_nanos() as f64 / batch as f64
    }
}

/// Both read the value as the bytes that it was made of and as no others, and want room for all of it.
fn check(value: &Value) {
    for decoder in [FORMER, PRESENT] {
        let mut out = vec![0xa5; value.written.len()];
        assert_eq!(decoder.decode(&value.written, &mut out), value.read.len(), "{}", value.what);
        assert_eq!(out[..value.read.len()], value.read[..], "{}", value.what);
        assert!(decoder.equals(&value.written, &value.read), "{}", value.what);
        for at in 0..value.read.len() {
            let mut other = value.read.clone();
            other[at] ^= 1;
            assert!(!decoder.equals(&value.written, &other), "{}, byte {at}", value.what);
        }
        assert!(!decoder.equals(&value.written, &value.read[1..]), "{}", value.what);
        assert_eq!(decoder.decode(&value.written, &mut out[1..]), 0, "{}", value.what);
    }
}

fn table(title: &str, task: Task, values: &[Value]) {
    let mut out = vec![0; LENGTHS[2]];
    let times = medians(ROUNDS, 2 * values.len(), |turn| {
        let decoder = [FORMER, PRESENT][turn % 2];
        task.time(&decoder, &values[turn / 2], &mut out)
    });
    println!();
    println!("{title:<24}{:>8}{:>12}{:>12}{:>12}", "bytes", "old", "new", "new / old");
    for (value, pair) in values.iter().zip(times.chunks(2)) {
        let (length, ratio) = (value.written.len(), pair[1] / pair[0]);
        println!("{:<24}{length:>8}{:>12.1}{:>12.1}{ratio:>12.2}", value.what, pair[0], pair[1]);
    }
}

fn main() {
    if cfg!(debug_assertions) {
        eprintln!("decoding_benchmark: measure with --release");
        std::process::exit(2);
    }
    let values: Vec<Value> =
        LENGTHS.iter().flat_map(|&length| Pattern::of(length).map(|pattern| pattern.value(length))).collect();
    values.iter().for_each(check);
    println!("Time to decode one value, in nanoseconds: old (the former commit), new (this tree), and new / old.");
    table("decode", Task::Decode, &values);
    table("equals what is expected", Task::Equals, &values);
    println!();
    println!(
        "Measured in one process and thread: {ROUNDS} rounds, in each of which every line of a table runs a batch of"
    );
    println!("old and one of new, each round starting one place further on; the figures are medians over the rounds.");
    println!("A batch is as many calls as it takes to decode {BATCH_BYTES} bytes.");
}
