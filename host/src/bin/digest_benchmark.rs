//! How long the digest of a message takes, next to the plain program's: `tools/archive digest_probe`, then
//! `cargo run --offline --release --bin digest_benchmark`.

use std::hint::black_box;
use std::time::Instant;

use poplarchime_host::digest_probe;
use poplarchime_host::measuring::medians;
use poplarchime_host::plain::sha256::{self, Digest, DIGEST_SIZE};

const ROUNDS: usize = 1001;
/// The shortest and the longest verifier (RFC 7636 section 4.1) are 43 and 128 bytes; the rest show how the time grows.
const LENGTHS: [usize; 5] = [43, 64, 128, 1000, 4096];
/// So many bytes are digested in a row; the time of the calls that it takes is taken together.
const BATCH_BYTES: usize = 40_000;

type Sha256 = fn(&[u8]) -> Digest;

const PROGRAMS: [Sha256; 2] = [sha256::digest, ours];

fn ours(message: &[u8]) -> Digest {
    let mut digest = [0; DIGEST_SIZE];
    assert_eq!(digest_probe::digest(message, &mut digest), 1);
    digest
}

/// Characters that a verifier may have.
fn message(length: usize) -> Vec<u8> {
    (b'a'..=b'z').cycle().take(length).collect()
}

/// Nanoseconds for one call, over a batch.
fn time(sha256: Sha256, message: &[u8]) -> f64 {
    let batch = BATCH_BYTES / message.len();
    let start = Instant::now();
    for _ in 0..batch {
        black_box(black_box(sha256)(black_box(message)));
    }
    start.elapsed().as_nanos() as f64 / batch as f64
}

fn main() {
    if cfg!(debug_assertions) {
        eprintln!("digest_benchmark: measure with --release");
        std::process::exit(2);
    }
    let messages = LENGTHS.map(message);
    for message in &messages {
        assert_eq!(sha256::digest(message), ours(message), "{} bytes", message.len());
    }
    let times = medians(ROUNDS, PROGRAMS.len() * messages.len(), |turn| time(PROGRAMS[turn % 2], &messages[turn / 2]));
    println!("Time to digest one message (SHA-256), in nanoseconds: plain, ours, and ours / plain.");
    println!();
    println!("{:>8}{:>12}{:>12}{:>14}", "bytes", "plain", "ours", "ours / plain");
    for (message, pair) in messages.iter().zip(times.chunks(2)) {
        println!("{:>8}{:>12.1}{:>12.1}{:>14.2}", message.len(), pair[0], pair[1], pair[1] / pair[0]);
    }
    println!();
    println!(
        "Measured in one process and thread: {ROUNDS} rounds, in each of which every line runs a batch of plain and"
    );
    println!(
        "one of ours, each round starting one place further on; the figures are medians over the rounds. A batch is"
    );
    println!("as many calls as it takes to digest {BATCH_BYTES} bytes.");
}
