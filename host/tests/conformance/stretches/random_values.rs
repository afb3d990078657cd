//! Values of random runs, written in random runs: both programs agree in everything, and the answer is the one that the
//! values were made for. Every run of the test draws the same calls, in sequences that carry the store along.

use poplarchime_host::sample::{self, Client};

use crate::support::call::{Call, Request};
use crate::support::compare::run_both;
use crate::support::rng::Rng;
use crate::support::tally::Tally;
use crate::support::writing;

const SEQUENCES: usize = 300;
const CALLS: usize = 60;
const LEAST: usize = 100;
const LONGEST_RUN: usize = 300;
const OUTCOMES: [&str; 9] = [
    "code",
    "access_denied",
    "invalid_request",
    "refusal 5",
    "refusal 7",
    "200",
    "400 invalid_request",
    "401 invalid_client",
    "401 invalid_client, challenge",
];

#[test]
fn both_programs_agree_on_values_of_random_runs() {
    let mut outcomes = Tally::default();
    for number in 0..SEQUENCES {
        let mut rng = Rng::new(number as u64);
        let client = client(&mut rng);
        let mut store = sample::empty_store();
        for clock in (1000..).take(CALLS) {
            let (request, expected) = match rng.chance(50) {
                true => authorization(&client, &mut rng),
                false => client_credentials(&client, &mut rng),
            };
            let length = if matches!(request, Request::Authorize { .. }) { 20 } else { 40 };
            let random: Vec<u8> = (0..length).map(|_| rng.byte()).collect();
            let registry = sample::registry(std::slice::from_ref(&client));
            let call = Call { request, registry, clock, random, output: 1024 };
            let after = run_both(&call, &store);
            expected.hold(&after.outcome(), &after.text(), &call);
            outcomes.add(after.outcome());
            store = after.store;
        }
    }
    outcomes.require("values of random runs", &OUTCOMES.map(String::from), LEAST);
}

/// What a request comes to.
struct Expected {
    outcome: &'static str,
    /// How the location begins and ends.
    front: String,
    end: String,
}

impl Expected {
    fn outcome(outcome: &'static str) -> Expected {
        Expected { outcome, front: String::new(), end: String::new() }
    }

    fn hold(&self, outcome: &str, text: &str, call: &Call) {
        assert_eq!(outcome, self.outcome, "{call}");
        assert!(text.starts_with(&self.front) && text.ends_with(&self.end), "{text}\n{call}");
    }
}

// ---- texts, and how they are written

/// Runs of plain bytes, long and short, and short ones of bytes that coding is about or of any, cut to the limit; no
/// byte but those allowed.
fn text(limit: usize, allowed: &dyn Fn(u8) -> bool, rng: &mut Rng) -> Vec<u8> {
    let any: Vec<u8> = (0..=255).filter(|&byte| allowed(byte)).collect();
    let (coded, plain): (Vec<u8>, Vec<u8>) = any.iter().partition(|byte| b" %+&=".contains(byte));
    let limit = rng.between(1, limit);
    let mut text = Vec::new();
    while text.len() < limit {
        let (bytes, run) = match rng.below(5) {
            0 => (&coded, rng.between(1, 3)),
            1 => (&any, rng.between(1, 20)),
            2 => (&plain, rng.between(1, 40)),
            _ => (&plain, rng.between(1, LONGEST_RUN)),
        };
        text.extend((0..run).map(|_| rng.pick(bytes)));
    }
    text.truncate(limit);
    text
}

fn printable(byte: u8) -> bool {
    (0x20..=0x7e).contains(&byte)
}

/// The text in runs of random length: as it stands but for what must be escaped, as a library would, or escaped.
fn in_runs(text: &[u8], escaped: &[u8], rng: &mut Rng) -> Vec<u8> {
    let mut written = Vec::new();
    let mut rest = text;
    while !rest.is_empty() {
        let (run, behind) = rest.split_at(rng.between(1, LONGEST_RUN).min(rest.len()));
        written.extend(match rng.below(8) {
            0 => writing::full(run),
            1 => writing::full_small(run),
            2 => writing::usual(run),
            3 => writing::any(run, escaped, rng),
            4 | 5 => writing::sparse(run, escaped),
            _ => spaces_as_pluses(writing::sparse(run, escaped)),
        });
        rest = behind;
    }
    written
}

fn spaces_as_pluses(mut written: Vec<u8>) -> Vec<u8> {
    written.iter_mut().filter(|byte| **byte == b' ').for_each(|byte| *byte = b'+');
    written
}

/// The text with one bit of one byte changed.
fn spoiled(text: &[u8], rng: &mut Rng) -> Vec<u8> {
    let mut spoiled = text.to_vec();
    let at = rng.below(text.len());
    spoiled[at] ^= 1 << rng.below(8);
    spoiled
}

// ---- requests

fn client(rng: &mut Rng) -> Client {
    Client {
        id: text(32, &|byte| printable(byte) && byte != b':', rng),
        redirect: text(200, &|byte| printable(byte) && byte != b' ' && byte != b'#', rng),
        scope: 255,
        secret: Some(text(64, &printable, rng)),
    }
}

/// A form in the making: its pieces, and whether a bad `%` stands in one of them.
#[derive(Default)]
struct Form {
    pieces: Vec<Vec<u8>>,
    malformed: bool,
}

impl Form {
    fn push(&mut self, name: &str, value: &[u8], rng: &mut Rng) {
        let name = in_runs(name.as_bytes(), writing::IN_NAME, rng);
        self.pieces.push([name, in_runs(value, writing::IN_VALUE, rng)].join(&b'='));
    }

    /// Puts unknown pieces among the others and now and then a bad `%` anywhere, and says whether it can be read.
    fn finish(mut self, rng: &mut Rng) -> (Vec<u8>, bool) {
        for _ in 0..rng.below(4) {
            let value = text(500, &|_| true, rng);
            self.push("nonce", &value, rng);
        }
        rng.shuffle(&mut self.pieces);
        if rng.chance(10) {
            let at = rng.below(self.pieces.len());
            spoil_coding(&mut self.pieces[at], rng);
            self.malformed = true;
        }
        let form = self.pieces.join(&b'&');
        let read = !self.malformed && form.len() <= 4096;
        (form, read)
    }
}

/// Puts in a `%` that has no digits, or one; some are cut short by the end.
fn spoil_coding(written: &mut Vec<u8>, rng: &mut Rng) {
    let at = rng.below(written.len() + 1);
    match rng.below(5) {
        0 => written.push(b'%'),
        1 => written.extend(b"%4"),
        _ => drop(written.splice(at..at, rng.pick(&[*b"%g1", *b"%1g", *b"%%1"]))),
    }
}

fn authorization(client: &Client, rng: &mut Rng) -> (Request, Expected) {
    let mut form = Form::default();
    form.push("response_type", b"code", rng);
    form.push("client_id", &client.id, rng);
    let given = rng.pick(&[None, Some(true), Some(true), Some(true), Some(false)]);
    if let Some(right) = given {
        let redirect = if right { client.redirect.clone() } else { spoiled(&client.redirect, rng) };
        form.push("redirect_uri", &redirect, rng);
    }
    let limit = rng.pick(&[20, 80, 200, 200, 400]);
    let state = if rng.chance(95) { text(limit, &printable, rng) } else { text(limit, &|_| true, rng) };
    form.push("state", &state, rng);
    let (query, read) = form.finish(rng);
    let decision = u64::from(rng.chance(70));
    let sound = state.len() <= 200 && state.iter().all(|&byte| printable(byte));
    let expected = match (given, sound, decision) {
        _ if !read => Expected::outcome("refusal 5"),
        (Some(false), ..) => Expected::outcome("refusal 7"),
        (_, false, _) => redirected(client, "invalid_request", "error=invalid_request"),
        (_, _, 0) => with_state(redirected(client, "access_denied", "error=access_denied"), &state),
        _ => with_state(redirected(client, "code", "code="), &state),
    };
    (Request::Authorize { query, decision, farm: 7 }, expected)
}

/// A location at the client's redirect; `end` is what it is there to say.
fn redirected(client: &Client, outcome: &'static str, end: &str) -> Expected {
    let redirect = String::from_utf8_lossy(&client.redirect);
    let joint = if redirect.contains('?') { '&' } else { '?' };
    Expected { outcome, front: format!("{redirect}{joint}{end}"), end: String::new() }
}

fn with_state(expected: Expected, state: &[u8]) -> Expected {
    Expected { end: format!("&state={}", writing::answered(state)), ..expected }
}

fn client_credentials(client: &Client, rng: &mut Rng) -> (Request, Expected) {
    let (mut id, mut secret) = (client.id.clone(), client.secret.clone().expect("a secret"));
    let mut admitted = rng.chance(75);
    if !admitted {
        let half = if rng.chance(50) { &mut id } else { &mut secret };
        *half = spoiled(half, rng);
    }
    let mut form = Form::default();
    form.push("grant_type", b"client_credentials", rng);
    let mut header = Vec::new();
    if rng.chance(60) {
        let mut written = [in_runs(&id, b"%+:", rng), in_runs(&secret, b"%+", rng)];
        if rng.chance(10) {
            spoil_coding(&mut written[rng.below(2)], rng);
            admitted = false;
        }
        header = sample::basic_header(&written[0], &written[1]);
    } else {
        form.push("client_id", &id, rng);
        form.push("client_secret", &secret, rng);
    }
    let (body, read) = form.finish(rng);
    let expected = match (read, admitted) {
        (false, _) => "400 invalid_request",
        (_, true) => "200",
        _ if header.is_empty() => "401 invalid_client",
        _ => "401 invalid_client, challenge",
    };
    (Request::Token { header, body }, Expected::outcome(expected))
}
