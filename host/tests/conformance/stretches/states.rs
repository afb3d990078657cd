//! A state comes back in the location: what it is read as is seen byte for byte.

use poplarchime_host::sample;

use super::{marked, plain, Value, DOUBLED, MARKS};
use crate::support::host::{counting, redirected, Authorized, Host, BARNAPP};
use crate::support::writing;

const LONGEST: usize = 200;
const UNSOUND: &str = "https://barn.example/r?x=1&error=invalid_request";

/// Every length up to 80; beyond it those around multiples of 16, and the two longest.
fn lengths() -> impl Iterator<Item = usize> {
    (1..=LONGEST).filter(|length| *length <= 80 || (length + 1) % 16 <= 2 || length + 1 >= LONGEST)
}

/// Where a denied owner is sent with a state that is read as these bytes.
fn denied(state: &[u8]) -> Authorized {
    redirected(&format!("https://barn.example/r?x=1&error=access_denied&state={}", writing::answered(state)))
}

/// The answer to a query of barnapp, its owner denying, with this state as its last value.
fn deny(written: &[u8]) -> Authorized {
    Host::visit().authorize([BARNAPP.as_bytes(), b"&state=", written].concat(), 0, 1000, 0x00)
}

#[track_caller]
fn comes_back(value: &Value) {
    assert_eq!(deny(&value.written), denied(&value.read), "{}", value.written.escape_ascii());
}

#[test]
fn a_plain_state_of_every_length() {
    let code = sample::hex(&counting(0));
    for length in 0..=LONGEST + 1 {
        let state = plain(length);
        let query = [BARNAPP.as_bytes(), b"&state=", &state].concat();
        for (decision, answer) in [(1, format!("code={code}")), (0, "error=access_denied".into())] {
            let location = match length {
                0 => format!("https://barn.example/r?x=1&{answer}"),
                1..=LONGEST => format!("https://barn.example/r?x=1&{answer}&state={}", writing::answered(&state)),
                _ => UNSOUND.into(),
            };
            assert_eq!(Host::visit().authorize(&query, decision, 1000, 0x00), redirected(&location), "{length} bytes");
        }
    }
}

#[test]
fn an_escape_or_a_plus_at_every_place() {
    for length in lengths() {
        let marks = if length <= 80 { &MARKS[..] } else { &MARKS[..2] };
        marked(length, marks).for_each(|value| comes_back(&value));
    }
}

#[test]
fn two_side_by_side_at_every_place() {
    for length in lengths() {
        let marks = if length <= 80 { &DOUBLED[..] } else { &DOUBLED[..2] };
        marked(length, marks).for_each(|value| comes_back(&value));
    }
}

/// Stretches of these three lengths, an escape between the first two and a `+` between the last two.
fn of_three(lengths: [usize; 3]) -> Value {
    let [first, second, third] = lengths.map(plain);
    let around = |escape: &[u8], plus: &[u8]| [&first[..], escape, &second, plus, &third].concat();
    Value { written: around(b"%3d", b"+"), read: around(b"=", b" ") }
}

#[test]
fn three_stretches_of_any_lengths() {
    const LENGTHS: [usize; 18] = [0, 1, 2, 3, 7, 8, 9, 15, 16, 17, 23, 24, 25, 31, 32, 33, 40, 65];
    for first in LENGTHS {
        for second in LENGTHS {
            for third in LENGTHS {
                comes_back(&of_three([first, second, third]));
            }
        }
    }
}

#[test]
fn one_byte_more_than_may_be() {
    for value in marked(LONGEST + 1, &MARKS).chain(marked(LONGEST + 1, &DOUBLED)) {
        assert_eq!(deny(&value.written), redirected(UNSOUND), "{}", value.written.escape_ascii());
    }
}

#[test]
fn far_longer_states() {
    for length in (LONGEST + 1..=700).chain([1023, 1024, 1025, 2048, 3900]) {
        for value in [Value::plain(&plain(length)), Value::marked(length, length / 3, MARKS[0])] {
            assert_eq!(deny(&value.written), redirected(UNSOUND), "{length} bytes");
        }
    }
}

#[test]
fn bytes_that_are_a_bit_away_from_a_mark() {
    let near = |mark: u8| (0..8).map(move |bit| mark ^ 1 << bit);
    for byte in near(b'%').chain(near(b'+')) {
        for length in (1..=33).chain([40, 57, 64]) {
            for at in 0..length {
                let mut state = plain(length);
                state[at] = byte;
                let expected = if (0x20..=0x7e).contains(&byte) { denied(&state) } else { redirected(UNSOUND) };
                assert_eq!(deny(&state), expected, "{}", state.escape_ascii());
            }
        }
    }
}

#[test]
fn an_unsound_byte_at_every_place() {
    for length in (1..=33).chain([40, 57, 64]) {
        for at in 0..length {
            for odd in [&b"\x1f"[..], b"\x7f", b"%1F", b"%7f", b"%A5"] {
                let text = plain(length);
                let written = [&text[..at], odd, &text[at + 1..]].concat();
                assert_eq!(deny(&written), redirected(UNSOUND), "{}", written.escape_ascii());
            }
        }
    }
}

#[test]
fn wherever_a_state_stands() {
    for length in (1..=41).chain([56, 57, 64, 80]) {
        let ends = [0, length / 2, length - 1].map(|at| Value::marked(length, at, ("%41", "A")));
        for value in ends.into_iter().chain([Value::plain(&plain(length))]) {
            for before in 0..16 {
                let front = "x".repeat(before);
                for behind in ["", "&%41+%42=x&+", "&nonce=xxxxxxxxxxxxxxxxxxxxxxxxxxxxxxxx"] {
                    let state = [b"&state=", &value.written[..], behind.as_bytes()].concat();
                    let query = [front.as_bytes(), b"&", BARNAPP.as_bytes(), &state].concat();
                    let answer = Host::visit().authorize(&query, 0, 1000, 0x00);
                    assert_eq!(answer, denied(&value.read), "{}", query.escape_ascii());
                }
            }
        }
    }
}
