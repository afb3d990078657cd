//! What stands in memory behind a query or body plays no part.

use poplarchime_host::program::EXPORTS;
use poplarchime_host::sample::{self, Slot};

use super::plain;
use crate::support::host::BARNAPP;

const TOKEN: [u8; 20] = [0xef; 20];
/// What may stand behind: marks, digits that a cut escape would take, plain bytes.
const BEHIND: [&str; 6] = ["%", "+", "41", "&", "x", "%41+"];

/// The ends of a value: nothing more, and escapes whole and cut short.
const ENDS: [&str; 6] = ["", "%41", "+", "%", "%4", "%zz"];

/// What an endpoint answered, wrote and left.
type After = (String, Vec<u8>, Vec<u8>);

fn authorize(query: &[u8]) -> After {
    let registry = sample::registry(&sample::visit_clients());
    let (mut store, mut output) = (sample::empty_store(), vec![0; 1024]);
    let answer = (EXPORTS.authorize)(query, 1, 7, &registry, &mut store, 1000, &[0x5a; 20], &mut output);
    (format!("{answer:?}"), output, store)
}

fn refresh(body: &[u8]) -> After {
    let registry = sample::registry(&sample::visit_clients());
    let (mut store, mut output) = (sample::empty_store(), vec![0; 1024]);
    sample::set_slot(&mut store, 0, Slot { client: 1, ..Slot::of(sample::REFRESH, TOKEN, 2000) });
    let answer = (EXPORTS.token)(b"", body, &registry, &mut store, 1000, &[0x5a; 40], &mut output);
    (format!("{answer:?}"), output, store)
}

/// The call comes out the same whatever stands behind these bytes.
#[track_caller]
fn stands_alone(bytes: &[u8], call: impl Fn(&[u8]) -> After) {
    let alone = call(bytes);
    for behind in BEHIND {
        let buffer: Vec<u8> = bytes.iter().copied().chain(behind.bytes().cycle().take(80)).collect();
        assert!(call(&buffer[..bytes.len()]) == alone, "{} before {behind}", bytes.escape_ascii());
    }
}

#[test]
fn behind_a_query() {
    for length in 0..=80 {
        for end in ENDS {
            let value = [&plain(length), end.as_bytes()].concat();
            for name in ["state", "redirect_uri", "nonce", "code_challenge"] {
                let front = format!("{BARNAPP}&{name}=");
                stands_alone(&[front.as_bytes(), &value].concat(), authorize);
            }
        }
    }
    let redirect = "response_type=code&client_id=barnapp&redirect_uri=https://barn.example/r?x=1";
    (50..=redirect.len()).for_each(|length| stands_alone(&redirect.as_bytes()[..length], authorize));
    (50..=BARNAPP.len()).for_each(|length| stands_alone(&BARNAPP.as_bytes()[..length], authorize));
}

#[test]
fn behind_a_body() {
    let token = sample::hex(&TOKEN);
    for length in 0..=80 {
        for end in ENDS {
            let front = format!("grant_type=refresh_token&client_id=barnapp&refresh_token={token}&nonce=");
            let body = [front.as_bytes(), &plain(length), end.as_bytes()].concat();
            stands_alone(&body, refresh);
        }
    }
    let body = format!("grant_type=refresh_token&client_id=barnapp&refresh_token={token}");
    (56..=body.len()).for_each(|length| stands_alone(&body.as_bytes()[..length], refresh));
}
