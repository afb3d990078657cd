//! redirect_uri is compared with the registered one, by the authorization endpoint and when a bound code is exchanged.

use poplarchime_host::sample::{self, Client, Slot};

use super::{near_misses, plain, ways};
use crate::support::host::{bad_request, counting, exchange_body, redirected, Authorized, Host, BARNAPP};
use crate::support::writing;

const CODE: [u8; 20] = [0xcd; 20];

/// Every length up to 40, and some of those beyond it.
fn lengths() -> impl Iterator<Item = usize> {
    (1..=40).chain([48, 49, 56, 57, 64, 65, 80, 96, 127, 128, 199, 200])
}

/// A host whose only client has this redirect, and a bound code in slot 0.
fn host(redirect: &[u8]) -> Host {
    let mut host = Host::new(&[Client { redirect: redirect.into(), ..Client::public("barnapp", "", 1) }]);
    host.set_slot(0, Slot::of(sample::BOUND_CODE, CODE, 2000));
    host
}

/// With this redirect registered and this redirect_uri given, both endpoints find them equal, or both do not.
#[track_caller]
fn expect(redirect: &[u8], written: &[u8], equal: bool) {
    let mut host = host(redirect);
    let answer = host.authorize([BARNAPP.as_bytes(), b"&redirect_uri=", written].concat(), 1, 1000, 0x00);
    let body = exchange_body(&CODE) + "&client_id=barnapp&redirect_uri=";
    let reply = host.token("", [body.as_bytes(), written].concat(), 1000, 0x20);
    if equal {
        let address = String::from_utf8_lossy(redirect);
        let joint = if address.contains('?') { '&' } else { '?' };
        let location = format!("{address}{joint}code={}", sample::hex(&counting(0)));
        assert_eq!(answer, redirected(&location), "{}", written.escape_ascii());
        assert_eq!(host.slot(1).kind, sample::BOUND_CHALLENGED_CODE, "{}", written.escape_ascii());
        assert_eq!(reply.status, 200, "{}", written.escape_ascii());
    } else {
        assert_eq!(answer, Authorized::Refused(7), "{}", written.escape_ascii());
        assert_eq!(reply, bad_request("invalid_grant"), "{}", written.escape_ascii());
    }
}

#[test]
fn a_redirect_uri_may_be_written_in_any_way() {
    for redirect in lengths().map(plain) {
        for written in ways(&redirect) {
            expect(&redirect, &written, true);
        }
    }
}

#[test]
fn a_redirect_uri_with_one_byte_wrong() {
    for redirect in lengths().map(plain) {
        // An empty value counts as none.
        for written in near_misses(&redirect).iter().filter(|written| !written.is_empty()) {
            expect(&redirect, written, false);
        }
    }
}

#[test]
fn a_redirect_with_a_percent_or_a_plus_in_it() {
    for length in lengths() {
        for at in 0..length {
            for byte in *b"%+" {
                let mut redirect = plain(length);
                redirect[at] = byte;
                expect(&redirect, &writing::sparse(&redirect, writing::IN_VALUE), true);
            }
            // As they stand, a `+` is a space.
            let mut redirect = plain(length);
            redirect[at] = b'+';
            expect(&redirect, &redirect, false);
        }
    }
}
