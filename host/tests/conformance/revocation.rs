//! The farmer changes his mind (RFC 7009), written out: a client gives up a token of its own, and with a refresh token
//! the access tokens that came from the same code.

mod admission;
mod stores;

use poplarchime_host::answers::CheckAnswer;
use poplarchime_host::sample::{self, Slot};

use crate::support::host::{
    bad_request, counting, exchange_body, refresh_body, revocation_body, revoked, Host, BARNAPP, BASIC, BY_BARNAPP,
};

const NOW: u64 = 1000;
/// When the tokens of these tests run out, unless a test says otherwise.
const EXPIRY: u64 = 2000;
/// The code that they came from.
const CODE: [u8; 20] = [7; 20];
/// Where an access token and a refresh token of client 0 lie, unless a test says otherwise.
const ACCESS: usize = 3;
const REFRESH: usize = 5;
const NOTHING: [usize; 0] = [];
/// Client 1 in the body of a revocation.
const AS_BARNAPP: &str = "&client_id=barnapp";

/// A token of client 0 that came from the code; each kind has its handle.
fn token(kind: u8) -> Slot {
    Slot { origin: CODE, ..Slot::of(kind, [kind; 20], EXPIRY) }
}

fn host() -> Host {
    let mut host = Host::visit();
    host.set_slot(ACCESS, token(sample::ACCESS));
    host.set_slot(REFRESH, token(sample::REFRESH));
    host
}

/// The revocation of the token of this kind.
fn body(kind: u8) -> String {
    revocation_body(&[kind; 20])
}

/// The slots that a revocation cleared; all others must be as they were.
#[track_caller]
fn cleared_by(host: &mut Host, header: &str, body: &str, clock: u64) -> Vec<usize> {
    let before = host.clone();
    assert_eq!(host.revoke(header, body, clock), revoked());
    host.cleared_since(&before)
}

/// What client 0 clears by revoking the token of this kind.
#[track_caller]
fn cleared(host: &mut Host, kind: u8) -> Vec<usize> {
    cleared_by(host, BASIC, &body(kind), NOW)
}

#[test]
fn the_farmer_shows_an_app_the_door() {
    let mut host = Host::visit();
    let [access, later] = [0x20, 0x60].map(|first| sample::hex(&counting(first)));
    let refresh = refresh_body(&counting(0x34)) + AS_BARNAPP;
    host.authorize(BARNAPP, 1, 10_000, 0x00);
    assert_eq!(host.token("", exchange_body(&counting(0x00)) + BY_BARNAPP, 10_000, 0x20).status, 200);
    assert_eq!(host.token("", &refresh, 10_010, 0x60).status, 200);
    assert_eq!(host.token(BASIC, "grant_type=client_credentials", 10_010, 0xa0).status, 200);
    assert_eq!((host.check(&access, 10_020).live, host.check(&later, 10_020).live), (1, 1));
    assert_eq!(host.revoke("", revocation_body(&counting(0x34)) + AS_BARNAPP, 10_030), revoked());
    // Now, and in the hour that the clock repeats.
    for clock in [10_030, 6_430, 6_420, 0] {
        assert_eq!(host.check(&access, clock), CheckAnswer::default());
        assert_eq!(host.check(&later, clock), CheckAnswer::default());
        assert_eq!(host.token("", &refresh, clock, 0xc0), bad_request("invalid_grant"));
    }
    assert_eq!(host.check(sample::hex(&counting(0xa0)), 10_030).live, 1, "another app's token");
}

#[test]
fn revoked_access_tokens_can_be_had_anew() {
    let mut host = host();
    assert_eq!(cleared(&mut host, sample::ACCESS), [ACCESS]);
    assert_eq!(host.check(sample::hex(&[sample::ACCESS; 20]), NOW), CheckAnswer::default());
    assert_eq!(host.token(BASIC, refresh_body(&[sample::REFRESH; 20]), NOW, 0x20).status, 200);
    assert_eq!((host.slot(0).handle, host.slot(0).origin), (counting(0x20), CODE));
    assert_eq!(host.check(sample::hex(&counting(0x20)), NOW).live, 1);
    assert_eq!(cleared(&mut host, sample::REFRESH), [0, REFRESH], "with the refresh token it is gone too");
}

#[test]
fn a_token_may_be_revoked_any_number_of_times() {
    let mut host = host();
    assert_eq!(cleared(&mut host, sample::REFRESH), [ACCESS, REFRESH]);
    for kind in sample::TOKENS {
        assert_eq!(cleared(&mut host, kind), NOTHING);
    }
    host.set_slot(9, token(sample::REFRESH));
    assert_eq!(cleared(&mut host, sample::REFRESH), [9]);
}

// ---- the hint

#[test]
fn the_hint_is_not_looked_at() {
    let hints = ["", "access_token", "refresh_token", "code", "nonsense", "+", "%00", "refresh_token+access_token"];
    for hint in hints {
        for (kind, expected) in [(sample::ACCESS, &[ACCESS][..]), (sample::REFRESH, &[ACCESS, REFRESH])] {
            for body in [
                format!("{}&token_type_hint={hint}", body(kind)),
                format!("token_type_hint={hint}&{}", body(kind)),
                format!("{}&token_type_hint={hint}&token_type_hint=", body(kind)),
            ] {
                assert_eq!(cleared_by(&mut host(), BASIC, &body, NOW), expected, "{body}");
            }
        }
    }
    let long = format!("{}&token_type_hint={}", body(sample::ACCESS), "h".repeat(4000));
    assert_eq!(cleared_by(&mut host(), BASIC, &long, NOW), [ACCESS]);
}

#[test]
fn a_repeated_hint_is_refused() {
    for (one, other) in [("access_token", "access_token"), ("access_token", "refresh_token"), ("x", "y")] {
        let mut host = host();
        let body = format!("{}&token_type_hint={one}&token_type_hint={other}", body(sample::ACCESS));
        assert_eq!(host.revoke(BASIC, body, NOW), bad_request("invalid_request"));
        assert_eq!(host.cleared_since(&self::host()), NOTHING);
    }
}

// ---- what else a call meets

#[test]
fn a_revocation_makes_room() {
    let mut host = Host::visit();
    host.set_slots(0..sample::SLOTS, Slot { client: 1, ..token(sample::ACCESS) });
    host.set_slot(REFRESH, token(sample::REFRESH));
    let unavailable = "grant_type=client_credentials";
    assert_eq!(host.token(BASIC, unavailable, NOW, 0x20).status, 503);
    assert_eq!(cleared(&mut host, sample::REFRESH).len(), sample::SLOTS, "it needs no room itself");
    assert_eq!(host.token(BASIC, unavailable, NOW, 0x20).status, 200);
    assert_eq!(host.slot(0).handle, counting(0x20));
}

#[test]
fn random_bytes_of_a_revoked_token_are_in_use_no_more() {
    let mut host = Host::visit();
    host.set_slot(ACCESS, Slot { handle: counting(0x20), ..token(sample::ACCESS) });
    assert_eq!(host.clone().token(BASIC, "grant_type=client_credentials", NOW, 0x20).status, 500);
    assert_eq!(cleared_by(&mut host, BASIC, &revocation_body(&counting(0x20)), NOW), [ACCESS]);
    assert_eq!(host.token(BASIC, "grant_type=client_credentials", NOW, 0x20).status, 200);
}

#[test]
fn a_spent_code_stays_and_withdraws_what_is_left() {
    let mut host = host();
    let spent = Slot::of(sample::SPENT, CODE, EXPIRY);
    host.set_slot(9, spent);
    assert_eq!(cleared(&mut host, sample::ACCESS), [ACCESS]);
    let before = host.clone();
    assert_eq!(host.token(BASIC, exchange_body(&CODE), NOW, 0x20), bad_request("invalid_grant"));
    assert_eq!(host.cleared_since(&before), [REFRESH], "the code is shown a second time");
    assert_eq!(cleared(&mut host, sample::REFRESH), NOTHING, "it was withdrawn");
    assert_eq!(host.slot(9), spent);
}

#[test]
fn a_code_is_exchanged_after_a_try_to_revoke_it() {
    let mut host = Host::visit();
    host.authorize("response_type=code&client_id=s6BhdRkqt3", 1, NOW, 0x00);
    assert_eq!(cleared_by(&mut host, BASIC, &revocation_body(&counting(0x00)), NOW), NOTHING);
    assert_eq!(host.token(BASIC, exchange_body(&counting(0x00)), NOW, 0x20).status, 200);
    assert_eq!(cleared_by(&mut host, BASIC, &revocation_body(&counting(0x00)), NOW), NOTHING, "nor when it is spent");
    assert_eq!(host.check(sample::hex(&counting(0x20)), NOW).live, 1);
}
