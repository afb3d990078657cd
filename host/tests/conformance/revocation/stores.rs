//! What a revocation finds in the store, and what it clears there.

use poplarchime_host::sample::{self, Slot};

use super::{body, cleared, cleared_by, host, token, ACCESS, AS_BARNAPP, CODE, EXPIRY, NOTHING, NOW, REFRESH};
use crate::support::host::{around_expiry, bad_request, counting, revocation_body, Host, BASIC};

// ---- what goes

#[test]
fn an_access_token_goes_alone() {
    let mut host = host();
    for (number, kind) in [(0, sample::ACCESS), (7, sample::ACCESS), (8, sample::REFRESH), (9, sample::REFRESH)] {
        host.set_slot(number, Slot { handle: [number as u8; 20], ..token(kind) });
    }
    assert_eq!(cleared(&mut host, sample::ACCESS), [ACCESS]);
}

#[test]
fn access_tokens_of_the_origin_go_with_a_refresh_token_whoevers_and_run_out_or_not() {
    let mut host = host();
    let mut expected = vec![ACCESS, REFRESH];
    for client in [0, 1] {
        for expiry in [0, NOW, NOW + 1, u64::MAX] {
            let number = 10 + 50 * expected.len();
            let handle = [number as u8; 20];
            host.set_slot(number, Slot { client, expiry, handle, farm: 9, scope: 255, ..token(sample::ACCESS) });
            expected.push(number);
        }
    }
    for number in [0, sample::SLOTS - 1] {
        host.set_slot(number, Slot { handle: [1; 20], ..token(sample::ACCESS) });
    }
    assert_eq!(cleared(&mut host, sample::REFRESH), [&[0], &expected[..], &[sample::SLOTS - 1]].concat());
}

#[test]
fn another_refresh_token_of_the_origin_stays() {
    for (number, client, expiry) in [(0, 0, EXPIRY), (9, 0, EXPIRY), (9, 1, EXPIRY), (9, 0, NOW), (9, 0, u64::MAX)] {
        let mut host = host();
        host.set_slot(number, Slot { handle: [9; 20], client, expiry, ..token(sample::REFRESH) });
        assert_eq!(cleared(&mut host, sample::REFRESH), [ACCESS, REFRESH]);
    }
}

#[test]
fn tokens_of_other_origins_stay() {
    let mut host = host();
    for at in 0..20 {
        let mut origin = CODE;
        origin[at] ^= if at % 2 == 0 { 1 } else { 0x80 };
        host.set_slot(100 + at, Slot { handle: [1; 20], origin, ..token(sample::ACCESS) });
    }
    for (number, origin) in [(0, [0; 20]), (1, [sample::REFRESH; 20]), (2, [sample::ACCESS; 20])] {
        host.set_slot(number, Slot { handle: [1; 20], origin, ..token(sample::ACCESS) });
    }
    // The code's own handle, another origin.
    host.set_slot(8, Slot { handle: CODE, origin: [8; 20], ..token(sample::ACCESS) });
    assert_eq!(cleared(&mut host, sample::REFRESH), [ACCESS, REFRESH]);
}

#[test]
fn codes_stay_though_their_challenge_begins_as_the_origin() {
    for origin in [CODE, [0; 20]] {
        let mut host = Host::visit();
        host.set_slot(ACCESS, Slot { origin, ..token(sample::ACCESS) });
        host.set_slot(REFRESH, Slot { origin, ..token(sample::REFRESH) });
        for (place, kind) in (10..).zip(sample::CODES) {
            // The code that the tokens came from, and others.
            host.set_slot(place, Slot::of(kind, origin, EXPIRY));
            host.set_slot(place + 10, Slot { origin, ..Slot::of(kind, [9; 20], EXPIRY) }.turned(kind));
        }
        assert_eq!(cleared(&mut host, sample::REFRESH), [ACCESS, REFRESH]);
    }
}

#[test]
fn a_clients_token_for_itself_goes_alone() {
    let mut host = host();
    for random in [0x20, 0x60] {
        assert_eq!(host.token(BASIC, "grant_type=client_credentials", NOW, random).status, 200);
    }
    assert_eq!(cleared_by(&mut host, BASIC, &revocation_body(&counting(0x20)), NOW), [0]);
    // Only a store that no calls could leave has a refresh token with its handle as origin.
    host.set_slot(9, Slot { handle: [9; 20], origin: counting(0x60), ..token(sample::REFRESH) });
    assert_eq!(cleared_by(&mut host, BASIC, &revocation_body(&[9; 20]), NOW), [1, 9]);
}

#[test]
fn a_refresh_token_may_be_its_own_origin() {
    let mut host = Host::visit();
    let own = Slot { origin: [sample::REFRESH; 20], ..token(sample::REFRESH) };
    host.set_slot(REFRESH, own);
    host.set_slot(ACCESS, Slot { kind: sample::ACCESS, handle: [9; 20], ..own });
    assert_eq!(cleared(&mut host, sample::REFRESH), [ACCESS, REFRESH]);
}

// ---- what is found

#[test]
fn from_its_expiry_on_there_is_nothing_to_revoke() {
    for (expiry, latest, clock, clears) in around_expiry(EXPIRY) {
        for (kind, place) in [(sample::ACCESS, ACCESS), (sample::REFRESH, REFRESH)] {
            let mut host = Host::visit();
            host.set_slot(place, Slot { expiry, ..token(kind) });
            sample::set_latest(&mut host.store, latest);
            // A stranger is refused exactly as long as there is something to revoke.
            let by_stranger = host.clone().revoke("", body(kind) + AS_BARNAPP, clock);
            assert_eq!(by_stranger.status, if clears { 400 } else { 200 }, "expiry {expiry}, latest {latest}, {clock}");
            let cleared = cleared_by(&mut host, BASIC, &body(kind), clock);
            assert_eq!(cleared == [place], clears, "expiry {expiry}, latest {latest}, clock {clock}");
        }
    }
}

#[test]
fn a_refresh_token_that_has_run_out_takes_nothing_along() {
    let mut host = host();
    host.set_slot(REFRESH, Slot { expiry: NOW, ..token(sample::REFRESH) });
    assert_eq!(cleared(&mut host, sample::REFRESH), NOTHING);
}

#[test]
fn access_and_refresh_tokens_are_looked_up_together() {
    let handle = [9; 20];
    let access = Slot { handle, ..token(sample::ACCESS) };
    let refresh = Slot { handle, ..token(sample::REFRESH) };
    for (lower, higher) in [(access, refresh), (refresh, access), (access, access), (refresh, refresh)] {
        let mut host = host();
        host.set_slot(10, lower);
        host.set_slot(20, Slot { origin: [8; 20], ..higher });
        let expected = if lower.kind == sample::ACCESS { vec![10] } else { vec![ACCESS, 10] };
        assert_eq!(cleared_by(&mut host, BASIC, &revocation_body(&handle), NOW), expected, "{lower:?}");
        // Once more, and it is the higher one's turn.
        assert_eq!(cleared_by(&mut host, BASIC, &revocation_body(&handle), NOW), [20], "{higher:?}");
    }
}

#[test]
fn the_lowest_token_of_the_handle_alone_counts() {
    for lower_kind in sample::TOKENS {
        for higher_kind in sample::TOKENS {
            let handle = [9; 20];
            let [lower, higher] = [lower_kind, higher_kind].map(|kind| Slot { handle, ..token(kind) });
            let mut host = Host::visit();
            host.set_slot(20, higher);
            host.set_slot(10, Slot { expiry: NOW, ..lower });
            assert_eq!(cleared_by(&mut host, BASIC, &revocation_body(&handle), NOW), NOTHING, "it has run out");
            host.set_slot(10, Slot { client: 1, expiry: NOW, ..lower });
            assert_eq!(cleared_by(&mut host, BASIC, &revocation_body(&handle), NOW), NOTHING, "it has run out");
            host.set_slot(10, Slot { client: 1, ..lower });
            assert_eq!(host.revoke(BASIC, revocation_body(&handle), NOW), bad_request("invalid_grant"));
            // The other way round, the higher one does not matter.
            for higher in [Slot { expiry: NOW, ..higher }, Slot { client: 1, ..higher }] {
                let mut host = Host::visit();
                host.set_slot(20, Slot { origin: [8; 20], ..higher });
                host.set_slot(10, lower);
                assert_eq!(cleared_by(&mut host, BASIC, &revocation_body(&handle), NOW), [10], "{higher:?}");
            }
        }
    }
}

#[test]
fn codes_are_not_found() {
    for kind in sample::CODES {
        for client in [0, 1] {
            let code = Slot { client, ..Slot::of(kind, [9; 20], EXPIRY) };
            let mut host = host();
            host.set_slot(0, code);
            assert_eq!(cleared_by(&mut host, BASIC, &revocation_body(&[9; 20]), NOW), NOTHING, "kind {kind}");
            host.set_slot(7, Slot { handle: [9; 20], ..token(sample::ACCESS) });
            assert_eq!(cleared_by(&mut host, BASIC, &revocation_body(&[9; 20]), NOW), [7], "behind kind {kind}");
            assert_eq!(host.slot(0), code);
        }
    }
}

#[test]
fn only_its_forty_digits_show_a_token() {
    let handle = [0xab; 20];
    let text = sample::hex(&handle);
    let mut host = Host::visit();
    host.set_slot(ACCESS, Slot { handle, ..token(sample::ACCESS) });
    host.set_slot(REFRESH, Slot { handle: [0; 20], ..token(sample::REFRESH) });
    let wrong = [text.to_uppercase(), text[..38].into(), text[1..].into(), format!("{text}0"), format!("{text}+")];
    for wrong in wrong.into_iter().chain(["0".into(), format!("Bearer+{text}"), "%ab".repeat(20), "%00".repeat(20)]) {
        assert_eq!(cleared_by(&mut host, BASIC, &format!("token={wrong}"), NOW), NOTHING, "{wrong}");
        // Nobody's, so that a stranger learns nothing.
        assert_eq!(cleared_by(&mut host, "", &format!("token={wrong}{AS_BARNAPP}"), NOW), NOTHING, "{wrong}");
    }
    let escaped = text.replace('a', "%61");
    assert_eq!(cleared_by(&mut host, BASIC, &format!("token={escaped}"), NOW), [ACCESS]);
}

// ---- whose it is

#[test]
fn another_clients_token_is_refused_and_stays() {
    for kind in sample::TOKENS {
        let mut host = host();
        let before = host.clone();
        assert_eq!(host.revoke("", body(kind) + AS_BARNAPP, NOW), bad_request("invalid_grant"));
        assert_eq!(host.cleared_since(&before), NOTHING);
        assert_eq!(sample::latest(&host.store), NOW);
        assert!(cleared(&mut host, kind).contains(&if kind == sample::ACCESS { ACCESS } else { REFRESH }), "its own");
        // The other way round: a confidential client cannot revoke what is a public one's.
        let mut host = self::host();
        host.set_slot(ACCESS, Slot { client: 1, ..token(sample::ACCESS) });
        host.set_slot(REFRESH, Slot { client: 1, ..token(sample::REFRESH) });
        assert_eq!(host.revoke(BASIC, body(kind), NOW), bad_request("invalid_grant"));
        let expected: &[usize] = if kind == sample::ACCESS { &[ACCESS] } else { &[ACCESS, REFRESH] };
        assert_eq!(cleared_by(&mut host, "", &(body(kind) + AS_BARNAPP), NOW), expected);
    }
}

#[test]
fn the_client_of_what_goes_along_is_not_asked() {
    let mut host = host();
    host.set_slot(ACCESS, Slot { client: 1, ..token(sample::ACCESS) });
    assert_eq!(host.revoke(BASIC, body(sample::ACCESS), NOW), bad_request("invalid_grant"));
    assert_eq!(cleared(&mut host, sample::REFRESH), [ACCESS, REFRESH]);
}
