//! PKCE (RFC 7636, method S256), written out: a phone app has no secret, so it sends the digest of one that it makes up
//! for each visit, and only who knows that one can exchange the code.

mod challenges;
mod stores;
mod verifiers;

use poplarchime_host::answers::CheckAnswer;
use poplarchime_host::sample::{self, Slot};

use crate::support::host::{
    bad_request, counting, exchange_body, granted, redirected, refresh_body, Authorized, Host, Reply, BARNAPP, BASIC,
    BY_BARNAPP,
};
use crate::support::pkce::{appendix_b, challenge_pieces, Pair, CHALLENGE, VERIFIER};

const NOW: u64 = 1000;
/// The handle of a code that lies in the store.
const CODE: [u8; 20] = [7; 20];
/// Where it lies.
const PLACE: usize = 3;

/// A code of client 0.
fn code() -> Slot {
    Slot::of(sample::CODE, CODE, 2000)
}

/// The visit's host with this code.
fn host_with(code: Slot) -> Host {
    let mut host = Host::visit();
    host.set_slot(PLACE, code);
    host
}

/// The answer to client 0, which exchanges the code, bound or not, with this piece behind the rest of the body.
fn exchange(host: &mut Host, piece: &str) -> Reply {
    let redirect = "&redirect_uri=https://client.example.com/cb";
    host.token(BASIC, format!("{}{redirect}{piece}", exchange_body(&CODE)), NOW, 0x20)
}

/// A refused exchange leaves everything but the time as it was.
#[track_caller]
fn spends_nothing(host: &mut Host, piece: &str) {
    let before = host.clone();
    assert_eq!(exchange(host, piece), bad_request("invalid_grant"), "{piece}");
    assert_eq!(host.store[8..], before.store[8..], "{piece}");
}

/// The example of Appendix B, from end to end; its digest is written out there.
#[test]
fn appendix_b_of_rfc_7636() {
    let mut host = Host::visit();
    let location = format!("https://barn.example/r?x=1&code={}", sample::hex(&counting(0)));
    assert_eq!(host.authorize(BARNAPP, 1, 1000, 0x00), redirected(&location));
    let digest = [
        19, 211, 30, 150, 26, 26, 216, 236, 47, 22, 177, 12, 76, 152, 46, 8, 118, 168, 120, 173, 109, 241, 68, 86, 110,
        225, 137, 74, 203, 112, 249, 195,
    ];
    // The time, then the slot: kind 6, the handle, client 1, farm 7, scope `power`, expiry 1600, the challenge.
    let slot = [&[6][..], &counting(0), &[1], &[0, 0, 0, 7], &[1], &[0, 0, 0, 0, 0, 0, 6, 0x40], &digest].concat();
    assert_eq!(host.store[8..8 + 67], slot);
    assert!(host.store[8 + 67..].iter().all(|&byte| byte == 0), "one slot");
    let reply = "{\"access_token\":\"202122232425262728292a2b2c2d2e2f30313233\",\"token_type\":\"Bearer\",\
         \"expires_in\":3600,\"refresh_token\":\"3435363738393a3b3c3d3e3f4041424344454647\",\"scope\":\"power\"}";
    assert_eq!(host.token("", exchange_body(&counting(0)) + BY_BARNAPP, 1599, 0x20), granted(reply));
    let spent = [&[5][..], &slot[1..35], &[0; 32]].concat();
    assert_eq!(host.store[8..8 + 67], spent, "the challenge is gone");
    assert_eq!(host.check(sample::hex(&counting(0x20)), 1599).client, 1);
}

#[test]
fn a_thief_without_the_verifier_gets_nothing_and_spends_nothing() {
    let mut host = Host::visit();
    host.authorize(BARNAPP, 1, 1000, 0x00);
    let stolen = exchange_body(&counting(0)) + "&client_id=barnapp";
    let before = host.store.clone();
    for tried in ["".into(), format!("&code_verifier={CHALLENGE}"), format!("&code_verifier={}", "a".repeat(43))] {
        assert_eq!(host.token("", format!("{stolen}{tried}"), 1000, 0x20), bad_request("invalid_grant"), "{tried}");
        assert_eq!(host.store, before, "{tried}");
    }
    assert_eq!(host.token("", exchange_body(&counting(0)) + BY_BARNAPP, 1000, 0x20).status, 200, "the app itself");
}

#[test]
fn the_kind_tells_redirect_and_challenge() {
    let redirect = "&redirect_uri=https://client.example.com/cb";
    let challenge = challenge_pieces(CHALLENGE);
    for (pieces, kind, held) in [
        (String::new(), 1, [0; 32]),
        (redirect.into(), 2, [0; 32]),
        (challenge.clone(), 6, appendix_b().challenge),
        (format!("{redirect}{challenge}"), 7, appendix_b().challenge),
    ] {
        let mut host = Host::visit();
        // What lay there before has run out.
        host.set_slot(0, Slot { origin: [9; 20], ..Slot::of(sample::REFRESH, [1; 20], NOW) });
        host.authorize(format!("response_type=code&client_id=s6BhdRkqt3{pieces}"), 1, NOW, 0x00);
        assert_eq!((host.slot(0).kind, host.slot(0).challenge()), (kind, held), "{pieces}");
        assert_eq!((host.slot(0).handle, host.slot(0).expiry), (counting(0), NOW + 600));
        host.token(BASIC, format!("{}{redirect}&code_verifier={VERIFIER}", exchange_body(&counting(0))), NOW, 0x20);
        assert_eq!((host.slot(0).kind, host.slot(0).challenge()), (5, [0; 32]), "{pieces}");
        for (number, kind) in [(1, 3), (2, 4)] {
            let token = host.slot(number);
            assert_eq!((token.kind, token.origin, token.behind_origin), (kind, counting(0), [0; 12]), "{pieces}");
        }
    }
}

#[test]
fn a_code_with_a_challenge_lives_600_seconds() {
    for code in [code(), code().bound(true)] {
        let mut host = host_with(code.challenged(appendix_b().challenge));
        let body =
            format!("{}&redirect_uri=https://client.example.com/cb&code_verifier={VERIFIER}", exchange_body(&CODE));
        assert_eq!(host.clone().token(BASIC, &body, 1999, 0x20).status, 200);
        assert_eq!(host.token(BASIC, &body, 2000, 0x20), bad_request("invalid_grant"));
    }
}

#[test]
fn a_bound_code_needs_both() {
    let verifier = format!("&code_verifier={VERIFIER}");
    let redirect = "&redirect_uri=https://client.example.com/cb";
    for bound in [false, true] {
        for (pieces, outcome) in [
            (String::new(), 400),
            (redirect.into(), 400),
            (verifier.clone(), if bound { 400 } else { 200 }),
            (format!("{verifier}&redirect_uri=https://evil.example/"), if bound { 400 } else { 200 }),
            (format!("{redirect}{verifier}"), 200),
        ] {
            let mut host = host_with(code().bound(bound).challenged(appendix_b().challenge));
            let reply = host.token(BASIC, exchange_body(&CODE) + &pieces, NOW, 0x20);
            assert_eq!(reply.status, outcome, "bound {bound}: {pieces}");
            assert_eq!(host.slot(PLACE).kind == sample::SPENT, outcome == 200, "bound {bound}: {pieces}");
        }
    }
}

/// Two visits at once have each their own verifier.
#[test]
fn a_verifier_is_that_of_its_own_code() {
    let pairs = ["a", "b"].map(|letter| Pair::of(letter.repeat(43)));
    let mut host = Host::visit();
    for (number, pair) in pairs.iter().enumerate() {
        host.set_slot(number, Slot { handle: [number as u8; 20], ..code() }.challenged(pair.challenge));
    }
    let body = |number: u8, pair: &Pair| {
        format!("{}&code_verifier={}", exchange_body(&[number; 20]), pair.verifier.escape_ascii())
    };
    assert_eq!(host.token(BASIC, body(0, &pairs[1]), NOW, 0x20), bad_request("invalid_grant"));
    assert_eq!(host.token(BASIC, body(1, &pairs[0]), NOW, 0x20), bad_request("invalid_grant"));
    assert_eq!(host.token(BASIC, body(0, &pairs[0]), NOW, 0x20).status, 200);
    assert_eq!(host.token(BASIC, body(1, &pairs[1]), NOW, 0x60).status, 200);
}

// ---- second showings

#[test]
fn a_second_showing_needs_no_verifier() {
    for verifier in
        ["".into(), "&code_verifier=".into(), "&code_verifier=x".into(), format!("&code_verifier={VERIFIER}")]
    {
        let mut host = Host::visit();
        host.authorize(BARNAPP, 1, 1000, 0x00);
        assert_eq!(host.token("", exchange_body(&counting(0)) + BY_BARNAPP, 1000, 0x20).status, 200);
        let access = sample::hex(&counting(0x20));
        assert_eq!(host.check(&access, 1000).live, 1);
        let again = format!("{}&client_id=barnapp{verifier}", exchange_body(&counting(0)));
        assert_eq!(host.token("", again, 1000, 0x60), bad_request("invalid_grant"), "{verifier}");
        assert_eq!(host.check(&access, 1000), CheckAnswer::default(), "{verifier}");
        assert_eq!((host.slot(1), host.slot(2)), (Slot::default(), Slot::default()), "{verifier}");
    }
}

/// Only tokens have an origin: a challenge that begins with the code's handle is none.
#[test]
fn a_challenge_is_never_taken_for_an_origin() {
    let mut host = host_with(Slot { kind: sample::SPENT, ..code() });
    let token = Slot { origin: CODE, ..Slot::of(sample::ACCESS, [1; 20], 5000) };
    host.set_slot(10, token);
    for (number, rest) in [(11, [0; 12]), (12, [1; 12])] {
        for kind in [sample::CHALLENGED_CODE, sample::BOUND_CHALLENGED_CODE] {
            let code = Slot { kind, handle: [number as u8; 20], behind_origin: rest, ..token };
            host.set_slot(number * usize::from(kind), code);
        }
    }
    let before = host.clone();
    assert_eq!(exchange(&mut host, ""), bad_request("invalid_grant"));
    let changed: Vec<usize> = (0..sample::SLOTS).filter(|&number| host.slot(number) != before.slot(number)).collect();
    assert_eq!(changed, [10]);
    assert_eq!(host.slot(10), Slot::default());
}

// ---- where nothing is verified

#[test]
fn a_verifier_is_ignored_where_there_is_no_challenge() {
    let long = "v".repeat(3000);
    for verifier in ["", VERIFIER, CHALLENGE, "x", "%00", "*+%25", &long] {
        for kind in [sample::CODE, sample::BOUND_CODE] {
            let mut host = host_with(Slot { kind, ..code() });
            assert_eq!(exchange(&mut host, &format!("&code_verifier={verifier}")).status, 200, "{verifier}");
        }
        let mut host = host_with(Slot::of(sample::REFRESH, CODE, 2000));
        let body = format!("{}&code_verifier={verifier}", refresh_body(&CODE));
        assert_eq!(host.token(BASIC, body, NOW, 0x20).status, 200, "{verifier}");
        let body = format!("grant_type=client_credentials&code_verifier={verifier}");
        assert_eq!(host.token(BASIC, body, NOW, 0x60).status, 200, "{verifier}");
    }
}

/// No call leaves such a store, but one from elsewhere may be so.
#[test]
fn a_public_clients_code_without_challenge_is_exchanged_without_verifier() {
    for kind in [sample::CODE, sample::BOUND_CODE] {
        for verifier in ["", "&code_verifier=nonsense"] {
            let mut host = host_with(Slot { kind, client: 1, ..code() });
            let redirect = "&client_id=barnapp&redirect_uri=https://barn.example/r?x=1";
            let body = format!("{}{redirect}{verifier}", exchange_body(&CODE));
            assert_eq!(host.token("", body, NOW, 0x20).status, 200, "kind {kind}{verifier}");
        }
    }
}

#[test]
fn confidential_clients_may_use_it_and_need_not() {
    let mut host = Host::visit();
    let query = "response_type=code&client_id=s6BhdRkqt3";
    let location = |code| redirected(&format!("https://client.example.com/cb?code={}", sample::hex(&counting(code))));
    assert_eq!(host.authorize(query, 1, NOW, 0x00), location(0x00));
    assert_eq!(host.authorize(format!("{query}{}", challenge_pieces(CHALLENGE)), 1, NOW, 0x80), location(0x80));
    // A secret is no verifier.
    let exchange = |code| exchange_body(&counting(code));
    assert_eq!(host.token(BASIC, exchange(0x80), NOW, 0x20), bad_request("invalid_grant"));
    assert_eq!(host.token(BASIC, exchange(0x00), NOW, 0x20).status, 200);
    let body = format!("{}&code_verifier={VERIFIER}", exchange(0x80));
    assert_eq!(host.token(BASIC, body, NOW, 0xa0).status, 200);
}

#[test]
fn a_public_client_sends_a_challenge_or_gets_nothing() {
    let mut host = Host::visit();
    let refused: Authorized = redirected("https://barn.example/r?x=1&error=invalid_request&state=s");
    let query = "response_type=code&client_id=barnapp&state=s";
    for decision in [0, 1] {
        assert_eq!(host.authorize(query, decision, NOW, 0x00), refused);
        assert_eq!(
            host.authorize(format!("{query}&code_challenge=&code_challenge_method="), decision, NOW, 0x00),
            refused
        );
    }
    assert!(host.store[8..].iter().all(|&byte| byte == 0));
    let denied = redirected("https://barn.example/r?x=1&error=access_denied&state=s");
    assert_eq!(host.authorize(format!("{BARNAPP}&state=s"), 0, NOW, 0x00), denied);
}
