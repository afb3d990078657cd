//! A code that is shown twice has leaked (RFC 6749 section 4.1.2), written out: an exchanged code is kept as spent until
//! its old expiry, and when its client shows it again, every token that came from it is cleared.

use poplarchime_host::answers::CheckAnswer;
use poplarchime_host::sample::{self, Slot};

use crate::support::host::{
    around_expiry, bad_request, counting, exchange_body, redirected, refresh_body, unauthorized, Authorized, Host,
    BARNAPP, BASIC, BY_BARNAPP,
};
use crate::support::pkce;

/// The handle of the code that is shown again.
const CODE: [u8; 20] = [7; 20];
/// When it would have run out.
const EXPIRY: u64 = 2000;
const NOW: u64 = 1000;
/// Where the spent code and a token that came from it lie, unless a test says otherwise.
const SPENT: usize = 3;
const TOKEN: usize = 5;
const NOTHING: [usize; 0] = [];

/// Client 0 has exchanged the code.
fn spent() -> Slot {
    Slot::of(sample::SPENT, CODE, EXPIRY)
}

/// A token of client 0 that came from the code.
fn token(kind: u8) -> Slot {
    Slot { origin: CODE, ..Slot::of(kind, [kind; 20], 5000) }
}

fn host() -> Host {
    let mut host = Host::visit();
    host.set_slot(SPENT, spent());
    host.set_slot(TOKEN, token(sample::ACCESS));
    host
}

/// The slots that a refused exchange cleared; all others must be as they were.
#[track_caller]
fn cleared_by(host: &mut Host, header: &str, body: &str, clock: u64) -> Vec<usize> {
    let before = host.clone();
    assert_eq!(host.token(header, body, clock, 0x20), bad_request("invalid_grant"));
    host.cleared_since(&before)
}

/// What client 0 clears by showing the code.
#[track_caller]
fn cleared(host: &mut Host) -> Vec<usize> {
    cleared_by(host, BASIC, &exchange_body(&CODE), NOW)
}

#[test]
fn a_thief_and_the_owners_app_show_the_same_code() {
    let mut host = Host::visit();
    let visit = exchange_body(&counting(0x00)) + BY_BARNAPP;
    let refresh = refresh_body(&counting(0x34)) + BY_BARNAPP;
    let [access, later] = [0x20, 0x60].map(|first| sample::hex(&counting(first)));
    host.authorize(BARNAPP, 1, 1000, 0x00);
    assert_eq!(host.token("", &visit, 1010, 0x20).status, 200, "the thief is first");
    assert_eq!(host.token("", &refresh, 1020, 0x60).status, 200, "and gets more");
    assert_eq!((host.check(&access, 1030).live, host.check(&later, 1030).live), (1, 1));
    assert_eq!(host.token("", &visit, 1040, 0xa0), bad_request("invalid_grant"), "then comes the owner's app");
    assert_eq!(host.check(&access, 1040), CheckAnswer::default());
    assert_eq!(host.check(&later, 1040), CheckAnswer::default());
    assert_eq!(host.token("", &refresh, 1040, 0xa0), bad_request("invalid_grant"));
    host.authorize(BARNAPP, 1, 1050, 0x80);
    assert_eq!(host.token("", exchange_body(&counting(0x80)) + BY_BARNAPP, 1050, 0xa0).status, 200, "a new visit");
    assert_eq!(host.check(sample::hex(&counting(0xa0)), 1050).live, 1);
}

// ---- what calls leave in the store

#[test]
fn an_exchange_changes_only_the_kind_of_its_code() {
    for kind in [sample::CODE, sample::BOUND_CODE] {
        let mut host = Host::visit();
        host.set_slot(SPENT, Slot { farm: 0x0102_0304, scope: 9, ..Slot::of(kind, CODE, EXPIRY) });
        let before = host.clone();
        let body = exchange_body(&CODE) + "&redirect_uri=https://client.example.com/cb";
        assert_eq!(host.token(BASIC, body, 1999, 0x20).status, 200);
        let code = sample::slot_range(SPENT);
        assert_eq!(host.store[code.start], sample::SPENT);
        assert_eq!(host.store[code.start + 1..code.end], before.store[code.start + 1..code.end]);
        assert_eq!([0, 1].map(|number| (host.slot(number).kind, host.slot(number).origin)), [(3, CODE), (4, CODE)]);
        assert!((2..sample::SLOTS).all(|number| number == SPENT || host.slot(number) == Slot::default()));
    }
}

#[test]
fn a_refresh_hands_on_the_origin_of_its_refresh_token() {
    let mut host = Host::visit();
    host.set_slot(9, Slot { origin: [8; 20], ..token(sample::REFRESH) });
    for (number, random) in [(0, 0x20), (1, 0x60)] {
        assert_eq!(host.token(BASIC, refresh_body(&[sample::REFRESH; 20]), NOW, random).status, 200);
        assert_eq!((host.slot(number).handle, host.slot(number).origin), (counting(random), [8; 20]));
    }
}

#[test]
fn a_clients_token_for_itself_is_its_own_origin() {
    let mut host = Host::visit();
    assert_eq!(host.token(BASIC, "grant_type=client_credentials", NOW, 0x20).status, 200);
    assert_eq!((host.slot(0).handle, host.slot(0).origin), (counting(0x20), counting(0x20)));
    // Only a store that no calls could leave has a code of its handle, too.
    host.set_slot(9, Slot { handle: counting(0x20), ..spent() });
    assert_eq!(cleared_by(&mut host, BASIC, &exchange_body(&counting(0x20)), NOW), [0]);
}

#[test]
fn a_code_has_no_origin_in_a_slot_where_a_token_lay() {
    let mut host = Host::visit();
    host.set_slot(0, Slot { expiry: NOW, ..token(sample::REFRESH) });
    host.authorize("response_type=code&client_id=s6BhdRkqt3&scope=power", 1, NOW, 0x00);
    assert_eq!(host.slot(0), Slot { farm: 7, ..Slot::of(sample::CODE, counting(0), NOW + 600) });
}

// ---- what a second showing clears

#[test]
fn tokens_of_the_origin_are_cleared_whoevers_and_run_out_or_not() {
    let mut host = host();
    let mut expected = vec![TOKEN];
    for kind in [sample::ACCESS, sample::REFRESH] {
        for client in [0, 1] {
            for expiry in [0, NOW, NOW + 1, u64::MAX] {
                let number = 10 + 30 * expected.len();
                host.set_slot(number, Slot { client, expiry, farm: 9, scope: 255, ..token(kind) });
                expected.push(number);
            }
        }
    }
    for number in [0, sample::SLOTS - 1] {
        host.set_slot(number, token(sample::REFRESH));
    }
    assert_eq!(cleared(&mut host), [&[0], &expected[..], &[sample::SLOTS - 1]].concat());
}

#[test]
fn tokens_of_other_origins_stay() {
    let mut host = host();
    for at in 0..20 {
        let mut origin = CODE;
        origin[at] ^= if at % 2 == 0 { 1 } else { 0x80 };
        host.set_slot(100 + at, Slot { origin, ..token(sample::ACCESS) });
        host.set_slot(200 + at, Slot { origin, ..token(sample::REFRESH) });
    }
    for (number, kind) in [(0, sample::ACCESS), (400, sample::REFRESH)] {
        // The code's own handle, another origin.
        host.set_slot(number, Slot { handle: CODE, origin: [8; 20], ..token(kind) });
        host.set_slot(number + 1, Slot { origin: [0; 20], ..token(kind) });
    }
    assert_eq!(cleared(&mut host), [TOKEN]);
}

#[test]
fn a_refresh_token_that_was_the_codes_is_no_origin() {
    let mut host = host();
    let refresh = token(sample::REFRESH);
    host.set_slot(7, refresh);
    host.set_slot(8, Slot { origin: refresh.handle, ..token(sample::ACCESS) });
    assert_eq!(cleared(&mut host), [TOKEN, 7]);
}

#[test]
fn codes_come_from_no_code_though_their_origin_is_zero() {
    let mut host = Host::visit();
    for kind in sample::KINDS {
        host.set_slot(kind.into(), Slot::of(kind, [9; 20], 5000));
    }
    host.set_slot(SPENT + 10, Slot { handle: [0; 20], ..spent() });
    let tokens = [sample::ACCESS, sample::REFRESH].map(usize::from);
    assert_eq!(cleared_by(&mut host, BASIC, &exchange_body(&[0; 20]), NOW), tokens);
}

#[test]
fn a_code_may_be_shown_any_number_of_times() {
    let mut host = host();
    assert_eq!(cleared(&mut host), [TOKEN]);
    assert_eq!(cleared(&mut host), NOTHING);
    host.set_slot(TOKEN, token(sample::REFRESH));
    assert_eq!(cleared(&mut host), [TOKEN]);
    assert_eq!(host.slot(SPENT), spent());
}

#[test]
fn a_handle_that_is_issued_again_has_the_older_tokens_too() {
    let mut host = Host::visit();
    // What is left of an earlier visit, whose code is gone.
    host.set_slot(9, Slot { client: 1, origin: counting(0), ..token(sample::REFRESH) });
    host.authorize(BARNAPP, 1, NOW, 0x00);
    let body = exchange_body(&counting(0)) + BY_BARNAPP;
    assert_eq!(host.token("", &body, NOW, 0x20).status, 200);
    assert_eq!(cleared_by(&mut host, "", &body, NOW), [1, 2, 9]);
}

// ---- who shows it, and when

#[test]
fn another_clients_showing_clears_nothing() {
    let mut host = host();
    assert_eq!(cleared_by(&mut host, "", &(exchange_body(&CODE) + BY_BARNAPP), NOW), NOTHING);
    assert_eq!(cleared(&mut host), [TOKEN], "its own client's does");
    // The token's client is not asked.
    let mut host = self::host();
    host.set_slot(SPENT, Slot { client: 1, ..spent() });
    assert_eq!(cleared(&mut host), NOTHING);
    assert_eq!(cleared_by(&mut host, "", &(exchange_body(&CODE) + BY_BARNAPP), NOW), [TOKEN]);
}

#[test]
fn from_its_old_expiry_on_nothing_is_cleared() {
    for (expiry, latest, clock, clears) in around_expiry(EXPIRY) {
        let mut host = host();
        host.set_slot(SPENT, Slot { expiry, ..spent() });
        sample::set_latest(&mut host.store, latest);
        let cleared = cleared_by(&mut host, BASIC, &exchange_body(&CODE), clock);
        assert_eq!(cleared == [TOKEN], clears, "expiry {expiry}, latest {latest}, clock {clock}");
    }
}

#[test]
fn an_unspent_code_of_the_handle_stops_the_search() {
    let code = Slot { kind: sample::CODE, ..spent() };
    for unspent in [
        Slot { expiry: NOW, ..code },
        Slot { client: 1, ..code },
        Slot { client: 1, expiry: 0, ..code },
        Slot { kind: sample::BOUND_CODE, ..code },
        Slot { kind: sample::BOUND_CODE, expiry: NOW, ..code },
        code.challenged([1; 32]),
        Slot { expiry: NOW, ..code.bound(true).challenged([1; 32]) },
    ] {
        for number in [SPENT - 1, SPENT + 1, TOKEN + 1] {
            let mut host = host();
            host.set_slot(number, unspent);
            assert_eq!(cleared(&mut host), NOTHING, "{unspent:?} in slot {number}");
        }
    }
}

#[test]
fn an_unspent_code_of_the_handle_is_exchanged() {
    for number in [0, SPENT + 1] {
        let mut host = host();
        host.set_slot(number, Slot { kind: sample::CODE, ..spent() });
        assert_eq!(host.token(BASIC, exchange_body(&CODE), NOW, 0x20).status, 200);
        assert_eq!((host.slot(number), host.slot(TOKEN)), (spent(), token(sample::ACCESS)));
        // Both are spent now, and their tokens cannot be told apart.
        assert_eq!(cleared(&mut host), if number == 0 { [1, 2, TOKEN] } else { [0, 1, TOKEN] });
    }
}

#[test]
fn the_lowest_spent_code_of_the_handle_alone_counts() {
    let (own, run_out, strangers) = (spent(), Slot { expiry: NOW, ..spent() }, Slot { client: 1, ..spent() });
    for (lower, higher, clears) in [
        (run_out, own, false),
        (strangers, own, false),
        (own, run_out, true),
        (own, strangers, true),
        (Slot { handle: [8; 20], ..run_out }, own, true),
    ] {
        let mut host = host();
        host.set_slot(SPENT, lower);
        host.set_slot(SPENT + 1, higher);
        assert_eq!(cleared(&mut host) == [TOKEN], clears, "{lower:?} before {higher:?}");
    }
}

// ---- its place among the refusals

#[test]
fn earlier_refusals_clear_nothing() {
    let body = exchange_body(&CODE);
    let by_secret = |secret: &str| format!("{body}&client_id=s6BhdRkqt3&client_secret={secret}");
    for (header, body, reply) in [
        (BASIC, format!("{body}&a=%4"), bad_request("invalid_request")),
        (BASIC, format!("{body}&scope=power&scope=power"), bad_request("invalid_request")),
        (BASIC, format!("{body}&code={}", sample::hex(&CODE)), bad_request("invalid_request")),
        (BASIC, body.replace("grant_type=authorization_code", ""), bad_request("invalid_request")),
        (BASIC, by_secret("gX1fBat3bV"), bad_request("invalid_request")),
        (BASIC, format!("{body}&x={}", "p".repeat(4096)), bad_request("invalid_request")),
        ("", by_secret("wrong"), unauthorized(false)),
        ("", body.clone(), unauthorized(false)),
        ("Basic nonsense", body.clone(), unauthorized(true)),
        (BASIC, format!("{body}{BY_BARNAPP}"), unauthorized(true)),
        (BASIC, body.replace("_code", ""), bad_request("unsupported_grant_type")),
        (BASIC, body.replace("&code", "&Code"), bad_request("invalid_request")),
    ] {
        let mut host = host();
        assert_eq!(host.token(header, &body, NOW, 0x20), reply, "{header} {body}");
        assert_eq!((host.slot(SPENT), host.slot(TOKEN)), (spent(), token(sample::ACCESS)));
    }
    assert_eq!(cleared_by(&mut host(), "", &by_secret("gX1fBat3bV"), NOW), [TOKEN]);
}

#[test]
fn redirect_room_and_clashes_are_not_looked_at() {
    let mut full = filled_from(0, Slot::of(sample::REFRESH, [1; 20], 5000));
    full.set_slot(SPENT, spent());
    full.set_slot(TOKEN, token(sample::ACCESS));
    for host in [host(), full] {
        for redirect in ["", "&redirect_uri=https://client.example.com/cb", "&redirect_uri=https://evil.example/"] {
            let body = exchange_body(&CODE) + redirect;
            assert_eq!(cleared_by(&mut host.clone(), BASIC, &body, NOW), [TOKEN], "{redirect}");
        }
        for random in [[CODE, [2; 20]], [[2; 20], CODE], [[2; 20], [2; 20]], [token(sample::ACCESS).handle, [2; 20]]] {
            let mut host = host.clone();
            assert_eq!(host.token_with(BASIC, exchange_body(&CODE), NOW, random), bad_request("invalid_grant"));
            assert_eq!(host.slot(TOKEN), Slot::default());
        }
    }
}

#[test]
fn only_an_exchange_shows_a_code() {
    let mut host = host();
    let text = sample::hex(&CODE);
    assert_eq!(cleared_by(&mut host, BASIC, &refresh_body(&CODE), NOW), NOTHING);
    assert_eq!(cleared_by(&mut host, BASIC, &(refresh_body(&[1; 20]) + "&code=" + &text), NOW), NOTHING);
    assert_eq!(host.check(&text, NOW), CheckAnswer::default());
    assert_eq!(host.token(BASIC, format!("grant_type=client_credentials&code={text}"), NOW, 0x20).status, 200);
    assert_eq!((host.slot(SPENT), host.slot(TOKEN)), (spent(), token(sample::ACCESS)));
}

#[test]
fn only_its_forty_digits_show_a_code() {
    let code = [0xab; 20];
    let text = sample::hex(&code);
    let mut host = Host::visit();
    host.set_slot(SPENT, Slot { handle: code, ..spent() });
    host.set_slot(TOKEN, Slot { origin: code, ..token(sample::ACCESS) });
    for wrong in [text.to_uppercase(), text[..38].into(), text[1..].into(), format!("{text}0"), format!("{text}+")] {
        assert_eq!(cleared_by(&mut host, BASIC, &exchange_body(&code).replace(&text, &wrong), NOW), NOTHING, "{wrong}");
    }
    assert_eq!(cleared_by(&mut host, BASIC, &exchange_body(&code), NOW), [TOKEN]);
}

// ---- room and clashes

/// A store with live slots in all places from `first` on.
fn filled_from(first: usize, slot: Slot) -> Host {
    let mut host = Host::visit();
    host.set_slots(first..sample::SLOTS, slot);
    host
}

fn sent_back(word: &str) -> Authorized {
    redirected(&format!("https://barn.example/r?x=1&error={word}"))
}

#[test]
fn spent_codes_take_room_until_they_run_out() {
    let host = filled_from(0, spent());
    for (clock, status) in [(EXPIRY - 1, 503), (EXPIRY, 200)] {
        assert_eq!(host.clone().token(BASIC, "grant_type=client_credentials", clock, 0x20).status, status);
        let mut refreshing = host.clone();
        refreshing.set_slot(9, token(sample::REFRESH));
        assert_eq!(refreshing.token(BASIC, refresh_body(&[sample::REFRESH; 20]), clock, 0x20).status, status);
        let mut exchanging = host.clone();
        exchanging.set_slot(9, Slot::of(sample::CODE, [9; 20], 5000));
        assert_eq!(exchanging.token(BASIC, exchange_body(&[9; 20]), clock, 0x20).status, status);
        let mut authorizing = host.clone();
        let full = authorizing.authorize(BARNAPP, 1, clock, 0x20) == sent_back("temporarily_unavailable");
        assert_eq!(full, status == 503);
    }
}

#[test]
fn a_spent_codes_slot_is_taken_again_once_it_has_run_out() {
    let mut host = filled_from(0, Slot::of(sample::REFRESH, [1; 20], 5000));
    host.set_slot(sample::SLOTS - 1, spent());
    assert_eq!(host.authorize(BARNAPP, 1, EXPIRY - 1, 0x00), sent_back("temporarily_unavailable"));
    host.authorize(BARNAPP, 1, EXPIRY, 0x00);
    let code = Slot { client: 1, farm: 7, ..Slot::of(sample::CODE, counting(0), EXPIRY + 600) };
    assert_eq!(host.slot(sample::SLOTS - 1), code.challenged(pkce::appendix_b().challenge));
    assert_eq!(host.authorize(BARNAPP, 1, EXPIRY, 0x20), sent_back("temporarily_unavailable"), "full again");
}

#[test]
fn a_second_showing_makes_room() {
    let mut host = filled_from(0, token(sample::REFRESH));
    host.set_slot(SPENT, spent());
    host.set_slot(9, Slot { origin: [8; 20], ..token(sample::REFRESH) });
    assert_eq!(host.authorize(BARNAPP, 1, NOW, 0x00), sent_back("temporarily_unavailable"));
    assert_eq!(cleared(&mut host).len(), sample::SLOTS - 2);
    host.authorize(BARNAPP, 1, NOW, 0x00);
    assert_eq!(host.slot(0).handle, counting(0));
}

/// Whether the random bytes from 20 on clash with a slot, at every call that issues something.
#[track_caller]
fn expect_clash(slot: Slot, clash: bool) {
    let mut host = Host::visit();
    host.set_slot(0, slot);
    host.set_slot(1, Slot::of(sample::CODE, [9; 20], 5000));
    host.set_slot(2, Slot::of(sample::REFRESH, [8; 20], 5000));
    let status = if clash { 500 } else { 200 };
    for random in [[counting(0x20), [1; 20]], [[1; 20], counting(0x20)]] {
        assert_eq!(host.clone().token_with(BASIC, exchange_body(&[9; 20]), NOW, random).status, status);
    }
    for body in [refresh_body(&[8; 20]), "grant_type=client_credentials".into()] {
        assert_eq!(host.clone().token(BASIC, body, NOW, 0x20).status, status);
    }
    assert_eq!(host.authorize(BARNAPP, 1, NOW, 0x20) == sent_back("server_error"), clash);
}

#[test]
fn random_bytes_of_a_spent_code_are_in_use() {
    for expiry in [EXPIRY, NOW, 0] {
        expect_clash(Slot { expiry, handle: counting(0x20), ..spent() }, true);
    }
}

#[test]
fn random_bytes_of_an_origin_are_not_in_use() {
    for kind in [sample::ACCESS, sample::REFRESH] {
        expect_clash(Slot { origin: counting(0x20), ..token(kind) }, false);
    }
}
