//! The smallest and the largest registry, and stores that are fit although no call would leave them so.

use poplarchime_host::answers::CheckAnswer;
use poplarchime_host::sample::{self, Client, Slot};

use crate::support::call::{Call, Request};
use crate::support::compare::run_both;
use crate::support::host::{
    bad_request, counting, exchange_body, redirected, refresh_body, revocation_body, revoked, Authorized, Host,
    BARNAPP, BY_BARNAPP,
};
use crate::support::pkce;

const LIMIT: u64 = 1 << 40;
const LAST: usize = sample::SLOTS - 1;

fn basic(client: &Client) -> Vec<u8> {
    client.secret.as_ref().map_or(Vec::new(), |secret| sample::basic_header(&client.id, secret))
}

/// Authorize, exchange, check, refresh, client credentials and revocation for one client of a registry.
fn whole_visit(clients: &[Client], number: usize) {
    let client = &clients[number];
    let mut host = Host::new(clients);
    let id = String::from_utf8(client.id.clone()).unwrap();
    let by_id = if client.secret.is_none() { format!("&client_id={id}") } else { String::new() };
    let query = format!("response_type=code&client_id={id}{}", pkce::challenge_pieces(pkce::CHALLENGE));
    let Authorized::Redirected(location) = host.authorize(query, 1, 1000, 0x00) else {
        panic!("no redirect for client {number}");
    };
    assert!(location.ends_with(&format!("code={}", sample::hex(&counting(0)))), "{location}");
    let exchange = format!("{}{by_id}&code_verifier={}", exchange_body(&counting(0)), pkce::VERIFIER);
    assert_eq!(host.token(basic(client), exchange, 1000, 0x20).status, 200);
    let answer = host.check(sample::hex(&counting(0x20)), 1000);
    let expected = CheckAnswer {
        live: 1,
        client: number as u32,
        farm: 7,
        scope: client.scope.into(),
        seconds_left: 3600,
        ..answer
    };
    assert_eq!(answer, expected);
    assert_eq!(host.token(basic(client), refresh_body(&counting(0x34)) + &by_id, 1000, 0x60).status, 200);
    let for_itself = host.token(basic(client), format!("grant_type=client_credentials{by_id}"), 1000, 0xa0);
    match client.secret {
        None => assert_eq!(for_itself, bad_request("unauthorized_client")),
        Some(_) => {
            assert_eq!(host.check(sample::hex(&counting(0xa0)), 1000), CheckAnswer { farm: 0, ..expected });
        }
    }
    assert_eq!(host.revoke(basic(client), revocation_body(&counting(0x34)) + &by_id, 1000), revoked());
    for access in [0x20, 0x60] {
        assert_eq!(host.check(sample::hex(&counting(access)), 1000), CheckAnswer::default());
    }
}

#[test]
fn one_client() {
    whole_visit(&sample::visit_clients()[..1], 0);
    whole_visit(&sample::visit_clients()[1..], 0);
}

#[test]
fn sixty_four_clients() {
    let clients = sample::crowd(64);
    for number in 0..64 {
        whole_visit(&clients, number);
    }
}

#[test]
fn sixty_five_clients_are_too_many() {
    let mut host = Host::new(&sample::crowd(65));
    assert_eq!(host.check("", 1000).refusal, 2);
}

#[test]
fn a_registry_of_one_client_has_no_client_1() {
    let mut host = Host::visit();
    host.set_slot(LAST, Slot { kind: sample::ACCESS, client: 1, scope: 1, ..Slot::default() });
    assert_eq!(host.check("", 1000).refusal, 0);
    host.registry.truncate(301);
    assert_eq!(host.check("", 1000).refusal, 3);
}

#[test]
fn the_longest_location_fits() {
    let redirect = format!("https://{}", "r".repeat(192));
    let client = Client { id: vec![b'~'; 32], ..Client::public("", &redirect, 1) };
    let mut host = Host::new(&[client]);
    let challenge = pkce::challenge_pieces(pkce::CHALLENGE);
    let query = format!("response_type=code&client_id={}&state={}{challenge}", "~".repeat(32), "%7E".repeat(200));
    let location = format!("{redirect}?code={}&state={}", sample::hex(&counting(0)), "%7E".repeat(200));
    assert_eq!(location.len(), 853);
    assert_eq!(host.authorize(query, 1, 1000, 0x00), redirected(&location));
}

#[test]
fn the_longest_reply_fits() {
    let mut host = Host::visit();
    host.set_slot(0, Slot { scope: 255, ..Slot::of(sample::CODE, counting(0), 2000) });
    let reply = host.token(basic(&sample::visit_clients()[0]), exchange_body(&counting(0)), 1000, 0x20);
    assert!(reply.body.ends_with("\"scope\":\"power peak tariff bill milking drying pump solar\"}"), "{}", reply.body);
}

#[test]
fn the_lowest_slot_of_a_handle_counts() {
    let mut host = Host::visit();
    let access = Slot::of(sample::ACCESS, [7; 20], 2000);
    host.set_slot(5, Slot { farm: 5, ..access });
    host.set_slot(3, Slot { farm: 3, scope: 255, client: 1, expiry: 1500, ..access });
    host.set_slot(1, Slot { farm: 1, kind: sample::REFRESH, ..access });
    host.set_slot(0, Slot { farm: 0, kind: sample::CODE, ..access });
    let expected = CheckAnswer { refusal: 0, live: 1, client: 1, farm: 3, scope: 255, seconds_left: 500 };
    assert_eq!(host.check(sample::hex(&[7; 20]), 1000), expected);
}

#[test]
fn a_slot_that_has_run_out_hides_a_live_one() {
    for kind in sample::KINDS.into_iter().filter(|&kind| kind != sample::SPENT) {
        let client = &sample::visit_clients()[0];
        let redirect = format!("&redirect_uri=https://client.example.com/cb&code_verifier={}", pkce::VERIFIER);
        let code = Slot::of(kind, [7; 20], 2000);
        let live = if code.has_challenge() { code.challenged(pkce::appendix_b().challenge) } else { code };
        let mut host = Host::visit();
        host.set_slot(2, live);
        host.set_slot(1, Slot { expiry: 1000, ..live });
        match kind {
            sample::ACCESS => assert_eq!(host.check(sample::hex(&[7; 20]), 1000), CheckAnswer::default()),
            sample::REFRESH => {
                let reply = host.token(basic(client), refresh_body(&[7; 20]), 1000, 0x20);
                assert_eq!(reply, bad_request("invalid_grant"));
            }
            _ => {
                let reply = host.token(basic(client), exchange_body(&[7; 20]) + &redirect, 1000, 0x20);
                assert_eq!(reply, bad_request("invalid_grant"));
            }
        }
        // The same store a second earlier finds the lower slot live.
        let mut host = Host::visit();
        host.set_slot(2, live);
        host.set_slot(1, Slot { expiry: 1000, farm: 99, ..live });
        match kind {
            sample::ACCESS => assert_eq!(host.check(sample::hex(&[7; 20]), 999).farm, 99),
            sample::REFRESH => assert_eq!(host.token(basic(client), refresh_body(&[7; 20]), 999, 0x20).status, 200),
            _ => {
                let reply = host.token(basic(client), exchange_body(&[7; 20]) + &redirect, 999, 0x20);
                assert_eq!(reply.status, 200);
                assert_eq!(host.slot(0).farm, 99);
            }
        }
    }
}

#[test]
fn a_strangers_slot_hides_ones_own() {
    let mut host = Host::visit();
    let own = Slot::of(sample::CODE, [7; 20], 2000);
    host.set_slot(2, own);
    host.set_slot(1, Slot { client: 1, ..own });
    let header = basic(&sample::visit_clients()[0]);
    assert_eq!(host.token(&header, exchange_body(&[7; 20]), 1000, 0x20), bad_request("invalid_grant"));
    let body = exchange_body(&[7; 20]) + "&client_id=barnapp";
    assert_eq!(host.token("", body, 1000, 0x20).status, 200);
    assert_eq!(host.token(&header, exchange_body(&[7; 20]), 1000, 0x60).status, 200, "no longer hidden");
}

#[test]
fn codes_of_all_kinds_are_looked_up_together() {
    let mut host = Host::visit();
    let code = Slot::of(sample::CODE, [7; 20], 2000);
    host.set_slot(4, code);
    host.set_slot(2, Slot { kind: sample::BOUND_CODE, ..code });
    host.set_slot(1, code.challenged(pkce::appendix_b().challenge));
    host.set_slot(0, code.bound(true).challenged([9; 32]));
    let header = basic(&sample::visit_clients()[0]);
    assert_eq!(host.token(&header, exchange_body(&[7; 20]), 1000, 0x20), bad_request("invalid_grant"));
    let bound = exchange_body(&[7; 20]) + "&redirect_uri=https://client.example.com/cb";
    let proved = format!("{bound}&code_verifier={}", pkce::VERIFIER);
    assert_eq!(host.token(&header, &proved, 1000, 0x20), bad_request("invalid_grant"), "another challenge");
    host.set_slot(0, Slot::default());
    assert_eq!(host.token(&header, &bound, 1000, 0x20), bad_request("invalid_grant"), "no verifier");
    assert_eq!(host.token(&header, &proved, 1000, 0x20).status, 200);
    assert_eq!(host.token(&header, &bound, 1000, 0x60).status, 200);
    assert_eq!(host.token(&header, exchange_body(&[7; 20]), 1000, 0xa0).status, 200);
}

#[test]
fn the_slots_scope_counts_not_the_clients() {
    let mut host = Host::visit();
    host.set_slot(0, Slot { client: 1, scope: 0xf0, ..Slot::of(sample::REFRESH, [7; 20], 2000) });
    let body = refresh_body(&[7; 20]) + "&client_id=barnapp";
    assert_eq!(host.token("", format!("{body}&scope=power"), 1000, 0x20), bad_request("invalid_scope"));
    assert_eq!(host.token("", format!("{body}&scope=solar+pump"), 1000, 0x20).status, 200);
    assert_eq!(host.check(sample::hex(&counting(0x20)), 1000).scope, 0xc0);
}

#[test]
fn any_expiry_is_fit() {
    for expiry in [0, 1, LIMIT, LIMIT + 1, u64::MAX] {
        let mut host = Host::visit();
        host.set_slot(9, Slot::of(sample::ACCESS, [7; 20], expiry));
        let answer = host.check(sample::hex(&[7; 20]), 1000);
        assert_eq!((answer.refusal, answer.seconds_left), (0, expiry.saturating_sub(1000)));
    }
}

#[test]
fn the_last_second_of_time() {
    let mut host = Host::visit();
    sample::set_latest(&mut host.store, LIMIT);
    let location = format!("https://barn.example/r?x=1&code={}", sample::hex(&counting(0)));
    assert_eq!(host.authorize(BARNAPP, 1, LIMIT, 0x00), redirected(&location));
    assert_eq!(host.slot(0).expiry, LIMIT + 600);
    let body = exchange_body(&counting(0)) + BY_BARNAPP;
    assert_eq!(host.token("", body, 0, 0x20).status, 200);
    assert_eq!(host.check(sample::hex(&counting(0x20)), 0).seconds_left, 3600);
    assert_eq!(host.check(sample::hex(&counting(0x20)), LIMIT + 1).refusal, 4);
    sample::set_latest(&mut host.store, LIMIT + 1);
    assert_eq!(host.check(sample::hex(&counting(0x20)), LIMIT + 1).refusal, 3);
}

#[test]
fn an_exchange_takes_the_two_lowest_vacant_slots() {
    // The code's slot, one that has run out, a free one, and where access and refresh token land.
    for (code, run_out, free, access, refresh) in [
        (5, 7, 8, 7, 8),
        (7, 8, 5, 5, 8),
        (8, 5, 7, 5, 7),
        (0, 2, 1, 1, 2),
        (LAST, LAST - 2, LAST - 1, LAST - 2, LAST - 1),
    ] {
        let mut host = Host::visit();
        let live = Slot { client: 1, ..Slot::of(sample::REFRESH, [1; 20], 5000) };
        host.set_slots(0..sample::SLOTS, live);
        host.set_slot(run_out, Slot { expiry: 1000, ..live });
        host.set_slot(free, Slot::default());
        host.set_slot(code, Slot { farm: 9, scope: 3, ..Slot::of(sample::CODE, [7; 20], 1001) });
        let reply = host.token(basic(&sample::visit_clients()[0]), exchange_body(&[7; 20]), 1000, 0x20);
        assert_eq!(reply.status, 200);
        assert_eq!((host.slot(access).handle, host.slot(access).kind), (counting(0x20), sample::ACCESS));
        assert_eq!((host.slot(refresh).handle, host.slot(refresh).kind), (counting(0x34), sample::REFRESH));
        assert_eq!((host.slot(access).farm, host.slot(refresh).scope), (9, 3));
    }
}

#[test]
fn an_exchange_needs_two_vacant_slots_and_a_refresh_one() {
    for (vacant, exchange, refresh) in [(0, 503, 503), (1, 503, 200), (2, 200, 200)] {
        let mut host = Host::visit();
        host.set_slots(vacant..sample::SLOTS, Slot::of(sample::ACCESS, [1; 20], 1001));
        host.set_slot(200, Slot::of(sample::CODE, [7; 20], 1001));
        host.set_slot(201, Slot::of(sample::REFRESH, [8; 20], 1001));
        let header = basic(&sample::visit_clients()[0]);
        assert_eq!(host.clone().token(&header, refresh_body(&[8; 20]), 1000, 0x20).status, refresh, "{vacant} vacant");
        assert_eq!(host.token(&header, exchange_body(&[7; 20]), 1000, 0x20).status, exchange, "{vacant} vacant");
        let then = if exchange == 200 { 503 } else { refresh };
        assert_eq!(host.token(&header, refresh_body(&[8; 20]), 1000, 0x60).status, then, "after it");
    }
}

#[test]
fn on_a_full_store_clashes_are_not_looked_for() {
    let mut host = Host::visit();
    host.set_slots(0..sample::SLOTS, Slot::of(sample::CODE, counting(0), 1001));
    let location = "https://barn.example/r?x=1&error=temporarily_unavailable";
    assert_eq!(host.authorize(BARNAPP, 1, 1000, 0x00), redirected(location));
    let header = basic(&sample::visit_clients()[0]);
    assert_eq!(host.token(&header, exchange_body(&counting(0)), 1000, 0x00).status, 503);
    // One second on, every slot has run out, but a handle in use is one all the same.
    let location = "https://barn.example/r?x=1&error=server_error";
    assert_eq!(host.authorize(BARNAPP, 1, 1001, 0x00), redirected(location));
}

#[test]
fn empty_slices_are_fine() {
    let registry = sample::registry(&sample::visit_clients());
    let store = sample::empty_store();
    let call = |request, random: usize| Call {
        request,
        registry: registry.clone(),
        clock: 0,
        random: vec![1; random],
        output: 1024,
    };
    let query = call(Request::Authorize { query: Vec::new(), decision: 1, farm: 7 }, 20);
    assert_eq!(run_both(&query, &store).answer.outcome(), "refusal 6");
    let body = call(Request::Token { header: Vec::new(), body: Vec::new() }, 40);
    assert_eq!(run_both(&body, &store).answer.outcome(), "400 invalid_request");
    let revocation = call(Request::Revoke { header: Vec::new(), body: Vec::new() }, 0);
    assert_eq!(run_both(&revocation, &store).answer.outcome(), "400 invalid_request");
    let token = call(Request::Check { token: Vec::new() }, 0);
    assert_eq!(run_both(&token, &store).answer.outcome(), "not live");
    assert_eq!(run_both(&token, &[]).answer.outcome(), "refusal 3");
}
