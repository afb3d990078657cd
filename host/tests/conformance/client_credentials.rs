//! A client asks for itself (RFC 6749 section 4.4), written out: the grain pool's server reads its own pump meters, and
//! no farmer is asked. Its tokens carry farm 0, which no owner can allow.

use poplarchime_host::answers::{CheckAnswer, ErrorWord};
use poplarchime_host::sample::{self, Client, Slot};

use crate::support::host::{bad_request, counting, granted, redirected, unauthorized, Authorized, Host, Reply};

/// `grainpool:wheat4barley`.
const BASIC: &str = "Basic Z3JhaW5wb29sOndoZWF0NGJhcmxleQ==";
const BODY: &str = "grant_type=client_credentials";
const BY_BODY: &str = "grant_type=client_credentials&client_id=grainpool&client_secret=wheat4barley";
const BY_BARNAPP: &str = "grant_type=client_credentials&client_id=barnapp";
const POOL: u8 = 2;
const LAST: usize = sample::SLOTS - 1;
/// What the pool is registered for: pump and solar.
const POOL_SCOPE: u8 = 64 + 128;
/// Of the random bytes from 20 on.
const ACCESS: &str = "202122232425262728292a2b2c2d2e2f30313233";

/// The visit's clients and the grain pool.
fn host() -> Host {
    let mut clients = sample::visit_clients();
    clients.push(Client::confidential("grainpool", "wheat4barley", "https://pool.example/cb", POOL_SCOPE));
    Host::new(&clients)
}

/// The same, with live slots in all places from `first` on.
fn filled_from(first: usize) -> Host {
    let mut host = host();
    host.set_slots(first..sample::SLOTS, other_slot());
    host
}

/// A live slot that the requests here have nothing to do with.
fn other_slot() -> Slot {
    Slot { client: 1, farm: 5, ..Slot::of(sample::REFRESH, [1; 20], 9000) }
}

/// The reply with the first twenty of the random bytes from 20 on.
fn token_for(scope: &str) -> Reply {
    granted(&format!(
        "{{\"access_token\":\"{ACCESS}\",\"token_type\":\"Bearer\",\"expires_in\":3600,\"scope\":\"{scope}\"}}"
    ))
}

#[test]
fn one_access_token_for_farm_0() {
    for (header, body) in [(BASIC, BODY), ("", BY_BODY), (BASIC, "grant_type=client_credentials&client_id=grainpool")] {
        let mut host = host();
        assert_eq!(host.token(header, body, 1000, 0x20), token_for("pump solar"));
        // The time, then the slot: kind 3, the handle, client 2, farm 0, its scope set, expiry 4600, the handle again
        // and twelve zeros.
        let expiry = [0, 0, 0, 0, 0, 0, 0x11, 0xf8];
        let slot = [&[3][..], &counting(0x20), &[2], &[0; 4], &[192], &expiry, &counting(0x20), &[0; 12]].concat();
        let expected = [&[0, 0, 0, 0, 0, 0, 0x03, 0xe8], &slot[..]].concat();
        assert_eq!(host.store[..8 + 67], expected);
        assert!(host.store[8 + 67..].iter().all(|&byte| byte == 0), "one slot");
    }
}

#[test]
fn the_token_is_live_for_an_hour() {
    let live = |seconds_left| CheckAnswer { refusal: 0, live: 1, client: 2, farm: 0, scope: 192, seconds_left };
    let mut host = host();
    host.token(BASIC, BODY, 1000, 0x20);
    assert_eq!(host.check(ACCESS, 1000), live(3600));
    assert_eq!(host.check(ACCESS, 4599), live(1));
    assert_eq!(host.check(ACCESS, 4600), CheckAnswer::default());
    assert_eq!(host.check(ACCESS, 1000), CheckAnswer::default(), "the clock went back");
    host.token(BASIC, BODY, 1000, 0x60);
    assert_eq!(host.slot(0).expiry, 8200, "an hour from the highest clock seen");
}

#[test]
fn no_scope_means_the_clients_whole_set() {
    for (scope, set, names) in [
        ("", 192, "pump solar"),
        ("&scope=", 192, "pump solar"),
        ("&scope=solar+pump", 192, "pump solar"),
        ("&scope=pump+solar+pump", 192, "pump solar"),
        ("&scope=pump", 64, "pump"),
        ("&scope=solar+solar", 128, "solar"),
    ] {
        let mut host = host();
        assert_eq!(host.token(BASIC, format!("{BODY}{scope}"), 1000, 0x20), token_for(names), "{scope}");
        assert_eq!(host.check(ACCESS, 1000).scope, set, "{scope}");
    }
}

#[test]
fn a_scope_beyond_the_clients_set_or_of_bad_form_is_refused() {
    let beyond = ["power", "power+pump", "pump+solar+drying", "power+peak+tariff+bill+milking+drying+pump+solar"];
    let unknown = ["weather", "pump+weather", "pum", "pumps", "PUMP", "%00"];
    let bad_form = ["pump++solar", "+pump", "pump+", "+", "pump%09solar", "pump,solar", "pump%2bsolar"];
    for scope in beyond.iter().chain(&unknown).chain(&bad_form) {
        let reply = host().token(BASIC, format!("{BODY}&scope={scope}"), 1000, 0x20);
        assert_eq!(reply, bad_request("invalid_scope"), "{scope}");
        // Neither room nor clashes are looked at before it.
        let mut full = filled_from(0);
        full.set_slot(0, Slot { handle: counting(0x20), ..other_slot() });
        let reply = full.token(BASIC, format!("{BODY}&scope={scope}"), 1000, 0x20);
        assert_eq!(reply, bad_request("invalid_scope"), "{scope}");
    }
    let repeated = format!("{BODY}&scope=pump&scope=pump");
    assert_eq!(host().token(BASIC, repeated, 1000, 0x20), bad_request("invalid_request"));
}

#[test]
fn a_public_client_is_not_authorized() {
    assert_eq!(ErrorWord::UnauthorizedClient.number(), 10);
    let refused = bad_request("unauthorized_client");
    for scope in ["", "&scope=power", "&scope=peak", "&scope=weather", "&scope=+"] {
        assert_eq!(host().token("", format!("{BY_BARNAPP}{scope}"), 1000, 0x20), refused, "{scope}");
    }
    assert_eq!(filled_from(0).token("", BY_BARNAPP, 1000, 0x20), refused, "no room");
    let mut clash = host();
    clash.set_slot(0, Slot { handle: counting(0x20), ..other_slot() });
    assert_eq!(clash.token("", BY_BARNAPP, 1000, 0x20), refused, "random bytes in use");
}

#[test]
fn what_comes_before_unauthorized_client() {
    for (header, body, reply) in [
        ("", "grant_type=client_credential&client_id=barnapp", bad_request("unsupported_grant_type")),
        ("", "grant_type=password&client_id=barnapp", bad_request("unsupported_grant_type")),
        ("", "grant_type=client_credentials&client_id=barnapp&client_secret=x", unauthorized(false)),
        ("Basic YmFybmFwcDo=", BODY, unauthorized(true)),
        ("", "grant_type=client_credentials&client_id=nobody", unauthorized(false)),
        ("", "grant_type=client_credentials&client_id=barnapp&code=a&code=a", bad_request("invalid_request")),
        ("", "grant_type=client_credentials&client_id=barnapp&a=%4", bad_request("invalid_request")),
    ] {
        assert_eq!(host().token(header, body, 1000, 0x20), reply, "{header} {body}");
    }
}

#[test]
fn the_client_must_authenticate() {
    for (header, body, reply) in [
        ("", BODY, unauthorized(false)),
        ("", "grant_type=client_credentials&client_id=grainpool", unauthorized(false)),
        ("", "grant_type=client_credentials&client_id=grainpool&client_secret=wheat4barle", unauthorized(false)),
        // grainpool:wheat5barley
        ("Basic Z3JhaW5wb29sOndoZWF0NWJhcmxleQ==", BODY, unauthorized(true)),
        ("Basic czZCaGRSa3F0MzpnWDFmQmF0M2JW", "grant_type=client_credentials&client_id=grainpool", unauthorized(true)),
        (BASIC, BY_BODY, bad_request("invalid_request")),
    ] {
        assert_eq!(host().token(header, body, 1000, 0x20), reply, "{header} {body}");
    }
}

#[test]
fn other_names_are_ignored_but_not_their_repeats() {
    let mut host = host();
    let query = "response_type=code&client_id=grainpool";
    host.authorize(query, 1, 1000, 0x00);
    let code = host.slot(0);
    let names =
        format!("code={}&redirect_uri=nonsense&refresh_token=nonsense&username=a&username=b", code.handle_text());
    assert_eq!(host.token(BASIC, format!("{BODY}&{names}"), 1000, 0x20), token_for("pump solar"));
    assert_eq!(host.slot(0), code, "the code is not spent");
    assert_eq!(host.check(ACCESS, 1000).farm, 0, "the code's farm is 7");
    for name in ["grant_type", "code", "redirect_uri", "client_id", "client_secret", "refresh_token", "scope"] {
        let body = format!("{BODY}&{name}=pump&{name}=pump");
        assert_eq!(host.token(BASIC, body, 1000, 0x60), bad_request("invalid_request"), "{name}");
    }
}

#[test]
fn room_for_one_is_enough() {
    assert_eq!(filled_from(0).token(BASIC, BODY, 1000, 0x20).status, 503);
    let mut host = filled_from(1);
    assert_eq!(host.token(BASIC, BODY, 1000, 0x20), token_for("pump solar"));
    assert_eq!(host.token(BASIC, BODY, 1000, 0x60).status, 503, "full now");
    for (expiry, status) in [(1000, 200), (1001, 503)] {
        let mut host = filled_from(0);
        host.set_slot(LAST, Slot { expiry, ..other_slot() });
        assert_eq!(host.token(BASIC, BODY, 1000, 0x20).status, status, "a slot that runs out at {expiry}");
    }
}

#[test]
fn the_lowest_vacant_slot_is_taken() {
    for (run_out, free, taken) in [(7, 300, 7), (300, 7, 7), (LAST, LAST - 1, LAST - 1), (0, 1, 0)] {
        let mut host = filled_from(0);
        host.set_slot(run_out, Slot { expiry: 1000, ..other_slot() });
        host.set_slot(free, Slot::default());
        host.token(BASIC, BODY, 1000, 0x20);
        let slot = host.slot(taken);
        assert_eq!((slot.kind, slot.handle, slot.client), (sample::ACCESS, counting(0x20), POOL));
        assert_eq!((slot.farm, slot.scope, slot.expiry), (0, POOL_SCOPE, 4600));
    }
}

#[test]
fn the_first_twenty_random_bytes_may_not_be_in_use() {
    for kind in sample::KINDS {
        // Live, run out long ago, and the slot that would be taken.
        for (number, expiry) in [(LAST, 9000), (200, 1), (0, 1000)] {
            let mut host = host();
            host.set_slot(number, Slot { handle: counting(0x20), expiry, ..other_slot().turned(kind) });
            assert_eq!(host.token(BASIC, BODY, 1000, 0x20).status, 500, "kind {kind} in slot {number}");
        }
    }
    let mut full = filled_from(0);
    full.set_slot(9, Slot { handle: counting(0x20), ..other_slot() });
    assert_eq!(full.token(BASIC, BODY, 1000, 0x20).status, 503, "room is looked for first");
}

#[test]
fn the_last_twenty_random_bytes_are_ignored() {
    let (first, other) = (counting(0x20), other_slot());
    for last in [first, other.handle] {
        let mut host = filled_from(1);
        assert_eq!(host.token_with(BASIC, BODY, 1000, [first, last]), token_for("pump solar"));
        assert_eq!(host.slot(1), other);
    }
}

#[test]
fn the_token_is_neither_a_code_nor_a_refresh_token() {
    let mut host = host();
    host.token(BASIC, BODY, 1000, 0x20);
    for presented in ["grant_type=authorization_code&code", "grant_type=refresh_token&refresh_token"] {
        let body = format!("{presented}={ACCESS}");
        assert_eq!(host.token(BASIC, body, 1000, 0x60), bad_request("invalid_grant"), "{presented}");
    }
}

#[test]
fn identical_requests_are_never_merged() {
    let mut host = host();
    for random in [0x20, 0x60, 0xa0] {
        assert_eq!(host.token(BASIC, BODY, 1000, random).status, 200);
        assert_eq!(host.check(sample::hex(&counting(random)), 1000).live, 1);
    }
    assert_eq!(host.check(ACCESS, 1000).live, 1, "the first one lives on");
}

// ---- farm 0 at the authorization endpoint

const QUERY: &str = "response_type=code&client_id=s6BhdRkqt3&state=xyz";

fn sent_back(word: &str) -> Authorized {
    redirected(&format!("https://client.example.com/cb?error={word}&state=xyz"))
}

#[test]
fn no_owner_can_allow_farm_0() {
    let code = format!("https://client.example.com/cb?code={}&state=xyz", sample::hex(&counting(0)));
    for farm in [0, 1, 7, 256, 1 << 24, u32::MAX] {
        for decision in [0, 1, 2, 257, u64::MAX] {
            let mut host = host();
            let answer = host.authorize_farm(farm, QUERY, decision, 1000, 0x00);
            match (farm, decision) {
                (1.., 1) => {
                    assert_eq!(answer, redirected(&code));
                    assert_eq!(host.slot(0).farm, farm);
                }
                _ => assert_eq!(answer, sent_back("access_denied"), "decision {decision} for farm {farm}"),
            }
        }
    }
}

#[test]
fn farm_0_is_denied_in_the_place_of_the_owners_denial() {
    for (query, answer) in [
        (format!("{QUERY}&a=%4"), Authorized::Refused(5)),
        (format!("{QUERY}&client_id=s6BhdRkqt3"), Authorized::Refused(6)),
        (format!("{QUERY}&redirect_uri=https://evil.example/"), Authorized::Refused(7)),
        (format!("{QUERY}&scope=power&scope=power"), sent_back("invalid_request")),
        (QUERY.replace("code", "token"), sent_back("unsupported_response_type")),
        (format!("{QUERY}&scope=pump"), sent_back("invalid_scope")),
        (format!("{QUERY}&scope=power"), sent_back("access_denied")),
    ] {
        assert_eq!(host().authorize_farm(0, &query, 1, 1000, 0x00), answer, "{query}");
    }
    // On a full store, with random bytes in use: what comes behind the denial.
    let mut full = filled_from(0);
    full.set_slot(9, Slot { handle: counting(0), ..other_slot() });
    assert_eq!(full.authorize_farm(0, QUERY, 1, 1000, 0x00), sent_back("access_denied"));
    assert_eq!(full.authorize_farm(1, QUERY, 1, 1000, 0x00), sent_back("temporarily_unavailable"));
    full.set_slot(0, Slot::default());
    assert_eq!(full.authorize_farm(0, QUERY, 1, 1000, 0x00), sent_back("access_denied"));
    assert_eq!(full.authorize_farm(1, QUERY, 1, 1000, 0x00), sent_back("server_error"));
}

#[test]
fn slots_of_farm_0_that_lie_in_a_store_stay_usable() {
    for kind in [sample::CODE, sample::BOUND_CODE] {
        let mut host = host();
        let code = Slot { client: 1, farm: 0, ..Slot::of(kind, [7; 20], 2000) };
        host.set_slot(3, code);
        let body = format!("code={}&redirect_uri=https://barn.example/r?x=1&client_id=barnapp", code.handle_text());
        assert_eq!(host.token("", format!("grant_type=authorization_code&{body}"), 1000, 0x20).status, 200);
        assert_eq!((host.slot(0).kind, host.slot(0).farm), (sample::ACCESS, 0));
        assert_eq!((host.slot(1).kind, host.slot(1).farm), (sample::REFRESH, 0));
        let refresh = format!("grant_type=refresh_token&refresh_token={}", host.slot(1).handle_text());
        assert_eq!(host.token("", format!("{refresh}&client_id=barnapp"), 1000, 0x60).status, 200);
        for access in [0x20, 0x60] {
            let expected = CheckAnswer { refusal: 0, live: 1, client: 1, farm: 0, scope: 1, seconds_left: 3600 };
            assert_eq!(host.check(sample::hex(&counting(access)), 1000), expected);
        }
    }
}
