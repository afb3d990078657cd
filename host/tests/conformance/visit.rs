//! The papers' written-out visit, every line of it, and the bad servers they have met.

use poplarchime_host::answers::CheckAnswer;
use poplarchime_host::sample::{self, Slot};

use crate::support::host::{
    bad_request, counting, granted, redirected, unauthorized, Authorized, Host, BARNAPP, BASIC, BY_BARNAPP,
};

const QUERY: &str =
    "response_type=code&client_id=s6BhdRkqt3&state=xyz&redirect_uri=https%3A%2F%2Fclient%2Eexample%2Ecom%2Fcb";
const CODE: &str = "000102030405060708090a0b0c0d0e0f10111213";
const ACCESS: &str = "202122232425262728292a2b2c2d2e2f30313233";
const REFRESH: &str = "3435363738393a3b3c3d3e3f4041424344454647";
const EXCHANGE: &str = "grant_type=authorization_code&code=000102030405060708090a0b0c0d0e0f10111213\
     &redirect_uri=https%3A%2F%2Fclient%2Eexample%2Ecom%2Fcb";
const TOKENS: &str = "{\"access_token\":\"202122232425262728292a2b2c2d2e2f30313233\",\"token_type\":\"Bearer\",\
     \"expires_in\":3600,\"refresh_token\":\"3435363738393a3b3c3d3e3f4041424344454647\",\"scope\":\"power peak bill\"}";

/// The visit after its first line: the code 00 to 13 was issued at 1000.
fn with_code() -> Host {
    let mut host = Host::visit();
    host.authorize(QUERY, 1, 1000, 0x00);
    host
}

/// The visit after the exchange at 1000.
fn with_tokens() -> Host {
    let mut host = with_code();
    host.token(BASIC, EXCHANGE, 1000, 0x20);
    host
}

#[test]
fn allowed() {
    let mut host = Host::visit();
    let location = format!("https://client.example.com/cb?code={CODE}&state=xyz");
    assert_eq!(host.authorize(QUERY, 1, 1000, 0x00), redirected(&location));
    assert_eq!(host.slot(0), Slot { farm: 7, scope: 11, ..Slot::of(sample::BOUND_CODE, counting(0), 1600) });
    assert_eq!(sample::latest(&host.store), 1000);
    assert!(host.store[sample::slot_range(1).start..].iter().all(|&byte| byte == 0));
}

#[test]
fn denied() {
    let mut host = Host::visit();
    let location = "https://client.example.com/cb?error=access_denied&state=xyz";
    assert_eq!(host.authorize(QUERY, 0, 1000, 0x00), redirected(location));
    assert!(host.store[8..].iter().all(|&byte| byte == 0));
}

#[test]
fn exchange() {
    let mut host = with_code();
    assert_eq!(host.token(BASIC, EXCHANGE, 1500, 0x20), granted(TOKENS));
    let spent = Slot { farm: 7, scope: 11, ..Slot::of(sample::SPENT, counting(0), 1600) };
    let access = Slot { kind: sample::ACCESS, handle: counting(0x20), expiry: 5100, origin: counting(0), ..spent };
    let refresh = Slot { kind: sample::REFRESH, handle: counting(0x34), expiry: 2_593_500, ..access };
    assert_eq!([0, 1, 2, 3].map(|number| host.slot(number)), [spent, access, refresh, Slot::default()]);
}

#[test]
fn refresh_reply_has_no_refresh_token() {
    let mut host = with_tokens();
    let body = format!("grant_type=refresh_token&refresh_token={REFRESH}");
    let reply = "{\"access_token\":\"505152535455565758595a5b5c5d5e5f60616263\",\"token_type\":\"Bearer\",\
         \"expires_in\":3600,\"scope\":\"power peak bill\"}";
    assert_eq!(host.token(BASIC, &body, 2000, 0x50), granted(reply));
    assert_eq!(host.slot(2).handle_text(), REFRESH, "the refresh token stays");
    let reply = "{\"access_token\":\"808182838485868788898a8b8c8d8e8f90919293\",\"token_type\":\"Bearer\",\
         \"expires_in\":3600,\"scope\":\"power bill\"}";
    assert_eq!(host.token(BASIC, format!("{body}&scope=bill+power"), 2000, 0x80), granted(reply));
    assert_eq!(host.check("808182838485868788898a8b8c8d8e8f90919293", 2000).scope, 9);
}

#[test]
fn the_header_decodes_to_id_and_secret() {
    let mut host = Host::visit();
    assert_eq!(host.token(BASIC, "grant_type=x", 1000, 0x20), bad_request("unsupported_grant_type"));
    let by_hand = sample::basic_header(b"s6BhdRkqt3", b"gX1fBat3bV");
    assert_eq!(by_hand, BASIC.as_bytes());
}

#[test]
fn the_code_is_live_at_1599_and_not_at_1600() {
    assert_eq!(with_code().token(BASIC, EXCHANGE, 1599, 0x20), granted(TOKENS));
    assert_eq!(with_code().token(BASIC, EXCHANGE, 1600, 0x20), bad_request("invalid_grant"));
}

#[test]
fn time_never_goes_back() {
    let mut host = with_code();
    assert_eq!(host.check("anything", 1600), CheckAnswer::default());
    assert_eq!(host.token(BASIC, EXCHANGE, 1100, 0x20), bad_request("invalid_grant"));
    host.authorize(QUERY, 1, 1100, 0x60);
    assert_eq!(host.slot(0).expiry, 2200);
    let body = EXCHANGE.replace(CODE, &sample::hex(&counting(0x60)));
    let before = host.store.clone();
    assert_eq!(host.token(BASIC, &body, 2200, 0x20), bad_request("invalid_grant"));
    host.store = before;
    assert_eq!(host.token(BASIC, &body, 2199, 0x20), granted(TOKENS));
}

#[test]
fn the_access_token_is_live_for_an_hour() {
    let mut host = with_tokens();
    let live = |seconds_left| CheckAnswer { refusal: 0, live: 1, client: 0, farm: 7, scope: 11, seconds_left };
    assert_eq!(host.check(ACCESS, 1000), live(3600));
    assert_eq!(host.check(ACCESS, 4599), live(1));
    assert_eq!(host.check(ACCESS, 1000), live(1), "the clock went back");
    assert_eq!(host.check(REFRESH, 4599), CheckAnswer::default());
    assert_eq!(host.check(ACCESS, 4600), CheckAnswer::default());
}

#[test]
fn scopes_in_any_order() {
    for (asked, set) in [("bill+power", 9), ("power+bill+power", 9), ("peak", 2)] {
        let mut host = Host::visit();
        host.authorize(format!("{QUERY}&scope={asked}"), 1, 1000, 0x00);
        assert_eq!(host.slot(0).scope, set);
        host.token(BASIC, EXCHANGE, 1000, 0x20);
        assert_eq!(host.check(ACCESS, 1000).scope, u32::from(set));
    }
    let location = "https://client.example.com/cb?error=invalid_scope&state=xyz";
    let mut host = Host::visit();
    assert_eq!(host.authorize(format!("{QUERY}&scope=power++bill"), 1, 1000, 0x00), redirected(location));
}

#[test]
fn the_state_is_written_as_a_form() {
    let mut host = Host::visit();
    let query = format!("{BARNAPP}&state=+%25%26%2b%78*-._~");
    let location = "https://barn.example/r?x=1&error=access_denied&state=+%25%26%2Bx*-._%7E";
    assert_eq!(host.authorize(query, 0, 1000, 0x00), redirected(location));
    let query = format!("{BARNAPP}&state=%C2%A3%E2%82%AC");
    let location = "https://barn.example/r?x=1&error=invalid_request";
    assert_eq!(host.authorize(query, 0, 1000, 0x00), redirected(location));
}

#[test]
fn malformed_forms() {
    let mut host = Host::visit();
    assert_eq!(host.authorize(format!("{QUERY}&a=%4"), 1, 1000, 0x00), Authorized::Refused(5));
    assert_eq!(host.token(BASIC, "grant_type=refresh_token&a=%4", 1000, 0x20), bad_request("invalid_request"));
}

#[test]
fn an_empty_state_is_none() {
    let mut host = Host::visit();
    let query = format!("{BARNAPP}&state=&state=x");
    let location = "https://barn.example/r?x=1&error=access_denied&state=x";
    assert_eq!(host.authorize(query, 0, 1000, 0x00), redirected(location));
}

#[test]
fn barnapp_denied_without_state() {
    let mut host = Host::visit();
    let location = "https://barn.example/r?x=1&error=access_denied";
    assert_eq!(host.authorize(BARNAPP, 0, 1000, 0x00), redirected(location));
}

#[test]
fn a_state_of_200_bytes_passes() {
    let query = |length| format!("{BARNAPP}&state={}", "s".repeat(length));
    let mut host = Host::visit();
    let location = format!("https://barn.example/r?x=1&code={CODE}&state={}", "s".repeat(200));
    assert_eq!(host.authorize(query(200), 1, 1000, 0x00), redirected(&location));
    let location = "https://barn.example/r?x=1&error=invalid_request";
    assert_eq!(host.authorize(query(201), 1, 1000, 0x20), redirected(location));
}

#[test]
fn a_body_of_4096_bytes_is_read() {
    let padded = |length: usize| format!("{EXCHANGE}&x={}", "p".repeat(length - EXCHANGE.len() - 3));
    assert_eq!(with_code().token(BASIC, padded(4096), 1000, 0x20), granted(TOKENS));
    assert_eq!(with_code().token(BASIC, padded(4097), 1000, 0x20), bad_request("invalid_request"));
}

#[test]
fn the_public_client_names_itself() {
    let mut host = Host::visit();
    let location = format!("https://barn.example/r?x=1&code={CODE}");
    assert_eq!(host.authorize(BARNAPP, 1, 1000, 0x00), redirected(&location));
    let body = format!("grant_type=authorization_code&code={CODE}{BY_BARNAPP}");
    assert_eq!(host.token("Basic YmFybmFwcDo=", &body, 1000, 0x20), unauthorized(true));
    assert_eq!(host.token("", format!("{body}&client_secret=x"), 1000, 0x20), unauthorized(false));
    let reply = TOKENS.replace("power peak bill", "power");
    assert_eq!(host.token("", &body, 1000, 0x20), granted(&reply));
    assert_eq!(host.check(ACCESS, 1000).client, 1);
}

#[test]
fn identical_requests_are_never_merged() {
    let mut host = Host::visit();
    host.authorize(QUERY, 1, 1000, 0x00);
    host.authorize(QUERY, 1, 1000, 0x20);
    assert_eq!((host.slot(0).handle, host.slot(1).handle), (counting(0x00), counting(0x20)));
    assert_eq!(host.token(BASIC, EXCHANGE, 1000, 0x40).status, 200);
    assert_eq!(host.token(BASIC, EXCHANGE.replace(CODE, &sample::hex(&counting(0x20))), 1000, 0x80).status, 200);
}

// ---- bad servers

#[test]
fn errors_go_to_no_address_that_was_not_registered() {
    let mut host = Host::visit();
    let query = "response_type=token&client_id=s6BhdRkqt3&redirect_uri=https%3A%2F%2Fevil.example%2F";
    assert_eq!(host.authorize(query, 1, 1000, 0x00), Authorized::Refused(7));
}

#[test]
fn a_refused_try_spends_no_code() {
    let mut host = with_code();
    let wrong_client = format!("{EXCHANGE}&client_id=barnapp");
    assert_eq!(host.token("", wrong_client, 1000, 0x20), bad_request("invalid_grant"));
    let without_redirect = format!("grant_type=authorization_code&code={CODE}");
    assert_eq!(host.token(BASIC, without_redirect, 1000, 0x20), bad_request("invalid_grant"));
    assert_eq!(host.token(BASIC, EXCHANGE, 1000, 0x20), granted(TOKENS));
    assert_eq!(host.token(BASIC, EXCHANGE, 1000, 0x60), bad_request("invalid_grant"), "spent now");
}

#[test]
fn pieces_part_before_they_are_decoded() {
    let mut host = Host::visit();
    let query = format!("{BARNAPP}&state=a%26client_id%3Ds6BhdRkqt3");
    let location = "https://barn.example/r?x=1&error=access_denied&state=a%26client_id%3Ds6BhdRkqt3";
    assert_eq!(host.authorize(query, 0, 1000, 0x00), redirected(location));
}

#[test]
fn a_refresh_widens_no_scope() {
    let mut host = Host::visit();
    host.authorize(format!("{QUERY}&scope=power"), 1, 1000, 0x00);
    host.token(BASIC, EXCHANGE, 1000, 0x20);
    let body = format!("grant_type=refresh_token&refresh_token={REFRESH}");
    for scope in ["peak", "power+peak", "powe", "powers", "p", "bill"] {
        let reply = host.token(BASIC, format!("{body}&scope={scope}"), 1000, 0x60);
        assert_eq!(reply, bad_request("invalid_scope"), "{scope}");
    }
    assert_eq!(host.token(BASIC, format!("{body}&scope=power"), 1000, 0x60).status, 200);
}
