//! Readings of the papers that an implementer could honestly take otherwise, where no other test states them in full.

use poplarchime_host::sample::{self, Client};

use crate::support::host::{
    bad_request, counting, redirected, unauthorized, Authorized, Host, BARNAPP, BASIC, BY_BARNAPP,
};

fn code() -> String {
    sample::hex(&counting(0))
}

#[test]
fn names_are_compared_after_decoding() {
    let mut host = Host::visit();
    let location = format!("https://barn.example/r?x=1&code={}&state=s", code());
    let query = "response%5ftype=%63ode&client%5Fid=barnap%70&%73tate=s\
         &code%5Fchallenge=E9Melhoa2OwvFrEMTJguCHaoeK1t8URWbuGJSstw%2DcM&code_challenge%5fmethod=S%32%356";
    assert_eq!(host.authorize(query, 1, 1000, 0x00), redirected(&location));
}

#[test]
fn a_query_is_taken_as_it_stands() {
    let mut host = Host::visit();
    let missing = redirected("https://barn.example/r?x=1&error=invalid_request");
    assert_eq!(host.authorize(format!("?{BARNAPP}"), 1, 1000, 0x00), missing);
    assert_eq!(host.authorize("response_type=code;client_id=barnapp", 1, 1000, 0x00), Authorized::Refused(6));
}

#[test]
fn further_equals_signs_belong_to_the_value() {
    let mut host = Host::visit();
    let location = "https://barn.example/r?x=1&error=access_denied&state=%3Da%3Db%3D";
    assert_eq!(host.authorize(format!("{BARNAPP}&state==a=b="), 0, 1000, 0x00), redirected(location));
}

#[test]
fn limits_of_state_count_decoded_bytes() {
    let mut host = Host::visit();
    let location = format!("https://barn.example/r?x=1&error=access_denied&state={}", "a".repeat(200));
    assert_eq!(host.authorize(format!("{BARNAPP}&state={}", "%61".repeat(200)), 0, 1000, 0x00), redirected(&location));
    let location = "https://barn.example/r?x=1&error=invalid_request";
    assert_eq!(host.authorize(format!("{BARNAPP}&state={}", "%61".repeat(201)), 0, 1000, 0x00), redirected(location));
}

#[test]
fn error_pages_and_dead_tokens_move_the_time_too() {
    for call in 0..3 {
        let mut host = Host::visit();
        host.authorize(BARNAPP, 1, 1000, 0x00);
        match call {
            0 => assert_eq!(host.authorize("%", 1, 1600, 0x20), Authorized::Refused(5)),
            1 => assert_eq!(host.check("nothing", 1600).live, 0),
            _ => assert_eq!(host.token("nonsense", "grant_type=x", 1600, 0x20), unauthorized(true)),
        }
        let body = format!("grant_type=authorization_code&code={}{BY_BARNAPP}", code());
        assert_eq!(host.token("", body, 1000, 0x20), bad_request("invalid_grant"));
    }
}

#[test]
fn a_bound_code_is_compared_with_the_redirect_registered_now() {
    let mut host = Host::visit();
    let query = "response_type=code&client_id=s6BhdRkqt3&redirect_uri=https://client.example.com/cb";
    host.authorize(query, 1, 1000, 0x00);
    let mut clients = sample::visit_clients();
    clients[0] = Client::confidential("s6BhdRkqt3", "gX1fBat3bV", "https://client.example.com/new", 11);
    host.registry = sample::registry(&clients);
    let body = format!("grant_type=authorization_code&code={}&redirect_uri=https://client.example.com/", code());
    assert_eq!(host.token(BASIC, format!("{body}cb"), 1000, 0x20), bad_request("invalid_grant"));
    assert_eq!(host.token(BASIC, format!("{body}new"), 1000, 0x20).status, 200);
}

#[test]
fn a_handle_that_is_issued_again_is_a_new_code() {
    let mut host = Host::visit();
    let body = format!("grant_type=authorization_code&code={}{BY_BARNAPP}", code());
    for (clock, random, others) in [(1000, 0x20, 1), (1600, 0x60, 2), (2200, 0xa0, 3)] {
        host.authorize(BARNAPP, 1, clock, 0x00);
        assert_eq!(host.token("", &body, clock, random).status, 200);
        assert_eq!(host.token("", &body, clock, random), bad_request("invalid_grant"), "exchanged");
        // Once the spent code has run out, other codes take its slot and those before it.
        for other in 0..others {
            host.authorize(BARNAPP, 1, clock + 600, random + other);
        }
        assert!(sample::slots(&host.store).all(|slot| slot.handle != counting(0)));
    }
}

#[test]
fn a_header_counts_as_soon_as_it_is_not_empty() {
    let mut host = Host::visit();
    let body = "grant_type=refresh_token&client_id=s6BhdRkqt3";
    assert_eq!(host.token(" ", body, 1000, 0x20), unauthorized(true));
    assert_eq!(host.token("", body, 1000, 0x20), unauthorized(false));
    let with_secret = format!("{body}&client_secret=gX1fBat3bV");
    assert_eq!(host.token(" ", &with_secret, 1000, 0x20), bad_request("invalid_request"));
    assert_eq!(host.token([b'x'; 600], &with_secret, 1000, 0x20), bad_request("invalid_request"));
    assert_eq!(
        host.token(BASIC, format!("{body}&client_secret=&refresh_token=x"), 1000, 0x20),
        bad_request("invalid_grant")
    );
}

#[test]
fn the_header_is_split_at_its_first_colon_and_then_decoded() {
    let client = Client::confidential("a+%41 b", ":p%40+:", "https://colon.example/", 1);
    let mut host = Host::new(&[client]);
    let body = "grant_type=x";
    let coded = sample::basic_header(b"a%2B%2541+b", b":p%2540%2b%3A");
    assert_eq!(host.token(coded, body, 1000, 0x20), bad_request("unsupported_grant_type"));
    let as_it_stands = sample::basic_header(b"a+%41 b", b":p%40+:");
    assert_eq!(host.token(as_it_stands, body, 1000, 0x20), unauthorized(true));
}

#[test]
fn names_that_the_grant_does_not_use_may_not_be_repeated_either() {
    let mut host = Host::visit();
    for repeated in ["refresh_token=a&refresh_token=b", "scope=power&scope=power"] {
        let body = format!("grant_type=authorization_code&code={}&{repeated}", code());
        assert_eq!(host.token(BASIC, body, 1000, 0x20), bad_request("invalid_request"));
    }
    for repeated in ["code=a&code=b", "redirect_uri=a&redirect_uri=b", "code_verifier=a&code_verifier=b"] {
        let body = format!("grant_type=refresh_token&refresh_token={}&{repeated}", code());
        assert_eq!(host.token(BASIC, body, 1000, 0x20), bad_request("invalid_request"));
    }
}
