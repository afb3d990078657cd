//! The examples of RFC 6749, as far as they concern what is built. Its tokens are not of our form, so they are unknown.

use poplarchime_host::sample::Client;

use crate::support::host::{bad_request, granted, redirected, unauthorized, Authorized, Host, BARNAPP, BASIC};

const CODE: &str = "000102030405060708090a0b0c0d0e0f10111213";

/// The client of sections 4 to 6.
fn host() -> Host {
    Host::visit()
}

#[test]
fn section_2_3_1_credentials_in_the_header_and_in_the_body() {
    let client = Client::confidential("s6BhdRkqt3", "7Fjfp0ZBr1KtDRbnfVdmIw", "https://client.example.com/cb", 11);
    let mut host = Host::new(&[client]);
    let header = "Basic czZCaGRSa3F0Mzo3RmpmcDBaQnIxS3REUmJuZlZkbUl3";
    let body = "grant_type=refresh_token&refresh_token=tGzv3JOkF0XG5Qx2TlKWIA";
    let with_secret = format!("{body}&client_id=s6BhdRkqt3&client_secret=7Fjfp0ZBr1KtDRbnfVdmIw");
    assert_eq!(host.token(header, body, 1000, 0), bad_request("invalid_grant"));
    assert_eq!(host.token("", &with_secret, 1000, 0), bad_request("invalid_grant"));
    assert_eq!(host.token(header, &with_secret, 1000, 0), bad_request("invalid_request"), "one method at a time");
    assert_eq!(host.token("", body, 1000, 0), unauthorized(false));
    assert_eq!(host.token(BASIC, body, 1000, 0), unauthorized(true), "another secret");
}

#[test]
fn section_3_1_names_without_value_unknown_names_and_repeats() {
    let mut host = host();
    let code = redirected(&format!("https://barn.example/r?x=1&code={CODE}"));
    assert_eq!(host.authorize(format!("{BARNAPP}&scope=&state=&redirect_uri=&code_challenge="), 1, 1000, 0), code);
    let mut host = Host::visit();
    assert_eq!(host.authorize(format!("{BARNAPP}&nonce=1&nonce=2"), 1, 1000, 0), code);
    let repeated = redirected("https://barn.example/r?x=1&error=invalid_request");
    assert_eq!(host.authorize(format!("{BARNAPP}&response_type=code"), 1, 1000, 0), repeated);
    assert_eq!(host.authorize(format!("{BARNAPP}&client_id=barnapp"), 1, 1000, 0), Authorized::Refused(6));
}

#[test]
fn section_4_1_authorization_code_grant() {
    let mut host = host();
    let query = "response_type=code&client_id=s6BhdRkqt3&state=xyz\
         &redirect_uri=https%3A%2F%2Fclient%2Eexample%2Ecom%2Fcb";
    let code = format!("https://client.example.com/cb?code={CODE}&state=xyz");
    assert_eq!(host.authorize(query, 1, 1000, 0), redirected(&code));
    let denied = "https://client.example.com/cb?error=access_denied&state=xyz";
    assert_eq!(host.authorize(query, 0, 1000, 0), redirected(denied));
    let body = "grant_type=authorization_code&code=SplxlOBeZQQYbYS6WxSbIA\
         &redirect_uri=https%3A%2F%2Fclient%2Eexample%2Ecom%2Fcb";
    assert_eq!(host.token(BASIC, body, 1000, 0x20), bad_request("invalid_grant"));
    assert_eq!(host.token(BASIC, body.replace("SplxlOBeZQQYbYS6WxSbIA", CODE), 1000, 0x20).status, 200);
}

#[test]
fn section_4_1_2_a_code_is_used_once() {
    let mut host = host();
    host.authorize("response_type=code&client_id=s6BhdRkqt3", 1, 1000, 0);
    let body = format!("grant_type=authorization_code&code={CODE}");
    assert_eq!(host.token(BASIC, &body, 1000, 0x20).status, 200);
    let access = "202122232425262728292a2b2c2d2e2f30313233";
    assert_eq!(host.check(access, 1000).live, 1);
    assert_eq!(host.token(BASIC, &body, 1000, 0x60), bad_request("invalid_grant"), "must be denied");
    assert_eq!(host.check(access, 1000).live, 0, "and what was issued on it revoked");
}

#[test]
fn section_4_2_implicit_grant_is_left_out() {
    let query = "response_type=token&client_id=s6BhdRkqt3&state=xyz\
         &redirect_uri=https%3A%2F%2Fclient%2Eexample%2Ecom%2Fcb";
    let location = "https://client.example.com/cb?error=unsupported_response_type&state=xyz";
    assert_eq!(host().authorize(query, 1, 1000, 0), redirected(location));
}

#[test]
fn section_4_3_password_grant_is_left_out() {
    let body = "grant_type=password&username=johndoe&password=A3ddj3w";
    assert_eq!(host().token(BASIC, body, 1000, 0), bad_request("unsupported_grant_type"));
}

#[test]
fn section_4_4_client_credentials_grant() {
    let reply = "{\"access_token\":\"000102030405060708090a0b0c0d0e0f10111213\",\"token_type\":\"Bearer\",\
         \"expires_in\":3600,\"scope\":\"power peak bill\"}";
    assert_eq!(host().token(BASIC, "grant_type=client_credentials", 1000, 0), granted(reply));
    assert_eq!(host().token("", "grant_type=client_credentials", 1000, 0), unauthorized(false), "must authenticate");
}

#[test]
fn section_4_5_extension_grant_without_a_client() {
    let body = "grant_type=urn%3Aietf%3Aparams%3Aoauth%3Agrant-type%3Asaml2-bearer&assertion=PEFzc2VydGlvbiBJc3N1ZUluc3RhbnQ9IjIwMTEtMDU";
    assert_eq!(host().token("", body, 1000, 0), unauthorized(false));
    assert_eq!(host().token(BASIC, body, 1000, 0), bad_request("unsupported_grant_type"));
}

#[test]
fn section_5_2_error_response() {
    let reply = host().token(BASIC, "", 1000, 0);
    assert_eq!((reply.status, &reply.body[..]), (400, "{\"error\":\"invalid_request\"}"));
}

#[test]
fn section_6_refreshing_an_access_token() {
    let body = "grant_type=refresh_token&refresh_token=tGzv3JOkF0XG5Qx2TlKWIA";
    assert_eq!(host().token(BASIC, body, 1000, 0), bad_request("invalid_grant"));
}
