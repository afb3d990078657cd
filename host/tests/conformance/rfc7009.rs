//! The examples of RFC 7009, as far as they concern what is built. Its token is not of our form, so it is unknown.

use poplarchime_host::sample;

use crate::support::host::{
    bad_request, counting, exchange_body, refresh_body, revocation_body, revoked, unauthorized, Host, BASIC,
};

#[test]
fn section_2_1_a_client_asks_for_the_revocation_of_a_refresh_token() {
    let body = "token=45ghiukldjahdnhzdauz&token_type_hint=refresh_token";
    let mut host = Host::visit();
    assert_eq!(host.revoke(BASIC, body, 1000), revoked(), "section 2.2: for an invalid token too");
    assert_eq!(host.revoke("", body, 1000), unauthorized(false));
}

#[test]
fn section_2_1_with_a_refresh_token_of_ours() {
    let mut host = Host::visit();
    host.authorize("response_type=code&client_id=s6BhdRkqt3", 1, 1000, 0x00);
    assert_eq!(host.token(BASIC, exchange_body(&counting(0x00)), 1000, 0x20).status, 200);
    assert_eq!(host.token(BASIC, refresh_body(&counting(0x34)), 1000, 0x60).status, 200);
    let [access, later] = [0x20, 0x60].map(|first| sample::hex(&counting(first)));
    assert_eq!((host.check(&access, 1000).live, host.check(&later, 1000).live), (1, 1));
    let body = format!("{}&token_type_hint=refresh_token", revocation_body(&counting(0x34)));
    assert_eq!(host.revoke(BASIC, &body, 1000), revoked());
    assert_eq!((host.check(&access, 1000).live, host.check(&later, 1000).live), (0, 0));
    assert_eq!(host.token(BASIC, refresh_body(&counting(0x34)), 1000, 0xa0), bad_request("invalid_grant"));
    assert_eq!(host.revoke(BASIC, &body, 1000), revoked(), "once more");
}

/// First the client is authenticated; then the token must have been issued to it, else the request is refused.
#[test]
fn section_2_1_a_token_of_another_client() {
    let mut host = Host::visit();
    assert_eq!(host.token(BASIC, "grant_type=client_credentials", 1000, 0x20).status, 200);
    let body = revocation_body(&counting(0x20));
    assert_eq!(host.revoke("", format!("{body}&client_id=barnapp"), 1000), bad_request("invalid_grant"));
    assert_eq!(host.check(sample::hex(&counting(0x20)), 1000).live, 1);
}

/// A server that does not find the token by the hint looks among all kinds of tokens, and a hint that it does not know
/// is ignored (section 2.2).
#[test]
fn section_2_1_the_hint_is_no_more_than_a_hint() {
    for hint in ["", "&token_type_hint=access_token", "&token_type_hint=refresh_token", "&token_type_hint=saml"] {
        let mut host = Host::visit();
        host.authorize("response_type=code&client_id=s6BhdRkqt3", 1, 1000, 0x00);
        host.token(BASIC, exchange_body(&counting(0x00)), 1000, 0x20);
        assert_eq!(host.revoke(BASIC, revocation_body(&counting(0x20)) + hint, 1000), revoked());
        assert_eq!(host.check(sample::hex(&counting(0x20)), 1000).live, 0, "{hint}");
        assert_eq!(host.revoke(BASIC, revocation_body(&counting(0x34)) + hint, 1000), revoked());
        assert_eq!(
            host.token(BASIC, refresh_body(&counting(0x34)), 1000, 0x60),
            bad_request("invalid_grant"),
            "{hint}"
        );
    }
}

/// Errors are told as RFC 6749 has it in section 5.2.
#[test]
fn section_2_2_1_error_response() {
    assert_eq!(Host::visit().revoke(BASIC, "token_type_hint=refresh_token", 1000), bad_request("invalid_request"));
    assert_eq!(Host::visit().revoke("Basic x", "token=x", 1000), unauthorized(true));
}
