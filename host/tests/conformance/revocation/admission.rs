//! Who is admitted to a revocation, what is refused before a token is looked for, and what each answer leaves.

use poplarchime_host::sample;

use super::{body, cleared_by, host, token, ACCESS, AS_BARNAPP, NOTHING, NOW, REFRESH};
use crate::support::call::{Call, Request};
use crate::support::compare::run_both;
use crate::support::host::{bad_request, revocation_body, revoked, unauthorized, Host, Reply, BASIC};

const IN_BODY: &str = "&client_id=s6BhdRkqt3&client_secret=gX1fBat3bV";

#[test]
fn a_client_shows_its_credentials_as_at_the_token_endpoint() {
    let access = body(sample::ACCESS);
    for (header, body) in [
        (BASIC, access.clone()),
        (BASIC, format!("{access}&client_id=s6BhdRkqt3")),
        (BASIC, format!("{access}&client_id=&client_secret=")),
        ("basic czZCaGRSa3F0MzpnWDFmQmF0M2JW", access.clone()),
        ("", access.clone() + IN_BODY),
    ] {
        assert_eq!(cleared_by(&mut host(), header, &body, NOW), [ACCESS], "{header} {body}");
    }
    let mut host = host();
    host.set_slot(9, sample::Slot { client: 1, handle: [9; 20], ..token(sample::ACCESS) });
    let public = revocation_body(&[9; 20]) + AS_BARNAPP;
    assert_eq!(host.revoke("Basic YmFybmFwcDo=", &public, NOW), unauthorized(true), "a public client has no header");
    assert_eq!(host.revoke("", format!("{public}&client_secret=x"), NOW), unauthorized(false), "and no secret");
    assert_eq!(cleared_by(&mut host, "", &public, NOW), [9]);
}

/// The answer to these credentials, at the token endpoint and here.
fn both_answers(header: &[u8], credentials: &str) -> [Reply; 2] {
    let mut host = host();
    let for_token = host.token(header, format!("grant_type=x{credentials}"), NOW, 0x20);
    [for_token, host.revoke(header, format!("token=x{credentials}"), NOW)]
}

#[test]
fn both_endpoints_admit_the_same_clients() {
    let headers: [&[u8]; 12] = [
        b"",
        BASIC.as_bytes(),
        b"BASIC czZCaGRSa3F0MzpnWDFmQmF0M2JW",
        b"Basic  czZCaGRSa3F0MzpnWDFmQmF0M2JW",
        b"Basic czZCaGRSa3F0MzpnWDFmQmF0M2JX",
        b"Basic czZCaGRSa3F0MzpnWDFmQmF0M2J",
        b"Bearer czZCaGRSa3F0MzpnWDFmQmF0M2JW",
        b"Basic YmFybmFwcDo=",
        b"Basic YmFybmFwcA==",
        b"Basic ",
        b" ",
        &[b'x'; 513],
    ];
    let credentials = [
        "",
        "&client_id=s6BhdRkqt3",
        "&client_id=barnapp",
        "&client_id=nobody",
        "&client_secret=gX1fBat3bV",
        IN_BODY,
        "&client_id=s6BhdRkqt3&client_secret=wrong",
        "&client_id=barnapp&client_secret=x",
        "&client_id=barnapp&client_secret=",
        "&client_id=barnapp&client_id=barnapp",
        "&client_id=s6BhdRkqt3&client_secret=gX1fBat3bV&client_secret=gX1fBat3bV",
    ];
    let mut admitted = 0;
    for header in headers {
        for credentials in credentials {
            let [for_token, here] = both_answers(header, credentials);
            match here == revoked() {
                true => assert_eq!(for_token, bad_request("unsupported_grant_type"), "{credentials}"),
                false => assert_eq!(for_token, here, "{} {credentials}", header.escape_ascii()),
            }
            admitted += usize::from(here == revoked());
        }
    }
    // Without a header the public client, also with an empty secret, and the other by its secret; by a sound header, of
    // which there are two, the client with its id beside it or none.
    assert_eq!(admitted, 3 + 2 * 2);
}

// ---- the order of refusals

#[test]
fn earlier_refusals_clear_nothing() {
    let body = body(sample::REFRESH);
    let long = "p".repeat(4096);
    for (header, body, reply) in [
        (BASIC, format!("{body}&a=%4"), bad_request("invalid_request")),
        (BASIC, format!("{body}&x={long}"), bad_request("invalid_request")),
        (BASIC, format!("{body}&{body}"), bad_request("invalid_request")),
        (BASIC, format!("{body}&token_type_hint=a&token_type_hint=a"), bad_request("invalid_request")),
        (BASIC, format!("{body}&client_id=a&client_id=a"), bad_request("invalid_request")),
        (BASIC, format!("{body}&client_secret=a&client_secret=a"), bad_request("invalid_request")),
        (BASIC, body.replace("token", "Token"), bad_request("invalid_request")),
        (BASIC, "token=&token_type_hint=refresh_token".into(), bad_request("invalid_request")),
        (BASIC, String::new(), bad_request("invalid_request")),
        (BASIC, body.clone() + IN_BODY, bad_request("invalid_request")),
        ("nonsense", format!("{body}&client_secret=x"), bad_request("invalid_request")),
        ("nonsense", "token_type_hint=access_token".into(), bad_request("invalid_request")),
        ("nonsense", body.clone(), unauthorized(true)),
        ("", body.clone(), unauthorized(false)),
        ("", format!("{body}&client_id=s6BhdRkqt3"), unauthorized(false)),
        ("", format!("{body}&client_id=s6BhdRkqt3&client_secret=wrong"), unauthorized(false)),
        (BASIC, body.clone() + AS_BARNAPP, unauthorized(true)),
        ("", body.clone() + AS_BARNAPP, bad_request("invalid_grant")),
    ] {
        let mut host = host();
        assert_eq!(host.revoke(header, &body, NOW), reply, "{header} {body}");
        assert_eq!(host.cleared_since(&self::host()), NOTHING);
        assert_eq!(sample::latest(&host.store), NOW, "but the time is stored");
    }
    assert_eq!(cleared_by(&mut host(), "", &(body + IN_BODY), NOW), [ACCESS, REFRESH]);
}

#[test]
fn names_of_the_other_endpoints_are_not_known_here() {
    let names = [
        "grant_type",
        "code",
        "redirect_uri",
        "refresh_token",
        "scope",
        "code_verifier",
        "response_type",
        "state",
        "code_challenge",
        "code_challenge_method",
    ];
    let body = body(sample::ACCESS);
    for name in names {
        assert_eq!(cleared_by(&mut host(), BASIC, &format!("{name}=a&{body}&{name}=b"), NOW), [ACCESS], "{name}");
        let instead = format!("{name}={}", &body["token=".len()..]);
        assert_eq!(host().revoke(BASIC, instead, NOW), bad_request("invalid_request"), "{name}");
    }
    let all: String = names.iter().map(|name| format!("&{name}=a&{name}=b")).collect();
    assert_eq!(cleared_by(&mut host(), BASIC, &(body + &all), NOW), [ACCESS]);
    // Nor are its names known to the token endpoint.
    let mut host = host();
    let repeated = "grant_type=client_credentials&token=a&token=b&token_type_hint=a&token_type_hint=b";
    assert_eq!(host.token(BASIC, repeated, NOW, 0x20).status, 200);
}

#[test]
fn an_empty_value_is_none() {
    let body = body(sample::ACCESS);
    for extra in ["&token=", "&token", "&token_type_hint=&token_type_hint", "&client_secret=", "&client_id"] {
        assert_eq!(cleared_by(&mut host(), BASIC, &format!("{body}{extra}"), NOW), [ACCESS], "{extra}");
    }
    for missing in ["", "&", "token", "token=", "token=&token=", "to%6ben="] {
        assert_eq!(host().revoke(BASIC, missing, NOW), bad_request("invalid_request"), "{missing}");
    }
    assert_eq!(cleared_by(&mut host(), BASIC, &body.replace("token", "%74oken"), NOW), [ACCESS]);
}

// ---- time and output

/// A revocation of client 0 with such an output, at such a clock.
fn call(host: &Host, header: &str, body: &str, clock: u64, output: usize) -> Call {
    let request = Request::Revoke { header: header.into(), body: body.into() };
    Call { request, registry: host.registry.clone(), clock, random: Vec::new(), output }
}

#[test]
fn every_answer_but_refusals_1_to_4_stores_the_time() {
    let access = body(sample::ACCESS);
    for (header, body, outcome) in [
        (BASIC, access.clone(), "200, tokens cleared"),
        (BASIC, body(9), "200"),
        (BASIC, "a=%".into(), "400 invalid_request"),
        ("", access.clone() + AS_BARNAPP, "400 invalid_grant"),
        ("", access.clone(), "401 invalid_client"),
        ("x", access.clone(), "401 invalid_client, challenge"),
    ] {
        for (latest, clock) in [(0, NOW), (NOW, 0), (NOW, NOW), (NOW - 1, NOW)] {
            let mut host = host();
            sample::set_latest(&mut host.store, latest);
            let after = run_both(&call(&host, header, &body, clock, 1024), &host.store);
            assert_eq!((after.outcome(), sample::latest(&after.store)), (outcome.into(), NOW), "{latest} {clock}");
        }
    }
}

#[test]
fn refusals_1_to_4_change_nothing_in_their_order() {
    type Spoil = fn(&mut Host, &mut Call);
    let spoils: [(&str, Spoil); 4] = [
        ("refusal 1", |_, call| call.output = 1023),
        ("refusal 2", |_, call| call.registry.push(0)),
        ("refusal 3", |host, _| host.store[sample::slot_range(9).end - 1] = 1),
        ("refusal 4", |_, call| call.clock = (1 << 40) + 1),
    ];
    for first in 0..4 {
        for last in first..4 {
            let mut host = host();
            let mut call = call(&host, BASIC, &body(sample::REFRESH), NOW, 1024);
            for (_, spoil) in &spoils[first..=last] {
                spoil(&mut host, &mut call);
            }
            let after = run_both(&call, &host.store);
            assert_eq!(after.outcome(), spoils[first].0);
            assert!(after.store == host.store);
        }
    }
    let host = host();
    let after = run_both(&call(&host, BASIC, &body(sample::REFRESH), 1 << 40, 1024), &host.store);
    assert_eq!(after.outcome(), "200", "the latest clock that there is; the token has run out by then");
}

#[test]
fn the_output_is_written_for_errors_alone() {
    let access = body(sample::ACCESS);
    for output in [1024, 1025, 5000] {
        for (header, body, text) in [
            (BASIC, access.clone(), ""),
            (BASIC, body(9), ""),
            ("", access.clone() + AS_BARNAPP, "{\"error\":\"invalid_grant\"}"),
            (BASIC, "token=".into(), "{\"error\":\"invalid_request\"}"),
            ("", access.clone(), "{\"error\":\"invalid_client\"}"),
        ] {
            let after = run_both(&call(&host(), header, &body, NOW, output), &host().store);
            assert_eq!(after.text(), text);
            let beyond = &after.output[text.len()..];
            assert_eq!(beyond.len(), output - text.len());
            assert!(beyond.iter().all(|byte| *byte == beyond[0]), "the rest is as it was");
        }
    }
    for output in [0, 1, 1022, 1023] {
        let after = run_both(&call(&host(), BASIC, &access, NOW, output), &host().store);
        assert_eq!((after.outcome(), after.store), ("refusal 1".into(), host().store));
    }
}
