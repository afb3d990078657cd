//! Verifiers at the token endpoint: what is well-formed, byte by byte, and where a fault comes among the others.

use poplarchime_host::sample::{self, Slot};

use super::{code, exchange, host_with, spends_nothing, CODE, NOW, PLACE};
use crate::support::host::{
    bad_request, counting, exchange_body, refresh_body, unauthorized, Host, Reply, BARNAPP, BASIC, BY_BARNAPP,
};
use crate::support::pkce::{appendix_b, challenge_text, Pair, CHALLENGE, UNRESERVED, VERIFIER};
use crate::support::writing;

/// The answer to this verifier, where the challenge is made from it.
fn brought(verifier: &[u8], written: &[u8]) -> Reply {
    let mut host = host_with(code().challenged(Pair::of(verifier).challenge));
    let before = host.clone();
    let body = [exchange_body(&CODE).as_bytes(), b"&code_verifier=", written].concat();
    let reply = host.token(BASIC, body, NOW, 0x20);
    if reply.status != 200 {
        assert_eq!(host.store[8..], before.store[8..], "{}", verifier.escape_ascii());
    }
    reply
}

/// The verifier's form alone decides, since its digest fits.
#[track_caller]
fn expect(verifier: &[u8], well_formed: bool) {
    let reply = brought(verifier, &writing::usual(verifier));
    match well_formed {
        true => assert_eq!(reply.status, 200, "{}", verifier.escape_ascii()),
        false => assert_eq!(reply, bad_request("invalid_grant"), "{}", verifier.escape_ascii()),
    }
}

#[test]
fn a_verifier_has_43_to_128_characters() {
    for length in (1..=300).chain([1000, 3900]) {
        expect(&vec![b'v'; length], (43..=128).contains(&length));
    }
}

#[test]
fn a_verifier_has_unreserved_characters_alone() {
    for byte in 0..=255 {
        let allowed = UNRESERVED.contains(&byte);
        for at in [0, 21, 42] {
            let mut verifier = VERIFIER.as_bytes().to_vec();
            verifier[at] = byte;
            expect(&verifier, allowed);
        }
        for length in [43, 128] {
            expect(&vec![byte; length], allowed);
        }
        let mut longest = [b'~'; 128];
        longest[127] = byte;
        expect(&longest, allowed);
    }
}

/// Its length is that of what the form's coding stands for.
#[test]
fn a_verifier_is_judged_after_decoding() {
    for length in [42, 43, 64, 128, 129] {
        let verifier = vec![b'-'; length];
        let well_formed = (43..=128).contains(&length);
        for written in [writing::full(&verifier), writing::full_small(&verifier)] {
            assert_eq!(written.len(), 3 * length);
            assert_eq!(brought(&verifier, &written).status == 200, well_formed, "{length}");
        }
    }
    // A `+` is a space, which no verifier has.
    let spaced = [&[b'a'; 42][..], b" "].concat();
    assert_eq!(brought(&spaced, &[&[b'a'; 42][..], b"+"].concat()), bad_request("invalid_grant"));
}

#[test]
fn every_bit_of_the_digest_counts() {
    for bit in 0..256 {
        let mut challenge = appendix_b().challenge;
        challenge[bit / 8] ^= 1 << (bit % 8);
        for code in [code(), code().bound(true)] {
            spends_nothing(&mut host_with(code.challenged(challenge)), &format!("&code_verifier={VERIFIER}"));
        }
    }
}

#[test]
fn every_character_of_the_verifier_counts() {
    let mut host = host_with(code().challenged(appendix_b().challenge));
    for at in 0..VERIFIER.len() {
        for &byte in UNRESERVED.iter().filter(|&&byte| byte != VERIFIER.as_bytes()[at]) {
            let mut verifier = VERIFIER.as_bytes().to_vec();
            verifier[at] = byte;
            spends_nothing(&mut host, &format!("&code_verifier={}", verifier.escape_ascii()));
        }
    }
    assert_eq!(exchange(&mut host, &format!("&code_verifier={VERIFIER}")).status, 200, "nothing was spent");
}

#[test]
fn what_is_no_verifier_of_the_code() {
    let mut host = host_with(code().challenged(appendix_b().challenge));
    let hex = sample::hex(&appendix_b().challenge);
    for verifier in [
        "".into(),
        CHALLENGE.into(),
        hex.clone(),
        hex.to_uppercase(),
        VERIFIER.to_lowercase(),
        format!("{VERIFIER}+"),
        format!("+{VERIFIER}"),
        format!("{VERIFIER}%00"),
        format!("{VERIFIER}="),
        format!("{VERIFIER}{VERIFIER}"),
        VERIFIER[1..].into(),
        VERIFIER[..42].into(),
        challenge_text(&[0; 32]),
    ] {
        spends_nothing(&mut host, &format!("&code_verifier={verifier}"));
    }
    for piece in ["".into(), format!("&code_challenge={VERIFIER}"), format!("&Code_verifier={VERIFIER}")] {
        spends_nothing(&mut host, &piece);
    }
    assert_eq!(exchange(&mut host, &format!("&code_verifier=&code_verifier={VERIFIER}")).status, 200);
}

/// A slot of zeros in the place of the challenge is a challenge too, which nobody can meet.
#[test]
fn a_challenge_of_zeros_is_one() {
    for code in [code(), code().bound(true)] {
        let mut host = host_with(code.challenged([0; 32]));
        for piece in ["".into(), "&code_verifier=".into(), format!("&code_verifier={VERIFIER}")] {
            spends_nothing(&mut host, &piece);
        }
    }
}

#[test]
fn a_refused_try_spends_nothing_and_the_code_is_good_afterwards() {
    let mut host = Host::visit();
    host.authorize(BARNAPP, 1, NOW, 0x00);
    let code = exchange_body(&counting(0));
    for wrong in ["", "&code_verifier=x", &format!("&code_verifier={CHALLENGE}")] {
        let body = format!("{code}&client_id=barnapp{wrong}");
        assert_eq!(host.token("", body, NOW, 0x20), bad_request("invalid_grant"), "{wrong}");
        assert_eq!(host.slot(0).kind, sample::CHALLENGED_CODE);
    }
    assert_eq!(host.token("", code.clone() + BY_BARNAPP, NOW, 0x20).status, 200);
    assert_eq!(host.token("", code + BY_BARNAPP, NOW, 0x60), bad_request("invalid_grant"), "spent now");
}

// ---- repeats

#[test]
fn a_repeated_verifier_is_an_invalid_request_at_every_grant() {
    let exchange = exchange_body(&CODE);
    let refresh = refresh_body(&[8; 20]);
    for body in
        [&exchange, &refresh, "grant_type=client_credentials", "grant_type=password", "grant_type=refresh_token"]
    {
        for again in [VERIFIER, "x", "%00"] {
            let mut host = host_with(code().challenged(appendix_b().challenge));
            host.set_slot(9, Slot::of(sample::REFRESH, [8; 20], 2000));
            let before = host.clone();
            let twice = format!("{body}&code_verifier={VERIFIER}&code%5Fverifier={again}");
            assert_eq!(host.token(BASIC, &twice, NOW, 0x20), bad_request("invalid_request"), "{twice}");
            assert_eq!(host.token("nonsense", &twice, NOW, 0x20), bad_request("invalid_request"), "{twice}");
            assert_eq!(host.store[8..], before.store[8..]);
        }
    }
    // The names of the authorization endpoint are unknown here.
    for name in ["code_challenge", "code_challenge_method", "state", "Code_verifier"] {
        let mut host = host_with(code().challenged(appendix_b().challenge));
        let body = format!("{exchange}&{name}=x&{name}=x&code_verifier={VERIFIER}");
        assert_eq!(host.token(BASIC, body, NOW, 0x20).status, 200, "{name}");
    }
}

// ---- the order

/// A wrong verifier is told where a wrong code is: behind the client's authentication, before room and clashes.
#[test]
fn the_place_of_a_wrong_verifier() {
    let challenged = code().challenged(appendix_b().challenge);
    let mut full = Host::visit();
    full.set_slots(0..sample::SLOTS, Slot::of(sample::REFRESH, counting(0x20), 5000));
    full.set_slot(PLACE, challenged);
    let right = format!("{}&code_verifier={VERIFIER}", exchange_body(&CODE));
    for wrong in [right.replace(VERIFIER, CHALLENGE), right.replace(VERIFIER, "x"), exchange_body(&CODE)] {
        for (header, pieces, reply) in [
            (BASIC, "&a=%4", bad_request("invalid_request")),
            (BASIC, "&scope=power&scope=power", bad_request("invalid_request")),
            ("Basic nonsense", "", unauthorized(true)),
            ("", "", unauthorized(false)),
            (BASIC, "", bad_request("invalid_grant")),
        ] {
            assert_eq!(full.clone().token(header, format!("{wrong}{pieces}"), NOW, 0x20), reply, "{wrong}{pieces}");
        }
        let unsupported = wrong.replace("authorization_code", "password");
        assert_eq!(full.clone().token(BASIC, unsupported, NOW, 0x20), bad_request("unsupported_grant_type"));
        let missing = wrong.replace("&code=", "&Code=");
        assert_eq!(full.clone().token(BASIC, missing, NOW, 0x20), bad_request("invalid_request"));
    }
    assert_eq!(full.token(BASIC, &right, NOW, 0x20).status, 503);
    let mut clash = host_with(challenged);
    clash.set_slot(9, Slot::of(sample::REFRESH, counting(0x34), NOW));
    assert_eq!(clash.token(BASIC, &right, NOW, 0x20).status, 500);
    assert_eq!(clash.slot(PLACE), challenged, "neither spends it");
    assert_eq!(clash.token(BASIC, &right, NOW, 0x60).status, 200);
}
