//! Challenges and their method at the authorization endpoint: what is sound, byte by byte, and where a fault comes among
//! the others.

use poplarchime_host::sample::{self, Slot};

use crate::support::host::{counting, redirected, Authorized, Host};
use crate::support::pkce::{challenge_pieces, challenge_text, is_challenge, CHALLENGE};
use crate::support::writing;

const QUERY: &str = "response_type=code&client_id=s6BhdRkqt3";
const NOW: u64 = 1000;

fn sent_back(word: &str) -> Authorized {
    redirected(&format!("https://client.example.com/cb?error={word}"))
}

fn with_code() -> Authorized {
    redirected(&format!("https://client.example.com/cb?code={}", sample::hex(&counting(0))))
}

/// The answer to client 0 with these pieces behind its query.
fn ask(pieces: impl AsRef<[u8]>) -> Authorized {
    Host::visit().authorize([QUERY.as_bytes(), pieces.as_ref()].concat(), 1, NOW, 0x00)
}

/// The answer to this challenge with its method.
fn challenge_with(challenge: &[u8]) -> Authorized {
    ask([b"&code_challenge_method=S256&code_challenge=", &writing::usual(challenge)[..]].concat())
}

/// A challenge is taken or it is `invalid_request`.
#[track_caller]
fn expect(challenge: &[u8], sound: bool) {
    let expected = if sound { with_code() } else { sent_back("invalid_request") };
    assert_eq!(challenge_with(challenge), expected, "{}", challenge.escape_ascii());
}

#[test]
fn a_challenge_has_43_characters() {
    for length in 1..=100 {
        expect(&vec![b'A'; length], length == 43);
        let mut text = CHALLENGE.repeat(3).into_bytes();
        text.truncate(length);
        expect(&text, length == 43);
    }
    for length in [1000, 3900] {
        expect(&vec![b'A'; length], false);
    }
}

#[test]
fn every_byte_at_every_place_of_a_challenge() {
    for at in 0..43 {
        for byte in 0..=255 {
            let mut text = CHALLENGE.as_bytes().to_vec();
            text[at] = byte;
            expect(&text, is_challenge(&text));
        }
    }
}

/// The last character holds four bits of the digest and two spare ones, so that 16 characters may stand there.
#[test]
fn the_last_character_has_no_spare_bit() {
    let sound: Vec<u8> =
        (0..=255).filter(|&byte| challenge_with(&[&[b'A'; 42][..], &[byte]].concat()) == with_code()).collect();
    assert_eq!(sound, b"048AEIMQUYcgkosw");
}

#[test]
fn a_challenge_is_read_bit_by_bit() {
    for bit in 0..256 {
        for base in [0, 0xff] {
            let mut challenge = [base; 32];
            challenge[bit / 8] ^= 1 << (bit % 8);
            let mut host = Host::visit();
            let query = format!("{QUERY}{}", challenge_pieces(&challenge_text(&challenge)));
            assert_eq!(host.authorize(query, 1, NOW, 0x00), with_code());
            assert_eq!(host.slot(0).challenge(), challenge, "bit {bit}");
        }
    }
}

#[test]
fn the_two_alphabets_differ_in_two_characters() {
    let ones = challenge_text(&[0xff; 32]);
    assert_eq!(ones, format!("{}8", "_".repeat(42)));
    expect(ones.as_bytes(), true);
    expect(ones.replace('_', "/").as_bytes(), false);
    let dashes = challenge_text(&[0xfb, 0xef, 0xbe].repeat(11)[..32].try_into().expect("32 bytes"));
    assert!(dashes.starts_with(&"-".repeat(42)), "{dashes}");
    expect(dashes.as_bytes(), true);
    expect(dashes.replace('-', "+").as_bytes(), false);
    for padded in [format!("{CHALLENGE}="), format!("{}=", &CHALLENGE[..42]), format!("={CHALLENGE}")] {
        expect(padded.as_bytes(), false);
    }
}

/// What counts is what the form's coding stands for.
#[test]
fn a_challenge_is_judged_after_decoding() {
    let escaped = String::from_utf8(writing::full(CHALLENGE.as_bytes())).expect("escapes");
    assert_eq!(escaped.len(), 3 * 43);
    assert_eq!(ask(challenge_pieces(&escaped)), with_code());
    assert_eq!(ask(challenge_pieces(&CHALLENGE.replace('-', "%2d"))), with_code());
    for odd in ["%2B", "%2F", "%3D", "%20", "+", "%00", "%2D%2D"] {
        assert_eq!(ask(challenge_pieces(&CHALLENGE.replace('-', odd))), sent_back("invalid_request"), "{odd}");
    }
}

#[test]
fn the_method_is_exactly_s256() {
    let ask = |method: &str| ask(format!("&code_challenge={CHALLENGE}&code_challenge_method={method}"));
    for method in ["S256", "%53256", "%53%32%35%36"] {
        assert_eq!(ask(method), with_code(), "{method}");
    }
    for method in [
        "plain",
        "Plain",
        "s256",
        "S256+",
        "+S256",
        "S256%00",
        "S25",
        "S",
        "256",
        "S2566",
        "S-256",
        "S512",
        "SHA256",
        "S256%20",
        "S256,plain",
        "S256+plain",
        "S%32%35",
        "x",
        "",
    ] {
        assert_eq!(ask(method), sent_back("invalid_request"), "{method}");
    }
    for at in 0..4 {
        for byte in (0..=255_u8).filter(|&byte| byte != b"S256"[at]) {
            let mut method = *b"S256";
            method[at] = byte;
            let written = String::from_utf8(writing::full(&method)).expect("escapes");
            assert_eq!(ask(&written), sent_back("invalid_request"), "{written}");
        }
    }
}

#[test]
fn neither_comes_without_the_other() {
    for (pieces, sound) in [
        ("".into(), true),
        ("&code_challenge=&code_challenge_method=".into(), true),
        ("&code_challenge&code_challenge_method&code_challenge=".into(), true),
        (format!("&code_challenge={CHALLENGE}"), false),
        (format!("&code_challenge={CHALLENGE}&code_challenge_method="), false),
        ("&code_challenge_method=S256".into(), false),
        ("&code_challenge=&code_challenge_method=S256".into(), false),
        ("&code_challenge_method=plain".into(), false),
        (challenge_pieces(CHALLENGE), true),
        (format!("&code_challenge=&code_challenge_method={}", challenge_pieces(CHALLENGE)), true),
    ] {
        let expected = if sound { with_code() } else { sent_back("invalid_request") };
        assert_eq!(ask(&pieces), expected, "{pieces}");
    }
}

#[test]
fn neither_comes_twice() {
    let sound = challenge_pieces(CHALLENGE);
    for again in [
        format!("&code_challenge={CHALLENGE}"),
        "&code_challenge=x".into(),
        "&code%5Fchallenge=x".into(),
        "&code_challenge_method=S256".into(),
        "&code_challenge_method=plain".into(),
        "&%63ode_challenge_method=S256".into(),
        sound.clone(),
    ] {
        assert_eq!(ask(format!("{sound}{again}")), sent_back("invalid_request"), "{again}");
    }
    // Other names may: a verifier is of the token endpoint.
    assert_eq!(ask(format!("{sound}&code_verifier=x&code_verifier=x&Code_challenge=x&code_challenge+=x")), with_code());
}

// ---- the order

/// Queries with something wrong in the challenge or its method.
fn bad_challenges() -> [String; 5] {
    [
        format!("&code_challenge={CHALLENGE}"),
        "&code_challenge_method=S256".into(),
        challenge_pieces("x"),
        format!("&code_challenge={CHALLENGE}&code_challenge_method=plain"),
        format!("{0}{0}", challenge_pieces(CHALLENGE)),
    ]
}

/// A store in which every slot is live until 5000 and has the handle of the random bytes.
fn full() -> Host {
    let mut host = Host::visit();
    host.set_slots(0..sample::SLOTS, Slot::of(sample::REFRESH, counting(0), 5000));
    host
}

#[test]
fn a_bad_challenge_is_told_before_the_later_error_words() {
    for bad in bad_challenges() {
        for later in ["", "&scope=weather", "&scope=tariff"] {
            for decision in [0, 1] {
                let query = format!("{QUERY}{bad}{later}");
                assert_eq!(full().authorize(&query, decision, NOW, 0x00), sent_back("invalid_request"), "{query}");
                let query = query.replace("response_type=code", "response_type=token");
                assert_eq!(full().authorize(&query, decision, NOW, 0x00), sent_back("invalid_request"), "{query}");
            }
        }
        let with_state = redirected("https://client.example.com/cb?error=invalid_request&state=s");
        assert_eq!(ask(format!("{bad}&state=s")), with_state, "a sound state comes back");
    }
}

#[test]
fn a_bad_challenge_is_told_behind_the_error_pages() {
    for bad in bad_challenges() {
        for (pieces, refusal) in [
            ("&a=%4", 5),
            ("&client_id=s6BhdRkqt3", 6),
            ("&redirect_uri=https://client.example.com/cb&redirect_uri=x", 6),
            ("&redirect_uri=https://evil.example/", 7),
        ] {
            assert_eq!(ask(format!("{bad}{pieces}")), Authorized::Refused(refusal), "{bad}{pieces}");
        }
    }
}

#[test]
fn with_a_sound_challenge_the_later_ones_have_their_turn() {
    let query = format!("{QUERY}{}", challenge_pieces(CHALLENGE));
    let unsupported = query.replace("response_type=code", "response_type=token");
    assert_eq!(full().authorize(unsupported, 0, NOW, 0x00), sent_back("unsupported_response_type"));
    assert_eq!(full().authorize(format!("{query}&scope=weather"), 0, NOW, 0x00), sent_back("invalid_scope"));
    assert_eq!(full().authorize(&query, 0, NOW, 0x00), sent_back("access_denied"));
    assert_eq!(full().authorize(&query, 1, NOW, 0x00), sent_back("temporarily_unavailable"));
    assert_eq!(full().authorize(&query, 1, 5000, 0x00), sent_back("server_error"));
}
