//! Id and secret in the Authorization header (RFC 6749 section 2.3.1), written out: each is form-coded by itself before
//! Basic puts them together. So what the header holds is split at its first colon, and then each half is decoded.

use std::slice::from_ref;

use poplarchime_host::sample::{self, Client};

use crate::support::host::{bad_request, counting, granted, unauthorized, Host};
use crate::support::writing;

const BODY: &str = "grant_type=client_credentials";

fn client(id: impl AsRef<[u8]>, secret: impl AsRef<[u8]>) -> Client {
    let (id, secret) = (id.as_ref().into(), Some(secret.as_ref().into()));
    Client { id, secret, ..Client::public("", "https://dryer.example/cb", 32) }
}

/// The number of the client that a header admits, which gets a token for itself. All others get `invalid_client`.
#[track_caller]
fn admitted(clients: &[Client], header: impl AsRef<[u8]>, body: &str) -> Option<u32> {
    let mut host = Host::new(clients);
    let reply = host.token(header, body, 1000, 0x20);
    if reply.status != 200 {
        assert_eq!(reply, unauthorized(true));
        return None;
    }
    Some(host.check(sample::hex(&counting(0x20)), 1000).client)
}

/// Whether a header with these halves, as they stand, admits the client.
#[track_caller]
fn admits(client: &Client, id: impl AsRef<[u8]>, secret: impl AsRef<[u8]>) -> bool {
    admitted(from_ref(client), sample::basic_header(id.as_ref(), secret.as_ref()), BODY).is_some()
}

/// Whether a header that holds these bytes admits the client.
#[track_caller]
fn admits_contents(client: &Client, contents: impl AsRef<[u8]>) -> bool {
    admitted(from_ref(client), sample::basic_header_of(contents.as_ref()), BODY).is_some()
}

#[test]
fn a_secret_with_a_percent_sign() {
    // `dryer:a%25b`, and `dryer:a%b` as it stands.
    let (coded, as_it_stands) = ("Basic ZHJ5ZXI6YSUyNWI=", "Basic ZHJ5ZXI6YSVi");
    let mut host = Host::new(&[client("dryer", "a%b")]);
    let reply = "{\"access_token\":\"202122232425262728292a2b2c2d2e2f30313233\",\"token_type\":\"Bearer\",\
         \"expires_in\":3600,\"scope\":\"drying\"}";
    assert_eq!(host.token(coded, BODY, 1000, 0x20), granted(reply));
    assert_eq!(host.token(as_it_stands, BODY, 1000, 0x60), unauthorized(true));
    let in_the_body = format!("{BODY}&client_id=dryer&client_secret=a%25b");
    assert_eq!(host.token("", in_the_body, 1000, 0x60).status, 200, "coded as all else in a form");
}

#[test]
fn letters_and_digits_need_no_coding() {
    for (secret, header) in [
        ("gX1fBat3bV", "Basic czZCaGRSa3F0MzpnWDFmQmF0M2JW"),
        ("7Fjfp0ZBr1KtDRbnfVdmIw", "Basic czZCaGRSa3F0Mzo3RmpmcDBaQnIxS3REUmJuZlZkbUl3"),
    ] {
        let client = client("s6BhdRkqt3", secret);
        assert_eq!(admitted(from_ref(&client), header, BODY), Some(0), "the headers of RFC 6749");
        assert!(admits(&client, "s6B%68dRkqt%33", secret), "but they may be escaped");
        assert!(admits(&client, "s6BhdRkqt3", writing::full(secret.as_bytes())));
    }
}

// ---- which bytes a half stands for

#[test]
fn halves_are_not_tried_as_they_stand() {
    // A text, how it is coded, and what it is read as when it comes without being coded.
    for (text, coded, read) in [
        ("a+b", "a%2Bb", Some("a b")),
        ("a%41", "a%2541", Some("aA")),
        ("%25", "%2525", Some("%")),
        ("+", "%2b", Some(" ")),
        ("a%b", "a%25b", None),
        ("100%", "100%25", None),
        ("%", "%25", None),
    ] {
        let (as_secret, as_id) = (client("dryer", text), client(text, "secret"));
        assert!(admits(&as_secret, "dryer", coded), "{coded}");
        assert!(admits(&as_id, coded, "secret"), "{coded}");
        assert!(!admits(&as_secret, "dryer", text), "{text}");
        assert!(!admits(&as_id, text, "secret"), "{text}");
        if let Some(read) = read {
            assert!(admits(&client("dryer", read), "dryer", text), "{text}");
            assert!(admits(&client(read, "secret"), text, "secret"), "{text}");
        }
    }
}

#[test]
fn both_halves_are_decoded() {
    let client = client("x%41+", "%42+y");
    let (ids, secrets) = (["x%2541%2B", "x%41+"], ["%2542%2By", "%42+y"]);
    for (id, secret, right) in [
        (ids[0], secrets[0], true),
        (ids[0], secrets[1], false),
        (ids[1], secrets[0], false),
        (ids[1], secrets[1], false),
    ] {
        assert_eq!(admits(&client, id, secret), right, "{id}:{secret}");
    }
}

#[test]
fn every_character_may_be_escaped() {
    for byte in 0x20..=0x7e_u8 {
        let character = char::from(byte).to_string();
        let mut ways = vec![format!("%{byte:02X}"), format!("%{byte:02x}")];
        match byte {
            b'+' | b'%' => {}
            b' ' => ways.extend(["+".into(), character.clone()]),
            _ => ways.push(character.clone()),
        }
        for (before, behind) in [("", ""), ("", "x"), ("x", "y"), ("x", "")] {
            let text = format!("{before}{character}{behind}");
            for half in ways.iter().map(|way| format!("{before}{way}{behind}")) {
                assert!(admits(&client("dryer", &text), "dryer", &half), "{half}");
                // No id has a colon.
                assert!(byte == b':' || admits(&client(&text, "secret"), &half, "secret"), "{half}");
            }
        }
    }
}

#[test]
fn all_characters_together() {
    let of_secrets: Vec<u8> = (0x20..=0x7e).collect();
    let of_ids: Vec<u8> = of_secrets.iter().copied().filter(|&byte| byte != b':').collect();
    let writings = [writing::usual, writing::full, writing::full_small, |text: &[u8]| writing::sparse(text, b"%+")];
    for (id, secret) in of_ids.chunks(32).zip(of_secrets.chunks(64).cycle()) {
        for write_id in writings {
            for write_secret in writings {
                assert!(admits(&client(id, secret), write_id(id), write_secret(secret)));
            }
        }
    }
}

#[test]
fn ampersands_and_equals_signs_stand_for_themselves() {
    for text in ["&", "=", "a&", "&a", "a=", "=a", "a&b", "a=b", "a&b=c", "&&", "==", "a=1&a=2", "client_id=a"] {
        assert!(admits(&client("dryer", text), "dryer", text), "{text}");
        assert!(admits(&client(text, "secret"), text, "secret"), "{text}");
        assert!(!admits(&client("dryer", "a"), "dryer", text), "{text}");
        assert!(!admits(&client("a", "secret"), text, "secret"), "{text}");
    }
}

#[test]
fn bytes_that_no_registry_has() {
    let client = client("dryer", "secret");
    for byte in (0..0x20).chain(0x7f..=0xff) {
        for odd in [vec![byte], writing::full(&[byte]), writing::full_small(&[byte])] {
            for (before, behind) in [(&odd[..], &b""[..]), (b"", &odd)] {
                assert!(!admits(&client, [before, b"dryer", behind].concat(), "secret"), "{byte:02x}");
                assert!(!admits(&client, "dryer", [before, b"secret", behind].concat()), "{byte:02x}");
            }
        }
    }
    assert!(!admits(&client, "drye%F2", "secret"), "r with its highest bit set");
    assert!(!admits(&client, "dryer", "secre%F4"), "t with its highest bit set");
}

// ---- the colon

#[test]
fn the_first_colon_parts_them_before_they_are_decoded() {
    let with_a_colon = client("a", "b:c");
    for contents in ["a:b:c", "a:b%3Ac", "a:b%3ac", "%61:b:c", "a:%62:%63", "a:%62%3A%63"] {
        assert!(admits_contents(&with_a_colon, contents), "{contents}");
    }
    for contents in
        ["a%3Ab:c", "a%3ab:c", "a%3Ab%3Ac", "a%3A:b:c", "a::b:c", ":a:b:c", "a:b%253Ac", "a:b:c:", "a:b:c%3A", "a:b"]
    {
        assert!(!admits_contents(&with_a_colon, contents), "{contents}");
    }
    let only_a_colon = client("a", ":");
    for (contents, right) in [("a::", true), ("a:%3A", true), ("a:", false), ("a%3A:", false), ("a%3A%3A", false)] {
        assert_eq!(admits_contents(&only_a_colon, contents), right, "{contents}");
    }
}

#[test]
fn an_escaped_colon_in_the_id_is_nobodys() {
    let clients = [client("a", "b:c"), client("a%3Ab", "c"), client("ab", "c"), client("b", "c")];
    for (contents, number) in [("a%3Ab:c", None), ("a%3ab:c", None), ("%3Ab:c", None), ("a%253Ab:c", Some(1))] {
        assert_eq!(admitted(&clients, sample::basic_header_of(contents.as_bytes()), BODY), number, "{contents}");
    }
}

#[test]
fn empty_halves() {
    let client = client("dryer", "secret");
    for contents in ["", ":", "::", "dryer:", ":secret", "dryer", "secret", "dryersecret", "dryer%3Asecret"] {
        assert!(!admits_contents(&client, contents), "{contents}");
    }
    // A public client has no secret, which is not the same as an empty one.
    let public = Client { secret: None, ..client };
    for contents in ["dryer:", "%64ryer:", "dryer:%00", "dryer:+", "dryer"] {
        assert!(!admits_contents(&public, contents), "{contents}");
    }
}

// ---- malformed halves

#[test]
fn a_bad_percent_in_either_half() {
    // What stands before and behind it, coded and decoded.
    let places = [
        (["", ""], ["", ""]),
        (["", "xy"], ["", "xy"]),
        (["x", "yz"], ["x", "yz"]),
        (["x", ""], ["x", ""]),
        (["%41+", "+%42"], ["A ", " B"]),
    ];
    for bad in ["%", "%4", "%zz", "%4g", "%g4", "%%41", "%+1", "%-1", "% 41", "%u0041", "%G0"] {
        for ([before, behind], [read_before, read_behind]) in places {
            let half = format!("{before}{bad}{behind}");
            // Taken as it stands, the `%` taken for itself, left out, or taken for the end; a missing digit taken for 0.
            let literally = format!("{read_before}{bad}{read_behind}");
            let skipped = format!("{read_before}{read_behind}");
            let as_zero = format!("{read_before}@{read_behind}");
            let readings = [&half, &literally, &skipped, read_before, &as_zero];
            for read in readings.into_iter().filter(|read| !read.is_empty()) {
                assert!(!admits(&client("dryer", read), "dryer", &half), "{half} as {read}");
                assert!(!admits(&client(read, "secret"), &half, "secret"), "{half} as {read}");
                assert!(!admits(&client(read, read), &half, &half), "{half} as {read}");
            }
        }
    }
}

#[test]
fn two_hex_digits_and_nothing_else() {
    // Every id of one byte, so that somebody has it whatever byte a bad escape is taken for.
    let ids: Vec<Client> = (0x20..=0x7e).filter(|&byte| byte != b':').map(|byte| client([byte], "secret")).collect();
    let mut hosts: Vec<Host> = ids.chunks(64).map(Host::new).collect();
    let value = |digit: u8| char::from(digit).to_digit(16).map(|value| value as u8);
    for high in 0x20..=0x7e_u8 {
        for low in 0x20..=0x7e_u8 {
            let half = [b'%', high, low];
            let read = value(high).zip(value(low)).map(|(high, low)| high * 16 + low);
            if let Some(byte @ 0x20..=0x7e) = read {
                assert!(admits(&client("dryer", [byte]), "dryer", half), "{}", half.escape_ascii());
                continue;
            }
            assert!(!admits(&client("dryer", half), "dryer", half), "{}", half.escape_ascii());
            for host in &mut hosts {
                let reply = host.token(sample::basic_header(&half, b"secret"), BODY, 1000, 0x20);
                assert_eq!(reply, unauthorized(true), "{}", half.escape_ascii());
            }
        }
    }
}

/// Headers of which one half or both are malformed, each for a host that has the halves registered as they stand.
fn malformed_headers() -> [(Host, Vec<u8>); 3] {
    [("dryer", "a%b"), ("dryer%", "secret"), ("dryer%4", "%zz")].map(|(id, secret)| {
        let header = sample::basic_header(id.as_bytes(), secret.as_bytes());
        (Host::new(&[client(id, secret)]), header)
    })
}

#[test]
fn what_comes_before_a_malformed_half() {
    for (mut host, header) in malformed_headers() {
        for body in [
            "scope=drying",
            "grant_type=client_credentials&a=%4",
            "grant_type=client_credentials&scope=drying&scope=drying",
            "grant_type=client_credentials&client_id=dryer&client_id=dryer",
            "grant_type=client_credentials&client_secret=secret",
            "grant_type=client_credentials&client_id=dryer&client_secret=a%25b",
        ] {
            assert_eq!(host.token(&header, body, 1000, 0x20), bad_request("invalid_request"), "{body}");
        }
    }
}

#[test]
fn what_comes_behind_a_malformed_half() {
    for (mut host, header) in malformed_headers() {
        for body in [
            "grant_type=client_credentials",
            "grant_type=client_credentials&client_secret=",
            "grant_type=client_credentials&client_id=dryer",
            "grant_type=client_credentials&client_id=dryer%25",
            "grant_type=client_credentials&client_id=other",
            "grant_type=client_credentials&scope=nonsense",
            "grant_type=password",
            "grant_type=authorization_code",
            "grant_type=refresh_token&refresh_token=nonsense",
        ] {
            assert_eq!(host.token(&header, body, 1000, 0x20), unauthorized(true), "{body}");
        }
    }
}

// ---- whose id it is

#[test]
fn the_client_is_looked_up_by_its_decoded_id() {
    // The first id, as it stands, is how the second may be coded.
    let clients = [client("a%41", "secret"), client("aA", "secret")];
    for (half, number) in [
        ("a%2541", Some(0)),
        ("%61%25%34%31", Some(0)),
        ("a%41", Some(1)),
        ("aA", Some(1)),
        ("%61%41", Some(1)),
        ("a%252541", None),
    ] {
        assert_eq!(admitted(&clients, sample::basic_header(half.as_bytes(), b"secret"), BODY), number, "{half}");
    }
}

#[test]
fn the_bodys_client_id_is_compared_with_the_decoded_id() {
    let clients = [client("a%41", "secret"), client("aA", "secret"), client("b", "secret")];
    // Both are client 1's. In the body `%41` is an A too, and `%2541` is `%41`.
    for half in ["a%41", "%61%41"] {
        let header = sample::basic_header(half.as_bytes(), b"secret");
        for client_id in ["aA", "a%41", "%61A", ""] {
            let body = format!("{BODY}&client_id={client_id}");
            assert_eq!(admitted(&clients, &header, &body), Some(1), "{half} and {client_id}");
        }
        for client_id in ["a%2541", "%2561%2541", "a%252541", "b", "a", "aB", "aA+", "aA%00", "A", "aa"] {
            let body = format!("{BODY}&client_id={client_id}");
            assert_eq!(admitted(&clients, &header, &body), None, "{half} and {client_id}");
        }
        for repeated in ["client_id=aA&client_id=aA", "client_id=aA&client_id=a%2541"] {
            let reply = Host::new(&clients).token(&header, format!("{BODY}&{repeated}"), 1000, 0x20);
            assert_eq!(reply, bad_request("invalid_request"), "{repeated}");
        }
    }
}

// ---- lengths

#[test]
fn credentials_of_every_length_may_be_escaped_in_full() {
    let text = b"0123456789-abcdefghijklmnopqrstuvwxyz_ABCDEFGHIJKLMNOPQRSTUVWXYZ";
    for length in 1..=64 {
        let (id, secret) = (&text[..length.min(32)], &text[..length]);
        assert!(admits(&client(id, secret), writing::full(id), writing::full(secret)), "{length}");
        assert!(admits(&client(id, secret), writing::full(id), secret), "{length}");
        assert!(admits(&client(id, secret), id, writing::full(secret)), "{length}");
    }
}

#[test]
fn the_longest_header_has_394_bytes() {
    let client = client([b'~'; 32], [b'%'; 64]);
    let header = sample::basic_header(&writing::full(&[b'~'; 32]), &writing::full(&[b'%'; 64]));
    assert_eq!(header.len(), 394);
    assert_eq!(admitted(from_ref(&client), &header, BODY), Some(0));
    for more in 1..=300 {
        for byte in [b'A', b'=', b' '] {
            let longer = [&header[..], &vec![byte; more]].concat();
            assert_eq!(admitted(from_ref(&client), longer, BODY), None, "{more} bytes more");
        }
    }
}

#[test]
fn longer_halves_are_refused_and_not_cut() {
    for (id, secret) in [([b'i'; 32].to_vec(), [b's'; 64].to_vec()), (b"i".to_vec(), b"s".to_vec())] {
        let client = client(&id, &secret);
        for write in [writing::usual, writing::full] {
            for byte in [b'x', b' ', 0] {
                for more in 1..=400 {
                    let longer = |text: &[u8]| write(&[text, &vec![byte; more]].concat());
                    assert!(!admits(&client, longer(&id), write(&secret)), "{more} bytes more");
                    assert!(!admits(&client, write(&id), longer(&secret)), "{more} bytes more");
                }
            }
        }
    }
}

#[test]
fn nonsense_of_every_length() {
    let client = client("dryer", "a%b");
    for length in (0..=400).chain([1_000, 10_000]) {
        for piece in ["x", "+", "%41", "%25", "%3A", ":", "%", "%4", "&=", "\0", "a%b", "dryer:"] {
            let nonsense: Vec<u8> = piece.bytes().cycle().take(length).collect();
            for front in ["", "dryer:", "dryer:a%25b"] {
                let right = front == "dryer:a%25b" && length == 0;
                let contents = [front.as_bytes(), &nonsense].concat();
                assert_eq!(admits_contents(&client, contents), right, "{length} bytes of {piece:?} behind {front:?}");
            }
        }
        let zeros = format!("Basic {}", "A".repeat(length));
        assert_eq!(admitted(from_ref(&client), zeros, BODY), None, "{length} digits of base64");
    }
}
