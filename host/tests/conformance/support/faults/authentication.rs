//! The token endpoint and the revocation endpoint: reading the request and admitting the client.

use poplarchime_host::sample;

use super::texts::{cut, inside, longer, other_end, repeat};
use super::Apply;
use crate::support::draft::{Draft, Header};
use crate::support::rng::Rng;
use crate::support::writing;

pub const BODY: &[(&str, Apply)] = &[
    ("client_id twice", |d, _| repeat(d, "client_id")),
    ("client_secret twice", |d, _| repeat(d, "client_secret")),
    ("header and client_secret", |d, _| {
        let secret = d.asking().secret.clone().unwrap_or(b"x".into());
        d.header = Header::basic(&d.asking().id, &secret);
        d.params.set("client_secret", secret);
    }),
    ("header over 512 bytes and client_secret", |d, _| {
        d.header = [b'x'; 600].into();
        d.params.set("client_secret", "x");
    }),
    ("header of one space and client_secret", |d, _| {
        d.header = b" ".into();
        d.params.set("client_secret", "x");
    }),
    ("header with a malformed half and client_secret", |d, _| {
        d.header = sample::basic_header(&writing::usual(&d.asking().id), b"100%").into();
        d.params.set("client_secret", "x");
    }),
];

pub const AUTHENTICATION: &[(&str, Apply)] = &[
    // The header's shape.
    ("header over 512 bytes", |d, _| {
        let id = d.asking().id.clone();
        d.authenticate_by_header(Header::basic(&id, &[b'x'; 400]));
    }),
    ("header of one space", |d, _| d.authenticate_by_header(" ")),
    ("header without credentials", |d, _| d.authenticate_by_header("Basic ")),
    ("header of the scheme alone", |d, _| d.authenticate_by_header("Basic")),
    ("header of another scheme", |d, _| reshape(d, |encoded| format!("Bearer {encoded}"))),
    ("header of a longer scheme", |d, _| reshape(d, |encoded| format!("Basics {encoded}"))),
    ("header of a shorter scheme", |d, _| reshape(d, |encoded| format!("Basi {encoded}"))),
    ("header without a space", |d, _| reshape(d, |encoded| format!("Basic{encoded}"))),
    ("header with two spaces", |d, _| reshape(d, |encoded| format!("Basic  {encoded}"))),
    ("header with a tab", |d, _| reshape(d, |encoded| format!("Basic\t{encoded}"))),
    ("space before the header", |d, _| reshape(d, |encoded| format!(" Basic {encoded}"))),
    ("space behind the header", |d, _| reshape(d, |encoded| format!("Basic {encoded} "))),
    ("line end behind the header", |d, _| reshape(d, |encoded| format!("Basic {encoded}\r\n"))),
    // Base64.
    ("base64 with spare bits", |d, _| reshape(d, spare_bits)),
    ("base64 without padding", |d, _| {
        reshape(d, |encoded| match encoded.trim_end_matches('=') {
            bare if bare == encoded => format!("Basic {}", &encoded[..encoded.len() - 1]),
            bare => format!("Basic {bare}"),
        });
    }),
    ("base64 with too much padding", |d, _| reshape(d, |encoded| format!("Basic {encoded}===="))),
    ("base64 with one = too many", |d, _| reshape(d, |encoded| format!("Basic {encoded}="))),
    ("base64 with = inside", |d, _| reshape(d, |encoded| format!("Basic ={}", &encoded[1..]))),
    ("base64 with a digit of nothing and three =", |d, _| reshape(d, |encoded| format!("Basic {encoded}A==="))),
    ("base64 with - for +", |d, _| reshape(d, |encoded| format!("Basic {}", swap(encoded, '+', '-')))),
    ("base64 with _ for /", |d, _| reshape(d, |encoded| format!("Basic {}", swap(encoded, '/', '_')))),
    ("base64 with a space inside", |d, _| reshape(d, |encoded| format!("Basic {} {}", &encoded[..1], &encoded[2..]))),
    ("base64 with a line end inside", |d, _| {
        reshape(d, |encoded| {
            format!(
                "Basic {}
{}",
                &encoded[..2],
                &encoded[2..]
            )
        });
    }),
    // What the header holds.
    ("no colon in the header", |d, _| {
        let (id, secret) = credentials(d);
        d.authenticate_by_header(sample::basic_header_of(&[writing::usual(&id), writing::usual(&secret)].concat()));
    }),
    ("escaped colon in the place of the colon", |d, _| {
        let (id, secret) = credentials(d);
        let contents = [writing::usual(&id), writing::usual(&secret)].join(&b"%3A"[..]);
        d.authenticate_by_header(sample::basic_header_of(&contents));
    }),
    ("empty id in the header", |d, _| show(d, |_| Vec::new(), |secret| secret)),
    ("unknown id in the header", |d, _| show(d, |_| b"nobody".into(), |secret| secret)),
    ("id cut in the header", |d, _| show(d, |id| cut(&id), |secret| secret)),
    ("id longer in the header", |d, _| show(d, |id| longer(&id), |secret| secret)),
    ("id with a zero byte behind it", |d, _| show(d, |id| [&id[..], b"\0"].concat(), |secret| secret)),
    ("id with a colon behind it", |d, _| show(d, |id| [&id[..], b":"].concat(), |secret| secret)),
    ("no secret in the header", |d, _| show(d, |id| id, |_| Vec::new())),
    ("secret cut in the header", |d, _| show(d, |id| id, |secret| cut(&secret))),
    ("secret longer in the header", |d, _| show(d, |id| id, |secret| longer(&secret))),
    ("secret with a zero byte behind it", |d, _| show(d, |id| id, |secret| [&secret[..], b"\0"].concat())),
    ("secret with a colon before it", |d, _| show(d, |id| id, |secret| [b":", &secret[..]].concat())),
    ("secret with another last byte", |d, _| show(d, |id| id, |secret| other_end(&secret))),
    ("id and secret form-coded twice", |d, _| show(d, |id| writing::full(&id), |secret| writing::full(&secret))),
    ("secret of another client", |d, _| {
        let own = d.asking().secret.clone();
        let other =
            d.clients.iter().filter_map(|client| client.secret.clone()).find(|secret| Some(secret) != own.as_ref());
        let id = d.asking().id.clone();
        d.authenticate_by_header(Header::basic(&id, &other.unwrap_or(b"wrong".into())));
    }),
    ("public client with a header", |d, rng| public_header(d, rng, b"")),
    ("public client with a secret in the header", |d, rng| public_header(d, rng, b"secret")),
    // How the halves are coded.
    ("bad % before the id", |d, _| show_halves(d, |id| [b"%zz", &id[..]].concat(), |secret| secret)),
    ("bad % in the id", |d, _| show_halves(d, |id| inside(&id, b"%4g"), |secret| secret)),
    ("% behind the id", |d, _| show_halves(d, |id| [&id[..], b"%"].concat(), |secret| secret)),
    ("% with one digit behind the id", |d, _| show_halves(d, |id| [&id[..], b"%4"].concat(), |secret| secret)),
    ("bad % before the secret", |d, _| show_halves(d, |id| id, |secret| [b"%g4", &secret[..]].concat())),
    ("bad % in the secret", |d, _| show_halves(d, |id| id, |secret| inside(&secret, b"%+1"))),
    ("% behind the secret", |d, _| show_halves(d, |id| id, |secret| [&secret[..], b"%"].concat())),
    ("% with one digit behind the secret", |d, _| show_halves(d, |id| id, |secret| [&secret[..], b"%4"].concat())),
    ("& behind the id", |d, _| show_halves(d, |id| [&id[..], b"&"].concat(), |secret| secret)),
    ("secret behind a name", |d, _| show_halves(d, |id| id, |secret| [b"client_secret=", &secret[..]].concat())),
    ("secret a+b as it stands", |d, _| show_as_it_stands(d, b"a+b")),
    ("secret a%b as it stands", |d, _| show_as_it_stands(d, b"a%b")),
    ("secret a%41 as it stands", |d, _| show_as_it_stands(d, b"a%41")),
    ("any secret with a + or % as it stands", |d, rng| {
        // With a `%` it is malformed or becomes shorter, with a `+` alone it becomes another.
        let mut secret: Vec<u8> = (0..rng.between(0, 63)).map(|_| rng.between(0x20, 0x7e) as u8).collect();
        secret.insert(rng.below(secret.len() + 1), rng.pick(b"+%"));
        show_as_it_stands(d, &secret);
    }),
    // Header and body.
    ("another id in the body", |d, _| show_beside(d, |_| b"other".into())),
    ("id longer in the body", |d, _| show_beside(d, longer)),
    ("id in the body as the header has it", |d, _| {
        let (id, secret) = credentials(d);
        d.authenticate_by_header(writing::basic_header(&id, &secret, |text, _| writing::full(text)));
        d.params.set("client_id", writing::full(&id));
    }),
    // The body alone.
    ("no client_id at all", |d, _| {
        d.header = Header::NONE;
        d.params.remove("client_id");
    }),
    ("client_secret without client_id", |d, _| {
        d.header = Header::NONE;
        d.params.remove("client_id");
        d.params.set("client_secret", "gX1fBat3bV");
    }),
    ("unknown client_id in the body", |d, _| d.authenticate_in_body(b"nobody", None)),
    ("unknown client_id and secret in the body", |d, _| d.authenticate_in_body(b"nobody", Some(b"x"))),
    ("secret missing, or one too many", |d, _| show_in_body(d, |_| Vec::new())),
    ("wrong secret in the body", |d, _| show_in_body(d, |secret| other_end(&secret))),
    ("secret longer in the body", |d, _| show_in_body(d, |secret| longer(&secret))),
    ("client_id of 33 bytes in the body", |d, _| d.authenticate_in_body(&[b'a'; 33], None)),
];

/// Id and secret of the client that asks. A public one has no right secret; any header of it must fail.
fn credentials(draft: &Draft) -> (Vec<u8>, Vec<u8>) {
    let asking = draft.asking().clone();
    (asking.id, asking.secret.unwrap_or(b"none".into()))
}

/// A header with the right credentials in another shape. Little is escaped, so that base64 has all its digits.
fn reshape(draft: &mut Draft, shape: fn(&str) -> String) {
    let (id, secret) = credentials(draft);
    let header = String::from_utf8(writing::basic_header(&id, &secret, writing::sparse)).expect("base64");
    draft.authenticate_by_header(shape(header.trim_start_matches("Basic ")));
}

/// Sets a spare bit of the last digit; without spare bits, puts a digit too many.
fn spare_bits(encoded: &str) -> String {
    let bare = encoded.trim_end_matches('=');
    if bare == encoded {
        return format!("Basic {encoded}A");
    }
    let (front, last) = bare.split_at(bare.len() - 1);
    // The spare bits of the right last digit are zero, so the next digit of the alphabet has the lowest one set.
    let next = match last.as_bytes()[0] {
        b'Z' => b'a',
        b'z' => b'0',
        b'9' => b'+',
        digit => digit + 1,
    };
    format!("Basic {front}{}{}", char::from(next), &encoded[bare.len()..])
}

/// One digit written as another; without any such digit, the first one.
fn swap(encoded: &str, digit: char, other: char) -> String {
    match encoded.contains(digit) {
        true => encoded.replace(digit, &other.to_string()),
        false => format!("{other}{}", &encoded[1..]),
    }
}

/// A header with id and secret changed before they are coded.
fn show(draft: &mut Draft, id: fn(Vec<u8>) -> Vec<u8>, secret: fn(Vec<u8>) -> Vec<u8>) {
    let (own_id, own_secret) = credentials(draft);
    draft.authenticate_by_header(Header::basic(&id(own_id), &secret(own_secret)));
}

/// A header with id and secret changed after they are coded.
fn show_halves(draft: &mut Draft, id: fn(Vec<u8>) -> Vec<u8>, secret: fn(Vec<u8>) -> Vec<u8>) {
    let (own_id, own_secret) = credentials(draft);
    let (id, secret) = (id(writing::usual(&own_id)), secret(writing::usual(&own_secret)));
    draft.authenticate_by_header(sample::basic_header(&id, &secret));
}

/// Registers this secret, which coding would change, and shows it without coding it.
fn show_as_it_stands(draft: &mut Draft, secret: &[u8]) {
    draft.register(Some(secret));
    draft.authenticate_by_header(sample::basic_header(&writing::usual(&draft.asking().id), secret));
}

/// The right header, and an id in the body.
fn show_beside(draft: &mut Draft, id: fn(&[u8]) -> Vec<u8>) {
    show(draft, |id| id, |secret| secret);
    draft.params.set("client_id", id(&draft.asking().id));
}

fn show_in_body(draft: &mut Draft, secret: fn(Vec<u8>) -> Vec<u8>) {
    let asking = draft.asking().clone();
    match asking.secret {
        Some(right) => draft.authenticate_in_body(&asking.id, Some(&secret(right))),
        None => draft.authenticate_in_body(&asking.id, Some(b"a public client has none")),
    }
}

fn public_header(draft: &mut Draft, rng: &mut Rng, secret: &[u8]) {
    let public = draft.public_clients();
    if public.is_empty() {
        return draft.authenticate_by_header(Header::basic(b"nobody", secret));
    }
    draft.client = rng.pick(&public);
    let id = draft.asking().id.clone();
    draft.authenticate_by_header(Header::basic(&id, secret));
}

/// The right header in another writing. A public client has none.
fn rewrite(draft: &mut Draft, write: impl FnMut(&[u8], &[u8]) -> Vec<u8>) {
    if draft.asking().secret.is_some() {
        let (id, secret) = credentials(draft);
        draft.authenticate_by_header(writing::basic_header(&id, &secret, write));
    }
}

pub const HARMLESS_CREDENTIALS: &[(&str, Apply)] = &[
    ("scheme in any case", |d, rng| {
        let mut header = d.header.in_any_writing(rng);
        for letter in header.iter_mut().take(5) {
            if rng.chance(50) {
                *letter ^= 0x20;
            }
        }
        d.header = header.into();
    }),
    ("id and secret escaped in full", |d, _| rewrite(d, |text, _| writing::full(text))),
    ("id and secret escaped in full, with small digits", |d, _| rewrite(d, |text, _| writing::full_small(text))),
    ("id and secret escaped no more than they must be", |d, _| rewrite(d, writing::sparse)),
    ("id and secret escaped here and there", |d, rng| rewrite(d, |text, escaped| writing::any(text, escaped, rng))),
    ("client_id next to a header that is escaped in full", |d, _| {
        rewrite(d, |text, _| writing::full(text));
        d.params.set("client_id", d.asking().id.clone());
    }),
    ("client_id next to the header", |d, _| d.params.set("client_id", d.asking().id.clone())),
    ("credentials in the body", |d, _| {
        let asking = d.asking().clone();
        d.authenticate_in_body(&asking.id, asking.secret.as_deref());
    }),
];
