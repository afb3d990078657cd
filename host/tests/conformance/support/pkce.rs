//! Verifiers and their challenges (RFC 7636), to draw requests from.

use std::sync::LazyLock;

use poplarchime_host::plain::sha256;
use poplarchime_host::sample;

use super::rng::Rng;

/// The example of Appendix B.
pub const VERIFIER: &str = "dBjftJeZ4CVP-mB92K27uhbUJU1p1r_wW1gFWFOEjXk";
pub const CHALLENGE: &str = "E9Melhoa2OwvFrEMTJguCHaoeK1t8URWbuGJSstw-cM";

/// The characters that a verifier may have (section 4.1).
pub const UNRESERVED: &[u8; 66] = b"ABCDEFGHIJKLMNOPQRSTUVWXYZabcdefghijklmnopqrstuvwxyz0123456789-._~";

/// A verifier, and the challenge that is made from it.
#[derive(Clone, Debug)]
pub struct Pair {
    pub verifier: Vec<u8>,
    pub challenge: [u8; 32],
}

impl Pair {
    pub fn of(verifier: impl AsRef<[u8]>) -> Pair {
        Pair { verifier: verifier.as_ref().to_vec(), challenge: sha256::digest(verifier.as_ref()) }
    }
}

/// Well-formed ones of many lengths, that of Appendix B first.
static SOUND: LazyLock<Vec<Pair>> = LazyLock::new(|| {
    let mut rng = Rng::new(7636);
    let mut pairs = vec![Pair::of(VERIFIER)];
    for length in [43, 44, 54, 55, 56, 57, 63, 64, 65, 86, 100, 118, 119, 120, 127, 128, 128] {
        let verifier: Vec<u8> = (0..length).map(|_| rng.pick(UNRESERVED)).collect();
        pairs.push(Pair::of(verifier));
    }
    pairs
});

/// Malformed ones, which verify nothing although the challenge was made from them.
static MALFORMED: LazyLock<Vec<Pair>> = LazyLock::new(|| {
    let mut pairs: Vec<Pair> = [1, 20, 42, 129, 130, 200].map(|length| Pair::of(vec![b'v'; length])).into();
    for odd in *b" !*+/%&=:@[`{\0\x7f\xff" {
        let mut verifier = VERIFIER.as_bytes().to_vec();
        verifier[usize::from(odd) % VERIFIER.len()] = odd;
        pairs.push(Pair::of(verifier));
    }
    pairs
});

/// The pair of Appendix B.
pub fn appendix_b() -> &'static Pair {
    &SOUND[0]
}

pub fn sound_pair(rng: &mut Rng) -> &'static Pair {
    &SOUND[rng.below(SOUND.len())]
}

pub fn malformed_pair(rng: &mut Rng) -> &'static Pair {
    &MALFORMED[rng.below(MALFORMED.len())]
}

/// Mostly a sound one.
pub fn any_pair(rng: &mut Rng) -> &'static Pair {
    match rng.chance(90) {
        true => sound_pair(rng),
        false => malformed_pair(rng),
    }
}

/// The verifier that a challenge was made from, if it is that of one of the pairs.
pub fn verifier_of(challenge: &[u8; 32]) -> Option<&'static [u8]> {
    let mut pairs = SOUND.iter().chain(MALFORMED.iter());
    pairs.find(|pair| pair.challenge == *challenge).map(|pair| &pair.verifier[..])
}

/// Whether a text is 43 characters of base64url, of which the last has no spare bit set.
pub fn is_challenge(text: &[u8]) -> bool {
    let is_digit = |&byte: &u8| byte.is_ascii_alphanumeric() || b"-_".contains(&byte);
    text.len() == 43 && text.iter().all(is_digit) && b"AEIMQUYcgkosw048".contains(&text[42])
}

/// A challenge as it is sent.
pub fn challenge_text(challenge: &[u8; 32]) -> String {
    sample::base64url(challenge)
}

/// The pieces of a query that bring a challenge.
pub fn challenge_pieces(challenge: &str) -> String {
    format!("&code_challenge={challenge}&code_challenge_method=S256")
}
