//! Proof Key for Code Exchange (RFC 7636), method S256: a code that was asked for with a challenge is exchanged only with
//! the verifier whose digest the challenge is.

use super::base64;
use super::sha256::{self, Digest};

/// The only method.
pub const METHOD: &[u8] = b"S256";

/// The shortest and the longest verifier (section 4.1).
const LEAST_VERIFIER: usize = 43;
const MOST_VERIFIER: usize = 128;

/// The digest that a challenge's text stands for: 32 bytes, which take exactly 43 digits of base64url.
pub fn read_challenge(text: &[u8]) -> Option<Digest> {
    base64::decode_url(text)?.try_into().ok()
}

/// Whether the verifier is well-formed and the challenge was made from it.
pub fn verifies(verifier: &[u8], challenge: &Digest) -> bool {
    is_verifier(verifier) && sha256::digest(verifier) == *challenge
}

/// 43 to 128 unreserved characters.
pub fn is_verifier(text: &[u8]) -> bool {
    (LEAST_VERIFIER..=MOST_VERIFIER).contains(&text.len())
        && text.iter().all(|&byte| byte.is_ascii_alphanumeric() || b"-._~".contains(&byte))
}

#[cfg(test)]
mod tests {
    use super::*;

    const VERIFIER: &[u8] = b"dBjftJeZ4CVP-mB92K27uhbUJU1p1r_wW1gFWFOEjXk";
    const CHALLENGE: &[u8] = b"E9Melhoa2OwvFrEMTJguCHaoeK1t8URWbuGJSstw-cM";

    #[test]
    fn the_example_of_rfc_7636() {
        let challenge = read_challenge(CHALLENGE).expect("a sound challenge");
        assert!(verifies(VERIFIER, &challenge));
        assert!(!verifies(CHALLENGE, &challenge));
    }

    #[test]
    fn a_challenge_has_43_digits() {
        for length in 0..=50 {
            assert_eq!(read_challenge(&vec![b'A'; length]).is_some(), length == 43, "{length} digits");
        }
    }

    #[test]
    fn a_verifier_has_43_to_128_unreserved_characters() {
        for length in 0..=140 {
            assert_eq!(is_verifier(&vec![b'~'; length]), (43..=128).contains(&length), "{length} characters");
        }
        let allowed = (0..=255).filter(|&byte| is_verifier(&[byte; 43])).count();
        assert_eq!(allowed, 26 + 26 + 10 + 4);
    }
}
