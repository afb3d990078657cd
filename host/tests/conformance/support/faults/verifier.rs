//! PKCE at the token endpoint (RFC 7636 section 4.6): the verifier of a code with a challenge.

use poplarchime_host::sample;

use super::texts::{cut, longer, other_end, repeat};
use super::Apply;
use crate::support::draft::Draft;
use crate::support::pkce::{self, Pair};
use crate::support::rng::Rng;
use crate::support::writing;

pub const VERIFIER: &[(&str, Apply)] = &[
    ("no verifier", |d, rng| {
        challenge(d, rng);
        d.params.remove("code_verifier");
    }),
    ("empty verifier", |d, rng| spoil(d, rng, |_| Vec::new())),
    // Another digest.
    ("verifier cut", |d, rng| spoil(d, rng, |own| cut(&own.verifier))),
    ("verifier longer", |d, rng| spoil(d, rng, |own| longer(&own.verifier))),
    ("verifier with another last character", |d, rng| spoil(d, rng, |own| other_end(&own.verifier))),
    ("verifier with another first character", |d, rng| {
        spoil(d, rng, |own| [if own.verifier[0] == b'a' { b"b" } else { b"a" }, &own.verifier[1..]].concat());
    }),
    ("verifier of another challenge", |d, rng| {
        spoil(d, rng, |own| match own.verifier == pkce::VERIFIER.as_bytes() {
            true => vec![b'a'; 43],
            false => pkce::VERIFIER.into(),
        });
    }),
    ("the challenge as verifier", |d, rng| spoil(d, rng, |own| pkce::challenge_text(&own.challenge).into())),
    ("the digest in hex as verifier", |d, rng| spoil(d, rng, |own| sample::hex(&own.challenge).into())),
    ("the digest's bytes as verifier", |d, rng| spoil(d, rng, |own| own.challenge.into())),
    ("verifier form-coded twice", |d, rng| spoil(d, rng, |own| writing::full(&own.verifier))),
    ("space behind the verifier", |d, rng| spoil(d, rng, |own| [&own.verifier[..], b" "].concat())),
    ("challenge with another first bit", |d, rng| flip(d, rng, 0, 0x80)),
    ("challenge with another byte where an origin ends", |d, rng| flip(d, rng, 19, 1)),
    ("challenge with another byte behind that", |d, rng| flip(d, rng, 20, 1)),
    ("challenge with another last bit", |d, rng| flip(d, rng, 31, 1)),
    ("challenge of zeros", |d, rng| {
        challenge(d, rng);
        d.edit_slot(d.presented, |slot| *slot = slot.challenged([0; 32]));
    }),
    // Malformed, and the challenge was made from it.
    ("verifier of 42 characters", |d, _| bring(d, [b'a'; 42])),
    ("verifier of 129 characters", |d, _| bring(d, [b'a'; 129])),
    ("verifier of one character", |d, _| bring(d, "~")),
    ("* in a verifier", |d, _| bring(d, odd(b'*'))),
    ("+ in a verifier", |d, _| bring(d, odd(b'+'))),
    ("/ in a verifier", |d, _| bring(d, odd(b'/'))),
    ("= in a verifier", |d, _| bring(d, odd(b'='))),
    ("% in a verifier", |d, _| bring(d, odd(b'%'))),
    ("space in a verifier", |d, _| bring(d, odd(b' '))),
    ("zero byte in a verifier", |d, _| bring(d, odd(0))),
    ("delete byte in a verifier", |d, _| bring(d, odd(0x7f))),
    ("byte above 7f in a verifier", |d, _| bring(d, odd(0xe1))),
    ("any malformed verifier", |d, rng| bring(d, &pkce::malformed_pair(rng).verifier)),
];

pub const HARMLESS_VERIFIER: &[(&str, Apply)] = &[
    ("code with a challenge", challenge),
    ("verifier of 43 characters", |d, _| bring(d, [b'~'; 43])),
    ("verifier of 128 characters", |d, _| bring(d, [b'-'; 128])),
    ("verifier of every character allowed", |d, _| bring(d, pkce::UNRESERVED)),
    ("an empty verifier besides", |d, rng| {
        challenge(d, rng);
        d.params.push("code_verifier", "");
    }),
    ("code without challenge, no verifier", |d, _| {
        drop_challenge(d);
        d.params.remove("code_verifier");
    }),
    ("code without challenge, nonsense as verifier", |d, _| {
        drop_challenge(d);
        d.params.set("code_verifier", "nonsense");
    }),
    ("code without challenge, another's verifier", |d, _| {
        drop_challenge(d);
        d.params.set("code_verifier", pkce::VERIFIER);
    }),
];

/// Where no code is exchanged, a verifier is not looked at.
pub const IGNORED_VERIFIER: &[(&str, Apply)] = &[
    ("nonsense as code_verifier", |d, _| d.params.set("code_verifier", "nonsense")),
    ("a sound code_verifier", |d, _| d.params.set("code_verifier", pkce::VERIFIER)),
];

/// No name of the token endpoint.
pub const HARMLESS_CHALLENGE: &[(&str, Apply)] = &[("code_challenge and its method, repeated", |d, _| {
    repeat(d, "code_challenge");
    repeat(d, "code_challenge_method");
})];

/// Gives the presented code a challenge, and brings its verifier. One that has both keeps them.
pub fn challenge(draft: &mut Draft, rng: &mut Rng) {
    let held = draft.presented_slot();
    let brought = draft.params.get("code_verifier").map(Pair::of);
    if !held.has_challenge() || brought.is_none_or(|own| own.challenge != held.challenge()) {
        bring(draft, &pkce::sound_pair(rng).verifier);
    }
}

/// Brings this verifier, and makes the challenge of the presented code from it.
fn bring(draft: &mut Draft, verifier: impl AsRef<[u8]>) {
    let Pair { verifier, challenge } = Pair::of(verifier);
    draft.edit_slot(draft.presented, |slot| *slot = slot.challenged(challenge));
    draft.params.set("code_verifier", verifier);
}

/// Changes the verifier that fits.
fn spoil(draft: &mut Draft, rng: &mut Rng, spoil: fn(&Pair) -> Vec<u8>) {
    challenge(draft, rng);
    let own = draft.params.get("code_verifier").map(Pair::of).expect("it was brought");
    draft.params.set("code_verifier", spoil(&own));
}

/// Changes bits of the challenge that fits.
fn flip(draft: &mut Draft, rng: &mut Rng, at: usize, bits: u8) {
    challenge(draft, rng);
    draft.edit_slot(draft.presented, |slot| {
        let mut challenge = slot.challenge();
        challenge[at] ^= bits;
        *slot = slot.challenged(challenge);
    });
}

/// The verifier of Appendix B with another character in its middle.
fn odd(character: u8) -> Vec<u8> {
    let mut verifier = pkce::VERIFIER.as_bytes().to_vec();
    verifier[21] = character;
    verifier
}

fn drop_challenge(draft: &mut Draft) {
    draft.edit_slot(draft.presented, |slot| *slot = slot.turned(sample::code_kind(slot.is_bound(), false)));
}
