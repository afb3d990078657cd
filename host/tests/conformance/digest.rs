//! SHA-256 by itself: the server's and the plain program's, held to published digests, and the one to the other. Every
//! digest written out here is also what `sha256sum` or Python's hashlib gives.

use poplarchime_host::digest_probe;
use poplarchime_host::plain::sha256::{self, Digest, DIGEST_SIZE};
use poplarchime_host::sample::hex;

use crate::support::rng::Rng;

/// What the buffers hold before a call.
const UNTOUCHED: u8 = 0xa5;
/// The longest form that the endpoints read.
const LONGEST: usize = 4096;

/// The digest of a message, in which the two programs agree.
fn digest(message: &[u8]) -> Digest {
    let mut written = [UNTOUCHED; DIGEST_SIZE];
    assert_eq!(digest_probe::digest(message, &mut written), 1, "{} bytes", message.len());
    assert_eq!(hex(&written), hex(&sha256::digest(message)), "{} bytes: {}", message.len(), hex(message));
    written
}

fn hex_digest(message: &[u8]) -> String {
    hex(&digest(message))
}

/// One digest that stands for those of many messages: that of all of them in a row.
fn digest_of_digests(messages: impl Iterator<Item = Vec<u8>>) -> String {
    hex_digest(&messages.flat_map(|message| digest(&message)).collect::<Vec<u8>>())
}

/// A message whose bytes tell its length, and which does not repeat itself from block to block.
fn patterned(length: usize) -> Vec<u8> {
    (0..length).map(|at| ((length + at * at) % 251) as u8).collect()
}

// ---- published digests

/// Digests that NIST has published: of no bytes, of three, of messages of 448 and of 896 bits, and of a long one.
#[test]
fn the_published_examples() {
    let (of_448_bits, of_896_bits) = (
        "abcdbcdecdefdefgefghfghighijhijkijkljklmklmnlmnomnopnopq",
        "abcdefghbcdefghicdefghijdefghijkefghijklfghijklmghijklmnhijklmnoijklmnopjklmnopqklmnopqrlmnopqrsmnopqrstnopqrstu",
    );
    assert_eq!((8 * of_448_bits.len(), 8 * of_896_bits.len()), (448, 896));
    for (message, expected) in [
        ("", "e3b0c44298fc1c149afbf4c8996fb92427ae41e4649b934ca495991b7852b855"),
        ("abc", "ba7816bf8f01cfea414140de5dae2223b00361a396177a9cb410ff61f20015ad"),
        (of_448_bits, "248d6a61d20638b8e5c026930c3e6039a33ce45964ff2167f6ecedd419db06c1"),
        (of_896_bits, "cf5b16a778af8380036ce59e7b0492370b249b11e8f07a51afac45037afee9d1"),
    ] {
        assert_eq!(hex_digest(message.as_bytes()), expected, "{message}");
    }
    assert_eq!(hex_digest(&vec![b'a'; 1_000_000]), "cdc76e5c9914fb9281a1c7e284d73e67f1809a48a497200e046d39ccc7112cd0");
}

/// RFC 7636 Appendix B: the verifier, and the octets that its SHA-256 is said to be.
#[test]
fn the_verifier_of_rfc_7636() {
    assert_eq!(
        digest(b"dBjftJeZ4CVP-mB92K27uhbUJU1p1r_wW1gFWFOEjXk"),
        [
            19, 211, 30, 150, 26, 26, 216, 236, 47, 22, 177, 12, 76, 152, 46, 8, 118, 168, 120, 173, 109, 241, 68, 86,
            110, 225, 137, 74, 203, 112, 249, 195
        ]
    );
}

// ---- all lengths

#[test]
fn every_length_up_to_the_longest_form() {
    assert_eq!(
        digest_of_digests((0..=LONGEST).map(patterned)),
        "ce4abe3354bae33cd9d0ee8083d0c4a14eb2b27801b84c61bb5b3a9ba1e7407b"
    );
}

/// Bytes that look like padding, over all places where a block and its padding can end.
#[test]
fn messages_that_look_like_padding() {
    for (byte, expected) in [
        (0x00, "4920ef261aa0cee250c4cd2c5d48e9182af1f9c806668531f39afd5d8e26e2da"),
        (0x80, "1f322ebd4bb07584a7e1099b8698394cf0208c3d821f0a0ef89d8dc90fa8c216"),
        (0xff, "3e30483ee1d030661e81fdfae672e848d3e86a74cd2d6954fc3a30775c6a286d"),
    ] {
        assert_eq!(digest_of_digests((0..=256).map(|length| vec![byte; length])), expected, "{byte:#04x}");
    }
}

/// A message is the same wherever in memory it begins.
#[test]
fn messages_at_every_alignment() {
    let expected: Vec<Digest> = (0..=130).map(|length| digest(&patterned(length))).collect();
    for shift in 0..16 {
        for (length, expected) in expected.iter().enumerate() {
            let shifted = [vec![UNTOUCHED; shift], patterned(length), vec![UNTOUCHED; 64]].concat();
            assert_eq!(digest(&shifted[shift..shift + length]), *expected, "{length} bytes, {shift} further on");
        }
    }
}

// ---- other messages

#[test]
fn random_messages() {
    let mut rng = Rng::new(2);
    for _ in 0..5000 {
        let limit = rng.pick(&[64, 128, 128, 200, 1000, 10_000]);
        let message: Vec<u8> = (0..rng.between(0, limit)).map(|_| rng.byte()).collect();
        digest(&message);
    }
}

/// Every bit of a message counts, and no two changes come to the same. The lengths are those of verifiers, and those
/// where the last byte is the last of a block or the last that leaves room for the length.
#[test]
fn every_bit_counts() {
    for length in [1, 43, 55, 56, 57, 63, 64, 65, 119, 120, 121, 128, 129] {
        let message = patterned(length);
        let mut digests = vec![digest(&message)];
        for bit in 0..8 * length {
            let mut flipped = message.clone();
            flipped[bit / 8] ^= 1 << (bit % 8);
            digests.push(digest(&flipped));
        }
        digests.sort();
        digests.dedup();
        assert_eq!(digests.len(), 1 + 8 * length, "{length} bytes");
    }
}

// ---- the buffer

/// A digest takes 32 bytes: all of them or none are written, and none behind them.
#[test]
fn buffers_of_every_length() {
    for message in [&b""[..], b"abc", &patterned(55), &patterned(56), &patterned(LONGEST)] {
        for length in 0..=2 * DIGEST_SIZE + 1 {
            let mut out = vec![UNTOUCHED; length];
            let answer = digest_probe::digest(message, &mut out);
            let mut expected = vec![UNTOUCHED; length];
            if length >= DIGEST_SIZE {
                expected[..DIGEST_SIZE].copy_from_slice(&sha256::digest(message));
            }
            assert_eq!(answer, u32::from(length >= DIGEST_SIZE), "{length} bytes");
            assert_eq!(hex(&out), hex(&expected), "{length} bytes");
        }
    }
}
