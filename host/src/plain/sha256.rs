//! SHA-256 (FIPS 180-4), over a message of whole bytes.

pub const DIGEST_SIZE: usize = 32;

pub type Digest = [u8; DIGEST_SIZE];

const BLOCK_SIZE: usize = 64;
/// The message's length takes the last eight bytes of its last block (section 5.1.1).
const LENGTH_AT: usize = BLOCK_SIZE - 8;

/// Section 5.3.3: the first 32 bits behind the point in the square roots of the first eight primes.
const INITIAL: [u32; 8] =
    [0x6a09e667, 0xbb67ae85, 0x3c6ef372, 0xa54ff53a, 0x510e527f, 0x9b05688c, 0x1f83d9ab, 0x5be0cd19];

/// Section 4.2.2: the first 32 bits behind the point in the cube roots of the first 64 primes.
#[rustfmt::skip] // eight in a line, as they are printed
const ROUND_CONSTANTS: [u32; 64] = [
    0x428a2f98, 0x71374491, 0xb5c0fbcf, 0xe9b5dba5, 0x3956c25b, 0x59f111f1, 0x923f82a4, 0xab1c5ed5,
    0xd807aa98, 0x12835b01, 0x243185be, 0x550c7dc3, 0x72be5d74, 0x80deb1fe, 0x9bdc06a7, 0xc19bf174,
    0xe49b69c1, 0xefbe4786, 0x0fc19dc6, 0x240ca1cc, 0x2de92c6f, 0x4a7484aa, 0x5cb0a9dc, 0x76f988da,
    0x983e5152, 0xa831c66d, 0xb00327c8, 0xbf597fc7, 0xc6e00bf3, 0xd5a79147, 0x06ca6351, 0x14292967,
    0x27b70a85, 0x2e1b2138, 0x4d2c6dfc, 0x53380d13, 0x650a7354, 0x766a0abb, 0x81c2c92e, 0x92722c85,
    0xa2bfe8a1, 0xa81a664b, 0xc24b8b70, 0xc76c51a3, 0xd192e819, 0xd6990624, 0xf40e3585, 0x106aa070,
    0x19a4c116, 0x1e376c08, 0x2748774c, 0x34b0bcb5, 0x391c0cb3, 0x4ed8aa4a, 0x5b9cca4f, 0x682e6ff3,
    0x748f82ee, 0x78a5636f, 0x84c87814, 0x8cc70208, 0x90befffa, 0xa4506ceb, 0xbef9a3f7, 0xc67178f2,
];

/// The digest of a message.
pub fn digest(message: &[u8]) -> Digest {
    let mut state = INITIAL;
    let whole = message.chunks_exact(BLOCK_SIZE);
    let (padding, padded) = pad(whole.remainder(), message.len());
    for block in whole.chain(padding[..padded].chunks_exact(BLOCK_SIZE)) {
        compress(&mut state, block);
    }
    let mut digest = [0; DIGEST_SIZE];
    for (bytes, word) in digest.chunks_exact_mut(4).zip(state) {
        bytes.copy_from_slice(&word.to_be_bytes());
    }
    digest
}

/// What is left of the message behind its whole blocks, padded to one block, or to two where the length finds no room
/// in the first: a single 1 bit, zeros, the length in bits. Gives the blocks and the bytes they take.
fn pad(rest: &[u8], message_length: usize) -> ([u8; 2 * BLOCK_SIZE], usize) {
    let padded = if rest.len() < LENGTH_AT { BLOCK_SIZE } else { 2 * BLOCK_SIZE };
    let mut blocks = [0; 2 * BLOCK_SIZE];
    blocks[..rest.len()].copy_from_slice(rest);
    blocks[rest.len()] = 0x80;
    blocks[padded - 8..padded].copy_from_slice(&(message_length as u64 * 8).to_be_bytes());
    (blocks, padded)
}

/// Section 6.2.2: works one block of the message into the state.
fn compress(state: &mut [u32; 8], block: &[u8]) {
    let [mut a, mut b, mut c, mut d, mut e, mut f, mut g, mut h] = *state;
    for (word, constant) in schedule(block).into_iter().zip(ROUND_CONSTANTS) {
        let choice = (e & f) ^ (!e & g);
        let majority = (a & b) ^ (a & c) ^ (b & c);
        let first = h
            .wrapping_add(e.rotate_right(6) ^ e.rotate_right(11) ^ e.rotate_right(25))
            .wrapping_add(choice)
            .wrapping_add(constant)
            .wrapping_add(word);
        let second = (a.rotate_right(2) ^ a.rotate_right(13) ^ a.rotate_right(22)).wrapping_add(majority);
        (h, g, f, e) = (g, f, e, d.wrapping_add(first));
        (d, c, b, a) = (c, b, a, first.wrapping_add(second));
    }
    for (word, worked) in state.iter_mut().zip([a, b, c, d, e, f, g, h]) {
        *word = word.wrapping_add(worked);
    }
}

/// The 64 words that one block comes to.
fn schedule(block: &[u8]) -> [u32; 64] {
    let mut words = [0; 64];
    for (word, bytes) in words.iter_mut().zip(block.chunks_exact(4)) {
        *word = u32::from_be_bytes(bytes.try_into().expect("four bytes"));
    }
    for t in 16..64 {
        let (near, far) = (words[t - 2], words[t - 15]);
        words[t] = (near.rotate_right(17) ^ near.rotate_right(19) ^ near >> 10)
            .wrapping_add(words[t - 7])
            .wrapping_add(far.rotate_right(7) ^ far.rotate_right(18) ^ far >> 3)
            .wrapping_add(words[t - 16]);
    }
    words
}

#[cfg(test)]
mod tests {
    use super::*;

    /// The largest number whose power is not above: the root of `number`, cut off.
    fn root(number: u128, power: u32) -> u128 {
        (0..36).rev().fold(0, |root, bit| {
            let larger = root | 1 << bit;
            if u128::pow(larger, power) <= number {
                larger
            } else {
                root
            }
        })
    }

    #[test]
    fn the_constants_are_the_roots_of_primes() {
        let primes: Vec<u128> = (2..).filter(|&n| (2..n).all(|m| n % m != 0)).take(64).collect();
        let squares: Vec<u32> = primes[..8].iter().map(|prime| root(prime << 64, 2) as u32).collect();
        let cubes: Vec<u32> = primes.iter().map(|prime| root(prime << 96, 3) as u32).collect();
        assert_eq!(squares, INITIAL);
        assert_eq!(cubes, ROUND_CONSTANTS);
    }

    #[test]
    fn a_message_of_one_block() {
        assert_eq!(
            digest(b"abc"),
            [
                0xba, 0x78, 0x16, 0xbf, 0x8f, 0x01, 0xcf, 0xea, 0x41, 0x41, 0x40, 0xde, 0x5d, 0xae, 0x22, 0x23, 0xb0,
                0x03, 0x61, 0xa3, 0x96, 0x17, 0x7a, 0x9c, 0xb4, 0x10, 0xff, 0x61, 0xf2, 0x00, 0x15, 0xad
            ]
        );
    }

    #[test]
    fn the_length_takes_a_block_of_its_own_where_there_is_no_room() {
        for (length, padded) in [(0, 64), (55, 64), (56, 128), (63, 128)] {
            let (blocks, bytes) = pad(&vec![0xff; length], 640 + length);
            assert_eq!(bytes, padded, "{length}");
            assert_eq!(blocks[length], 0x80);
            assert!(blocks[length + 1..padded - 2].iter().all(|&byte| byte == 0));
            assert_eq!(blocks[padded - 2..padded], (8 * (640 + length) as u16).to_be_bytes());
        }
    }
}
