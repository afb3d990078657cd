//! Form decoding by itself, as this tree does it and as a former one did. `host/former` builds the two archives.

type Decode = unsafe extern "C" fn(*const u8, usize, *mut u8, usize) -> usize;
type Equals = unsafe extern "C" fn(*const u8, usize, *const u8, usize) -> u32;

extern "C" {
    fn poplarchime_probe_decode(value: *const u8, value_length: usize, out: *mut u8, out_length: usize) -> usize;

    fn poplarchime_probe_equals(
        value: *const u8,
        value_length: usize,
        expected: *const u8,
        expected_length: usize,
    ) -> u32;

    fn former_poplarchime_probe_decode(value: *const u8, value_length: usize, out: *mut u8, out_length: usize)
        -> usize;

    fn former_poplarchime_probe_equals(
        value: *const u8,
        value_length: usize,
        expected: *const u8,
        expected_length: usize,
    ) -> u32;
}

/// The decoding of one value.
#[derive(Clone, Copy)]
pub struct Decoder {
    decode: Decode,
    equals: Equals,
}

pub const PRESENT: Decoder = Decoder { decode: poplarchime_probe_decode, equals: poplarchime_probe_equals };
pub const FORMER: Decoder =
    Decoder { decode: former_poplarchime_probe_decode, equals: former_poplarchime_probe_equals };

impl Decoder {
    /// Writes what the value stands for, and gives its length. If the buffer is shorter than the value, nothing is
    /// written and the length is 0.
    pub fn decode(&self, value: &[u8], out: &mut [u8]) -> usize {
        // SAFETY: each pointer comes with the length of the slice it is taken from, and the exclusive borrow overlaps
        // nothing.
        unsafe { (self.decode)(value.as_ptr(), value.len(), out.as_mut_ptr(), out.len()) }
    }

    /// Whether the value stands for these bytes.
    pub fn equals(&self, value: &[u8], expected: &[u8]) -> bool {
        // SAFETY: as for `decode`.
        unsafe { (self.equals)(value.as_ptr(), value.len(), expected.as_ptr(), expected.len()) == 1 }
    }
}
