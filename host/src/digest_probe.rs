//! The server's digest by itself, from an archive that `tools/archive digest_probe` makes: the library does not export it.

extern "C" {
    fn poplarchime_probe_digest(message: *const u8, message_length: usize, out: *mut u8, out_length: usize) -> u32;
}

/// Writes the SHA-256 of the message to the first 32 bytes of the buffer and gives 1. If the buffer is shorter, nothing
/// is written and it gives 0.
pub fn digest(message: &[u8], out: &mut [u8]) -> u32 {
    // SAFETY: each pointer comes with the length of the slice it is taken from, and the exclusive borrow overlaps
    // nothing.
    unsafe { poplarchime_probe_digest(message.as_ptr(), message.len(), out.as_mut_ptr(), out.len()) }
}
