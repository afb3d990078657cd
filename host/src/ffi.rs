//! The exported endpoints, as declared in `include/poplarchime.h`, and safe wrappers over slices.

use crate::answers::{Authorization, CheckAnswer, TokenReply};

extern "C" {
    fn poplarchime_authorize(
        query: *const u8,
        query_length: usize,
        decision: u64,
        farm: u32,
        registry: *const u8,
        registry_length: usize,
        store: *mut u8,
        store_length: usize,
        clock: u64,
        random: *const u8,
        random_length: usize,
        output: *mut u8,
        output_length: usize,
    ) -> Authorization;

    fn poplarchime_token(
        header: *const u8,
        header_length: usize,
        body: *const u8,
        body_length: usize,
        registry: *const u8,
        registry_length: usize,
        store: *mut u8,
        store_length: usize,
        clock: u64,
        random: *const u8,
        random_length: usize,
        output: *mut u8,
        output_length: usize,
    ) -> TokenReply;

    fn poplarchime_revoke(
        header: *const u8,
        header_length: usize,
        body: *const u8,
        body_length: usize,
        registry: *const u8,
        registry_length: usize,
        store: *mut u8,
        store_length: usize,
        clock: u64,
        output: *mut u8,
        output_length: usize,
    ) -> TokenReply;

    fn poplarchime_check(
        token: *const u8,
        token_length: usize,
        registry: *const u8,
        registry_length: usize,
        store: *mut u8,
        store_length: usize,
        clock: u64,
    ) -> CheckAnswer;
}

/// The authorization endpoint.
#[allow(clippy::too_many_arguments)] // the export's own
pub fn authorize(
    query: &[u8],
    decision: u64,
    farm: u32,
    registry: &[u8],
    store: &mut [u8],
    clock: u64,
    random: &[u8],
    output: &mut [u8],
) -> Authorization {
    // SAFETY: every pointer comes with the length of the slice it is taken from, and exclusive borrows overlap nothing.
    unsafe {
        poplarchime_authorize(
            query.as_ptr(),
            query.len(),
            decision,
            farm,
            registry.as_ptr(),
            registry.len(),
            store.as_mut_ptr(),
            store.len(),
            clock,
            random.as_ptr(),
            random.len(),
            output.as_mut_ptr(),
            output.len(),
        )
    }
}

/// The token endpoint.
pub fn token(
    header: &[u8],
    body: &[u8],
    registry: &[u8],
    store: &mut [u8],
    clock: u64,
    random: &[u8],
    output: &mut [u8],
) -> TokenReply {
    // SAFETY: as for `authorize`.
    unsafe {
        poplarchime_token(
            header.as_ptr(),
            header.len(),
            body.as_ptr(),
            body.len(),
            registry.as_ptr(),
            registry.len(),
            store.as_mut_ptr(),
            store.len(),
            clock,
            random.as_ptr(),
            random.len(),
            output.as_mut_ptr(),
            output.len(),
        )
    }
}

/// The revocation endpoint.
pub fn revoke(
    header: &[u8],
    body: &[u8],
    registry: &[u8],
    store: &mut [u8],
    clock: u64,
    output: &mut [u8],
) -> TokenReply {
    // SAFETY: as for `authorize`.
    unsafe {
        poplarchime_revoke(
            header.as_ptr(),
            header.len(),
            body.as_ptr(),
            body.len(),
            registry.as_ptr(),
            registry.len(),
            store.as_mut_ptr(),
            store.len(),
            clock,
            output.as_mut_ptr(),
            output.len(),
        )
    }
}

/// The access token check.
pub fn check(token: &[u8], registry: &[u8], store: &mut [u8], clock: u64) -> CheckAnswer {
    // SAFETY: as for `authorize`.
    unsafe {
        poplarchime_check(
            token.as_ptr(),
            token.len(),
            registry.as_ptr(),
            registry.len(),
            store.as_mut_ptr(),
            store.len(),
            clock,
        )
    }
}
