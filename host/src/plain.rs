//! The plain second program: the authorization server of the papers in ordinary Rust.
//!
//! It is written from the papers' rules alone and kept free of cleverness, so that it can be read beside them. The host
//! tests hold the exported endpoints to it: answer, output and store, byte for byte.
//!
//! Each endpoint reads the request without looking at the store (`Request::read`), then decides with it.

pub mod authorization;
pub mod base64;
pub mod client_form;
pub mod form;
pub mod handle;
pub mod pkce;
pub mod registry;
pub mod revocation;
pub mod scope;
pub mod sha256;
pub mod store;
pub mod token;
pub mod token_check;

pub use authorization::authorize;
pub use revocation::revoke;
pub use token::token;
pub use token_check::check;

use registry::Registry;
use store::Store;

/// The latest clock that is accepted, in seconds.
pub const CLOCK_LIMIT: u64 = 1 << 40;
/// The smallest output buffer that is accepted; every answer fits.
pub const LEAST_OUTPUT: usize = 1024;
/// The longest query or body that is read, in raw bytes.
pub const FORM_LIMIT: usize = 4096;

/// Refusals 1 to 4: the host handed something unfit, and nothing is changed.
#[derive(Clone, Copy, Debug, PartialEq, Eq)]
pub enum Unfit {
    Buffers = 1,
    Registry = 2,
    Store = 3,
    Clock = 4,
}

impl Unfit {
    pub fn number(self) -> u32 {
        self as u32
    }
}

/// What a call works with once refusals 1 to 4 are past.
struct Admitted<'a> {
    registry: Registry<'a>,
    store: Store<'a>,
    /// The time of the call: the latest clock that this or any earlier call was handed.
    now: u64,
}

/// Tests registry, store and clock, in this order, then moves the store's high-water mark to the time of the call.
fn admit<'a>(registry: &'a [u8], store: &'a mut [u8], clock: u64) -> Result<Admitted<'a>, Unfit> {
    let registry = Registry::parse(registry).ok_or(Unfit::Registry)?;
    let mut store = Store::open(store, registry.len()).ok_or(Unfit::Store)?;
    if clock > CLOCK_LIMIT {
        return Err(Unfit::Clock);
    }
    let now = clock.max(store.latest());
    store.set_latest(now);
    Ok(Admitted { registry, store, now })
}

/// Copies an answer to the front of the output and gives its length.
fn write(answer: &[u8], output: &mut [u8]) -> usize {
    output[..answer.len()].copy_from_slice(answer);
    answer.len()
}
