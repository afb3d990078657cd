//! A code shown a second time, by the papers' words and the store before the call.

use poplarchime_host::plain::handle;
use poplarchime_host::plain::registry::Registry;
use poplarchime_host::plain::token::{self, Asked};
use poplarchime_host::sample::{self, Slot};

use super::call::{Call, Request};

/// The code, if the call is the second showing of one: no unspent code has its handle, and the lowest spent one that has
/// it is live and that of the client, which is admitted.
pub fn second_showing(call: &Call, store: &[u8]) -> Option<[u8; 20]> {
    let Request::Token { header, body } = &call.request else { return None };
    let registry = Registry::parse(&call.registry)?;
    let token::Request { client, asked } = token::Request::read(header, body, &registry).ok()?;
    let Asked::Exchange { code, .. } = asked else { return None };
    let code = handle::parse(&code)?;
    let lowest = |kinds: &[u8]| sample::slots(store).find(|slot| kinds.contains(&slot.kind) && slot.handle == code);
    let spent = lowest(&[sample::SPENT]).filter(|_| lowest(&sample::UNSPENT).is_none())?;
    let now = call.clock.max(sample::latest(store));
    (spent.is_live(now) && usize::from(spent.client) == client).then_some(code)
}

/// The store without the access and refresh tokens of this origin.
pub fn without_tokens(store: &[u8], origin: &[u8; 20]) -> Vec<u8> {
    let mut store = store.to_vec();
    for number in 0..sample::SLOTS {
        let slot = sample::slot(&store, number);
        if slot.is_token() && slot.origin == *origin {
            sample::set_slot(&mut store, number, Slot::default());
        }
    }
    store
}
