//! The revocation of a token (RFC 7009), by the papers' words and the store before the call.

use poplarchime_host::plain::handle;
use poplarchime_host::plain::registry::Registry;
use poplarchime_host::plain::revocation;
use poplarchime_host::sample::{self, Slot};

use super::call::{Call, Request};

/// The number of the slot whose token the call revokes: the lowest of an access or refresh token with the handle, if it
/// is live and that of the client, which is admitted.
pub fn revoked_slot(call: &Call, store: &[u8]) -> Option<usize> {
    let Request::Revoke { header, body } = &call.request else { return None };
    let registry = Registry::parse(&call.registry)?;
    let revocation::Request { client, token } = revocation::Request::read(header, body, &registry).ok()?;
    let token = handle::parse(&token)?;
    let (number, slot) = sample::slots(store).enumerate().find(|(_, slot)| slot.is_token() && slot.handle == token)?;
    let now = call.clock.max(sample::latest(store));
    (slot.is_live(now) && usize::from(slot.client) == client).then_some(number)
}

/// The store without the token in this slot; if it is a refresh token, without the access tokens of its origin too.
pub fn without_revoked(store: &[u8], number: usize) -> Vec<u8> {
    let revoked = sample::slot(store, number);
    let goes_along =
        |slot: &Slot| revoked.kind == sample::REFRESH && slot.kind == sample::ACCESS && slot.origin == revoked.origin;
    let mut left = store.to_vec();
    for (other, slot) in sample::slots(store).enumerate() {
        if other == number || goes_along(&slot) {
            sample::set_slot(&mut left, other, Slot::default());
        }
    }
    left
}
