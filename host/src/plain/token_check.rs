//! The access token check: is a bare access token live, and what does it grant?

use super::handle::{self, Handle};
use super::store::Kind;
use super::{admit, Admitted};
use crate::answers::CheckAnswer;

pub fn check(token: &[u8], registry: &[u8], store: &mut [u8], clock: u64) -> CheckAnswer {
    let admitted = match admit(registry, store, clock) {
        Ok(admitted) => admitted,
        Err(unfit) => return CheckAnswer { refusal: unfit.number(), ..CheckAnswer::default() },
    };
    handle::parse(token).and_then(|handle| live(&admitted, &handle)).unwrap_or_default()
}

/// The answer for a live access token.
fn live(admitted: &Admitted, handle: &Handle) -> Option<CheckAnswer> {
    let (_, entry) = admitted.store.find(&[Kind::Access], handle)?;
    (admitted.now < entry.expiry).then(|| CheckAnswer {
        refusal: 0,
        live: 1,
        client: entry.grant.client as u32,
        farm: entry.grant.farm,
        scope: entry.grant.scope.0.into(),
        seconds_left: entry.expiry - admitted.now,
    })
}
