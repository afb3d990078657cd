//! The handle that is presented, at the token endpoint, at the revocation endpoint and to the check.

use poplarchime_host::sample::{self, Slot};

use super::room::time;
use super::texts::{cut, other_end};
use super::Apply;
use crate::support::draft::{Action, Draft};
use crate::support::rng::Rng;

const CLOCK_LIMIT: u64 = 1 << 40;

/// No owner can allow farm 0, but a slot may hold it.
pub const HARMLESS_PRESENTED: &[(&str, Apply)] = &[
    ("slot of farm 0", |d, _| d.edit_slot(d.presented, |slot| slot.farm = 0)),
    ("slot of farm 2^32-1", |d, _| d.edit_slot(d.presented, |slot| slot.farm = u32::MAX)),
];

/// Where the handle stands in a form: it names no slot, or one that has run out.
pub const UNKNOWN: &[(&str, Apply)] = &[
    ("unknown handle", |d, rng| present(d, sample::hex(&rng.handle()))),
    ("handle of another last digit", |d, _| present(d, other_end(d.presented_slot().handle_text().as_bytes()))),
    ("handle of another first digit", |d, _| {
        let mut handle = d.presented_slot().handle;
        handle[0] ^= 0x80;
        present(d, sample::hex(&handle));
    }),
    ("handle in capitals", |d, _| {
        d.edit_slot(d.presented, |slot| slot.handle[7] |= 0xa0);
        present(d, d.presented_slot().handle_text().to_uppercase());
    }),
    ("handle cut by a digit", |d, _| present(d, cut(d.presented_slot().handle_text().as_bytes()))),
    ("handle cut by a byte", |d, _| present(d, cut(&cut(d.presented_slot().handle_text().as_bytes())))),
    ("a digit behind the handle", |d, _| present(d, format!("{}0", d.presented_slot().handle_text()))),
    ("two digits behind the handle", |d, _| present(d, format!("{}00", d.presented_slot().handle_text()))),
    ("space behind the handle", |d, _| present(d, format!("{} ", d.presented_slot().handle_text()))),
    ("handle as bytes", |d, _| present(d, d.presented_slot().handle)),
    ("code of RFC 6749", |d, _| present(d, "SplxlOBeZQQYbYS6WxSbIA")),
    ("run out this second", |d, _| run_out(d, 0)),
    ("run out long ago", |d, _| run_out(d, 10_000)),
    ("a slot that has run out hides it", |d, rng| hide(d, rng, expire)),
];

/// It names a slot that is live and another client's.
pub const ANOTHER_CLIENTS: &[(&str, Apply)] = &[
    ("another client's", |d, rng| be_another(d, rng)),
    ("another client's slot hides it", |d, rng| hide(d, rng, give_away)),
];

pub fn presented_name(draft: &Draft) -> &'static str {
    match draft.action {
        Action::Exchange => "code",
        Action::Revoke => "token",
        _ => "refresh_token",
    }
}

pub fn present(draft: &mut Draft, text: impl AsRef<[u8]>) {
    match draft.action {
        Action::Check => draft.token = text.as_ref().to_vec(),
        _ => draft.params.set(presented_name(draft), text),
    }
}

/// Lets the presented slot run out so many seconds before the call.
pub fn run_out(draft: &mut Draft, seconds: u64) {
    let expiry = draft.presented_slot().expiry;
    match expiry.checked_add(seconds).filter(|&time| time <= CLOCK_LIMIT) {
        Some(time) => draft.clock = draft.clock.max(time),
        None => draft.edit_slot(draft.presented, |slot| slot.expiry = 0),
    }
}

/// Lets a slot run out now.
pub fn expire(slot: &mut Slot, now: u64, _clients: u8) {
    slot.expiry = now;
}

/// Gives a slot to another client; where there is none, lets it run out.
pub fn give_away(slot: &mut Slot, now: u64, clients: u8) {
    match clients {
        1 => expire(slot, now, clients),
        _ => slot.client = (slot.client + 1) % clients,
    }
}

/// The presented slot, spoiled. The time of the call and the number of clients are handed along.
pub fn spoiled(draft: &Draft, spoil: impl FnOnce(&mut Slot, u64, u8)) -> Slot {
    let mut slot = draft.presented_slot();
    spoil(&mut slot, time(draft), draft.clients.len() as u8);
    slot
}

/// Another client asks; where there is none, nothing that is known is presented.
pub fn be_another(draft: &mut Draft, rng: &mut Rng) {
    match draft.clients.len() {
        1 => present(draft, "no other client"),
        clients => {
            let owner = usize::from(draft.presented_slot().client);
            draft.authenticate((owner + rng.between(1, clients - 1)) % clients);
        }
    }
}

/// Puts a spoiled copy of the presented slot before it, and before every other that has its handle.
pub fn hide(draft: &mut Draft, rng: &mut Rng, spoil: impl FnOnce(&mut Slot, u64, u8)) {
    let (copy, other) = (spoiled(draft, spoil), draft.other_slot(rng));
    let lowest = sample::slots(&draft.store).position(|slot| slot.handle == copy.handle).expect("the presented one");
    if other > lowest {
        draft.set_slot(other, sample::slot(&draft.store, lowest));
    }
    if lowest == draft.presented && other > lowest {
        draft.presented = other;
    }
    draft.set_slot(lowest.min(other), copy);
}

/// Moves the presented slot before a spoiled copy of it.
pub fn show_first(draft: &mut Draft, rng: &mut Rng, spoil: impl FnOnce(&mut Slot, u64, u8)) {
    let (copy, other) = (spoiled(draft, spoil), draft.other_slot(rng));
    put_beside(draft, copy, draft.presented.max(other), draft.presented.min(other));
}

/// Moves the presented slot, and puts another in a place of its own.
fn put_beside(draft: &mut Draft, copy: Slot, place: usize, presented: usize) {
    let held = draft.presented_slot();
    draft.set_slot(place, copy);
    draft.set_slot(presented, held);
    draft.presented = presented;
}
