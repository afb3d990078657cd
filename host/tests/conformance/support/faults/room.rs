//! No room in the store, and random bytes that are in use: wherever something is issued.

use poplarchime_host::sample::{self, Slot};

use super::Apply;
use crate::support::draft::Draft;
use crate::support::rng::Rng;

pub const ROOM: &[(&str, Apply)] = &[("no slot left", |d, rng| fill(d, rng, 0))];
pub const ONE_LEFT: &[(&str, Apply)] = &[("one slot left", |d, rng| fill(d, rng, 1))];
pub const TWO_LEFT: &[(&str, Apply)] = &[("two slots left", |d, rng| fill(d, rng, 2))];

pub const CLASH: &[(&str, Apply)] = &[
    ("random bytes of a live slot", |d, rng| clash(d, rng, 0, |slot| slot)),
    ("random bytes of a live spent code", |d, rng| clash(d, rng, 0, |slot| slot.turned(sample::SPENT))),
    ("random bytes of a slot that has run out", |d, rng| clash_with_old(d, rng, sample::SLOTS - 1, 0)),
    ("random bytes of the slot to be taken", |d, rng| {
        let lowest = vacant(d).next().unwrap_or_default();
        clash_with_old(d, rng, lowest, 0);
    }),
];

/// Only handles are looked at.
pub const HARMLESS_CLASH: &[(&str, Apply)] = &[
    ("random bytes of an origin", |d, rng| be_origin_where(d, rng, Slot::is_token)),
    ("random bytes of a challenge", |d, rng| be_origin_where(d, rng, Slot::has_challenge)),
];

/// Puts random bytes where an origin stands, or the first bytes of a challenge, but for the presented slot.
fn be_origin_where(draft: &mut Draft, rng: &mut Rng, test: fn(&Slot) -> bool) {
    for number in 0..sample::SLOTS {
        let (origin, presented) = (handle_at(draft, rng.pick(&[0, draft.random.len() - 20])), draft.presents(number));
        draft.edit_slot(number, |slot| {
            if test(slot) && !presented {
                slot.origin = origin;
            }
        });
    }
}

pub const PRESENTED_CLASH: &[(&str, Apply)] = &[("random bytes of the presented slot", |d, _| {
    d.random.splice(..20, d.presented_slot().handle).for_each(drop);
})];

/// Only where two tokens are issued; else the last random bytes are ignored.
pub const SECOND_CLASH: &[(&str, Apply)] = &[
    ("last random bytes of a live slot", |d, rng| clash(d, rng, 20, |slot| slot)),
    ("last random bytes of a live spent code", |d, rng| clash(d, rng, 20, |slot| slot.turned(sample::SPENT))),
    ("last random bytes of a slot that has run out", |d, rng| clash_with_old(d, rng, sample::SLOTS - 1, 20)),
    ("first and last random bytes equal", |d, _| d.random.copy_within(..20, 20)),
];

pub const SECOND_PRESENTED_CLASH: &[(&str, Apply)] = &[("last random bytes of the presented slot", |d, _| {
    d.random.splice(20.., d.presented_slot().handle).for_each(drop);
})];

/// The time of the draft's call.
pub fn time(draft: &Draft) -> u64 {
    draft.clock.max(sample::latest(&draft.store))
}

/// The slots that are free or have run out, lowest first.
fn vacant(draft: &Draft) -> impl Iterator<Item = usize> + '_ {
    let now = time(draft);
    sample::slots(&draft.store).enumerate().filter(move |(_, slot)| !slot.is_live(now)).map(|(number, _)| number)
}

/// Fills all vacant slots with live ones but the last few.
pub fn fill(draft: &mut Draft, rng: &mut Rng, left: usize) {
    let vacant: Vec<usize> = vacant(draft).collect();
    let expiry = time(draft) + 1;
    for &number in &vacant[..vacant.len().saturating_sub(left)] {
        let slot = Slot::of(rng.pick(&sample::KINDS), rng.handle(), expiry);
        draft.set_slot(number, slot);
    }
}

/// Gives the random bytes from `half` on to a live slot, other than the presented one, and turns it into another.
fn clash(draft: &mut Draft, rng: &mut Rng, half: usize, turn: fn(Slot) -> Slot) {
    let now = time(draft);
    let live: Vec<usize> = sample::slots(&draft.store)
        .enumerate()
        .filter(|&(number, slot)| slot.is_live(now) && !draft.presents(number))
        .map(|(number, _)| number)
        .collect();
    let handle = handle_at(draft, half);
    match live.is_empty() {
        true => draft.set_slot(sample::SLOTS - 1, turn(Slot::of(sample::ACCESS, handle, now + 1))),
        false => draft.edit_slot(rng.pick(&live), |slot| *slot = Slot { handle, ..turn(*slot) }),
    }
}

/// Puts a slot that has run out, with the random bytes from `half` on, in the place of another.
fn clash_with_old(draft: &mut Draft, rng: &mut Rng, number: usize, half: usize) {
    let number = if draft.presents(number) { (number + 1) % sample::SLOTS } else { number };
    let slot = Slot::of(rng.pick(&sample::KINDS), handle_at(draft, half), time(draft));
    draft.set_slot(number, slot);
}

fn handle_at(draft: &Draft, half: usize) -> [u8; 20] {
    draft.random[half..half + 20].try_into().expect("twenty bytes")
}
