//! The revocation endpoint: the token, its hint, and what goes along with it.

use poplarchime_host::sample::{self, Slot};

use super::presented::{be_another, expire, give_away, hide, present, run_out, show_first, spoiled};
use super::room::{fill, time};
use super::texts::repeat;
use super::Apply;
use crate::support::draft::Draft;
use crate::support::rng::Rng;

pub const NAMES: &[(&str, Apply)] = &[
    ("token twice", |d, _| repeat(d, "token")),
    ("two tokens", |d, rng| d.params.push("token", sample::hex(&rng.handle()))),
    ("token_type_hint twice", |d, _| repeat(d, "token_type_hint")),
    ("two token_type_hints", |d, _| {
        d.params.set("token_type_hint", "access_token");
        d.params.push("token_type_hint", "refresh_token");
    }),
    ("no token", |d, _| d.params.remove("token")),
    ("empty token", |d, _| d.params.set("token", "")),
    ("token under the name of another endpoint", |d, _| {
        d.params.remove("token");
        d.params.set("refresh_token", d.presented_slot().handle_text());
    }),
];

/// There is nothing to revoke, whoever asks.
pub const NOTHING: &[(&str, Apply)] = &[
    ("token of RFC 7009", |d, _| present(d, "45ghiukldjahdnhzdauz")),
    ("a code", |d, _| turn_all(d, sample::CODE)),
    ("a bound code", |d, _| turn_all(d, sample::BOUND_CODE)),
    ("a spent code", |d, _| turn_all(d, sample::SPENT)),
    ("a code with a challenge", |d, _| turn_all(d, sample::CHALLENGED_CODE)),
    ("a bound code with a challenge", |d, _| turn_all(d, sample::BOUND_CHALLENGED_CODE)),
    ("another client's, run out this second", |d, rng| {
        be_another(d, rng);
        run_out(d, 0);
    }),
    ("another client's slot that has run out hides it", |d, rng| {
        hide(d, rng, |slot, now, clients| {
            give_away(slot, now, clients);
            expire(slot, now, clients);
        });
    }),
    ("a token of the other kind that has run out hides it", |d, rng| {
        hide(d, rng, |slot, now, clients| {
            swap_kind(slot);
            expire(slot, now, clients);
        });
    }),
];

pub const ANOTHER_CLIENTS: &[(&str, Apply)] = &[
    ("another client's, in its last second", |d, rng| {
        d.set_slot(d.presented, spoiled(d, last_second));
        be_another(d, rng);
    }),
    ("another client's token of the other kind hides it", |d, rng| {
        hide(d, rng, |slot, now, clients| {
            swap_kind(slot);
            give_away(slot, now, clients);
        });
    }),
    ("another client's, which came from the same code", |d, rng| {
        d.edit_slot(d.presented, |slot| slot.kind = sample::REFRESH);
        add_relatives(d, rng);
        be_another(d, rng);
    }),
];

pub const HARMLESS: &[(&str, Apply)] = &[
    // The hint.
    ("the hint access_token", |d, _| d.params.set("token_type_hint", "access_token")),
    ("the hint refresh_token", |d, _| d.params.set("token_type_hint", "refresh_token")),
    ("nonsense as hint", |d, _| d.params.set("token_type_hint", " an old token\0")),
    ("an empty hint and token besides", |d, _| {
        d.params.push("token_type_hint", "");
        d.params.push("token", "");
    }),
    // Names that this endpoint does not know.
    ("names of the token endpoint, repeated", |d, _| {
        for name in ["grant_type", "code", "redirect_uri", "refresh_token", "scope", "code_verifier"] {
            repeat(d, name);
        }
    }),
    ("names of the authorization endpoint, repeated", |d, _| {
        for name in ["response_type", "state", "code_challenge", "code_challenge_method"] {
            repeat(d, name);
        }
    }),
    // The token.
    ("an access token", |d, _| d.edit_slot(d.presented, |slot| slot.kind = sample::ACCESS)),
    ("a refresh token", |d, _| d.edit_slot(d.presented, |slot| slot.kind = sample::REFRESH)),
    ("a token that is its own origin", |d, _| d.edit_slot(d.presented, |slot| slot.origin = slot.handle)),
    ("a token whose origin is zero", |d, _| d.edit_slot(d.presented, |slot| slot.origin = [0; 20])),
    ("a token in its last second", |d, _| d.set_slot(d.presented, spoiled(d, last_second))),
    ("an access token and others of its origin", |d, rng| {
        d.edit_slot(d.presented, |slot| slot.kind = sample::ACCESS);
        add_relatives(d, rng);
    }),
    ("a refresh token and others of its origin", |d, rng| {
        d.edit_slot(d.presented, |slot| slot.kind = sample::REFRESH);
        add_relatives(d, rng);
    }),
    // Its place in the store.
    ("codes of the same handle", |d, rng| {
        let held = d.presented_slot();
        for kind in sample::CODES {
            d.set_slot(d.other_slot(rng), held.turned(kind));
        }
    }),
    ("before one that has run out", |d, rng| show_first(d, rng, expire)),
    ("before another client's", |d, rng| show_first(d, rng, give_away)),
    ("before one of the other kind", |d, rng| show_first(d, rng, |slot, _, _| swap_kind(slot))),
    ("behind one of the other kind, which counts", |d, rng| hide(d, rng, |slot, _, _| swap_kind(slot))),
    ("no slot left", |d, rng| fill(d, rng, 0)),
];

fn last_second(slot: &mut Slot, now: u64, _clients: u8) {
    slot.expiry = now + 1;
}

/// Turns an access token into a refresh token, and the other way round.
fn swap_kind(slot: &mut Slot) {
    slot.kind = if slot.kind == sample::ACCESS { sample::REFRESH } else { sample::ACCESS };
}

/// Turns every slot that has the presented handle into one of this kind.
fn turn_all(draft: &mut Draft, kind: u8) {
    let handle = draft.presented_slot().handle;
    for number in 0..sample::SLOTS {
        draft.edit_slot(number, |slot| {
            if slot.kind != sample::FREE && slot.handle == handle {
                *slot = slot.turned(kind);
            }
        });
    }
}

/// Others that came from the same code: access tokens live and run out, the client's own and others', and another
/// refresh token. The spent code itself, and codes whose challenge begins as the origin does.
fn add_relatives(draft: &mut Draft, rng: &mut Rng) {
    let (origin, now) = (draft.presented_slot().origin, time(draft));
    draft.set_slot(draft.other_slot(rng), Slot::of(sample::SPENT, origin, now + 1));
    for (kind, expiry) in [
        (sample::CHALLENGED_CODE, now + 1),
        (sample::BOUND_CHALLENGED_CODE, now),
        (sample::ACCESS, now),
        (sample::ACCESS, now + 1),
        (sample::REFRESH, u64::MAX),
    ] {
        let client = rng.below(draft.clients.len()) as u8;
        let relative = Slot { client, origin, ..Slot::of(kind, rng.handle(), expiry) };
        draft.set_slot(draft.other_slot(rng), relative);
    }
}
