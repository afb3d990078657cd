//! The access token check.

use poplarchime_host::sample;

use super::presented::{expire, hide, present, run_out};
use super::texts::{other_end, shorten};
use super::Apply;

pub const TOKEN: &[(&str, Apply)] = &[
    ("no token", |d, _| d.token.clear()),
    ("unknown token", |d, rng| present(d, sample::hex(&rng.handle()))),
    ("token of another last digit", |d, _| present(d, other_end(d.presented_slot().handle_text().as_bytes()))),
    ("token in capitals", |d, _| {
        d.edit_slot(d.presented, |slot| slot.handle[7] |= 0xa0);
        present(d, d.presented_slot().handle_text().to_uppercase());
    }),
    ("token cut by a digit", |d, _| shorten(&mut d.token)),
    ("a digit behind the token", |d, _| d.token.push(b'0')),
    ("line end behind the token", |d, _| d.token.push(b'\n')),
    ("token behind its scheme", |d, _| present(d, format!("Bearer {}", d.presented_slot().handle_text()))),
    ("token as bytes", |d, _| present(d, d.presented_slot().handle)),
    ("token of 5,000 bytes", |d, _| d.token.resize(5000, b'0')),
    ("token run out this second", |d, _| run_out(d, 0)),
    ("token run out long ago", |d, _| run_out(d, 10_000)),
    ("a code", |d, _| d.edit_slot(d.presented, |slot| *slot = slot.turned(sample::CODE))),
    ("a bound code", |d, _| d.edit_slot(d.presented, |slot| *slot = slot.turned(sample::BOUND_CODE))),
    ("a spent code", |d, _| d.edit_slot(d.presented, |slot| *slot = slot.turned(sample::SPENT))),
    ("a code with a challenge", |d, _| d.edit_slot(d.presented, |slot| *slot = slot.turned(sample::CHALLENGED_CODE))),
    ("a refresh token", |d, _| d.edit_slot(d.presented, |slot| slot.kind = sample::REFRESH)),
    ("a slot that has run out hides it", |d, rng| hide(d, rng, expire)),
];

pub const HARMLESS_CHECK: &[(&str, Apply)] = &[
    ("expiry of 2^64-1", |d, _| d.edit_slot(d.presented, |slot| slot.expiry = u64::MAX)),
    ("scope set beyond the client's", |d, _| d.edit_slot(d.presented, |slot| slot.scope = 255)),
    ("codes and refresh token of the same handle", |d, rng| {
        let held = d.presented_slot();
        for kind in sample::KINDS.into_iter().filter(|&kind| kind != sample::ACCESS) {
            d.set_slot(d.other_slot(rng), held.turned(kind));
        }
    }),
];
