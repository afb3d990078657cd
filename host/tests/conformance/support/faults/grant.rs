//! The token endpoint: the grants, codes and refresh tokens, and who may use them.

use poplarchime_host::sample::{self, Slot};

use super::presented::{expire, give_away, hide, present, presented_name, show_first, spoiled};
use super::room::time;
use super::texts::{cut, longer, one_less, other_end, repeat};
use super::verifier::challenge;
use super::Apply;
use crate::support::draft::{Action, Draft};
use crate::support::pkce;
use crate::support::rng::Rng;

/// A name counts for repeats whether the grant uses it or not.
pub const NAMES: &[(&str, Apply)] = &[
    ("grant_type twice", |d, _| repeat(d, "grant_type")),
    ("code twice", |d, _| repeat(d, "code")),
    ("redirect_uri twice", |d, _| repeat(d, "redirect_uri")),
    ("refresh_token twice", |d, _| repeat(d, "refresh_token")),
    ("scope twice", |d, _| repeat(d, "scope")),
    ("two scopes", |d, _| {
        d.params.set("scope", "power");
        d.params.push("scope", "peak");
    }),
    ("code_verifier twice", |d, _| repeat(d, "code_verifier")),
    ("two code_verifiers", |d, _| {
        d.params.set("code_verifier", pkce::VERIFIER);
        d.params.push("code_verifier", pkce::CHALLENGE);
    }),
    ("no grant_type", |d, _| d.params.remove("grant_type")),
    ("empty grant_type", |d, _| d.params.set("grant_type", "")),
];

pub const GRANT_TYPE: &[(&str, Apply)] = &[
    ("grant_type password", |d, _| spoil_grant_type(d, |_| b"password".into())),
    ("grant_type of an extension", |d, _| {
        spoil_grant_type(d, |_| b"urn:ietf:params:oauth:grant-type:saml2-bearer".into());
    }),
    ("grant_type in capitals", |d, _| spoil_grant_type(d, <[u8]>::to_ascii_uppercase)),
    ("grant_type with a capital", |d, _| {
        spoil_grant_type(d, |own| [&own[..1].to_ascii_uppercase(), &own[1..]].concat());
    }),
    ("grant_type cut", |d, _| spoil_grant_type(d, cut)),
    ("grant_type cut in front", |d, _| spoil_grant_type(d, |own| own[1..].into())),
    ("grant_type longer", |d, _| spoil_grant_type(d, longer)),
    ("grant_type with a space behind it", |d, _| spoil_grant_type(d, |own| [own, b" "].concat())),
    ("grant_type with a zero byte behind it", |d, _| spoil_grant_type(d, |own| [own, b"\0"].concat())),
    ("grant_type with another last byte", |d, _| spoil_grant_type(d, other_end)),
];

/// Leaves a missing grant_type missing.
fn spoil_grant_type(draft: &mut Draft, spoil: fn(&[u8]) -> Vec<u8>) {
    if let Some(own) = draft.params.get("grant_type") {
        let spoiled = spoil(own);
        draft.params.set("grant_type", spoiled);
    }
}

/// Client credentials are for clients that have a secret.
pub const PUBLIC_CLIENT: &[(&str, Apply)] = &[
    ("a public client", |d, rng| match &d.public_clients()[..] {
        [] => d.register(None),
        public => d.authenticate(rng.pick(public)),
    }),
    ("a client that is registered as public now", |d, _| d.register(None)),
];

pub const PRESENTED: &[(&str, Apply)] = &[
    ("nothing presented", |d, _| d.params.remove(presented_name(d))),
    ("nothing but an empty value presented", |d, _| d.params.set(presented_name(d), "")),
    ("presented under the other name", |d, _| {
        let other = if d.action == Action::Exchange { "refresh_token" } else { "code" };
        d.params.remove(presented_name(d));
        d.params.set(other, d.presented_slot().handle_text());
    }),
];

pub const GRANT: &[(&str, Apply)] = &[
    ("an access token", |d, _| d.edit_slot(d.presented, |slot| *slot = slot.turned(sample::ACCESS))),
    ("the other kind of handle", |d, rng| {
        let kind = if d.action == Action::Exchange { sample::REFRESH } else { rng.pick(&sample::CODES) };
        d.edit_slot(d.presented, |slot| *slot = slot.turned(kind));
    }),
];

/// Spent codes that are shown to no effect, though there are tokens that came from them.
pub const SPENT: &[(&str, Apply)] = &[
    ("spent code, run out this second", |d, rng| {
        spend(d, rng);
        d.set_slot(d.presented, spoiled(d, expire));
    }),
    ("another client's spent code", |d, rng| {
        spend(d, rng);
        d.set_slot(d.presented, spoiled(d, give_away));
    }),
    ("spent code behind one that has run out", |d, rng| {
        spend(d, rng);
        hide(d, rng, expire);
    }),
    ("spent code behind another client's", |d, rng| {
        spend(d, rng);
        hide(d, rng, give_away);
    }),
    ("spent code and an unspent one that has run out", |d, rng| {
        spend(d, rng);
        show_first(d, rng, |slot, now, _| (slot.kind, slot.expiry) = (sample::CODE, now));
    }),
    ("spent code and another client's unspent one", |d, rng| {
        spend(d, rng);
        show_first(d, rng, |slot, now, clients| {
            slot.kind = sample::CODE;
            give_away(slot, now, clients);
        });
    }),
    ("spent code and a bound one, no redirect_uri", |d, rng| {
        spend(d, rng);
        show_first(d, rng, |slot, _, _| slot.kind = sample::BOUND_CODE);
        d.params.remove("redirect_uri");
    }),
    ("spent code and one with a challenge, no verifier", |d, rng| {
        spend(d, rng);
        show_first(d, rng, |slot, _, _| *slot = slot.challenged([1; 32]));
        d.params.remove("code_verifier");
    }),
    ("spent code and one with a challenge that has run out", |d, rng| {
        spend(d, rng);
        show_first(d, rng, |slot, now, _| *slot = Slot { expiry: now, ..slot.challenged([1; 32]) });
    }),
];

pub const SECOND_SHOWING: &[(&str, Apply)] = &[
    ("spent code", spend),
    ("spent code in its last second", |d, rng| {
        spend(d, rng);
        d.set_slot(d.presented, spoiled(d, |slot, now, _| slot.expiry = now + 1));
    }),
    ("spent code before one that has run out", |d, rng| {
        spend(d, rng);
        show_first(d, rng, expire);
    }),
    ("spent code before another client's", |d, rng| {
        spend(d, rng);
        show_first(d, rng, give_away);
    }),
    ("spent code behind tokens of its handle", |d, rng| {
        spend(d, rng);
        hide(d, rng, |slot, _, _| slot.kind = sample::ACCESS);
        hide(d, rng, |slot, _, _| slot.kind = sample::REFRESH);
    }),
    ("spent code that had a challenge, no verifier", |d, rng| {
        challenge(d, rng);
        spend(d, rng);
        d.params.remove("code_verifier");
    }),
    ("spent code, nonsense as verifier", |d, rng| {
        spend(d, rng);
        d.params.set("code_verifier", "nonsense");
    }),
    ("spent code, another's verifier", |d, rng| {
        spend(d, rng);
        d.params.set("code_verifier", &pkce::sound_pair(rng).verifier);
    }),
    ("spent code of the handle of zeros", |d, rng| {
        d.edit_slot(d.presented, |slot| slot.handle = [0; 20]);
        present(d, sample::hex(&[0; 20]));
        spend(d, rng);
    }),
];

/// Turns the presented code into a spent one from which tokens came: live and run out, the client's own and others'.
/// Another code has a challenge that begins as an origin would.
fn spend(draft: &mut Draft, rng: &mut Rng) {
    draft.edit_slot(draft.presented, |slot| *slot = slot.turned(sample::SPENT));
    let (origin, now) = (draft.presented_slot().handle, time(draft));
    let code = Slot { origin, ..Slot::of(sample::CHALLENGED_CODE, rng.handle(), now + 1) };
    draft.set_slot(draft.other_slot(rng), code);
    for (kind, expiry) in [(sample::ACCESS, now), (sample::ACCESS, now + 1), (sample::REFRESH, u64::MAX)] {
        let client = rng.below(draft.clients.len()) as u8;
        let token = Slot { client, origin, ..Slot::of(kind, rng.handle(), expiry) };
        draft.set_slot(draft.other_slot(rng), token);
    }
}

pub const CODE_REDIRECT: &[(&str, Apply)] = &[
    ("bound code, no redirect_uri", |d, _| {
        bind(d);
        d.params.remove("redirect_uri");
    }),
    ("bound code, empty redirect_uri", |d, _| {
        bind(d);
        d.params.set("redirect_uri", "");
    }),
    ("bound code, redirect_uri cut", |d, _| {
        bind(d);
        d.params.set("redirect_uri", one_less(&d.asking().redirect));
    }),
    ("bound code, redirect_uri longer", |d, _| {
        bind(d);
        d.params.set("redirect_uri", longer(&d.asking().redirect));
    }),
    ("bound code, redirect_uri of a stranger", |d, _| {
        bind(d);
        d.params.set("redirect_uri", "https://evil.example/");
    }),
];

fn bind(draft: &mut Draft) {
    draft.edit_slot(draft.presented, |slot| *slot = slot.bound(true));
}

pub const HARMLESS_EXCHANGE: &[(&str, Apply)] = &[
    ("nonsense as scope", |d, _| d.params.set("scope", "  everything ")),
    ("nonsense as refresh_token", |d, _| d.params.set("refresh_token", "nonsense")),
    ("unbound code, redirect_uri of a stranger", |d, _| {
        d.edit_slot(d.presented, |slot| *slot = slot.bound(false));
        d.params.set("redirect_uri", "https://evil.example/");
    }),
    ("unbound code, no redirect_uri", |d, _| {
        d.edit_slot(d.presented, |slot| *slot = slot.bound(false));
        d.params.remove("redirect_uri");
    }),
];

pub const HARMLESS_REFRESH: &[(&str, Apply)] = &[("nonsense as code and redirect_uri", |d, _| {
    d.params.set("code", "nonsense");
    d.params.set("redirect_uri", "nonsense");
})];

pub const HARMLESS_CLIENT_CREDENTIALS: &[(&str, Apply)] = &[
    ("nonsense as code, redirect_uri and refresh_token", |d, _| {
        d.params.set("code", "nonsense");
        d.params.set("redirect_uri", "nonsense");
        d.params.set("refresh_token", "nonsense");
    }),
    ("a handle from the store as code and refresh_token", |d, rng| {
        let handle = sample::slot(&d.store, rng.below(sample::SLOTS)).handle_text();
        d.params.set("code", &handle);
        d.params.set("refresh_token", &handle);
    }),
];
