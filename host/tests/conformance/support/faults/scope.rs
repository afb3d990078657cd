//! Scopes of an authorization, of a refresh and of client credentials.

use poplarchime_host::plain::scope::{ScopeSet, NAMES};

use super::texts::{cut, longer};
use super::Apply;
use crate::support::draft::{Action, Draft};
use crate::support::rng::Rng;

pub const SCOPE: &[(&str, Apply)] = &[
    ("two spaces in a scope", |d, _| d.params.set("scope", two_names(d, "  "))),
    ("space before a scope", |d, _| d.params.set("scope", format!(" {}", a_name(granted(d))))),
    ("space behind a scope", |d, _| d.params.set("scope", format!("{} ", a_name(granted(d))))),
    ("scope of one space", |d, _| d.params.set("scope", " ")),
    ("tab in a scope", |d, _| d.params.set("scope", two_names(d, "\t"))),
    ("comma in a scope", |d, _| d.params.set("scope", two_names(d, ","))),
    ("plus in a scope", |d, _| d.params.set("scope", two_names(d, "+"))),
    ("unknown scope", |d, _| d.params.set("scope", "weather")),
    ("unknown scope behind a known one", |d, _| d.params.set("scope", two_names(d, " weather "))),
    ("scope cut", |d, _| d.params.set("scope", cut(a_name(granted(d)).as_bytes()))),
    ("scope longer", |d, _| d.params.set("scope", longer(a_name(granted(d)).as_bytes()))),
    ("scope in capitals", |d, _| d.params.set("scope", a_name(granted(d)).to_uppercase())),
    ("scope beyond the granted one", |d, rng| beyond(d, rng, |_| String::new())),
    ("scope partly beyond the granted one", |d, rng| beyond(d, rng, |granted| format!("{} ", a_name(granted)))),
    ("a name more than the whole scope", |d, rng| beyond(d, rng, |granted| format!("{} ", ScopeSet(granted).text()))),
];

pub const HARMLESS_SCOPE: &[(&str, Apply)] = &[
    ("scope given", |d, rng| give_scope(d, rng)),
    ("whole scope given", |d, _| d.params.set("scope", ScopeSet(granted(d)).text())),
];

/// The set that a scope may not exceed: a refresh token's own, else that of the client that asks.
fn granted(draft: &Draft) -> u8 {
    match draft.action {
        Action::Refresh => draft.presented_slot().scope,
        _ => draft.asking().scope,
    }
}

/// A name of the set; of the empty set, which only a spoiled store has, any.
fn a_name(set: u8) -> &'static str {
    NAMES[set.trailing_zeros() as usize % 8]
}

fn two_names(draft: &Draft, between: &str) -> String {
    let name = a_name(granted(draft));
    format!("{name}{between}{name}")
}

/// Asks for a name that is not granted, behind others that are.
fn beyond(draft: &mut Draft, rng: &mut Rng, before: fn(u8) -> String) {
    if granted(draft) == 255 {
        match draft.action {
            Action::Refresh => draft.edit_slot(draft.presented, |slot| slot.scope = 0b0101_0101),
            _ => return draft.params.set("scope", "everything"),
        }
    }
    let missing: Vec<&str> = (0..8).filter(|bit| granted(draft) >> bit & 1 == 0).map(|bit| NAMES[bit]).collect();
    let missing = rng.pick(&missing);
    draft.params.set("scope", format!("{}{missing}", before(granted(draft))));
}

/// Some of the names granted, in any order, one of them twice.
pub fn give_scope(draft: &mut Draft, rng: &mut Rng) {
    let mut names: Vec<&str> = (0..8).filter(|bit| granted(draft) >> bit & 1 == 1).map(|bit| NAMES[bit]).collect();
    names.push(a_name(granted(draft)));
    rng.shuffle(&mut names);
    names.truncate(rng.between(1, 9));
    draft.params.set("scope", names.join(" "));
}
