//! Refusals 1 to 4: what the host hands along is unfit.

use poplarchime_host::sample::{self, Client, Slot};

use super::texts::shorten;
use super::Apply;
use crate::support::draft::Draft;
use crate::support::rng::Rng;

const CLOCK_LIMIT: u64 = 1 << 40;

// ---- refusal 1

pub const OUTPUT: &[(&str, Apply)] =
    &[("output of 1,023 bytes", |d, _| d.output = 1023), ("no output", |d, _| d.output = 0)];

pub const RANDOM: &[(&str, Apply)] = &[
    ("a random byte too few", |d, _| shorten(&mut d.random)),
    ("a random byte too many", |d, rng| d.random.push(rng.byte())),
    ("no random bytes", |d, _| d.random.clear()),
    ("random bytes of the other endpoint", |d, _| d.random.resize(60 - d.random.len().min(60), 0)),
];

// ---- refusal 2

// Places in a record.
const ID_LENGTH: usize = 1;
const ID: usize = 2;
const REDIRECT_LENGTH: usize = 34;
const REDIRECT_START: usize = 35;
const SCOPE_SET: usize = 235;
const SECRET_LENGTH: usize = 236;
const SECRET: usize = 237;

pub const REGISTRY: &[(&str, Apply)] = &[
    ("empty registry", |d, _| d.registry.clear()),
    ("registry cut by a byte", |d, _| shorten(&mut d.registry)),
    ("registry cut to half a record", |d, _| d.registry.truncate(118)),
    ("a zero byte behind the registry", |d, _| d.registry.push(0)),
    ("a kind behind the registry", |d, rng| d.registry.push(rng.pick(&[1, 2]))),
    ("record of kind 0", |d, rng| poke(d, rng, 0, 0)),
    ("record of kind 3", |d, rng| poke(d, rng, 0, 3)),
    ("record of kind 255", |d, rng| poke(d, rng, 0, 255)),
    ("record of the other kind", |d, rng| {
        let kind = start_of(d, rng);
        d.registry[kind] = 3 - d.registry[kind];
    }),
    ("empty id", |d, rng| empty(d, rng, |_| true, ID_LENGTH, 32)),
    ("id of 33 bytes", |d, rng| poke(d, rng, ID_LENGTH, 33)),
    ("id of 255 bytes", |d, rng| poke(d, rng, ID_LENGTH, 255)),
    ("id with a control byte", |d, rng| poke(d, rng, ID, 0x1f)),
    ("id with a delete byte", |d, rng| poke(d, rng, ID, 0x7f)),
    ("id with a byte above 7f", |d, rng| poke(d, rng, ID, 0x80)),
    ("id with a colon", |d, rng| poke(d, rng, ID, b':')),
    ("id longer than its text", |d, rng| add_to(d, rng, ID_LENGTH, 1)),
    ("id shorter than its text", |d, rng| add_to(d, rng, ID_LENGTH, 255)),
    ("unused byte of an id", |d, rng| poke_unused(d, rng, ID_LENGTH, ID + 31)),
    ("two equal ids", |d, rng| {
        let twin = Client::public("", "https://twin.example/", 1);
        let id = d.clients[rng.below(d.clients.len())].id.clone();
        d.registry.extend(Client { id, ..twin }.record());
    }),
    ("empty redirect", |d, rng| empty(d, rng, |_| true, REDIRECT_LENGTH, 200)),
    ("redirect of 201 bytes", |d, rng| poke(d, rng, REDIRECT_LENGTH, 201)),
    ("redirect with a space", |d, rng| poke(d, rng, REDIRECT_START, 0x20)),
    ("redirect with a delete byte", |d, rng| poke(d, rng, REDIRECT_START, 0x7f)),
    ("redirect with a byte above 7f", |d, rng| poke(d, rng, REDIRECT_START, 0xc3)),
    ("redirect with a fragment", |d, rng| poke(d, rng, REDIRECT_START, b'#')),
    ("redirect longer than its text", |d, rng| add_to(d, rng, REDIRECT_LENGTH, 1)),
    ("redirect shorter than its text", |d, rng| add_to(d, rng, REDIRECT_LENGTH, 255)),
    ("unused byte of a redirect", |d, rng| poke_unused(d, rng, REDIRECT_LENGTH, REDIRECT_START + 199)),
    ("empty scope set", |d, rng| poke(d, rng, SCOPE_SET, 0)),
    ("empty secret", |d, rng| empty(d, rng, |client| client.secret.is_some(), SECRET_LENGTH, 64)),
    ("secret of 65 bytes", |d, rng| poke_secret(d, rng, SECRET_LENGTH, 65)),
    ("secret with a control byte", |d, rng| poke_secret(d, rng, SECRET, 0x1f)),
    ("secret with a delete byte", |d, rng| poke_secret(d, rng, SECRET, 0x7f)),
    ("secret with a zero byte", |d, rng| poke_secret(d, rng, SECRET, 0)),
    ("unused byte of a secret", |d, rng| {
        let room = |client: &Client| client.secret.as_ref().is_some_and(|secret| secret.len() < 64);
        poke_where(d, rng, room, SECRET + 63, 1);
    }),
    ("65 clients", |d, _| {
        for number in d.clients.len()..65 {
            let client = Client::public(&format!("one too many {number}"), "https://crowd.example/", 1);
            d.registry.extend(client.record());
        }
    }),
];

/// Where the record of one of the clients for which the test holds begins.
fn start_where(draft: &Draft, rng: &mut Rng, test: impl Fn(&Client) -> bool) -> Option<usize> {
    let mut starts = Vec::new();
    let mut start = 0;
    for client in draft.clients.iter() {
        if test(client) {
            starts.push(start);
        }
        start += if client.secret.is_some() { 301 } else { 236 };
    }
    (!starts.is_empty()).then(|| rng.pick(&starts))
}

fn start_of(draft: &Draft, rng: &mut Rng) -> usize {
    start_where(draft, rng, |_| true).expect("a draft has clients")
}

fn poke(draft: &mut Draft, rng: &mut Rng, offset: usize, value: u8) {
    poke_where(draft, rng, |_| true, offset, value);
}

fn poke_secret(draft: &mut Draft, rng: &mut Rng, offset: usize, value: u8) {
    poke_where(draft, rng, |client| client.secret.is_some(), offset, value);
}

/// Changes a byte of a fitting client's record; with no such client, a record loses its scope.
fn poke_where(draft: &mut Draft, rng: &mut Rng, test: impl Fn(&Client) -> bool, offset: usize, value: u8) {
    match start_where(draft, rng, test) {
        Some(start) => draft.registry[start + offset] = value,
        None => poke(draft, rng, SCOPE_SET, 0),
    }
}

/// Makes a field of a fitting client's record empty in every way; with no such client, a record loses its scope.
fn empty(draft: &mut Draft, rng: &mut Rng, test: fn(&Client) -> bool, length: usize, width: usize) {
    match start_where(draft, rng, test) {
        Some(start) => draft.registry[start + length..=start + length + width].fill(0),
        None => poke(draft, rng, SCOPE_SET, 0),
    }
}

fn add_to(draft: &mut Draft, rng: &mut Rng, offset: usize, value: u8) {
    let start = start_of(draft, rng);
    draft.registry[start + offset] = draft.registry[start + offset].wrapping_add(value);
}

/// Sets the last byte of a field; where the text fills the field, its length becomes too great instead.
fn poke_unused(draft: &mut Draft, rng: &mut Rng, length: usize, last: usize) {
    let start = start_of(draft, rng);
    let width = last - length;
    match usize::from(draft.registry[start + length]) < width {
        true => draft.registry[start + last] = b'x',
        false => draft.registry[start + length] += 1,
    }
}

// ---- refusal 3

pub const STORE: &[(&str, Apply)] = &[
    ("store cut by a byte", |d, _| shorten(&mut d.store)),
    ("a byte behind the store", |d, _| d.store.push(0)),
    ("no store", |d, _| d.store.clear()),
    ("a slot too few", |d, _| d.store.truncate(sample::STORE_SIZE - sample::SLOT_SIZE)),
    ("a slot too many", |d, _| d.store.resize(sample::STORE_SIZE + sample::SLOT_SIZE, 0)),
    ("store from before version 0.6.0", |d, _| d.store.truncate(sample::FORMER_SIZES[0])),
    ("store from before version 0.5.0", |d, _| d.store.truncate(sample::FORMER_SIZES[1])),
    ("store from before version 0.4.0", |d, _| d.store.truncate(sample::FORMER_SIZES[2])),
    ("high-water mark above 2^40", |d, _| sample::set_latest(&mut d.store, CLOCK_LIMIT + 1)),
    ("high-water mark of 2^64-1", |d, _| sample::set_latest(&mut d.store, u64::MAX)),
    ("slot of kind 8", |d, rng| spoil_slot(d, rng, |slot, _| *slot = slot.turned(8))),
    ("slot of kind 255", |d, rng| spoil_slot(d, rng, |slot, _| slot.kind = 255)),
    ("slot of a client beyond the registry", |d, rng| spoil_slot(d, rng, |slot, clients| slot.client = clients)),
    ("slot of client 255", |d, rng| spoil_slot(d, rng, |slot, _| slot.client = 255)),
    ("slot with an empty scope set", |d, rng| spoil_slot(d, rng, |slot, _| slot.scope = 0)),
    ("code with an origin", |d, rng| give_origin(d, rng, sample::CODE)),
    ("bound code with an origin", |d, rng| give_origin(d, rng, sample::BOUND_CODE)),
    ("spent code with an origin", |d, rng| give_origin(d, rng, sample::SPENT)),
    ("code with a byte behind its origin", |d, rng| give_more(d, rng, sample::CODE)),
    ("bound code with a byte behind its origin", |d, rng| give_more(d, rng, sample::BOUND_CODE)),
    ("spent code with a byte behind its origin", |d, rng| give_more(d, rng, sample::SPENT)),
    ("access token with a byte behind its origin", |d, rng| give_more(d, rng, sample::ACCESS)),
    ("refresh token with a byte behind its origin", |d, rng| give_more(d, rng, sample::REFRESH)),
    ("free slot with a handle", |d, rng| free_but(d, rng, |slot| slot.handle[19] = 1)),
    ("free slot with a client", |d, rng| free_but(d, rng, |slot| slot.client = 1)),
    ("free slot with a farm", |d, rng| free_but(d, rng, |slot| slot.farm = 1)),
    ("free slot with a scope set", |d, rng| free_but(d, rng, |slot| slot.scope = 1)),
    ("free slot with an expiry", |d, rng| free_but(d, rng, |slot| slot.expiry = 1)),
    ("free slot with an origin", |d, rng| free_but(d, rng, |slot| slot.origin[0] = 1)),
    ("free slot with a byte behind its origin", |d, rng| free_but(d, rng, |slot| slot.behind_origin[11] = 1)),
];

fn spoil_slot(draft: &mut Draft, rng: &mut Rng, spoil: fn(&mut Slot, u8)) {
    let clients = draft.clients.len() as u8;
    let number = rng.below(sample::SLOTS);
    draft.edit_slot(number, |slot| {
        if slot.kind == sample::FREE {
            *slot = Slot { kind: sample::ACCESS, scope: 1, ..Slot::default() };
        }
        spoil(slot, clients);
    });
}

/// Turns a slot into a code that has an origin.
fn give_origin(draft: &mut Draft, rng: &mut Rng, kind: u8) {
    let (number, at) = (rng.below(sample::SLOTS), rng.below(20));
    draft.edit_slot(number, |slot| {
        *slot = Slot::of(kind, slot.handle, slot.expiry);
        slot.origin[at] = 1;
    });
}

/// Turns a slot into one of a kind that has zeros behind its origin, and sets one of them.
fn give_more(draft: &mut Draft, rng: &mut Rng, kind: u8) {
    let (number, at) = (rng.below(sample::SLOTS), rng.below(12));
    draft.edit_slot(number, |slot| {
        *slot = Slot::of(kind, slot.handle, slot.expiry);
        slot.behind_origin[at] = 1;
    });
}

fn free_but(draft: &mut Draft, rng: &mut Rng, spoil: fn(&mut Slot)) {
    let number = rng.below(sample::SLOTS);
    draft.edit_slot(number, |slot| {
        *slot = Slot::default();
        spoil(slot);
    });
}

// ---- refusal 4

pub const CLOCK: &[(&str, Apply)] =
    &[("clock of 2^40+1", |d, _| d.clock = CLOCK_LIMIT + 1), ("clock of 2^64-1", |d, _| d.clock = u64::MAX)];

pub const HARMLESS_CLOCK: &[(&str, Apply)] = &[
    ("clock gone back", |d, rng| d.clock = rng.below(1 + sample::latest(&d.store) as usize) as u64),
    ("clock of 0", |d, _| d.clock = 0),
];
