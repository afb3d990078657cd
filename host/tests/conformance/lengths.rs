//! Buffers, requests and fields of every length around their limits, each with everything else as it should be.

use std::sync::Arc;

use poplarchime_host::sample::{self, Client, Slot};

use crate::support::compare::run_both;
use crate::support::draft::{Action, Draft};
use crate::support::faults::present;
use crate::support::writing;

const NOW: u64 = 1000;
const RANDOM: [u8; 40] = [0x5a; 40];

/// Slot 0 holds a code, slot 1 an access token, slot 2 a refresh token, all of client 0.
fn store() -> Vec<u8> {
    let mut store = sample::empty_store();
    for (number, kind) in [sample::CODE, sample::ACCESS, sample::REFRESH].into_iter().enumerate() {
        let handle = [0xab + number as u8; 20];
        sample::set_slot(&mut store, number, Slot::of(kind, handle, 2000));
    }
    store
}

fn draft_of(action: Action, clients: &Arc<[Client]>) -> Draft {
    match action {
        Action::Authorize => Draft::authorize(clients, &store(), NOW, 0, &RANDOM[..20]),
        Action::Exchange => {
            // Equal halves would be a clash.
            let random: Vec<u8> = (0..40).collect();
            Draft::token(action, clients, &store(), NOW, 0, random)
        }
        Action::Refresh => Draft::token(action, clients, &store(), NOW, 2, RANDOM),
        Action::ClientCredentials => Draft::client_credentials(clients, &store(), NOW, 0, RANDOM),
        Action::Revoke => Draft::revoke(clients, &store(), NOW, 2),
        Action::Check => Draft::check(clients, &store(), NOW, 1),
    }
}

fn draft(action: Action) -> Draft {
    draft_of(action, &sample::visit_clients().into())
}

#[track_caller]
fn expect(draft: &Draft, outcome: &str) {
    assert_eq!(run_both(&draft.call(), &draft.store).outcome(), outcome, "{}", draft.call());
}

#[test]
fn random_bytes() {
    for action in Action::ISSUING {
        let right = if action == Action::Authorize { 20 } else { 40 };
        for length in 0..=100 {
            let mut draft = draft(action);
            draft.random = (0..length).collect();
            expect(&draft, if length == right { action.granted() } else { "refusal 1" });
        }
    }
}

#[test]
fn output() {
    for action in Action::WRITING {
        for length in (0..40).chain(1000..1050) {
            let mut draft = draft(action);
            draft.output = length;
            expect(&draft, if length >= 1024 { action.granted() } else { "refusal 1" });
        }
    }
}

#[test]
fn queries_and_bodies() {
    for action in Action::WRITING {
        for length in 4080..4120 {
            let mut draft = draft(action);
            draft.padded_to = length;
            let over = if action == Action::Authorize { "refusal 5" } else { "400 invalid_request" };
            expect(&draft, if length <= 4096 { action.granted() } else { over });
        }
    }
}

#[test]
fn headers() {
    // No header of 512 bytes or around admits anyone; the longest that does has 394.
    for action in Action::BY_CLIENTS {
        for length in (0..20).chain(500..530) {
            let mut draft = draft(action);
            let mut header = sample::basic_header(b"s6BhdRkqt3", &[b'x'; 400]);
            header.truncate(length);
            draft.authenticate_by_header(header);
            let none = length == 0;
            expect(&draft, if none { "401 invalid_client" } else { "401 invalid_client, challenge" });
        }
        let (id, secret) = ([b'i'; 32], [b's'; 64]);
        let longest =
            Client { id: id.into(), secret: Some(secret.into()), ..Client::public("", "https://long.example/", 1) };
        let mut draft = draft_of(action, &vec![longest].into());
        assert_eq!(draft.header.written().len(), 138);
        expect(&draft, action.granted());
        draft.authenticate_by_header(writing::basic_header(&id, &secret, |text, _| writing::full(text)));
        assert_eq!(draft.header.written().len(), 394);
        expect(&draft, action.granted());
    }
}

#[test]
fn states() {
    for length in 1..=260 {
        for byte in [b's', b'&', b' '] {
            let mut draft = draft(Action::Authorize);
            draft.params.push("state", vec![byte; length]);
            expect(&draft, if length <= 200 { "code" } else { "invalid_request" });
        }
    }
}

#[test]
fn handles() {
    for action in Action::ALL.into_iter().filter(|action| action.presents()) {
        for length in 0..=60 {
            let mut draft = draft(action);
            let mut text = draft.presented_slot().handle_text();
            text.truncate(length);
            text.push_str(&"0".repeat(length - text.len()));
            present(&mut draft, text);
            let (outcome, missing) = match action {
                Action::Revoke => ("200", "400 invalid_request"),
                Action::Check => ("not live", "not live"),
                _ => ("400 invalid_grant", "400 invalid_request"),
            };
            expect(
                &draft,
                match length {
                    40 => action.granted(),
                    0 => missing,
                    _ => outcome,
                },
            );
        }
    }
}

#[test]
fn stores() {
    for action in Action::ALL {
        for length in (0..50).chain(sample::STORE_SIZE - 50..sample::STORE_SIZE + 50) {
            let mut draft = draft(action);
            draft.store.resize(length, 0);
            expect(&draft, if length == sample::STORE_SIZE { action.granted() } else { "refusal 3" });
        }
    }
}

#[test]
fn registries_cut_anywhere() {
    for action in Action::ALL {
        for length in 0..=600 {
            let mut draft = draft(action);
            draft.registry.resize(length, 0);
            // One record, or both.
            let fit = length == 301 || length == 537;
            expect(&draft, if fit { action.granted() } else { "refusal 2" });
        }
    }
}

#[test]
fn fields_of_a_record() {
    // Kind, where the length stands, the width of the field behind it.
    for (kind, at, width) in [(1, 1, 32), (1, 34, 200), (2, 1, 32), (2, 34, 200), (2, 236, 64)] {
        for length in 0..=255_u8 {
            let client = match kind {
                1 => Client::public("i", "r", 255),
                _ => Client::confidential("i", "s", "r", 255),
            };
            let mut draft = draft_of(Action::Check, &vec![client].into());
            draft.registry[at] = length;
            let used = usize::from(length).min(width);
            draft.registry[at + 1..][..width].fill(0);
            draft.registry[at + 1..][..used].fill(b'x');
            let fit = (1..=width).contains(&usize::from(length));
            expect(&draft, if fit { "live" } else { "refusal 2" });
        }
    }
}

#[test]
fn bytes_of_a_record() {
    // Where a text of one byte stands, and which bytes it may be.
    let id = |byte: u8| (0x20..=0x7e).contains(&byte) && byte != b':';
    let redirect = |byte: u8| (0x21..=0x7e).contains(&byte) && byte != b'#';
    let secret = |byte: u8| (0x20..=0x7e).contains(&byte);
    let places: [(usize, &dyn Fn(u8) -> bool); 3] = [(2, &id), (35, &redirect), (237, &secret)];
    for (at, allowed) in places {
        for byte in 0..=255 {
            let client = Client::confidential("i", "s", "r", 255);
            let mut draft = draft_of(Action::Check, &vec![client].into());
            draft.registry[at] = byte;
            expect(&draft, if allowed(byte) { "live" } else { "refusal 2" });
        }
    }
}

#[test]
fn unused_bytes_of_a_record() {
    let client = Client::confidential("i", "s", "r", 255);
    let used = [0, 1, 2, 34, 35, 235, 236, 237];
    for at in (0..301).filter(|at| !used.contains(at)) {
        let mut draft = draft_of(Action::Check, &vec![client.clone()].into());
        draft.registry[at] = b'x';
        expect(&draft, "refusal 2");
    }
}

#[test]
fn bytes_of_a_free_slot() {
    for slot in [3, 100, sample::FORMER_SLOTS, sample::SLOTS - 1] {
        for offset in 1..sample::SLOT_SIZE {
            let mut draft = draft(Action::Check);
            draft.store[sample::slot_range(slot).start + offset] = 1;
            expect(&draft, "refusal 3");
        }
    }
}

#[test]
fn kinds_and_clients_of_a_slot() {
    for number in 0..=255 {
        let held = Slot { client: 1, farm: 0, ..Slot::of(number, [9; 20], 0) };
        let mut slots = vec![(held, (1..=7).contains(&number))];
        for kind in sample::KINDS {
            slots.push((Slot { kind, client: number, ..held }, number < 2));
            slots.push((Slot { kind, scope: number, ..held }, number > 0));
        }
        for (slot, fit) in slots {
            let mut draft = draft(Action::Check);
            draft.set_slot(sample::SLOTS - 1, slot);
            expect(&draft, if fit { "live" } else { "refusal 3" });
        }
    }
}

#[test]
fn last_bytes_of_a_slot() {
    for kind in sample::KINDS {
        // How many of them may hold anything: an origin, a challenge, or none.
        let free = match kind {
            3 | 4 => 20,
            6 | 7 => 32,
            _ => 0,
        };
        for at in 0..32 {
            for byte in [1, 0x80, 0xff] {
                let mut draft = draft(Action::Check);
                draft.set_slot(300, Slot::of(kind, [9; 20], 0));
                expect(&draft, "live");
                draft.store[sample::slot_range(300).start + sample::ORIGIN + at] = byte;
                expect(&draft, if at < free { "live" } else { "refusal 3" });
            }
        }
    }
}

#[test]
fn stores_of_earlier_layouts() {
    for action in Action::ALL {
        for length in sample::FORMER_SIZES.into_iter().flat_map(|size| size - 1..=size + 1) {
            let mut draft = draft(action);
            draft.store.truncate(length);
            expect(&draft, "refusal 3");
            draft.store.fill(0);
            expect(&draft, "refusal 3");
        }
    }
}
