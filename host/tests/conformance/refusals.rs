//! Every reason to refuse, alone and next to every other: the answer is the papers', and the first that applies counts.

use std::sync::Arc;

use poplarchime_host::sample::{self, Client, Slot};

use crate::support::compare::{run_both, After};
use crate::support::draft::{Action, Draft};
use crate::support::faults::{faults, Fault, Step};
use crate::support::pkce;
use crate::support::rng::Rng;
use crate::support::tally::Tally;

const NOW: u64 = 1100;

/// The visit's clients, two whose credentials leave spare bits in base64, one whose base64 has `+` and `/` in it, and
/// one whose id and secret are as long as may be and full of what coding is about.
fn clients() -> Arc<[Client]> {
    let mut clients = sample::visit_clients();
    clients.push(Client::confidential("kl", "c", "https://four.example/", 3));
    clients.push(Client::confidential("mno", "d", "https://five.example/?", 255));
    clients.push(Client::confidential("z", "~?~?", "https://six.example/", 12));
    let odd = Client::public("", "https://seven.example/", 6);
    let secret = b"a%b+c &=:%41%+:;secret of sixty-four bytes, some of them %3A odd";
    clients.push(Client { id: b"an id + %41&=;of thirty-two by%s".into(), secret: Some(secret.into()), ..odd });
    clients.into()
}

/// For each client one slot of each kind, all live, behind slots that are free or have run out. The tokens came from the
/// spent code.
fn store() -> Vec<u8> {
    let mut store = sample::empty_store();
    sample::set_latest(&mut store, 1000);
    sample::set_slot(&mut store, 2, Slot::of(sample::ACCESS, [0xee; 20], NOW));
    for client in 0..6 {
        for kind in sample::KINDS {
            let scope = [9, 1, 1, 170, 8, 4][usize::from(client)];
            let origin = handle(client, sample::SPENT);
            let slot = Slot { client, farm: 5, scope, origin, ..Slot::of(kind, handle(client, kind), 1600) };
            let slot = if slot.has_challenge() { slot.challenged(challenge(client)) } else { slot.turned(kind) };
            sample::set_slot(&mut store, place(client, kind), slot);
        }
    }
    store
}

fn handle(client: u8, kind: u8) -> [u8; 20] {
    std::array::from_fn(|at| (client * 40 + kind * 5).wrapping_add(at as u8))
}

fn place(client: u8, kind: u8) -> usize {
    usize::from(4 + client * 7 + kind)
}

/// The challenge of a client's codes that have one.
fn challenge(client: u8) -> [u8; 32] {
    pkce::sound_pair(&mut Rng::new(client.into())).challenge
}

/// Requests with which nothing is wrong.
fn sound_drafts(action: Action) -> Vec<Draft> {
    let (clients, store) = (clients(), store());
    let random: [u8; 40] = std::array::from_fn(|at| 0x71 + at as u8);
    let authorize = |client| {
        let mut draft = Draft::authorize(&clients, &store, NOW, client, &random[..20]);
        draft.params.push("state", "xyz");
        draft
    };
    let token = |client, kind| Draft::token(action, &clients, &store, NOW, place(client, kind), random);
    match action {
        Action::Authorize => {
            let mut with_challenge = authorize(0);
            with_challenge.send_challenge(&challenge(0));
            (0..3).map(authorize).chain([with_challenge]).collect()
        }
        Action::Exchange => vec![
            token(0, sample::CODE),
            token(0, sample::BOUND_CODE),
            token(0, sample::BOUND_CHALLENGED_CODE),
            token(1, sample::BOUND_CODE),
            token(1, sample::CHALLENGED_CODE),
            token(2, sample::CODE),
            token(3, sample::BOUND_CODE),
            token(4, sample::CHALLENGED_CODE),
            token(5, sample::BOUND_CHALLENGED_CODE),
        ],
        Action::Refresh => (0..6).map(|client| token(client, sample::REFRESH)).collect(),
        Action::ClientCredentials => {
            [0, 2, 3, 4, 5].map(|client| Draft::client_credentials(&clients, &store, NOW, client, random)).into()
        }
        Action::Revoke => {
            let of = |kind| (0..6).map(move |client| place(client, kind));
            let places = of(sample::ACCESS).chain(of(sample::REFRESH));
            places.map(|place| Draft::revoke(&clients, &store, NOW, place)).collect()
        }
        Action::Check => {
            (0..5).map(|client| Draft::check(&clients, &store, NOW, place(client, sample::ACCESS))).collect()
        }
    }
}

/// The draft with the faults put in, those of later steps first, so that earlier ones have the last word.
fn spoiled(draft: &Draft, faults: &[&Fault], rng: &mut Rng) -> Draft {
    let mut draft = draft.clone();
    let mut faults = faults.to_vec();
    faults.sort_by_key(|fault| std::cmp::Reverse(fault.step));
    for fault in faults {
        fault.apply(&mut draft, rng);
    }
    draft
}

#[test]
fn sound_requests_are_granted() {
    for action in Action::ALL {
        for draft in sound_drafts(action) {
            let after = run_both(&draft.call(), &draft.store);
            assert_eq!(after.outcome(), Step::Harmless.outcome(&draft), "{}", draft.call());
        }
    }
}

#[test]
fn every_reason_has_its_answer() {
    let mut rng = Rng::new(1);
    let mut outcomes = Tally::default();
    for action in Action::ALL {
        for sound in sound_drafts(action) {
            for fault in faults(action) {
                let draft = spoiled(&sound, &[&fault], &mut rng);
                let after = run_both(&draft.call(), &draft.store);
                let outcome = after.outcome();
                assert_eq!(outcome, fault.step.outcome(&draft), "{}\n{}", fault.reason, draft.call());
                says_the_error_word(&draft, &fault, &after);
                outcomes.add(format!("{}: {outcome}", action.name()));
            }
        }
    }
    let expected: Vec<String> = Action::ALL.iter().flat_map(|action| action.outcomes()).collect();
    outcomes.require("outcomes, one reason at a time", &expected, 1);
}

/// An error is told in the answer's own form, word for word.
fn says_the_error_word(draft: &Draft, fault: &Fault, after: &After) {
    let outcome = fault.step.outcome(draft);
    if after.answer.length() == 0 || fault.step == Step::Harmless {
        return;
    }
    if draft.action != Action::Authorize {
        // Behind the status.
        let word = outcome.split([' ', ',']).nth(1).expect("an error word");
        assert_eq!(after.text(), format!("{{\"error\":\"{word}\"}}"), "{}", fault.reason);
        return;
    }
    let redirect = String::from_utf8(draft.asking().redirect.clone()).expect("redirects are ASCII");
    let joint = if redirect.contains('?') { '&' } else { '?' };
    let state = if fault.reason.contains("state") { "" } else { "&state=xyz" };
    assert_eq!(after.text(), format!("{redirect}{joint}error={outcome}{state}"), "{}", fault.reason);
}

#[test]
fn the_first_reason_counts() {
    let mut rng = Rng::new(2);
    let (mut pairs, mut clearing) = (0, 0);
    for action in Action::ALL {
        let faults = faults(action);
        for sound in sound_drafts(action) {
            for (at, one) in faults.iter().enumerate() {
                for other in &faults[..at] {
                    // Two oddities of a kind may be more than an oddity.
                    if one.step == other.step {
                        continue;
                    }
                    let draft = spoiled(&sound, &[one, other], &mut rng);
                    let after = run_both(&draft.call(), &draft.store);
                    let expected = one.step.min(other.step).outcome(&draft);
                    assert_eq!(after.outcome(), expected, "{} and {}\n{}", one.reason, other.reason, draft.call());
                    pairs += 1;
                    clearing += usize::from(!after.cleared.is_empty());
                }
            }
        }
    }
    println!("{pairs} pairs of reasons, {clearing} of them clear tokens");
    assert!(pairs > 950_000, "only {pairs} pairs");
    assert!(clearing > 5_000, "only {clearing} pairs clear tokens");
}
