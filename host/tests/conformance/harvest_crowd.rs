//! The harvest crowd, written out: in August the slots ran out and apps got 503, so a store has more of them now. The
//! room on both sides of every limit, the last slots, and the store of before, which is refused.

use poplarchime_host::answers::CheckAnswer;
use poplarchime_host::sample::{self, Slot, FORMER_SIZES, FORMER_SLOTS, SLOTS, SLOT_SIZE, STORE_SIZE};

use crate::support::compare::run_both;
use crate::support::draft::{Action, Draft};
use crate::support::host::{
    bad_request, exchange_body, redirected, refresh_body, revocation_body, revoked, Authorized, Host, BARNAPP, BASIC,
};
use crate::support::pkce;

const NOW: u64 = 1000;
/// When the slots of these tests run out.
const LATER: u64 = 5000;
const CLIENT_CREDENTIALS: &str = "grant_type=client_credentials";

/// Twenty bytes of this number, which no other number has.
fn handle(number: usize) -> [u8; 20] {
    let mut handle = [0x5a; 20];
    handle[12..].copy_from_slice(&(number as u64).to_be_bytes());
    handle
}

/// Handles to be issued: they are in no slot of these tests.
fn new_handles() -> [[u8; 20]; 2] {
    [handle(1_000_000), handle(1_000_001)]
}

/// A live slot of client 0 with the handle of its number.
fn live_slot(kind: u8, number: usize) -> Slot {
    let slot = Slot { farm: 7, origin: handle(number), ..Slot::of(kind, handle(number), LATER) };
    match slot.has_challenge() {
        true => slot.challenged(pkce::appendix_b().challenge),
        false => slot.turned(kind),
    }
}

/// What kind of slot an action presents.
fn presented_kind(action: Action) -> u8 {
    match action {
        Action::Exchange => sample::CODE,
        Action::Refresh => sample::REFRESH,
        _ => sample::ACCESS,
    }
}

/// A sound request of client 0. What it presents, if anything, lies in this slot.
fn draft(action: Action, store: &[u8], place: usize) -> Draft {
    let clients = sample::visit_clients().into();
    let random = new_handles().concat();
    match action {
        Action::Authorize => Draft::authorize(&clients, store, NOW, 0, &random[..20]),
        Action::Exchange | Action::Refresh => Draft::token(action, &clients, store, NOW, place, random),
        Action::ClientCredentials => Draft::client_credentials(&clients, store, NOW, 0, random),
        Action::Revoke => Draft::revoke(&clients, store, NOW, place),
        Action::Check => Draft::check(&clients, store, NOW, place),
    }
}

#[track_caller]
fn expect(draft: &Draft, outcome: &str) {
    assert_eq!(run_both(&draft.call(), &draft.store).outcome(), outcome, "{}", draft.call());
}

// ---- stores of another size

/// A refusal, and neither the store nor the output has changed.
#[track_caller]
fn expect_unfit(draft: &Draft) {
    let after = run_both(&draft.call(), &draft.store);
    assert_eq!(after.answer.outcome(), "refusal 3", "{} bytes\n{}", draft.store.len(), draft.call());
    assert!(after.store == draft.store, "{} bytes\n{}", draft.store.len(), draft.call());
    assert_eq!(after.answer.length(), 0, "{} bytes\n{}", draft.store.len(), draft.call());
}

#[test]
fn a_store_of_another_size_is_refused() {
    let around = [STORE_SIZE - SLOT_SIZE, STORE_SIZE - 1, STORE_SIZE + 1, STORE_SIZE + SLOT_SIZE, 2 * STORE_SIZE];
    for action in Action::ALL {
        let mut store = sample::empty_store();
        sample::set_slot(&mut store, 3, live_slot(presented_kind(action), 3));
        let sound = draft(action, &store, 3);
        expect(&sound, action.granted());
        for length in around.into_iter().chain(FORMER_SIZES).chain([0, 8]) {
            let mut draft = sound.clone();
            draft.store.resize(length, 0);
            expect_unfit(&draft);
            draft.store.fill(0);
            expect_unfit(&draft);
        }
    }
}

/// A store of version 0.5.0 with all of its slots live, of every kind.
fn former_store() -> Vec<u8> {
    let mut store = sample::empty_store();
    sample::set_latest(&mut store, NOW - 1);
    for number in 0..FORMER_SLOTS {
        sample::set_slot(&mut store, number, live_slot(sample::KINDS[number % sample::KINDS.len()], number));
    }
    store.truncate(FORMER_SIZES[0]);
    store
}

/// With zeros behind it, it is a store of today, and all that was live in it is. So nothing but its length is wrong.
#[test]
fn a_former_store_is_refused_for_its_length_alone() {
    let mut lengthened = former_store();
    lengthened.resize(STORE_SIZE, 0);
    for action in Action::ALL {
        for place in (0..FORMER_SLOTS).filter(|&place| sample::slot(&lengthened, place).kind == presented_kind(action))
        {
            let sound = draft(action, &lengthened, place);
            expect(&sound, action.granted());
            let mut former = sound.clone();
            former.store.truncate(FORMER_SIZES[0]);
            assert_eq!(former.store, former_store());
            expect_unfit(&former);
        }
        for length in [FORMER_SIZES[0] - 1, FORMER_SIZES[0] + 1, FORMER_SIZES[0] + SLOT_SIZE, STORE_SIZE - 1] {
            let mut draft = draft(action, &lengthened, 0);
            draft.store.truncate(length);
            expect_unfit(&draft);
        }
    }
}

// ---- room

/// How many slots an action takes.
fn needed(action: Action) -> usize {
    if action == Action::Exchange {
        2
    } else {
        1
    }
}

fn no_room(action: Action) -> &'static str {
    if action == Action::Authorize {
        "temporarily_unavailable"
    } else {
        "503"
    }
}

fn live_slots(store: &[u8], now: u64) -> usize {
    sample::slots(store).filter(|slot| slot.is_live(now)).count()
}

/// With so many slots vacant, in these places, each free or run out.
fn expect_room(action: Action, vacant: &[usize], vacated: Slot) {
    let mut store = sample::empty_store();
    for number in 0..SLOTS {
        let kind = sample::KINDS[number % sample::KINDS.len()];
        sample::set_slot(&mut store, number, live_slot(kind, number));
    }
    // In none of the places that are vacated.
    let place = 20;
    sample::set_slot(&mut store, place, live_slot(presented_kind(action), place));
    for &number in vacant {
        sample::set_slot(&mut store, number, vacated);
    }
    let live = SLOTS - vacant.len();
    assert_eq!(live_slots(&store, NOW), live);
    let draft = draft(action, &store, place);
    let after = run_both(&draft.call(), &store);
    let granted = vacant.len() >= needed(action);
    assert_eq!(after.outcome(), if granted { action.granted() } else { no_room(action) }, "{live} live: {vacant:?}");
    assert_eq!(live_slots(&after.store, NOW), live + if granted { needed(action) } else { 0 });
    assert!(granted || after.store[8..] == store[8..], "{live} live: {vacant:?}");
    let taken: Vec<usize> = vacant.iter().copied().filter(|&at| sample::slot(&after.store, at) != vacated).collect();
    assert_eq!(taken, if granted { &vacant[..needed(action)] } else { &[] }, "the lowest are taken");
}

#[test]
fn room_on_both_sides_of_what_is_needed() {
    let run_out = Slot { expiry: NOW, ..live_slot(sample::ACCESS, SLOTS) };
    for action in Action::ISSUING {
        for vacant in 0..=3 {
            for vacated in [Slot::default(), run_out] {
                for first in [0, FORMER_SLOTS - 2, FORMER_SLOTS - 1, FORMER_SLOTS, SLOTS - vacant] {
                    expect_room(action, &(first..first + vacant).collect::<Vec<usize>>(), vacated);
                }
                let spread = [7, FORMER_SLOTS, SLOTS - 1];
                expect_room(action, &spread[3 - vacant..], vacated);
            }
        }
    }
}

/// One second lies between no room and room for all.
#[test]
fn a_full_store_runs_out() {
    for action in Action::ISSUING {
        let mut store = sample::empty_store();
        for number in 0..SLOTS {
            sample::set_slot(&mut store, number, Slot { expiry: NOW + 1, ..live_slot(sample::ACCESS, number) });
        }
        sample::set_slot(&mut store, SLOTS - 1, live_slot(presented_kind(action), SLOTS - 1));
        for (clock, outcome) in [(NOW, no_room(action)), (NOW + 1, action.granted())] {
            let mut draft = draft(action, &store, SLOTS - 1);
            draft.clock = clock;
            expect(&draft, outcome);
        }
    }
}

// ---- the crowd itself, from a fresh store by calls alone

const QUERY: &str = "response_type=code&client_id=s6BhdRkqt3";

fn allow(host: &mut Host, number: usize, clock: u64) -> Authorized {
    host.authorize_with(7, QUERY, 1, clock, handle(number))
}

fn code_number(number: usize) -> Authorized {
    redirected(&format!("https://client.example.com/cb?code={}", sample::hex(&handle(number))))
}

fn unavailable() -> Authorized {
    redirected("https://client.example.com/cb?error=temporarily_unavailable")
}

#[test]
fn as_many_owners_as_slots_allow_an_app() {
    let mut host = Host::visit();
    for number in 0..SLOTS {
        assert_eq!(allow(&mut host, number, NOW), code_number(number), "{number}");
        assert_eq!(host.slot(number).handle, handle(number));
    }
    assert_eq!(allow(&mut host, SLOTS, NOW), unavailable());
    let exchange = |host: &mut Host, number, clock| {
        host.token_with(BASIC, exchange_body(&handle(number)), clock, new_handles()).status
    };
    for number in [0, FORMER_SLOTS - 1, FORMER_SLOTS, SLOTS - 1] {
        assert_eq!(exchange(&mut host.clone(), number, NOW + 599), 503);
        assert_eq!(host.slot(number), Slot { farm: 7, scope: 11, ..Slot::of(sample::CODE, handle(number), NOW + 600) });
    }
    assert_eq!(host.token_with(BASIC, CLIENT_CREDENTIALS, NOW, new_handles()).status, 503);
    // The codes have run out, and there is room for as many.
    for number in 0..SLOTS {
        assert_eq!(allow(&mut host, SLOTS + number, NOW + 600), code_number(SLOTS + number), "{number}");
    }
    assert_eq!(allow(&mut host, 2 * SLOTS, NOW + 600), unavailable());
    assert_eq!(exchange(&mut host, 0, NOW + 600), 400, "its slot has been taken");
}

/// Each visit leaves a spent code, an access token and a refresh token.
#[test]
fn a_third_as_many_visits_fill_the_store() {
    let mut host = Host::visit();
    let visits = SLOTS / 3;
    for visit in 0..visits {
        assert_eq!(allow(&mut host, 3 * visit, NOW), code_number(3 * visit));
        let random = [handle(3 * visit + 1), handle(3 * visit + 2)];
        assert_eq!(host.token_with(BASIC, exchange_body(&handle(3 * visit)), NOW, random).status, 200, "{visit}");
    }
    assert_eq!(live_slots(&host.store, NOW), 3 * visits);
    let live = CheckAnswer { refusal: 0, live: 1, client: 0, farm: 7, scope: 11, seconds_left: 3600 };
    for visit in 0..visits {
        assert_eq!(host.check(sample::hex(&handle(3 * visit + 1)), NOW), live, "{visit}");
    }
    let refresh = refresh_body(&handle(3 * visits - 1));
    for left in (0..SLOTS - 3 * visits).rev() {
        let random = [handle(10 * SLOTS + left), handle(0)];
        assert_eq!(host.token_with(BASIC, &refresh, NOW, random).status, 200, "{left} left");
    }
    assert_eq!(host.token_with(BASIC, &refresh, NOW, new_handles()).status, 503);
    assert_eq!(allow(&mut host, 20 * SLOTS, NOW), unavailable());
    // The last visit's code is shown again: its tokens go, and that is room for two.
    let last = exchange_body(&handle(3 * visits - 3));
    assert_eq!(host.token_with(BASIC, &last, NOW, new_handles()), bad_request("invalid_grant"));
    assert!(live_slots(&host.store, NOW) <= SLOTS - 2);
    assert_eq!(allow(&mut host, 20 * SLOTS, NOW), code_number(20 * SLOTS));
}

// ---- every slot, the last ones too

#[test]
fn what_is_presented_is_found_in_every_slot() {
    for place in 0..SLOTS {
        for action in Action::ALL.into_iter().filter(|action| action.presents()) {
            let mut store = sample::empty_store();
            sample::set_slot(&mut store, place, live_slot(presented_kind(action), place));
            expect(&draft(action, &store, place), action.granted());
        }
    }
}

#[test]
fn every_slot_is_tested_for_fitness() {
    for place in 0..SLOTS {
        for action in Action::ALL {
            let mut draft = draft(action, &sample::empty_store(), 0);
            draft.store[sample::slot_range(place).end - 1] = 1;
            expect_unfit(&draft);
        }
    }
}

#[test]
fn a_handle_in_any_slot_is_in_use() {
    for place in 0..SLOTS {
        let [used, unused] = new_handles();
        let mut host = Host::visit();
        host.set_slot(place, Slot { handle: used, ..live_slot(sample::ACCESS, place) });
        // The code lies in another slot, the first or the second one.
        let code = usize::from(place == 0);
        host.set_slot(code, live_slot(sample::CODE, code));
        let body = exchange_body(&handle(code));
        assert_eq!(host.clone().token_with(BASIC, &body, NOW, [used, unused]).status, 500, "slot {place}");
        assert_eq!(host.clone().token_with(BASIC, &body, NOW, [unused, used]).status, 500, "slot {place}");
        let server_error = redirected("https://barn.example/r?x=1&error=server_error");
        assert_eq!(host.authorize_with(7, BARNAPP, 1, NOW, used), server_error, "slot {place}");
    }
}

#[test]
fn a_second_showing_clears_tokens_in_every_slot() {
    let mut host = Host::visit();
    host.set_slots(0..SLOTS, Slot { origin: handle(0), ..live_slot(sample::REFRESH, SLOTS) });
    for place in [0, FORMER_SLOTS, SLOTS - 1] {
        let mut host = host.clone();
        host.set_slot(place, live_slot(sample::SPENT, 0));
        let reply = host.token_with(BASIC, exchange_body(&handle(0)), NOW, new_handles());
        assert_eq!(reply, bad_request("invalid_grant"));
        let in_use: Vec<usize> = (0..SLOTS).filter(|&number| host.slot(number) != Slot::default()).collect();
        assert_eq!(in_use, [place]);
    }
}

#[test]
fn a_revocation_clears_tokens_in_every_slot() {
    let mut host = Host::visit();
    host.set_slots(0..SLOTS, Slot { origin: handle(0), ..live_slot(sample::ACCESS, SLOTS) });
    for place in 0..SLOTS {
        let mut host = host.clone();
        host.set_slot(place, live_slot(sample::REFRESH, 0));
        assert_eq!(host.revoke(BASIC, revocation_body(&handle(0)), NOW), revoked());
        assert!(host.store[8..].iter().all(|&byte| byte == 0), "slot {place}");
    }
}

#[test]
fn any_vacant_slot_is_taken() {
    let mut full = Host::visit();
    full.set_slots(0..SLOTS, live_slot(sample::REFRESH, 0));
    for place in 0..SLOTS {
        let mut host = full.clone();
        host.set_slot(place, Slot::default());
        assert_eq!(allow(&mut host.clone(), SLOTS, NOW), code_number(SLOTS), "slot {place}");
        assert_eq!(host.token_with(BASIC, CLIENT_CREDENTIALS, NOW, new_handles()).status, 200, "slot {place}");
        assert_eq!(host.slot(place).handle, new_handles()[0]);
        assert_eq!(allow(&mut host, SLOTS, NOW), unavailable(), "slot {place}");
    }
}
