//! What a store may hold: codes with a challenge are kinds 6 and 7, and the layout without them is refused.

use poplarchime_host::sample::{self, Slot};

use super::{code, exchange, host_with, CODE, NOW, PLACE};
use crate::support::host::{bad_request, counting, redirected, Host, BARNAPP, BASIC};
use crate::support::pkce::{appendix_b, Pair, VERIFIER};

/// The refusal of a check, which looks at the whole store.
fn refusal(host: &Host) -> u32 {
    host.clone().check("", NOW).refusal
}

#[test]
fn a_store_of_slots_of_55_bytes_is_refused() {
    // A time, then a live access token of client 0 in slots of 55 bytes.
    let slot = [&[3][..], &[9; 20], &[0], &[0, 0, 0, 7], &[1], &[0, 0, 0, 0, 0, 0, 0x20, 0], &[9; 20]].concat();
    assert_eq!(slot.len(), 55);
    let mut host = Host::visit();
    host.store = vec![0; sample::FORMER_SIZES[1]];
    host.store[8..8 + 55].copy_from_slice(&slot);
    assert_eq!(refusal(&host), 3);
    let before = host.store.clone();
    assert_eq!(host.check(sample::hex(&[9; 20]), NOW).refusal, 3);
    assert_eq!(host.store, before);
    host.store.resize(sample::STORE_SIZE, 0);
    assert_eq!(host.check(sample::hex(&[9; 20]), NOW).seconds_left, 0x2000 - NOW, "twelve zeros happen to follow");
}

#[test]
fn codes_with_a_challenge_hold_any_32_bytes() {
    for kind in [6, 7] {
        for challenge in [[0; 32], [0xff; 32], appendix_b().challenge, Pair::of("x").challenge] {
            let slot = Slot { kind, ..code().challenged(challenge) };
            assert_eq!(refusal(&host_with(slot)), 0, "kind {kind}");
            assert_eq!(refusal(&host_with(Slot { client: 1, ..slot })), 0, "kind {kind}");
            assert_eq!(refusal(&host_with(Slot { client: 2, ..slot })), 3, "kind {kind}");
            assert_eq!(refusal(&host_with(Slot { scope: 0, ..slot })), 3, "kind {kind}");
        }
    }
}

#[test]
fn there_is_no_kind_8() {
    for kind in 0..=255 {
        let slot = Slot { kind, ..code() };
        assert_eq!(refusal(&host_with(slot)), if (1..=7).contains(&kind) { 0 } else { 3 }, "kind {kind}");
        let slot = Slot { kind, ..code().challenged([1; 32]) };
        assert_eq!(refusal(&host_with(slot)), if kind == 6 || kind == 7 { 0 } else { 3 }, "kind {kind}");
    }
}

#[test]
fn behind_a_tokens_origin_come_twelve_zeros() {
    for kind in [sample::ACCESS, sample::REFRESH] {
        let token = Slot { kind, origin: [0xff; 20], ..code() };
        assert_eq!(refusal(&host_with(token)), 0);
        for at in 0..12 {
            let mut spoiled = token;
            spoiled.behind_origin[at] = 1;
            assert_eq!(refusal(&host_with(spoiled)), 3, "kind {kind}, byte {at}");
        }
    }
}

/// Its slot is taken, its handle is in use, and once it has run out the slot is taken again.
#[test]
fn a_code_with_a_challenge_takes_a_slot_like_any_other() {
    let challenged = Slot { handle: counting(0), ..code() }.challenged(appendix_b().challenge);
    let mut host = Host::visit();
    host.set_slots(0..sample::SLOTS, challenged);
    let sent_back = |word| redirected(&format!("https://barn.example/r?x=1&error={word}"));
    assert_eq!(host.authorize(BARNAPP, 1, 1999, 0x40), sent_back("temporarily_unavailable"));
    assert_eq!(host.authorize(BARNAPP, 1, 2000, 0x00), sent_back("server_error"));
    // The bytes of its challenge are not.
    let origin = challenged.origin;
    host.set_slot(1, Slot { handle: CODE, ..challenged });
    assert_eq!(host.token_with(BASIC, "grant_type=client_credentials", 2000, [origin, [1; 20]]).status, 200);
    let token = Slot { farm: 0, scope: 11, origin, ..Slot::of(sample::ACCESS, origin, 5600) };
    assert_eq!(host.slot(0), token, "twelve zeros, where the challenge went on");
}

#[test]
fn a_lower_code_of_the_handle_hides_one_with_a_challenge() {
    let challenged = code().challenged(appendix_b().challenge);
    let verifier = format!("&code_verifier={VERIFIER}");
    for (lower, without, with) in [
        (code(), 200, 200),
        (code().challenged([1; 32]), 400, 400),
        (Slot { expiry: NOW, ..code() }, 400, 400),
        (Slot { client: 1, ..challenged }, 400, 400),
        (Slot { kind: sample::SPENT, ..code() }, 400, 200),
    ] {
        let mut host = host_with(challenged);
        host.set_slot(PLACE - 1, lower);
        assert_eq!(exchange(&mut host.clone(), "").status, without, "{lower:?}");
        assert_eq!(exchange(&mut host, &verifier).status, with, "{lower:?}");
    }
    // The other way round, a code without challenge does not help the one below it.
    let mut host = host_with(challenged);
    host.set_slot(PLACE + 1, code());
    assert_eq!(exchange(&mut host, ""), bad_request("invalid_grant"));
    assert_eq!(exchange(&mut host, &verifier).status, 200);
}
