//! Demand 3, run as a program over calls and answers alone.
//!
//! The judge keeps what the calls so far contain: which codes and tokens were issued, to whom, for how long, by which
//! challenge, which codes were exchanged, which were shown a second time, and which tokens were revoked. It does not look
//! at the store. From that it says of every exchange, refresh, request by client credentials and check whether it must
//! succeed, and of every revocation how it must be answered, and the exports' answers must be exactly so. Of the store it
//! says only what the demand's last sentence and the papers' words on revocation say: which slots a call that issues
//! nothing leaves.

mod contents;
mod judge;

use poplarchime_host::program::EXPORTS;
use poplarchime_host::sample;

use self::judge::{Judge, Verdict};
use crate::support::call::{Answer, Call, Request};
use crate::support::compare::{keeps_demand_1, run};
use crate::support::rng::Rng;
use crate::support::tally::Tally;
use crate::support::world::{random_clients, Start, World};

const ROOM: usize = 900;
/// The farm of a token that a client has for itself.
const NO_FARM: u32 = 0;

const SEQUENCES: u64 = 16;
/// Enough for a history in which time passes slowly to fill the store, and to go on with it full.
const CALLS: usize = 11 * ROOM;
/// Where time begins: at zero, about now, and a little before the highest clock.
const FIRST_CLOCKS: [u64; 3] = [0, 1_800_000_000, (1 << 40) - 4_000_000];

/// Every verdict, and every condition that fails alone at least once.
fn expected_verdicts() -> Vec<String> {
    let alone = [
        "exchange: not issued as a code",
        "exchange: issued to another client",
        "exchange: run out",
        "exchange: exchanged before",
        "exchange: redirect not repeated",
        "exchange: no verifier",
        "exchange: verifier malformed",
        "exchange: verifier of another digest",
        "exchange: no room",
        "refresh: not issued as a refresh token",
        "refresh: issued to another client",
        "refresh: run out",
        "refresh: withdrawn",
        "refresh: revoked",
        "refresh: scope not within",
        "refresh: no room",
        "client credentials: a public client",
        "client credentials: scope not within",
        "client credentials: no room",
        "check: not issued as an access token",
        "check: run out",
        "check: withdrawn",
        "check: revoked",
        "revoke: issued to another client",
    ];
    let others = [
        "exchange: yields",
        "refresh: yields",
        "client credentials: yields",
        "check: yields",
        "check: yields, a client's own token",
        "token: not admitted",
        "revoke: not admitted",
        "revoke: an access token",
        "revoke: a refresh token",
        "revoke: not issued as a token",
        "revoke: run out",
        "revoke: withdrawn",
        "revoke: revoked before",
        "authorize: code",
        "authorize: no code",
        "several conditions fail",
        "not seen (refused with 1 to 4)",
    ];
    alone.iter().chain(&others).map(|&name| name.into()).collect()
}

#[derive(Default)]
struct Counts {
    verdicts: Tally,
    /// The most issues that took room at once.
    fullest: usize,
    /// Calls that showed a code a second time, and live tokens that they withdrew.
    second_showings: usize,
    withdrawn: usize,
    /// Live tokens that revocations ended.
    revoked: usize,
    /// Exchanges that yielded by a verifier, and those of a code without challenge that brought one.
    by_verifier: usize,
    needless_verifiers: usize,
}

#[test]
fn demand_3_holds_of_long_histories() {
    let mut counts = Counts::default();
    let mut longest = 0;
    for seed in 0..SEQUENCES {
        let judge = history(seed, &mut counts);
        longest = longest.max(judge.issues.len());
    }
    println!("up to {longest} issues in a history, up to {} of them standing at once", counts.fullest);
    println!("{} codes shown a second time, {} live tokens withdrawn", counts.second_showings, counts.withdrawn);
    println!("{} live tokens revoked", counts.revoked);
    println!("{} exchanged by a verifier, {} with a needless one", counts.by_verifier, counts.needless_verifiers);
    assert_eq!(counts.fullest, ROOM, "no history filled the store");
    assert!(counts.by_verifier >= 1_000, "too few exchanges by a verifier");
    assert!(counts.needless_verifiers >= 20, "too few exchanges with a needless verifier");
    assert!(counts.second_showings >= 1_000, "too few codes were shown a second time");
    assert!(counts.withdrawn >= 1_500, "too few tokens were withdrawn");
    assert!(counts.revoked >= 1_500, "too few tokens were revoked");
    counts.verdicts.require("verdicts on calls in histories", &expected_verdicts(), 20);
}

/// One history from a fresh store, with one registry; every call is handed the store as the last one left it.
fn history(seed: u64, counts: &mut Counts) -> Judge {
    let mut rng = Rng::new(1_000_000 + seed);
    let clients = some_clients(seed, &mut rng);
    let registry = sample::registry(&clients);
    let mut world = World::new(clients, Start::Fresh, &mut rng);
    let mut judge = Judge::default();
    first_call(&mut judge, &mut world, FIRST_CLOCKS[seed as usize % 3]);
    for _ in 0..CALLS {
        let mut drawn = world.draw(&mut rng, &mut Tally::default());
        if drawn.store != world.store {
            continue;
        }
        if seed % 8 < 4 {
            slow_down(&mut drawn.call, judge.latest, &mut rng);
        }
        let after = run(&EXPORTS, &drawn.call, &world.store);
        keeps_demand_1(&drawn.call, &world.store, &after);
        if (1..=4).contains(&after.answer.refusal()) {
            counts.verdicts.add("not seen (refused with 1 to 4)");
            continue;
        }
        if drawn.call.registry != registry || !judge.is_within_premise(&drawn.call) {
            continue;
        }
        let verdict = judge.judge(&drawn.call);
        judge.hold(&drawn.call, &verdict, &after.answer);
        judge.hold_slots(&drawn.call, &world.store, &after);
        counts.verdicts.add(label(drawn.action.name(), &verdict, &after.answer));
        counts.add(&judge, &drawn.call, &verdict);
        judge.record(&drawn.call, &after);
        world.carry(drawn, after, &mut rng);
        counts.fullest = judge.standing(judge.latest).max(counts.fullest);
    }
    judge
}

fn some_clients(seed: u64, rng: &mut Rng) -> Vec<sample::Client> {
    match seed % 4 {
        0 => sample::visit_clients(),
        1 => random_clients(1, rng),
        2 => random_clients(6, rng),
        _ => random_clients(64, rng),
    }
}

impl Counts {
    /// Counts an exchange, a second showing or a revocation that is about to be recorded.
    fn add(&mut self, judge: &Judge, call: &Call, verdict: &Verdict) {
        if let Some((code, brought)) = judge.exchanged(call).filter(|_| *verdict == Verdict::Yields) {
            self.by_verifier += usize::from(code.challenge().is_some());
            self.needless_verifiers += usize::from(code.challenge().is_none() && brought);
        }
        self.second_showings += usize::from(judge.shown_again(call).is_some());
        self.withdrawn += judge.live_among(&judge.withdrawn_by(call), call);
        self.revoked += judge.live_among(&judge.revoked_by(call), call);
    }
}

/// A check of nothing, which sets the time.
fn first_call(judge: &mut Judge, world: &mut World, clock: u64) {
    let registry = sample::registry(&world.clients);
    let call = Call { request: Request::Check { token: Vec::new() }, registry, clock, random: Vec::new(), output: 0 };
    let after = run(&EXPORTS, &call, &world.store);
    judge.hold(&call, &judge.judge(&call), &after.answer);
    judge.record(&call, &after);
    world.store = after.store;
}

/// Lets time pass slowly, but for a leap now and then, so that the store fills up.
fn slow_down(call: &mut Call, latest: u64, rng: &mut Rng) {
    let leap = call.clock > latest && call.clock <= 1 << 40 && rng.below(1_000) > 0;
    if leap {
        call.clock = latest + u64::from(rng.chance(30));
    }
}

fn label(action: &str, verdict: &Verdict, answer: &Answer) -> String {
    match verdict {
        Verdict::Unjudged if answer.issued() => "authorize: code".into(),
        Verdict::Unjudged => "authorize: no code".into(),
        Verdict::NotAdmitted if matches!(answer, Answer::Revoke(_)) => "revoke: not admitted".into(),
        Verdict::NotAdmitted => "token: not admitted".into(),
        Verdict::Revoked(what) => format!("{action}: {what}"),
        Verdict::Yields if matches!(answer, Answer::Check(answer) if answer.farm == NO_FARM) => {
            "check: yields, a client's own token".into()
        }
        Verdict::Yields => format!("{action}: yields"),
        Verdict::Refused(why) => match why[..] {
            [alone] => format!("{action}: {alone}"),
            _ => "several conditions fail".into(),
        },
    }
}
