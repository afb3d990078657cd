//! Random and damaged calls, in sequences that carry the store along: both programs agree in everything.
//!
//! Every run draws the same calls. A failure names its sequence and call.

use std::panic::{catch_unwind, resume_unwind, AssertUnwindSafe};
use std::sync::atomic::{AtomicUsize, Ordering};

use poplarchime_host::sample::{self, Client};

use crate::support::call::{credentials_in, Request};
use crate::support::compare::run_both;
use crate::support::draft::Action;
use crate::support::rng::Rng;
use crate::support::second_showing::second_showing;
use crate::support::tally::Tally;
use crate::support::world::{random_clients, Start, World};

const SEQUENCES: usize = 6_900;
const CALLS: usize = 110;
/// Each outcome and each reason must come up at least so often in all.
const LEAST: usize = 25;

#[derive(Default)]
struct Counts {
    outcomes: Tally,
    reasons: Tally,
    /// Calls that were handed the store as the last one left it.
    carried: usize,
    /// Calls without fault or damage, and how many of them were granted or live.
    sound: usize,
    granted: usize,
    /// Calls that got tokens by a header whose credentials have a `%` or `+` in them.
    by_coded_header: usize,
    /// Calls that showed a code a second time, and how many of them cleared tokens.
    second_showings: usize,
    clearing: usize,
    /// Calls that revoked a token, and how many of them cleared access tokens along with a refresh token.
    revocations: usize,
    families: usize,
    /// Codes that were issued with a challenge, and those that were exchanged by its verifier.
    challenged: usize,
    by_verifier: usize,
}

#[test]
fn both_programs_agree_on_random_calls() {
    let next = AtomicUsize::new(0);
    let work = || {
        let mut counts = Counts::default();
        loop {
            let number = next.fetch_add(1, Ordering::Relaxed);
            if number >= SEQUENCES {
                return counts;
            }
            let run = catch_unwind(AssertUnwindSafe(|| sequence(number, &mut counts)));
            if let Err(panic) = run {
                // The other worker need not go on.
                next.store(SEQUENCES, Ordering::Relaxed);
                resume_unwind(panic);
            }
        }
    };
    let counts = std::thread::scope(|scope| {
        let other = scope.spawn(work);
        let mut counts = work();
        counts.merge(other.join().unwrap_or_else(|panic| resume_unwind(panic)));
        counts
    });
    counts.print();
    let outcomes: Vec<String> = Action::ALL.iter().flat_map(|action| action.outcomes()).collect();
    counts.outcomes.require("outcomes of random calls", &outcomes, LEAST);
    counts.reasons.require("what was done to random calls", &World::reasons(), LEAST);
    assert_eq!(counts.outcomes.total(), SEQUENCES * CALLS);
    assert!(counts.carried >= 450_000, "too few calls carried the store along");
    assert!(counts.granted * 2 > counts.sound, "too few sound requests were granted");
    assert!(counts.by_coded_header >= 50_000, "too few clients were admitted by form-coded credentials");
    assert!(counts.second_showings >= 8_000, "too few codes were shown a second time");
    assert!(counts.clearing >= 5_000, "too few second showings cleared tokens");
    assert!(counts.revocations >= 15_000, "too few tokens were revoked");
    assert!(counts.families >= 2_000, "too few access tokens went with their refresh token");
    assert!(counts.challenged >= 30_000, "too few codes were issued with a challenge");
    assert!(counts.by_verifier >= 15_000, "too few codes were exchanged by a verifier");
}

impl Counts {
    fn merge(&mut self, other: Counts) {
        self.outcomes.merge(other.outcomes);
        self.reasons.merge(other.reasons);
        self.carried += other.carried;
        self.sound += other.sound;
        self.granted += other.granted;
        self.by_coded_header += other.by_coded_header;
        self.second_showings += other.second_showings;
        self.clearing += other.clearing;
        self.revocations += other.revocations;
        self.families += other.families;
        self.challenged += other.challenged;
        self.by_verifier += other.by_verifier;
    }

    /// Counts the slots in which a call has put a code with a challenge, or spent one.
    fn add_challenged(&mut self, before: &[u8], after: &[u8]) {
        for (before, after) in sample::slots(before).zip(sample::slots(after)).filter(|(before, after)| before != after)
        {
            self.challenged += usize::from(after.has_challenge());
            self.by_verifier += usize::from(before.has_challenge() && after.kind == sample::SPENT);
        }
    }

    fn print(&self) {
        println!("{} calls were handed the store as the last one left it", self.carried);
        println!("{} had nothing wrong put in, {} of them were granted or live", self.sound, self.granted);
        println!("{} got tokens by credentials with a % or + in the header", self.by_coded_header);
        println!("{} showed a code a second time, {} of them cleared tokens", self.second_showings, self.clearing);
        println!("{} revoked a token, {} of them a refresh token with access tokens", self.revocations, self.families);
        println!("{} got a code with a challenge, {} exchanged one by its verifier", self.challenged, self.by_verifier);
    }
}

fn sequence(number: usize, counts: &mut Counts) {
    let mut rng = Rng::new(number as u64);
    let start = rng.pick(&Start::ALL);
    let clients = some_clients(&mut rng);
    let mut world = World::new(clients, start, &mut rng);
    for step in 0..CALLS {
        if start == Start::Odd && rng.chance(5) {
            world.disturb(&mut rng);
        }
        let run = catch_unwind(AssertUnwindSafe(|| one_call(&mut world, &mut rng, counts)));
        if let Err(panic) = run {
            eprintln!("in sequence {number}, call {step}, which started {start:?}");
            resume_unwind(panic);
        }
    }
}

fn some_clients(rng: &mut Rng) -> Vec<Client> {
    match rng.below(10) {
        0..=2 => sample::visit_clients(),
        3..=4 => random_clients(1, rng),
        5 => random_clients(64, rng),
        _ => {
            let count = rng.between(2, 9);
            random_clients(count, rng)
        }
    }
}

fn one_call(world: &mut World, rng: &mut Rng, counts: &mut Counts) {
    let drawn = world.draw(rng, &mut counts.reasons);
    let after = run_both(&drawn.call, &drawn.store);
    let outcome = after.outcome();
    counts.outcomes.add(format!("{}: {outcome}", drawn.action.name()));
    if drawn.sound {
        counts.sound += 1;
        counts.granted += usize::from(outcome == drawn.action.granted());
    }
    if let Request::Token { header, .. } = &drawn.call.request {
        let coded = credentials_in(header).is_some_and(|held| held.contains(&b'%') || held.contains(&b'+'));
        counts.by_coded_header += usize::from(coded && outcome == "200");
    }
    if after.answer.refusal() == 0 && second_showing(&drawn.call, &drawn.store).is_some() {
        counts.second_showings += 1;
        counts.clearing += usize::from(!after.cleared.is_empty());
    }
    if drawn.action == Action::Revoke {
        counts.revocations += usize::from(!after.cleared.is_empty());
        counts.families += usize::from(after.cleared.len() > 1);
    }
    if after.answer.issued() {
        counts.add_challenged(&drawn.store, &after.store);
    }
    if drawn.store == world.store {
        counts.carried += 1;
        world.carry(drawn, after, rng);
    }
}
