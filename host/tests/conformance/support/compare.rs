//! Both programs, run on the same call and compared in everything that they answer, write and leave.

use poplarchime_host::program::{Program, EXPORTS, PLAIN};
use poplarchime_host::sample::{self, Slot};

use super::call::{Answer, Call, Request};
use super::revocation::{revoked_slot, without_revoked};
use super::second_showing::{second_showing, without_tokens};

/// What a call answered, wrote and left.
#[derive(Clone, Debug, PartialEq, Eq)]
pub struct After {
    pub answer: Answer,
    /// The whole output buffer.
    pub output: Vec<u8>,
    /// The whole store.
    pub store: Vec<u8>,
    /// What was in the slots that the call has cleared.
    pub cleared: Vec<Slot>,
}

impl After {
    /// The answer in the papers' words, and whether slots were cleared.
    pub fn outcome(&self) -> String {
        match self.cleared.is_empty() {
            true => self.answer.outcome(),
            false => format!("{}, tokens cleared", self.answer.outcome()),
        }
    }

    /// The part of the output that the answer speaks of.
    pub fn text(&self) -> String {
        String::from_utf8(self.output[..self.answer.length()].to_vec()).expect("answers are ASCII")
    }
}

/// What fills the output and the guards before a call; no answer is likely to hold it.
const FILL: u8 = 0xa5;
/// Bytes on either side of a buffer that no call may touch.
const GUARD: usize = 64;

/// A buffer between two guards.
struct Guarded(Vec<u8>);

impl Guarded {
    fn new(bytes: &[u8]) -> Guarded {
        let guard = [FILL; GUARD];
        Guarded([&guard[..], bytes, &guard[..]].concat())
    }

    fn bytes(&mut self) -> &mut [u8] {
        let end = self.0.len() - GUARD;
        &mut self.0[GUARD..end]
    }

    /// The buffer after the call. Fails if a guard was touched.
    fn take(mut self) -> Vec<u8> {
        let end = self.0.len() - GUARD;
        let guards = self.0[..GUARD].iter().chain(&self.0[end..]);
        assert!(guards.copied().all(|byte| byte == FILL), "a call wrote outside its buffer");
        self.0.truncate(end);
        self.0.split_off(GUARD)
    }
}

pub fn run(program: &Program, call: &Call, before: &[u8]) -> After {
    let mut store = Guarded::new(before);
    let mut output = Guarded::new(&vec![FILL; call.output]);
    let (registry, clock, random) = (&call.registry[..], call.clock, &call.random[..]);
    let (on, out) = (store.bytes(), output.bytes());
    let answer = match &call.request {
        Request::Authorize { query, decision, farm } => {
            Answer::Authorize((program.authorize)(query, *decision, *farm, registry, on, clock, random, out))
        }
        Request::Token { header, body } => {
            Answer::Token((program.token)(header, body, registry, on, clock, random, out))
        }
        Request::Revoke { header, body } => Answer::Revoke((program.revoke)(header, body, registry, on, clock, out)),
        Request::Check { token } => Answer::Check((program.check)(token, registry, on, clock)),
    };
    let (output, store) = (output.take(), store.take());
    let cleared = cleared(before, &store);
    After { answer, output, store, cleared }
}

/// The slots that are in use before and free after.
fn cleared(before: &[u8], after: &[u8]) -> Vec<Slot> {
    // The slots come behind the stored time.
    let slots = sample::slot_range(0).start;
    if before.get(slots..) == after.get(slots..) {
        return Vec::new();
    }
    let slots = sample::slots(before).zip(sample::slots(after));
    slots
        .filter(|(before, after)| before.kind != sample::FREE && after.kind == sample::FREE)
        .map(|slots| slots.0)
        .collect()
}

/// Runs the exports and the plain program on the same call and store. They must agree in everything, and keep demand 1.
pub fn run_both(call: &Call, store: &[u8]) -> After {
    let exports = run(&EXPORTS, call, store);
    let plain = run(&PLAIN, call, store);
    assert_eq!(exports.answer, plain.answer, "the answers differ (exports left)\n{call}");
    if exports.output != plain.output {
        let (ours, plain) = (exports.output.escape_ascii(), plain.output.escape_ascii());
        panic!("the outputs differ\n  exports  {ours}\n  plain    {plain}\n{call}");
    }
    if exports.store != plain.store {
        let at = exports.store.iter().zip(&plain.store).position(|(ours, plain)| ours != plain);
        panic!("the stores differ from byte {at:?} on after\n{call}");
    }
    keeps_demand_1(call, store, &exports);
    exports
}

/// Refusals 1 to 4 change nothing at all, later ones nothing but the high-water mark; only a second showing of a code
/// clears the tokens that came from it, too. A revocation clears what it revokes and changes nothing else. The output
/// beyond the answer stays.
pub fn keeps_demand_1(call: &Call, before: &[u8], after: &After) {
    let untouched = &after.output[after.answer.length()..];
    assert!(untouched.iter().all(|&byte| byte == FILL), "output beyond the answer was touched\n{call}");
    if (1..=4).contains(&after.answer.refusal()) {
        assert!(after.store == before, "refusal {} changed the store\n{call}", after.answer.refusal());
        return;
    }
    let time = call.clock.max(sample::latest(before));
    assert_eq!(sample::latest(&after.store), time, "the high-water mark is not the time of\n{call}");
    if let Some(code) = second_showing(call, before) {
        assert_eq!(after.answer.outcome(), "400 invalid_grant", "a code was shown a second time\n{call}");
        assert!(after.store[8..] == without_tokens(before, &code)[8..], "not just its tokens were cleared\n{call}");
    } else if let Some(revoked) = revoked_slot(call, before) {
        assert_eq!(after.answer.outcome(), "200", "a token was revoked\n{call}");
        assert!(after.store[8..] == without_revoked(before, revoked)[8..], "not just it was revoked\n{call}");
    } else if !after.answer.issued() {
        assert!(after.store[8..] == before[8..], "a refused or idle call changed a slot\n{call}");
    }
}
