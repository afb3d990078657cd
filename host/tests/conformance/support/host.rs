//! A host for written-out examples: it keeps one registry and one store, and runs both programs at every call.

use poplarchime_host::answers::{CheckAnswer, ErrorWord};
use poplarchime_host::sample::{self, Client, Slot};

use super::call::{Answer, Call, Request};
use super::compare::{run_both, After};

#[derive(Clone)]
pub struct Host {
    pub registry: Vec<u8>,
    pub store: Vec<u8>,
}

/// The header of the visit's client 0.
pub const BASIC: &str = "Basic czZCaGRSa3F0MzpnWDFmQmF0M2JW";

/// A query of the visit's client 1, with the challenge of RFC 7636 Appendix B.
pub const BARNAPP: &str = "response_type=code&client_id=barnapp\
    &code_challenge=E9Melhoa2OwvFrEMTJguCHaoeK1t8URWbuGJSstw-cM&code_challenge_method=S256";
/// Client 1 in the body of an exchange, and the verifier of that challenge.
pub const BY_BARNAPP: &str = "&client_id=barnapp&code_verifier=dBjftJeZ4CVP-mB92K27uhbUJU1p1r_wW1gFWFOEjXk";

/// Twenty bytes that count up from the first.
pub fn counting(first: u8) -> [u8; 20] {
    std::array::from_fn(|at| first + at as u8)
}

/// Times on both sides of a slot's end: its expiry, the time in the store, the clock, and whether the slot is live then.
/// Around this expiry the clock or the store decides; at the ends of what a store may hold both do.
pub fn around_expiry(expiry: u64) -> [(u64, u64, u64, bool); 10] {
    let last = 1 << 40;
    [
        (expiry, 0, expiry - 1, true),
        (expiry, 0, expiry, false),
        (expiry, 0, expiry + 1, false),
        (expiry, expiry - 1, 0, true),
        (expiry, expiry, 0, false),
        (expiry, expiry, expiry - 1, false),
        (0, 0, 0, false),
        (1, 0, 0, true),
        (last, last, last, false),
        (u64::MAX, last, last, true),
    ]
}

/// The answer of the authorization endpoint.
#[derive(Debug, PartialEq, Eq)]
pub enum Authorized {
    Refused(u32),
    Redirected(String),
}

/// The answer of the token endpoint or the revocation endpoint: status, whether it carries a challenge, and body.
#[derive(Debug, PartialEq, Eq)]
pub struct Reply {
    pub status: u32,
    pub challenge: bool,
    pub body: String,
}

impl Host {
    pub fn new(clients: &[Client]) -> Host {
        Host { registry: sample::registry(clients), store: sample::empty_store() }
    }

    /// The host of the written-out visit.
    pub fn visit() -> Host {
        Host::new(&sample::visit_clients())
    }

    pub fn slot(&self, number: usize) -> Slot {
        sample::slot(&self.store, number)
    }

    pub fn set_slot(&mut self, number: usize, slot: Slot) {
        sample::set_slot(&mut self.store, number, slot);
    }

    pub fn set_slots(&mut self, numbers: impl IntoIterator<Item = usize>, slot: Slot) {
        for number in numbers {
            self.set_slot(number, slot);
        }
    }

    /// The slots that have changed since. All of them must be free now.
    #[track_caller]
    pub fn cleared_since(&self, before: &Host) -> Vec<usize> {
        let changed = (0..sample::SLOTS).filter(|&number| self.slot(number) != before.slot(number));
        let changed: Vec<usize> = changed.collect();
        assert!(changed.iter().all(|&number| self.slot(number) == Slot::default()), "changed and not cleared");
        changed
    }

    fn run(&mut self, request: Request, clock: u64, random: &[u8]) -> After {
        let call = Call { request, registry: self.registry.clone(), clock, random: random.to_vec(), output: 1024 };
        let after = run_both(&call, &self.store);
        self.store.clone_from(&after.store);
        after
    }

    /// The random bytes are twenty that count up from `random`; the farm is 7.
    pub fn authorize(&mut self, query: impl AsRef<[u8]>, decision: u64, clock: u64, random: u8) -> Authorized {
        self.authorize_farm(7, query, decision, clock, random)
    }

    pub fn authorize_farm(
        &mut self,
        farm: u32,
        query: impl AsRef<[u8]>,
        decision: u64,
        clock: u64,
        random: u8,
    ) -> Authorized {
        self.authorize_with(farm, query, decision, clock, counting(random))
    }

    pub fn authorize_with(
        &mut self,
        farm: u32,
        query: impl AsRef<[u8]>,
        decision: u64,
        clock: u64,
        random: [u8; 20],
    ) -> Authorized {
        let request = Request::Authorize { query: query.as_ref().to_vec(), decision, farm };
        let after = self.run(request, clock, &random);
        let Answer::Authorize(answer) = after.answer else { unreachable!() };
        match answer.refusal {
            0 => Authorized::Redirected(after.text()),
            refusal => Authorized::Refused(refusal),
        }
    }

    /// The random bytes are forty that count up from `random`.
    pub fn token(&mut self, header: impl AsRef<[u8]>, body: impl AsRef<[u8]>, clock: u64, random: u8) -> Reply {
        self.token_with(header, body, clock, [counting(random), counting(random + 20)])
    }

    pub fn token_with(
        &mut self,
        header: impl AsRef<[u8]>,
        body: impl AsRef<[u8]>,
        clock: u64,
        random: [[u8; 20]; 2],
    ) -> Reply {
        let request = Request::Token { header: header.as_ref().to_vec(), body: body.as_ref().to_vec() };
        let after = self.run(request, clock, &random.concat());
        reply(&after)
    }

    /// No random bytes are handed along.
    pub fn revoke(&mut self, header: impl AsRef<[u8]>, body: impl AsRef<[u8]>, clock: u64) -> Reply {
        let request = Request::Revoke { header: header.as_ref().to_vec(), body: body.as_ref().to_vec() };
        reply(&self.run(request, clock, &[]))
    }

    pub fn check(&mut self, token: impl AsRef<[u8]>, clock: u64) -> CheckAnswer {
        let after = self.run(Request::Check { token: token.as_ref().to_vec() }, clock, &[]);
        let Answer::Check(answer) = after.answer else { unreachable!() };
        answer
    }
}

/// What the token endpoint or the revocation endpoint has answered.
fn reply(after: &After) -> Reply {
    let (Answer::Token(answer) | Answer::Revoke(answer)) = after.answer else { unreachable!() };
    assert_eq!(answer.refusal, 0);
    let word = ErrorWord::ALL.iter().find(|word| word.number() == answer.error);
    let body = after.text();
    if let Some(word) = word {
        assert_eq!(body, format!("{{\"error\":\"{}\"}}", word.text()), "number and word of an error differ");
    }
    Reply { status: answer.status, challenge: answer.challenge == 1, body }
}

pub fn exchange_body(code: &[u8; 20]) -> String {
    format!("grant_type=authorization_code&code={}", sample::hex(code))
}

pub fn refresh_body(token: &[u8; 20]) -> String {
    format!("grant_type=refresh_token&refresh_token={}", sample::hex(token))
}

pub fn revocation_body(token: &[u8; 20]) -> String {
    format!("token={}", sample::hex(token))
}

pub fn redirected(location: &str) -> Authorized {
    Authorized::Redirected(location.into())
}

pub fn granted(body: &str) -> Reply {
    Reply { status: 200, challenge: false, body: body.into() }
}

/// The answer to a revocation that is not refused.
pub fn revoked() -> Reply {
    granted("")
}

pub fn bad_request(word: &str) -> Reply {
    Reply { status: 400, challenge: false, body: format!("{{\"error\":\"{word}\"}}") }
}

pub fn unauthorized(challenge: bool) -> Reply {
    Reply { status: 401, challenge, body: "{\"error\":\"invalid_client\"}".into() }
}
