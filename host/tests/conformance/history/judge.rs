//! The judge: from the calls so far and their answers it says what the next call must answer.

use std::collections::HashSet;

use poplarchime_host::plain::registry::{Client, Registry};
use poplarchime_host::plain::scope::NAMES;
use poplarchime_host::plain::sha256::{self, Digest};
use poplarchime_host::plain::token::Asked;
use poplarchime_host::plain::{authorization, revocation, token};
use poplarchime_host::sample::{self, Slot};

use super::contents::{Grant, Issue, What};
use super::{NO_FARM, ROOM};
use crate::support::call::{Answer, Call, Request};
use crate::support::compare::After;
use crate::support::pkce::UNRESERVED;

/// What a call must do, with the conditions of demand 3 that fail.
#[derive(Debug, PartialEq, Eq)]
pub enum Verdict {
    /// Malformed, or the client is not admitted: it yields nothing.
    NotAdmitted,
    /// The demand does not say whether an authorization yields a code.
    Unjudged,
    Yields,
    Refused(Vec<&'static str>),
    /// A revocation that is answered with 200: of which token, or why there was nothing to revoke.
    Revoked(&'static str),
}

#[derive(Default)]
pub struct Judge {
    /// The highest clock seen.
    pub latest: u64,
    pub issues: Vec<Issue>,
    /// All twenties of random bytes that calls were handed.
    random: HashSet<Vec<u8>>,
}

impl Judge {
    pub fn now(&self, call: &Call) -> u64 {
        self.latest.max(call.clock)
    }

    /// Whether the premise holds for one more call: its random bytes are new, and their halves differ.
    pub fn is_within_premise(&self, call: &Call) -> bool {
        let twenties: Vec<&[u8]> = call.random.chunks(20).collect();
        let differ = twenties.iter().enumerate().all(|(at, one)| !twenties[..at].contains(one));
        differ && twenties.iter().all(|&twenty| !self.random.contains(twenty))
    }

    pub fn judge(&self, call: &Call) -> Verdict {
        let registry = Registry::parse(&call.registry).expect("a call past refusal 2");
        match &call.request {
            Request::Authorize { .. } => Verdict::Unjudged,
            Request::Check { token } => {
                let issued = self.issued(token).filter(|issue| issue.what == What::Access);
                verdict(&[
                    ("not issued as an access token", issued.is_some()),
                    ("run out", issued.is_none_or(|issue| !issue.has_run_out(self.now(call)))),
                    ("withdrawn", issued.is_none_or(|issue| !issue.withdrawn)),
                    ("revoked", issued.is_none_or(|issue| !issue.revoked)),
                ])
            }
            Request::Revoke { header, body } => match revocation::Request::read(header, body, &registry) {
                Err(_) => Verdict::NotAdmitted,
                Ok(revocation::Request { client, token }) => self.judge_revocation(client, &token, self.now(call)),
            },
            Request::Token { header, body } => match token::Request::read(header, body, &registry) {
                Err(_) => Verdict::NotAdmitted,
                Ok(token::Request { client, asked: Asked::Exchange { code, redirect, verifier } }) => {
                    let repeated = redirect.as_deref() == Some(registry.client(client).redirect);
                    self.judge_exchange(client, &code, repeated, verifier.as_deref(), self.now(call))
                }
                Ok(token::Request { client, asked: Asked::Refresh { token, scope } }) => {
                    self.judge_refresh(client, &token, scope.as_deref(), self.now(call))
                }
                Ok(token::Request { client, asked: Asked::ClientCredentials { scope } }) => {
                    self.judge_client_credentials(registry.client(client), scope.as_deref(), self.now(call))
                }
            },
        }
    }

    fn judge_exchange(
        &self,
        client: usize,
        code: &[u8],
        redirect_repeated: bool,
        verifier: Option<&[u8]>,
        now: u64,
    ) -> Verdict {
        let issued = self.issued(code).filter(|issue| matches!(issue.what, What::Code { .. }));
        let bound = issued.is_some_and(|issue| matches!(issue.what, What::Code { bound: true, .. }));
        let challenge = issued.and_then(Issue::challenge);
        let verifies = |test: &dyn Fn(&[u8], Digest) -> bool| {
            challenge.is_none_or(|challenge| verifier.is_none_or(|verifier| test(verifier, challenge)))
        };
        verdict(&[
            ("not issued as a code", issued.is_some()),
            ("issued to another client", issued.is_none_or(|issue| issue.grant.client == client)),
            ("run out", issued.is_none_or(|issue| !issue.has_run_out(now))),
            ("exchanged before", issued.is_none_or(|issue| !issue.exchanged)),
            ("redirect not repeated", !bound || redirect_repeated),
            ("no verifier", challenge.is_none() || verifier.is_some()),
            ("verifier malformed", verifies(&|verifier, _| is_verifier(verifier))),
            ("verifier of another digest", verifies(&|verifier, challenge| sha256::digest(verifier) == challenge)),
            ("no room", self.standing(now) + 2 <= ROOM),
        ])
    }

    fn judge_refresh(&self, client: usize, token: &[u8], scope: Option<&[u8]>, now: u64) -> Verdict {
        let issued = self.issued(token).filter(|issue| issue.what == What::Refresh);
        verdict(&[
            ("not issued as a refresh token", issued.is_some()),
            ("issued to another client", issued.is_none_or(|issue| issue.grant.client == client)),
            ("run out", issued.is_none_or(|issue| !issue.has_run_out(now))),
            ("withdrawn", issued.is_none_or(|issue| !issue.withdrawn)),
            ("revoked", issued.is_none_or(|issue| !issue.revoked)),
            ("scope not within", issued.is_none_or(|issue| is_within(scope, issue.grant.scope))),
            ("no room", self.standing(now) < ROOM),
        ])
    }

    fn judge_client_credentials(&self, client: &Client, scope: Option<&[u8]>, now: u64) -> Verdict {
        verdict(&[
            ("a public client", client.secret.is_some()),
            ("scope not within", is_within(scope, client.scope.0)),
            ("no room", self.standing(now) < ROOM),
        ])
    }

    /// Only a live token of another client is refused; one that is live no more needs no revoking.
    fn judge_revocation(&self, client: usize, token: &[u8], now: u64) -> Verdict {
        match self.issued(token).filter(|issue| issue.is_token()) {
            None => Verdict::Revoked("not issued as a token"),
            Some(issue) if issue.has_run_out(now) => Verdict::Revoked("run out"),
            Some(issue) if issue.withdrawn => Verdict::Revoked("withdrawn"),
            Some(issue) if issue.revoked => Verdict::Revoked("revoked before"),
            Some(issue) if issue.grant.client != client => Verdict::Refused(vec!["issued to another client"]),
            Some(issue) if issue.what == What::Refresh => Verdict::Revoked("a refresh token"),
            Some(_) => Verdict::Revoked("an access token"),
        }
    }

    /// The code that the call shows a second time: it was exchanged before, and is live and that of the client.
    pub fn shown_again(&self, call: &Call) -> Option<&Issue> {
        let token::Request { client, asked } = token_request(call)?;
        let Asked::Exchange { code, .. } = asked else { return None };
        let is_clients = |issue: &&Issue| issue.grant.client == client && !issue.has_run_out(self.now(call));
        self.issued(&code).filter(is_clients).filter(|issue| issue.exchanged)
    }

    /// The code that the call would exchange, and whether it brings a verifier.
    pub fn exchanged(&self, call: &Call) -> Option<(&Issue, bool)> {
        let Asked::Exchange { code, verifier, .. } = token_request(call)?.asked else { return None };
        Some((self.issued(&code)?, verifier.is_some()))
    }

    /// The issue of a code or token. Under the premise no two have the same text.
    fn issued(&self, text: &[u8]) -> Option<&Issue> {
        self.issues.iter().find(|issue| issue.text.as_bytes() == text)
    }

    /// How many issues take room: all that are live, exchanged codes too.
    pub fn standing(&self, now: u64) -> usize {
        self.issues.iter().filter(|issue| issue.is_live(now)).count()
    }

    /// The texts of all tokens that came from the code that the call shows a second time.
    pub fn withdrawn_by(&self, call: &Call) -> HashSet<String> {
        let Some(code) = self.shown_again(call) else { return HashSet::new() };
        self.texts(|issue| issue.came_from(&code.text))
    }

    /// The texts of all tokens that the call revokes: its client's own live token, and with a refresh token the access
    /// tokens of its origin.
    pub fn revoked_by(&self, call: &Call) -> HashSet<String> {
        let Some(revocation::Request { client, token }) = revocation_request(call) else { return HashSet::new() };
        let is_revoked = |issue: &&Issue| issue.is_live(self.now(call)) && issue.grant.client == client;
        let Some(revoked) = self.issued(&token).filter(|issue| issue.is_token()).filter(is_revoked) else {
            return HashSet::new();
        };
        let goes_along = |issue: &Issue| match (&revoked.what, &revoked.grant.origin) {
            (What::Refresh, Some(code)) => issue.what == What::Access && issue.came_from(code),
            _ => false,
        };
        self.texts(|issue| issue.text == revoked.text || goes_along(issue))
    }

    fn texts(&self, test: impl Fn(&Issue) -> bool) -> HashSet<String> {
        self.issues.iter().filter(|issue| test(issue)).map(|issue| issue.text.clone()).collect()
    }

    /// How many of these tokens are live before the call.
    pub fn live_among(&self, texts: &HashSet<String>, call: &Call) -> usize {
        let is_ended = |issue: &&Issue| texts.contains(&issue.text) && issue.is_live(self.now(call));
        self.issues.iter().filter(is_ended).count()
    }

    /// Takes in a call that was seen, and its answer.
    pub fn record(&mut self, call: &Call, after: &After) {
        let (withdrawn, revoked) = (self.withdrawn_by(call), self.revoked_by(call));
        for issue in &mut self.issues {
            issue.withdrawn |= withdrawn.contains(&issue.text);
            issue.revoked |= revoked.contains(&issue.text);
        }
        self.random.extend(call.random.chunks(20).map(<[u8]>::to_vec));
        self.latest = self.now(call);
        let registry = Registry::parse(&call.registry).expect("a call past refusal 2");
        match &call.request {
            Request::Authorize { query, farm, .. } if after.answer.issued() => {
                assert_ne!(*farm, NO_FARM, "no owner can allow it\n{call}");
                let request = authorization::Request::read(query, &registry).expect("it was granted");
                let asked = request.asked.expect("it was granted");
                let public = registry.client(request.client).secret.is_none();
                assert!(!public || asked.challenge.is_some(), "a public client sent no challenge\n{call}");
                let text = behind(&after.text(), "code=", "&").expect("a code in the location");
                let grant = Grant { client: request.client, farm: *farm, scope: asked.scope.0, origin: None };
                self.issue(What::Code { bound: request.bound, challenge: asked.challenge }, text, grant);
            }
            Request::Token { header, body } if after.answer.issued() => {
                let request = token::Request::read(header, body, &registry).expect("it was granted");
                self.record_tokens(&request, &registry, &after.text());
            }
            _ => {}
        }
    }

    fn record_tokens(&mut self, request: &token::Request, registry: &Registry, reply: &str) {
        let access = behind(reply, "\"access_token\":\"", "\"").expect("an access token in the reply");
        let refresh = behind(reply, "\"refresh_token\":\"", "\"");
        match &request.asked {
            Asked::Exchange { code, .. } => {
                let issued = self.issues.iter_mut().find(|issue| issue.text.as_bytes() == code).expect("judged before");
                issued.exchanged = true;
                let grant = Grant { origin: Some(issued.text.clone()), ..issued.grant.clone() };
                self.issue(What::Access, access, grant.clone());
                self.issue(What::Refresh, refresh.expect("a refresh token in the reply"), grant);
            }
            Asked::Refresh { token, scope } => {
                assert_eq!(refresh, None, "a refresh issues one token");
                let grant = self.issued(token).expect("judged before").grant.clone();
                let scope = scope.as_deref().map_or(grant.scope, set_of);
                self.issue(What::Access, access, Grant { scope, ..grant });
            }
            Asked::ClientCredentials { scope } => {
                assert_eq!(refresh, None, "client credentials get one token");
                let scope = scope.as_deref().map_or(registry.client(request.client).scope.0, set_of);
                self.issue(What::Access, access, Grant { client: request.client, farm: NO_FARM, scope, origin: None });
            }
        }
    }

    fn issue(&mut self, what: What, text: String, grant: Grant) {
        let expiry = self.latest + what.lifetime();
        let (exchanged, withdrawn, revoked) = (false, false, false);
        self.issues.push(Issue { what, text, grant, expiry, exchanged, withdrawn, revoked });
    }

    /// Fails unless the answer is what the calls before it demand.
    pub fn hold(&self, call: &Call, verdict: &Verdict, answer: &Answer) {
        match (verdict, answer) {
            (Verdict::Unjudged, Answer::Authorize(_)) => {}
            (Verdict::NotAdmitted, Answer::Token(reply)) => assert_ne!(reply.status, 200, "{call}"),
            (Verdict::Yields, Answer::Token(reply)) => assert_eq!(reply.status, 200, "{call}"),
            (Verdict::Refused(why), Answer::Token(reply)) => assert_ne!(reply.status, 200, "{why:?}\n{call}"),
            (Verdict::NotAdmitted, Answer::Revoke(_)) => {
                assert!(
                    ["400 invalid_request", "401 invalid_client", "401 invalid_client, challenge"]
                        .contains(&&answer.outcome()[..]),
                    "{call}"
                );
            }
            (Verdict::Revoked(what), Answer::Revoke(_)) => assert_eq!(answer.outcome(), "200", "{what}\n{call}"),
            (Verdict::Refused(why), Answer::Revoke(_)) => {
                assert_eq!(answer.outcome(), "400 invalid_grant", "{why:?}\n{call}");
            }
            (Verdict::Yields, Answer::Check(answer)) => {
                let Request::Check { token } = &call.request else { unreachable!() };
                let issue = self.issued(token).expect("judged to be issued");
                assert_eq!(answer.live, 1, "{call}");
                let named = (answer.client as usize, answer.farm, answer.scope, answer.seconds_left);
                let left = issue.expiry - self.now(call);
                let Grant { client, farm, scope, .. } = issue.grant;
                assert_eq!(named, (client, farm, scope.into(), left), "{call}");
            }
            (Verdict::Refused(why), Answer::Check(answer)) => assert_eq!(answer.live, 0, "{why:?}\n{call}"),
            (verdict, answer) => panic!("{verdict:?} of {answer:?}"),
        }
    }

    /// Fails unless a call that issued nothing left every slot as it was, but for the tokens that it withdrew or revoked:
    /// their slots are zero.
    pub fn hold_slots(&self, call: &Call, before: &[u8], after: &After) {
        if after.answer.issued() {
            return;
        }
        let ended: HashSet<String> = self.withdrawn_by(call).union(&self.revoked_by(call)).cloned().collect();
        let mut expected = before.to_vec();
        if !ended.is_empty() {
            for (number, slot) in sample::slots(before).enumerate() {
                if ended.contains(&slot.handle_text()) {
                    sample::set_slot(&mut expected, number, Slot::default());
                }
            }
        }
        assert!(after.store[8..] == expected[8..], "a call that issued nothing left other slots\n{call}");
    }
}

/// What a well-formed call of the token endpoint asks for, its client admitted.
fn token_request(call: &Call) -> Option<token::Request> {
    let Request::Token { header, body } = &call.request else { return None };
    token::Request::read(header, body, &Registry::parse(&call.registry)?).ok()
}

/// What a well-formed call of the revocation endpoint asks for, its client admitted.
fn revocation_request(call: &Call) -> Option<revocation::Request> {
    let Request::Revoke { header, body } = &call.request else { return None };
    revocation::Request::read(header, body, &Registry::parse(&call.registry)?).ok()
}

/// 43 to 128 unreserved characters (RFC 7636 section 4.1).
fn is_verifier(text: &[u8]) -> bool {
    (43..=128).contains(&text.len()) && text.iter().all(|byte| UNRESERVED.contains(byte))
}

fn verdict(conditions: &[(&'static str, bool)]) -> Verdict {
    let failed: Vec<&'static str> =
        conditions.iter().filter(|condition| !condition.1).map(|condition| condition.0).collect();
    match failed.is_empty() {
        true => Verdict::Yields,
        false => Verdict::Refused(failed),
    }
}

/// None is asked, or a scope value with no name beyond the granted ones.
fn is_within(asked: Option<&[u8]>, granted: u8) -> bool {
    let Some(asked) = asked else { return true };
    let mut names = asked.split(|&byte| byte == b' ');
    names.all(|name| (0..8).any(|bit| granted >> bit & 1 == 1 && NAMES[bit].as_bytes() == name))
}

fn set_of(scope: &[u8]) -> u8 {
    (0..8)
        .filter(|&bit| scope.split(|&byte| byte == b' ').any(|name| name == NAMES[bit].as_bytes()))
        .map(|bit| 1 << bit)
        .sum()
}

/// What stands behind a text, up to another or the end.
fn behind(text: &str, before: &str, end: &str) -> Option<String> {
    let rest = text.split_once(before)?.1;
    Some(rest.split(end).next().unwrap_or_default().into())
}
