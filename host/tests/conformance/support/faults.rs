//! What can be wrong with a request, reason by reason, in the order in which the papers list it.

mod authentication;
mod authorization;
mod buffers;
mod challenge;
mod check;
mod form;
mod grant;
mod presented;
mod revocation;
mod room;
mod scope;
mod texts;
mod verifier;

use super::draft::{Action, Draft};
use super::rng::Rng;

pub use presented::present;
pub use scope::give_scope;

/// The place of a refusal in the papers' order. Of several faults, the one at the lowest step counts.
#[derive(Clone, Copy, Debug, PartialEq, Eq, PartialOrd, Ord)]
pub enum Step {
    Buffers,
    Registry,
    Store,
    Clock,
    // Authorization, error pages.
    Query,
    Client,
    Redirect,
    // Authorization, redirects.
    Request,
    ResponseType,
    Scope,
    Decision,
    Room,
    Clash,
    // Token and revocation.
    Body,
    Authentication,
    // Token.
    GrantType,
    GrantNotForClient,
    Presented,
    Grant,
    SecondShowing,
    CodeRedirect,
    Verifier,
    TokenScope,
    TokenRoom,
    TokenClash,
    // Revocation.
    NothingToRevoke,
    AnotherClients,
    // Check.
    Token,
    /// Nothing is wrong, though it may look odd.
    Harmless,
}

impl Step {
    /// The outcome that the papers have for a draft whose first fault is at this step.
    pub fn outcome(self, draft: &Draft) -> &'static str {
        match self {
            Step::Buffers => "refusal 1",
            Step::Registry => "refusal 2",
            Step::Store => "refusal 3",
            Step::Clock => "refusal 4",
            Step::Query => "refusal 5",
            Step::Client => "refusal 6",
            Step::Redirect => "refusal 7",
            Step::Request => "invalid_request",
            Step::ResponseType => "unsupported_response_type",
            Step::Scope => "invalid_scope",
            Step::Decision => "access_denied",
            Step::Room => "temporarily_unavailable",
            Step::Clash => "server_error",
            Step::Body | Step::Presented => "400 invalid_request",
            Step::Authentication if draft.header.comes() => "401 invalid_client, challenge",
            Step::Authentication => "401 invalid_client",
            Step::GrantType => "400 unsupported_grant_type",
            Step::GrantNotForClient => "400 unauthorized_client",
            Step::Grant | Step::CodeRedirect | Step::Verifier | Step::AnotherClients => "400 invalid_grant",
            Step::SecondShowing => "400 invalid_grant, tokens cleared",
            Step::TokenScope => "400 invalid_scope",
            Step::TokenRoom => "503",
            Step::TokenClash => "500",
            Step::NothingToRevoke => "200",
            Step::Token => "not live",
            Step::Harmless => draft.action.granted(),
        }
    }
}

type Apply = fn(&mut Draft, &mut Rng);
/// Reasons with the same place in the order.
type Reasons = (Step, &'static [(&'static str, Apply)]);

#[derive(Clone, Copy)]
pub struct Fault {
    pub step: Step,
    pub reason: &'static str,
    apply: Apply,
}

impl Fault {
    pub fn apply(&self, draft: &mut Draft, rng: &mut Rng) {
        (self.apply)(draft, rng);
    }
}

/// Every reason for refusing such a request, and ways of being odd that are no reason.
pub fn faults(action: Action) -> Vec<Fault> {
    let lists: &[&[Reasons]] = match action {
        Action::Authorize => &[ANY, WRITING, ISSUING, SINGLE, AUTHORIZE],
        Action::Exchange => &[ANY, WRITING, ISSUING, CLIENT_FORM, GRANT, PRESENTED_GRANT, EXCHANGE],
        Action::Refresh => &[ANY, WRITING, ISSUING, SINGLE, CLIENT_FORM, GRANT, PRESENTED_GRANT, SINGLE_TOKEN, REFRESH],
        Action::ClientCredentials => {
            &[ANY, WRITING, ISSUING, SINGLE, CLIENT_FORM, GRANT, SINGLE_TOKEN, CLIENT_CREDENTIALS]
        }
        Action::Revoke => &[ANY, WRITING, CLIENT_FORM, REVOKE],
        Action::Check => &[ANY, CHECK],
    };
    let mut faults = Vec::new();
    for &(step, reasons) in lists.iter().copied().flatten() {
        faults.extend(reasons.iter().map(|&(reason, apply)| Fault { step, reason, apply }));
    }
    faults
}

const ANY: &[Reasons] = &[
    (Step::Registry, buffers::REGISTRY),
    (Step::Store, buffers::STORE),
    (Step::Clock, buffers::CLOCK),
    (Step::Harmless, buffers::HARMLESS_CLOCK),
];

/// Where there is an output; the request is a form then.
const WRITING: &[Reasons] = &[(Step::Buffers, buffers::OUTPUT), (Step::Harmless, form::HARMLESS_FORM)];

const ISSUING: &[Reasons] =
    &[(Step::Buffers, buffers::RANDOM), (Step::Harmless, room::TWO_LEFT), (Step::Harmless, room::HARMLESS_CLASH)];

/// Where a single slot is taken.
const SINGLE: &[Reasons] = &[(Step::Harmless, room::ONE_LEFT)];

const AUTHORIZE: &[Reasons] = &[
    (Step::Query, form::FORM),
    (Step::Client, authorization::CLIENT),
    (Step::Redirect, authorization::REDIRECT),
    (Step::Request, authorization::REQUEST),
    (Step::Request, challenge::CHALLENGE),
    (Step::ResponseType, authorization::RESPONSE_TYPE),
    (Step::Scope, scope::SCOPE),
    (Step::Decision, authorization::DECISION),
    (Step::Room, room::ROOM),
    (Step::Clash, room::CLASH),
    (Step::Harmless, scope::HARMLESS_SCOPE),
    (Step::Harmless, authorization::HARMLESS_AUTHORIZATION),
    (Step::Harmless, challenge::HARMLESS_CHALLENGE),
];

/// Of every form by which a client is authenticated.
const CLIENT_FORM: &[Reasons] = &[
    (Step::Body, form::FORM),
    (Step::Body, authentication::BODY),
    (Step::Authentication, authentication::AUTHENTICATION),
    (Step::Harmless, authentication::HARMLESS_CREDENTIALS),
];

/// Of every grant of the token endpoint.
const GRANT: &[Reasons] = &[
    (Step::Body, grant::NAMES),
    (Step::GrantType, grant::GRANT_TYPE),
    (Step::TokenRoom, room::ROOM),
    (Step::TokenClash, room::CLASH),
    (Step::Harmless, verifier::HARMLESS_CHALLENGE),
];

/// Of the grants for which a code or a refresh token is presented.
const PRESENTED_GRANT: &[Reasons] = &[
    (Step::Presented, grant::PRESENTED),
    (Step::Grant, grant::GRANT),
    (Step::Grant, presented::UNKNOWN),
    (Step::Grant, presented::ANOTHER_CLIENTS),
    (Step::TokenClash, room::PRESENTED_CLASH),
    (Step::Harmless, presented::HARMLESS_PRESENTED),
];

/// Of the grants that issue an access token alone: a scope is read, and the last random bytes are not.
const SINGLE_TOKEN: &[Reasons] =
    &[(Step::TokenScope, scope::SCOPE), (Step::Harmless, scope::HARMLESS_SCOPE), (Step::Harmless, room::SECOND_CLASH)];

const EXCHANGE: &[Reasons] = &[
    (Step::Grant, grant::SPENT),
    (Step::SecondShowing, grant::SECOND_SHOWING),
    (Step::CodeRedirect, grant::CODE_REDIRECT),
    (Step::Verifier, verifier::VERIFIER),
    (Step::TokenRoom, room::ONE_LEFT),
    (Step::TokenClash, room::SECOND_CLASH),
    (Step::TokenClash, room::SECOND_PRESENTED_CLASH),
    (Step::Harmless, grant::HARMLESS_EXCHANGE),
    (Step::Harmless, verifier::HARMLESS_VERIFIER),
];

const REFRESH: &[Reasons] = &[
    (Step::Harmless, room::SECOND_PRESENTED_CLASH),
    (Step::Harmless, grant::HARMLESS_REFRESH),
    (Step::Harmless, verifier::IGNORED_VERIFIER),
];

const CLIENT_CREDENTIALS: &[Reasons] = &[
    (Step::GrantNotForClient, grant::PUBLIC_CLIENT),
    (Step::Harmless, grant::HARMLESS_CLIENT_CREDENTIALS),
    (Step::Harmless, verifier::IGNORED_VERIFIER),
];

const REVOKE: &[Reasons] = &[
    (Step::Body, revocation::NAMES),
    (Step::NothingToRevoke, presented::UNKNOWN),
    (Step::NothingToRevoke, revocation::NOTHING),
    (Step::AnotherClients, presented::ANOTHER_CLIENTS),
    (Step::AnotherClients, revocation::ANOTHER_CLIENTS),
    (Step::Harmless, presented::HARMLESS_PRESENTED),
    (Step::Harmless, revocation::HARMLESS),
];

const CHECK: &[Reasons] = &[
    (Step::Token, check::TOKEN),
    (Step::Harmless, presented::HARMLESS_PRESENTED),
    (Step::Harmless, check::HARMLESS_CHECK),
];
