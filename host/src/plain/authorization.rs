//! The authorization endpoint (RFC 6749 sections 3.1 and 4.1.1 to 4.1.2.1, RFC 7636 sections 4.3 and 4.4).

use super::form::{self, Field, Form};
use super::handle::{self, Handle};
use super::pkce;
use super::registry::{Client, Registry};
use super::scope::ScopeSet;
use super::sha256::Digest;
use super::store::{Grant, Store, NO_FARM};
use super::{admit, write, Unfit, FORM_LIMIT, LEAST_OUTPUT};
use crate::answers::{Authorization, ErrorWord};

const STATE_LIMIT: usize = 200;
/// The decision that allows; every other number denies.
const ALLOW: u64 = 1;

/// Refusals 5 to 7: the owner is shown an error page, since there is no address that may be trusted.
#[derive(Clone, Copy, Debug, PartialEq, Eq)]
pub enum ErrorPage {
    Malformed = 5,
    Client = 6,
    Redirect = 7,
}

/// A request whose client and redirect are known, so that its answer is a redirect.
#[derive(Clone, Debug, PartialEq, Eq)]
pub struct Request {
    pub client: usize,
    /// redirect_uri was given.
    pub bound: bool,
    /// The state, if it came once and is sound.
    pub state: Option<Vec<u8>>,
    /// What is asked for, or the error word that the request earns by itself.
    pub asked: Result<Asked, ErrorWord>,
}

#[derive(Clone, Copy, Debug, PartialEq, Eq)]
pub struct Asked {
    pub scope: ScopeSet,
    pub challenge: Option<Digest>,
}

#[allow(clippy::too_many_arguments)] // the export's own
pub fn authorize(
    query: &[u8],
    decision: u64,
    farm: u32,
    registry: &[u8],
    store: &mut [u8],
    clock: u64,
    random: &[u8],
    output: &mut [u8],
) -> Authorization {
    let refused = |refusal| Authorization { refusal, ..Authorization::default() };
    let Ok(handle) = Handle::try_from(random) else {
        return refused(Unfit::Buffers.number());
    };
    if output.len() < LEAST_OUTPUT {
        return refused(Unfit::Buffers.number());
    }
    let mut admitted = match admit(registry, store, clock) {
        Ok(admitted) => admitted,
        Err(unfit) => return refused(unfit.number()),
    };
    let request = match Request::read(query, &admitted.registry) {
        Ok(request) => request,
        Err(page) => return refused(page as u32),
    };
    let issued = request.grant(decision, farm, &mut admitted.store, admitted.now, &handle);
    let location = request.location(admitted.registry.client(request.client), &issued);
    Authorization {
        refusal: 0,
        error: issued.err().map_or(0, ErrorWord::number),
        length: write(location.as_bytes(), output),
    }
}

impl Request {
    pub fn read(query: &[u8], registry: &Registry) -> Result<Request, ErrorPage> {
        if query.len() > FORM_LIMIT {
            return Err(ErrorPage::Malformed);
        }
        let form = Form::read(query).map_err(|_| ErrorPage::Malformed)?;
        let client = form.field("client_id").value().and_then(|id| registry.find(id)).ok_or(ErrorPage::Client)?;
        let registered = registry.client(client);
        let bound = match form.field("redirect_uri") {
            Field::Missing => false,
            Field::Once(address) if address == registered.redirect => true,
            Field::Once(_) => return Err(ErrorPage::Redirect),
            Field::Repeated => return Err(ErrorPage::Client),
        };
        let state = form.field("state").value().filter(|state| is_sound_state(state)).map(<[u8]>::to_vec);
        Ok(Request { client, bound, state, asked: asked(&form, registered) })
    }

    /// Issues the code in the store, or says with which error word the owner is sent back.
    fn grant(
        &self,
        decision: u64,
        farm: u32,
        store: &mut Store,
        now: u64,
        handle: &Handle,
    ) -> Result<Handle, ErrorWord> {
        let Asked { scope, challenge } = self.asked?;
        // Farm 0 has no owner who could allow anything.
        if decision != ALLOW || farm == NO_FARM {
            return Err(ErrorWord::AccessDenied);
        }
        if store.room(now) == 0 {
            return Err(ErrorWord::TemporarilyUnavailable);
        }
        if store.has_handle(handle) {
            return Err(ErrorWord::ServerError);
        }
        let grant = Grant { client: self.client, farm, scope };
        store.issue_code(handle, &grant, self.bound, challenge.as_ref(), now);
        Ok(*handle)
    }

    /// Where the owner's browser is sent, always at the registered address.
    fn location(&self, client: &Client, issued: &Result<Handle, ErrorWord>) -> String {
        let mut location = String::from_utf8_lossy(client.redirect).into_owned();
        location.push(if location.contains('?') { '&' } else { '?' });
        match issued {
            Ok(code) => location.push_str(&format!("code={}", handle::text(code))),
            Err(word) => location.push_str(&format!("error={}", word.text())),
        }
        if let Some(state) = &self.state {
            location.push_str(&format!("&state={}", form::encode(state)));
        }
        location
    }
}

/// What the request asks for: a scope, the client's own when it names none, and a challenge.
fn asked(form: &Form, client: &Client) -> Result<Asked, ErrorWord> {
    let Field::Once(response_type) = form.field("response_type") else {
        return Err(ErrorWord::InvalidRequest);
    };
    let scope = match form.field("scope") {
        Field::Missing => None,
        Field::Once(value) => Some(value),
        Field::Repeated => return Err(ErrorWord::InvalidRequest),
    };
    match form.field("state") {
        Field::Missing => {}
        Field::Once(state) if is_sound_state(state) => {}
        Field::Once(_) | Field::Repeated => return Err(ErrorWord::InvalidRequest),
    }
    let challenge = asked_challenge(form, client).ok_or(ErrorWord::InvalidRequest)?;
    if response_type != b"code" {
        return Err(ErrorWord::UnsupportedResponseType);
    }
    let scope = ScopeSet::asked(scope, client.scope).ok_or(ErrorWord::InvalidScope)?;
    Ok(Asked { scope, challenge })
}

/// The challenge with which the code is asked for, if any; nothing if it is not as it should be. A public client has no
/// secret, so that it must send one.
fn asked_challenge(form: &Form, client: &Client) -> Option<Option<Digest>> {
    match (form.field("code_challenge"), form.field("code_challenge_method")) {
        (Field::Missing, Field::Missing) => (!client.is_public()).then_some(None),
        (Field::Once(challenge), Field::Once(pkce::METHOD)) => pkce::read_challenge(challenge).map(Some),
        _ => None,
    }
}

fn is_sound_state(state: &[u8]) -> bool {
    state.len() <= STATE_LIMIT && state.iter().all(|byte| matches!(byte, 0x20..=0x7e))
}
