//! The token endpoint (RFC 6749 sections 3.2, 4.1.2 to 4.1.4, 4.4, 5 and 6, RFC 7636 section 4.6).

use super::client_form::{error_reply, ClientForm, Names};
use super::handle::{self, Handle, HANDLE_SIZE};
use super::pkce;
use super::registry::Registry;
use super::scope::ScopeSet;
use super::store::{Entry, Grant, Kind, NO_FARM};
use super::{admit, write, Admitted, Unfit, LEAST_OUTPUT};
use crate::answers::{ErrorWord, TokenReply};

const NAMES: Names = Names {
    known: &[
        "grant_type",
        "code",
        "redirect_uri",
        "client_id",
        "client_secret",
        "refresh_token",
        "scope",
        "code_verifier",
    ],
    needed: "grant_type",
};

/// A well-formed request of an authenticated client.
#[derive(Clone, Debug, PartialEq, Eq)]
pub struct Request {
    pub client: usize,
    pub asked: Asked,
}

/// What is presented and asked for, as the form has it.
#[derive(Clone, Debug, PartialEq, Eq)]
pub enum Asked {
    Exchange { code: Vec<u8>, redirect: Option<Vec<u8>>, verifier: Option<Vec<u8>> },
    Refresh { token: Vec<u8>, scope: Option<Vec<u8>> },
    ClientCredentials { scope: Option<Vec<u8>> },
}

/// Why a request gets no token.
#[derive(Clone, Copy, Debug, PartialEq, Eq)]
enum Denial {
    Error(ErrorWord),
    NoRoom,
    Clash,
}

impl From<ErrorWord> for Denial {
    fn from(word: ErrorWord) -> Denial {
        Denial::Error(word)
    }
}

pub fn token(
    header: &[u8],
    body: &[u8],
    registry: &[u8],
    store: &mut [u8],
    clock: u64,
    random: &[u8],
    output: &mut [u8],
) -> TokenReply {
    let refused = |unfit: Unfit| TokenReply { refusal: unfit.number(), ..TokenReply::default() };
    let Some(handles) = split_random(random) else {
        return refused(Unfit::Buffers);
    };
    if output.len() < LEAST_OUTPUT {
        return refused(Unfit::Buffers);
    }
    let mut admitted = match admit(registry, store, clock) {
        Ok(admitted) => admitted,
        Err(unfit) => return refused(unfit),
    };
    let granted = match Request::read(header, body, &admitted.registry) {
        Ok(request) => request.grant(&mut admitted, &handles),
        Err(word) => Err(word.into()),
    };
    match granted {
        Ok(reply) => TokenReply { status: 200, length: write(reply.as_bytes(), output), ..TokenReply::default() },
        Err(Denial::Error(word)) => error_reply(word, header, output),
        Err(Denial::NoRoom) => TokenReply { status: 503, ..TokenReply::default() },
        Err(Denial::Clash) => TokenReply { status: 500, ..TokenReply::default() },
    }
}

/// The two handles in the forty random bytes.
fn split_random(random: &[u8]) -> Option<[Handle; 2]> {
    let (first, second) = random.split_at_checked(HANDLE_SIZE)?;
    Some([first.try_into().ok()?, second.try_into().ok()?])
}

impl Request {
    /// Reads and authenticates. Every refusal up to a missing code or refresh token is an error here.
    pub fn read(header: &[u8], body: &[u8], registry: &Registry) -> Result<Request, ErrorWord> {
        let form = ClientForm::read(header, body, registry, &NAMES)?;
        let asked = match &form.required("grant_type")?[..] {
            b"authorization_code" => Asked::Exchange {
                code: form.required("code")?,
                redirect: form.optional("redirect_uri"),
                verifier: form.optional("code_verifier"),
            },
            b"refresh_token" => {
                Asked::Refresh { token: form.required("refresh_token")?, scope: form.optional("scope") }
            }
            b"client_credentials" => Asked::ClientCredentials { scope: form.optional("scope") },
            _ => return Err(ErrorWord::UnsupportedGrantType),
        };
        Ok(Request { client: form.client, asked })
    }

    /// Issues the tokens in the store and gives the reply.
    fn grant(&self, admitted: &mut Admitted, handles: &[Handle; 2]) -> Result<String, Denial> {
        match &self.asked {
            Asked::Exchange { code, redirect, verifier } => {
                self.exchange(code, redirect.as_deref(), verifier.as_deref(), admitted, handles)
            }
            Asked::Refresh { token, scope } => self.refresh(token, scope.as_deref(), admitted, &handles[0]),
            Asked::ClientCredentials { scope } => self.client_credentials(scope.as_deref(), admitted, &handles[0]),
        }
    }

    fn exchange(
        &self,
        code: &[u8],
        redirect: Option<&[u8]>,
        verifier: Option<&[u8]>,
        admitted: &mut Admitted,
        [access, refresh]: &[Handle; 2],
    ) -> Result<String, Denial> {
        let code = handle::parse(code).ok_or(ErrorWord::InvalidGrant)?;
        if admitted.store.find(&Kind::UNSPENT, &code).is_none() {
            self.show_again(&code, admitted);
            return Err(ErrorWord::InvalidGrant.into());
        }
        let (number, entry) = self.find(&Kind::UNSPENT, &code, admitted)?;
        let registered = admitted.registry.client(self.client).redirect;
        if entry.kind.is_bound() && redirect != Some(registered) {
            return Err(ErrorWord::InvalidGrant.into());
        }
        let is_verified = |challenge| verifier.is_some_and(|verifier| pkce::verifies(verifier, &challenge));
        if !entry.challenge.is_none_or(is_verified) {
            return Err(ErrorWord::InvalidGrant.into());
        }
        let Admitted { store, now, .. } = admitted;
        if store.room(*now) < 2 {
            return Err(Denial::NoRoom);
        }
        if access == refresh || store.has_handle(access) || store.has_handle(refresh) {
            return Err(Denial::Clash);
        }
        store.spend(number);
        store.issue_token(Kind::Access, access, &entry.grant, &code, *now);
        store.issue_token(Kind::Refresh, refresh, &entry.grant, &code, *now);
        Ok(reply(access, Some(refresh), entry.grant.scope))
    }

    /// A code that this client has exchanged before is in other hands too (RFC 6749 section 4.1.2): while it would have
    /// lived, showing it again clears every token that came from it.
    fn show_again(&self, code: &Handle, admitted: &mut Admitted) {
        if self.find(&[Kind::Spent], code, admitted).is_ok() {
            admitted.store.clear_tokens(&Kind::TOKENS, code);
        }
    }

    fn refresh(
        &self,
        token: &[u8],
        scope: Option<&[u8]>,
        admitted: &mut Admitted,
        access: &Handle,
    ) -> Result<String, Denial> {
        let token = handle::parse(token).ok_or(ErrorWord::InvalidGrant)?;
        let (_, entry) = self.find(&[Kind::Refresh], &token, admitted)?;
        let scope = ScopeSet::asked(scope, entry.grant.scope).ok_or(ErrorWord::InvalidScope)?;
        let origin = entry.origin.expect("a token has one");
        issue_access(&Grant { scope, ..entry.grant }, &origin, admitted, access)
    }

    /// The client asks for itself; its secret is all that speaks for it, so it must have one.
    fn client_credentials(
        &self,
        scope: Option<&[u8]>,
        admitted: &mut Admitted,
        access: &Handle,
    ) -> Result<String, Denial> {
        let client = admitted.registry.client(self.client);
        if client.is_public() {
            return Err(ErrorWord::UnauthorizedClient.into());
        }
        let scope = ScopeSet::asked(scope, client.scope).ok_or(ErrorWord::InvalidScope)?;
        issue_access(&Grant { client: self.client, farm: NO_FARM, scope }, access, admitted, access)
    }

    /// The slot that a presented handle names, if it is live and this client's.
    fn find(&self, kinds: &[Kind], handle: &Handle, admitted: &Admitted) -> Result<(usize, Entry), ErrorWord> {
        let (number, entry) = admitted.store.find(kinds, handle).ok_or(ErrorWord::InvalidGrant)?;
        if admitted.now >= entry.expiry || entry.grant.client != self.client {
            return Err(ErrorWord::InvalidGrant);
        }
        Ok((number, entry))
    }
}

/// Issues an access token without a refresh token, and gives the reply.
fn issue_access(grant: &Grant, origin: &Handle, admitted: &mut Admitted, access: &Handle) -> Result<String, Denial> {
    let Admitted { store, now, .. } = admitted;
    if store.room(*now) == 0 {
        return Err(Denial::NoRoom);
    }
    if store.has_handle(access) {
        return Err(Denial::Clash);
    }
    store.issue_token(Kind::Access, access, grant, origin, *now);
    Ok(reply(access, None, grant.scope))
}

/// The body of a 200 (RFC 6749 section 5.1).
fn reply(access: &Handle, refresh: Option<&Handle>, scope: ScopeSet) -> String {
    let refresh = refresh.map_or(String::new(), |handle| format!("\"refresh_token\":\"{}\",", handle::text(handle)));
    format!(
        "{{\"access_token\":\"{}\",\"token_type\":\"Bearer\",\"expires_in\":{},{}\"scope\":\"{}\"}}",
        handle::text(access),
        Kind::Access.lifetime(),
        refresh,
        scope.text()
    )
}
