//! The revocation endpoint (RFC 7009).

use super::client_form::{error_reply, ClientForm, Names};
use super::handle;
use super::registry::Registry;
use super::store::Kind;
use super::{admit, Admitted, Unfit, LEAST_OUTPUT};
use crate::answers::{ErrorWord, TokenReply};

/// What kind of token it is, the store knows: the hint is a known name, but its value is not looked at.
const NAMES: Names = Names { known: &["token", "token_type_hint", "client_id", "client_secret"], needed: "token" };

/// A well-formed request of an authenticated client.
#[derive(Clone, Debug, PartialEq, Eq)]
pub struct Request {
    pub client: usize,
    pub token: Vec<u8>,
}

pub fn revoke(
    header: &[u8],
    body: &[u8],
    registry: &[u8],
    store: &mut [u8],
    clock: u64,
    output: &mut [u8],
) -> TokenReply {
    let refused = |unfit: Unfit| TokenReply { refusal: unfit.number(), ..TokenReply::default() };
    if output.len() < LEAST_OUTPUT {
        return refused(Unfit::Buffers);
    }
    let mut admitted = match admit(registry, store, clock) {
        Ok(admitted) => admitted,
        Err(unfit) => return refused(unfit),
    };
    match Request::read(header, body, &admitted.registry).and_then(|request| request.revoke(&mut admitted)) {
        Ok(()) => TokenReply { status: 200, ..TokenReply::default() },
        Err(word) => error_reply(word, header, output),
    }
}

impl Request {
    pub fn read(header: &[u8], body: &[u8], registry: &Registry) -> Result<Request, ErrorWord> {
        let form = ClientForm::read(header, body, registry, &NAMES)?;
        Ok(Request { client: form.client, token: form.required("token")? })
    }

    /// Clears the token, and with a refresh token the access tokens that came from the same code. A token that is
    /// unknown or has run out needs no revoking (section 2.2); that of another client is refused.
    fn revoke(&self, admitted: &mut Admitted) -> Result<(), ErrorWord> {
        let Admitted { store, now, .. } = admitted;
        let found = handle::parse(&self.token).and_then(|token| store.find(&Kind::TOKENS, &token));
        let Some((number, entry)) = found.filter(|(_, entry)| *now < entry.expiry) else {
            return Ok(());
        };
        if entry.grant.client != self.client {
            return Err(ErrorWord::InvalidGrant);
        }
        store.clear(number);
        if entry.kind == Kind::Refresh {
            store.clear_tokens(&[Kind::Access], &entry.origin.expect("a token has one"));
        }
        Ok(())
    }
}
