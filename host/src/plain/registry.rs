//! The client registry: 1 to 64 records, read in place.

use super::scope::ScopeSet;

pub const MOST_CLIENTS: usize = 64;
pub const ID_WIDTH: usize = 32;
pub const REDIRECT_WIDTH: usize = 200;
pub const SECRET_WIDTH: usize = 64;

const PUBLIC: u8 = 1;
const CONFIDENTIAL: u8 = 2;

#[derive(Clone, Copy, Debug, PartialEq, Eq)]
pub struct Client<'a> {
    pub id: &'a [u8],
    pub redirect: &'a [u8],
    pub scope: ScopeSet,
    /// Confidential clients have one, public ones do not.
    pub secret: Option<&'a [u8]>,
}

/// A fit registry. Clients are known by their place in it.
#[derive(Clone, Debug, PartialEq, Eq)]
pub struct Registry<'a> {
    clients: Vec<Client<'a>>,
}

impl<'a> Registry<'a> {
    /// The clients of a fit registry, `None` for any other bytes.
    pub fn parse(mut bytes: &'a [u8]) -> Option<Registry<'a>> {
        let mut clients: Vec<Client> = Vec::new();
        while !bytes.is_empty() {
            let (client, rest) = Client::parse(bytes)?;
            if clients.len() == MOST_CLIENTS || clients.iter().any(|other| other.id == client.id) {
                return None;
            }
            clients.push(client);
            bytes = rest;
        }
        (!clients.is_empty()).then_some(Registry { clients })
    }

    #[allow(clippy::len_without_is_empty)] // a registry is never empty
    pub fn len(&self) -> usize {
        self.clients.len()
    }

    pub fn client(&self, number: usize) -> &Client<'a> {
        &self.clients[number]
    }

    pub fn find(&self, id: &[u8]) -> Option<usize> {
        self.clients.iter().position(|client| client.id == id)
    }
}

impl<'a> Client<'a> {
    pub fn is_public(&self) -> bool {
        self.secret.is_none()
    }

    /// The first record of the bytes, and what follows it.
    fn parse(bytes: &'a [u8]) -> Option<(Client<'a>, &'a [u8])> {
        let (&kind, rest) = bytes.split_first()?;
        let (id, rest) = text(rest, ID_WIDTH, |byte| matches!(byte, 0x20..=0x7e) && byte != b':')?;
        let (redirect, rest) = text(rest, REDIRECT_WIDTH, |byte| matches!(byte, 0x21..=0x7e) && byte != b'#')?;
        let (&scope, rest) = rest.split_first()?;
        let (secret, rest) = match kind {
            PUBLIC => (None, rest),
            CONFIDENTIAL => {
                let (secret, rest) = text(rest, SECRET_WIDTH, |byte| matches!(byte, 0x20..=0x7e))?;
                (Some(secret), rest)
            }
            _ => return None,
        };
        let client = Client { id, redirect, scope: ScopeSet(scope), secret };
        (scope != 0).then_some((client, rest))
    }
}

/// A text in a field of fixed width (its length, its bytes, zeros up to the width), and what follows it.
fn text(bytes: &[u8], width: usize, allowed: impl Fn(u8) -> bool) -> Option<(&[u8], &[u8])> {
    let (&length, rest) = bytes.split_first()?;
    let (field, rest) = rest.split_at_checked(width)?;
    let (text, padding) = field.split_at_checked(length.into())?;
    let fit = !text.is_empty() && text.iter().all(|&byte| allowed(byte)) && padding.iter().all(|&byte| byte == 0);
    fit.then_some((text, rest))
}
