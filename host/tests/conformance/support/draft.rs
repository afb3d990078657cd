//! A request in the making: its parts can be spoiled one by one before it becomes a call.

use std::sync::Arc;

use poplarchime_host::sample::{self, Client, Slot};

use super::call::{Call, Request};
use super::pkce;
use super::rng::Rng;
use super::writing;

/// What a request is about. Exchange, refresh and client credentials are the grants of the token endpoint.
#[derive(Clone, Copy, Debug, PartialEq, Eq)]
pub enum Action {
    Authorize,
    Exchange,
    Refresh,
    ClientCredentials,
    Revoke,
    Check,
}

impl Action {
    pub const ALL: [Action; 6] = [
        Action::Authorize,
        Action::Exchange,
        Action::Refresh,
        Action::ClientCredentials,
        Action::Revoke,
        Action::Check,
    ];
    /// The actions that have an output to write to.
    pub const WRITING: [Action; 5] =
        [Action::Authorize, Action::Exchange, Action::Refresh, Action::ClientCredentials, Action::Revoke];
    /// The actions that issue a code or tokens.
    pub const ISSUING: [Action; 4] = [Action::Authorize, Action::Exchange, Action::Refresh, Action::ClientCredentials];
    /// The grants of the token endpoint.
    pub const GRANTS: [Action; 3] = [Action::Exchange, Action::Refresh, Action::ClientCredentials];
    /// The actions for which a client is authenticated: the grants, and a revocation.
    pub const BY_CLIENTS: [Action; 4] = [Action::Exchange, Action::Refresh, Action::ClientCredentials, Action::Revoke];

    pub fn name(self) -> &'static str {
        match self {
            Action::Authorize => "authorize",
            Action::Exchange => "exchange",
            Action::Refresh => "refresh",
            Action::ClientCredentials => "client credentials",
            Action::Revoke => "revoke",
            Action::Check => "check",
        }
    }

    /// Whether a request of this kind shows a code or token from the store.
    pub fn presents(self) -> bool {
        matches!(self, Action::Exchange | Action::Refresh | Action::Revoke | Action::Check)
    }

    /// The outcome of a request with which nothing is wrong.
    pub fn granted(self) -> &'static str {
        match self {
            Action::Authorize => "code",
            Action::Exchange | Action::Refresh | Action::ClientCredentials => "200",
            Action::Revoke => "200, tokens cleared",
            Action::Check => "live",
        }
    }

    /// Every outcome that the papers have for a request of this kind.
    pub fn outcomes(self) -> Vec<String> {
        let own: &[&str] = match self {
            Action::Authorize => &[
                "refusal 1",
                "refusal 5",
                "refusal 6",
                "refusal 7",
                "invalid_request",
                "unsupported_response_type",
                "invalid_scope",
                "access_denied",
                "temporarily_unavailable",
                "server_error",
            ],
            Action::Exchange => &["400 invalid_grant", "400 invalid_grant, tokens cleared"],
            Action::Refresh => &["400 invalid_grant", "400 invalid_scope"],
            Action::ClientCredentials => &["400 unauthorized_client", "400 invalid_scope"],
            Action::Revoke => &["200", "400 invalid_grant"],
            Action::Check => &["not live"],
        };
        let by_clients: &[&str] = match Action::BY_CLIENTS.contains(&self) {
            true => &["refusal 1", "400 invalid_request", "401 invalid_client", "401 invalid_client, challenge"],
            false => &[],
        };
        let of_grants: &[&str] = match Action::GRANTS.contains(&self) {
            true => &["400 unsupported_grant_type", "503", "500"],
            false => &[],
        };
        let of_all = ["refusal 2", "refusal 3", "refusal 4", self.granted()];
        let endings = of_all.iter().chain(by_clients).chain(of_grants).chain(own);
        endings.map(|ending| format!("{}: {ending}", self.name())).collect()
    }
}

/// Names and values of a form, not yet encoded.
#[derive(Clone, Debug, Default)]
pub struct Params(Vec<(Vec<u8>, Vec<u8>)>);

impl Params {
    pub fn get(&self, name: &str) -> Option<&[u8]> {
        self.0.iter().find(|param| param.0 == name.as_bytes()).map(|param| &param.1[..])
    }

    pub fn push(&mut self, name: &str, value: impl AsRef<[u8]>) {
        self.0.push((name.into(), value.as_ref().to_vec()));
    }

    /// Makes this the name's only value.
    pub fn set(&mut self, name: &str, value: impl AsRef<[u8]>) {
        self.remove(name);
        self.push(name, value);
    }

    pub fn remove(&mut self, name: &str) {
        self.0.retain(|param| param.0 != name.as_bytes());
    }
}

/// The value of the Authorization field.
#[derive(Clone, Debug)]
pub enum Header {
    /// As it stands; no bytes when none comes.
    Raw(Vec<u8>),
    /// Of the Basic scheme; id and secret are not yet form-coded.
    Basic { id: Vec<u8>, secret: Vec<u8> },
}

impl Header {
    pub const NONE: Header = Header::Raw(Vec::new());

    pub fn basic(id: &[u8], secret: &[u8]) -> Header {
        Header::Basic { id: id.into(), secret: secret.into() }
    }

    pub fn comes(&self) -> bool {
        !matches!(self, Header::Raw(bytes) if bytes.is_empty())
    }

    /// Written as a client library would.
    pub fn written(&self) -> Vec<u8> {
        match self {
            Header::Raw(bytes) => bytes.clone(),
            Header::Basic { id, secret } => writing::basic_header(id, secret, |text, _| writing::usual(text)),
        }
    }

    /// Written in one of the many other ways that mean the same.
    pub fn in_any_writing(&self, rng: &mut Rng) -> Vec<u8> {
        match self {
            Header::Raw(bytes) => bytes.clone(),
            Header::Basic { id, secret } => {
                writing::basic_header(id, secret, |text, escaped| writing::any(text, escaped, rng))
            }
        }
    }
}

impl<T: Into<Vec<u8>>> From<T> for Header {
    fn from(bytes: T) -> Header {
        Header::Raw(bytes.into())
    }
}

#[derive(Clone, Debug)]
pub struct Draft {
    pub action: Action,
    /// What the registry is made of.
    pub clients: Arc<[Client]>,
    /// Who asks.
    pub client: usize,
    /// The slot whose handle is presented, if the action presents one.
    pub presented: usize,
    pub params: Params,
    /// A piece that is put behind the form as it stands.
    pub raw_piece: Vec<u8>,
    /// The form is filled up to this length.
    pub padded_to: usize,
    pub decision: u64,
    pub farm: u32,
    pub header: Header,
    pub token: Vec<u8>,
    pub registry: Vec<u8>,
    pub store: Vec<u8>,
    pub clock: u64,
    pub random: Vec<u8>,
    pub output: usize,
}

impl Draft {
    fn new(action: Action, clients: &Arc<[Client]>, store: &[u8], clock: u64) -> Draft {
        Draft {
            action,
            clients: clients.clone(),
            client: 0,
            presented: 0,
            params: Params::default(),
            raw_piece: Vec::new(),
            padded_to: 0,
            decision: 1,
            farm: 7,
            header: Header::NONE,
            token: Vec::new(),
            registry: sample::registry(clients),
            store: store.to_vec(),
            clock,
            random: Vec::new(),
            output: 1024,
        }
    }

    /// A request that asks for nothing special and is granted. A public client sends a challenge.
    pub fn authorize(
        clients: &Arc<[Client]>,
        store: &[u8],
        clock: u64,
        client: usize,
        random: impl AsRef<[u8]>,
    ) -> Draft {
        let mut draft = Draft::new(Action::Authorize, clients, store, clock);
        draft.client = client;
        draft.random = random.as_ref().to_vec();
        draft.params.push("response_type", "code");
        draft.params.push("client_id", &clients[client].id);
        if clients[client].secret.is_none() {
            draft.send_challenge(&pkce::appendix_b().challenge);
        }
        draft
    }

    /// The exchange of the code in a slot, or the refresh with the refresh token in it, by the client it belongs to.
    pub fn token(
        action: Action,
        clients: &Arc<[Client]>,
        store: &[u8],
        clock: u64,
        slot: usize,
        random: impl AsRef<[u8]>,
    ) -> Draft {
        let mut draft = Draft::new(action, clients, store, clock);
        let held = sample::slot(store, slot);
        draft.presented = slot;
        draft.random = random.as_ref().to_vec();
        match action {
            Action::Exchange => {
                draft.params.push("grant_type", "authorization_code");
                draft.params.push("code", held.handle_text());
                if held.is_bound() {
                    draft.params.push("redirect_uri", &clients[usize::from(held.client)].redirect);
                }
                if let Some(verifier) = pkce::verifier_of(&held.challenge()).filter(|_| held.has_challenge()) {
                    draft.params.push("code_verifier", verifier);
                }
            }
            _ => {
                draft.params.push("grant_type", "refresh_token");
                draft.params.push("refresh_token", held.handle_text());
            }
        }
        draft.authenticate(held.client.into());
        draft
    }

    /// A confidential client asks for itself.
    pub fn client_credentials(
        clients: &Arc<[Client]>,
        store: &[u8],
        clock: u64,
        client: usize,
        random: impl AsRef<[u8]>,
    ) -> Draft {
        let mut draft = Draft::new(Action::ClientCredentials, clients, store, clock);
        draft.random = random.as_ref().to_vec();
        draft.params.push("grant_type", "client_credentials");
        draft.authenticate(client);
        draft
    }

    /// The revocation of the token in a slot, by the client it belongs to.
    pub fn revoke(clients: &Arc<[Client]>, store: &[u8], clock: u64, slot: usize) -> Draft {
        let mut draft = Draft::new(Action::Revoke, clients, store, clock);
        let held = sample::slot(store, slot);
        draft.presented = slot;
        draft.params.push("token", held.handle_text());
        draft.authenticate(held.client.into());
        draft
    }

    /// The check of the access token in a slot.
    pub fn check(clients: &Arc<[Client]>, store: &[u8], clock: u64, slot: usize) -> Draft {
        let mut draft = Draft::new(Action::Check, clients, store, clock);
        draft.presented = slot;
        draft.token = sample::slot(store, slot).handle_text().into();
        draft
    }

    pub fn send_challenge(&mut self, challenge: &[u8; 32]) {
        self.params.set("code_challenge", pkce::challenge_text(challenge));
        self.params.set("code_challenge_method", "S256");
    }

    /// The slot that is presented, as the draft's store has it.
    pub fn presented_slot(&self) -> Slot {
        sample::slot(&self.store, self.presented)
    }

    /// Whether it is this slot whose handle is presented.
    pub fn presents(&self, number: usize) -> bool {
        self.action.presents() && number == self.presented
    }

    /// The number of a slot other than the presented one.
    pub fn other_slot(&self, rng: &mut Rng) -> usize {
        (self.presented + rng.between(1, sample::SLOTS - 1)) % sample::SLOTS
    }

    pub fn set_slot(&mut self, number: usize, slot: Slot) {
        sample::set_slot(&mut self.store, number, slot);
    }

    pub fn edit_slot(&mut self, number: usize, edit: impl FnOnce(&mut Slot)) {
        let mut slot = sample::slot(&self.store, number);
        edit(&mut slot);
        self.set_slot(number, slot);
    }

    /// Credentials of this client as they should be: a header for a confidential one, its id alone for a public one.
    pub fn authenticate(&mut self, client: usize) {
        self.client = client;
        let asking = self.clients[client].clone();
        match &asking.secret {
            Some(secret) => self.authenticate_by_header(Header::basic(&asking.id, secret)),
            None => self.authenticate_in_body(&asking.id, None),
        }
    }

    pub fn authenticate_by_header(&mut self, header: impl Into<Header>) {
        self.header = header.into();
        self.params.remove("client_id");
        self.params.remove("client_secret");
    }

    pub fn authenticate_in_body(&mut self, id: &[u8], secret: Option<&[u8]>) {
        self.header = Header::NONE;
        self.params.set("client_id", id);
        match secret {
            Some(secret) => self.params.set("client_secret", secret),
            None => self.params.remove("client_secret"),
        }
    }

    /// The client that asks.
    pub fn asking(&self) -> &Client {
        &self.clients[self.client]
    }

    /// The numbers of the public clients.
    pub fn public_clients(&self) -> Vec<usize> {
        (0..self.clients.len()).filter(|&client| self.clients[client].secret.is_none()).collect()
    }

    /// Registers the client that asks with another secret, or as a public one.
    pub fn register(&mut self, secret: Option<&[u8]>) {
        let mut clients = self.clients.to_vec();
        clients[self.client].secret = secret.map(<[u8]>::to_vec);
        self.clients = clients.into();
        self.registry = sample::registry(&self.clients);
        self.authenticate(self.client);
    }

    /// The call, its form and header written as a client library would.
    pub fn call(&self) -> Call {
        let write = |(name, value): &(Vec<u8>, Vec<u8>)| [writing::usual(name), writing::usual(value)].join(&b'=');
        self.finish(self.params.0.iter().map(write).collect(), self.header.written())
    }

    /// The call, its form and header written in one of the many other ways that mean the same.
    pub fn call_in_any_writing(&self, rng: &mut Rng) -> Call {
        let mut pieces = Vec::new();
        for (name, value) in &self.params.0 {
            let name = writing::any(name, writing::IN_NAME, rng);
            pieces.push([name, writing::any(value, writing::IN_VALUE, rng)].join(&b'='));
        }
        for _ in 0..rng.pick(&[0, 0, 1, 3]) {
            let meaningless = [
                "",
                "state=",
                "scope",
                "client_id=",
                "code=",
                "code_challenge=",
                "code_challenge_method",
                "code_verifier=",
                "token=",
                "token_type_hint",
                "=",
                "=x",
                "x",
                "nonce=1",
                "STATE=1",
                "state+=1",
            ];
            pieces.push(rng.pick(&meaningless).into());
        }
        rng.shuffle(&mut pieces);
        self.finish(pieces, self.header.in_any_writing(rng))
    }

    fn finish(&self, mut pieces: Vec<Vec<u8>>, header: Vec<u8>) -> Call {
        if !self.raw_piece.is_empty() {
            pieces.push(self.raw_piece.clone());
        }
        let mut form = pieces.join(&b'&');
        if form.len() < self.padded_to {
            form.push(b'&');
            form.resize(self.padded_to, b'p');
        }
        let request = match self.action {
            Action::Authorize => Request::Authorize { query: form, decision: self.decision, farm: self.farm },
            Action::Exchange | Action::Refresh | Action::ClientCredentials => Request::Token { header, body: form },
            Action::Revoke => Request::Revoke { header, body: form },
            Action::Check => Request::Check { token: self.token.clone() },
        };
        Call {
            request,
            registry: self.registry.clone(),
            clock: self.clock,
            random: self.random.clone(),
            output: self.output,
        }
    }
}
