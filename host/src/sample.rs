//! Registries and stores to try things with: the papers' two clients, builders, and crowds of clients and slots.
//!
//! The layout is written out here once more, apart from the plain program's.

/// A client to be registered.
#[derive(Clone, Debug, PartialEq, Eq)]
pub struct Client {
    pub id: Vec<u8>,
    pub redirect: Vec<u8>,
    pub scope: u8,
    /// Confidential clients have one.
    pub secret: Option<Vec<u8>>,
}

impl Client {
    pub fn public(id: &str, redirect: &str, scope: u8) -> Client {
        Client { id: id.into(), redirect: redirect.into(), scope, secret: None }
    }

    pub fn confidential(id: &str, secret: &str, redirect: &str, scope: u8) -> Client {
        Client { secret: Some(secret.into()), ..Client::public(id, redirect, scope) }
    }

    /// The client's record: 236 bytes, or 301 for a confidential one.
    pub fn record(&self) -> Vec<u8> {
        let mut record = vec![if self.secret.is_some() { 2 } else { 1 }];
        push_text(&mut record, &self.id, 32);
        push_text(&mut record, &self.redirect, 200);
        record.push(self.scope);
        if let Some(secret) = &self.secret {
            push_text(&mut record, secret, 64);
        }
        record
    }
}

fn push_text(record: &mut Vec<u8>, text: &[u8], width: usize) {
    record.push(u8::try_from(text.len()).expect("a text that fits its field"));
    record.extend_from_slice(text);
    record.extend(vec![0; width - text.len()]);
}

pub fn registry(clients: &[Client]) -> Vec<u8> {
    clients.iter().flat_map(Client::record).collect()
}

/// Client 0 and client 1 of the papers' written-out visit.
pub fn visit_clients() -> Vec<Client> {
    vec![
        Client::confidential("s6BhdRkqt3", "gX1fBat3bV", "https://client.example.com/cb", 11),
        Client::public("barnapp", "https://barn.example/r?x=1", 1),
    ]
}

/// So many clients, every third one public.
pub fn crowd(clients: usize) -> Vec<Client> {
    let client = |number: usize| {
        let (id, redirect) = (format!("client-{number:02}"), format!("https://app{number}.example/callback"));
        match number % 3 {
            2 => Client::public(&id, &redirect, 255),
            _ => Client::confidential(&id, &format!("secret of {id}"), &redirect, 255),
        }
    };
    (0..clients).map(client).collect()
}

pub const SLOTS: usize = 900;
pub const SLOT_SIZE: usize = 67;
pub const STORE_SIZE: usize = 8 + SLOTS * SLOT_SIZE;
/// The sizes of stores from before versions 0.6.0, 0.5.0 and 0.4.0. The first had the slots of today, but fewer.
pub const FORMER_SIZES: [usize; 3] = [34_312, 28_168, 17_928];
pub const FORMER_SLOTS: usize = 512;
/// Where the origin or the challenge begins in a slot.
pub const ORIGIN: usize = 35;
/// Where the bytes behind an origin begin.
pub const BEHIND_ORIGIN: usize = 55;

// The kinds of a slot.
pub const FREE: u8 = 0;
pub const CODE: u8 = 1;
pub const BOUND_CODE: u8 = 2;
pub const ACCESS: u8 = 3;
pub const REFRESH: u8 = 4;
pub const SPENT: u8 = 5;
pub const CHALLENGED_CODE: u8 = 6;
pub const BOUND_CHALLENGED_CODE: u8 = 7;
/// The kinds of a slot in use.
pub const KINDS: [u8; 7] = [CODE, BOUND_CODE, ACCESS, REFRESH, SPENT, CHALLENGED_CODE, BOUND_CHALLENGED_CODE];
pub const TOKENS: [u8; 2] = [ACCESS, REFRESH];
pub const CODES: [u8; 5] = [CODE, BOUND_CODE, SPENT, CHALLENGED_CODE, BOUND_CHALLENGED_CODE];
/// The codes that can be exchanged.
pub const UNSPENT: [u8; 4] = [CODE, BOUND_CODE, CHALLENGED_CODE, BOUND_CHALLENGED_CODE];
/// Those that hold zeros where others hold an origin or a challenge.
pub const ZERO_ENDED: [u8; 3] = [CODE, BOUND_CODE, SPENT];

/// What a slot holds. A free one holds nothing but zeros.
#[derive(Clone, Copy, Debug, Default, PartialEq, Eq)]
pub struct Slot {
    pub kind: u8,
    pub handle: [u8; 20],
    pub client: u8,
    pub farm: u32,
    pub scope: u8,
    pub expiry: u64,
    /// The code that a token came from; the first bytes of a challenge; zeros in other codes.
    pub origin: [u8; 20],
    /// The other bytes of a challenge; zeros in all else.
    pub behind_origin: [u8; 12],
}

impl Slot {
    /// A slot of client 0 for farm 1 and the scope `power`, without an origin, and with a challenge of zeros.
    pub fn of(kind: u8, handle: [u8; 20], expiry: u64) -> Slot {
        Slot { kind, handle, client: 0, farm: 1, scope: 1, expiry, ..Slot::default() }
    }

    /// The same as a slot of another kind: it loses what that kind does not hold.
    pub fn turned(self, kind: u8) -> Slot {
        let origin = if ZERO_ENDED.contains(&kind) { [0; 20] } else { self.origin };
        let behind_origin = if has_challenge(kind) { self.behind_origin } else { [0; 12] };
        Slot { kind, origin, behind_origin, ..self }
    }

    /// The same code, to be exchanged with or without redirect_uri.
    pub fn bound(self, bound: bool) -> Slot {
        self.turned(code_kind(bound, self.has_challenge()))
    }

    /// The same code with this challenge, bound if it was.
    pub fn challenged(self, challenge: [u8; 32]) -> Slot {
        let (origin, behind_origin) = challenge.split_at(20);
        Slot {
            kind: code_kind(self.is_bound(), true),
            origin: origin.try_into().expect("twenty bytes"),
            behind_origin: behind_origin.try_into().expect("twelve bytes"),
            ..self
        }
    }

    pub fn is_bound(&self) -> bool {
        self.kind == BOUND_CODE || self.kind == BOUND_CHALLENGED_CODE
    }

    pub fn has_challenge(&self) -> bool {
        has_challenge(self.kind)
    }

    /// The last bytes of the slot, which are the challenge of a code that has one.
    pub fn challenge(&self) -> [u8; 32] {
        [&self.origin[..], &self.behind_origin].concat().try_into().expect("32 bytes")
    }

    pub fn is_token(&self) -> bool {
        TOKENS.contains(&self.kind)
    }

    pub fn is_live(&self, now: u64) -> bool {
        self.kind != FREE && now < self.expiry
    }

    /// The handle as it is shown to the outside.
    pub fn handle_text(&self) -> String {
        hex(&self.handle)
    }
}

fn has_challenge(kind: u8) -> bool {
    kind == CHALLENGED_CODE || kind == BOUND_CHALLENGED_CODE
}

/// The kind of a code that was asked for with or without redirect_uri and challenge.
pub fn code_kind(bound: bool, challenged: bool) -> u8 {
    match (bound, challenged) {
        (false, false) => CODE,
        (true, false) => BOUND_CODE,
        (false, true) => CHALLENGED_CODE,
        (true, true) => BOUND_CHALLENGED_CODE,
    }
}

pub fn empty_store() -> Vec<u8> {
    vec![0; STORE_SIZE]
}

pub fn latest(store: &[u8]) -> u64 {
    u64::from_be_bytes(store[..8].try_into().expect("eight bytes"))
}

pub fn set_latest(store: &mut [u8], time: u64) {
    store[..8].copy_from_slice(&time.to_be_bytes());
}

pub fn slot(store: &[u8], number: usize) -> Slot {
    let bytes = &store[slot_range(number)];
    Slot {
        kind: bytes[0],
        handle: bytes[1..21].try_into().expect("twenty bytes"),
        client: bytes[21],
        farm: u32::from_be_bytes(bytes[22..26].try_into().expect("four bytes")),
        scope: bytes[26],
        expiry: u64::from_be_bytes(bytes[27..ORIGIN].try_into().expect("eight bytes")),
        origin: bytes[ORIGIN..BEHIND_ORIGIN].try_into().expect("twenty bytes"),
        behind_origin: bytes[BEHIND_ORIGIN..].try_into().expect("twelve bytes"),
    }
}

pub fn set_slot(store: &mut [u8], number: usize, slot: Slot) {
    let bytes = &mut store[slot_range(number)];
    bytes[0] = slot.kind;
    bytes[1..21].copy_from_slice(&slot.handle);
    bytes[21] = slot.client;
    bytes[22..26].copy_from_slice(&slot.farm.to_be_bytes());
    bytes[26] = slot.scope;
    bytes[27..ORIGIN].copy_from_slice(&slot.expiry.to_be_bytes());
    bytes[ORIGIN..BEHIND_ORIGIN].copy_from_slice(&slot.origin);
    bytes[BEHIND_ORIGIN..].copy_from_slice(&slot.behind_origin);
}

pub fn slots(store: &[u8]) -> impl Iterator<Item = Slot> + '_ {
    (0..SLOTS).map(|number| slot(store, number))
}

/// Where a slot's bytes stand in the store.
pub fn slot_range(number: usize) -> std::ops::Range<usize> {
    let start = 8 + number * SLOT_SIZE;
    start..start + SLOT_SIZE
}

pub fn hex(bytes: &[u8]) -> String {
    bytes.iter().map(|byte| format!("{byte:02x}")).collect()
}

/// The value of an Authorization header with these halves as they stand: an id or secret with a `%` or `+` in it must
/// come form-coded (RFC 6749 section 2.3.1).
pub fn basic_header(id: &[u8], secret: &[u8]) -> Vec<u8> {
    basic_header_of(&[id, b":", secret].concat())
}

/// The value of an Authorization header of the Basic scheme that holds these bytes (RFC 7617).
pub fn basic_header_of(contents: &[u8]) -> Vec<u8> {
    [b"Basic ", base64(contents).as_bytes()].concat()
}

pub fn base64(bytes: &[u8]) -> String {
    const DIGITS: &[u8; 64] = b"ABCDEFGHIJKLMNOPQRSTUVWXYZabcdefghijklmnopqrstuvwxyz0123456789+/";
    let mut text = String::new();
    for group in bytes.chunks(3) {
        let bits = group.iter().fold(0_usize, |bits, &byte| bits << 8 | usize::from(byte)) << (8 * (3 - group.len()));
        for place in 0..4 {
            text.push(match place <= group.len() {
                true => DIGITS[bits >> (18 - 6 * place) & 63].into(),
                false => '=',
            });
        }
    }
    text
}

/// Base64url without padding (RFC 4648 section 5).
pub fn base64url(bytes: &[u8]) -> String {
    base64(bytes).trim_end_matches('=').replace('+', "-").replace('/', "_")
}

#[cfg(test)]
mod tests {
    use super::*;

    #[test]
    fn records_have_the_papers_lengths() {
        let clients = visit_clients();
        assert_eq!(clients[0].record().len(), 301);
        assert_eq!(clients[1].record().len(), 236);
        assert_eq!(slot_range(SLOTS - 1).end, STORE_SIZE);
        assert_eq!(slot_range(FORMER_SLOTS - 1).end, FORMER_SIZES[0]);
    }

    #[test]
    fn a_slot_reads_back() {
        let mut store = empty_store();
        let entry = Slot { client: 1, farm: 2, scope: 3, origin: [5; 20], ..Slot::of(ACCESS, [7; 20], 4) };
        set_slot(&mut store, SLOTS - 1, entry);
        assert_eq!(slot(&store, SLOTS - 1), entry);
        assert_eq!(store.iter().filter(|&&byte| byte != 0).count(), 1 + 20 + 4 + 20);
        let code = entry.turned(BOUND_CODE).challenged([6; 32]);
        set_slot(&mut store, SLOTS - 1, code);
        assert_eq!(slot(&store, SLOTS - 1), code);
        assert_eq!((code.kind, code.challenge()), (BOUND_CHALLENGED_CODE, [6; 32]));
        assert_eq!(store.iter().filter(|&&byte| byte != 0).count(), 1 + 20 + 4 + 32);
    }

    #[test]
    fn the_header_of_rfc_6749() {
        assert_eq!(basic_header(b"s6BhdRkqt3", b"gX1fBat3bV"), b"Basic czZCaGRSa3F0MzpnWDFmQmF0M2JW");
        assert_eq!(base64(b"f"), "Zg==");
        assert_eq!(base64(b"fo"), "Zm8=");
        assert_eq!(base64url(&[0xfb, 0xff, 0xbf, 0xff]), "-_-__w");
    }
}
