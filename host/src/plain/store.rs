//! The token store: the high-water mark of the clock, then the slots, worked on in place.

use super::handle::{Handle, HANDLE_SIZE};
use super::scope::ScopeSet;
use super::sha256::{Digest, DIGEST_SIZE};
use super::CLOCK_LIMIT;

pub const SLOTS: usize = 900;
pub const TIME_SIZE: usize = 8;
pub const SLOT_SIZE: usize = CHALLENGE + DIGEST_SIZE;
pub const STORE_SIZE: usize = TIME_SIZE + SLOTS * SLOT_SIZE;

// Where the fields of a slot begin, behind its kind.
const HANDLE: usize = 1;
const CLIENT: usize = HANDLE + HANDLE_SIZE;
const FARM: usize = CLIENT + 1;
const SCOPE: usize = FARM + 4;
const EXPIRY: usize = SCOPE + 1;
/// Of a code with a challenge, its challenge; of a token, its origin and then zeros; of others, zeros.
const CHALLENGE: usize = EXPIRY + 8;
const ORIGIN: usize = CHALLENGE;
const ORIGIN_END: usize = ORIGIN + HANDLE_SIZE;

const FREE: u8 = 0;
const FREE_SLOT: [u8; SLOT_SIZE] = [0; SLOT_SIZE];

/// What a slot in use holds.
#[derive(Clone, Copy, Debug, PartialEq, Eq)]
pub enum Kind {
    /// A code that was asked for without redirect_uri.
    Code = 1,
    /// A code that was asked for with redirect_uri; the exchange must repeat it.
    BoundCode = 2,
    Access = 3,
    Refresh = 4,
    /// A code that was exchanged. It is kept for as long as it would have lived, so that a second showing is noticed.
    Spent = 5,
    /// A code that was asked for with a challenge; the exchange must bring its verifier.
    ChallengedCode = 6,
    /// A code that was asked for with both.
    BoundChallengedCode = 7,
}

impl Kind {
    /// The codes that can be exchanged.
    pub const UNSPENT: [Kind; 4] = [Kind::Code, Kind::BoundCode, Kind::ChallengedCode, Kind::BoundChallengedCode];

    pub const TOKENS: [Kind; 2] = [Kind::Access, Kind::Refresh];

    /// The kind of a code, by what it was asked for with.
    pub fn of_code(redirect_uri: bool, challenge: bool) -> Kind {
        match (redirect_uri, challenge) {
            (false, false) => Kind::Code,
            (true, false) => Kind::BoundCode,
            (false, true) => Kind::ChallengedCode,
            (true, true) => Kind::BoundChallengedCode,
        }
    }

    fn of_number(number: u8) -> Option<Kind> {
        match number {
            1 => Some(Kind::Code),
            2 => Some(Kind::BoundCode),
            3 => Some(Kind::Access),
            4 => Some(Kind::Refresh),
            5 => Some(Kind::Spent),
            6 => Some(Kind::ChallengedCode),
            7 => Some(Kind::BoundChallengedCode),
            _ => None,
        }
    }

    /// How long it lives from its issue, in seconds.
    pub fn lifetime(self) -> u64 {
        match self {
            Kind::Code | Kind::BoundCode | Kind::Spent | Kind::ChallengedCode | Kind::BoundChallengedCode => 600,
            Kind::Access => 3_600,
            Kind::Refresh => 2_592_000,
        }
    }

    /// Whether the exchange must repeat redirect_uri.
    pub fn is_bound(self) -> bool {
        matches!(self, Kind::BoundCode | Kind::BoundChallengedCode)
    }

    fn has_challenge(self) -> bool {
        matches!(self, Kind::ChallengedCode | Kind::BoundChallengedCode)
    }

    fn is_token(self) -> bool {
        matches!(self, Kind::Access | Kind::Refresh)
    }
}

/// The farm of what a client is granted for itself: there is no owner to ask.
pub const NO_FARM: u32 = 0;

/// What an issue grants: the client, the farm whose owner allowed it, and the scope.
#[derive(Clone, Copy, Debug, PartialEq, Eq)]
pub struct Grant {
    pub client: usize,
    pub farm: u32,
    pub scope: ScopeSet,
}

/// A slot in use.
#[derive(Clone, Copy, Debug, PartialEq, Eq)]
pub struct Entry {
    pub kind: Kind,
    pub grant: Grant,
    pub expiry: u64,
    /// The code that a token came from, itself or through a refresh token; of a client's token for itself, the token.
    pub origin: Option<Handle>,
    /// What the verifier's digest must be when a code is exchanged.
    pub challenge: Option<Digest>,
}

/// A fit store.
pub struct Store<'a> {
    bytes: &'a mut [u8; STORE_SIZE],
}

impl<'a> Store<'a> {
    /// The store in these bytes, if they are fit for a registry of so many clients.
    pub fn open(bytes: &'a mut [u8], clients: usize) -> Option<Store<'a>> {
        let store = Store { bytes: bytes.try_into().ok()? };
        let fit = store.latest() <= CLOCK_LIMIT && store.slots().all(|slot| is_fit(slot, clients));
        fit.then_some(store)
    }

    /// The high-water mark: the latest time that any call has seen.
    pub fn latest(&self) -> u64 {
        big_endian_64(&self.bytes[..TIME_SIZE])
    }

    pub fn set_latest(&mut self, time: u64) {
        self.bytes[..TIME_SIZE].copy_from_slice(&time.to_be_bytes());
    }

    /// The lowest slot of one of the kinds that has this handle, whether it has run out or not.
    pub fn find(&self, kinds: &[Kind], handle: &Handle) -> Option<(usize, Entry)> {
        let number = self.slots().position(|slot| is_of(slot, kinds) && slot[HANDLE..CLIENT] == handle[..])?;
        Some((number, self.entry(number)?))
    }

    /// How many slots are free or have run out.
    pub fn room(&self, now: u64) -> usize {
        self.slots().filter(|slot| is_vacant(slot, now)).count()
    }

    /// Whether any slot in use, run out or not, has this handle.
    pub fn has_handle(&self, handle: &Handle) -> bool {
        self.slots().any(|slot| slot[0] != FREE && slot[HANDLE..CLIENT] == handle[..])
    }

    /// Puts a code into the lowest slot that is free or has run out. There must be one.
    pub fn issue_code(
        &mut self,
        handle: &Handle,
        grant: &Grant,
        redirect_uri: bool,
        challenge: Option<&Digest>,
        now: u64,
    ) {
        let slot = self.issue(Kind::of_code(redirect_uri, challenge.is_some()), handle, grant, now);
        if let Some(challenge) = challenge {
            slot[CHALLENGE..].copy_from_slice(challenge);
        }
    }

    /// Puts an access or refresh token into the lowest slot that is free or has run out. There must be one.
    pub fn issue_token(&mut self, kind: Kind, handle: &Handle, grant: &Grant, origin: &Handle, now: u64) {
        self.issue(kind, handle, grant, now)[ORIGIN..ORIGIN_END].copy_from_slice(origin);
    }

    /// Fills a slot but for its last bytes, which are zero then.
    fn issue(&mut self, kind: Kind, handle: &Handle, grant: &Grant, now: u64) -> &mut [u8] {
        let number = self.slots().position(|slot| is_vacant(slot, now)).expect("room was counted before");
        let slot = self.slot_mut(number);
        slot[0] = kind as u8;
        slot[HANDLE..CLIENT].copy_from_slice(handle);
        slot[CLIENT] = grant.client as u8;
        slot[FARM..SCOPE].copy_from_slice(&grant.farm.to_be_bytes());
        slot[SCOPE] = grant.scope.0;
        slot[EXPIRY..CHALLENGE].copy_from_slice(&(now + kind.lifetime()).to_be_bytes());
        slot[CHALLENGE..].fill(0);
        slot
    }

    /// Marks the code in this slot as exchanged and drops its challenge; all else that the slot holds stays.
    pub fn spend(&mut self, number: usize) {
        let slot = self.slot_mut(number);
        slot[0] = Kind::Spent as u8;
        slot[CHALLENGE..].fill(0);
    }

    /// Makes the slot free.
    pub fn clear(&mut self, number: usize) {
        self.slot_mut(number).fill(0);
    }

    /// Clears every token of these kinds and this origin, whoever's it is, run out or not.
    pub fn clear_tokens(&mut self, kinds: &[Kind], origin: &Handle) {
        for slot in self.bytes[TIME_SIZE..].chunks_exact_mut(SLOT_SIZE) {
            // Of a code, a challenge may begin with the same bytes.
            if is_of(slot, kinds) && slot[ORIGIN..ORIGIN_END] == origin[..] {
                slot.fill(0);
            }
        }
    }

    fn slots(&self) -> std::slice::ChunksExact<'_, u8> {
        self.bytes[TIME_SIZE..].chunks_exact(SLOT_SIZE)
    }

    fn slot_mut(&mut self, number: usize) -> &mut [u8] {
        &mut self.bytes[TIME_SIZE + number * SLOT_SIZE..][..SLOT_SIZE]
    }

    fn entry(&self, number: usize) -> Option<Entry> {
        let slot = &self.bytes[TIME_SIZE + number * SLOT_SIZE..][..SLOT_SIZE];
        let kind = Kind::of_number(slot[0])?;
        let grant = Grant {
            client: slot[CLIENT].into(),
            farm: u32::from_be_bytes(slot[FARM..SCOPE].try_into().expect("four bytes")),
            scope: ScopeSet(slot[SCOPE]),
        };
        let origin = slot[ORIGIN..ORIGIN_END].try_into().expect("twenty bytes");
        let challenge = slot[CHALLENGE..].try_into().expect("32 bytes");
        Some(Entry {
            kind,
            grant,
            expiry: expiry(slot),
            origin: kind.is_token().then_some(origin),
            challenge: kind.has_challenge().then_some(challenge),
        })
    }
}

fn is_fit(slot: &[u8], clients: usize) -> bool {
    let zero_from = |start: usize| slot[start..] == FREE_SLOT[start..];
    if slot[0] == FREE {
        return zero_from(0);
    }
    let fit_ending = match Kind::of_number(slot[0]) {
        None => return false,
        Some(kind) if kind.has_challenge() => true,
        Some(kind) if kind.is_token() => zero_from(ORIGIN_END),
        Some(_) => zero_from(CHALLENGE),
    };
    usize::from(slot[CLIENT]) < clients && slot[SCOPE] != 0 && fit_ending
}

/// Whether the slot holds something of one of these kinds.
fn is_of(slot: &[u8], kinds: &[Kind]) -> bool {
    kinds.iter().any(|&kind| slot[0] == kind as u8)
}

fn is_vacant(slot: &[u8], now: u64) -> bool {
    slot[0] == FREE || now >= expiry(slot)
}

fn expiry(slot: &[u8]) -> u64 {
    big_endian_64(&slot[EXPIRY..CHALLENGE])
}

fn big_endian_64(bytes: &[u8]) -> u64 {
    u64::from_be_bytes(bytes.try_into().expect("eight bytes"))
}
