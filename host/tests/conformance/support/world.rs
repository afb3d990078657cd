//! Random registries, stores and requests. Requests are mostly sound, with one or two things wrong, so that they get
//! past the first tests and reach the deep ones.

use std::sync::Arc;

use poplarchime_host::plain::form;
use poplarchime_host::sample::{self, Client, Slot};

use super::call::{credentials_in, Call, Request};
use super::compare::After;
use super::draft::{Action, Draft};
use super::faults::{faults, give_scope, present, Fault, Step};
use super::pkce;
use super::rng::Rng;
use super::tally::Tally;

const CLOCK_LIMIT: u64 = 1 << 40;

/// What is drawn. Exchanges have the most that can be wrong; revocations empty the store, so there are few of them.
const DRAWN: [Action; 13] = {
    use Action::*;
    [
        Authorize,
        Authorize,
        Exchange,
        Exchange,
        Exchange,
        Exchange,
        Refresh,
        Refresh,
        ClientCredentials,
        ClientCredentials,
        Revoke,
        Check,
        Check,
    ]
};

// What damage is done to a call.
const DAMAGED: &str = "damaged bytes";
const DAMAGED_CREDENTIALS: &str = "damaged credentials";
const UNCODED: &str = "credentials as they stand";
const DAMAGED_CHALLENGE: &str = "damaged challenge";
const DAMAGED_METHOD: &str = "damaged challenge method";
const DAMAGED_VERIFIER: &str = "damaged verifier";

/// What a store is like at the start of a sequence.
#[derive(Clone, Copy, Debug, PartialEq, Eq)]
pub enum Start {
    /// All zero, as at the first start of a host.
    Fresh,
    /// Some slots in use, some of them run out.
    PartlyFilled,
    /// A few slots short of full, nothing runs out soon.
    NearlyFull,
    /// No free slot, but all have run out or are about to.
    RunningOut,
    /// Fit, but not a store that calls could have left: few handles, in many slots of any kind and expiry.
    Odd,
}

impl Start {
    pub const ALL: [Start; 5] = [Start::Fresh, Start::PartlyFilled, Start::NearlyFull, Start::RunningOut, Start::Odd];
}

/// One registry, and a store that is carried from call to call.
pub struct World {
    pub clients: Arc<[Client]>,
    pub store: Vec<u8>,
    /// Odd stores take their handles from here.
    few_handles: Vec<[u8; 20]>,
    faults: [Vec<Fault>; Action::ALL.len()],
    /// Some of the calls that changed slots, to be made again.
    effective: Vec<(Action, Call)>,
    /// Some of the tokens that second showings and revocations have cleared, to be presented.
    withdrawn: Vec<Slot>,
}

/// A call, and the store that it is handed. It is the world's own unless a fault needed another.
pub struct Drawn {
    pub action: Action,
    pub call: Call,
    pub store: Vec<u8>,
    /// The draft had no fault and was not damaged.
    pub sound: bool,
}

impl World {
    pub fn new(clients: Vec<Client>, start: Start, rng: &mut Rng) -> World {
        let few_handles = match start {
            Start::Odd => [vec![[0; 20]], (0..7).map(|_| rng.handle()).collect()].concat(),
            _ => Vec::new(),
        };
        let mut world = World {
            clients: clients.into(),
            store: sample::empty_store(),
            few_handles,
            faults: Action::ALL.map(faults),
            effective: Vec::new(),
            withdrawn: Vec::new(),
        };
        world.fill(start, rng);
        world
    }

    fn fill(&mut self, start: Start, rng: &mut Rng) {
        if start == Start::Fresh {
            return;
        }
        let latest = rng.pick(&[0, 1_000, 1_700_000_000, CLOCK_LIMIT - 5_000]) + rng.below(100) as u64;
        sample::set_latest(&mut self.store, latest);
        let share = match start {
            Start::PartlyFilled | Start::Odd => rng.between(5, 95),
            _ => 100,
        };
        for number in 0..sample::SLOTS {
            if rng.chance(share) {
                let slot = self.random_slot(start, latest, rng);
                sample::set_slot(&mut self.store, number, slot);
            }
        }
        self.link_tokens(rng);
        if start == Start::NearlyFull {
            for _ in 0..rng.below(5) {
                sample::set_slot(&mut self.store, rng.below(sample::SLOTS), Slot::default());
            }
        }
    }

    fn random_slot(&self, start: Start, latest: u64, rng: &mut Rng) -> Slot {
        let soon = latest + rng.below(900) as u64;
        let expiry = match start {
            Start::PartlyFilled => {
                rng.pick(&[latest, latest.saturating_sub(1), latest + 1, soon, latest + 3_600, latest + 2_592_000])
            }
            Start::RunningOut => rng.pick(&[0, latest, latest + 1, latest + 2, latest + 3, soon]),
            Start::Odd => {
                rng.pick(&[0, latest, latest + 1, soon, CLOCK_LIMIT, CLOCK_LIMIT + 1, u64::MAX - 1, u64::MAX])
            }
            _ => rng.pick(&[latest + 500, latest + 3_600, latest + 2_592_000]),
        };
        let slot = Slot {
            kind: sample::ACCESS,
            handle: self.handle(rng),
            client: rng.below(self.clients.len()) as u8,
            farm: rng.pick(&[0, 1, 7, 0x0102_0304, u32::MAX]),
            scope: rng.between(1, 255) as u8,
            expiry,
            origin: self.handle(rng),
            behind_origin: [0; 12],
        };
        let slot = slot.turned(rng.pick(&sample::KINDS));
        match slot.has_challenge() && rng.chance(85) {
            true => slot.challenged(pkce::any_pair(rng).challenge),
            false => slot,
        }
    }

    fn handle(&self, rng: &mut Rng) -> [u8; 20] {
        match self.few_handles.is_empty() || rng.chance(20) {
            true => rng.handle(),
            false => rng.pick(&self.few_handles),
        }
    }

    /// Lets most tokens in the store come from codes in it.
    fn link_tokens(&mut self, rng: &mut Rng) {
        let slots: Vec<Slot> = sample::slots(&self.store).collect();
        let codes: Vec<&Slot> = slots.iter().filter(|slot| sample::CODES.contains(&slot.kind)).collect();
        for (number, &token) in slots.iter().enumerate() {
            if token.is_token() && !codes.is_empty() && rng.chance(80) {
                sample::set_slot(&mut self.store, number, Slot { origin: rng.pick(&codes).handle, ..token });
            }
        }
    }

    /// Changes a slot to something else that is fit, as no call would.
    pub fn disturb(&mut self, rng: &mut Rng) {
        let slot = self.random_slot(Start::Odd, sample::latest(&self.store), rng);
        sample::set_slot(&mut self.store, rng.below(sample::SLOTS), slot);
        let (from, to) = (rng.below(sample::SLOTS), rng.below(sample::SLOTS));
        let copy = sample::slot(&self.store, from);
        sample::set_slot(&mut self.store, to, copy);
    }

    /// The next call. Reasons that were put in are counted.
    pub fn draw(&self, rng: &mut Rng, reasons: &mut Tally) -> Drawn {
        if !self.effective.is_empty() && rng.chance(4) {
            return self.draw_again(rng, reasons);
        }
        let action = rng.pick(&DRAWN);
        let mut draft = self.sound_draft(action, rng);
        let sound = self.spoil(&mut draft, rng, reasons);
        let mut damage_done = if rng.chance(4) { damage_proof(&mut draft, rng) } else { None };
        let mut call = draft.call_in_any_writing(rng);
        if rng.chance(8) {
            damage_done = Some(damage(&mut call.request, rng));
        }
        if let Some(what) = damage_done {
            reasons.add(format!("{}: {what}", action.name()));
        }
        Drawn { action, call, store: draft.store, sound: sound && damage_done.is_none() }
    }

    /// A call that changed slots, once more: at another time and mostly with other random bytes.
    fn draw_again(&self, rng: &mut Rng, reasons: &mut Tally) -> Drawn {
        let (action, mut call) = self.effective[rng.below(self.effective.len())].clone();
        call.clock = self.choose_clock(0, rng);
        if rng.chance(90) {
            call.random.fill_with(|| rng.byte());
        }
        reasons.add(format!("{}: made again", action.name()));
        Drawn { action, call, store: self.store.clone(), sound: false }
    }

    /// Takes the store over that a call has left.
    pub fn carry(&mut self, drawn: Drawn, after: After, rng: &mut Rng) {
        self.store = after.store;
        if after.answer.issued() || !after.cleared.is_empty() {
            self.effective.truncate(20);
            self.effective.insert(rng.below(self.effective.len() + 1), (drawn.action, drawn.call));
        }
        self.withdrawn.splice(..0, after.cleared).for_each(drop);
        self.withdrawn.truncate(20);
    }

    /// Every reason that `draw` can count.
    pub fn reasons() -> Vec<String> {
        let mut reasons = Vec::new();
        for action in Action::ALL {
            reasons.extend(faults(action).iter().map(|fault| format!("{}: {}", action.name(), fault.reason)));
            reasons.push(format!("{}: {DAMAGED}", action.name()));
        }
        for action in Action::BY_CLIENTS {
            reasons.extend([DAMAGED_CREDENTIALS, UNCODED].map(|what| format!("{}: {what}", action.name())));
        }
        for action in Action::WRITING {
            reasons.push(format!("{}: made again", action.name()));
        }
        reasons.extend([DAMAGED_CHALLENGE, DAMAGED_METHOD].map(|what| format!("{}: {what}", Action::Authorize.name())));
        reasons.push(format!("{}: {DAMAGED_VERIFIER}", Action::Exchange.name()));
        reasons.sort();
        reasons.dedup();
        reasons
    }

    fn sound_draft(&self, action: Action, rng: &mut Rng) -> Draft {
        let slot = self.choose_slot(action, rng);
        let clock = self.choose_clock(slot, rng);
        let random = [self.random_for_issue(rng), self.random_for_issue(rng)].concat();
        match action {
            Action::Authorize => self.sound_authorization(clock, &random[..20], rng),
            Action::Exchange | Action::Refresh | Action::Revoke => {
                let mut draft = match action {
                    Action::Revoke => Draft::revoke(&self.clients, &self.store, clock, slot),
                    _ => Draft::token(action, &self.clients, &self.store, clock, slot, random),
                };
                self.present_withdrawn(&mut draft, rng);
                if rng.chance(5) {
                    draft.authenticate(rng.below(self.clients.len()));
                }
                draft
            }
            Action::ClientCredentials => {
                let client = self.choose_confidential(rng);
                let mut draft = Draft::client_credentials(&self.clients, &self.store, clock, client, random);
                if rng.chance(40) {
                    give_scope(&mut draft, rng);
                }
                draft
            }
            Action::Check => {
                let mut draft = Draft::check(&self.clients, &self.store, clock, slot);
                self.present_withdrawn(&mut draft, rng);
                draft
            }
        }
    }

    fn sound_authorization(&self, clock: u64, random: &[u8], rng: &mut Rng) -> Draft {
        let client = rng.below(self.clients.len());
        let mut draft = Draft::authorize(&self.clients, &self.store, clock, client, random);
        draft.farm = rng.between(1, u32::MAX as usize) as u32;
        if rng.chance(40) {
            draft.params.push("redirect_uri", &self.clients[client].redirect);
        }
        if rng.chance(40) {
            give_scope(&mut draft, rng);
        }
        if draft.asking().secret.is_none() || rng.chance(40) {
            draft.send_challenge(&pkce::any_pair(rng).challenge);
        }
        if rng.chance(60) {
            draft.params.push("state", rng.pick(&["xyz", "a b&c=d%", "~", "100%25"]));
        }
        draft
    }

    /// Now and then, presents a token that is no longer in the store.
    fn present_withdrawn(&self, draft: &mut Draft, rng: &mut Rng) {
        let kinds: &[u8] = match draft.action {
            Action::Check => &[sample::ACCESS],
            Action::Refresh => &[sample::REFRESH],
            Action::Revoke => &sample::TOKENS,
            _ => return,
        };
        let tokens: Vec<Slot> = self.withdrawn.iter().filter(|token| kinds.contains(&token.kind)).copied().collect();
        if !tokens.is_empty() && rng.chance(10) {
            let token = rng.pick(&tokens);
            present(draft, token.handle_text());
            draft.authenticate(token.client.into());
        }
    }

    /// A client that may ask for itself, if there is one; now and then any.
    fn choose_confidential(&self, rng: &mut Rng) -> usize {
        let mut clients: Vec<usize> = (0..self.clients.len()).collect();
        if rng.chance(90) && self.clients.iter().any(|client| client.secret.is_some()) {
            clients.retain(|&client| self.clients[client].secret.is_some());
        }
        rng.pick(&clients)
    }

    /// A slot that holds what the action presents, a live one if there is one; or else any slot. Some codes are spent,
    /// and some slots are of any kind.
    fn choose_slot(&self, action: Action, rng: &mut Rng) -> usize {
        let kinds: &[u8] = match action {
            Action::Authorize | Action::ClientCredentials => return 0,
            _ if rng.chance(2) => &sample::KINDS,
            Action::Exchange if rng.chance(25) => &[sample::SPENT],
            Action::Exchange => &sample::UNSPENT,
            Action::Refresh => &[sample::REFRESH],
            Action::Revoke => &sample::TOKENS,
            Action::Check => &[sample::ACCESS],
        };
        let latest = sample::latest(&self.store);
        let held = || sample::slots(&self.store).enumerate().filter(|(_, slot)| kinds.contains(&slot.kind));
        let live: Vec<usize> = held().filter(|(_, slot)| slot.is_live(latest)).map(|(number, _)| number).collect();
        let any: Vec<usize> = held().map(|(number, _)| number).collect();
        match (live.is_empty(), any.is_empty()) {
            (false, _) if rng.chance(90) => rng.pick(&live),
            (_, false) => rng.pick(&any),
            _ => rng.below(sample::SLOTS),
        }
    }

    /// Mostly the time goes on by a few seconds; now and then it goes back, or right to an expiry.
    fn choose_clock(&self, slot: usize, rng: &mut Rng) -> u64 {
        let latest = sample::latest(&self.store);
        let clock = match rng.below(100) {
            0..=3 => 0,
            4..=13 => latest.saturating_sub(rng.below(5_000) as u64),
            14..=19 => self.near_expiry(slot, rng),
            20..=23 => self.near_expiry(rng.below(sample::SLOTS), rng),
            24..=26 => latest + rng.below(4_000) as u64,
            27 => latest + rng.below(2_700_000) as u64,
            _ => latest + rng.below(4) as u64,
        };
        clock.min(CLOCK_LIMIT)
    }

    /// A clock around the expiry of a slot, unless that is years away.
    fn near_expiry(&self, slot: usize, rng: &mut Rng) -> u64 {
        let latest = sample::latest(&self.store);
        let clock = sample::slot(&self.store, slot).expiry.saturating_sub(1).saturating_add(rng.below(3) as u64);
        match clock < latest + 5_000_000 {
            true => clock,
            false => latest,
        }
    }

    fn random_for_issue(&self, rng: &mut Rng) -> [u8; 20] {
        let slot = sample::slot(&self.store, rng.below(sample::SLOTS));
        match slot.kind != sample::FREE && rng.chance(3) {
            true if (slot.is_token() || slot.has_challenge()) && rng.chance(50) => slot.origin,
            true => slot.handle,
            false if rng.chance(50) => rng.handle(),
            false => self.handle(rng),
        }
    }

    /// Puts in up to two oddities and up to two faults. Says whether there was no fault.
    fn spoil(&self, draft: &mut Draft, rng: &mut Rng, reasons: &mut Tally) -> bool {
        let faults = &self.faults[draft.action as usize];
        let mut steps = Vec::new();
        for _ in 0..rng.pick(&[0, 0, 0, 1, 1, 1, 2]) {
            steps.push(choose_step(faults, rng));
        }
        steps.retain(|&step| step != Step::Harmless);
        steps.dedup();
        let sound = steps.is_empty();
        steps.extend(vec![Step::Harmless; rng.below(3)]);
        // Later steps first: an earlier one has the last word, and may leave buffers that cannot be edited.
        steps.sort_by(|one, other| other.cmp(one));
        for step in steps {
            let choices: Vec<&Fault> = faults.iter().filter(|fault| fault.step == step).collect();
            let fault = rng.pick(&choices);
            fault.apply(draft, rng);
            reasons.add(format!("{}: {}", draft.action.name(), fault.reason));
        }
        sound
    }
}

/// One of the steps that the faults are at, those with many reasons more often.
fn choose_step(faults: &[Fault], rng: &mut Rng) -> Step {
    let mut steps: Vec<Step> = faults.iter().map(|fault| fault.step).collect();
    if rng.chance(75) {
        steps.sort();
        steps.dedup();
    }
    rng.pick(&steps)
}

/// Damages the challenge, its method or the verifier before it is written, if the request has one. Says which.
fn damage_proof(draft: &mut Draft, rng: &mut Rng) -> Option<&'static str> {
    let (name, what) = match draft.action {
        Action::Authorize if rng.chance(70) => ("code_challenge", DAMAGED_CHALLENGE),
        Action::Authorize => ("code_challenge_method", DAMAGED_METHOD),
        Action::Exchange => ("code_verifier", DAMAGED_VERIFIER),
        _ => return None,
    };
    let mut value = draft.params.get(name)?.to_vec();
    damage_bytes(&mut value, rng);
    draft.params.set(name, value);
    Some(what)
}

/// Damages what the outside sent: the credentials in a header before base64, or any bytes. Says which.
fn damage(request: &mut Request, rng: &mut Rng) -> &'static str {
    if let Request::Token { header, .. } | Request::Revoke { header, .. } = request {
        if let Some(credentials) = credentials_in(header).filter(|_| rng.chance(40)) {
            let (credentials, what) = damage_credentials(credentials, rng);
            *header = sample::basic_header_of(&credentials);
            return what;
        }
    }
    let bytes = match request {
        Request::Authorize { query, .. } => query,
        Request::Token { header, body } | Request::Revoke { header, body } => match rng.chance(50) {
            true => header,
            false => body,
        },
        Request::Check { token } => token,
    };
    damage_bytes(bytes, rng);
    DAMAGED
}

/// Damages credentials, or takes the coding off them, so that they are sent as they stand.
fn damage_credentials(mut credentials: Vec<u8>, rng: &mut Rng) -> (Vec<u8>, &'static str) {
    match form::decode(&credentials) {
        Ok(uncoded) if rng.chance(30) => (uncoded, UNCODED),
        _ => {
            damage_bytes(&mut credentials, rng);
            (credentials, DAMAGED_CREDENTIALS)
        }
    }
}

/// Changes, drops, inserts or repeats a few bytes.
fn damage_bytes(bytes: &mut Vec<u8>, rng: &mut Rng) {
    for _ in 0..rng.between(1, 3) {
        let at = rng.below(bytes.len() + 1);
        let byte = rng.pick(b"&&==%%++ 09afAF:z\0\x7f\xff");
        match rng.below(5) {
            0 if at < bytes.len() => bytes[at] = byte,
            1 if at < bytes.len() => drop(bytes.remove(at)),
            2 => bytes.truncate(at),
            3 => {
                let tail = bytes[at..].to_vec();
                bytes.extend(tail);
            }
            _ => bytes.insert(at, byte),
        }
    }
}

/// Random clients with ids, redirects and secrets of every length and byte allowed.
pub fn random_clients(count: usize, rng: &mut Rng) -> Vec<Client> {
    let mut clients: Vec<Client> = Vec::new();
    while clients.len() < count {
        let id = random_text(rng, &[1, 2, 9, 31, 32], 0x20, b':');
        let redirect = match rng.chance(20) {
            true => random_text(rng, &[1, 2, 50, 199, 200], 0x21, b'#'),
            false => [&b"https://"[..], &random_text(rng, &[1, 20, 191, 192], 0x21, b'#')].concat(),
        };
        let secret = rng.chance(60).then(|| random_text(rng, &[1, 2, 20, 63, 64], 0x20, 0));
        if clients.iter().all(|other| other.id != id) {
            clients.push(Client { id, redirect, scope: rng.between(1, 255) as u8, secret });
        }
    }
    clients
}

/// Of one of the lengths, bytes from the lowest to 7e but for one. Some texts have only such as coding is about.
fn random_text(rng: &mut Rng, lengths: &[usize], lowest: u8, without: u8) -> Vec<u8> {
    let mut allowed: Vec<u8> = (lowest..=0x7e).filter(|&byte| byte != without).collect();
    if rng.chance(30) {
        allowed.retain(|byte| b" +%&=:;24afAF".contains(byte));
    }
    (0..rng.pick(lengths)).map(|_| rng.pick(&allowed)).collect()
}
