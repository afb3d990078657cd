//! How long the exported endpoints take, next to the plain program: `cargo run --offline --release --bin benchmark`.
//!
//! The ratio is what counts: a busy machine slows both alike.

use std::hint::black_box;
use std::time::Instant;

use poplarchime_host::measuring::medians;
use poplarchime_host::plain::sha256;
use poplarchime_host::program::{Program, EXPORTS, PLAIN};
use poplarchime_host::sample::{self, Client, Slot};

const NOW: u64 = 1_000_000;
const ROUNDS: usize = 101;
const STEP_ROUNDS: usize = 1_001;
/// Calls in a row; their time is taken together.
const BATCH: usize = 40;

/// Where the code and the refresh token stand, and the slots behind it, which have run out and are taken.
const PRESENTED: usize = sample::SLOTS - 3;
const BEHIND: [usize; 2] = [sample::SLOTS - 2, sample::SLOTS - 1];

/// How many slots are in use where growth is shown: from none to all, in equal steps.
const STEP: usize = sample::SLOTS / 4;
const FILLS: [usize; 5] = [0, STEP, 2 * STEP, 3 * STEP, sample::SLOTS];
const NOWHERE: &str = "check, token nowhere";

/// The longest verifier that there is, and the names of the rows in which it or its challenge plays a part.
const VERIFIER: [u8; 128] = [b'v'; 128];
const WITH_CHALLENGE: &str = "authorize with a challenge";
const WITH_VERIFIER: &str = "exchange with a verifier";

/// Revocations of a token that is in no slot, and of a refresh token with two access tokens.
const UNKNOWN_REVOKED: &str = "revocation, token nowhere";
const FAMILY_REVOKED: &str = "revocation of three tokens";

/// A call that is made again and again.
struct Case {
    name: &'static str,
    request: Request,
    registry: Vec<u8>,
    /// The store before each call.
    store: Vec<u8>,
}

enum Request {
    Check(String),
    Authorize(String),
    Token(Vec<u8>, String),
    /// The exchange of a code that is spent.
    SecondShowing(Vec<u8>, String),
    Revoke(Vec<u8>, String),
}

impl Case {
    /// Makes the call. True if it was answered as the case means it to be.
    fn call(&self, program: &Program, store: &mut [u8], output: &mut [u8]) -> bool {
        let registry = black_box(&self.registry[..]);
        match black_box(&self.request) {
            Request::Check(token) => {
                let expected = u32::from(!self.name.contains("nowhere"));
                (program.check)(token.as_bytes(), registry, store, NOW).live == expected
            }
            Request::Authorize(query) => {
                let random = &RANDOM[..20];
                let answer = (program.authorize)(query.as_bytes(), 1, 7, registry, store, NOW, random, output);
                answer.error == 0 && answer.length > 0
            }
            Request::Token(header, body) => {
                (program.token)(header, body.as_bytes(), registry, store, NOW, &RANDOM, output).status == 200
            }
            Request::SecondShowing(header, body) => {
                let reply = (program.token)(header, body.as_bytes(), registry, store, NOW, &RANDOM, output);
                reply.status == 400 && is_free(store, BEHIND[1])
            }
            Request::Revoke(header, body) => {
                let reply = (program.revoke)(header, body.as_bytes(), registry, store, NOW, output);
                reply.status == 200 && is_free(store, PRESENTED) != (self.name == UNKNOWN_REVOKED)
            }
        }
    }

    /// Nanoseconds for one call, over a batch.
    fn time(&self, program: &Program, store: &mut [u8], output: &mut [u8]) -> f64 {
        let changed = sample::slot_range(PRESENTED).start..sample::STORE_SIZE;
        let start = Instant::now();
        for _ in 0..BATCH {
            black_box(self.call(program, store, output));
            store[changed.clone()].copy_from_slice(&self.store[changed.clone()]);
        }
        start.elapsed().as_nanos() as f64 / BATCH as f64
    }
}

fn is_free(store: &[u8], slot: usize) -> bool {
    store[sample::slot_range(slot).start] == sample::FREE
}

const RANDOM: [u8; 40] = {
    let mut random = [0xf0; 40];
    let mut at = 0;
    while at < 40 {
        random[at] = 0xc0 + at as u8;
        at += 1;
    }
    random
};

/// Median nanoseconds of the exports and of the plain program, for every case.
fn measure(cases: &[Case], rounds: usize) -> Vec<(f64, f64)> {
    let mut turns: Vec<(usize, &Program)> = Vec::new();
    for number in 0..cases.len() {
        turns.extend([(number, &EXPORTS), (number, &PLAIN)]);
    }
    let mut stores: Vec<Vec<u8>> = turns.iter().map(|&(number, _)| cases[number].store.clone()).collect();
    let mut output = vec![0; 1024];
    for (turn, store) in turns.iter().zip(&stores) {
        let answered = cases[turn.0].call(turn.1, &mut store.clone(), &mut output);
        assert!(answered, "'{}' is not answered as it should be", cases[turn.0].name);
    }
    let times = medians(rounds, turns.len(), |turn| {
        let (number, program) = turns[turn];
        cases[number].time(program, &mut stores[turn], &mut output)
    });
    times.chunks(2).map(|pair| (pair[0], pair[1])).collect()
}

// ---- registries and stores

/// Confidential clients. Short fields are what a portal is likely to have; full ones are as long as they may be.
fn clients(count: usize, full: bool) -> Vec<Client> {
    let client = |number: usize| match full {
        false => Client::confidential(
            &format!("client-{number:02}"),
            "a secret of 20 bytes",
            &format!("https://app{number:02}.example/callback"),
            255,
        ),
        true => Client {
            id: format!("a client with a very long id {number:03}").into(),
            redirect: format!("https://app{number:02}.example/{:r<177}", "").into(),
            scope: 255,
            secret: Some(vec![b's'; 64]),
        },
    };
    (0..count).map(client).collect()
}

fn handle(number: usize) -> [u8; 20] {
    let mut handle = [0x5a; 20];
    handle[18..].copy_from_slice(&(number as u16).to_be_bytes());
    handle
}

/// So many live access tokens from the first slot on.
fn store(live: usize, clients: usize) -> Vec<u8> {
    let mut store = sample::empty_store();
    sample::set_latest(&mut store, NOW);
    for number in 0..live {
        sample::set_slot(&mut store, number, slot(sample::ACCESS, number, number % clients));
    }
    store
}

/// A live slot. A token is its own origin; a challenge is that of the verifier.
fn slot(kind: u8, number: usize, client: usize) -> Slot {
    let (client, origin) = (client as u8, handle(number));
    let slot = Slot { client, farm: 7, scope: 9, origin, ..Slot::of(kind, handle(number), NOW + 1) };
    match slot.has_challenge() {
        true => slot.challenged(sha256::digest(&VERIFIER)),
        false => slot.turned(kind),
    }
}

fn check_case(name: &'static str, clients: &[Client], live: usize, token: usize) -> Case {
    let request = Request::Check(sample::hex(&handle(token)));
    Case { name, request, registry: sample::registry(clients), store: store(live, clients.len()) }
}

fn nowhere_case(clients: &[Client], live: usize) -> Case {
    check_case(NOWHERE, clients, live, sample::SLOTS)
}

/// A store in which the last slot but two is presented and the last two have run out. Behind what clears them they are
/// live: behind a spent code, from which they came, and behind a refresh token that is revoked, of their origin.
fn presenting_store(clients: usize, live: usize, kind: u8, clearing: bool) -> Vec<u8> {
    let mut store = store(live, clients);
    sample::set_slot(&mut store, PRESENTED, slot(kind, PRESENTED, clients - 1));
    for number in BEHIND.into_iter().filter(|&number| number < live) {
        let token = slot(sample::ACCESS, number, clients - 1);
        let token = match clearing {
            true => Slot { origin: handle(PRESENTED), ..token },
            false => Slot { expiry: NOW, ..token },
        };
        sample::set_slot(&mut store, number, token);
    }
    store
}

fn authorize_case(name: &'static str, clients: &[Client], live: usize) -> Case {
    let last = clients.last().expect("a client");
    let id: String = last.id.escape_ascii().to_string().replace(' ', "+");
    let mut query = format!("response_type=code&client_id={id}&state=af0ifjsldkj&scope=power+bill");
    if name == WITH_CHALLENGE {
        let challenge = sample::base64url(&sha256::digest(&VERIFIER));
        query.push_str(&format!("&code_challenge={challenge}&code_challenge_method=S256"));
    }
    let store = presenting_store(clients.len(), live, sample::ACCESS, false);
    Case { name, request: Request::Authorize(query), registry: sample::registry(clients), store }
}

/// The header of the last client.
fn header_of_last(clients: &[Client]) -> Vec<u8> {
    let last = clients.last().expect("a client");
    sample::basic_header(&last.id, last.secret.as_ref().expect("a secret"))
}

fn token_case(name: &'static str, clients: &[Client], live: usize) -> Case {
    let header = header_of_last(clients);
    let presented = sample::hex(&handle(PRESENTED));
    let exchange = format!("grant_type=authorization_code&code={presented}");
    let (kind, body) = match name {
        "exchange" => (sample::CODE, exchange),
        WITH_VERIFIER => (sample::CHALLENGED_CODE, format!("{exchange}&code_verifier={}", VERIFIER.escape_ascii())),
        "second showing" => (sample::SPENT, exchange),
        "client credentials" => (sample::ACCESS, "grant_type=client_credentials&scope=power".into()),
        _ => (sample::REFRESH, format!("grant_type=refresh_token&refresh_token={presented}&scope=power")),
    };
    let request = match kind {
        sample::SPENT => Request::SecondShowing(header, body),
        _ => Request::Token(header, body),
    };
    let store = presenting_store(clients.len(), live, kind, kind == sample::SPENT);
    Case { name, request, registry: sample::registry(clients), store }
}

/// The store is the same for a token that is nowhere.
fn revoke_case(name: &'static str, clients: &[Client], live: usize) -> Case {
    let token = if name == UNKNOWN_REVOKED { sample::SLOTS } else { PRESENTED };
    let request = Request::Revoke(header_of_last(clients), format!("token={}", sample::hex(&handle(token))));
    let store = presenting_store(clients.len(), live, sample::REFRESH, true);
    Case { name, request, registry: sample::registry(clients), store }
}

// ---- report

fn main() {
    if cfg!(debug_assertions) {
        eprintln!("benchmark: measure with --release");
        std::process::exit(2);
    }
    println!("Time for one call in microseconds: ours (the exports), plain (the second program), and ours / plain.");
    println!();
    println!("{} slots in use, 64 confidential clients:", sample::SLOTS);
    full_store("short fields", &clients(64, false));
    full_store("fields as long as may be", &clients(64, true));
    growth(NOWHERE, nowhere_case);
    growth("exchange", |clients, live| token_case("exchange", clients, live));
    steps();
    println!();
    println!("Measured in one process and thread: {ROUNDS} rounds, in each of which every line of a table runs {BATCH} calls of");
    println!(
        "ours and {BATCH} of plain, each round starting one place further on; the figures are medians over the rounds."
    );
    println!(
        "All slots are live but the ones that a call takes, which have run out. The last three are put back after each"
    );
    println!("call (201 bytes, for both programs): the presented one and those that are taken, or cleared by a second showing");
    println!("or a revocation. The client is the last one.");
    println!("Both programs are optimised for plain x86-64.");
}

/// Every kind of call, with all slots in use.
fn full_store(title: &str, clients: &[Client]) {
    let live = sample::SLOTS;
    let cases = [
        check_case("check, token in the last slot", clients, live, live - 1),
        nowhere_case(clients, live),
        authorize_case("authorize", clients, live),
        authorize_case(WITH_CHALLENGE, clients, live),
        token_case("exchange", clients, live),
        token_case(WITH_VERIFIER, clients, live),
        token_case("second showing", clients, live),
        token_case("refresh", clients, live),
        token_case("client credentials", clients, live),
        revoke_case(UNKNOWN_REVOKED, clients, live),
        revoke_case(FAMILY_REVOKED, clients, live),
    ];
    println!();
    println!("{title:<32}{:>8}{:>8}{:>8}", "ours", "plain", "ratio");
    for (case, (ours, plain)) in cases.iter().zip(measure(&cases, ROUNDS)) {
        println!("{:<32}{:>8.2}{:>8.2}{:>8.2}", case.name, ours / 1e3, plain / 1e3, ours / plain);
    }
}

/// How the time grows with slots in use and with clients.
fn growth(name: &str, case: impl Fn(&[Client], usize) -> Case) {
    const CLIENTS: [usize; 4] = [1, 8, 32, 64];
    println!();
    println!("{name}, short fields, ours (plain):");
    println!(
        "{:>13}{}",
        "slots in use",
        CLIENTS
            .map(|clients| format!("{:>17}", format!("{clients} client{}", if clients == 1 { "" } else { "s" })))
            .concat()
    );
    let mut cases = Vec::new();
    for live in FILLS {
        cases.extend(CLIENTS.map(|count| case(&clients(count, false), live)));
    }
    for (live, times) in FILLS.iter().zip(measure(&cases, ROUNDS).chunks(CLIENTS.len())) {
        let cells: String = times
            .iter()
            .map(|(ours, plain)| format!("{:>17}", format!("{:.2} ({:.2})", ours / 1e3, plain / 1e3)))
            .collect();
        println!("{live:>13}{cells}");
    }
}

/// What a further slot in use adds to a check, step by step, with the fewest and the most clients.
fn steps() {
    const CLIENTS: [usize; 2] = [1, 64];
    println!();
    println!("{NOWHERE}, short fields: microseconds for a call, and nanoseconds that each further slot in use adds:");
    println!("{:>13}{:>34}{:>34}", "", "1 client", "64 clients");
    let heads = ["ours", "a slot", "plain", "a slot"].map(|head| format!("{head:>8}")).concat();
    println!("{:>13}  {heads}  {heads}", "slots in use");
    let mut cases = Vec::new();
    for live in FILLS {
        cases.extend(CLIENTS.map(|count| nowhere_case(&clients(count, false), live)));
    }
    let times = measure(&cases, STEP_ROUNDS);
    let rows: Vec<&[(f64, f64)]> = times.chunks(CLIENTS.len()).collect();
    for (row, live) in FILLS.iter().enumerate() {
        let earlier = row.saturating_sub(1);
        let added = |time: f64, before: f64| match row {
            0 => String::new(),
            _ => format!("{:.2}", (time - before) / (live - FILLS[earlier]) as f64),
        };
        let cells = rows[row].iter().zip(rows[earlier]).map(|(now, before)| {
            let (ours, plain) = (added(now.0, before.0), added(now.1, before.1));
            format!("  {:>8.2}{ours:>8}{:>8.2}{plain:>8}", now.0 / 1e3, now.1 / 1e3)
        });
        println!("{}", format!("{live:>13}{}", cells.collect::<String>()).trim_end());
    }
    println!("Steps of {STEP} slots; this table alone is of {STEP_ROUNDS} rounds, since differences are small.");
    println!(
        "A check tests all {} slots for fitness whatever is in them: that is in every line, the first one too. What",
        sample::SLOTS
    );
    println!(
        "a slot adds is how much longer one in use takes than a free one; below 0, it takes less. How the time grows"
    );
    println!("with the number of slots itself cannot be had from outside: a store of another size is refused.");
}
