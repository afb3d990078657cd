//! What the tests share: calls as data, both programs side by side, requests to write and to spoil, and counts of
//! outcomes.

pub mod call;
pub mod compare;
pub mod draft;
pub mod faults;
pub mod host;
pub mod pkce;
pub mod revocation;
pub mod rng;
pub mod second_showing;
pub mod tally;
pub mod world;
pub mod writing;
