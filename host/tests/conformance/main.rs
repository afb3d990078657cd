//! The exported endpoints, held to the plain program byte for byte and to the papers' own words.

mod support;

mod basic_credentials;
mod client_credentials;
mod digest;
mod harvest_crowd;
mod header;
mod history;
mod lengths;
mod pkce;
mod random_calls;
mod readings;
mod refusals;
mod registries_and_stores;
mod revocation;
mod rfc6749;
mod rfc7009;
mod spent_codes;
mod stretches;
mod visit;
