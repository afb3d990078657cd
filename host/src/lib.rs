//! The host's side of Poplarchime: the exported endpoints, and a plain second program to hold them to.

pub mod answers;
pub mod digest_probe;
pub mod ffi;
pub mod measuring;
pub mod plain;
#[cfg(feature = "former")]
pub mod probe;
pub mod program;
pub mod sample;
