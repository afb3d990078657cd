//! The two programs that do the same: the exports, and the plain one.

use crate::answers::{Authorization, CheckAnswer, TokenReply};
use crate::{ffi, plain};

/// Query, decision, farm, registry, store, clock, random bytes, output.
pub type Authorize = fn(&[u8], u64, u32, &[u8], &mut [u8], u64, &[u8], &mut [u8]) -> Authorization;
/// Header, body, registry, store, clock, random bytes, output.
pub type Token = fn(&[u8], &[u8], &[u8], &mut [u8], u64, &[u8], &mut [u8]) -> TokenReply;
/// Header, body, registry, store, clock, output.
pub type Revoke = fn(&[u8], &[u8], &[u8], &mut [u8], u64, &mut [u8]) -> TokenReply;
/// Token, registry, store, clock.
pub type Check = fn(&[u8], &[u8], &mut [u8], u64) -> CheckAnswer;

/// The four endpoints of one program, with the arguments of the exports.
#[derive(Clone, Copy)]
pub struct Program {
    pub authorize: Authorize,
    pub token: Token,
    pub revoke: Revoke,
    pub check: Check,
}

pub const EXPORTS: Program =
    Program { authorize: ffi::authorize, token: ffi::token, revoke: ffi::revoke, check: ffi::check };
pub const PLAIN: Program =
    Program { authorize: plain::authorize, token: plain::token, revoke: plain::revoke, check: plain::check };
