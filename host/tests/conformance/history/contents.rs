//! What the calls contain: the codes and tokens that they answered with, and what became of each.

use poplarchime_host::plain::sha256::Digest;

#[derive(Clone, Copy, Debug, PartialEq, Eq)]
pub enum What {
    Code { bound: bool, challenge: Option<Digest> },
    Access,
    Refresh,
}

impl What {
    pub fn lifetime(self) -> u64 {
        match self {
            What::Code { .. } => 600,
            What::Access => 3_600,
            What::Refresh => 2_592_000,
        }
    }
}

/// What a code or token is good for.
#[derive(Clone, Debug)]
pub struct Grant {
    pub client: usize,
    pub farm: u32,
    /// The names, as a set.
    pub scope: u8,
    /// The code that a token was got by, itself or through a refresh token.
    pub origin: Option<String>,
}

/// A code or token that a call answered with.
#[derive(Clone, Debug)]
pub struct Issue {
    pub what: What,
    /// As the answer had it.
    pub text: String,
    pub grant: Grant,
    pub expiry: u64,
    pub exchanged: bool,
    /// The origin was shown a second time.
    pub withdrawn: bool,
    /// Its client revoked it, or the refresh token of its origin.
    pub revoked: bool,
}

impl Issue {
    pub fn has_run_out(&self, now: u64) -> bool {
        now >= self.expiry
    }

    pub fn is_live(&self, now: u64) -> bool {
        !self.has_run_out(now) && !self.withdrawn && !self.revoked
    }

    /// The challenge that a code was asked for with.
    pub fn challenge(&self) -> Option<Digest> {
        match self.what {
            What::Code { challenge, .. } => challenge,
            What::Access | What::Refresh => None,
        }
    }

    pub fn is_token(&self) -> bool {
        matches!(self.what, What::Access | What::Refresh)
    }

    /// Whether it is a token that came from this code.
    pub fn came_from(&self, code: &str) -> bool {
        self.grant.origin.as_deref() == Some(code)
    }
}
