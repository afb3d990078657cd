//! What the four endpoints answer, as it crosses the C interface (`include/poplarchime.h`).
//!
//! A number that a case leaves free is 0.

/// The answer of the authorization endpoint.
#[repr(C)]
#[derive(Clone, Copy, Debug, Default, PartialEq, Eq)]
pub struct Authorization {
    /// 0, or 1 to 7: nothing was written and there is no redirect.
    pub refusal: u32,
    /// 0 for a redirect with a code, else the number of its error word.
    pub error: u32,
    /// Bytes of the location in the output.
    pub length: usize,
}

/// The answer of the token endpoint, and of the revocation endpoint.
#[repr(C)]
#[derive(Clone, Copy, Debug, Default, PartialEq, Eq)]
pub struct TokenReply {
    /// 0, or 1 to 4: nothing was written or changed.
    pub refusal: u32,
    /// The HTTP status: 200, 400 or 401; of the token endpoint also 500 or 503.
    pub status: u32,
    /// The number of the error word in the body of a 400 or 401.
    pub error: u32,
    /// 1 when a 401 answers a request that came with an Authorization header.
    pub challenge: u32,
    /// Bytes of the body in the output; none at a status of 500 or 503, nor at the 200 of a revocation.
    pub length: usize,
}

/// The answer of the access token check.
#[repr(C)]
#[derive(Clone, Copy, Debug, Default, PartialEq, Eq)]
pub struct CheckAnswer {
    /// 0, or 2 to 4: nothing was changed.
    pub refusal: u32,
    /// 1 when the token is live; the fields below are then those of its issue.
    pub live: u32,
    pub client: u32,
    pub farm: u32,
    pub scope: u32,
    pub seconds_left: u64,
}

/// The error words of RFC 6749 that the endpoints use, with their numbers.
#[derive(Clone, Copy, Debug, PartialEq, Eq)]
pub enum ErrorWord {
    InvalidRequest = 1,
    InvalidClient = 2,
    InvalidGrant = 3,
    InvalidScope = 4,
    UnsupportedGrantType = 5,
    UnsupportedResponseType = 6,
    AccessDenied = 7,
    TemporarilyUnavailable = 8,
    ServerError = 9,
    UnauthorizedClient = 10,
}

impl ErrorWord {
    pub const ALL: [ErrorWord; 10] = [
        ErrorWord::InvalidRequest,
        ErrorWord::InvalidClient,
        ErrorWord::InvalidGrant,
        ErrorWord::InvalidScope,
        ErrorWord::UnsupportedGrantType,
        ErrorWord::UnsupportedResponseType,
        ErrorWord::AccessDenied,
        ErrorWord::TemporarilyUnavailable,
        ErrorWord::ServerError,
        ErrorWord::UnauthorizedClient,
    ];

    pub fn number(self) -> u32 {
        self as u32
    }

    pub fn text(self) -> &'static str {
        match self {
            ErrorWord::InvalidRequest => "invalid_request",
            ErrorWord::InvalidClient => "invalid_client",
            ErrorWord::InvalidGrant => "invalid_grant",
            ErrorWord::InvalidScope => "invalid_scope",
            ErrorWord::UnsupportedGrantType => "unsupported_grant_type",
            ErrorWord::UnsupportedResponseType => "unsupported_response_type",
            ErrorWord::AccessDenied => "access_denied",
            ErrorWord::TemporarilyUnavailable => "temporarily_unavailable",
            ErrorWord::ServerError => "server_error",
            ErrorWord::UnauthorizedClient => "unauthorized_client",
        }
    }
}
