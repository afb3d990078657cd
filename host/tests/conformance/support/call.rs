//! One call of an endpoint as data, and its answer.

use std::fmt;

use poplarchime_host::answers::{Authorization, CheckAnswer, ErrorWord, TokenReply};
use poplarchime_host::plain::base64;

/// What the outside asks.
#[derive(Clone, Debug)]
pub enum Request {
    Authorize { query: Vec<u8>, decision: u64, farm: u32 },
    Token { header: Vec<u8>, body: Vec<u8> },
    Revoke { header: Vec<u8>, body: Vec<u8> },
    Check { token: Vec<u8> },
}

/// The credentials that a header of the Basic scheme holds, still form-coded.
pub fn credentials_in(header: &[u8]) -> Option<Vec<u8>> {
    header.get("Basic ".len()..).and_then(base64::decode)
}

/// A request with what the host hands along, but for the store.
#[derive(Clone, Debug)]
pub struct Call {
    pub request: Request,
    pub registry: Vec<u8>,
    pub clock: u64,
    pub random: Vec<u8>,
    /// Length of the output buffer.
    pub output: usize,
}

#[derive(Clone, Copy, Debug, PartialEq, Eq)]
pub enum Answer {
    Authorize(Authorization),
    Token(TokenReply),
    Revoke(TokenReply),
    Check(CheckAnswer),
}

impl Answer {
    pub fn refusal(&self) -> u32 {
        match self {
            Answer::Authorize(answer) => answer.refusal,
            Answer::Token(answer) | Answer::Revoke(answer) => answer.refusal,
            Answer::Check(answer) => answer.refusal,
        }
    }

    /// Bytes written to the output.
    pub fn length(&self) -> usize {
        match self {
            Answer::Authorize(answer) => answer.length,
            Answer::Token(answer) | Answer::Revoke(answer) => answer.length,
            Answer::Check(_) => 0,
        }
    }

    /// Whether the call issued a code or tokens.
    pub fn issued(&self) -> bool {
        match self {
            Answer::Authorize(answer) => answer.refusal == 0 && answer.error == 0,
            Answer::Token(answer) => answer.status == 200,
            Answer::Revoke(_) | Answer::Check(_) => false,
        }
    }

    /// The answer in the papers' words; an answer that they do not have fails the test.
    pub fn outcome(&self) -> String {
        match *self {
            Answer::Authorize(Authorization { refusal: 0, error: 0, length }) if length > 0 => "code".into(),
            Answer::Authorize(Authorization { refusal: 0, error, length }) if length > 0 => word(error).into(),
            Answer::Authorize(Authorization { refusal: refusal @ 1..=7, error: 0, length: 0 }) => {
                format!("refusal {refusal}")
            }
            Answer::Token(TokenReply { refusal: 0, status: 200, error: 0, challenge: 0, length }) if length > 0 => {
                "200".into()
            }
            Answer::Revoke(TokenReply { refusal: 0, status: 200, error: 0, challenge: 0, length: 0 }) => "200".into(),
            Answer::Token(TokenReply { refusal: 0, status, error: 0, challenge: 0, length: 0 })
                if status == 500 || status == 503 =>
            {
                status.to_string()
            }
            Answer::Token(reply) | Answer::Revoke(reply) => refused_reply(&reply),
            Answer::Check(CheckAnswer { refusal: 0, live: 1, seconds_left: 1.., .. }) => "live".into(),
            Answer::Check(answer) if answer == CheckAnswer::default() => "not live".into(),
            Answer::Check(CheckAnswer { refusal, .. })
                if (2..=4).contains(&refusal)
                    && *self == Answer::Check(CheckAnswer { refusal, ..Default::default() }) =>
            {
                format!("refusal {refusal}")
            }
            other => panic!("not an answer of the papers: {other:?}"),
        }
    }
}

/// The outcome of a reply with an error word, or of a refusal, at both endpoints that authenticate a client.
fn refused_reply(reply: &TokenReply) -> String {
    match *reply {
        TokenReply { refusal: 0, status: 400, error, challenge: 0, length } if length > 0 && error != 2 => {
            format!("400 {}", word(error))
        }
        TokenReply { refusal: 0, status: 401, error: 2, challenge: 0, length } if length > 0 => {
            "401 invalid_client".into()
        }
        TokenReply { refusal: 0, status: 401, error: 2, challenge: 1, length } if length > 0 => {
            "401 invalid_client, challenge".into()
        }
        TokenReply { refusal: refusal @ 1..=4, status: 0, error: 0, challenge: 0, length: 0 } => {
            format!("refusal {refusal}")
        }
        other => panic!("not an answer of the papers: {other:?}"),
    }
}

fn word(number: u32) -> &'static str {
    let word = ErrorWord::ALL.iter().find(|word| word.number() == number);
    word.unwrap_or_else(|| panic!("no error word has the number {number}")).text()
}

impl fmt::Display for Call {
    fn fmt(&self, f: &mut fmt::Formatter<'_>) -> fmt::Result {
        match &self.request {
            Request::Authorize { query, decision, farm } => {
                writeln!(f, "authorize, decision {decision}, farm {farm}")?;
                writeln!(f, "  query    {}", query.escape_ascii())?;
            }
            Request::Token { header, body } => write_form(f, "token", header, body)?,
            Request::Revoke { header, body } => write_form(f, "revoke", header, body)?,
            Request::Check { token } => writeln!(f, "check\n  token    {}", token.escape_ascii())?,
        }
        writeln!(f, "  clock    {}", self.clock)?;
        writeln!(f, "  random   {} bytes: {}", self.random.len(), self.random.escape_ascii())?;
        writeln!(f, "  output   {} bytes", self.output)?;
        write!(f, "  registry {} bytes: {}", self.registry.len(), without_zeros(&self.registry))
    }
}

fn write_form(f: &mut fmt::Formatter<'_>, endpoint: &str, header: &[u8], body: &[u8]) -> fmt::Result {
    writeln!(f, "{endpoint}")?;
    writeln!(f, "  header   {}", header.escape_ascii())?;
    writeln!(f, "  body     {}", body.escape_ascii())
}

/// Runs of zeros are left out, so that a registry can be read.
fn without_zeros(bytes: &[u8]) -> String {
    let texts = bytes.split(|&byte| byte == 0).filter(|text| !text.is_empty());
    texts.map(|text| text.escape_ascii().to_string()).collect::<Vec<_>>().join(" .. ")
}
