//! Forms that are malformed or too long, and odd ones that are neither.

use super::Apply;

pub const FORM: &[(&str, Apply)] = &[
    ("form of 4,097 bytes", |d, _| d.padded_to = 4097),
    ("% with one digit", |d, _| d.raw_piece = b"a=%4".into()),
    ("% at the end", |d, _| d.raw_piece = b"a=%".into()),
    ("% before a g", |d, _| d.raw_piece = b"a=%g1&b=1".into()),
    ("% before a digit and a g", |d, _| d.raw_piece = b"a=%1g".into()),
    ("% before a plus", |d, _| d.raw_piece = b"a=%+1".into()),
    ("% whose digits the next piece would have", |d, _| d.raw_piece = b"a=%&41=1".into()),
    ("bad % in an unknown name", |d, _| d.raw_piece = b"%zz=1".into()),
    ("bad % in a name that is dropped", |d, _| d.raw_piece = b"state%=".into()),
    ("bad % in a piece without =", |d, _| d.raw_piece = b"state%4".into()),
    ("bad % in an unknown value", |d, _| d.raw_piece = b"nonce=100%".into()),
];

pub const HARMLESS_FORM: &[(&str, Apply)] = &[
    ("form of 4,096 bytes", |d, _| d.padded_to = 4096),
    ("output of more than 1,024 bytes", |d, rng| d.output = rng.pick(&[1025, 2048, 5000])),
    ("unknown names, repeated", |d, _| d.raw_piece = b"nonce=1&nonce=1&nonce=2".into()),
    ("empty pieces", |d, _| d.raw_piece = b"&&&".into()),
    ("known names without a value", |d, _| {
        d.raw_piece = b"state=&state&scope=&scope&client_id=&client_secret&code=&redirect_uri&grant_type=\
            &code_challenge=&code_challenge&code_challenge_method=&code_verifier=&code_verifier\
            &token=&token&token_type_hint=&token_type_hint"
            .into()
    }),
    ("known names in capitals", |d, _| {
        d.raw_piece = b"STATE=1&Client_id=1&CODE=1&SCOPE=1&SCOPE=1&Code_verifier=1&TOKEN=1&Token=1".into()
    }),
    ("known names with a space", |d, _| d.raw_piece = b"state+=1&+client_id=1&code%20=1".into()),
    ("empty names", |d, _| d.raw_piece = b"=1&=&=state".into()),
    ("bytes outside ASCII", |d, _| d.raw_piece = b"\xff\x00\x80=\xc3\xa9%FF%00;state=1".into()),
];
