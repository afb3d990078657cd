/*
 * Poplarchime: the core of an OAuth 2.0 authorization server (RFC 6749, with PKCE, RFC 7636, and token revocation,
 * RFC 7009), proved in Rattle and exported to C.
 *
 * Four functions: the authorization endpoint, the token endpoint, the revocation endpoint, and the check of an access
 * token. They keep no state of their own, allocate nothing, do no input or output and always return. All they know is
 * in what they are handed: the request, the client registry (read), the token store (read and written), the clock, and
 * random bytes where something is issued. They test all of it themselves; nothing about the contents of a buffer is
 * taken on trust.
 *
 * What the host must do (docs/HOST.md says more):
 *
 *   - One call at a time for each token store. The functions do no locking.
 *   - Keep the store, byte for byte, before any reply leaves the machine, a refusal too: it may have withdrawn tokens.
 *     Hand each call the store as the last call left it. A store from a backup brings spent codes and tokens that were
 *     withdrawn or revoked back to life.
 *   - The clock is a count of seconds that does not depend on the time zone, as time(NULL). It may stand still or go
 *     back: the store remembers the highest clock seen, and that one counts.
 *   - Fresh random bytes for every call that takes some, from a generator fit for secrets, as getrandom(2). They become
 *     codes and tokens.
 *   - Lengths are true. `store` and `output` overlap no other buffer, and nobody else writes to any buffer during the
 *     call. A buffer of length 0 may be NULL.
 *   - HTTP, TLS, the owner's login and the question whether he allows the request.
 */
#ifndef POPLARCHIME_H
#define POPLARCHIME_H

#include <stddef.h>
#include <stdint.h>

/*
 * The version of this interface and of the archive that goes with it. Where the second number moves, a host may have to
 * change: docs/changes/ says what moved.
 */
#define POPLARCHIME_VERSION "0.7.0"

#ifdef __cplusplus
extern "C" {
#endif

/* ---- Sizes, in bytes unless they say otherwise ---- */

/*
 * The token store: a time of 8, then the slots. A fresh store is all zero. A store from before version 0.6.0 has another
 * size and is refused. One of version 0.5.0, of 34,312 bytes, can be taken over (docs/HOST.md says how); for an older one
 * start from a fresh one.
 */
#define POPLARCHIME_STORE_SIZE 60308
#define POPLARCHIME_STORE_SLOTS 900
#define POPLARCHIME_SLOT_SIZE 67

/*
 * The client registry: 1 to 64 records, one after the other and nothing behind the last one. A client's number is its
 * place, from 0. A record:
 *
 *     1    kind: 1 public, 2 confidential
 *     1    length of the id, 1 to 32
 *     32   id: bytes 20 to 7E hex but no colon; no two clients have the same
 *     1    length of the redirect, 1 to 200
 *     200  redirect: bytes 21 to 7E hex but no '#'
 *     1    scope set, not 0
 *     1    length of the secret, 1 to 64       (confidential only)
 *     64   secret: bytes 20 to 7E hex          (confidential only)
 *
 * The bytes of a field beyond its length are zero.
 */
#define POPLARCHIME_MOST_CLIENTS 64
#define POPLARCHIME_PUBLIC_RECORD_SIZE 236
#define POPLARCHIME_CONFIDENTIAL_RECORD_SIZE 301
#define POPLARCHIME_ID_LIMIT 32
#define POPLARCHIME_REDIRECT_LIMIT 200
#define POPLARCHIME_SECRET_LIMIT 64

/* The output must have room for so many; every answer fits. More is fine. */
#define POPLARCHIME_LEAST_OUTPUT 1024

/* Random bytes: exactly so many, at the authorization endpoint and at the token endpoint. The others take none. */
#define POPLARCHIME_AUTHORIZE_RANDOM 20
#define POPLARCHIME_TOKEN_RANDOM 40

/* Requests: what is longer is refused, each by its own answer. */
#define POPLARCHIME_QUERY_LIMIT 4096
#define POPLARCHIME_BODY_LIMIT 4096
#define POPLARCHIME_HEADER_LIMIT 512
#define POPLARCHIME_STATE_LIMIT 200

/* A code or token as the outside sees it: so many lower-case hex digits. */
#define POPLARCHIME_TOKEN_LENGTH 40

/* The highest clock, in seconds: 2^40. */
#define POPLARCHIME_CLOCK_LIMIT (UINT64_C(1) << 40)

/* Lifetimes in seconds. */
#define POPLARCHIME_CODE_LIFETIME 600
#define POPLARCHIME_ACCESS_LIFETIME 3600
#define POPLARCHIME_REFRESH_LIFETIME 2592000

/* ---- Numbers in answers; a field that a case leaves free is 0 ---- */

/* Why a call was refused before it was answered in OAuth's own terms. */
enum poplarchime_refusal {
    POPLARCHIME_NOT_REFUSED = 0,
    /* The host's mistakes: nothing was written or changed, not even the store's time. */
    POPLARCHIME_REFUSED_BUFFERS = 1,  /* output too small, or not the right number of random bytes */
    POPLARCHIME_REFUSED_REGISTRY = 2, /* client registry unfit */
    POPLARCHIME_REFUSED_STORE = 3,    /* token store unfit, or not fit for this registry */
    POPLARCHIME_REFUSED_CLOCK = 4,    /* clock above POPLARCHIME_CLOCK_LIMIT */
    /* Authorization only: tell the owner on a page of your own. Never redirect. */
    POPLARCHIME_REFUSED_QUERY = 5,    /* query too long or malformed */
    POPLARCHIME_REFUSED_CLIENT = 6,   /* client_id missing, repeated or unknown; or redirect_uri repeated */
    POPLARCHIME_REFUSED_REDIRECT = 7  /* redirect_uri is not the registered one */
};

/* The error words of RFC 6749. The location or body that was written has the word itself. */
enum poplarchime_error {
    POPLARCHIME_NO_ERROR = 0,
    POPLARCHIME_INVALID_REQUEST = 1,
    POPLARCHIME_INVALID_CLIENT = 2,
    POPLARCHIME_INVALID_GRANT = 3,
    POPLARCHIME_INVALID_SCOPE = 4,
    POPLARCHIME_UNSUPPORTED_GRANT_TYPE = 5,
    POPLARCHIME_UNSUPPORTED_RESPONSE_TYPE = 6,
    POPLARCHIME_ACCESS_DENIED = 7,
    POPLARCHIME_TEMPORARILY_UNAVAILABLE = 8,
    POPLARCHIME_SERVER_ERROR = 9,
    POPLARCHIME_UNAUTHORIZED_CLIENT = 10
};

/* The owner's decision. Every other number denies too. */
enum poplarchime_decision {
    POPLARCHIME_DENY = 0,
    POPLARCHIME_ALLOW = 1
};

/* Scope sets: the sum of the names in it. */
enum poplarchime_scope {
    POPLARCHIME_SCOPE_POWER = 1,
    POPLARCHIME_SCOPE_PEAK = 2,
    POPLARCHIME_SCOPE_TARIFF = 4,
    POPLARCHIME_SCOPE_BILL = 8,
    POPLARCHIME_SCOPE_MILKING = 16,
    POPLARCHIME_SCOPE_DRYING = 32,
    POPLARCHIME_SCOPE_PUMP = 64,
    POPLARCHIME_SCOPE_SOLAR = 128
};

/* ---- Answers ---- */

/*
 * refusal 1 to 4: answer 500, log it; nothing changed.
 * refusal 5 to 7: answer 400 with an error page of your own; nothing was written.
 * refusal 0:      answer 302 with `Location:` the first `length` bytes of the output, and `Cache-Control: no-store`.
 *                 error 0: the location carries a code. Else it carries the error word.
 */
struct poplarchime_authorization {
    uint32_t refusal; /* enum poplarchime_refusal */
    uint32_t error;   /* enum poplarchime_error */
    size_t length;    /* bytes of the location in the output */
};

/*
 * The answer of the token endpoint and of the revocation endpoint.
 *
 * refusal 1 to 4:   answer 500, log it; nothing changed. status is 0.
 * status 200:       token endpoint: tokens; the body is the first `length` bytes of the output.
 *                   Revocation endpoint: empty body, length 0. The token was revoked, or it was not live.
 * status 400, 401:  {"error":"WORD"}; the body is the first `length` bytes of the output.
 * status 500, 503:  token endpoint only; empty body. 503: no room in the store. 500: the random bytes were in use.
 * With every body: `Content-Type: application/json;charset=UTF-8`, `Cache-Control: no-store`, `Pragma: no-cache`.
 * challenge 1:      add `WWW-Authenticate: Basic realm="..."`; the client tried the Authorization header.
 */
struct poplarchime_token_reply {
    uint32_t refusal;   /* enum poplarchime_refusal, 0 to 4 */
    uint32_t status;    /* the HTTP status: 200, 400 or 401; at the token endpoint also 500 or 503; 0 for a refusal */
    uint32_t error;     /* enum poplarchime_error, for 400 and 401 */
    uint32_t challenge; /* 1 for a 401 to a request that had an Authorization header */
    size_t length;      /* bytes of the body in the output */
};

/*
 * refusal 2 to 4: answer 500, log it; nothing changed.
 * live 0:         unknown, run out, withdrawn or revoked. The resource server answers 401,
 *                 `WWW-Authenticate: Bearer error="invalid_token"`.
 * live 1:         whose token it is, for which farm and scope, and for how long. Test farm and scope before serving.
 */
struct poplarchime_check_answer {
    uint32_t refusal;      /* enum poplarchime_refusal: 0, or 2 to 4 */
    uint32_t live;         /* 1 or 0; the rest is 0 when it is 0 */
    uint32_t client;       /* number of the client in the registry, from 0 */
    uint32_t farm;         /* as the owner's decision had it; 0: a token of the client for itself, no owner was asked */
    uint32_t scope;        /* a sum of enum poplarchime_scope */
    uint64_t seconds_left; /* until the token runs out, at least 1 */
};

/* ---- The endpoints ---- */

/*
 * The authorization endpoint, response type `code`. Call it once the owner has logged in and decided; `farm` is what he
 * allows. Farm 0 is no owner's, so a decision for it is denied. `query` is the query of the request without its `?`.
 * `output` receives the location.
 *
 * A client may send `code_challenge` with `code_challenge_method=S256` (RFC 7636); a public one must, else the answer
 * is `invalid_request`. The code is then good only together with the verifier that the challenge was made from.
 */
struct poplarchime_authorization poplarchime_authorize(
    const uint8_t *query, size_t query_length,
    uint64_t decision, uint32_t farm,
    const uint8_t *registry, size_t registry_length,
    uint8_t *store, size_t store_length,
    uint64_t clock,
    const uint8_t *random, size_t random_length,
    uint8_t *output, size_t output_length);

/*
 * The token endpoint, for POST requests: grants `authorization_code`, `refresh_token` and `client_credentials`. By the
 * last one a confidential client gets an access token for itself; a public one gets `unauthorized_client`. `header` is
 * the value of the Authorization field, of length 0 when there was none; in it the client has form-coded its id and its
 * secret before base64 (RFC 6749 section 2.3.1), so that a secret `a%b` comes as `a%25b`. `body` is the form in the
 * request's body. `output` receives the reply's body.
 *
 * A code that was asked for with a challenge is exchanged only with its `code_verifier` (RFC 7636): one that is
 * missing, malformed or another is `invalid_grant`, and the code stays good.
 *
 * A code that was exchanged has leaked when its client shows it again before it would have run out (section 4.1.2): the
 * answer is `invalid_grant`, and every token that came from the code, by a refresh too, is withdrawn.
 */
struct poplarchime_token_reply poplarchime_token(
    const uint8_t *header, size_t header_length,
    const uint8_t *body, size_t body_length,
    const uint8_t *registry, size_t registry_length,
    uint8_t *store, size_t store_length,
    uint64_t clock,
    const uint8_t *random, size_t random_length,
    uint8_t *output, size_t output_length);

/*
 * The revocation endpoint (RFC 7009), for POST requests: a client gives up a token of its own. `header` and `body` are
 * as at the token endpoint, and the client authenticates in the same way; a public one shows its `client_id` alone. The
 * form has the token as `token`. A `token_type_hint` may come, and its value is not looked at. `output` receives the
 * body of an error; it must have its least size, although most answers write nothing.
 *
 * An access token goes alone. A refresh token goes together with every access token that came from the same code, by a
 * refresh too. A token that is unknown or has run out is answered with 200 all the same (section 2.2). So is a code,
 * which stays good: codes cannot be revoked. A live token of another client is `invalid_grant`, and stays good.
 */
struct poplarchime_token_reply poplarchime_revoke(
    const uint8_t *header, size_t header_length,
    const uint8_t *body, size_t body_length,
    const uint8_t *registry, size_t registry_length,
    uint8_t *store, size_t store_length,
    uint64_t clock,
    uint8_t *output, size_t output_length);

/*
 * The check of a bare access token, without `Bearer `. The store's time may change, so it is not const.
 */
struct poplarchime_check_answer poplarchime_check(
    const uint8_t *token, size_t token_length,
    const uint8_t *registry, size_t registry_length,
    uint8_t *store, size_t store_length,
    uint64_t clock);

#ifdef __cplusplus
}
#endif

#endif
