/*
 * A host in C that plays the papers' visit from end to end: two apps ask for a farm's readings. Then a phone app
 * without a secret shows that a code is its own, a thief and an app show the same code, a farmer shows an app the door,
 * a server asks for its own readings, an app has a secret that must be coded before it is sent, and at harvest a crowd
 * fills the store.
 *
 * It shows each request and answer, and holds each answer to what the papers say. The last line is
 * 'N passed, M failed', and the exit status is 0 only if M is 0. `examples/run` builds and runs it.
 *
 * So that the answers are always the same, the random bytes count up from a number and the clock is made up. A real host
 * takes the bytes from getrandom(2) and the clock from time(NULL), locks the store for each call and keeps it on disk
 * before it replies (docs/HOST.md).
 */
#include <inttypes.h>
#include <stdio.h>
#include <string.h>

#include "host.h"
#include "poplarchime.h"

/* The sizes that the archive was built with, on x86-64. */
_Static_assert(sizeof(struct poplarchime_authorization) == 16, "struct poplarchime_authorization");
_Static_assert(sizeof(struct poplarchime_token_reply) == 24, "struct poplarchime_token_reply");
_Static_assert(sizeof(struct poplarchime_check_answer) == 32, "struct poplarchime_check_answer");

static int passed, failed;

static void count_up(uint8_t *bytes, size_t length, uint8_t first)
{
    for (size_t i = 0; i < length; i++)
        bytes[i] = (uint8_t)(first + i);
}

/* ---- Showing and judging ---- */

static void title(const char *text)
{
    static int number;
    printf("\n%d. %s\n", ++number, text);
}

static void judge(int right, const char *expected)
{
    if (right) {
        passed++;
        printf("   ok\n");
    } else {
        failed++;
        printf("   WRONG, should be: %s\n", expected);
    }
}

static int same(const uint8_t *bytes, size_t length, const char *text)
{
    return length == strlen(text) && memcmp(bytes, text, length) == 0;
}

/* ---- The four endpoints, as a host calls them ---- */

static struct poplarchime_authorization call_authorize(struct host *host, const char *query, uint64_t decision,
                                                       uint32_t farm, uint64_t clock, uint8_t random_from)
{
    uint8_t random[POPLARCHIME_AUTHORIZE_RANDOM];
    count_up(random, sizeof random, random_from);
    printf("   clock %" PRIu64 ", ", clock);
    if (decision == POPLARCHIME_ALLOW)
        printf("the owner allows farm %" PRIu32 "\n", farm);
    else
        printf("the owner denies\n");
    printf("   > GET /authorize?%s\n", query);
    return poplarchime_authorize((const uint8_t *)query, strlen(query), decision, farm,
                                 host->registry, host->registry_length, host->store, sizeof host->store,
                                 clock, random, sizeof random, host->output, sizeof host->output);
}

/* The answer must be a redirect to this location; error is the number of the word in it, 0 for a code. */
static void redirects_for(struct host *host, uint32_t farm, const char *query, uint64_t decision, uint64_t clock,
                          uint8_t random_from, uint32_t error, const char *location)
{
    struct poplarchime_authorization answer = call_authorize(host, query, decision, farm, clock, random_from);
    if (answer.refusal != POPLARCHIME_NOT_REFUSED)
        printf("   < refusal %" PRIu32 "\n", answer.refusal);
    else
        printf("   < 302, Location: %.*s\n", (int)answer.length, (const char *)host->output);
    judge(answer.refusal == POPLARCHIME_NOT_REFUSED && answer.error == error
              && same(host->output, answer.length, location), location);
}

static void redirects(struct host *host, const char *query, uint64_t decision, uint64_t clock, uint8_t random_from,
                      uint32_t error, const char *location)
{
    redirects_for(host, FARM, query, decision, clock, random_from, error, location);
}

/* There must be no redirect, for this reason. */
static void shows_page(struct host *host, const char *query, uint32_t refusal, const char *reason)
{
    struct poplarchime_authorization answer = call_authorize(host, query, POPLARCHIME_ALLOW, FARM, 1000, 0x00);
    printf("   < refusal %" PRIu32 ": the host answers 400 with a page of its own\n", answer.refusal);
    judge(answer.refusal == refusal && answer.error == 0 && answer.length == 0, reason);
}

#define INVALID_GRANT "{\"error\":\"invalid_grant\"}"
#define INVALID_CLIENT "{\"error\":\"invalid_client\"}"
#define INVALID_SCOPE "{\"error\":\"invalid_scope\"}"
#define UNAUTHORIZED_CLIENT "{\"error\":\"unauthorized_client\"}"

/* The number of the error word in a body, 0 for tokens. */
static uint32_t error_in(const char *body)
{
    static const struct {
        const char *body;
        uint32_t number;
    } errors[] = {
        {INVALID_GRANT, POPLARCHIME_INVALID_GRANT},
        {INVALID_CLIENT, POPLARCHIME_INVALID_CLIENT},
        {INVALID_SCOPE, POPLARCHIME_INVALID_SCOPE},
        {UNAUTHORIZED_CLIENT, POPLARCHIME_UNAUTHORIZED_CLIENT},
    };
    for (size_t i = 0; i < sizeof errors / sizeof errors[0]; i++)
        if (strcmp(body, errors[i].body) == 0)
            return errors[i].number;
    return POPLARCHIME_NO_ERROR;
}

static void show_post(const char *path, const char *header, const char *body, uint64_t clock)
{
    printf("   clock %" PRIu64 "\n   > POST %s\n", clock, path);
    if (header[0])
        printf("   >   Authorization: %s\n", header);
    printf("   >   %s\n", body);
}

/* The answer must have this status, challenge and body, and the number of the error word in it. */
static void judge_reply(struct host *host, struct poplarchime_token_reply reply, uint32_t status, uint32_t challenge,
                        const char *expected)
{
    if (reply.refusal != POPLARCHIME_NOT_REFUSED)
        printf("   < refusal %" PRIu32 "\n", reply.refusal);
    printf("   < %" PRIu32 "%s\n", reply.status, reply.challenge ? ", WWW-Authenticate: Basic" : "");
    if (reply.length)
        printf("   <   %.*s\n", (int)reply.length, (const char *)host->output);
    judge(reply.refusal == POPLARCHIME_NOT_REFUSED && reply.status == status && reply.challenge == challenge
              && reply.error == error_in(expected) && same(host->output, reply.length, expected), expected);
}

static void replies(struct host *host, const char *header, const char *body, uint64_t clock, uint8_t random_from,
                    uint32_t status, uint32_t challenge, const char *expected)
{
    uint8_t random[POPLARCHIME_TOKEN_RANDOM];
    count_up(random, sizeof random, random_from);
    show_post("/token", header, body, clock);
    judge_reply(host,
                poplarchime_token((const uint8_t *)header, strlen(header), (const uint8_t *)body, strlen(body),
                                  host->registry, host->registry_length, host->store, sizeof host->store,
                                  clock, random, sizeof random, host->output, sizeof host->output),
                status, challenge, expected);
}

/* A revocation; the body of a 200 is empty. */
static void revocation_replies(struct host *host, const char *header, const char *body, uint64_t clock,
                               uint32_t status, uint32_t challenge, const char *expected)
{
    show_post("/revoke", header, body, clock);
    judge_reply(host,
                poplarchime_revoke((const uint8_t *)header, strlen(header), (const uint8_t *)body, strlen(body),
                                   host->registry, host->registry_length, host->store, sizeof host->store,
                                   clock, host->output, sizeof host->output),
                status, challenge, expected);
}

static struct poplarchime_check_answer call_check(struct host *host, const char *token, uint64_t clock)
{
    printf("   clock %" PRIu64 "\n   > check %s\n", clock, token);
    return poplarchime_check((const uint8_t *)token, strlen(token), host->registry, host->registry_length,
                             host->store, sizeof host->store, clock);
}

/* The token must be live for this client, farm and scope. */
static void is_live_for(struct host *host, uint32_t farm, const char *token, uint64_t clock, uint32_t client,
                        uint32_t scope, uint64_t seconds_left)
{
    struct poplarchime_check_answer answer = call_check(host, token, clock);
    printf("   < live %" PRIu32 ": client %" PRIu32 ", farm %" PRIu32 ", scope set %" PRIu32 ", %" PRIu64
           " seconds left\n", answer.live, answer.client, answer.farm, answer.scope, answer.seconds_left);
    judge(answer.refusal == POPLARCHIME_NOT_REFUSED && answer.live == 1 && answer.client == client
              && answer.farm == farm && answer.scope == scope && answer.seconds_left == seconds_left, "live");
}

static void is_live(struct host *host, const char *token, uint64_t clock, uint32_t client, uint32_t scope,
                    uint64_t seconds_left)
{
    is_live_for(host, FARM, token, clock, client, scope, seconds_left);
}

static void is_not_live(struct host *host, const char *token, uint64_t clock)
{
    struct poplarchime_check_answer answer = call_check(host, token, clock);
    printf("   < live %" PRIu32 "\n", answer.live);
    judge(answer.refusal == POPLARCHIME_NOT_REFUSED && answer.live == 0 && answer.client == 0 && answer.farm == 0
              && answer.scope == 0 && answer.seconds_left == 0, "not live");
}

/* ---- The visit ---- */

#define QUERY \
    "response_type=code&client_id=s6BhdRkqt3&state=xyz&redirect_uri=https%3A%2F%2Fclient%2Eexample%2Ecom%2Fcb"
#define CODE "000102030405060708090a0b0c0d0e0f10111213"
#define ACCESS "202122232425262728292a2b2c2d2e2f30313233"
#define REFRESH "3435363738393a3b3c3d3e3f4041424344454647"
#define LATER_ACCESS "505152535455565758595a5b5c5d5e5f60616263"
#define NEXT_CODE "606162636465666768696a6b6c6d6e6f70717273"
#define NEXT_ACCESS "808182838485868788898a8b8c8d8e8f90919293"
#define NEXT_REFRESH "9495969798999a9b9c9d9e9fa0a1a2a3a4a5a6a7"
#define EXCHANGE_OF(code) \
    "grant_type=authorization_code&code=" code "&redirect_uri=https%3A%2F%2Fclient%2Eexample%2Ecom%2Fcb"
#define EXCHANGE EXCHANGE_OF(CODE)
#define TOKENS(access, refresh, scope) \
    "{\"access_token\":\"" access "\",\"token_type\":\"Bearer\",\"expires_in\":3600," \
    "\"refresh_token\":\"" refresh "\",\"scope\":\"" scope "\"}"
#define TOKENS_FOR(scope) TOKENS(ACCESS, REFRESH, scope)
/* The reply where no refresh token is issued. */
#define ONE_TOKEN(access, scope) \
    "{\"access_token\":\"" access "\",\"token_type\":\"Bearer\",\"expires_in\":3600,\"scope\":\"" scope "\"}"

static void confidential_client(struct host *host)
{
    start(host);
    title("The owner allows the request: a code");
    redirects(host, QUERY, POPLARCHIME_ALLOW, 1000, 0x00, POPLARCHIME_NO_ERROR,
              "https://client.example.com/cb?code=" CODE "&state=xyz");
    title("The owner denies another one");
    redirects(host, QUERY, POPLARCHIME_DENY, 1000, 0x00, POPLARCHIME_ACCESS_DENIED,
              "https://client.example.com/cb?error=access_denied&state=xyz");
    title("The client exchanges the code, with its secret in the header");
    replies(host, BASIC, EXCHANGE, 1100, 0x20, 200, 0, TOKENS_FOR("power peak bill"));
    title("The portal checks the access token");
    is_live(host, ACCESS, 1200, 0, 11, 3500);
    title("The client refreshes it, for less scope");
    replies(host, BASIC, "grant_type=refresh_token&refresh_token=" REFRESH "&scope=bill+power", 1300, 0x50, 200, 0,
            ONE_TOKEN(LATER_ACCESS, "power bill"));
    is_live(host, LATER_ACCESS, 1300, 0, 9, 3600);
    title("The access token runs out after an hour; a clock that goes back does not revive it");
    is_live(host, ACCESS, 4699, 0, 11, 1);
    is_not_live(host, ACCESS, 4700);
    is_not_live(host, ACCESS, 1200);
}

static void time_that_never_goes_back(struct host *host)
{
    start(host);
    title("A code issued at 1000 ...");
    redirects(host, QUERY, POPLARCHIME_ALLOW, 1000, 0x00, POPLARCHIME_NO_ERROR,
              "https://client.example.com/cb?code=" CODE "&state=xyz");
    title("... is still live at 1599 (tried on a copy of the store) ...");
    struct host copy = *host;
    replies(&copy, BASIC, EXCHANGE, 1599, 0x20, 200, 0, TOKENS_FOR("power peak bill"));
    title("... and has run out at 1600. Any call at 1600 will do, then the clock goes back to 1100");
    is_not_live(host, "any token", 1600);
    replies(host, BASIC, EXCHANGE, 1100, 0x20, 400, 0, INVALID_GRANT);
    title("A code issued next, with the clock at 1100, lives until 2200: 600 from the highest clock seen");
    redirects(host, QUERY, POPLARCHIME_ALLOW, 1100, 0x60, POPLARCHIME_NO_ERROR,
              "https://client.example.com/cb?code=" NEXT_CODE "&state=xyz");
    copy = *host;
    replies(&copy, BASIC, EXCHANGE_OF(NEXT_CODE), 2199, 0x20, 200, 0, TOKENS_FOR("power peak bill"));
    replies(host, BASIC, EXCHANGE_OF(NEXT_CODE), 2200, 0x20, 400, 0, INVALID_GRANT);
}

#define BARN_QUERY_WITHOUT_CHALLENGE "response_type=code&client_id=barnapp"
#define BARN_QUERY BARN_QUERY_WITHOUT_CHALLENGE "&code_challenge=" CHALLENGE "&code_challenge_method=S256"
#define BARN_EXCHANGE_WITHOUT_VERIFIER(code) "grant_type=authorization_code&code=" code "&client_id=barnapp"
#define BARN_EXCHANGE_OF(code) BARN_EXCHANGE_WITHOUT_VERIFIER(code) "&code_verifier=" VERIFIER
#define BARN_EXCHANGE BARN_EXCHANGE_OF(CODE)

static void public_client(struct host *host)
{
    start(host);
    title("The public client has no secret; its redirect has a query already");
    redirects(host, BARN_QUERY, POPLARCHIME_DENY, 1000, 0x00, POPLARCHIME_ACCESS_DENIED,
              "https://barn.example/r?x=1&error=access_denied");
    redirects(host, BARN_QUERY, POPLARCHIME_ALLOW, 1000, 0x00, POPLARCHIME_NO_ERROR,
              "https://barn.example/r?x=1&code=" CODE);
    title("Another client cannot exchange its code, and the try spends nothing");
    replies(host, BASIC, "grant_type=authorization_code&code=" CODE, 1000, 0x20, 400, 0, INVALID_GRANT);
    title("A header is not for public clients");
    replies(host, "Basic YmFybmFwcDo=", "grant_type=authorization_code&code=" CODE, 1000, 0x20, 401, 1, INVALID_CLIENT);
    title("It names itself in the body, and brings its verifier");
    replies(host, "", BARN_EXCHANGE, 1000, 0x20, 200, 0, TOKENS_FOR("power"));
    is_live(host, ACCESS, 1000, 1, 1, 3600);
}

static void phone_app_without_a_secret(struct host *host)
{
    start(host);
    title("A phone app can keep no secret. For each visit it makes up a verifier, and sends its digest, the challenge");
    redirects(host, BARN_QUERY, POPLARCHIME_ALLOW, 1000, 0x00, POPLARCHIME_NO_ERROR,
              "https://barn.example/r?x=1&code=" CODE);
    struct host before = *host;
    title("A thief catches the code on its way. He can name the app, but he has no verifier ...");
    replies(host, "", BARN_EXCHANGE_WITHOUT_VERIFIER(CODE), 1000, 0x20, 400, 0, INVALID_GRANT);
    title("... and if he saw the challenge, it does not help him: a digest does not tell what it was made from");
    replies(host, "", BARN_EXCHANGE_WITHOUT_VERIFIER(CODE) "&code_verifier=" CHALLENGE, 1000, 0x20, 400, 0,
            INVALID_GRANT);
    printf("   and the store is as it was: nothing is spent\n");
    judge(memcmp(host->store, before.store, sizeof host->store) == 0, "an untouched store");
    title("The app brings its verifier, and gets the tokens");
    replies(host, "", BARN_EXCHANGE, 1000, 0x20, 200, 0, TOKENS_FOR("power"));
    is_live(host, ACCESS, 1000, 1, 1, 3600);
    title("A public client must send a challenge, and its method must be S256");
    redirects(host, BARN_QUERY_WITHOUT_CHALLENGE, POPLARCHIME_ALLOW, 1000, 0x60, POPLARCHIME_INVALID_REQUEST,
              "https://barn.example/r?x=1&error=invalid_request");
    redirects(host, BARN_QUERY_WITHOUT_CHALLENGE "&code_challenge=" VERIFIER "&code_challenge_method=plain",
              POPLARCHIME_ALLOW, 1000, 0x60, POPLARCHIME_INVALID_REQUEST,
              "https://barn.example/r?x=1&error=invalid_request");
    title("A client with a secret may send one too, and is then held to it");
    redirects(host, QUERY "&code_challenge=" CHALLENGE "&code_challenge_method=S256", POPLARCHIME_ALLOW, 1000, 0x60,
              POPLARCHIME_NO_ERROR, "https://client.example.com/cb?code=" NEXT_CODE "&state=xyz");
    replies(host, BASIC, EXCHANGE_OF(NEXT_CODE), 1000, 0x80, 400, 0, INVALID_GRANT);
    replies(host, BASIC, EXCHANGE_OF(NEXT_CODE) "&code_verifier=" VERIFIER, 1000, 0x80, 200, 0,
            TOKENS(NEXT_ACCESS, NEXT_REFRESH, "power peak bill"));
}

#define BARN_REFRESH "grant_type=refresh_token&refresh_token=" REFRESH "&client_id=barnapp"

static void code_shown_twice(struct host *host)
{
    start(host);
    title("The owner allows the public client, and a thief on the phone itself reads both the code and the verifier");
    redirects(host, BARN_QUERY, POPLARCHIME_ALLOW, 1000, 0x00, POPLARCHIME_NO_ERROR,
              "https://barn.example/r?x=1&code=" CODE);
    title("The thief is first: he has all that the app has, so he gets its tokens, and refreshes at once");
    replies(host, "", BARN_EXCHANGE, 1001, 0x20, 200, 0, TOKENS_FOR("power"));
    replies(host, "", BARN_REFRESH, 1001, 0x50, 200, 0, ONE_TOKEN(LATER_ACCESS, "power"));
    is_live(host, ACCESS, 1001, 1, 1, 3600);
    is_live(host, LATER_ACCESS, 1001, 1, 1, 3600);
    title("Another client shows the code, which is not its own: it is refused, and nothing else happens");
    replies(host, BASIC, "grant_type=authorization_code&code=" CODE, 1002, 0x80, 400, 0, INVALID_GRANT);
    is_live(host, ACCESS, 1002, 1, 1, 3599);
    title("The owner's app shows the code and is refused: the code is spent. Somebody else has it, so it has leaked ...");
    struct host copy = *host;
    replies(host, "", BARN_EXCHANGE, 1003, 0x80, 400, 0, INVALID_GRANT);
    title("... and every token that came from it is dead: at the check, and for another refresh");
    is_not_live(host, ACCESS, 1003);
    is_not_live(host, LATER_ACCESS, 1003);
    replies(host, "", BARN_REFRESH, 1003, 0x80, 400, 0, INVALID_GRANT);
    title("The app asks the owner again, and the new code is good");
    redirects(host, BARN_QUERY, POPLARCHIME_ALLOW, 1010, 0x60, POPLARCHIME_NO_ERROR,
              "https://barn.example/r?x=1&code=" NEXT_CODE);
    replies(host, "", BARN_EXCHANGE_OF(NEXT_CODE), 1010, 0x80, 200, 0, TOKENS(NEXT_ACCESS, NEXT_REFRESH, "power"));
    is_live(host, NEXT_ACCESS, 1010, 1, 1, 3600);
    title("At 1600 the code would have run out, and from then on showing it does nothing (on a copy of the store)");
    replies(&copy, "", BARN_EXCHANGE, 1600, 0x80, 400, 0, INVALID_GRANT);
    is_live(&copy, ACCESS, 1600, 1, 1, 3001);
}

/* An autumn night: the office clock shows two o'clock, and an hour later it shows two o'clock again. */
#define TWO_OCLOCK 10000
#define AN_HOUR 3600
#define REVOKE_REFRESH "token=" REFRESH "&token_type_hint=refresh_token"

/* Two apps read the farm; the first one has refreshed, so that it has two access tokens. */
static void two_apps_read(struct host *host, uint64_t clock)
{
    title("The farmer allows two apps. The first one has refreshed already, and has two access tokens");
    redirects(host, QUERY, POPLARCHIME_ALLOW, clock, 0x00, POPLARCHIME_NO_ERROR,
              "https://client.example.com/cb?code=" CODE "&state=xyz");
    replies(host, BASIC, EXCHANGE, clock, 0x20, 200, 0, TOKENS_FOR("power peak bill"));
    replies(host, BASIC, "grant_type=refresh_token&refresh_token=" REFRESH, clock, 0x50, 200, 0,
            ONE_TOKEN(LATER_ACCESS, "power peak bill"));
    redirects(host, BARN_QUERY, POPLARCHIME_ALLOW, clock, 0x60, POPLARCHIME_NO_ERROR,
              "https://barn.example/r?x=1&code=" NEXT_CODE);
    replies(host, "", BARN_EXCHANGE_OF(NEXT_CODE), clock, 0x80, 200, 0, TOKENS(NEXT_ACCESS, NEXT_REFRESH, "power"));
    is_live(host, ACCESS, clock, 0, 11, 3600);
    is_live(host, LATER_ACCESS, clock, 0, 11, 3600);
    is_live(host, NEXT_ACCESS, clock, 1, 1, 3600);
}

/* Neither of the first app's access tokens reads anything, and its refresh token brings no other. */
static void first_app_is_out(struct host *host, uint64_t clock)
{
    is_not_live(host, ACCESS, clock);
    is_not_live(host, LATER_ACCESS, clock);
    replies(host, BASIC, "grant_type=refresh_token&refresh_token=" REFRESH, clock, 0xb0, 400, 0, INVALID_GRANT);
}

static void farmer_changes_his_mind(struct host *host)
{
    start(host);
    two_apps_read(host, TWO_OCLOCK);
    title("A stranger cannot revoke what is not his: it is refused, and the app reads on");
    revocation_replies(host, "", REVOKE_REFRESH "&client_id=barnapp", TWO_OCLOCK + 10, 400, 0, INVALID_GRANT);
    is_live(host, ACCESS, TWO_OCLOCK + 10, 0, 11, 3590);
    title("Nor can one who claims to be the app and has not its secret");
    revocation_replies(host, "Basic nonsense", REVOKE_REFRESH, TWO_OCLOCK + 10, 401, 1, INVALID_CLIENT);
    revocation_replies(host, "", REVOKE_REFRESH "&client_id=s6BhdRkqt3", TWO_OCLOCK + 10, 401, 0, INVALID_CLIENT);
    title("The farmer shows the first app the door. The portal tells its firm, and the firm revokes its refresh token ...");
    revocation_replies(host, BASIC, REVOKE_REFRESH, TWO_OCLOCK + 20, 200, 0, "");
    title("... and its next reading is refused, also with the access token that it got by a refresh");
    first_app_is_out(host, TWO_OCLOCK + 20);
    title("The hour is nearly over when the clock is set back. In the second two o'clock the app is out as in the first");
    is_not_live(host, ACCESS, TWO_OCLOCK + AN_HOUR - 30);
    first_app_is_out(host, TWO_OCLOCK);
    first_app_is_out(host, TWO_OCLOCK + 30);
    title("The other app of the same farm still reads");
    is_live(host, NEXT_ACCESS, TWO_OCLOCK + 30, 1, 1, 30);
    title("To revoke a token once more does no harm, and so it is with one that nobody knows: 200, and nothing changes");
    struct host before = *host;
    revocation_replies(host, BASIC, REVOKE_REFRESH, TWO_OCLOCK + 30, 200, 0, "");
    revocation_replies(host, BASIC, "token=45ghiukldjahdnhzdauz&token_type_hint=refresh_token", TWO_OCLOCK + 30, 200, 0,
                       "");
    printf("   and the store is as it was\n");
    judge(memcmp(host->store, before.store, sizeof host->store) == 0, "an untouched store");
    title("A public app names itself alone. It gives up an access token, and keeps the refresh token");
    revocation_replies(host, "", "token=" NEXT_ACCESS "&client_id=barnapp", TWO_OCLOCK + 30, 200, 0, "");
    is_not_live(host, NEXT_ACCESS, TWO_OCLOCK + 30);
    replies(host, "", "grant_type=refresh_token&refresh_token=" NEXT_REFRESH "&client_id=barnapp", TWO_OCLOCK + 30,
            0x20, 200, 0, ONE_TOKEN(ACCESS, "power"));
    is_live(host, ACCESS, TWO_OCLOCK + 30, 1, 1, 3600);
}

/* Base64 of `grainpool:wheat4barley`. */
#define POOL_BASIC "Basic Z3JhaW5wb29sOndoZWF0NGJhcmxleQ=="

static void client_for_itself(struct host *host)
{
    start(host);
    /* Registered at the end, so that the others keep their numbers; its redirect is not used here. */
    add_client(host, "grainpool", "https://pool.example/cb", POPLARCHIME_SCOPE_PUMP + POPLARCHIME_SCOPE_SOLAR,
               "wheat4barley");
    title("The grain pool's server reads its own pump meters: it asks with its own secret, and no farmer is asked");
    replies(host, POOL_BASIC, "grant_type=client_credentials&scope=pump", 1000, 0x20, 200, 0,
            ONE_TOKEN(ACCESS, "pump"));
    title("The portal checks the token: client 2 for pump, and farm 0, which is no farmer's");
    is_live_for(host, NO_FARM, ACCESS, 1000, 2, POPLARCHIME_SCOPE_PUMP, 3600);
    title("Without a scope the server gets all that it is registered for; there is nothing to refresh, it asks again");
    replies(host, POOL_BASIC, "grant_type=client_credentials", 4599, 0x50, 200, 0,
            ONE_TOKEN(LATER_ACCESS, "pump solar"));
    is_live_for(host, NO_FARM, LATER_ACCESS, 4599, 2, POPLARCHIME_SCOPE_PUMP + POPLARCHIME_SCOPE_SOLAR, 3600);
    title("The first token runs out after its hour");
    is_live_for(host, NO_FARM, ACCESS, 4599, 2, POPLARCHIME_SCOPE_PUMP, 1);
    is_not_live(host, ACCESS, 4600);
    title("For other readings it is not registered");
    replies(host, POOL_BASIC, "grant_type=client_credentials&scope=pump+bill", 4600, 0x80, 400, 0, INVALID_SCOPE);
    title("Anybody can name a public client, so it cannot ask for itself");
    replies(host, "", "grant_type=client_credentials&client_id=barnapp", 4600, 0x80, 400, 0, UNAUTHORIZED_CLIENT);
    title("No owner can allow farm 0: his decision counts as a denial");
    redirects_for(host, NO_FARM, QUERY, POPLARCHIME_ALLOW, 4600, 0x80, POPLARCHIME_ACCESS_DENIED,
                  "https://client.example.com/cb?error=access_denied&state=xyz");
}

/* Base64 of `dryerapp:a%25b`, which is `dryerapp` and `a%b` form-coded; and of `dryerapp:a%b`, as it stands. */
#define DRYER_BASIC "Basic ZHJ5ZXJhcHA6YSUyNWI="
#define DRYER_BASIC_UNCODED "Basic ZHJ5ZXJhcHA6YSVi"

static void secret_with_a_percent_sign(struct host *host)
{
    start(host);
    add_client(host, "dryerapp", "https://dryer.example/cb", POPLARCHIME_SCOPE_DRYING, "a%b");
    title("The secret is a%b. The app's library form-codes id and secret before base64, and so it sends a%25b");
    replies(host, DRYER_BASIC, "grant_type=client_credentials", 1000, 0x20, 200, 0, ONE_TOKEN(ACCESS, "drying"));
    is_live_for(host, NO_FARM, ACCESS, 1000, 2, POPLARCHIME_SCOPE_DRYING, 3600);
    title("Sent as it stands it is malformed: no two hex digits follow the percent sign");
    replies(host, DRYER_BASIC_UNCODED, "grant_type=client_credentials", 1000, 0x50, 401, 1, INVALID_CLIENT);
    title("The body is a form, and there it is coded the same way");
    replies(host, "", "grant_type=client_credentials&client_id=dryerapp&client_secret=a%25b", 1000, 0x50, 200, 0,
            ONE_TOKEN(LATER_ACCESS, "drying"));
}

/* So many slots a store had before version 0.6.0, and at harvest they ran out. */
#define FORMER_SLOTS 512

/* So many owners allow the app, one after the other; each must get a code. */
static void crowd_comes(struct host *host, uint32_t first, uint32_t owners, uint64_t clock)
{
    uint32_t codes = 0;
    for (uint32_t number = first; number < first + owners; number++) {
        uint8_t random[POPLARCHIME_AUTHORIZE_RANDOM];
        memset(random, 0xcc, sizeof random);
        memcpy(random, &number, sizeof number);
        struct poplarchime_authorization answer =
            poplarchime_authorize((const uint8_t *)QUERY, strlen(QUERY), POPLARCHIME_ALLOW, FARM, host->registry,
                                  host->registry_length, host->store, sizeof host->store, clock, random,
                                  sizeof random, host->output, sizeof host->output);
        codes += answer.refusal == POPLARCHIME_NOT_REFUSED && answer.error == POPLARCHIME_NO_ERROR;
    }
    printf("   clock %" PRIu64 ", %" PRIu32 " owners allow the app\n   < %" PRIu32 " codes\n", clock, owners, codes);
    judge(codes == owners, "a code for each");
}

static void harvest_crowd(struct host *host)
{
    start(host);
    title("At harvest every farmer wants his readings at once: as many visits as the store once had slots ...");
    crowd_comes(host, 0, FORMER_SLOTS, 1000);
    title("... and one more, which would have been sent away: it gets its code");
    redirects(host, QUERY, POPLARCHIME_ALLOW, 1300, 0x00, POPLARCHIME_NO_ERROR,
              "https://client.example.com/cb?code=" CODE "&state=xyz");
    title("The crowd goes on until every slot of today is taken ...");
    crowd_comes(host, FORMER_SLOTS, POPLARCHIME_STORE_SLOTS - FORMER_SLOTS - 1, 1300);
    title("... and then the next visit is sent back with a word that says: later");
    redirects(host, QUERY, POPLARCHIME_ALLOW, 1400, 0x60, POPLARCHIME_TEMPORARILY_UNAVAILABLE,
              "https://client.example.com/cb?error=temporarily_unavailable&state=xyz");
    title("An exchange needs two slots for its tokens. It gets 503 and no body ...");
    struct host before = *host;
    replies(host, BASIC, EXCHANGE, 1400, 0x20, 503, 0, "");
    printf("   and the store is as it was: nothing is spent\n");
    judge(memcmp(host->store, before.store, sizeof host->store) == 0, "an untouched store");
    title("... and a second before the first codes run out it is no different");
    replies(host, BASIC, EXCHANGE, 1599, 0x20, 503, 0, "");
    title("At 1600 they have run out, and there is room: the same exchange goes through, and so does a new visit");
    replies(host, BASIC, EXCHANGE, 1600, 0x20, 200, 0, TOKENS_FOR("power peak bill"));
    is_live(host, ACCESS, 1600, 0, 11, 3600);
    redirects(host, QUERY, POPLARCHIME_ALLOW, 1600, 0x60, POPLARCHIME_NO_ERROR,
              "https://client.example.com/cb?code=" NEXT_CODE "&state=xyz");
}

/* A state of 64 plain bytes, which is read at a go. */
#define LONG_STATE "0123456789abcdefghijklmnopqrstuvwxyzABCDEFGHIJKLMNOPQRSTUVWXYZ-."
/* https://client.example.com/cb with each byte escaped. */
#define ESCAPED_REDIRECT \
    "%68%74%74%70%73%3a%2f%2f%63%6c%69%65%6e%74" \
    "%2e%65%78%61%6d%70%6c%65%2e%63%6f%6d%2f%63%62"

static void values_in_any_writing(struct host *host)
{
    start(host);
    title("Nearly all values are plain: they are read at a go, and a state comes back as it was sent");
    redirects(host, BARN_QUERY "&state=" LONG_STATE, POPLARCHIME_ALLOW, 1000, 0x00, POPLARCHIME_NO_ERROR,
              "https://barn.example/r?x=1&code=" CODE "&state=" LONG_STATE);
    title("With spaces and a percent sign between two stretches it is read the same way");
    redirects(host, BARN_QUERY "&state=" LONG_STATE "+100%25+" LONG_STATE, POPLARCHIME_ALLOW, 1000, 0x60,
              POPLARCHIME_NO_ERROR,
              "https://barn.example/r?x=1&code=" NEXT_CODE "&state=" LONG_STATE "+100%25+" LONG_STATE);
    start(host);
    title("A redirect may be written as it stands, or with each byte escaped: it is the registered one");
    redirects(host, "response_type=code&client_id=s6BhdRkqt3&redirect_uri=https://client.example.com/cb",
              POPLARCHIME_ALLOW, 1000, 0x00, POPLARCHIME_NO_ERROR, "https://client.example.com/cb?code=" CODE);
    redirects(host, "response_type=code&client_id=s6BhdRkqt3&redirect_uri=" ESCAPED_REDIRECT, POPLARCHIME_ALLOW, 1000,
              0x60, POPLARCHIME_NO_ERROR, "https://client.example.com/cb?code=" NEXT_CODE);
}

static void bad_requests(struct host *host)
{
    start(host);
    title("A redirect that was never registered: no redirect at all");
    shows_page(host, "response_type=code&client_id=barnapp&redirect_uri=https%3A%2F%2Fevil.example%2F",
               POPLARCHIME_REFUSED_REDIRECT, "redirect_uri is not the registered one");
    title("A client that nobody knows");
    shows_page(host, "response_type=code&client_id=nobody", POPLARCHIME_REFUSED_CLIENT, "unknown client");
    title("A malformed query");
    shows_page(host, "response_type=code&client_id=barnapp&a=%4", POPLARCHIME_REFUSED_QUERY, "malformed query");
    title("A scope with two spaces");
    redirects(host, QUERY "&scope=power++bill", POPLARCHIME_ALLOW, 1000, 0x00, POPLARCHIME_INVALID_SCOPE,
              "https://client.example.com/cb?error=invalid_scope&state=xyz");
    title("A wrong secret in the body: no challenge, since no header came");
    replies(host, "", "grant_type=refresh_token&client_id=s6BhdRkqt3&client_secret=wrong", 1000, 0x20, 401, 0,
            INVALID_CLIENT);
}

/* What the host itself does wrong is refused with 1 to 4, and changes nothing. */
static void refuses(const char *what, uint32_t refusal, uint32_t expected)
{
    char right[32];
    snprintf(right, sizeof right, "refusal %" PRIu32, expected);
    printf("   > %s\n   < refusal %" PRIu32 "\n", what, refusal);
    judge(refusal == expected, right);
}

/* A check with a store of this length. */
static void refuses_store(struct host *host, const char *what, size_t length)
{
    refuses(what,
            poplarchime_check(NULL, 0, host->registry, host->registry_length, host->store, length, 1000).refusal,
            POPLARCHIME_REFUSED_STORE);
}

static void bad_hosts(struct host *host)
{
    start(host);
    static const uint8_t fresh[POPLARCHIME_STORE_SIZE];
    const uint8_t *query = (const uint8_t *)QUERY;
    uint8_t random[POPLARCHIME_AUTHORIZE_RANDOM] = {0};
    title("A host that makes mistakes");
    refuses("an output of 1,023 bytes",
            poplarchime_authorize(query, strlen(QUERY), POPLARCHIME_ALLOW, FARM, host->registry, host->registry_length,
                                  host->store, sizeof host->store, 1000, random, sizeof random, host->output,
                                  sizeof host->output - 1).refusal,
            POPLARCHIME_REFUSED_BUFFERS);
    refuses("a revocation with an output of 1,023 bytes",
            poplarchime_revoke(NULL, 0, NULL, 0, host->registry, host->registry_length, host->store,
                               sizeof host->store, 1000, host->output, sizeof host->output - 1).refusal,
            POPLARCHIME_REFUSED_BUFFERS);
    refuses("no registry", poplarchime_check(NULL, 0, NULL, 0, host->store, sizeof host->store, 1000).refusal,
            POPLARCHIME_REFUSED_REGISTRY);
    refuses_store(host, "half a store", sizeof host->store / 2);
    refuses_store(host, "a store from before version 0.4.0, of 17,928 bytes", 17928);
    refuses_store(host, "a store from before version 0.5.0, of 28,168 bytes", 28168);
    refuses_store(host, "a store from before version 0.6.0, of 34,312 bytes", 34312);
    refuses("a clock beyond 2^40",
            poplarchime_check(NULL, 0, host->registry, host->registry_length, host->store, sizeof host->store,
                              POPLARCHIME_CLOCK_LIMIT + 1).refusal,
            POPLARCHIME_REFUSED_CLOCK);
    printf("   and the store is as it was\n");
    judge(memcmp(host->store, fresh, sizeof fresh) == 0, "an untouched store");
}

int main(void)
{
    static struct host host;
    printf("A visit to the authorization server.\n");
    confidential_client(&host);
    time_that_never_goes_back(&host);
    public_client(&host);
    phone_app_without_a_secret(&host);
    code_shown_twice(&host);
    farmer_changes_his_mind(&host);
    client_for_itself(&host);
    secret_with_a_percent_sign(&host);
    harvest_crowd(&host);
    values_in_any_writing(&host);
    bad_requests(&host);
    bad_hosts(&host);
    printf("\n%d passed, %d failed\n", passed, failed);
    return failed == 0 ? 0 : 1;
}
