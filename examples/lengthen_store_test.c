/*
 * Holds lengthen_store to what it says: `lengthen_store_test PROGRAM`, with the path of the built program.
 *
 * Former stores are made with the library: it fills a store of today from the front, and the first bytes of that are a
 * store of version 0.5.0. Each case runs the program in a folder of its own and looks at what it says and leaves; OLD
 * must be untouched after every one. The last line is 'N passed, M failed', and the exit status is 0 only if M is 0.
 * `examples/run` builds and runs it.
 */
#define _XOPEN_SOURCE 700

#include <dirent.h>
#include <fcntl.h>
#include <inttypes.h>
#include <signal.h>
#include <stdarg.h>
#include <stdio.h>
#include <stdlib.h>
#include <sys/resource.h>
#include <sys/stat.h>
#include <sys/wait.h>
#include <unistd.h>

#include "host.h"
#include "poplarchime.h"

/* The store of version 0.5.0, once more and apart from the program's. */
#define FORMER_SIZE 34312
#define FORMER_SLOTS 512

enum { DONE = 0, REFUSED = 1, BAD_USAGE = 2 };

static int passed, failed;

/* ---- Judging ---- */

static void title(const char *text)
{
    printf("\n%s\n", text);
}

static void judge(int right, const char *format, ...)
{
    va_list arguments;
    va_start(arguments, format);
    printf("   %s: ", right ? "ok" : "WRONG");
    vprintf(format, arguments);
    printf("\n");
    va_end(arguments);
    *(right ? &passed : &failed) += 1;
}

#define OUT "said"
#define ERR "complained"

/* A fresh folder, in which the test works: all names are relative to it. */
static char folder[] = "/tmp/lengthen_store_test.XXXXXX";

/*
 * Clears up and gives the exit status. Only called inside the folder: elsewhere the names may be somebody's files. One
 * that no case should have made keeps the folder from being removed.
 */
static int finish(void)
{
    static const char *const names[] = {"registry", "old", "new", "other", "link", "nowhere", "missing", "folder/new",
                                        OUT, ERR};
    for (size_t i = 0; i < sizeof names / sizeof names[0]; i++)
        unlink(names[i]);
    rmdir("folder");
    judge(chdir("/") == 0 && rmdir(folder) == 0, "nothing is left in the test's folder");
    printf("\n%d passed, %d failed\n", passed, failed);
    return failed == 0 ? 0 : 1;
}

/* What the cases rest on must work; without it the others say nothing. */
static void must(int right, const char *what)
{
    if (!right) {
        judge(0, "%s is needed for all that follows", what);
        exit(finish());
    }
}

/* ---- Files ---- */

/* More than any file of this test has. */
#define MOST (2 * POPLARCHIME_STORE_SIZE)

struct contents {
    size_t length;
    uint8_t bytes[MOST];
};

static void put(const char *name, const void *bytes, size_t length)
{
    FILE *file = fopen(name, "wb");
    must(file && fwrite(bytes, 1, length, file) == length && fclose(file) == 0, name);
}

/* False if it cannot be read. */
static int get(const char *name, struct contents *contents)
{
    FILE *file = fopen(name, "rb");
    contents->length = file ? fread(contents->bytes, 1, sizeof contents->bytes, file) : 0;
    return file && fclose(file) == 0;
}

static int exists(const char *name)
{
    struct stat status;
    return lstat(name, &status) == 0;
}

static unsigned entries(void)
{
    unsigned count = 0;
    DIR *here = opendir(".");
    must(here != NULL, "opendir");
    while (readdir(here))
        count++;
    closedir(here);
    return count;
}

static int all_zero(const uint8_t *bytes, size_t length)
{
    for (size_t i = 0; i < length; i++)
        if (bytes[i] != 0)
            return 0;
    return 1;
}

/* ---- Running the program ---- */

static char *program;

/* A file may grow to so many bytes; a longer write stops there, and the next one fails. */
static rlim_t file_limit = RLIM_INFINITY;

static void be_program(const char *const *arguments)
{
    struct rlimit limit = {file_limit, file_limit};
    int out = open(OUT, O_WRONLY | O_TRUNC), err = open(ERR, O_WRONLY | O_TRUNC);
    /* No umask helps the program to keep the store secret. */
    umask(0);
    /* A write beyond the limit is to fail, as on a full disk, and not to end the program. */
    signal(SIGXFSZ, SIG_IGN);
    if (out < 0 || err < 0 || dup2(out, 1) < 0 || dup2(err, 2) < 0 || setrlimit(RLIMIT_FSIZE, &limit) != 0)
        _exit(100);
    execv(program, (char *const *)arguments);
    _exit(101);
}

/* Its exit status; -1 if it did not end by itself. */
static int run_with(const char *const *arguments)
{
    int status;
    fflush(stdout);
    pid_t child = fork();
    must(child >= 0, "fork");
    if (child == 0)
        be_program(arguments);
    must(waitpid(child, &status, 0) == child, "waitpid");
    return WIFEXITED(status) ? WEXITSTATUS(status) : -1;
}

/* One line with these words in it, and nothing behind it. */
static int is_line_with(const char *name, const char *words)
{
    static struct contents said;
    if (!get(name, &said) || said.length == 0 || said.length == MOST)
        return 0;
    said.bytes[said.length] = 0;
    const char *line = (const char *)said.bytes;
    return strchr(line, '\n') == line + said.length - 1 && strstr(line, words) != NULL;
}

static int is_empty(const char *name)
{
    static struct contents said;
    return get(name, &said) && said.length == 0;
}

/* Status, and one line on the right side that says why. */
static void runs(const char *what, const char *const *arguments, int expected, const char *words)
{
    int status = run_with(arguments);
    const char *line = expected == DONE ? OUT : ERR, *nothing = expected == DONE ? ERR : OUT;
    judge(status == expected && is_line_with(line, words) && is_empty(nothing), "%s: status %d, '%s'", what, expected,
          words);
}

/* ---- OLD is never changed ---- */

static struct contents old_bytes;
static struct stat old_status;

static void remember(const char *old)
{
    /* A time long ago, so that every write would be seen. */
    struct timespec times[2] = {{1000, 0}, {1000, 0}};
    must(utimensat(AT_FDCWD, old, times, 0) == 0 && stat(old, &old_status) == 0 && get(old, &old_bytes), old);
}

static void is_as_before(const char *old)
{
    static struct contents now;
    struct stat status;
    int same = get(old, &now) && stat(old, &status) == 0 && status.st_ino == old_status.st_ino
               && status.st_size == old_status.st_size && status.st_mode == old_status.st_mode
               && status.st_mtim.tv_sec == old_status.st_mtim.tv_sec
               && status.st_mtim.tv_nsec == old_status.st_mtim.tv_nsec && now.length == old_bytes.length
               && memcmp(now.bytes, old_bytes.bytes, now.length) == 0;
    judge(same, "   and OLD is byte for byte the file that it was");
}

/* ---- A host, quietly ---- */

#define QUERY "response_type=code&client_id=s6BhdRkqt3"
#define WITH_REDIRECT "&redirect_uri=https://client.example.com/cb"
#define WITH_CHALLENGE "&code_challenge=" CHALLENGE "&code_challenge_method=S256"
#define BARN_QUERY "response_type=code&client_id=barnapp" WITH_CHALLENGE
#define EXCHANGE "grant_type=authorization_code&code="
#define REFRESH "grant_type=refresh_token&refresh_token="
#define CREDENTIALS "grant_type=client_credentials"

/* Codes and tokens have numbers, so that each is issued once and can be named. */
static void handle_of(uint32_t number, uint8_t handle[20])
{
    memset(handle, 0x5a, 20);
    for (int i = 0; i < 4; i++)
        handle[i] = (uint8_t)(number >> (24 - 8 * i));
}

static void text_of(uint32_t number, char text[POPLARCHIME_TOKEN_LENGTH + 1])
{
    uint8_t handle[20];
    handle_of(number, handle);
    for (int i = 0; i < 20; i++)
        snprintf(text + 2 * i, 3, "%02x", handle[i]);
}

/* The error of an authorization that the owner allows, 0 for the code of this number. */
static uint32_t allow(struct host *host, const char *query, uint64_t clock, uint32_t number)
{
    uint8_t random[POPLARCHIME_AUTHORIZE_RANDOM];
    handle_of(number, random);
    struct poplarchime_authorization answer =
        poplarchime_authorize((const uint8_t *)query, strlen(query), POPLARCHIME_ALLOW, FARM, host->registry,
                              host->registry_length, host->store, sizeof host->store, clock, random, sizeof random,
                              host->output, sizeof host->output);
    must(answer.refusal == POPLARCHIME_NOT_REFUSED, "an authorization was refused");
    return answer.error;
}

/* The status of a request that shows the code or token of a number, if `shown` ends in `=`; tokens get `number` on. */
static uint32_t ask(struct host *host, const char *header, const char *shown, uint32_t shown_number, const char *rest,
                    uint64_t clock, uint32_t number)
{
    uint8_t random[POPLARCHIME_TOKEN_RANDOM];
    char text[POPLARCHIME_TOKEN_LENGTH + 1] = "", body[400];
    handle_of(number, random);
    handle_of(number + 1, random + 20);
    if (shown[strlen(shown) - 1] == '=')
        text_of(shown_number, text);
    int length = snprintf(body, sizeof body, "%s%s%s", shown, text, rest);
    struct poplarchime_token_reply reply =
        poplarchime_token((const uint8_t *)header, strlen(header), (const uint8_t *)body, (size_t)length,
                          host->registry, host->registry_length, host->store, sizeof host->store, clock, random,
                          sizeof random, host->output, sizeof host->output);
    must(reply.refusal == POPLARCHIME_NOT_REFUSED, "a token request was refused");
    return reply.status;
}

static struct poplarchime_check_answer check(struct host *host, uint32_t number, uint64_t clock)
{
    char text[POPLARCHIME_TOKEN_LENGTH + 1];
    text_of(number, text);
    return poplarchime_check((const uint8_t *)text, strlen(text), host->registry, host->registry_length, host->store,
                             sizeof host->store, clock);
}

static int same_answer(struct poplarchime_check_answer one, struct poplarchime_check_answer other)
{
    return one.refusal == other.refusal && one.live == other.live && one.client == other.client
           && one.farm == other.farm && one.scope == other.scope && one.seconds_left == other.seconds_left;
}

static int is_live(struct host *host, uint32_t number, uint64_t clock, uint32_t farm, uint64_t seconds_left)
{
    struct poplarchime_check_answer expected = {0, 1, 0, farm, 11, seconds_left};
    return same_answer(check(host, number, clock), expected);
}

static int is_dead(struct host *host, uint32_t number, uint64_t clock)
{
    struct poplarchime_check_answer expected = {0, 0, 0, 0, 0, 0};
    return same_answer(check(host, number, clock), expected);
}

/* ---- A store with something of everything ---- */

/* The clock at its last call, and what is live then. The first token has run out, and the first code. */
#define STORED_TIME 4700
#define LIVE_SLOTS 9

enum {
    OLD_ACCESS = 1,
    OLD_CODE,
    PLAIN_CODE,
    BOUND_CODE,
    PKCE_CODE,
    BOUND_PKCE_CODE,
    SPENT_CODE,
    ACCESS_TOKEN,
    REFRESH_TOKEN,
    LATER_ACCESS,
    OWN_TOKEN,
    /* To be issued in the new store. */
    NEW_HANDLES = 100
};

static void visits(struct host *host)
{
    start(host);
    must(ask(host, BASIC, CREDENTIALS, 0, "", 1000, OLD_ACCESS) == 200, "an access token that runs out at 4600");
    must(allow(host, QUERY, 4050, OLD_CODE) == 0, "a code that runs out at 4650");
    must(allow(host, QUERY, 4500, PLAIN_CODE) == 0, "a code");
    must(allow(host, QUERY WITH_REDIRECT, 4500, BOUND_CODE) == 0, "a code bound to its redirect");
    must(allow(host, BARN_QUERY, 4500, PKCE_CODE) == 0, "a code with a challenge");
    must(allow(host, QUERY WITH_REDIRECT WITH_CHALLENGE, 4500, BOUND_PKCE_CODE) == 0, "a code with both");
    must(allow(host, QUERY, 4500, SPENT_CODE) == 0, "a code to be spent");
    must(ask(host, BASIC, EXCHANGE, SPENT_CODE, "", 4500, ACCESS_TOKEN) == 200, "an exchange");
    must(ask(host, BASIC, REFRESH, REFRESH_TOKEN, "", 4500, LATER_ACCESS) == 200, "a refresh");
    must(ask(host, BASIC, CREDENTIALS, 0, "", 4500, OWN_TOKEN) == 200, "a client's token for itself");
    must(is_dead(host, OLD_ACCESS, STORED_TIME), "time passes");
}

/* Every former slot in use: visits of three slots each, and codes in the last ones. */
#define CROWD_VISITS (FORMER_SLOTS / 3)

static void crowd(struct host *host)
{
    start(host);
    for (uint32_t visit = 0; visit < CROWD_VISITS; visit++) {
        must(allow(host, QUERY, 1000, 3 * visit) == 0, "a code of the crowd");
        must(ask(host, BASIC, EXCHANGE, 3 * visit, "", 1000, 3 * visit + 1) == 200, "an exchange of the crowd");
    }
    for (uint32_t number = 3 * CROWD_VISITS; number < FORMER_SLOTS; number++)
        must(allow(host, QUERY, 1000, number) == 0, "a last code of the crowd");
}

/* The host's registry, and the former part of its store as OLD. */
static void put_former(const struct host *host)
{
    judge(all_zero(host->store + FORMER_SIZE, sizeof host->store - FORMER_SIZE),
          "slots are filled from the front: nothing stands behind the former ones");
    put("registry", host->registry, host->registry_length);
    put("old", host->store, FORMER_SIZE);
}

/* ---- What is taken over ---- */

/* Runs the program, which says how many slots are live, and takes the new store over from the file. */
static void lengthens(const char *what, struct host *host, unsigned live, uint64_t stored_time)
{
    static struct contents new;
    struct stat status;
    char words[100];
    const char *arguments[] = {program, "registry", "old", "new", NULL};
    snprintf(words, sizeof words, "at the stored time, %" PRIu64 ", %u of %d slots are live", stored_time, live,
             POPLARCHIME_STORE_SLOTS);
    remember("old");
    runs(what, arguments, DONE, words);
    is_as_before("old");
    judge(get("new", &new) && new.length == POPLARCHIME_STORE_SIZE, "   NEW has the size of today");
    judge(memcmp(new.bytes, old_bytes.bytes, FORMER_SIZE) == 0, "   it begins with the bytes of OLD");
    judge(all_zero(new.bytes + FORMER_SIZE, POPLARCHIME_STORE_SIZE - FORMER_SIZE), "   zeros stand behind them");
    judge(stat("new", &status) == 0 && S_ISREG(status.st_mode) && (status.st_mode & 07777) == 0600,
          "   it is for the host alone");
    memcpy(host->store, new.bytes, sizeof host->store);
    unlink("new");
}

static void fresh_store(void)
{
    static struct host host;
    title("A fresh store");
    start(&host);
    put_former(&host);
    lengthens("a fresh store", &host, 0, 0);
    judge(all_zero(host.store, sizeof host.store), "it is a fresh store again");
    judge(allow(&host, QUERY, 1000, 1) == 0, "a code is issued in it");
}

/* The check answers as it did before the program ran, and as the calls say. */
static void tokens_live_on(const struct host *before, const struct host *after)
{
    static const struct {
        uint32_t number, farm;
    } tokens[] = {{ACCESS_TOKEN, FARM}, {LATER_ACCESS, FARM}, {OWN_TOKEN, NO_FARM}};
    for (size_t i = 0; i < sizeof tokens / sizeof tokens[0]; i++) {
        struct host one = *before, other = *after;
        struct poplarchime_check_answer answer = check(&one, tokens[i].number, 4710);
        judge(same_answer(answer, check(&other, tokens[i].number, 4710)), "token %" PRIu32 " as before",
              tokens[i].number);
        judge(is_live(&other, tokens[i].number, 8099, tokens[i].farm, 1), "   it lives until its old expiry");
        judge(is_dead(&other, tokens[i].number, 8100), "   and no longer");
    }
}

static void codes_live_on(const struct host *after)
{
    struct host host = *after;
    judge(ask(&host, BASIC, EXCHANGE, PLAIN_CODE, "", 5099, NEW_HANDLES) == 200, "the code is exchanged");
    judge(is_live(&host, NEW_HANDLES, 5099, FARM, 3600), "   its token is live");
    host = *after;
    judge(ask(&host, BASIC, EXCHANGE, PLAIN_CODE, "", 5100, NEW_HANDLES) == 400, "   not when it has run out");
    host = *after;
    judge(ask(&host, BASIC, EXCHANGE, BOUND_CODE, "", 4710, NEW_HANDLES) == 400, "a bound code needs its redirect");
    judge(ask(&host, BASIC, EXCHANGE, BOUND_CODE, WITH_REDIRECT, 4710, NEW_HANDLES) == 200, "   and has it");
    judge(ask(&host, BASIC, REFRESH, REFRESH_TOKEN, "", 4710, NEW_HANDLES + 10) == 200, "the refresh token refreshes");
    judge(is_live(&host, NEW_HANDLES + 10, 4710, FARM, 3600), "   the token is live");
}

static void challenges_live_on(const struct host *after)
{
    struct host host = *after;
    judge(ask(&host, "", EXCHANGE, PKCE_CODE, "&client_id=barnapp", 4710, NEW_HANDLES) == 400,
          "a code with a challenge is not exchanged without its verifier");
    judge(ask(&host, "", EXCHANGE, PKCE_CODE, "&client_id=barnapp&code_verifier=" CHALLENGE, 4710, NEW_HANDLES) == 400,
          "   nor with another");
    judge(ask(&host, "", EXCHANGE, PKCE_CODE, "&client_id=barnapp&code_verifier=" VERIFIER, 4710, NEW_HANDLES) == 200,
          "   but with its own");
    host = *after;
    judge(ask(&host, BASIC, EXCHANGE, BOUND_PKCE_CODE, WITH_REDIRECT, 4710, NEW_HANDLES) == 400,
          "a code with both needs both");
    judge(ask(&host, BASIC, EXCHANGE, BOUND_PKCE_CODE, WITH_REDIRECT "&code_verifier=" VERIFIER, 4710, NEW_HANDLES)
              == 200, "   and has both");
}

static void spent_code_withdraws(const struct host *after)
{
    struct host host = *after;
    judge(ask(&host, BASIC, EXCHANGE, SPENT_CODE, "", 4710, NEW_HANDLES) == 400, "the spent code is not exchanged");
    judge(is_dead(&host, ACCESS_TOKEN, 4710) && is_dead(&host, LATER_ACCESS, 4710),
          "   and what came from it is withdrawn");
    judge(ask(&host, BASIC, REFRESH, REFRESH_TOKEN, "", 4710, NEW_HANDLES) == 400, "   the refresh token too");
    judge(is_live(&host, OWN_TOKEN, 4710, NO_FARM, 3390), "   and nothing else");
}

static void time_is_kept(const struct host *after)
{
    struct host host = *after;
    judge(is_dead(&host, OLD_ACCESS, 1000), "a token that had run out stays so, though the clock goes back");
    judge(ask(&host, BASIC, EXCHANGE, OLD_CODE, "", 4100, NEW_HANDLES) == 400, "a code that had run out stays so");
    judge(is_live(&host, OWN_TOKEN, 0, NO_FARM, 8100 - STORED_TIME), "the stored time counts on");
    judge(memcmp(host.store, after->store, sizeof host.store) == 0, "none of this changed a byte");
}

static void store_with_something_of_everything(void)
{
    static struct host before, after;
    title("A store with codes and tokens of every kind");
    visits(&before);
    put_former(&before);
    after = before;
    memset(after.store, 0xff, sizeof after.store);
    lengthens("a store in use", &after, LIVE_SLOTS, STORED_TIME);
    tokens_live_on(&before, &after);
    codes_live_on(&after);
    challenges_live_on(&after);
    spent_code_withdraws(&after);
    time_is_kept(&after);
}

static void full_store(void)
{
    static struct host before, after;
    title("A store in which every former slot is live");
    crowd(&before);
    judge(before.store[FORMER_SIZE - POPLARCHIME_SLOT_SIZE] != 0, "the last former slot is in use");
    put_former(&before);
    after = before;
    memset(after.store, 0xff, sizeof after.store);
    lengthens("a full store", &after, FORMER_SLOTS, 1000);
    uint32_t live = 0;
    for (uint32_t visit = 0; visit < CROWD_VISITS; visit++)
        live += is_live(&after, 3 * visit + 1, 1000, FARM, 3600);
    judge(live == CROWD_VISITS, "each of %d tokens is live", CROWD_VISITS);
    judge(ask(&after, BASIC, REFRESH, 3 * CROWD_VISITS - 1, "", 1000, 1000) == 200, "the last refresh token refreshes");
    judge(ask(&after, BASIC, EXCHANGE, FORMER_SLOTS - 1, "", 1000, 1010) == 200, "the last code is exchanged");
    uint32_t more = 0;
    while (more < POPLARCHIME_STORE_SLOTS && allow(&after, QUERY, 1000, 2000 + more) == 0)
        more++;
    judge(more == POPLARCHIME_STORE_SLOTS - FORMER_SLOTS - 3, "all further slots are taken by new codes");
    judge(is_live(&after, 1, 1000, FARM, 3600), "   and none that was in use");
}

/* ---- What is refused ---- */

/* For a reason: what the line must say. Nothing is written: the folder has no new file, and OLD is as it was. */
static void refuses(const char *what, const char *registry, const char *old, const char *new, const char *reason)
{
    const char *arguments[] = {program, registry, old, new, NULL};
    unsigned before = entries();
    int was_there = exists(new);
    remember("old");
    runs(what, arguments, REFUSED, reason);
    judge(entries() == before, "   and nothing is written");
    is_as_before("old");
    /* The next case is judged by itself. */
    if (!was_there)
        unlink(new);
}

#define WRONG_LENGTH "old is no store of version 0.5.0"
#define UNFIT_REGISTRY "the registry other is unfit"
#define UNFIT_STORE "the store is unfit"
#define NOT_MADE "cannot be made: "

static void wrong_lengths(const struct host *host)
{
    static const size_t lengths[] = {0, 8, 17928, 28168, FORMER_SIZE - POPLARCHIME_SLOT_SIZE, FORMER_SIZE - 1,
                                     FORMER_SIZE + 1, FORMER_SIZE + POPLARCHIME_SLOT_SIZE, POPLARCHIME_STORE_SIZE};
    title("Stores of another length");
    for (size_t i = 0; i < sizeof lengths / sizeof lengths[0]; i++) {
        char what[40];
        snprintf(what, sizeof what, "%zu bytes", lengths[i]);
        put("old", host->store, lengths[i]);
        refuses(what, "registry", "old", "new", WRONG_LENGTH);
    }
}

/* The last former slot of this kind. */
static uint8_t *slot_of_kind(uint8_t *store, uint8_t kind)
{
    for (int number = FORMER_SLOTS - 1; number >= 0; number--)
        if (store[8 + number * POPLARCHIME_SLOT_SIZE] == kind)
            return store + 8 + number * POPLARCHIME_SLOT_SIZE;
    must(0, "no slot of this kind");
    return NULL;
}

/* A byte at a place of the last slot of a kind; kind 0 is a free slot. */
struct damage {
    const char *what;
    uint8_t kind;
    size_t at;
    uint8_t byte;
};

static void damaged(const struct host *host)
{
    static const struct damage damages[] = {
        {"a slot of kind 8", 6, 0, 8},
        {"a slot of kind 255", 6, 0, 255},
        {"a free slot with a kind alone", 0, 0, 3},
        {"a free slot with a byte of a handle", 0, 1, 1},
        {"a free slot with a client", 0, 21, 1},
        {"a free slot with a farm", 0, 22, 1},
        {"a free slot with a scope set", 0, 26, 1},
        {"a free slot with an expiry", 0, 27, 1},
        {"a free slot with an origin", 0, 35, 1},
        {"a free slot with a last byte", 0, 66, 1},
        {"a client beyond the registry", 3, 21, 2},
        {"a refresh token without scope", 4, 26, 0},
        {"a code with an origin", 1, 35, 1},
        {"a code with a last byte", 1, 66, 1},
        {"a bound code with a last byte", 2, 66, 1},
        {"a spent code with an origin", 5, 35, 1},
        {"an access token with a byte behind its origin", 3, 55, 1},
        {"a refresh token with a last byte", 4, 66, 1},
    };
    title("Damaged stores");
    for (size_t i = 0; i < sizeof damages / sizeof damages[0]; i++) {
        struct host spoiled = *host;
        slot_of_kind(spoiled.store, damages[i].kind)[damages[i].at] = damages[i].byte;
        put("old", spoiled.store, FORMER_SIZE);
        refuses(damages[i].what, "registry", "old", "new", UNFIT_STORE);
    }
}

/* The limits of fitness from both sides. */
static void fit_or_not(const struct host *host)
{
    static const uint8_t latest[8] = {0, 0, 1, 0, 0, 0, 0, 0}, beyond[8] = {0, 0, 1, 0, 0, 0, 0, 1};
    struct host odd = *host;
    title("Limits of what is fit");
    memcpy(odd.store, latest, sizeof latest);
    put("old", odd.store, FORMER_SIZE);
    lengthens("a stored time of 2^40", &odd, 0, POPLARCHIME_CLOCK_LIMIT);
    memcpy(odd.store, beyond, sizeof beyond);
    put("old", odd.store, FORMER_SIZE);
    refuses("a stored time of 2^40 + 1", "registry", "old", "new", UNFIT_STORE);
    memset(odd.store, 0xff, 8);
    put("old", odd.store, FORMER_SIZE);
    refuses("a stored time of 2^64 - 1", "registry", "old", "new", UNFIT_STORE);
    odd = *host;
    memset(slot_of_kind(odd.store, 6) + 22, 0xff, 5 + 8 + 32);
    put("old", odd.store, FORMER_SIZE);
    lengthens("any farm, scope, expiry and challenge", &odd, LIVE_SLOTS, STORED_TIME);
}

static void registries(const struct host *host)
{
    static struct host many;
    static uint8_t long_registry[sizeof many.registry + 1];
    title("Registries");
    put("old", host->store, FORMER_SIZE);
    put("other", host->registry, 0);
    refuses("an empty registry", "other", "old", "new", UNFIT_REGISTRY);
    put("other", host->registry, host->registry_length - 1);
    refuses("a registry cut by a byte", "other", "old", "new", UNFIT_REGISTRY);
    put("other", host->registry, host->registry_length + 1);
    refuses("a registry with a byte behind it", "other", "old", "new", UNFIT_REGISTRY);
    put("other", host->registry, POPLARCHIME_CONFIDENTIAL_RECORD_SIZE);
    refuses("a registry without the second client", "other", "old", "new", UNFIT_STORE);
    refuses("no registry", "missing", "old", "new", "missing cannot be opened: ");
    refuses("a folder as registry", ".", "old", "new", ". cannot be read: ");
    for (int number = 0; number < POPLARCHIME_MOST_CLIENTS; number++) {
        char id[20];
        snprintf(id, sizeof id, "client %d", number);
        add_client(&many, id, "https://many.example/", 1, "a secret");
    }
    memcpy(long_registry, many.registry, sizeof many.registry);
    put("other", long_registry, sizeof long_registry);
    refuses("a byte more than the longest registry", "other", "old", "new", UNFIT_REGISTRY);
    put("other", long_registry, sizeof long_registry - 1);
    const char *arguments[] = {program, "other", "old", "new", NULL};
    remember("old");
    runs("the longest registry", arguments, DONE, "slots are live");
    is_as_before("old");
    unlink("new");
    unlink("other");
}

/* What stands in the place of NEW stays as it is. */
static void new_that_is_there(const struct host *host)
{
    static struct contents kept;
    title("Places for NEW");
    put("old", host->store, FORMER_SIZE);
    put("new", "something else", 14);
    refuses("a NEW that is there", "registry", "old", "new", NOT_MADE);
    judge(get("new", &kept) && kept.length == 14 && memcmp(kept.bytes, "something else", 14) == 0, "   it is kept");
    put("new", "", 0);
    refuses("an empty NEW that is there", "registry", "old", "new", NOT_MADE);
    judge(get("new", &kept) && kept.length == 0, "   it is kept");
    must(unlink("new") == 0, "unlink");
    refuses("OLD as NEW", "registry", "old", "old", NOT_MADE);
    must(link("old", "new") == 0, "link");
    refuses("a hard link to OLD", "registry", "old", "new", NOT_MADE);
    must(unlink("new") == 0 && symlink("old", "new") == 0, "symlink");
    refuses("a symbolic link to OLD", "registry", "old", "new", NOT_MADE);
    must(unlink("new") == 0 && symlink("nowhere", "new") == 0, "symlink");
    refuses("a symbolic link to nothing", "registry", "old", "new", NOT_MADE);
    judge(!exists("nowhere"), "   it leads to nothing still");
    must(unlink("new") == 0, "unlink");
    refuses("a folder as NEW", "registry", "old", ".", NOT_MADE);
    refuses("NEW in a folder that is missing", "registry", "old", "missing/new", NOT_MADE);
    refuses("NEW without a name", "registry", "old", "", NOT_MADE);
}

static void other_refusals(const struct host *host)
{
    title("Files that cannot be read or written");
    put("old", host->store, FORMER_SIZE);
    refuses("an OLD that is missing", "registry", "missing", "new", "missing cannot be opened: ");
    refuses("a folder as OLD", "registry", ".", "new", ". cannot be read: ");
    /* The first write stops short and the next one fails. */
    file_limit = 50000;
    refuses("a disk that is full", "registry", "old", "new", "new cannot be written: ");
    file_limit = RLIM_INFINITY;
}

static void bad_usage(void)
{
    const char *arguments[] = {program, "registry", "old", "new", "more", NULL};
    title("The wrong number of arguments");
    for (int count = 1; count <= 5; count++) {
        char what[40];
        if (count == 4)
            continue;
        const char *some[6] = {NULL};
        memcpy(some, arguments, (size_t)count * sizeof some[0]);
        unsigned before = entries();
        snprintf(what, sizeof what, "%d arguments", count - 1);
        remember("old");
        runs(what, some, BAD_USAGE, "use: lengthen_store REGISTRY OLD NEW");
        judge(entries() == before, "   and nothing is written");
        is_as_before("old");
        unlink("new");
    }
}

/* NEW elsewhere: by a path, in a folder of its own, and with OLD behind a link. */
static void other_places(const struct host *host)
{
    static struct contents new;
    const char *arguments[] = {program, "registry", "link", "folder/new", NULL};
    title("Files in other places");
    put("old", host->store, FORMER_SIZE);
    must(symlink("old", "link") == 0 && mkdir("folder", 0700) == 0, "symlink and mkdir");
    remember("old");
    runs("OLD by a link, NEW in another folder", arguments, DONE, "folder/new has ");
    is_as_before("old");
    judge(get("folder/new", &new) && new.length == POPLARCHIME_STORE_SIZE
              && memcmp(new.bytes, host->store, new.length) == 0, "   it is the store");
    runs("the same once more", arguments, REFUSED, NOT_MADE);
    is_as_before("old");
}

/* ---- The whole ---- */

int main(int count, char **arguments)
{
    if (count != 2) {
        fputs("use: lengthen_store_test PROGRAM\n", stderr);
        return BAD_USAGE;
    }
    static struct host host;
    /* Its path must hold in another folder too. */
    program = realpath(arguments[1], NULL);
    if (!program || !mkdtemp(folder) || chdir(folder) != 0) {
        perror(program ? folder : arguments[1]);
        return 1;
    }
    put(OUT, "", 0);
    put(ERR, "", 0);
    fresh_store();
    full_store();
    store_with_something_of_everything();
    visits(&host);
    wrong_lengths(&host);
    damaged(&host);
    fit_or_not(&host);
    registries(&host);
    new_that_is_there(&host);
    other_refusals(&host);
    bad_usage();
    other_places(&host);
    free(program);
    return finish();
}
