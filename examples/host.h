/*
 * What the examples share: the buffers that a host keeps, and two sample clients in its registry.
 */
#ifndef EXAMPLES_HOST_H
#define EXAMPLES_HOST_H

#include <string.h>

#include "poplarchime.h"

struct host {
    uint8_t registry[POPLARCHIME_MOST_CLIENTS * POPLARCHIME_CONFIDENTIAL_RECORD_SIZE];
    size_t registry_length;
    uint8_t store[POPLARCHIME_STORE_SIZE];
    uint8_t output[POPLARCHIME_LEAST_OUTPUT];
};

/* A field of a record: length, text, zeros up to the width. The registry is zero before. */
static void add_text(struct host *host, const char *text, size_t width)
{
    uint8_t *field = host->registry + host->registry_length;
    field[0] = (uint8_t)strlen(text);
    memcpy(field + 1, text, strlen(text));
    host->registry_length += 1 + width;
}

/* A client without secret is public. */
static void add_client(struct host *host, const char *id, const char *redirect, uint8_t scope, const char *secret)
{
    host->registry[host->registry_length++] = secret ? 2 : 1;
    add_text(host, id, POPLARCHIME_ID_LIMIT);
    add_text(host, redirect, POPLARCHIME_REDIRECT_LIMIT);
    host->registry[host->registry_length++] = scope;
    if (secret)
        add_text(host, secret, POPLARCHIME_SECRET_LIMIT);
}

/* The two sample clients, and a fresh store. */
static void start(struct host *host)
{
    memset(host, 0, sizeof *host);
    add_client(host, "s6BhdRkqt3", "https://client.example.com/cb",
               POPLARCHIME_SCOPE_POWER + POPLARCHIME_SCOPE_PEAK + POPLARCHIME_SCOPE_BILL, "gX1fBat3bV");
    add_client(host, "barnapp", "https://barn.example/r?x=1", POPLARCHIME_SCOPE_POWER, NULL);
}

/* The header of the first of them: base64 of `s6BhdRkqt3:gX1fBat3bV`. */
#define BASIC "Basic czZCaGRSa3F0MzpnWDFmQmF0M2JW"

/* A verifier, and its SHA-256 in base64url (RFC 7636 Appendix B). A real app makes up another one each time. */
#define VERIFIER "dBjftJeZ4CVP-mB92K27uhbUJU1p1r_wW1gFWFOEjXk"
#define CHALLENGE "E9Melhoa2OwvFrEMTJguCHaoeK1t8URWbuGJSstw-cM"

/* The farm whose owner is asked, and what stands in its place in a token that a client has for itself. */
#define FARM 7
#define NO_FARM 0

#endif
