/*
 * Takes the store of version 0.5.0 over: `lengthen_store REGISTRY OLD NEW`.
 *
 * A slot is what it was, there are only more of them. So the new store is the old one with zero bytes behind it: free
 * slots. All that was live stays live. Stop the host first, and give it NEW from then on and OLD never again: the one
 * that falls behind would bring exchanged codes and withdrawn tokens back.
 *
 * OLD is only read, and NEW is only made where there was no file, once the library itself has found its bytes fit for
 * REGISTRY. The exit status is 0 when NEW is kept on disk, 1 when it is refused, with a line that says why, and 2 when
 * the program is used wrongly.
 */
#define _POSIX_C_SOURCE 200809L

#include <errno.h>
#include <fcntl.h>
#include <inttypes.h>
#include <libgen.h>
#include <stdarg.h>
#include <stdio.h>
#include <stdlib.h>
#include <string.h>
#include <unistd.h>

#include "poplarchime.h"

/* The store of version 0.5.0: its slots are as long as today's, and the time before them is too. */
#define FORMER_STORE_SIZE 34312
#define TIME_SIZE 8

_Static_assert((FORMER_STORE_SIZE - TIME_SIZE) % POPLARCHIME_SLOT_SIZE == 0, "whole slots");
_Static_assert(FORMER_STORE_SIZE < POPLARCHIME_STORE_SIZE, "a store to be lengthened");

/* No fit registry is longer. */
#define REGISTRY_LIMIT (POPLARCHIME_MOST_CLIENTS * POPLARCHIME_CONFIDENTIAL_RECORD_SIZE)

enum { DONE = 0, REFUSED = 1, BAD_USAGE = 2 };

/* Says why in one line. */
static int refuse(const char *format, ...)
{
    va_list arguments;
    va_start(arguments, format);
    fputs("lengthen_store: ", stderr);
    vfprintf(stderr, format, arguments);
    fputc('\n', stderr);
    va_end(arguments);
    return REFUSED;
}

/* Reads a file, but no more than so many bytes: a caller who asks for one more than he needs sees if it is too long. */
static int read_file(const char *path, uint8_t *bytes, size_t most, size_t *length)
{
    int file = open(path, O_RDONLY | O_CLOEXEC);
    if (file < 0)
        return refuse("%s cannot be opened: %s", path, strerror(errno));
    ssize_t got = 1;
    *length = 0;
    while (*length < most && got != 0) {
        got = read(file, bytes + *length, most - *length);
        if (got > 0)
            *length += (size_t)got;
        else if (got < 0 && errno != EINTR)
            break;
    }
    int status = got < 0 ? refuse("%s cannot be read: %s", path, strerror(errno)) : DONE;
    close(file);
    return status;
}

/* The former store, and zeros behind it. */
static int read_former_store(const char *path, uint8_t store[POPLARCHIME_STORE_SIZE])
{
    uint8_t former[FORMER_STORE_SIZE + 1];
    size_t length;
    int status = read_file(path, former, sizeof former, &length);
    if (status != DONE)
        return status;
    if (length != FORMER_STORE_SIZE)
        return refuse("%s is no store of version 0.5.0: it does not have %d bytes", path, FORMER_STORE_SIZE);
    memset(store, 0, POPLARCHIME_STORE_SIZE);
    memcpy(store, former, FORMER_STORE_SIZE);
    return DONE;
}

/*
 * Asks the library, by a check of no token. It is handed a copy, and the clock 0, which is later than no stored time:
 * so it has nothing to change.
 */
static int test_fitness(const char *registry_path, const uint8_t *registry, size_t registry_length,
                        const uint8_t store[POPLARCHIME_STORE_SIZE])
{
    static uint8_t copy[POPLARCHIME_STORE_SIZE];
    memcpy(copy, store, sizeof copy);
    uint32_t refusal = poplarchime_check(NULL, 0, registry, registry_length, copy, sizeof copy, 0).refusal;
    if (refusal == POPLARCHIME_REFUSED_REGISTRY)
        return refuse("the registry %s is unfit", registry_path);
    if (refusal == POPLARCHIME_REFUSED_STORE)
        return refuse("the store is unfit, or not fit for the registry %s", registry_path);
    if (refusal != POPLARCHIME_NOT_REFUSED)
        return refuse("the library refuses the store with %" PRIu32, refusal);
    if (memcmp(copy, store, sizeof copy) != 0)
        return refuse("the library changed the store by looking at it");
    return DONE;
}

/* Writes all of it and waits until it is on the disk. True if that went well. */
static int write_and_sync(int file, const uint8_t *bytes, size_t length)
{
    while (length > 0) {
        ssize_t written = write(file, bytes, length);
        if (written < 0 && errno == EINTR)
            continue;
        if (written < 0)
            return 0;
        bytes += written;
        length -= (size_t)written;
    }
    return fsync(file) == 0;
}

/* A new file is kept only when its folder is. True if that went well. */
static int sync_folder_of(const char *path)
{
    /* dirname may write to what it is given. */
    char *copy = strdup(path);
    if (!copy)
        return 0;
    int folder = open(dirname(copy), O_RDONLY | O_DIRECTORY | O_CLOEXEC);
    free(copy);
    if (folder < 0)
        return 0;
    int synced = fsync(folder) == 0;
    int error = errno;
    close(folder);
    errno = error;
    return synced;
}

/*
 * Makes the new file, for the host alone to read, since the store holds live tokens. O_EXCL takes no file that is there
 * already, and no link: so it cannot be OLD. What was not kept in full is removed again.
 */
static int write_new_store(const char *path, const uint8_t store[POPLARCHIME_STORE_SIZE])
{
    int file = open(path, O_CREAT | O_EXCL | O_WRONLY | O_CLOEXEC, 0600);
    if (file < 0)
        return refuse("%s cannot be made: %s", path, strerror(errno));
    int kept = write_and_sync(file, store, POPLARCHIME_STORE_SIZE);
    int error = errno;
    if (close(file) != 0 && kept) {
        kept = 0;
        error = errno;
    }
    if (kept && !sync_folder_of(path)) {
        kept = 0;
        error = errno;
    }
    if (kept)
        return DONE;
    unlink(path);
    return refuse("%s cannot be written: %s", path, strerror(error));
}

static uint64_t big_endian_64(const uint8_t *bytes)
{
    uint64_t number = 0;
    for (int i = 0; i < 8; i++)
        number = number << 8 | bytes[i];
    return number;
}

/* Where the expiry stands in a slot, behind kind, handle, client, farm and scope set. */
#define EXPIRY (1 + 20 + 1 + 4 + 1)

/* How many slots are live at the stored time. */
static unsigned live_slots(const uint8_t store[POPLARCHIME_STORE_SIZE])
{
    unsigned live = 0;
    for (int number = 0; number < POPLARCHIME_STORE_SLOTS; number++) {
        const uint8_t *slot = store + TIME_SIZE + number * POPLARCHIME_SLOT_SIZE;
        live += slot[0] != 0 && big_endian_64(slot + EXPIRY) > big_endian_64(store);
    }
    return live;
}

int main(int count, char **arguments)
{
    if (count != 4) {
        fputs("use: lengthen_store REGISTRY OLD NEW\n", stderr);
        return BAD_USAGE;
    }
    static uint8_t registry[REGISTRY_LIMIT + 1], store[POPLARCHIME_STORE_SIZE];
    size_t registry_length;
    int status = read_file(arguments[1], registry, sizeof registry, &registry_length);
    if (status == DONE)
        status = read_former_store(arguments[2], store);
    if (status == DONE)
        status = test_fitness(arguments[1], registry, registry_length, store);
    if (status == DONE)
        status = write_new_store(arguments[3], store);
    if (status == DONE)
        printf("%s has %d bytes; at the stored time, %" PRIu64 ", %u of %d slots are live\n", arguments[3],
               POPLARCHIME_STORE_SIZE, big_endian_64(store), live_slots(store), POPLARCHIME_STORE_SLOTS);
    return status;
}
