/* A store as text and back, for support: the listing of a store file, and the store file of a listing (docs/LISTING.md).
 *
 *     listing save <STORE >LISTING
 *     listing restore <LISTING >STORE
 *
 *     cc -std=c99 -I tracker/bindings/c listing.c tracker/target/lib/libtracker.a -o listing
 *
 * A store is written with just its need; what stands past the need of one that is read is no part of it. Exits 1 with a word on standard
 * error if a file is no such thing, 2 if it is called otherwise. */
#include <stdio.h>
#include <stdlib.h>
#include "tracker.h"

static void fail(const char *why) {
    fprintf(stderr, "listing: %s\n", why);
    exit(1);
}

static uint8_t *room(size_t length) {
    uint8_t *bytes = malloc(length > 0 ? length : 1);
    if (!bytes)
        fail("no memory");
    return bytes;
}

/* All of standard input. */
static uint8_t *input(size_t *length) {
    size_t most = 1 << 16, count = 0, got;
    uint8_t *bytes = room(most);
    while ((got = fread(bytes + count, 1, most - count, stdin)) > 0) {
        count += got;
        if (count == most) {
            most *= 2;
            bytes = realloc(bytes, most);
            if (!bytes)
                fail("no memory");
        }
    }
    if (ferror(stdin))
        fail("standard input cannot be read");
    *length = count;
    return bytes;
}

static void output(const uint8_t *bytes, size_t length) {
    if (fwrite(bytes, 1, length, stdout) != length || fflush(stdout) != 0)
        fail("standard output cannot be written");
}

static void done(uint64_t status) {
    if (status != TRACKER_OK)
        fail(tracker_status_text(status));
}

/* The sizes of a store are its words 1 and 2; of bytes that are no store the call tells. */
static size_t longest(const uint8_t *store, size_t length) {
    uint64_t l = length < 24 ? 0 : tracker_word(store + 8), q = length < 24 ? 0 : tracker_word(store + 16);
    return tracker_need(l, q) == 0 ? 0 : tracker_save_need(l, q);
}

static void save(void) {
    size_t length;
    uint64_t written;
    uint8_t *store = input(&length);
    size_t most = longest(store, length);
    uint8_t *listing = room(most);
    done(tracker_save(store, length, listing, most, &written));
    output(listing, (size_t)written);
    free(listing);
    free(store);
}

static void restore(void) {
    size_t length, most = TRACKER_NEED(TRACKER_MAX_L, TRACKER_MAX_Q);
    uint8_t *listing = input(&length), *store = room(most);
    done(tracker_restore(store, most, listing, length));
    output(store, tracker_need(tracker_word(store + 8), tracker_word(store + 16)));
    free(store);
    free(listing);
}

int main(int count, char **words) {
    if (count == 2 && strcmp(words[1], "save") == 0)
        save();
    else if (count == 2 && strcmp(words[1], "restore") == 0)
        restore();
    else {
        fputs("usage: listing save <STORE >LISTING\n       listing restore <LISTING >STORE\n", stderr);
        return 2;
    }
    return 0;
}
