/* Three connections announce two transactions; one delivers, one stays silent, one leaves. Prints who is asked when.
 *
 *     cc -std=c99 -I tracker/bindings/c relay.c tracker/target/lib/libtracker.a -o relay */
#include <inttypes.h>
#include <stdio.h>
#include <stdlib.h>
#include "tracker.h"

enum { L = 1000, Q = 16 };

static uint8_t store[TRACKER_NEED(L, Q)], planned[TRACKER_PLAN_NEED], taken[TRACKER_PLAN_NEED];
static uint8_t left[(L + 100 * Q) * TRACKER_KEY_BYTES];

static void done(uint64_t status) {
    if (status != TRACKER_OK) {
        fprintf(stderr, "%s\n", tracker_status_text(status));
        exit(1);
    }
}

static void name(const uint8_t *key) {
    const uint8_t *hash = tracker_key_hash(key);
    printf("%s %02x%02x..", tracker_key_kind(key) == TRACKER_TXID ? "txid" : "wtxid", (unsigned)hash[31], (unsigned)hash[30]);
}

static void announce(uint64_t connection, uint32_t item_type, const uint8_t hash[32], bool preferred, uint64_t priority) {
    uint64_t kept;
    done(tracker_announce(store, sizeof store, connection, item_type, hash, 1000, preferred, priority, &kept));
}

/* Asks, at that time, whom the tracker selects. The program may sleep until the plan's next time, if nothing else happens before. */
static void ask(uint64_t now) {
    uint64_t considered, count, next, asked;
    done(tracker_plan(store, sizeof store, now, planned, sizeof planned, &considered, &count, &next));
    done(tracker_claim(store, sizeof store, now, planned, tracker_entries_need((size_t)count), taken, sizeof taken, &asked));
    for (uint64_t i = 0; i < asked; i++) {
        const uint8_t *entry = tracker_entry(taken, i);
        printf("%" PRIu64 ": %" PRIu64 " is asked for ", now, tracker_entry_connection(entry));
        name(entry);
        printf("\n");
    }
}

static void come(uint64_t now, uint64_t kind, const uint8_t hash[32]) {
    uint8_t key[TRACKER_KEY_BYTES];
    tracker_put_key(key, 0, kind, hash);
    printf("%" PRIu64 ": ", now);
    name(key);
    printf(" has come from 9\n");
    done(tracker_forget_known(store, sizeof store, kind, hash, now));
}

int main(void) {
    uint8_t a[32], b[32];
    uint64_t own, parents, held, room, preferred_room, permille, announced, owned;
    memset(a, 0xaa, sizeof a);
    memset(b, 0xbb, sizeof b);
    done(tracker_open(store, sizeof store, L, Q));

    announce(7, TRACKER_ITEM_WTX, a, true, 1);
    announce(8, TRACKER_ITEM_WTX, a, false, 2);
    announce(9, TRACKER_ITEM_WTX, a, false, 3);
    announce(9, TRACKER_ITEM_TX, b, false, 4);
    ask(1000);
    done(tracker_counts(store, sizeof store, 9, &announced, &owned));
    printf("1000: 9 has %" PRIu64 " announcements and owns %" PRIu64 "\n", announced, owned);

    come(1500, TRACKER_TXID, b);
    ask(60999); /* nothing: 7 has until 61000 */
    ask(61000); /* 7 stayed silent */
    done(tracker_disconnected(store, sizeof store, 8, 62000, left, sizeof left, &own, &parents));
    for (uint64_t i = 0; i < own; i++) {
        printf("62000: 8 leaves ");
        name(tracker_key(left, i));
        printf("\n");
    }
    ask(62000);
    come(62500, TRACKER_WTXID, a);
    done(tracker_sum(store, sizeof store, &held, &room, &preferred_room, &permille));
    printf("%" PRIu64 " announcements are held\n", held);
    return 0;
}
