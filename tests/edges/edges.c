/* Edges of document 01 that want L above 100, through the library: what a connection may own and announce, how many a plan selects and a sweep hands
 * out. Each is tried on both sides of its limit. Numbers here are document 01's and are written out, not taken from the header. */
#include <stdio.h>
#include <stdlib.h>
#include "tracker.h"

enum { L = 6000, Q = 12, KEYS = 2500 };

static uint8_t store[TRACKER_NEED(L, Q)], answer[TRACKER_PLAN_NEED], checked[TRACKER_PLAN_NEED], list[101 * 32], seen[KEYS];
static uint64_t considered, count, reply, next;

static void same(const char *what, uint64_t got, uint64_t wanted) {
    if (got != wanted) {
        fprintf(stderr, "%s: %llu, wanted %llu\n", what, (unsigned long long)got, (unsigned long long)wanted);
        exit(1);
    }
}

static const uint8_t *hash(uint64_t number) {
    static uint8_t bytes[32];
    tracker_put_word(bytes, number);
    return bytes;
}

/* So many hashes, from a number on. */
static size_t hashes(uint64_t from, size_t n) {
    for (size_t i = 0; i < n; i++)
        memcpy(list + 32 * i, hash(from + i), 32);
    return 32 * n;
}

static void opened(void) {
    same("open", tracker_open(store, sizeof store, L, Q), 0);
}

static uint64_t announced(uint64_t connection, uint32_t type, uint64_t number) {
    same("announce", tracker_announce(store, sizeof store, connection, type, hash(number), 0, true, 0, &reply), 0);
    return reply;
}

static uint64_t solicited(uint64_t connection, uint64_t number, size_t parents, uint64_t now) {
    same("solicit", tracker_solicit_package_info(store, sizeof store, connection, hash(number), list, parents, now, &reply), 0);
    return reply;
}

static uint64_t planned(uint64_t now) {
    same("plan", tracker_plan(store, sizeof store, now, answer, sizeof answer, &considered, &count, &next), 0);
    return count;
}

/* Takes what the last plan selected. */
static uint64_t claimed(uint64_t now) {
    size_t bytes = (size_t)count * 112;
    memcpy(checked, answer, bytes);
    same("claim", tracker_claim(store, sizeof store, now, checked, bytes, answer, bytes, &reply), 0);
    return reply;
}

/* "99 owned: one more; 100: none." */
static void owned(void) {
    opened();
    for (uint64_t i = 0; i < 99; i++)
        same("announcement", announced(7, 5, 1000 + i), 1);
    same("selected", planned(0), 99);
    same("taken", claimed(0), 99);
    same("99 owned, solicited", solicited(7, 2000, 0, 0), 1);
    same("100 owned, solicited", solicited(7, 2001, 0, 0), 0);
    same("another announcement", announced(7, 5, 3000), 1);
    same("100 owned, selected", planned(0), 0);
    same("100 owned, considered", considered, 101);
    same("100 owned, a ready candidate, the next look at a deadline", next, 60000);
    same("unclaim", tracker_unclaim(store, sizeof store, TRACKER_WTXID, hash(1000), 7), 0);
    same("99 owned, selected", planned(0), 1);
    same("99 owned, taken", claimed(0), 1);
}

/* "100 wtxids: 1; 101: 0." */
static void wtxids(void) {
    opened();
    same("solicited", solicited(7, 1, 0, 0), 1);
    same("claim_package", tracker_claim_package(store, sizeof store, 7, hash(1), hash(2), list, hashes(10, 101), 0, &reply), 0);
    same("101 wtxids", reply, 0);
    same("claim_package", tracker_claim_package(store, sizeof store, 7, hash(1), hash(2), list, hashes(10, 100), 0, &reply), 0);
    same("100 wtxids", reply, 1);
}

/* "After a key, a phase stops at 1,024 selected; the second still considers one, so 1,025 can come." */
static void selected(void) {
    opened();
    for (uint64_t i = 0; i < 2000; i++)
        same("announcement", announced(1 + i / 50, 5, 1000 + i), 1);
    same("of 2,000 ready", planned(0), 1024);
    same("considered of 2,000", considered, 1024);
    opened();
    for (uint64_t i = 0; i < 11; i++)
        same("solicited", solicited(1 + i, 50000 + i, hashes(1000 + 100 * i, 100), 0), 1);
    same("announcement", announced(50, 1, 0), 1);
    same("parents before the deadline", planned(59999), 1);
    same("of 1,100 parents and one key more", planned(60000), 1025);
    same("considered of these", considered, 1025);
}

/* "the next 1,024 keys after the known cursor, round to it": three sweeps hand out 2,500 keys, the third goes round. */
static void swept(void) {
    opened();
    for (uint64_t i = 0; i < KEYS; i++)
        same("announcement", announced(7, 5, i), 1);
    for (uint64_t sweep = 0; sweep < 3; sweep++) {
        same("sweep", tracker_sweep(store, sizeof store, answer, sizeof answer, &count), 0);
        same("keys of a sweep", count, 1024);
        for (uint64_t i = 0; i < count; i++) {
            uint64_t number = tracker_word(tracker_key_hash(tracker_key(answer, i)));
            same("key of a sweep", number, (sweep * 1024 + i) % KEYS);
            seen[number] = 1;
        }
    }
    for (uint64_t i = 0; i < KEYS; i++)
        same("handed out", seen[i], 1);
}

/* "0 at 5,000 of its own" */
static void announces(void) {
    opened();
    for (uint64_t i = 0; i < 5000; i++)
        same("announcement", announced(7, 5, i), 1);
    same("announcement 5,001", announced(7, 5, 5000), 0);
    same("of another connection", announced(8, 5, 5000), 1);
    same("forget", tracker_forget(store, sizeof store, TRACKER_WTXID, hash(17)), 0);
    same("announcement in its place", announced(7, 5, 5001), 1);
}

int main(void) {
    owned();
    wtxids();
    selected();
    swept();
    announces();
    puts("edges above L = 100: 99 and 100 owned, 100 and 101 wtxids, 1,024 and 1,025 selected, 2,500 keys swept, 5,000 of a connection");
    return 0;
}
