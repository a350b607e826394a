/* A hash that points into the store: every call that takes one does to the store what it does with a copy of the hash. With OWNED, the owner's calls. */
#include <stdio.h>
#include <stdlib.h>
#include "tracker_owned.h"

enum { L = 30, Q = 2 };

struct side {
    uint8_t store[TRACKER_NEED(L, Q)], answer[TRACKER_KEYS_NEED];
    uint64_t number;
};
/* The first is given hashes of its own store, the second copies. */
static struct side sides[2];
static uint8_t ids[16][32];

static void fail(const char *name, const char *what) {
    fprintf(stderr, "%s: %s\n", name, what);
    exit(1);
}

static const uint8_t *in(struct side *s, int id) {
    if (s == &sides[1])
        return ids[id];
    for (size_t at = 0; at + 32 <= sizeof s->store; at += 8)
        if (memcmp(s->store + at, ids[id], 32) == 0)
            return s->store + at;
    fail("the test", "a hash that the store does not have");
    return NULL;
}

#ifdef OWNED
#define NAMED(name) tracker_owned_##name
#else
#define NAMED(name) tracker_##name
#endif

#define CALL(name, wanted, ...)                                                       \
    do {                                                                              \
        for (struct side *s = sides; s < sides + 2; s++)                              \
            if (NAMED(name)(s->store, sizeof s->store, __VA_ARGS__) != TRACKER_OK)    \
                fail(#name, "refused");                                               \
        if (memcmp(&sides[0], &sides[1], sizeof sides[0]) != 0)                       \
            fail(#name, "a hash in the store is not what its copy is");               \
        if (sides[0].number != (wanted))                                              \
            fail(#name, "another number");                                            \
    } while (0)

#define NUMBER &s->number
#define ANSWER s->answer, sizeof s->answer

/* Id 1 stays a request of connection 40 throughout, so that its hash is in the store. */
static void requests(void) {
    for (int id = 1; id < 8; id++)
        CALL(announce, 1, 40, TRACKER_ITEM_WTX, ids[id], 0, false, 9, NUMBER);
    CALL(announce, 1, 41, TRACKER_ITEM_WTX, in(s, 4), 0, true, 1, NUMBER);
    CALL(request_parent, 1, 42, TRACKER_ITEM_WITNESS_TX, in(s, 5), 0, true, 1, NUMBER);
    CALL(transaction_response_completed, 1, 40, in(s, 5), in(s, 4), 10);
    CALL(forget_known, 1, TRACKER_WTXID, in(s, 6), 10);
    CALL(forget, 1, TRACKER_WTXID, in(s, 7));
    CALL(unclaim, 1, TRACKER_WTXID, in(s, 4), 41);
}

static void packages(void) {
    CALL(solicit_package_info, 1, 43, in(s, 2), ids[8], 64, 1000, NUMBER);
    CALL(package_info_owner, 43, TRACKER_WTXID, in(s, 2), 1000, NUMBER);
    CALL(failed_package_info, 1, TRACKER_WTXID, in(s, 2), 43, 1001, NUMBER);
    CALL(solicit_package_info, 1, 44, in(s, 2), ids[8], 64, 1002, NUMBER);
    CALL(claim_package, 1, 44, in(s, 2), in(s, 1), ids[8], 64, 1003, NUMBER);
    CALL(begin_package_resolution, 1, 44, in(s, 2), in(s, 1), ids[8], 64, 1004, NUMBER);
    CALL(release_package, 3, 44, in(s, 2), 1005, ANSWER, NUMBER);
    CALL(solicit_package_info, 1, 45, in(s, 3), ids[8], 64, 1006, NUMBER);
    CALL(failed_with_parents, 3, TRACKER_WTXID, in(s, 3), 45, 1007, ANSWER, NUMBER);
    CALL(solicit_package_info, 1, 46, in(s, 3), ids[8], 64, 1008, NUMBER);
    CALL(failed, 1, TRACKER_WTXID, in(s, 3), 46, 1009, NUMBER);
}

int main(void) {
    for (int id = 0; id < 16; id++)
        memset(ids[id], 0x10 + id, 32);
    for (struct side *s = sides; s < sides + 2; s++)
        if (tracker_open(s->store, sizeof s->store, L, Q) != TRACKER_OK)
            fail("open", "refused");
    requests();
    packages();
    return 0;
}
