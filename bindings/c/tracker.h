/* A transaction request tracker: which connection is asked for which transaction, for how long, and who is asked next.
 *
 * THE MODEL. Connections announce items (a txid or a wtxid, with a type). What is announced under one key, a kind and a hash, is a
 * request; the connections that announced it are its candidates, at most 8 a hash. A candidate is ready from a time on, preferred or
 * not, and has a priority that the host draws, the smaller first. A plan selects for each hash that nobody is asked for the best ready
 * candidate; a claim makes it the owner of the request until its deadline, 60 seconds later. An owner that fails, by its deadline, by a
 * notfound or by leaving, is no candidate any longer, and the others are ready at once. A transaction that has come, or is known
 * otherwise, is forgotten. An owner may be asked for package info (BIP 331) and then for a package; this takes one of q places.
 *
 * GUARANTEES, proved of every sequence of calls (docs/PROVED.md). Every call may be given any bytes: it is carried out, or refused by a
 * number, and a refused call changes neither store nor answer nor a number that it would hand out. Never more than one owner a hash, 100
 * requests owned by a connection, 5,000 announcements of a connection, 8 of a hash, l in all. What a call leaves is a function of its
 * arguments: one state has one byte image, so a store can be copied, kept, sent and compared by bytes (docs/STORE.md).
 *
 * COST. A call tests the whole store first, in time linear in its need: some 2 microseconds at l = 100, 0.2 ms at 10,000, 2.5 ms at
 * 100,000 (docs/BENCHMARKS.md). Who owns the bytes, and lets nobody else write them, may call tracker_owned.h's functions on a store that
 * was opened or tested once; these make no such test. No call allocates, blocks, reads a clock, draws a number or keeps anything.
 *
 * STACK: a call takes less than TRACKER_STACK_BYTES. THREADS: calls on different stores are independent; on one store only calls that read
 * (const uint8_t *store) may run at the same time. ALIGNMENT: a store, an answer, a list or a hash may stand at any address; a number is
 * handed out to an aligned uint64_t. OVERLAP: what a call writes, store, answer and each number handed out (*reply, *count ..), may overlap
 * nothing else that the call is given; what it only reads may overlap. But a hash may point into the store. A list that is empty may be
 * NULL. BYTE ORDER: words in stores, lists and answers are of 8 bytes, the least first; a hash is 32 bytes as on the wire, byte 31 the most
 * significant. BOOL: 0 or 1, as C makes of any number; of another value, which only a wrong declaration passes, nothing is promised. Times
 * are milliseconds of any clock, which may go back.
 *
 * LINKING, on x86-64: bindings/build writes target/lib/libtracker.a, position independent, which wants memcpy, memmove and memset.
 *
 *     cc -std=c99 -I tracker/bindings/c node.c tracker/target/lib/libtracker.a -o node
 *
 *     static uint8_t store[TRACKER_NEED(1000, 16)], answer[TRACKER_SWEEP_NEED];
 *     uint64_t kept, count, status = tracker_open(store, sizeof store, 1000, 16);
 *     if (status == TRACKER_OK)
 *         status = tracker_announce(store, sizeof store, 7, TRACKER_ITEM_WTX, hash, now, true, 0, &kept);
 *     if (status == TRACKER_OK)
 *         status = tracker_sweep(store, sizeof store, answer, sizeof answer, &count);
 *     if (status != TRACKER_OK) {
 *         fprintf(stderr, "%s\n", tracker_status_text(status));
 *         return 1;
 *     }
 *     for (uint64_t i = 0; i < count; i++)
 *         look_up(tracker_key_kind(tracker_key(answer, i)), tracker_key_hash(tracker_key(answer, i)));
 *
 * docs/API.md has the rule of each call and a table beside Bitcoin Core's txrequest.h; docs/CALLS.md which refusals a call can meet. */
#ifndef TRACKER_H
#define TRACKER_H

#include <stdbool.h>
#include <stddef.h>
#include <stdint.h>
#include <string.h>

#ifdef __cplusplus
extern "C" {
#endif

#if defined(__GNUC__)
#define TRACKER_MUST_USE __attribute__((warn_unused_result))
#else
#define TRACKER_MUST_USE
#endif

/* ---- what a call returns: 0, or the number of its refusal. tracker_open tests 2, then 1; tracker_restore 11, 12, then 1; the two calls
 * on payloads, which take no store, test 10, then 7; any other call tests 3 to 6, 13, 7 and 8 in turn, those that its arguments can meet. */
enum tracker_status {
    TRACKER_OK = 0,
    TRACKER_STORE_TOO_SHORT = 1,
    TRACKER_SIZES_OUT_OF_RANGE = 2,
    TRACKER_NOT_SOUND = 3,
    TRACKER_NO_CONNECTION = 4,
    TRACKER_NOW_TOO_LATE = 5,
    TRACKER_TOO_MANY_PARENTS = 6,
    TRACKER_ANSWER_TOO_SHORT = 7,
    TRACKER_NO_PLACE = 8,
    TRACKER_BAD_PAYLOAD = 10,
    TRACKER_NOT_A_LISTING = 11,
    TRACKER_LISTING_NOT_SOUND = 12,
    TRACKER_WRONG_HASHES = 13
};

static inline const char *tracker_status_text(uint64_t status) {
    switch (status) {
    case TRACKER_OK: return "carried out";
    case TRACKER_STORE_TOO_SHORT: return "the store is shorter than l and q need";
    case TRACKER_SIZES_OUT_OF_RANGE: return "l is not 1 to 100,000, or q is not 1 to 4,096";
    case TRACKER_NOT_SOUND: return "the bytes of the store write no sound state";
    case TRACKER_NO_CONNECTION: return "0 is no connection";
    case TRACKER_NOW_TOO_LATE: return "now is above 2^64 - 60,001";
    case TRACKER_TOO_MANY_PARENTS: return "more than 100 parents are given";
    case TRACKER_ANSWER_TOO_SHORT: return "the answer is shorter than its need";
    case TRACKER_NO_PLACE: return "all package places are held";
    case TRACKER_BAD_PAYLOAD: return "no inventory payload, or items that make none";
    case TRACKER_WRONG_HASHES: return "more than 1,024 hashes, or not in strictly ascending order";
    case TRACKER_NOT_A_LISTING: return "the text is no listing";
    case TRACKER_LISTING_NOT_SOUND: return "the state that the text lists is not sound";
    default: return "no status of the tracker";
    }
}

/* ---- item types, as on the wire. The first three have a key, of the txid, the txid and the wtxid; an item of any other type is kept by no
 * call. The last two (BIP 331) are read by tracker_transaction_not_found. */
#define TRACKER_ITEM_TX UINT32_C(1)
#define TRACKER_ITEM_WITNESS_TX UINT32_C(0x40000001)
#define TRACKER_ITEM_WTX UINT32_C(5)
#define TRACKER_ITEM_PACKAGE UINT32_C(6)
#define TRACKER_ITEM_PACKAGE_INFO UINT32_C(7)

/* ---- kinds of a key. Given, any other number is a wtxid, too. */
#define TRACKER_TXID UINT64_C(0)
#define TRACKER_WTXID UINT64_C(1)

/* ---- limits */
#define TRACKER_MAX_L UINT64_C(100000)             /* announcements of a tracker */
#define TRACKER_MAX_Q UINT64_C(4096)               /* package places of a tracker */
#define TRACKER_MAX_CANDIDATES UINT64_C(8)         /* of a hash */
#define TRACKER_MAX_ANNOUNCEMENTS UINT64_C(5000)   /* of a connection */
#define TRACKER_MAX_OWNED UINT64_C(100)            /* requests of a connection */
#define TRACKER_MAX_PARENTS UINT64_C(100)          /* of a transaction */
#define TRACKER_MAX_WTXIDS UINT64_C(100)           /* of a package */
#define TRACKER_MAX_SWEPT UINT64_C(1024)           /* keys of a sweep */
#define TRACKER_MAX_PLANNED UINT64_C(1025)         /* entries of a plan */
#define TRACKER_MAX_ITEMS UINT64_C(50000)          /* of a payload */
#define TRACKER_MAX_HASHES UINT64_C(1024)          /* of tracker_owners_of */
#define TRACKER_LIFETIME_MS UINT64_C(60000)        /* from a claim to its deadline */
#define TRACKER_DELAY_MS UINT64_C(2000)            /* each delay of tracker_announce_transactions */
#define TRACKER_POLL_MS UINT64_C(100)              /* between polls */
#define TRACKER_LATEST_NOW (UINT64_MAX - TRACKER_LIFETIME_MS)
#define TRACKER_FORMAT UINT64_C(1)                 /* of the store: its first word */
#define TRACKER_STACK_BYTES (128 * 1024)

/* ---- sizes in bytes. TRACKER_NEED(l, q) is for arrays; l is 1 to TRACKER_MAX_L, q 1 to TRACKER_MAX_Q. */
#define TRACKER_NEED(l, q) ((size_t)8 * (24 + (size_t)12 * (l) + (size_t)824 * (q)))
#define TRACKER_HASH_BYTES 32
#define TRACKER_KEY_BYTES 40
#define TRACKER_ITEM_BYTES 40
#define TRACKER_ENTRY_BYTES 112
#define TRACKER_OWNER_BYTES 24
#define TRACKER_WIRE_BYTES 36                      /* of an item in a payload */

/* The answer of announce_parents, failed_with_parents and release_package: 101 keys. */
#define TRACKER_KEYS_NEED (101 * TRACKER_KEY_BYTES)
/* The answers of a sweep and of a plan, whatever l is. */
#define TRACKER_SWEEP_NEED (1024 * TRACKER_KEY_BYTES)
#define TRACKER_PLAN_NEED (1025 * TRACKER_ENTRY_BYTES)

/* The bytes that a store needs; 0 if l or q is out of range. */
static inline size_t tracker_need(uint64_t l, uint64_t q) {
    return l < 1 || l > TRACKER_MAX_L || q < 1 || q > TRACKER_MAX_Q ? 0 : TRACKER_NEED(l, q);
}

/* What the answer of each call needs, by the tracker's l and q and the length n of the list that is given. */
static inline size_t tracker_sweep_need(uint64_t l) {
    return (size_t)(l < TRACKER_MAX_SWEPT ? l : TRACKER_MAX_SWEPT) * TRACKER_KEY_BYTES;
}

static inline size_t tracker_plan_need(uint64_t l) {
    return (size_t)(l < TRACKER_MAX_PLANNED ? l : TRACKER_MAX_PLANNED) * TRACKER_ENTRY_BYTES;
}

static inline size_t tracker_disconnected_need(uint64_t l, uint64_t q) {
    return (size_t)((l < TRACKER_MAX_ANNOUNCEMENTS ? l : TRACKER_MAX_ANNOUNCEMENTS) + TRACKER_MAX_PARENTS * q) * TRACKER_KEY_BYTES;
}

static inline size_t tracker_failed_package_claims_need(uint64_t q) {
    return (size_t)((1 + TRACKER_MAX_PARENTS) * q) * TRACKER_KEY_BYTES;
}

static inline size_t tracker_not_found_need(uint64_t q, size_t n) {
    return (n + (size_t)(TRACKER_MAX_PARENTS * q)) * TRACKER_KEY_BYTES;
}

/* Of tracker_save at most: it needs the listing's own length (docs/LISTING.md). */
static inline size_t tracker_save_need(uint64_t l, uint64_t q) {
    return (size_t)165 + (size_t)250 * (size_t)l + (size_t)13068 * (size_t)q;
}

/* Of tracker_claim and tracker_arrange. */
static inline size_t tracker_entries_need(size_t n) {
    return n * TRACKER_ENTRY_BYTES;
}

/* Of tracker_owners_of. */
static inline size_t tracker_owners_need(size_t n) {
    return n * TRACKER_OWNER_BYTES;
}

/* Of tracker_read_payload, for a payload of so many bytes; of tracker_write_payload, for n items. */
static inline size_t tracker_read_payload_need(size_t length) {
    return length / TRACKER_WIRE_BYTES * TRACKER_ITEM_BYTES;
}

static inline size_t tracker_write_payload_need(size_t n) {
    return (n < 253 ? 1 : 3) + n * TRACKER_WIRE_BYTES;
}

/* ---- lists and answers, read and written */
static inline uint64_t tracker_word(const uint8_t *at) {
    uint64_t word = 0;
    for (int i = 7; i >= 0; i--)
        word = word << 8 | at[i];
    return word;
}

static inline void tracker_put_word(uint8_t *at, uint64_t word) {
    for (int i = 0; i < 8; i++)
        at[i] = (uint8_t)(word >> 8 * i);
}

/* The i-th key of an answer or a list: its kind and its hash. */
static inline const uint8_t *tracker_key(const uint8_t *answer, uint64_t i) {
    return answer + (size_t)i * TRACKER_KEY_BYTES;
}

static inline uint64_t tracker_key_kind(const uint8_t *key) {
    return tracker_word(key) == 0 ? TRACKER_TXID : TRACKER_WTXID;
}

static inline const uint8_t *tracker_key_hash(const uint8_t *key) {
    return key + 8;
}

static inline void tracker_put_key(uint8_t *list, uint64_t i, uint64_t kind, const uint8_t hash[32]) {
    tracker_put_word(list + (size_t)i * TRACKER_KEY_BYTES, kind);
    memcpy(list + (size_t)i * TRACKER_KEY_BYTES + 8, hash, 32);
}

/* The i-th item of a list that is given. */
static inline void tracker_put_item(uint8_t *list, uint64_t i, uint32_t item_type, const uint8_t hash[32]) {
    tracker_put_key(list, i, item_type, hash);
}

/* The i-th item of a list or of tracker_read_payload's answer: its type and its hash. */
static inline const uint8_t *tracker_item(const uint8_t *list, uint64_t i) {
    return list + (size_t)i * TRACKER_ITEM_BYTES;
}

static inline uint32_t tracker_item_type(const uint8_t *item) {
    return (uint32_t)tracker_word(item);
}

static inline const uint8_t *tracker_item_hash(const uint8_t *item) {
    return item + 8;
}

/* The i-th entry of an answer or a list: who is asked for what. Its key is at its start (tracker_key_kind, tracker_key_hash). */
static inline const uint8_t *tracker_entry(const uint8_t *answer, uint64_t i) {
    return answer + (size_t)i * TRACKER_ENTRY_BYTES;
}

static inline uint64_t tracker_entry_connection(const uint8_t *entry) {
    return tracker_word(entry + 40);
}

static inline uint32_t tracker_entry_item_type(const uint8_t *entry) {
    return (uint32_t)tracker_word(entry + 48);
}

static inline const uint8_t *tracker_entry_item_hash(const uint8_t *entry) {
    return entry + 56;
}

static inline uint64_t tracker_entry_ready(const uint8_t *entry) {
    return tracker_word(entry + 88);
}

static inline bool tracker_entry_preferred(const uint8_t *entry) {
    return tracker_word(entry + 96) != 0;
}

static inline uint64_t tracker_entry_priority(const uint8_t *entry) {
    return tracker_word(entry + 104);
}

/* The i-th owner of tracker_owners_of's answer: whether somebody owns the i-th hash, then the kind of the key, who and until when. */
static inline const uint8_t *tracker_owner(const uint8_t *answer, uint64_t i) {
    return answer + (size_t)i * TRACKER_OWNER_BYTES;
}

static inline bool tracker_owner_exists(const uint8_t *owner) {
    return tracker_word(owner) != 0;
}

static inline uint64_t tracker_owner_kind(const uint8_t *owner) {
    return tracker_word(owner) == 1 ? TRACKER_TXID : TRACKER_WTXID;
}

static inline uint64_t tracker_owner_connection(const uint8_t *owner) {
    return tracker_word(owner + 8);
}

static inline uint64_t tracker_owner_deadline(const uint8_t *owner) {
    return tracker_word(owner + 16);
}

/* ---- the calls. store and length: the bytes lent, at least the need; longer is taken, and bytes past the need stay. A slice's length is in
 * bytes; what is left at a list's end and is shorter than an element is no element. A refused call hands nothing out. */

/* begin: written by bindings/generate out of crates/exports/src */

/* Makes the store an empty tracker for l announcements and q package places. */
uint64_t tracker_open(uint8_t *store, size_t length, uint64_t l, uint64_t q) TRACKER_MUST_USE;

/* Whether the bytes, as far as their need, write a sound state: what a call tests first. */
bool tracker_sound(const uint8_t *store, size_t length) TRACKER_MUST_USE;

/* How many announcements are held, how many more fit of unpreferred newcomers and of preferred ones, and how full the tracker is in
 * thousandths. Refused, it hands nothing out. */
uint64_t tracker_sum(const uint8_t *store, size_t length, uint64_t *held, uint64_t *room, uint64_t *preferred_room,
                     uint64_t *permille) TRACKER_MUST_USE;

/* What a claim has taken, given in 112 bytes an entry, stands in the answer by ascending connection, then claim order: so many as `count`
 * says. A t item of a marked request turns v for a witness connection: those of the list, which has 8 bytes for each, least first. The
 * store is only read. */
uint64_t tracker_arrange(const uint8_t *store, size_t length, const uint8_t *witnesses, size_t witnesses_length, const uint8_t *taken,
                         size_t taken_length, uint8_t *answer, size_t answer_length, uint64_t *count) TRACKER_MUST_USE;

/* One connection's part of an arranged list, which is given in 112 bytes an entry: `count` entries from the entry `first` on. Of a list
 * that is not arranged it is some part. It takes no store, and is never refused. */
uint64_t tracker_part(const uint8_t *list, size_t length, uint64_t connection, uint64_t *first, uint64_t *count) TRACKER_MUST_USE;

/* A connection can deliver an item. The reply is 1 if it is kept. */
uint64_t tracker_announce(uint8_t *store, size_t length, uint64_t connection, uint32_t item_type, const uint8_t hash[32], uint64_t ready,
                          bool preferred, uint64_t priority, uint64_t *reply) TRACKER_MUST_USE;

/* The same for a parent that is missing. */
uint64_t tracker_request_parent(uint8_t *store, size_t length, uint64_t connection, uint32_t item_type, const uint8_t hash[32],
                                uint64_t ready, bool preferred, uint64_t priority, uint64_t *reply) TRACKER_MUST_USE;

/* Requests the parents of a transaction, 32 bytes each. The keys of those that are kept stand in the answer: so many as `count` says. */
uint64_t tracker_announce_parents(uint8_t *store, size_t length, uint64_t connection, const uint8_t *parents, size_t parents_length,
                                  uint64_t now, uint8_t *answer, size_t answer_length, uint64_t *count) TRACKER_MUST_USE;

/* How many announcements the connection has, and how many requests it owns, deadlines over or not. */
uint64_t tracker_counts(const uint8_t *store, size_t length, uint64_t connection, uint64_t *announced, uint64_t *owned) TRACKER_MUST_USE;

/* The connection leaves every request that it is a candidate of. The keys of these stand in the answer, so many as `own` says, and behind
 * them the keys of parents that are announced for the candidates left, so many as `parents` says. */
uint64_t tracker_disconnected(uint8_t *store, size_t length, uint64_t connection, uint64_t now, uint8_t *answer, size_t answer_length,
                              uint64_t *own, uint64_t *parents) TRACKER_MUST_USE;

/* The owner of the request at the key failed to deliver. The reply is 0 unless the connection owns it and its package is not Enqueued. */
uint64_t tracker_failed(uint8_t *store, size_t length, uint64_t kind, const uint8_t hash[32], uint64_t connection, uint64_t now,
                        uint64_t *reply) TRACKER_MUST_USE;

/* failed, and the parents of the request are requested of the connection. The key and those of the parents that are kept stand in the
 * answer: so many as `count` says, and none where failed would reply 0. */
uint64_t tracker_failed_with_parents(uint8_t *store, size_t length, uint64_t kind, const uint8_t hash[32], uint64_t connection,
                                     uint64_t now, uint8_t *answer, size_t answer_length, uint64_t *count) TRACKER_MUST_USE;

/* The owner gives the request back and stays a candidate. Carried out, it replies 1. */
uint64_t tracker_unclaim(uint8_t *store, size_t length, uint64_t kind, const uint8_t hash[32], uint64_t connection) TRACKER_MUST_USE;

/* The request at the key goes. Carried out, it replies 1. */
uint64_t tracker_forget(uint8_t *store, size_t length, uint64_t kind, const uint8_t hash[32]) TRACKER_MUST_USE;

/* The transaction of the request at the key is known: the request goes, and its parents are announced for its owner. It stays if a package
 * is still to come of it. Carried out, it replies 1. */
uint64_t tracker_forget_known(uint8_t *store, size_t length, uint64_t kind, const uint8_t hash[32], uint64_t now) TRACKER_MUST_USE;

/* failed, of a connection that is asked for package info. The reply is 0 unless it is. */
uint64_t tracker_failed_package_info(uint8_t *store, size_t length, uint64_t kind, const uint8_t hash[32], uint64_t connection,
                                     uint64_t now, uint64_t *reply) TRACKER_MUST_USE;

/* The connection that is asked for package info of the request at the key, and in time; 0, if there is none. */
uint64_t tracker_package_info_owner(const uint8_t *store, size_t length, uint64_t kind, const uint8_t hash[32], uint64_t now,
                                    uint64_t *owner) TRACKER_MUST_USE;

/* The listing of the tracker's state, in the answer: so many bytes as `written` says. The store is only read. */
uint64_t tracker_save(const uint8_t *store, size_t length, uint8_t *answer, size_t answer_length, uint64_t *written) TRACKER_MUST_USE;

/* Makes the store the tracker that the text lists. It takes any store that is long enough, whose old bytes are not looked at; bytes past
 * the need stay. */
uint64_t tracker_restore(uint8_t *store, size_t length, const uint8_t *text, size_t text_length) TRACKER_MUST_USE;

/* Who owns each of up to 1,024 hashes, which are given in strictly ascending order, 32 bytes each: the kind (0 nobody, 1 Txid, 2 Wtxid),
 * the connection and the deadline stand in the answer, 8 bytes each, least first. So many held keys as `passed` says have a hash that is
 * not above the greatest of them. The store is only read. */
uint64_t tracker_owners_of(const uint8_t *store, size_t length, const uint8_t *hashes, size_t hashes_length, uint8_t *answer,
                           size_t answer_length, uint64_t *passed) TRACKER_MUST_USE;

/* The connection is asked for the package info of the transaction with that wtxid, whose parents are given in 32 bytes each. The reply is
 * 0 if the hash is owned, if the connection owns 100 requests, or if it is no candidate and is not kept as one. */
uint64_t tracker_solicit_package_info(uint8_t *store, size_t length, uint64_t connection, const uint8_t hash[32], const uint8_t *parents,
                                      size_t parents_length, uint64_t now, uint64_t *reply) TRACKER_MUST_USE;

/* The package info of the request at the Wtxid key has come: its owner has until the deadline to get the package, whose wtxids are given
 * in 32 bytes each. The reply is 0 unless they are 1 to 100. */
uint64_t tracker_claim_package(uint8_t *store, size_t length, uint64_t connection, const uint8_t hash[32], const uint8_t combined[32],
                               const uint8_t *wtxids, size_t wtxids_length, uint64_t now, uint64_t *reply) TRACKER_MUST_USE;

/* The package itself has come: it waits in the queue from now on, and no deadline ends it. The reply is 0 unless combined hash and wtxids
 * are those that were claimed, in their order. */
uint64_t tracker_begin_package_resolution(uint8_t *store, size_t length, uint64_t connection, const uint8_t hash[32],
                                          const uint8_t combined[32], const uint8_t *wtxids, size_t wtxids_length, uint64_t now,
                                          uint64_t *reply) TRACKER_MUST_USE;

/* The package in the queue at the Wtxid key, if the connection owns it, is given up: the connection leaves, and is asked for the parents.
 * The key and those of the parents that are kept stand in the answer: so many as `count` says, and none where there is no such package. */
uint64_t tracker_release_package(uint8_t *store, size_t length, uint64_t connection, const uint8_t hash[32], uint64_t now, uint8_t *answer,
                                 size_t answer_length, uint64_t *count) TRACKER_MUST_USE;

/* The claims of the connection whose packages have one of the combined hashes, which are given in 32 bytes each, have failed; of two with
 * one hash, that at the greater key. Their keys stand in the answer, each followed by those of its parents that are kept: so many as
 * `count` says. */
uint64_t tracker_failed_package_claims(uint8_t *store, size_t length, uint64_t connection, const uint8_t *combined, size_t combined_length,
                                       uint64_t now, uint8_t *answer, size_t answer_length, uint64_t *count) TRACKER_MUST_USE;

/* Every package goes, whatever its phase, and its owner leaves the request. `count` says how many went. */
uint64_t tracker_teardown_package_claims(uint8_t *store, size_t length, uint64_t now, uint64_t *count) TRACKER_MUST_USE;

/* The items of a whole inv, getdata or notfound payload stand in the answer in 40 bytes each: so many as `count` says. They can be given
 * to tracker_announce_transactions and tracker_transaction_not_found as they stand there. It takes no store. */
uint64_t tracker_read_payload(const uint8_t *payload, size_t length, uint8_t *answer, size_t answer_length,
                              uint64_t *count) TRACKER_MUST_USE;

/* The payload of the items, which are given in 40 bytes each, stands in the answer: so many bytes as `written` says. An item whose type's
 * word is 2^32 or more is an other item of the type that its low 32 bits are, and is refused if that is 1, 5 or 0x40000001. It takes no
 * store. */
uint64_t tracker_write_payload(const uint8_t *items, size_t length, uint8_t *answer, size_t answer_length,
                               uint64_t *written) TRACKER_MUST_USE;

/* Takes, in order, each entry of the checked list, which is given in 112 bytes each, whose hash is unowned and that is still what plan
 * would choose for it. Those that are taken stand in the answer: so many as `taken` says. */
uint64_t tracker_claim(uint8_t *store, size_t length, uint64_t now, const uint8_t *checked, size_t checked_length, uint8_t *answer,
                       size_t answer_length, uint64_t *taken) TRACKER_MUST_USE;

/* Plans over all keys after the ready cursor and round to it. What it selects stands in the answer in 112 bytes an entry: so many as
 * `count` says, of as many keys as `considered` says. `next` is the least time later than the clock at which a key that nobody owns may be
 * ready or an owner be late, 0 if there is none. */
uint64_t tracker_plan(uint8_t *store, size_t length, uint64_t now, uint8_t *answer, size_t answer_length, uint64_t *considered,
                      uint64_t *count, uint64_t *next) TRACKER_MUST_USE;

/* The same over the keys that are given in 40 bytes each; the ready cursor stays. */
uint64_t tracker_plan_given(uint8_t *store, size_t length, uint64_t now, const uint8_t *given, size_t given_length, uint8_t *answer,
                            size_t answer_length, uint64_t *considered, uint64_t *count, uint64_t *next) TRACKER_MUST_USE;

/* The next keys after the known cursor, which becomes the last of them. They stand in the answer: so many as `count` says. */
uint64_t tracker_sweep(uint8_t *store, size_t length, uint8_t *answer, size_t answer_length, uint64_t *count) TRACKER_MUST_USE;

/* Whether a poll is due. If the reply is 1, the next one is 100 milliseconds later. */
uint64_t tracker_poll_gate(uint8_t *store, size_t length, uint64_t now, uint64_t *reply) TRACKER_MUST_USE;

/* The connection announces the items, which are given in 40 bytes each, with the priorities beside them in 8; the shorter list decides.
 * source: a wtxid source exists. Carried out, it replies 1. */
uint64_t tracker_announce_transactions(uint8_t *store, size_t length, uint64_t connection, uint64_t now, bool preferred, bool source,
                                       const uint8_t *items, size_t items_length, const uint8_t *priorities,
                                       size_t priorities_length) TRACKER_MUST_USE;

/* A response of the connection is complete: what it still owns of this transaction, under either identity, has failed. Carried out, it
 * replies 1. */
uint64_t tracker_transaction_response_completed(uint8_t *store, size_t length, uint64_t connection, const uint8_t txid[32],
                                                const uint8_t wtxid[32], uint64_t now) TRACKER_MUST_USE;

/* The connection does not have the items, which are given in 40 bytes each: what it owns of them has failed, and so have its claims to the
 * packages among them. The keys of what failed stand in the answer, followed by those of the parents that are kept where there are some:
 * so many as `count` says. */
uint64_t tracker_transaction_not_found(uint8_t *store, size_t length, uint64_t connection, const uint8_t *items, size_t items_length,
                                       uint64_t now, uint8_t *answer, size_t answer_length, uint64_t *count) TRACKER_MUST_USE;

/* end: written by bindings/generate */

#ifdef __cplusplus
}
#endif

#endif
