/* The tracker's calls for the owner of a store: those of tracker.h without the test of the store's bytes.
 *
 * WARNING. A store that is given to one of these must be sound: one that tracker_open (tracker.h) carried out or tracker_sound approved, and
 * that nothing but calls of the tracker has written since. Then the call does what the one in tracker.h does, refusals 4 to 8 included,
 * and leaves a sound store. On other bytes nothing is promised, not even that the call stays inside them.
 *
 * They stand in an archive of their own, which bindings/build writes, too; tracker_open and tracker_sound are in the other one:
 *
 *     cc -std=c99 -I tracker/bindings/c node.c tracker/target/lib/libtracker_owned.a tracker/target/lib/libtracker.a -o node */
#ifndef TRACKER_OWNED_H
#define TRACKER_OWNED_H

#include "tracker.h"

#ifdef __cplusplus
extern "C" {
#endif

/* begin: written by bindings/generate out of crates/owned/src */

/* How many announcements are held, how many more fit of unpreferred newcomers and of preferred ones, and how full the tracker is in
 * thousandths. The store is only read. */
uint64_t tracker_owned_sum(const uint8_t *store, size_t length, uint64_t *held, uint64_t *room, uint64_t *preferred_room,
                           uint64_t *permille) TRACKER_MUST_USE;

/* What a claim has taken, given in 112 bytes an entry, stands in the answer by ascending connection, then claim order: so many as `count`
 * says. A t item of a marked request turns v for a witness connection: those of the list, which has 8 bytes for each, least first. The
 * store is only read. */
uint64_t tracker_owned_arrange(const uint8_t *store, size_t length, const uint8_t *witnesses, size_t witnesses_length,
                               const uint8_t *taken, size_t taken_length, uint8_t *answer, size_t answer_length,
                               uint64_t *count) TRACKER_MUST_USE;

/* A connection can deliver an item. The reply is 1 if it is kept. */
uint64_t tracker_owned_announce(uint8_t *store, size_t length, uint64_t connection, uint32_t item_type, const uint8_t hash[32],
                                uint64_t ready, bool preferred, uint64_t priority, uint64_t *reply) TRACKER_MUST_USE;

/* The same for a parent that is missing. */
uint64_t tracker_owned_request_parent(uint8_t *store, size_t length, uint64_t connection, uint32_t item_type, const uint8_t hash[32],
                                      uint64_t ready, bool preferred, uint64_t priority, uint64_t *reply) TRACKER_MUST_USE;

/* Requests the parents of a transaction, 32 bytes each. The keys of those that are kept stand in the answer: so many as `count` says. */
uint64_t tracker_owned_announce_parents(uint8_t *store, size_t length, uint64_t connection, const uint8_t *parents, size_t parents_length,
                                        uint64_t now, uint8_t *answer, size_t answer_length, uint64_t *count) TRACKER_MUST_USE;

/* How many announcements the connection has, and how many requests it owns, deadlines over or not. The store is only read. */
uint64_t tracker_owned_counts(const uint8_t *store, size_t length, uint64_t connection, uint64_t *announced,
                              uint64_t *owned) TRACKER_MUST_USE;

/* The connection leaves every request that it is a candidate of. The keys of these stand in the answer, so many as `own` says, and behind
 * them the keys of parents that are announced for the candidates left, so many as `parents` says. */
uint64_t tracker_owned_disconnected(uint8_t *store, size_t length, uint64_t connection, uint64_t now, uint8_t *answer,
                                    size_t answer_length, uint64_t *own, uint64_t *parents) TRACKER_MUST_USE;

/* The owner of the request at the key failed to deliver. The reply is 0 unless the connection owns it and its package is not Enqueued. */
uint64_t tracker_owned_failed(uint8_t *store, size_t length, uint64_t kind, const uint8_t hash[32], uint64_t connection, uint64_t now,
                              uint64_t *reply) TRACKER_MUST_USE;

/* failed, and the parents of the request are requested of the connection. The key and those of the parents that are kept stand in the
 * answer: so many as `count` says, and none where failed would reply 0. */
uint64_t tracker_owned_failed_with_parents(uint8_t *store, size_t length, uint64_t kind, const uint8_t hash[32], uint64_t connection,
                                           uint64_t now, uint8_t *answer, size_t answer_length, uint64_t *count) TRACKER_MUST_USE;

/* The owner gives the request back and stays a candidate. Carried out, it replies 1. */
uint64_t tracker_owned_unclaim(uint8_t *store, size_t length, uint64_t kind, const uint8_t hash[32], uint64_t connection) TRACKER_MUST_USE;

/* The request at the key goes. Carried out, it replies 1. */
uint64_t tracker_owned_forget(uint8_t *store, size_t length, uint64_t kind, const uint8_t hash[32]) TRACKER_MUST_USE;

/* The transaction of the request at the key is known: the request goes, and its parents are announced for its owner. It stays if a package
 * is still to come of it. Carried out, it replies 1. */
uint64_t tracker_owned_forget_known(uint8_t *store, size_t length, uint64_t kind, const uint8_t hash[32], uint64_t now) TRACKER_MUST_USE;

/* failed, of a connection that is asked for package info. The reply is 0 unless it is. */
uint64_t tracker_owned_failed_package_info(uint8_t *store, size_t length, uint64_t kind, const uint8_t hash[32], uint64_t connection,
                                           uint64_t now, uint64_t *reply) TRACKER_MUST_USE;

/* The connection that is asked for package info of the request at the key, and in time; 0, if there is none. */
uint64_t tracker_owned_package_info_owner(const uint8_t *store, size_t length, uint64_t kind, const uint8_t hash[32], uint64_t now,
                                          uint64_t *owner) TRACKER_MUST_USE;

/* The listing of the tracker's state, in the answer: so many bytes as `written` says. The store is only read. */
uint64_t tracker_owned_save(const uint8_t *store, size_t length, uint8_t *answer, size_t answer_length,
                            uint64_t *written) TRACKER_MUST_USE;

/* Who owns each of up to 1,024 hashes, which are given in strictly ascending order, 32 bytes each: the kind (0 nobody, 1 Txid, 2 Wtxid),
 * the connection and the deadline stand in the answer, 8 bytes each, least first. So many held keys as `passed` says have a hash that is
 * not above the greatest of them. The store is only read. */
uint64_t tracker_owned_owners_of(const uint8_t *store, size_t length, const uint8_t *hashes, size_t hashes_length, uint8_t *answer,
                                 size_t answer_length, uint64_t *passed) TRACKER_MUST_USE;

/* The connection is asked for the package info of the transaction with that wtxid, whose parents are given in 32 bytes each. The reply is
 * 0 if the hash is owned, if the connection owns 100 requests, or if it is no candidate and is not kept as one. */
uint64_t tracker_owned_solicit_package_info(uint8_t *store, size_t length, uint64_t connection, const uint8_t hash[32],
                                            const uint8_t *parents, size_t parents_length, uint64_t now, uint64_t *reply) TRACKER_MUST_USE;

/* The package info of the request at the Wtxid key has come: its owner has until the deadline to get the package, whose wtxids are given
 * in 32 bytes each. The reply is 0 unless they are 1 to 100. */
uint64_t tracker_owned_claim_package(uint8_t *store, size_t length, uint64_t connection, const uint8_t hash[32],
                                     const uint8_t combined[32], const uint8_t *wtxids, size_t wtxids_length, uint64_t now,
                                     uint64_t *reply) TRACKER_MUST_USE;

/* The package itself has come: it waits in the queue from now on, and no deadline ends it. The reply is 0 unless combined hash and wtxids
 * are those that were claimed, in their order. */
uint64_t tracker_owned_begin_package_resolution(uint8_t *store, size_t length, uint64_t connection, const uint8_t hash[32],
                                                const uint8_t combined[32], const uint8_t *wtxids, size_t wtxids_length, uint64_t now,
                                                uint64_t *reply) TRACKER_MUST_USE;

/* The package in the queue at the Wtxid key, if the connection owns it, is given up: the connection leaves, and is asked for the parents.
 * The key and those of the parents that are kept stand in the answer: so many as `count` says, and none where there is no such package. */
uint64_t tracker_owned_release_package(uint8_t *store, size_t length, uint64_t connection, const uint8_t hash[32], uint64_t now,
                                       uint8_t *answer, size_t answer_length, uint64_t *count) TRACKER_MUST_USE;

/* The claims of the connection whose packages have one of the combined hashes, which are given in 32 bytes each, have failed; of two with
 * one hash, that at the greater key. Their keys stand in the answer, each followed by those of its parents that are kept: so many as
 * `count` says. */
uint64_t tracker_owned_failed_package_claims(uint8_t *store, size_t length, uint64_t connection, const uint8_t *combined,
                                             size_t combined_length, uint64_t now, uint8_t *answer, size_t answer_length,
                                             uint64_t *count) TRACKER_MUST_USE;

/* Every package goes, whatever its phase, and its owner leaves the request. `count` says how many went. */
uint64_t tracker_owned_teardown_package_claims(uint8_t *store, size_t length, uint64_t now, uint64_t *count) TRACKER_MUST_USE;

/* Takes, in order, each entry of the checked list, which is given in 112 bytes each, whose hash is unowned and that is still what plan
 * would choose for it. Those that are taken stand in the answer: so many as `taken` says. */
uint64_t tracker_owned_claim(uint8_t *store, size_t length, uint64_t now, const uint8_t *checked, size_t checked_length, uint8_t *answer,
                             size_t answer_length, uint64_t *taken) TRACKER_MUST_USE;

/* Plans over all keys after the ready cursor and round to it. What it selects stands in the answer in 112 bytes an entry: so many as
 * `count` says, of as many keys as `considered` says. `next` is the least time later than the clock at which a key that nobody owns may be
 * ready or an owner be late, 0 if there is none. */
uint64_t tracker_owned_plan(uint8_t *store, size_t length, uint64_t now, uint8_t *answer, size_t answer_length, uint64_t *considered,
                            uint64_t *count, uint64_t *next) TRACKER_MUST_USE;

/* The same over the keys that are given in 40 bytes each; the ready cursor stays. */
uint64_t tracker_owned_plan_given(uint8_t *store, size_t length, uint64_t now, const uint8_t *given, size_t given_length, uint8_t *answer,
                                  size_t answer_length, uint64_t *considered, uint64_t *count, uint64_t *next) TRACKER_MUST_USE;

/* The next keys after the known cursor, which becomes the last of them. They stand in the answer: so many as `count` says. */
uint64_t tracker_owned_sweep(uint8_t *store, size_t length, uint8_t *answer, size_t answer_length, uint64_t *count) TRACKER_MUST_USE;

/* Whether a poll is due. If the reply is 1, the next one is 100 milliseconds later. */
uint64_t tracker_owned_poll_gate(uint8_t *store, size_t length, uint64_t now, uint64_t *reply) TRACKER_MUST_USE;

/* The connection announces the items, which are given in 40 bytes each, with the priorities beside them in 8; the shorter list decides.
 * source: a wtxid source exists. Carried out, it replies 1. */
uint64_t tracker_owned_announce_transactions(uint8_t *store, size_t length, uint64_t connection, uint64_t now, bool preferred, bool source,
                                             const uint8_t *items, size_t items_length, const uint8_t *priorities,
                                             size_t priorities_length) TRACKER_MUST_USE;

/* A response of the connection is complete: what it still owns of this transaction, under either identity, has failed. Carried out, it
 * replies 1. */
uint64_t tracker_owned_transaction_response_completed(uint8_t *store, size_t length, uint64_t connection, const uint8_t txid[32],
                                                      const uint8_t wtxid[32], uint64_t now) TRACKER_MUST_USE;

/* The connection does not have the items, which are given in 40 bytes each: what it owns of them has failed, and so have its claims to the
 * packages among them. The keys of what failed stand in the answer, followed by those of the parents that are kept where there are some:
 * so many as `count` says. */
uint64_t tracker_owned_transaction_not_found(uint8_t *store, size_t length, uint64_t connection, const uint8_t *items, size_t items_length,
                                             uint64_t now, uint8_t *answer, size_t answer_length, uint64_t *count) TRACKER_MUST_USE;

/* end: written by bindings/generate */

#ifdef __cplusplus
}
#endif

#endif
