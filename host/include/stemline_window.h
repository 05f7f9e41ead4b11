/* Coming back after a holiday, for C99 and later, and for C++; stemline.h includes this.
 *
 * Every replica keeps a window: the blocks of the last 64 slots that its turn has left, as
 * its journal has them. A studio that was closed and is open again takes what it missed from
 * another's:
 *
 * 1. It opens its journal, and takes the notices that were said meanwhile.
 * 2. Its host asks the hosts of all others for their turns. One that does not answer is
 *    STEMLINE_DOWN. stemline_replica_giver names whom to ask for blocks.
 * 3. The giver's host answers with the blocks of the slots from the returner's turn on up to
 *    its own as told, out of its window: stemline_window_block.
 * 4. The returner's host puts them into a window of zeros, by stemline_window_put, and calls
 *    stemline_replica_give with the turns that were told, where each was put. Then it appends
 *    what the turn has left to its journal, as behind a take.
 *
 * A longer holiday is made up for block by block from the giver's journal, by
 * stemline_replica_take_slot. host/README.md ("Coming back after a holiday") says more. */
#ifndef STEMLINE_WINDOW_H
#define STEMLINE_WINDOW_H

#include "stemline.h"

#ifdef __cplusplus
extern "C" {
#endif

/* The block of a slot in a window, or null where it has none. A replica's window has those of
 * the last 64 slots that its turn has left. */
static inline const uint8_t *stemline_window_block(
    const uint8_t window[STEMLINE_WINDOW], uint32_t slot) {
    const uint8_t *block = window + STEMLINE_BLOCK * (slot % STEMLINE_KEPT);
    /* a block begins with its kind, 1 or 2; its slot is in bytes 4 to 7, the lowest first */
    uint32_t of = (uint32_t)block[4] | (uint32_t)block[5] << 8 | (uint32_t)block[6] << 16
                  | (uint32_t)block[7] << 24;
    return block[0] != 0 && of == slot ? block : NULL;
}

/* Puts the block of a slot in its place, over that of another; false, and nothing is put, where
 * the bytes are no good block, or another slot's. */
static inline bool stemline_window_put(
    uint8_t window[STEMLINE_WINDOW], uint32_t slot, const uint8_t *bytes, size_t length) {
    stemline_block_reply read = stemline_block_header(bytes, length);
    bool good = read.number == STEMLINE_ACCEPTED && read.header.slot == slot;
    if (good) {
        memcpy(window + STEMLINE_BLOCK * (slot % STEMLINE_KEPT), bytes, STEMLINE_BLOCK);
    }
    return good;
}

/* Who is to give, by the turn of each replica of the group, STEMLINE_DOWN for one that is down:
 * the other one that is up with the highest turn, of equal ones the first behind r, counting upward
 * and round. The own turn is not looked at. Refused by 25, 1 where count is not n, 30 where nobody
 * else is up. */
static inline stemline_giver_reply stemline_replica_giver(
    const stemline_replica *r, const uint32_t *turns, size_t count) {
    return stemline_giver(&r->group, turns, count);
}

/* Takes what r missed: told each replica's turn, as stemline_replica_giver is, and lent the window
 * of the one that this names, or one with its blocks of the slots from r's turn on up to that
 * one's. Slot by slot they are delivered, unless one is in place or the slot is out, and worked.
 * Where r is level with the giver or ahead, nothing is done, and the window is not looked at.
 *
 * r has taken the notices that the giver has taken: then it comes to the giver's turn as told, with
 * the values that the giver had there. The blocks of the slots that it left go to the journal, as
 * behind a take, and are durable before anything goes on where one of them was out.
 *
 * Refused by 25, 1, 30, and by 31 where the window lacks a block of these slots, by the first and
 * the last of them. Any other number is a deliver's, or a work's 21, as with other notices or a
 * window that lacks one in between: that ended it, and what went before stands. The window is not
 * r's own. */
static inline stemline_give_reply stemline_replica_give(
    stemline_replica *r, const uint32_t *turns, size_t count, const uint8_t window[STEMLINE_WINDOW]) {
    return stemline_give(
        r->table, STEMLINE_TABLE, &r->group, &r->turn, &r->counts, r->queue, STEMLINE_QUEUE,
        r->items, STEMLINE_WRITTEN, r->values, STEMLINE_ITEMS, r->stamps, STEMLINE_ITEMS,
        r->places, stemline_lent_places(r->group.replicas), r->outbox, STEMLINE_BLOCK,
        r->window, STEMLINE_WINDOW, turns, count, window, STEMLINE_WINDOW);
}

/* Takes the turn's slot, with its block as another's journal has it: delivers that, unless the slot
 * is out or a block is in place, and works until the turn has left the slot. What is behind it
 * waits, so that a notice can be taken before. Also at a station, which is fed from a journal.
 * Refused as the deliver is. Where nothing is in place, a block of another slot is kept as by a
 * deliver, and nothing is worked. */
static inline stemline_take_reply stemline_replica_take_slot(
    stemline_replica *r, const uint8_t *bytes, size_t length) {
    stemline_take_reply reply;
    memset(&reply, 0, sizeof reply);
    if (!stemline_replica_waits(r)) {
        reply.number = stemline_replica_deliver(r, bytes, length);
    }
    if (reply.number == STEMLINE_ACCEPTED) {
        stemline_replica_works(r, 6, 1, &reply); /* a block has 6 writesets at most */
    }
    return reply;
}

#ifdef __cplusplus
}
#endif

#endif
