/* Two replicas, part by part; what lies between the fields of a struct is no matter. */
#ifndef SAME_H
#define SAME_H

#include <stdio.h>
#include <stdlib.h>
#include <string.h>

#include "stemline.h"

#define SAME(part) (memcmp(&a->part, &b->part, sizeof a->part) == 0)

static inline int same_counts(const stemline_counts *a, const stemline_counts *b) {
    return SAME(commits) && SAME(done) && SAME(tickets)
        && SAME(committed) && SAME(read_only) && SAME(aborted) && SAME(withdrawn);
}

static inline int same_group(const stemline_group *a, const stemline_group *b) {
    return SAME(replicas) && SAME(own) && SAME(from) && SAME(until);
}

static inline int same(const stemline_replica *a, const stemline_replica *b) {
    return SAME(table) && same_group(&a->group, &b->group) && SAME(turn.slot) && SAME(turn.sent) && SAME(turn.applying)
        && same_counts(&a->counts, &b->counts) && SAME(queue) && SAME(items) && SAME(writes)
        && SAME(snapshots) && SAME(values) && SAME(stamps) && SAME(classes) && SAME(places)
        && SAME(outbox) && SAME(window);
}

/* Stops the program where something does not hold. */
static inline void hold(int holds, const char *what) {
    if (!holds) {
        fprintf(stderr, "%s\n", what);
        exit(1);
    }
}

/* Leaves bytes that are not 0 where the next call has its locals. */
static inline void dirty_stack(void) {
    volatile uint8_t bytes[1 << 14];
    for (size_t i = 0; i < sizeof bytes; i++) {
        bytes[i] = 0xa5;
    }
}

static inline void take(
    stemline_take_reply *taken, stemline_replica *r, const uint8_t *bytes, size_t length) {
    *taken = stemline_replica_take(r, bytes, length);
}

/* A take whose locals hold something else than zeros at its start. */
static inline stemline_take_reply take_on_dirt(
    stemline_replica *r, const uint8_t *bytes, size_t length) {
    /* by pointers that may change, so that both are calls and none is part of this function */
    static void (*volatile dirty)(void) = dirty_stack;
    static void (*volatile called)(
        stemline_take_reply *, stemline_replica *, const uint8_t *, size_t) = take;
    stemline_take_reply taken;
    dirty();
    called(&taken, r, bytes, length);
    return taken;
}

static inline int same_work(const stemline_work_reply *a, const stemline_work_reply *b) {
    return SAME(number) && SAME(sender) && SAME(moved) && SAME(count) && SAME(ticket)
        && SAME(aborted) && SAME(append);
}

typedef stemline_work_reply work_call(stemline_replica *r);

/* The next of a slot in a group of n. */
static inline void put_next(uint8_t block[STEMLINE_BLOCK], uint32_t n, uint32_t slot) {
    uint32_t sums[2] = {0, 0};
    memset(block, 0, STEMLINE_BLOCK);
    block[0] = 1, block[1] = (uint8_t)stemline_owner(slot, n), block[2] = (uint8_t)n;
    for (int i = 0; i < 4; i++) {
        block[4 + i] = (uint8_t)(slot >> 8 * i);
    }
    for (int i = 0; i < 504; i += 2) {
        sums[0] += (uint32_t)(block[i] | block[i + 1] << 8);
        sums[1] += sums[0];
    }
    for (int i = 0; i < 8; i++) {
        block[504 + i] = (uint8_t)(sums[i / 4] >> 8 * (i % 4));
    }
}

/* A work, by such a call. It leaves the window as it was, or with the block of the turn in its place, or the next
 * of a slot that is out, where the turn moved. */
static inline stemline_work_reply hold_work(work_call *call, stemline_replica *r) {
    static uint8_t due[STEMLINE_WINDOW], left[STEMLINE_BLOCK];
    size_t n = r->group.replicas, at = STEMLINE_BLOCK * (size_t)(r->turn.slot % STEMLINE_KEPT);
    memcpy(due, r->window, sizeof due);
    if (stemline_is_out(&r->group, r->turn.slot)) {
        put_next(left, (uint32_t)n, r->turn.slot);
    } else if (n >= 1 && n <= STEMLINE_REPLICAS) {
        memcpy(left, r->places + STEMLINE_PLACES(r->turn.slot % n), sizeof left);
    }
    stemline_work_reply work = call(r);
    if (work.moved) {
        memcpy(due + at, left, sizeof left);
    }
    hold(memcmp(r->window, due, sizeof due) == 0, "work: another window");
    hold(!work.append || (work.number == 0 && work.moved), "work: a block that is not left");
    return work;
}

/* What a take is to give: what a deliver gives, and as many works as a take has. */
static inline void deliver_and_work(
    stemline_take_reply *due, stemline_replica *r, const uint8_t *bytes, size_t length) {
    memset(due, 0, sizeof *due);
    due->number = stemline_replica_deliver(r, bytes, length);
    int left = 0;
    while (due->number == 0 && due->count < STEMLINE_STEPS && left < STEMLINE_LEFT) {
        stemline_work_reply work = hold_work(stemline_replica_work, r);
        if (work.number != 0) {
            hold(work.number == STEMLINE_NOTHING_WAITS, "take: a work refused by another number than 21");
            break;
        }
        due->steps[due->count++] = work;
        left += work.moved;
    }
}

/* A take into a lent reply gives as much, leaves such a replica, and what is behind its counts as it was. */
static inline void hold_take_into(
    const stemline_replica *r, const uint8_t *bytes, size_t length, const stemline_take_reply *due,
    const stemline_replica *left) {
    static stemline_replica taking;
    static stemline_take_reply taken, dirt;
    memcpy(&taking, r, sizeof taking);
    memset(&taken, 0xa5, sizeof taken);
    memset(&dirt, 0xa5, sizeof dirt);
    stemline_replica_take_into(&taking, bytes, length, &taken);
    hold(taken.number == due->number && taken.count == due->count, "take_into: another number or count");
    for (int i = 0; i < STEMLINE_STEPS; i++) {
        hold(i < due->count ? same_work(&taken.steps[i], &due->steps[i])
                            : memcmp(&taken.steps[i], &dirt.steps[i], sizeof dirt.steps[i]) == 0,
             "take_into: another step, or one behind the last");
    }
    hold(same(&taking, left), "take_into: another memory");
}

/* A take gives what a deliver and its works give, zeros behind, and leaves the same. It is tried on
 * copies. */
static inline void hold_take(const stemline_replica *r, const uint8_t *bytes, size_t length) {
    static stemline_replica taking, calling;
    stemline_take_reply due;
    memcpy(&taking, r, sizeof taking);
    memcpy(&calling, r, sizeof calling);
    stemline_take_reply taken = take_on_dirt(&taking, bytes, length);
    deliver_and_work(&due, &calling, bytes, length);
    hold(taken.number == due.number, "take: another number");
    hold(taken.count == due.count, "take: another count of steps");
    for (int i = 0; i < STEMLINE_STEPS; i++) {
        hold(same_work(&taken.steps[i], &due.steps[i]), "take: another step, or none of zeros");
    }
    hold(same(&taking, &calling), "take: another memory");
    hold_take_into(r, bytes, length, &due, &calling);
}

/* A giving from this window leaves what its slots leave, taken one by one, and names their tickets, rising. It is
 * tried on copies: r is as before, given as after. */
static inline void hold_give(
    const stemline_replica *r, const stemline_replica *given, const uint8_t window[STEMLINE_WINDOW],
    const stemline_give_reply *reply) {
    static stemline_replica taking;
    uint32_t named[STEMLINE_TABLE] = {0}, count = 0;
    uint8_t number = 0;
    memcpy(&taking, r, sizeof taking);
    for (int slots = 0; slots < STEMLINE_KEPT && number == 0 && taking.turn.slot < given->turn.slot + (reply->number != 0);
         slots++) {
        const uint8_t *block = window + STEMLINE_BLOCK * (taking.turn.slot % STEMLINE_KEPT);
        stemline_take_reply taken = stemline_replica_take_slot(&taking, block, STEMLINE_BLOCK);
        number = taken.number;
        for (int i = 0; i < taken.count; i++) {
            for (int k = 0; k < taken.steps[i].count; k++) {
                uint32_t ticket = taken.steps[i].aborted[k], at = count++;
                hold(count <= STEMLINE_TABLE, "give: more tickets than there are");
                for (; at > 0 && named[at - 1] > ticket; at--) {
                    named[at] = named[at - 1];
                }
                named[at] = ticket;
            }
        }
    }
    hold(number == reply->number, "give: another number than that of its slots");
    hold(same(&taking, given), "give: another memory than that of its slots");
    hold(count == reply->count && memcmp(named, reply->aborted, sizeof named) == 0, "give: other tickets");
}

#endif
