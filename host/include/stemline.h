/* The replica engine for C99 and later, and for C++.
 *
 * Link target/staticlib/libreplica.a, which `scripts/library` writes. It
 * allocates nothing, keeps nothing and calls nothing but memset.
 *
 * A group has n replicas, 2 to 6, numbered 0 to n - 1. Each holds a value for
 * each of 128 items, numbered 0 to 127. A stemline_replica is all that one of
 * them holds: make it with stemline_replica_make, whatever was in it before, and
 * let transactions run at it: begin, read, write, ask. What one has written is
 * committed at all replicas by the blocks, which the host carries:
 *
 * - Slot s belongs to replica s mod n. At the turn's slot its owner sends a block:
 *   stemline_replica_is_turn says when. A replica at which nothing was asked sends
 *   too; until it does, the whole group waits.
 * - The block goes to every replica of the group, the sender too, in any order, as
 *   often as you like. Each takes it with stemline_replica_take.
 *
 * A studio that is closed holds nobody up: when the membership service says to all replicas and
 * stations *out k from v* and *back k at w*, each takes that by stemline_replica_out and
 * stemline_replica_back, and works until nothing waits. Slots of k from v on, before w, need no
 * block. host/README.md ("What a membership service must do") says what the service sees to. When
 * it is open again it takes what it missed from another's window: stemline_window.h.
 *
 * A station holds the same values and only reads. stemline_replica_make_station makes
 * a stemline_replica one, at which nobody writes or sends. It takes no turn:
 *
 * - It gets every block of the group from slot 0 on, as often as you like, in any
 *   order, by stemline_replica_take, and sends none.
 * - Nobody waits for it, so it may fall behind and be refused a block by 18 that was handed
 *   out. Keep that block, and offer it again when the station's turn has come nearer. (A
 *   replica is waited for: where nobody is out, no block of its group is refused so there.)
 * - It has no journal and no restart. After a cut of the power it is made anew, with the
 *   values that the group started with, and needs all blocks from slot 0 on. A replica's
 *   journal, as far as it is durable, has them in order.
 *
 * A replica that is to outlast a cut of the power has a journal: a file of blocks,
 * one behind the other, which the host keeps. stemline_journal.h does that. Who keeps
 * one by other means hands no block of a send out before it is appended and durable
 * (fsync), and behind each work, take and giving appends what the turn has left: the
 * window's blocks of the slots from the journal's number of blocks on up to the turn.
 * host/README.md ("The journal") has all steps, also for a disk that fails.
 *
 * A call answers 0 where it is accepted, else the number of the first condition
 * that holds, in the order that its comment names; stemline_words says what a
 * number stands for. A refused call changes nothing; only STEMLINE_STALE ends its
 * transaction, and of a giving that a deliver ended the refused call is that. Every call is defined on any content of the memory, and returns.
 *
 * host/examples/first.c is a whole program, host/examples/story.c a longer one,
 * host/examples/durable.c one with a journal, host/examples/print_room.c one with a
 * station, host/examples/holiday.c one with a studio that was closed.
 *
 * Calls at one replica come one after the other. Who keeps the parts of a replica
 * elsewhere than in a stemline_replica lends each call those that it needs: see
 * stemline_calls.h, which also has the limits, the numbers and the answers. */
#ifndef STEMLINE_H
#define STEMLINE_H

#include <string.h>

#include "stemline_calls.h"

#ifdef __cplusplus
extern "C" {
#endif

/* What a number stands for. */
static inline const char *stemline_words(int number) {
    switch (number) {
    case STEMLINE_ACCEPTED: return "accepted";
    case STEMLINE_WRONG_LENGTH: return "a lent slice has not its exact length";
    case STEMLINE_OUT_OF_RANGE:
        return "the number of replicas, the own number, the item, a class, or a notice's replica or slot is out of range";
    case STEMLINE_NOT_OPEN: return "no open transaction has this ticket";
    case STEMLINE_NOT_ACTIVE: return "the transaction is asked or sent already";
    case STEMLINE_ALL_OPEN: return "6 transactions are open";
    case STEMLINE_TICKETS_SPENT: return "all 100,000,000 tickets are given";
    case STEMLINE_APPLYING:
        return "a block of another replica is being applied, with items of this item's class still to come";
    case STEMLINE_LOCKED: return "another open transaction holds the item";
    case STEMLINE_STALE: return "the item has changed since the snapshot; the transaction is aborted";
    case STEMLINE_WRITESET_FULL: return "the transaction has written 8 items, and this is a ninth";
    case STEMLINE_NOT_OUR_TURN: return "the turn is another replica's slot";
    case STEMLINE_ALREADY_SENT: return "the block for this slot is sent already";
    case STEMLINE_SLOTS_SPENT: return "all 100,000,000 slots are processed";
    case STEMLINE_WRONG_CHECK: return "the block's check does not match";
    case STEMLINE_WRONG_FORM: return "the block is not well formed";
    case STEMLINE_WRONG_GROUP: return "the block is of a group of another size";
    case STEMLINE_PAST_SLOT: return "the block's slot is below the turn";
    case STEMLINE_FAR_SLOT: return "the block's slot is too far above the turn";
    case STEMLINE_NOT_SENT:
        return "the block names this replica as its sender, which did not send it for its present turn";
    case STEMLINE_SLOT_TAKEN: return "a block for this slot waits already";
    case STEMLINE_NOTHING_WAITS: return "no block waits for the turn";
    case STEMLINE_LOAD_WHILE_APPLYING: return "classes are loaded while a block of another replica is being applied";
    case STEMLINE_STATION_ONLY_READS: return "a station neither writes nor sends nor is given blocks";
    case STEMLINE_NOTICE_REFUSED:
        return "the notice does not fit the turn, the notices taken before or a block that is here";
    case STEMLINE_SLOT_OUT: return "the slot is out by a notice";
    case STEMLINE_NOBODY_UP: return "no other replica is up";
    case STEMLINE_WINDOW_LACKS: return "the giver's window lacks a block of a slot up to its turn";
    default: return "refused by an unknown number";
    }
}

/* ---- What a replica holds */

/* All of it, for a group of any size. The values committed are in values, by
 * item, for everybody to look at; only calls change anything. */
typedef struct stemline_replica {
    stemline_txn table[STEMLINE_TABLE]; /* one row for each open transaction */
    stemline_group group;
    stemline_turn turn;
    stemline_counts counts;
    uint32_t queue[STEMLINE_QUEUE];        /* tickets asked and not yet sent, zeros behind */
    uint8_t items[STEMLINE_WRITTEN];       /* row r's written items, rising, from 8 * r on */
    int32_t writes[STEMLINE_WRITTEN];      /* the value beside each written item */
    int32_t snapshots[STEMLINE_SNAPSHOTS]; /* row r's copy of the values at its begin, from 128 * r on */
    int32_t values[STEMLINE_ITEMS];        /* the values committed */
    uint32_t stamps[STEMLINE_ITEMS];       /* the commit count just after an item's last write */
    uint8_t classes[STEMLINE_ITEMS];       /* an item's class, 1 to 8; all 0 where none are loaded */
    /* the block that waits for slot s, at place s mod n; its first byte is 0 where none does */
    uint8_t places[STEMLINE_BLOCK * STEMLINE_REPLICAS];
    uint8_t outbox[STEMLINE_BLOCK]; /* the block sent last */
    uint8_t window[STEMLINE_WINDOW]; /* the last 64 blocks that the turn has left */
} stemline_replica;

/* ---- What a take answers */

/* The most steps of one take, and the most slots that it leaves: 6 blocks wait at most, of 6 writesets
 * each, and 5 slots that are out may come behind them. Where more are out, it waits still: work on. */
#define STEMLINE_STEPS 41
#define STEMLINE_LEFT 11

typedef struct stemline_take_reply {
    uint8_t number;  /* the deliver's: a take is refused where its deliver is */
    uint8_t count;   /* how many of steps count */
    stemline_work_reply steps[STEMLINE_STEPS];
} stemline_take_reply;

/* Whose slot it is in a group of n: the number of the replica that sends for it. */
static inline uint32_t stemline_owner(uint32_t slot, uint32_t n) {
    /* only in altered memory is n 0; a slot mod 0 is then the slot itself */
    return n == 0 ? slot : slot % n;
}

/* Whether a slot from the turn on is out. Of slots before it only all notices say that. */
static inline bool stemline_is_out(const stemline_group *group, uint32_t slot) {
    uint32_t k = stemline_owner(slot, group->replicas);
    /* only in altered memory is the owner none of them, or does an outage end behind the last slot */
    return slot < STEMLINE_SLOTS && k < STEMLINE_REPLICAS && group->from[k] <= slot && slot < group->until[k];
}

/* ---- The calls at a replica
 *
 * r is not null; an array that is given beside it does not lie in it. */

/* So that a program is linked with the archive of this version, or not at all. */
static inline void stemline_same_version(void) {
    (void)*(const volatile char *)stemline_linked_version();
}

/* The bytes of the places that a call is lent for a group of n. For an n above 6 they are
 * all that there are: make and restart are refused by 2, write, deliver and work by 1. */
static inline size_t stemline_lent_places(uint32_t n) {
    return STEMLINE_PLACES(n < STEMLINE_REPLICAS ? n : STEMLINE_REPLICAS);
}

/* Makes r replica own of n, 2 to 6, with 128 values to start with. What r held
 * before is no matter, and stays where the make is refused. Refused by 2. */
static inline uint8_t stemline_replica_make(
    stemline_replica *r, uint32_t n, uint32_t own, const int32_t start[STEMLINE_ITEMS]) {
    stemline_same_version();
    return stemline_make(
        r->table, STEMLINE_TABLE, &r->group, &r->turn, &r->counts, n, own, start, STEMLINE_ITEMS,
        r->queue, STEMLINE_QUEUE, r->items, STEMLINE_WRITTEN, r->writes, STEMLINE_WRITTEN,
        r->snapshots, STEMLINE_SNAPSHOTS, r->values, STEMLINE_ITEMS, r->stamps, STEMLINE_ITEMS,
        r->classes, STEMLINE_ITEMS, r->places, stemline_lent_places(n), r->outbox, STEMLINE_BLOCK,
        r->window, STEMLINE_WINDOW);
}

/* Makes r a station of a group of n, 2 to 6, with the 128 values that the group starts
 * with. It has no number: begin, read, ask, withdraw, report, deliver, work and take
 * run at it as at a replica to which every sender is another, and none of its
 * transactions writes, so that an ask ends it on the spot and no work aborts it. Write
 * and send are refused by 25. A station has no classes: a load there is answered as at
 * a replica and changes nothing that a station answers. What a work says of appending is
 * for journals. As with a make, what r held before is no matter, and stays where this is
 * refused. Refused by 2. */
static inline uint8_t stemline_replica_make_station(
    stemline_replica *r, uint32_t n, const int32_t start[STEMLINE_ITEMS]) {
    stemline_same_version();
    return stemline_make_station(
        r->table, STEMLINE_TABLE, &r->group, &r->turn, &r->counts, n, start, STEMLINE_ITEMS,
        r->queue, STEMLINE_QUEUE, r->items, STEMLINE_WRITTEN, r->writes, STEMLINE_WRITTEN,
        r->snapshots, STEMLINE_SNAPSHOTS, r->values, STEMLINE_ITEMS, r->stamps, STEMLINE_ITEMS,
        r->classes, STEMLINE_ITEMS, r->places, stemline_lent_places(n), r->outbox, STEMLINE_BLOCK,
        r->window, STEMLINE_WINDOW);
}

/* As a make, with the values that the group started with; then commits the blocks
 * of a journal, up to the first that is torn, fails its check or form, has another n
 * or is not of the next slot. Transactions that were open are gone; tickets go on
 * above the highest in its own blocks; classes are to be loaded anew; the window has the
 * last 64 blocks committed. The notices are all that were taken, in order, and are put in
 * force untested. The block given back is the last own one of those committed whose slot
 * they do not put out, to be handed out once more, or 512 zeros if there is none. The
 * journal may have any length; with length 0 it may be null, and so may the notices with
 * count 0. Refused by 2. */
static inline stemline_restart_reply stemline_replica_restart(
    stemline_replica *r, uint32_t n, uint32_t own, const int32_t start[STEMLINE_ITEMS],
    const uint8_t *journal, size_t length, const stemline_notice *notices, size_t count,
    uint8_t block[STEMLINE_BLOCK]) {
    static const stemline_notice none = {0, 0, 0};
    stemline_same_version();
    return stemline_restart(
        r->table, STEMLINE_TABLE, &r->group, &r->turn, &r->counts, n, own, start, STEMLINE_ITEMS,
        r->queue, STEMLINE_QUEUE, r->items, STEMLINE_WRITTEN, r->writes, STEMLINE_WRITTEN,
        r->snapshots, STEMLINE_SNAPSHOTS, r->values, STEMLINE_ITEMS, r->stamps, STEMLINE_ITEMS,
        r->classes, STEMLINE_ITEMS, r->places, stemline_lent_places(n), r->outbox, STEMLINE_BLOCK,
        r->window, STEMLINE_WINDOW, length > 0 ? journal : (const uint8_t *)"", length,
        (const uint32_t *)(count > 0 ? notices : &none), 3 * count, block, STEMLINE_BLOCK);
}

/* Opens a transaction on the values as they are now and gives its ticket.
 * Refused by 5, 6. */
static inline stemline_begin_reply stemline_replica_begin(stemline_replica *r) {
    return stemline_begin(
        r->table, STEMLINE_TABLE, &r->counts, r->values, STEMLINE_ITEMS,
        r->snapshots, STEMLINE_SNAPSHOTS);
}

/* What the transaction wrote last to the item, else the item's value at its
 * begin. Refused by 2, 3, 4. */
static inline stemline_read_reply stemline_replica_read(
    const stemline_replica *r, uint32_t ticket, uint32_t item) {
    return stemline_read(
        r->table, STEMLINE_TABLE, ticket, r->items, STEMLINE_WRITTEN, r->writes, STEMLINE_WRITTEN,
        r->snapshots, STEMLINE_SNAPSHOTS, item);
}

/* Puts the item with its value into the writeset and locks it. While a block of
 * another is applied, 7 if an item of the same class is still to come in it: see
 * stemline_replica_load.
 * Refused by 25, 1, 2, 3, 4, 7 and, unless the transaction holds the item, 9, 8, 10.
 * 9 is before 8: an item that changed since the transaction began is not waited for,
 * whoever holds it; the transaction is aborted. After 8 it is open, and the write is
 * to be tried again when the other has ended: 9, if the item has changed by then. */
static inline uint8_t stemline_replica_write(
    stemline_replica *r, uint32_t ticket, uint32_t item, int32_t value) {
    return stemline_write(
        r->table, STEMLINE_TABLE, &r->group, &r->turn, &r->counts, ticket, r->items, STEMLINE_WRITTEN,
        r->writes, STEMLINE_WRITTEN, r->stamps, STEMLINE_ITEMS, r->classes, STEMLINE_ITEMS,
        r->places, stemline_lent_places(r->group.replicas), item, value);
}

/* Requests commit: a transaction without writes ends on the spot, any other
 * waits for the next own block. Refused by 3, 4. */
static inline stemline_ask_reply stemline_replica_ask(stemline_replica *r, uint32_t ticket) {
    return stemline_ask(r->table, STEMLINE_TABLE, &r->counts, ticket, r->queue, STEMLINE_QUEUE);
}

/* Ends an active transaction. Refused by 3, 4. */
static inline uint8_t stemline_replica_withdraw(stemline_replica *r, uint32_t ticket) {
    return stemline_withdraw(r->table, STEMLINE_TABLE, &r->counts, ticket);
}

/* The counts of the calls so far. Never refused. */
static inline stemline_report_reply stemline_replica_report(const stemline_replica *r) {
    return stemline_report(r->table, STEMLINE_TABLE, &r->turn, &r->counts);
}

/* Whether a send would be accepted now: the turn is a slot of this replica that is not
 * out, its block for that slot is not sent yet, and slots are left. Never at a station. */
static inline bool stemline_replica_is_turn(const stemline_replica *r) {
    uint32_t slot = r->turn.slot, own = r->group.own;
    return own != STEMLINE_NO_NUMBER && slot < STEMLINE_SLOTS
        && stemline_owner(slot, r->group.replicas) == own && r->turn.sent == 0
        && !stemline_is_out(&r->group, slot);
}

/* Writes the block for the own slot, with all that is asked, be it nothing. It
 * goes to the journal, and from there, once it is durable, to every replica of the
 * group, this one too. Refused by 25, 13, 11, 29, 12. */
static inline uint8_t stemline_replica_send(stemline_replica *r, uint8_t block[STEMLINE_BLOCK]) {
    return stemline_send(
        r->table, STEMLINE_TABLE, &r->group, &r->turn, r->queue, STEMLINE_QUEUE,
        r->items, STEMLINE_WRITTEN, r->writes, STEMLINE_WRITTEN, r->outbox, STEMLINE_BLOCK,
        block, STEMLINE_BLOCK);
}

/* Keeps a block until its slot is the turn. A station is to be offered a block again that it
 * refused by 18, and so is a replica that is out or was; one that is refused by 29 where a Back
 * is still to be taken. Refused by 1, 14, 15, 16, 17, 29, 18, 19, 20; 19 never at a station. */
static inline uint8_t stemline_replica_deliver(
    stemline_replica *r, const uint8_t *bytes, size_t length) {
    return stemline_deliver(
        &r->group, &r->turn, r->places, stemline_lent_places(r->group.replicas),
        r->outbox, STEMLINE_BLOCK, bytes, length);
}

/* Takes one step at the block of the turn: commits its next writeset, or passes
 * over a block without records, or over a slot that is out. Where the turn leaves a slot,
 * the window gets its block, or its next where it is out. Where append is true, that of
 * turn - 1 goes to the journal, from the window: it is another's, or a next, which is
 * durable before anything goes on, be the slot an own one. Refused by 1, 21. */
static inline stemline_work_reply stemline_replica_work(stemline_replica *r) {
    return stemline_work(
        r->table, STEMLINE_TABLE, &r->group, &r->turn, &r->counts, r->queue, STEMLINE_QUEUE,
        r->items, STEMLINE_WRITTEN, r->values, STEMLINE_ITEMS, r->stamps, STEMLINE_ITEMS,
        r->places, stemline_lent_places(r->group.replicas), r->window, STEMLINE_WINDOW);
}

/* Gives each of the 128 items a conflict class, 1 to 8, in the place of the ones
 * that it had. While a block of another is applied, writeset by writeset, only items
 * wait (7) whose class holds an item of a writeset still to be applied. After a make
 * and after a restart all items are of one class. Classes are the host's own matter:
 * they go into no block and no journal, and each replica of a group may have others. A
 * station has no classes: a load there is answered as at a replica and changes nothing that
 * a station answers. Refused by 1, 2, 23. */
static inline uint8_t stemline_replica_load(
    stemline_replica *r, const uint8_t *classes, size_t length) {
    return stemline_load(&r->turn, r->classes, STEMLINE_ITEMS, classes, length);
}

/* Takes the notice *out replica from slot*: from that slot on its slots need no block, and a work
 * passes them. Refused by 2, 28. */
static inline uint8_t stemline_replica_out(stemline_replica *r, uint32_t replica, uint32_t slot) {
    return stemline_out(
        &r->group, &r->turn, r->places, stemline_lent_places(r->group.replicas), replica, slot);
}

/* Takes the notice *back replica at slot*: from that slot on its slots count again.
 * Refused by 2, 28. */
static inline uint8_t stemline_replica_back(stemline_replica *r, uint32_t replica, uint32_t slot) {
    return stemline_back(
        &r->group, &r->turn, r->places, stemline_lent_places(r->group.replicas), replica, slot);
}

/* Whether a block waits for the turn, or its slot is out: where neither is, a work is refused
 * by 21. Behind a notice and behind a restart, work while it holds. */
static inline bool stemline_replica_waits(const stemline_replica *r) {
    uint32_t n = r->group.replicas, slot = r->turn.slot;
    /* slot s waits at place s mod n; only in altered memory is n out of range, and the work says then what is wrong */
    return n - 1 >= STEMLINE_REPLICAS || r->places[STEMLINE_BLOCK * (slot % n)] != 0
        || stemline_is_out(&r->group, slot);
}

/* Works while something waits, up to so many steps and slots. */
static inline void stemline_replica_works(
    stemline_replica *r, int most_steps, int most_slots, stemline_take_reply *reply) {
    bool waits = stemline_replica_waits(r);
    int left = 0;
    while (waits && reply->count < most_steps && left < most_slots) {
        stemline_work_reply work = stemline_replica_work(r);
        if (work.number != STEMLINE_ACCEPTED) {
            break; /* 21: behind a deliver no work of this struct is refused by another */
        }
        reply->steps[reply->count++] = work;
        left += work.moved;
        waits = !work.moved || stemline_replica_waits(r);
    }
}

/* What a replica does with a block that arrives: delivers it, then works until
 * nothing waits for the turn. Gives the steps in their order: none where the
 * block is early and has to wait; those of blocks that waited already too, where
 * this is the one that they waited for. The blocks of the slots that they leave go to
 * the journal, from the window, but for an own one, which is there since its send.
 * Refused by 1, 14, 15, 16, 17, 29, 18, 19, 20, as the deliver is: nothing is worked,
 * and what waits already goes on waiting. So it is with a block that comes a
 * second time (17 or 20), which a host may pass over.
 * Where STEMLINE_STEPS steps or STEMLINE_LEFT slots are not enough, as on altered memory, or
 * with many slots out one behind the other, something waits still: work while it does.
 * The reply is written into the lent one; behind its count it stays as it is. It does not
 * lie in r. */
static inline void stemline_replica_take_into(
    stemline_replica *r, const uint8_t *bytes, size_t length, stemline_take_reply *reply) {
    reply->number = stemline_replica_deliver(r, bytes, length);
    reply->count = 0;
    if (reply->number == STEMLINE_ACCEPTED) {
        stemline_replica_works(r, STEMLINE_STEPS, STEMLINE_LEFT, reply);
    }
}

/* As stemline_replica_take_into, with the reply given back, and zeros behind its count. */
static inline stemline_take_reply stemline_replica_take(
    stemline_replica *r, const uint8_t *bytes, size_t length) {
    stemline_take_reply reply;
    memset(&reply, 0, sizeof reply);
    stemline_replica_take_into(r, bytes, length, &reply);
    return reply;
}

#ifdef __cplusplus
}
#endif

#include "stemline_window.h"

#endif
