/* The calls of the replica engine over parts that the host lends, and three
 * functions that read a block, for C99 and later, and for C++; their limits, numbers
 * and structs.
 *
 * Most hosts include stemline.h, which includes this and has a struct of all parts
 * of a replica with functions over it for the same calls. There stands how a group
 * is run, and what a host with journals has to do. Who keeps the parts of a replica
 * elsewhere needs this header alone. */
#ifndef STEMLINE_CALLS_H
#define STEMLINE_CALLS_H

#include <stdbool.h>
#include <stddef.h>
#include <stdint.h>

#ifdef __cplusplus
extern "C" {
#endif

/* ---- The version: of these headers, and of the library beside which they are installed */

#define STEMLINE_VERSION_MAJOR 0
#define STEMLINE_VERSION_MINOR 1
#define STEMLINE_VERSION_PATCH 0
#define STEMLINE_VERSION "0.1.0"

/* The archive has a symbol by the name of its version's first two numbers, so that headers and
 * archive of two versions that do not go together do not link: the makes and the restart of
 * stemline.h look at it. Who uses the calls over lent parts alone calls stemline_linked_version
 * once. */
#define STEMLINE_VERSION_OF_(major, minor) stemline_version_##major##_##minor
#define STEMLINE_VERSION_OF(major, minor) STEMLINE_VERSION_OF_(major, minor)
#define STEMLINE_VERSION_SYMBOL STEMLINE_VERSION_OF(STEMLINE_VERSION_MAJOR, STEMLINE_VERSION_MINOR)
extern const char STEMLINE_VERSION_SYMBOL[];

/* The version of the archive that is linked, as STEMLINE_VERSION is written. */
static inline const char *stemline_linked_version(void) {
    return STEMLINE_VERSION_SYMBOL;
}

/* ---- The limits */

#define STEMLINE_REPLICAS 6      /* the most replicas of a group; the fewest are 2 */
#define STEMLINE_SLOTS 100000000 /* slots of a run; a replica at this turn has processed them all */
#define STEMLINE_TABLE 6         /* rows of the table: the most open transactions */
#define STEMLINE_QUEUE 6         /* tickets of the queue: those asked and not yet sent */
#define STEMLINE_ITEMS 128       /* items of a replica; as many values, stamps, classes and values to start with */
#define STEMLINE_CLASSES 8       /* conflict classes of items, numbered from 1 */
#define STEMLINE_WRITTEN 48      /* written items of all rows, 8 for each; as many values beside them */
#define STEMLINE_SNAPSHOTS 768   /* values of all snapshots, 128 for each row */
#define STEMLINE_BLOCK 512       /* bytes of a block */
#define STEMLINE_KEPT 64         /* blocks of a window: the last that the turn has left */
#define STEMLINE_WINDOW 32768    /* bytes of a window; the block of slot s is from STEMLINE_BLOCK * (s mod 64) on */
#define STEMLINE_DOWN 4294967295u /* in the place of a turn that is told: its replica is down */
#define STEMLINE_NO_NUMBER 255   /* in the place of an own number: a station, which only reads */
/* bytes of the places of n replicas */
#define STEMLINE_PLACES(n) (STEMLINE_BLOCK * (size_t)(n))

/* ---- The numbers, with their words in stemline_words of stemline.h */

enum stemline_number {
    STEMLINE_ACCEPTED = 0,
    STEMLINE_WRONG_LENGTH = 1,
    STEMLINE_OUT_OF_RANGE = 2,
    STEMLINE_NOT_OPEN = 3,
    STEMLINE_NOT_ACTIVE = 4,
    STEMLINE_ALL_OPEN = 5,
    STEMLINE_TICKETS_SPENT = 6,
    STEMLINE_APPLYING = 7,
    STEMLINE_LOCKED = 8, /* of an item that is not stale: STEMLINE_STALE is before it */
    STEMLINE_STALE = 9,
    STEMLINE_WRITESET_FULL = 10,
    STEMLINE_NOT_OUR_TURN = 11,
    STEMLINE_ALREADY_SENT = 12,
    STEMLINE_SLOTS_SPENT = 13,
    STEMLINE_WRONG_CHECK = 14,
    STEMLINE_WRONG_FORM = 15,
    STEMLINE_WRONG_GROUP = 16,
    STEMLINE_PAST_SLOT = 17,
    STEMLINE_FAR_SLOT = 18,
    STEMLINE_NOT_SENT = 19,
    STEMLINE_SLOT_TAKEN = 20,
    STEMLINE_NOTHING_WAITS = 21,
    /* 22 was a work's, and is free for good. */
    STEMLINE_LOAD_WHILE_APPLYING = 23,
    STEMLINE_STATION_ONLY_READS = 25,
    /* 26 and 27 are the program week's. */
    STEMLINE_NOTICE_REFUSED = 28,
    STEMLINE_SLOT_OUT = 29,
    STEMLINE_NOBODY_UP = 30,
    STEMLINE_WINDOW_LACKS = 31
};

/* ---- What a replica holds, beside arrays of numbers */

/* An open transaction. Ticket 0 is a free row. Stage 0 is active, 1 asked, 2 sent. */
typedef struct stemline_txn {
    uint32_t ticket;
    uint32_t stage;
    uint32_t snapshot; /* the commit count at its begin */
    uint32_t writes;   /* how many items it has written */
} stemline_txn;

/* A mark is off where it is 0, on where it is any other number. */
typedef struct stemline_turn {
    uint32_t slot;    /* the slot that is processed next */
    uint8_t sent;     /* mark: the own block for it was sent */
    uint8_t applying; /* mark: a block of another replica is committed in part */
} stemline_turn;

/* What a replica knows of its group. A make, a restart or a notice sets it, and no other call. */
typedef struct stemline_group {
    uint8_t replicas; /* n */
    uint8_t own;      /* the replica's own number; STEMLINE_NO_NUMBER for a station */
    /* the last outage of each replica: its slots from .. until are out, without the last; until is
     * STEMLINE_SLOTS where no Back was taken yet, and 0 where no Out was */
    uint32_t from[STEMLINE_REPLICAS], until[STEMLINE_REPLICAS];
} stemline_group;

/* A notice that was taken, as a restart is lent it. */
typedef struct stemline_notice {
    uint32_t replica;
    uint32_t out; /* 1: out from the slot on; 0: back at it */
    uint32_t slot;
} stemline_notice;

typedef struct stemline_counts {
    uint32_t commits; /* writesets committed, own and others' */
    uint8_t done;     /* writesets committed of the block at the turn */
    uint32_t tickets; /* tickets given */
    uint32_t committed, read_only, aborted, withdrawn; /* how own transactions ended */
} stemline_counts;

/* ---- What a call answers. All but the number is 0 where it is refused; only of a giving see below. */

typedef struct stemline_begin_reply {
    uint8_t number;
    uint32_t ticket;
} stemline_begin_reply;

typedef struct stemline_read_reply {
    uint8_t number;
    int32_t value;
} stemline_read_reply;

typedef struct stemline_ask_reply {
    uint8_t number;
    bool read_only; /* it had no writes: it has committed and ended */
} stemline_ask_reply;

typedef struct stemline_report_values {
    uint32_t turn, commits, tickets;
    uint32_t open_count; /* open transactions */
    uint32_t committed, read_only, aborted, withdrawn;
} stemline_report_values;

typedef struct stemline_report_reply {
    uint8_t number;
    stemline_report_values report;
} stemline_report_reply;

typedef struct stemline_work_reply {
    uint8_t number;
    uint8_t sender;
    bool moved;      /* the turn went up */
    uint8_t count;   /* how many of aborted count */
    uint32_t ticket; /* of the writeset committed; 0 for a block without records, and for a slot that is out */
    uint32_t aborted[STEMLINE_TABLE]; /* own tickets aborted, rising, zeros behind */
    /* the turn left another's slot, or any that is out: the window's block of that slot, turn - 1, is to be
     * appended to the journal */
    bool append;
} stemline_work_reply;

typedef struct stemline_giver_reply {
    uint8_t number;
    uint8_t giver; /* whose window is to be lent */
} stemline_giver_reply;

/* Refused by 31, it names the giver; where a deliver was refused, which ended it, the tickets too. */
typedef struct stemline_give_reply {
    uint8_t number;
    uint8_t giver;
    uint8_t count; /* how many of aborted count */
    uint32_t aborted[STEMLINE_TABLE]; /* own tickets aborted, rising, zeros behind */
} stemline_give_reply;

typedef struct stemline_restart_reply {
    uint8_t number;
    uint32_t count; /* blocks committed: the journal is to be cut to so many */
} stemline_restart_reply;

/* ---- What is read of a block */

typedef struct stemline_header_values {
    uint8_t kind; /* 1: a next, without records; 2: with count records */
    uint8_t sender, replicas, count;
    uint32_t slot;
} stemline_header_values;

typedef struct stemline_block_reply {
    uint8_t number;
    stemline_header_values header;
} stemline_block_reply;

typedef struct stemline_record_values {
    uint32_t ticket;
    uint8_t writes; /* how many entries it has */
} stemline_record_values;

typedef struct stemline_entry_values {
    uint8_t item;
    int32_t value; /* what the item is set to */
} stemline_entry_values;

/* ---- The calls over lent parts
 *
 * Each does what is said in stemline.h at the function over a stemline_replica of
 * its name. A lent array is a pointer and its number of elements; the pointer is
 * aligned and not null, and no two lent parts overlap. The lengths, in a group of n:
 *
 * table                       STEMLINE_TABLE
 * queue                       STEMLINE_QUEUE
 * items, writes               STEMLINE_WRITTEN
 * snapshots                   STEMLINE_SNAPSHOTS
 * start, values, stamps       STEMLINE_ITEMS
 * classes, given              STEMLINE_ITEMS
 * places                      STEMLINE_PLACES(n)
 * outbox, block, bytes        STEMLINE_BLOCK
 * window, lent                STEMLINE_WINDOW
 * turns                       n
 * journal                     any
 * notices                     three for each: those of a stemline_notice
 *
 * Any other length is refused by 1, before anything else is tested; only at a station
 * a write and a send are refused by 25 before that, who gives too, and a giving but for its
 * table. At a make, of a station too, and at a restart with an n out of range the places may
 * have any length.
 *
 * A station has no classes: a load there is answered as at a replica and changes
 * nothing that a station answers. */

uint8_t stemline_make(
    stemline_txn *table, size_t table_length, stemline_group *group,
    stemline_turn *turn, stemline_counts *counts,
    uint32_t n, uint32_t own, const int32_t *start, size_t start_length,
    uint32_t *queue, size_t queue_length, uint8_t *items, size_t items_length,
    int32_t *writes, size_t writes_length, int32_t *snapshots, size_t snapshots_length,
    int32_t *values, size_t values_length, uint32_t *stamps, size_t stamps_length,
    uint8_t *classes, size_t classes_length,
    uint8_t *places, size_t places_length, uint8_t *outbox, size_t outbox_length,
    uint8_t *window, size_t window_length);

uint8_t stemline_make_station(
    stemline_txn *table, size_t table_length, stemline_group *group,
    stemline_turn *turn, stemline_counts *counts,
    uint32_t n, const int32_t *start, size_t start_length,
    uint32_t *queue, size_t queue_length, uint8_t *items, size_t items_length,
    int32_t *writes, size_t writes_length, int32_t *snapshots, size_t snapshots_length,
    int32_t *values, size_t values_length, uint32_t *stamps, size_t stamps_length,
    uint8_t *classes, size_t classes_length,
    uint8_t *places, size_t places_length, uint8_t *outbox, size_t outbox_length,
    uint8_t *window, size_t window_length);

stemline_restart_reply stemline_restart(
    stemline_txn *table, size_t table_length, stemline_group *group,
    stemline_turn *turn, stemline_counts *counts,
    uint32_t n, uint32_t own, const int32_t *start, size_t start_length,
    uint32_t *queue, size_t queue_length, uint8_t *items, size_t items_length,
    int32_t *writes, size_t writes_length, int32_t *snapshots, size_t snapshots_length,
    int32_t *values, size_t values_length, uint32_t *stamps, size_t stamps_length,
    uint8_t *classes, size_t classes_length,
    uint8_t *places, size_t places_length, uint8_t *outbox, size_t outbox_length,
    uint8_t *window, size_t window_length,
    const uint8_t *journal, size_t journal_length, const uint32_t *notices, size_t notices_length,
    uint8_t *block, size_t block_length);

uint8_t stemline_out(
    stemline_group *group, const stemline_turn *turn, const uint8_t *places, size_t places_length,
    uint32_t replica, uint32_t slot);

uint8_t stemline_back(
    stemline_group *group, const stemline_turn *turn, const uint8_t *places, size_t places_length,
    uint32_t replica, uint32_t slot);

stemline_begin_reply stemline_begin(
    stemline_txn *table, size_t table_length, stemline_counts *counts,
    const int32_t *values, size_t values_length, int32_t *snapshots, size_t snapshots_length);

stemline_read_reply stemline_read(
    const stemline_txn *table, size_t table_length, uint32_t ticket,
    const uint8_t *items, size_t items_length, const int32_t *writes, size_t writes_length,
    const int32_t *snapshots, size_t snapshots_length, uint32_t item);

uint8_t stemline_write(
    stemline_txn *table, size_t table_length, const stemline_group *group,
    const stemline_turn *turn, stemline_counts *counts,
    uint32_t ticket, uint8_t *items, size_t items_length, int32_t *writes, size_t writes_length,
    const uint32_t *stamps, size_t stamps_length, const uint8_t *classes, size_t classes_length,
    const uint8_t *places, size_t places_length, uint32_t item, int32_t value);

stemline_ask_reply stemline_ask(
    stemline_txn *table, size_t table_length, stemline_counts *counts, uint32_t ticket,
    uint32_t *queue, size_t queue_length);

uint8_t stemline_withdraw(
    stemline_txn *table, size_t table_length, stemline_counts *counts, uint32_t ticket);

stemline_report_reply stemline_report(
    const stemline_txn *table, size_t table_length, const stemline_turn *turn,
    const stemline_counts *counts);

uint8_t stemline_send(
    stemline_txn *table, size_t table_length, const stemline_group *group, stemline_turn *turn,
    uint32_t *queue, size_t queue_length, const uint8_t *items, size_t items_length,
    const int32_t *writes, size_t writes_length, uint8_t *outbox, size_t outbox_length,
    uint8_t *block, size_t block_length);

uint8_t stemline_deliver(
    const stemline_group *group, const stemline_turn *turn, uint8_t *places, size_t places_length,
    const uint8_t *outbox, size_t outbox_length, const uint8_t *bytes, size_t bytes_length);

stemline_work_reply stemline_work(
    stemline_txn *table, size_t table_length, const stemline_group *group,
    stemline_turn *turn, stemline_counts *counts,
    uint32_t *queue, size_t queue_length, const uint8_t *items, size_t items_length,
    int32_t *values, size_t values_length, uint32_t *stamps, size_t stamps_length,
    uint8_t *places, size_t places_length, uint8_t *window, size_t window_length);

stemline_giver_reply stemline_giver(
    const stemline_group *group, const uint32_t *turns, size_t turns_length);

stemline_give_reply stemline_give(
    stemline_txn *table, size_t table_length, const stemline_group *group,
    stemline_turn *turn, stemline_counts *counts,
    uint32_t *queue, size_t queue_length, const uint8_t *items, size_t items_length,
    int32_t *values, size_t values_length, uint32_t *stamps, size_t stamps_length,
    uint8_t *places, size_t places_length, const uint8_t *outbox, size_t outbox_length,
    uint8_t *window, size_t window_length, const uint32_t *turns, size_t turns_length,
    const uint8_t *lent, size_t lent_length);

uint8_t stemline_load(
    const stemline_turn *turn, uint8_t *classes, size_t classes_length,
    const uint8_t *given, size_t given_length);

/* ---- The functions that read a block
 *
 * They look at the bytes lent and at nothing else; the bytes may have any length and
 * content. The header of a good block is given with 0; else the number is 1 for a
 * length other than STEMLINE_BLOCK, 14 for the check or 15 for the form. Of a good
 * block record j is read for j below the header's count, and its entry e for e below
 * the record's writes; both count from 0. Of other bytes of that length both are given
 * as the bytes stand. Past the sixth record and the eighth entry, and at another
 * length, all is 0. */

stemline_block_reply stemline_block_header(const uint8_t *bytes, size_t bytes_length);

stemline_record_values stemline_block_record(const uint8_t *bytes, size_t bytes_length, uint32_t j);

stemline_entry_values stemline_block_entry(
    const uint8_t *bytes, size_t bytes_length, uint32_t j, uint32_t e);

#ifdef __cplusplus
}
#endif

#endif
