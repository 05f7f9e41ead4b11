/* A replica in plain C, as one writes it by hand for speed: a table of lock holders, so that no
 * write and no work searches the writes of other transactions; a row keeps its writeset as the
 * record that a block has, so that a send copies it whole, and blocks are copied and compared
 * whole. The instructions of the library's calls are held to its own: see scripts/instructions. A
 * test holds its answers to those of the library and of the second model.
 *
 * Limits, numbers and answers are those of stemline_calls.h. Numbers in a block are this machine's:
 * x86-64, as the library. Nothing is defined on memory that anything but a call has altered. */
#ifndef PLAIN_H
#define PLAIN_H

#include <string.h>

#include "stemline_calls.h"

enum { PLAIN_ENTRIES = 8, PLAIN_WORDS = 252, PLAIN_TICKETS = 100000000 };
/* the most slots that a take leaves, while not all replicas are out: those of which blocks wait, and those that
 * are out behind them; and its most steps */
enum { PLAIN_LEFT = 2 * STEMLINE_REPLICAS - 1 };
enum { PLAIN_STEPS = STEMLINE_REPLICAS * STEMLINE_TABLE + STEMLINE_REPLICAS - 1 };
enum { PLAIN_NEXT = 1, PLAIN_TOCOMMIT = 2 };
enum { PLAIN_ACTIVE, PLAIN_ASKED, PLAIN_SENT };

/* As it stands in a block: the zero bytes behind a number of one byte are its upper ones. */
typedef struct plain_entry {
    uint32_t item;
    int32_t value;
} plain_entry;

typedef struct plain_record {
    uint32_t ticket, writes;
    plain_entry entries[PLAIN_ENTRIES]; /* rising by item */
} plain_record;

typedef union plain_block {
    uint8_t bytes[STEMLINE_BLOCK];
    uint16_t words[STEMLINE_BLOCK / 2];
    struct {
        uint8_t kind, sender, n, count;
        uint32_t slot, zeros[2];
        plain_record records[STEMLINE_TABLE];
        uint8_t more_zeros[56];
        uint32_t first, second;
    } has;
} plain_block;

/* An open transaction; ticket 0 is a free row. */
typedef struct plain_row {
    plain_record record;
    uint32_t snapshot, stage;
} plain_row;

typedef struct plain_replica {
    uint32_t n, own; /* STEMLINE_NO_NUMBER for a station */
    uint32_t done;   /* writesets committed of the block at the turn */
    bool sent, applying;
    uint32_t turn, commits, tickets, committed, read_only, aborted, withdrawn;
    uint32_t from[STEMLINE_REPLICAS], until[STEMLINE_REPLICAS]; /* the last outage of each */
    uint32_t queued;
    uint8_t queue[STEMLINE_QUEUE]; /* rows asked, in their order */
    plain_row rows[STEMLINE_TABLE];
    uint8_t holders[STEMLINE_ITEMS]; /* the row that has written the item, from 1 on; 0 for none */
    uint8_t classes[STEMLINE_ITEMS];
    int32_t values[STEMLINE_ITEMS];
    uint32_t stamps[STEMLINE_ITEMS];
    int32_t snapshots[STEMLINE_TABLE][STEMLINE_ITEMS];
    plain_block places[STEMLINE_REPLICAS]; /* by sender; kind 0 where none waits */
    plain_block outbox;                    /* the block sent last */
    plain_block window[STEMLINE_KEPT];     /* the last blocks that the turn has left, by slot mod 64 */
} plain_replica;

/* What a take does: the steps; nothing is said of what is behind. */
typedef struct plain_taken {
    uint8_t number, count;
    stemline_work_reply steps[PLAIN_STEPS];
} plain_taken;

size_t plain_size(void);
uint8_t plain_make(plain_replica *r, uint32_t n, uint32_t own, const int32_t start[STEMLINE_ITEMS]);
uint8_t plain_make_station(plain_replica *r, uint32_t n, const int32_t start[STEMLINE_ITEMS]);
stemline_restart_reply plain_restart(
    plain_replica *r, uint32_t n, uint32_t own, const int32_t start[STEMLINE_ITEMS],
    const uint8_t *journal, size_t length, const stemline_notice *notices, size_t count,
    uint8_t block[STEMLINE_BLOCK]);
uint8_t plain_out(plain_replica *r, uint32_t replica, uint32_t slot);
uint8_t plain_back(plain_replica *r, uint32_t replica, uint32_t slot);
stemline_begin_reply plain_begin(plain_replica *r);
stemline_read_reply plain_read(const plain_replica *r, uint32_t ticket, uint32_t item);
uint8_t plain_write(plain_replica *r, uint32_t ticket, uint32_t item, int32_t value);
stemline_ask_reply plain_ask(plain_replica *r, uint32_t ticket);
uint8_t plain_withdraw(plain_replica *r, uint32_t ticket);
stemline_report_reply plain_report(const plain_replica *r);
uint8_t plain_send(plain_replica *r, uint8_t block[STEMLINE_BLOCK]);
uint8_t plain_deliver(plain_replica *r, const uint8_t *bytes, size_t length);
stemline_work_reply plain_work(plain_replica *r);
uint8_t plain_load(plain_replica *r, const uint8_t *classes, size_t length);
void plain_take(plain_replica *r, const uint8_t *bytes, size_t length, plain_taken *taken);
const int32_t *plain_values(const plain_replica *r);
/* What the window has where the block of a slot would be. */
const uint8_t *plain_kept(const plain_replica *r, uint32_t slot);

/* For tests: as the replica is after so many slots and withdrawn tickets. */
void plain_fast_forward(plain_replica *r, uint32_t slots, uint32_t tickets);

/* Whether a slot from the turn on is out. */
static inline bool plain_is_out(const plain_replica *r, uint32_t slot) {
    uint32_t k = slot % r->n;
    return r->from[k] <= slot && slot < r->until[k];
}

/* 0, or why a block is none: 14, 15. Puts the check. */
uint8_t plain_block_number(const plain_block *block);
void plain_put_check(plain_block *block);

/* Ends a transaction: its locks are free. */
static inline void plain_end(plain_replica *r, plain_row *row) {
    const plain_entry *entry = row->record.entries, *behind = entry + row->record.writes;
    for (; entry < behind; entry++) {
        r->holders[entry->item] = 0;
    }
    row->record.ticket = 0;
    row->record.writes = 0;
}

/* Sets values and stamps of a writeset's items. */
static inline void plain_apply(plain_replica *r, const plain_record *record) {
    const plain_entry *entry = record->entries, *behind = entry + record->writes;
    uint32_t stamp = ++r->commits;
    for (; entry < behind; entry++) {
        r->values[entry->item] = entry->value;
        r->stamps[entry->item] = stamp;
    }
}

#endif
