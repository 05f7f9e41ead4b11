/* The calls over lent parts, with these where each lies by itself and lengths that are told. A part of lent.c. */
#ifndef LENT_CALLS_H
#define LENT_CALLS_H

#include "same.h"

/* The arrays that calls are lent. */
enum part {
    TABLE, START, QUEUE, ITEMS, WRITES, SNAPSHOTS, VALUES, STAMPS, CLASSES, PLACES, OUTBOX, BLOCK, BYTES,
    GIVEN, NOTICES, WINDOW, TURNS, LENT, PARTS
};

/* What calls are lent and given, in another order than a replica has it. Each array has room for an
 * element too many. */
typedef struct parts {
    uint8_t outbox[STEMLINE_BLOCK + 1], bytes[600 + 1], block[STEMLINE_BLOCK + 1];
    uint8_t places[STEMLINE_BLOCK * STEMLINE_REPLICAS + 1], items[STEMLINE_WRITTEN + 1];
    uint8_t given[130 + 1], classes[STEMLINE_ITEMS + 1];
    uint8_t lent[STEMLINE_WINDOW + 1], window[STEMLINE_WINDOW + 1];
    uint32_t turns[STEMLINE_REPLICAS + 1];
    uint32_t stamps[STEMLINE_ITEMS + 1], queue[STEMLINE_QUEUE + 1];
    int32_t values[STEMLINE_ITEMS + 1], start[STEMLINE_ITEMS + 1];
    int32_t snapshots[STEMLINE_SNAPSHOTS + 1], writes[STEMLINE_WRITTEN + 1];
    stemline_txn table[STEMLINE_TABLE + 1];
    stemline_counts counts;
    stemline_turn turn;
    stemline_group group;
    /* of any length, and read only: it stays where it is */
    const uint8_t *journal;
    size_t journal_length;
    const uint32_t *notices;
    uint32_t n, own, ticket, item, replica, slot;
    int32_t value;
} parts;

static parts p;
static size_t length[PARTS];
/* What the last call answered beside its number. */
static struct {
    stemline_restart_reply restart;
    stemline_begin_reply begin;
    stemline_read_reply read;
    stemline_ask_reply ask;
    stemline_report_reply report;
    stemline_work_reply work;
    stemline_giver_reply giver;
    stemline_give_reply give;
} said;

/* ---- The seventeen calls over the parts, with the lengths as they are told */

static uint8_t call_make(void) {
    return stemline_make(
        p.table, length[TABLE], &p.group, &p.turn, &p.counts, p.n, p.own, p.start, length[START],
        p.queue, length[QUEUE], p.items, length[ITEMS], p.writes, length[WRITES],
        p.snapshots, length[SNAPSHOTS], p.values, length[VALUES], p.stamps, length[STAMPS],
        p.classes, length[CLASSES], p.places, length[PLACES], p.outbox, length[OUTBOX],
        p.window, length[WINDOW]);
}

static uint8_t call_make_station(void) {
    return stemline_make_station(
        p.table, length[TABLE], &p.group, &p.turn, &p.counts, p.n, p.start, length[START],
        p.queue, length[QUEUE], p.items, length[ITEMS], p.writes, length[WRITES],
        p.snapshots, length[SNAPSHOTS], p.values, length[VALUES], p.stamps, length[STAMPS],
        p.classes, length[CLASSES], p.places, length[PLACES], p.outbox, length[OUTBOX],
        p.window, length[WINDOW]);
}

static uint8_t call_restart(void) {
    said.restart = stemline_restart(
        p.table, length[TABLE], &p.group, &p.turn, &p.counts, p.n, p.own, p.start, length[START],
        p.queue, length[QUEUE], p.items, length[ITEMS], p.writes, length[WRITES],
        p.snapshots, length[SNAPSHOTS], p.values, length[VALUES], p.stamps, length[STAMPS],
        p.classes, length[CLASSES], p.places, length[PLACES], p.outbox, length[OUTBOX],
        p.window, length[WINDOW], p.journal, p.journal_length,
        p.notices, length[NOTICES], p.block, length[BLOCK]);
    return said.restart.number;
}

static uint8_t call_out(void) {
    return stemline_out(&p.group, &p.turn, p.places, length[PLACES], p.replica, p.slot);
}

static uint8_t call_back(void) {
    return stemline_back(&p.group, &p.turn, p.places, length[PLACES], p.replica, p.slot);
}

static uint8_t call_begin(void) {
    said.begin = stemline_begin(
        p.table, length[TABLE], &p.counts, p.values, length[VALUES], p.snapshots, length[SNAPSHOTS]);
    return said.begin.number;
}

static uint8_t call_read(void) {
    said.read = stemline_read(
        p.table, length[TABLE], p.ticket, p.items, length[ITEMS], p.writes, length[WRITES],
        p.snapshots, length[SNAPSHOTS], p.item);
    return said.read.number;
}

static uint8_t call_write(void) {
    return stemline_write(
        p.table, length[TABLE], &p.group, &p.turn, &p.counts, p.ticket, p.items, length[ITEMS],
        p.writes, length[WRITES], p.stamps, length[STAMPS], p.classes, length[CLASSES],
        p.places, length[PLACES], p.item, p.value);
}

static uint8_t call_ask(void) {
    said.ask = stemline_ask(p.table, length[TABLE], &p.counts, p.ticket, p.queue, length[QUEUE]);
    return said.ask.number;
}

static uint8_t call_withdraw(void) {
    return stemline_withdraw(p.table, length[TABLE], &p.counts, p.ticket);
}

static uint8_t call_report(void) {
    said.report = stemline_report(p.table, length[TABLE], &p.turn, &p.counts);
    return said.report.number;
}

static uint8_t call_send(void) {
    return stemline_send(
        p.table, length[TABLE], &p.group, &p.turn, p.queue, length[QUEUE], p.items, length[ITEMS],
        p.writes, length[WRITES], p.outbox, length[OUTBOX], p.block, length[BLOCK]);
}

static uint8_t call_deliver(void) {
    return stemline_deliver(
        &p.group, &p.turn, p.places, length[PLACES], p.outbox, length[OUTBOX], p.bytes, length[BYTES]);
}

static uint8_t call_work(void) {
    said.work = stemline_work(
        p.table, length[TABLE], &p.group, &p.turn, &p.counts, p.queue, length[QUEUE], p.items, length[ITEMS],
        p.values, length[VALUES], p.stamps, length[STAMPS], p.places, length[PLACES],
        p.window, length[WINDOW]);
    return said.work.number;
}

static uint8_t call_giver(void) {
    said.giver = stemline_giver(&p.group, p.turns, length[TURNS]);
    return said.giver.number;
}

static uint8_t call_give(void) {
    said.give = stemline_give(
        p.table, length[TABLE], &p.group, &p.turn, &p.counts, p.queue, length[QUEUE], p.items, length[ITEMS],
        p.values, length[VALUES], p.stamps, length[STAMPS], p.places, length[PLACES],
        p.outbox, length[OUTBOX], p.window, length[WINDOW], p.turns, length[TURNS], p.lent, length[LENT]);
    return said.give.number;
}

static uint8_t call_load(void) {
    return stemline_load(&p.turn, p.classes, length[CLASSES], p.given, length[GIVEN]);
}

#endif
