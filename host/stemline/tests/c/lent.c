/* replay.c by the calls over lent parts. The parts of a replica are copied to where each lies by itself,
 * lent, and copied back. Before a call come others, with one lent array after the other an element short
 * and an element too long: each answers 1, zeros beside it, and changes nothing; at a station a write and a
 * send answer 25. */
#include "lent_calls.h"

/* ---- A call at a replica by one over the parts */

static int same_parts(const parts *a, const parts *b) {
    return SAME(outbox) && SAME(bytes) && SAME(block) && SAME(places) && SAME(items) && SAME(stamps)
        && SAME(queue) && SAME(values) && SAME(start) && SAME(snapshots) && SAME(writes) && SAME(table)
        && SAME(classes) && SAME(given) && SAME(window) && SAME(lent) && SAME(turns)
        && same_group(&a->group, &b->group) && same_counts(&a->counts, &b->counts) && SAME(turn.slot)
        && SAME(turn.sent) && SAME(turn.applying);
}

/* Whether the last call answered nothing beside its number. */
static int said_zeros(void) {
    static const stemline_report_values no_report;
    stemline_work_reply no_work = {0};
    no_work.number = said.work.number;
    return said.restart.count == 0 && said.begin.ticket == 0 && said.read.value == 0
        && !said.ask.read_only && memcmp(&said.report.report, &no_report, sizeof no_report) == 0
        && same_work(&said.work, &no_work) && said.giver.giver == 0 && said.give.giver == 0
        && said.give.count == 0 && memcmp(said.give.aborted, no_work.aborted, sizeof no_work.aborted) == 0;
}

#define COPY(to, from, part) memcpy((to)->part, (from)->part, sizeof r->part)

/* Lends the parts of a replica of n, each by its right length. */
static void lend(const stemline_replica *r, uint32_t n) {
    static const size_t right[PARTS] = {
        STEMLINE_TABLE, STEMLINE_ITEMS, STEMLINE_QUEUE, STEMLINE_WRITTEN, STEMLINE_WRITTEN,
        STEMLINE_SNAPSHOTS, STEMLINE_ITEMS, STEMLINE_ITEMS, STEMLINE_ITEMS, 0, STEMLINE_BLOCK,
        STEMLINE_BLOCK, STEMLINE_BLOCK, STEMLINE_ITEMS, 0, STEMLINE_WINDOW, 0, STEMLINE_WINDOW};
    memcpy(length, right, sizeof length);
    length[PLACES] = stemline_lent_places(n);
    memset(&said, 0, sizeof said);
    memset(&p, 0xa5, sizeof p);
    COPY(&p, r, table), COPY(&p, r, queue), COPY(&p, r, items), COPY(&p, r, writes);
    COPY(&p, r, snapshots), COPY(&p, r, values), COPY(&p, r, stamps), COPY(&p, r, places);
    COPY(&p, r, outbox), COPY(&p, r, classes), COPY(&p, r, window);
    p.group = r->group;
    p.turn = r->turn;
    p.counts = r->counts;
}

static void give_back(stemline_replica *r) {
    COPY(r, &p, table), COPY(r, &p, queue), COPY(r, &p, items), COPY(r, &p, writes);
    COPY(r, &p, snapshots), COPY(r, &p, values), COPY(r, &p, stamps), COPY(r, &p, places);
    COPY(r, &p, outbox), COPY(r, &p, classes), COPY(r, &p, window);
    r->group = p.group;
    r->turn = p.turn;
    r->counts = p.counts;
}

/* The call with each of the arrays that it is lent at a wrong length, then the call itself. */
static uint8_t called(const char *name, uint8_t (*call)(void), const enum part *lent, size_t count) {
    static parts before;
    bool reads = call != call_write && call != call_send && call != call_giver && call != call_give;
    bool only_reads = p.group.own == STEMLINE_NO_NUMBER && !reads;
    uint8_t wrong = only_reads ? STEMLINE_STATION_ONLY_READS : STEMLINE_WRONG_LENGTH;
    memcpy(&before, &p, sizeof p);
    for (size_t i = 0; i < 2 * count; i++) {
        size_t *told = &length[lent[i / 2]], right = *told;
        *told = i % 2 == 0 ? right - 1 : right + 1;
        hold(call() == wrong && said_zeros() && same_parts(&p, &before), name);
        *told = right;
    }
    return call();
}

#define CALLED(name, ...) \
    called(#name, call_##name, (const enum part[]){__VA_ARGS__}, \
           sizeof (const enum part[]){__VA_ARGS__} / sizeof(enum part))

/* What a make is lent but for the places: with an n out of range these may have any length. */
#define MADE TABLE, START, QUEUE, ITEMS, WRITES, SNAPSHOTS, VALUES, STAMPS, CLASSES, OUTBOX, WINDOW

/* Lends what a make is lent. Gives whether n is in range. */
static bool lend_made(const stemline_replica *r, uint32_t n, uint32_t own, const int32_t *start) {
    lend(r, n);
    memcpy(p.start, start, STEMLINE_ITEMS * sizeof *start);
    p.n = n;
    p.own = own;
    return n >= 2 && n <= STEMLINE_REPLICAS;
}

static uint8_t lent_make(stemline_replica *r, uint32_t n, uint32_t own, const int32_t *start) {
    bool in_range = lend_made(r, n, own, start);
    uint8_t number = in_range ? CALLED(make, MADE, PLACES) : CALLED(make, MADE);
    give_back(r);
    return number;
}

static uint8_t lent_make_station(stemline_replica *r, uint32_t n, const int32_t *start) {
    bool in_range = lend_made(r, n, 0, start);
    uint8_t number = in_range ? CALLED(make_station, MADE, PLACES) : CALLED(make_station, MADE);
    give_back(r);
    return number;
}

static stemline_restart_reply lent_restart(
    stemline_replica *r, uint32_t n, uint32_t own, const int32_t *start,
    const uint8_t *journal, size_t journal_length, const stemline_notice *notices, size_t count, uint8_t *block) {
    bool in_range = lend_made(r, n, own, start);
    /* with a number more behind them, and one before, so that a wrong length stays within; copied, so that the
     * end of what is lent is seen */
    uint32_t *lent = (uint32_t *)malloc((3 * count + 3) * sizeof *lent);
    hold(lent != NULL, "no memory");
    memcpy(lent, notices, count * sizeof *notices);
    p.notices = lent;
    length[NOTICES] = 3 * count;
    p.journal = journal_length > 0 ? journal : p.bytes;
    p.journal_length = journal_length;
    /* with no notices there is no shorter length */
    if (in_range && count > 0) {
        CALLED(restart, MADE, BLOCK, PLACES, NOTICES);
    } else if (in_range) {
        CALLED(restart, MADE, BLOCK, PLACES);
    } else {
        CALLED(restart, MADE, BLOCK);
    }
    free(lent);
    p.notices = NULL;
    give_back(r);
    memcpy(block, p.block, STEMLINE_BLOCK);
    return said.restart;
}

static uint8_t lent_out(stemline_replica *r, uint32_t replica, uint32_t slot) {
    lend(r, r->group.replicas);
    p.replica = replica;
    p.slot = slot;
    uint8_t number = CALLED(out, PLACES);
    give_back(r);
    return number;
}

static uint8_t lent_back(stemline_replica *r, uint32_t replica, uint32_t slot) {
    lend(r, r->group.replicas);
    p.replica = replica;
    p.slot = slot;
    uint8_t number = CALLED(back, PLACES);
    give_back(r);
    return number;
}

static stemline_begin_reply lent_begin(stemline_replica *r) {
    lend(r, r->group.replicas);
    CALLED(begin, TABLE, VALUES, SNAPSHOTS);
    give_back(r);
    return said.begin;
}

static stemline_read_reply lent_read(const stemline_replica *r, uint32_t ticket, uint32_t item) {
    lend(r, r->group.replicas);
    p.ticket = ticket;
    p.item = item;
    CALLED(read, TABLE, ITEMS, WRITES, SNAPSHOTS);
    return said.read;
}

static uint8_t lent_write(stemline_replica *r, uint32_t ticket, uint32_t item, int32_t value) {
    lend(r, r->group.replicas);
    p.ticket = ticket;
    p.item = item;
    p.value = value;
    uint8_t number = CALLED(write, TABLE, ITEMS, WRITES, STAMPS, CLASSES, PLACES);
    give_back(r);
    return number;
}

static stemline_ask_reply lent_ask(stemline_replica *r, uint32_t ticket) {
    lend(r, r->group.replicas);
    p.ticket = ticket;
    CALLED(ask, TABLE, QUEUE);
    give_back(r);
    return said.ask;
}

static uint8_t lent_withdraw(stemline_replica *r, uint32_t ticket) {
    lend(r, r->group.replicas);
    p.ticket = ticket;
    uint8_t number = CALLED(withdraw, TABLE);
    give_back(r);
    return number;
}

static stemline_report_reply lent_report(const stemline_replica *r) {
    lend(r, r->group.replicas);
    CALLED(report, TABLE);
    return said.report;
}

static uint8_t lent_send(stemline_replica *r, uint8_t *block) {
    lend(r, r->group.replicas);
    uint8_t number = CALLED(send, TABLE, QUEUE, ITEMS, WRITES, OUTBOX, BLOCK);
    give_back(r);
    memcpy(block, p.block, STEMLINE_BLOCK);
    return number;
}

static uint8_t lent_deliver(stemline_replica *r, const uint8_t *bytes, size_t count) {
    lend(r, r->group.replicas);
    memcpy(p.bytes, bytes, count);
    length[BYTES] = count;
    /* bytes of another length are wrong by themselves, and might be right by one more or less */
    uint8_t number = count != STEMLINE_BLOCK ? CALLED(deliver, PLACES, OUTBOX)
                                             : CALLED(deliver, PLACES, OUTBOX, BYTES);
    give_back(r);
    return number;
}

static stemline_work_reply lent_work(stemline_replica *r) {
    lend(r, r->group.replicas);
    CALLED(work, TABLE, QUEUE, ITEMS, VALUES, STAMPS, PLACES, WINDOW);
    give_back(r);
    return said.work;
}

/* One turn for each replica. */
static void lend_turns(const uint32_t *turns, size_t count) {
    memcpy(p.turns, turns, count * sizeof *turns);
    length[TURNS] = count;
}

static stemline_giver_reply lent_giver(const stemline_replica *r, const uint32_t *turns, size_t count) {
    lend(r, r->group.replicas);
    lend_turns(turns, count);
    CALLED(giver, TURNS);
    return said.giver;
}

static stemline_give_reply lent_give(
    stemline_replica *r, const uint32_t *turns, size_t count, const uint8_t *window) {
    lend(r, r->group.replicas);
    lend_turns(turns, count);
    memcpy(p.lent, window, STEMLINE_WINDOW);
    CALLED(give, TABLE, QUEUE, ITEMS, VALUES, STAMPS, PLACES, OUTBOX, WINDOW, TURNS, LENT);
    give_back(r);
    return said.give;
}

static uint8_t lent_load(stemline_replica *r, const uint8_t *classes, size_t count) {
    lend(r, r->group.replicas);
    memcpy(p.given, classes, count);
    length[GIVEN] = count;
    /* as the bytes of a deliver */
    uint8_t number = count != STEMLINE_ITEMS ? CALLED(load, CLASSES) : CALLED(load, CLASSES, GIVEN);
    give_back(r);
    return number;
}

#define stemline_replica_make lent_make
#define stemline_replica_make_station lent_make_station
#define stemline_replica_restart lent_restart
#define stemline_replica_begin lent_begin
#define stemline_replica_read lent_read
#define stemline_replica_write lent_write
#define stemline_replica_ask lent_ask
#define stemline_replica_withdraw lent_withdraw
#define stemline_replica_report lent_report
#define stemline_replica_send lent_send
#define stemline_replica_deliver lent_deliver
#define stemline_replica_work lent_work
#define stemline_replica_giver lent_giver
#define stemline_replica_give lent_give
#define stemline_replica_load lent_load
#define stemline_replica_out lent_out
#define stemline_replica_back lent_back
#include "replay.c"
