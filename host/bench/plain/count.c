/* What scripts/instructions counts: slots of a group of three, and single calls. Compiled with
 * -DPLAIN for the replica in plain C, without for the library by stemline.h; both print the same:
 * how often a case was played, and a digest of all answers, blocks and values.
 *
 *     count             names the cases
 *     count CASE        plays one
 *
 * Counted is what callgrind collects inside the functions counted_*: the calls, with all that the
 * caller does for them. looked is called there and not counted: callgrind is told to switch at its
 * begin and end too. */
#include <stdio.h>
#include <stdlib.h>
#include <string.h>

#ifdef PLAIN
#include "plain.h"
typedef plain_replica replica;
typedef plain_taken taken;
#define DO(call) plain_##call
#define TAKE_INTO plain_take
#define TURN(r) (r)->turn
#define KEPT(r, slot) plain_kept(r, slot)
#else
#include "stemline.h"
typedef stemline_replica replica;
typedef stemline_take_reply taken;
#define DO(call) stemline_replica_##call
#define TAKE_INTO stemline_replica_take_into
#define TURN(r) (r)->turn.slot
#define KEPT(r, slot) stemline_window_block((r)->window, slot)
#endif

#define APART __attribute__((noinline)) static void
enum { N = 3, ROUNDS = 100, COPIES = 50 };

static replica group[N], first, copied;
static stemline_work_reply worked;
static uint8_t block[STEMLINE_BLOCK], own_block[STEMLINE_BLOCK], others[STEMLINE_BLOCK];
static uint8_t journal[N * ROUNDS][STEMLINE_BLOCK];
static int32_t start[STEMLINE_ITEMS];
static uint32_t got; /* what a call answered */
static uint64_t digest = 29;
static unsigned long played;

/* ---- The digest */

static void note(const void *bytes, size_t length) {
    const uint8_t *at = (const uint8_t *)bytes;
    for (size_t i = 0; i < length; i++) {
        digest = (digest ^ at[i]) * UINT64_C(0x9e3779b97f4a7c15);
        digest ^= digest >> 32;
    }
}

static void note_work(const stemline_work_reply *w) {
    const uint32_t said[] = {w->number, w->sender, w->moved, w->ticket, w->count, w->append};
    note(said, sizeof said);
    note(w->aborted, sizeof w->aborted[0] * w->count);
}

static void note_replica(const replica *r) {
    stemline_report_values said = DO(report)(r).report;
    note(r->values, sizeof r->values);
    note(&said, sizeof said);
    if (TURN(r) > 0) {
        note(KEPT(r, TURN(r) - 1), STEMLINE_BLOCK); /* what the journal gets */
    }
}

/* Stops where a call is refused that should not be: then nothing is counted. */
static inline void must(uint8_t number) {
    if (number != STEMLINE_ACCEPTED) {
        fprintf(stderr, "count: refused by %d\n", number);
        exit(1);
    }
}

/* ---- Slots: at each, its owner's transactions, a send, and three takes */

/* Item i of transaction t, of 8 at most: not in their order, so that some are moved up. From base
 * to base + 47 all differ. */
static inline uint32_t item(uint32_t base, uint32_t t, uint32_t i) {
    return (base + t + 6 * (i * 5 % 8)) * 37 % STEMLINE_ITEMS;
}

/* So many transactions of so many writes; asked, if they are to be sent. */
static inline void transactions(
    replica *r, uint32_t count, uint32_t writes, uint32_t base, bool asked, int32_t value) {
    for (uint32_t t = 0; t < count; t++) {
        uint32_t ticket = DO(begin)(r).ticket;
        for (uint32_t i = 0; i < writes; i++) {
            must(DO(write)(r, ticket, item(base, t, i), value));
        }
        if (asked) {
            must(DO(ask)(r, ticket).number);
        }
    }
}

APART looked(const taken *steps) {
    must(steps->number);
    for (uint32_t i = 0; i < steps->count; i++) {
        note_work(&steps->steps[i]);
    }
}

static inline void send(uint32_t slot, uint32_t count, uint32_t writes) {
    transactions(&group[slot % N], count, writes, 0, true, (int32_t)slot);
    must(DO(send)(&group[slot % N], block));
}

/* As a take does. A take itself stands in one place alone, and so becomes part of its caller. */
static void uncounted(replica *r, const uint8_t *bytes) {
    must(DO(deliver)(r, bytes, STEMLINE_BLOCK));
    while (DO(work)(r).number == STEMLINE_ACCEPTED) {
    }
}

APART counted_empty(uint32_t slot) { send(slot, 0, 0); }
APART counted_light(uint32_t slot) { send(slot, 1, 2); }
APART counted_full(uint32_t slot) { send(slot, 6, 8); }

APART counted_take_into(replica *r) {
    taken steps;
    TAKE_INTO(r, block, STEMLINE_BLOCK, &steps);
    looked(&steps);
}

/* The same with the reply by value. The plain one has no such take. */
#ifdef PLAIN
#define counted_take counted_take_into
#else
APART counted_take(replica *r) {
    taken steps = stemline_replica_take(r, block, STEMLINE_BLOCK);
    looked(&steps);
}
#endif

static void make_group(void) {
    for (uint32_t k = 0; k < N; k++) {
        must(DO(make)(&group[k], N, k, start));
    }
}

static void slots(void (*sends)(uint32_t), void (*takes)(replica *)) {
    make_group();
    for (uint32_t slot = 0; slot < N * ROUNDS; slot++, played++) {
        sends(slot);
        note(block, sizeof block);
        for (uint32_t k = 0; k < N; k++) {
            takes(&group[k]);
            note_replica(&group[k]);
        }
    }
}

/* ---- Single calls, at copies of replica 0 of three */

APART counted_begin(replica *r, uint32_t t) { (void)t, got = DO(begin)(r).ticket; }
APART counted_read(replica *r, uint32_t t) { got = (uint32_t)DO(read)(r, t + 1, item(0, t, 7)).value; }
APART counted_read_own(replica *r, uint32_t t) { got = (uint32_t)DO(read)(r, t + 1, item(0, t, 3)).value; }
APART counted_write(replica *r, uint32_t t) { got = DO(write)(r, t + 1, item(0, t, 4), 7); }
APART counted_write_own(replica *r, uint32_t t) { got = DO(write)(r, t + 1, item(0, t, 3), 7); }
APART counted_write_held(replica *r, uint32_t t) { got = DO(write)(r, t + 1, item(0, 5 - t, 3), 7); }
APART counted_ask(replica *r, uint32_t t) { got = DO(ask)(r, t + 1).number; }
APART counted_withdraw(replica *r, uint32_t t) { got = DO(withdraw)(r, t + 1); }
APART counted_report(replica *r, uint32_t t) { (void)t, got = DO(report)(r).report.tickets; }
APART counted_send(replica *r, uint32_t t) { (void)t, got = DO(send)(r, block); }
APART counted_deliver_own(replica *r, uint32_t t) { (void)t, got = DO(deliver)(r, own_block, STEMLINE_BLOCK); }
APART counted_deliver(replica *r, uint32_t t) { (void)t, got = DO(deliver)(r, others, STEMLINE_BLOCK); }
APART counted_work(replica *r, uint32_t t) { (void)t, worked = DO(work)(r); }
APART counted_restart(replica *r) {
    got = DO(restart)(r, N, 0, start, journal[0], sizeof journal, NULL, 0, block).count;
}

static void fresh(void) { must(DO(make)(&first, N, 0, start)); }

/* Six transactions open, of four writes each. */
static void written(void) {
    fresh();
    transactions(&first, 6, 4, 0, false, 5);
}

/* Six of eight writes, asked; sent; with the own block at the turn. */
static void asked(void) {
    fresh();
    transactions(&first, 6, 8, 0, true, 5);
}
static void sent(void) {
    asked();
    must(DO(send)(&first, own_block));
}
static void own_waits(void) {
    sent();
    must(DO(deliver)(&first, own_block, STEMLINE_BLOCK));
}

/* At slot 1, whose owner has sent six writesets of eight items from base on; six are open here. */
static void at_slot_1(uint32_t base) {
    fresh();
    must(DO(make)(&group[1], N, 1, start));
    must(DO(send)(&first, block));
    uncounted(&first, block);
    uncounted(&group[1], block);
    transactions(&group[1], 6, 8, base, true, 9);
    must(DO(send)(&group[1], others));
    transactions(&first, 6, 8, 0, false, 5);
}
static void nobody_is_hit(void) { at_slot_1(48); }
static void each_hits_one(void) { at_slot_1(0); }
static void damaged(void) {
    nobody_is_hit();
    others[40] ^= 1;
}
static void others_wait(void) {
    nobody_is_hit();
    must(DO(deliver)(&first, others, STEMLINE_BLOCK));
}
static void others_hit(void) {
    each_hits_one();
    must(DO(deliver)(&first, others, STEMLINE_BLOCK));
}
static void nexts(void) {
    fresh();
    must(DO(make)(&group[1], N, 1, start));
    must(DO(send)(&first, block));
    uncounted(&first, block);
    uncounted(&group[1], block);
    must(DO(send)(&group[1], others));
}
static void next_waits(void) {
    nexts();
    must(DO(deliver)(&first, others, STEMLINE_BLOCK));
}

/* From a journal of full blocks; what is told is a block's part. */
static void restarts(void) {
    make_group();
    for (uint32_t slot = 0; slot < N * ROUNDS; slot++) {
        send(slot, 6, 8);
        memcpy(journal[slot], block, sizeof block);
        for (uint32_t k = 0; k < N; k++) {
            uncounted(&group[k], block);
        }
    }
    counted_restart(&first);
    played = got;
    note_replica(&first);
    note(block, sizeof block);
}

/* ---- The cases */

typedef struct counted {
    const char *name;
    /* slots, or */
    void (*sends)(uint32_t);
    void (*takes)(replica *);
    /* calls at copies of a replica, so many at each */
    void (*prepare)(void);
    void (*one)(replica *, uint32_t);
    uint32_t times;
} counted;

#define SLOTS(name, sends, takes) {name, counted_##sends, counted_##takes, NULL, NULL, 0}
#define CALL(name, call, prepare, times) {name, NULL, NULL, prepare, counted_##call, times}

static const counted cases[] = {
    SLOTS("empty slot, take_into", empty, take_into),
    SLOTS("light slot, take_into", light, take_into),
    SLOTS("full slot, take_into", full, take_into),
    SLOTS("empty slot, take", empty, take),
    SLOTS("light slot, take", light, take),
    SLOTS("full slot, take", full, take),
    CALL("begin", begin, fresh, 6),
    CALL("read", read, written, 6),
    CALL("read, own write", read_own, written, 6),
    CALL("write", write, written, 6),
    CALL("write, once more", write_own, written, 6),
    CALL("write, held (8)", write_held, written, 6),
    CALL("ask", ask, written, 6),
    CALL("withdraw", withdraw, written, 6),
    CALL("report", report, written, 1),
    CALL("send, none", send, fresh, 1),
    CALL("send, six", send, asked, 1),
    CALL("deliver, own six", deliver_own, sent, 1),
    CALL("deliver, six", deliver, nobody_is_hit, 1),
    CALL("deliver, next", deliver, nexts, 1),
    CALL("deliver, damaged", deliver, damaged, 1),
    CALL("work, next", work, next_waits, 1),
    CALL("work, own", work, own_waits, 6),
    CALL("work, none hit", work, others_wait, 6),
    CALL("work, one hit", work, others_hit, 6),
    {"restart, a block", NULL, NULL, restarts, NULL, 0},
};

static void play(const counted *c) {
    if (c->sends != NULL) {
        slots(c->sends, c->takes);
        return;
    }
    c->prepare();
    for (int k = 0; k < COPIES && c->one != NULL; k++) {
        memcpy(&copied, &first, sizeof first);
        for (uint32_t t = 0; t < c->times; t++, played++) {
            c->one(&copied, t);
            note(&got, sizeof got);
            note_work(&worked);
        }
        note_replica(&copied);
        note(block, sizeof block);
    }
}

int main(int argc, char **argv) {
    for (int i = 0; i < STEMLINE_ITEMS; i++) {
        start[i] = 10 * i - 600;
    }
    for (size_t i = 0; i < sizeof cases / sizeof cases[0]; i++) {
        if (argc < 2) {
            printf("%s\n", cases[i].name);
        } else if (strcmp(cases[i].name, argv[1]) == 0) {
            play(&cases[i]);
        }
    }
    if (argc < 2) {
        return 0;
    }
    printf("%lu %016llx\n", played, (unsigned long long)digest);
    return played == 0;
}
