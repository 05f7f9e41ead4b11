/* Three studios, of which the last goes on holiday twice. From the first it comes back with
 * what another studio's window still has; the second is longer than a window, and the other
 * studio's journal is needed too.
 *
 *     cc -std=c99 -I host/include host/examples/holiday.c target/staticlib/libreplica.a -o holiday && ./holiday
 */
#include <stdio.h>

#include "stemline.h"

enum { N = 3, SLOTS = 200 };

static stemline_replica group[N];
/* What studio 0 has journaled, in memory here. */
static uint8_t journal[SLOTS][STEMLINE_BLOCK];
static uint32_t journaled;

static void must(uint8_t number, const char *what) {
    if (number != STEMLINE_ACCEPTED) {
        printf("%s: %s (%d)\n", what, stemline_words(number), number);
    }
}

/* Works until nothing waits, and appends what the turn of studio 0 has left, from its window. */
static void work(stemline_replica *r) {
    while (stemline_replica_waits(r)) {
        must(stemline_replica_work(r).number, "work");
    }
    for (; journaled < group[0].turn.slot; journaled++) {
        memcpy(journal[journaled], stemline_window_block(group[0].window, journaled), STEMLINE_BLOCK);
    }
}

/* Who is open sends in turn, and the first so many take the blocks. */
static void go_on(uint32_t until, uint32_t open) {
    while (group[0].turn.slot < until) {
        uint8_t block[STEMLINE_BLOCK];
        uint32_t slot = group[0].turn.slot, k = stemline_owner(slot, N);
        stemline_begin_reply begun = stemline_replica_begin(&group[k]);
        must(stemline_replica_write(&group[k], begun.ticket, 5, (int32_t)slot), "write");
        must(stemline_replica_ask(&group[k], begun.ticket).number, "ask");
        must(stemline_replica_send(&group[k], block), "send");
        for (uint32_t other = 0; other < open; other++) {
            must(stemline_replica_take(&group[other], block, STEMLINE_BLOCK).number, "take");
            work(&group[other]);
        }
    }
}

/* The membership service says so to these; one that is closed is told when it opens again. */
static void notice(uint32_t first, uint32_t behind, bool out, uint32_t slot) {
    for (uint32_t k = first; k < behind; k++) {
        must(out ? stemline_replica_out(&group[k], 2, slot) : stemline_replica_back(&group[k], 2, slot), "notice");
        work(&group[k]);
    }
}

/* Studio 2 asks the others for their turns, and the one that is to give for its blocks. */
static uint8_t give(void) {
    static uint8_t window[STEMLINE_WINDOW];
    stemline_replica *r = &group[2];
    uint32_t turns[N] = {group[0].turn.slot, group[1].turn.slot, 0}; /* the own one is not looked at */
    stemline_giver_reply asked = stemline_replica_giver(r, turns, N);
    memset(window, 0, sizeof window);
    for (uint32_t slot = r->turn.slot; slot < turns[asked.giver]; slot++) {
        /* what the giver's host sends, and the returner's host puts in its place */
        const uint8_t *block = stemline_window_block(group[asked.giver].window, slot);
        if (block != NULL && !stemline_window_put(window, slot, block, STEMLINE_BLOCK)) {
            printf("slot %u is to be asked for again\n", (unsigned)slot);
        }
    }
    stemline_give_reply given = stemline_replica_give(r, turns, N, window);
    printf("studio %d gives: %s (%d)\n", given.giver, stemline_words(given.number), given.number);
    work(r);
    return given.number;
}

static void show(const char *when) {
    printf("%s:", when);
    for (uint32_t k = 0; k < N; k++) {
        printf(" turn %u, item 5 is %d%s", (unsigned)group[k].turn.slot, (int)group[k].values[5],
               k < N - 1 ? ";" : "\n");
    }
}

int main(void) {
    static int32_t start[STEMLINE_ITEMS];
    for (uint32_t k = 0; k < N; k++) {
        must(stemline_replica_make(&group[k], N, k, start), "make");
    }
    go_on(4, N);
    notice(0, 2, true, 5);
    go_on(40, 2);
    show("closed");
    /* First the notices that the others have, then what it missed; now it can take its turn again. */
    notice(2, 3, true, 5);
    give();
    notice(0, 3, false, 44);
    go_on(48, N);
    show("back");
    notice(0, 2, true, 50);
    go_on(150, 2);
    show("closed");
    notice(2, 3, true, 50);
    if (give() == STEMLINE_WINDOW_LACKS) {
        /* From the giver's journal, slot by slot, up to where its window begins. */
        while (group[2].turn.slot + STEMLINE_KEPT < group[0].turn.slot) {
            const uint8_t *block = journal[group[2].turn.slot];
            must(stemline_replica_take_slot(&group[2], block, STEMLINE_BLOCK).number, "take_slot");
        }
        printf("up to turn %u from its journal\n", (unsigned)group[2].turn.slot);
        give();
    }
    notice(0, 3, false, 155);
    go_on(160, N);
    show("back");
    return 0;
}
