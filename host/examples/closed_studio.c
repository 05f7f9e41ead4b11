/* Three studios, of which the last is closed for a while: the others go on without it,
 * and when it is back it takes what it missed.
 *
 *     cc -std=c99 -I host/include host/examples/closed_studio.c target/staticlib/libreplica.a -o closed && ./closed
 */
#include <stdio.h>

#include "stemline.h"

enum { N = 3, SLOTS = 12 };

static stemline_replica group[N];
/* The blocks that were handed out, by slot; those of slots that are out stay empty. */
static uint8_t sent[SLOTS][STEMLINE_BLOCK];

static void must(uint8_t number, const char *what) {
    if (number != STEMLINE_ACCEPTED) {
        printf("%s: %s (%d)\n", what, stemline_words(number), number);
    }
}

/* Works until nothing waits: behind a notice the turn may stand at a slot that is out. */
static void work(stemline_replica *r) {
    while (stemline_replica_waits(r)) {
        must(stemline_replica_work(r).number, "work");
    }
}

/* Who is open sends in turn, and the first so many take the blocks. */
static void go_on(uint32_t until, uint32_t open) {
    while (group[0].turn.slot < until) {
        uint32_t slot = group[0].turn.slot, k = stemline_owner(slot, N);
        stemline_begin_reply begun = stemline_replica_begin(&group[k]);
        must(stemline_replica_write(&group[k], begun.ticket, 5, (int32_t)slot), "write");
        must(stemline_replica_ask(&group[k], begun.ticket).number, "ask");
        must(stemline_replica_send(&group[k], sent[slot]), "send");
        for (uint32_t other = 0; other < open; other++) {
            must(stemline_replica_take(&group[other], sent[slot], STEMLINE_BLOCK).number, "take");
        }
    }
}

static void show(const char *when) {
    printf("%s:", when);
    for (uint32_t k = 0; k < N; k++) {
        printf(" turn %u, item 5 is %d%s", (unsigned)group[k].turn.slot, (int)group[k].values[5],
               k < N - 1 ? ";" : "\n");
    }
}

int main(void) {
    static int32_t start[STEMLINE_ITEMS];
    for (uint32_t k = 0; k < N; k++) {
        must(stemline_replica_make(&group[k], N, k, start), "make");
    }
    go_on(4, N);
    show("all three");
    /* Nothing was sent for slot 5 or a later one: from there on studio 2 is out. It is closed, and is
     * told when it opens again. */
    for (uint32_t k = 0; k < N - 1; k++) {
        must(stemline_replica_out(&group[k], 2, 5), "out");
        work(&group[k]);
    }
    go_on(9, N - 1);
    show("closed");
    /* It is back at slot 11: first the notices, then the blocks, from its turn on. */
    must(stemline_replica_out(&group[2], 2, 5), "out");
    for (uint32_t k = 0; k < N; k++) {
        must(stemline_replica_back(&group[k], 2, 11), "back");
        work(&group[k]);
    }
    while (group[2].turn.slot < group[0].turn.slot) {
        must(stemline_replica_take(&group[2], sent[group[2].turn.slot], STEMLINE_BLOCK).number, "take");
    }
    show("back");
    go_on(SLOTS, N);
    show("all three");
    return 0;
}
