/* Two replicas with their journals in files. Each run goes on where the last one
 * ended, or was ended by a cut of the power, and adds 1 to item 5.
 *
 *     cc -std=c99 -I host/include host/examples/durable.c host/source/stemline_journal.c \
 *         target/staticlib/libreplica.a -o durable && ./durable first.journal second.journal
 */
#include <stdio.h>
#include <stdlib.h>

#include "stemline_journal.h"

typedef struct durable {
    stemline_replica r;
    stemline_journal j;
} durable;

static durable group[2];

/* Where the disk fails the program ends, with nothing handed out: the next run goes on. */
static void must_keep(int kept, const stemline_journal *j) {
    if (kept != 0) {
        fprintf(stderr, "%s\n", j->why);
        exit(1);
    }
}

/* So it does where a call is refused that may not be. */
static void must(uint8_t number, const char *what) {
    if (number != STEMLINE_ACCEPTED) {
        fprintf(stderr, "%s: %s (%d)\n", what, stemline_words(number), number);
        exit(1);
    }
}

/* A block arrives. One that was taken before is refused, and passed over. */
static void take(durable *d, const uint8_t block[STEMLINE_BLOCK]) {
    stemline_replica_take(&d->r, block, STEMLINE_BLOCK);
    must_keep(stemline_journal_append(&d->j, &d->r), &d->j);
}

static void hand_out(const uint8_t block[STEMLINE_BLOCK]) {
    take(&group[0], block);
    take(&group[1], block);
}

/* The block for the own slot: appended, durable, and only then handed out. */
static void send(durable *d) {
    uint8_t block[STEMLINE_BLOCK];
    must(stemline_replica_send(&d->r, block), "send");
    must_keep(stemline_journal_send(&d->j, block), &d->j);
    hand_out(block);
}

/* Takes up what the journal has, be it nothing. Gives the last own block. */
static void reopen(durable *d, uint32_t own, const char *path, uint8_t last[STEMLINE_BLOCK]) {
    static const int32_t start[STEMLINE_ITEMS];
    stemline_reopened found;
    must_keep(stemline_journal_open(&d->j, &d->r, path, "durable", 2, own, start, &found), &d->j);
    printf("%s: %u blocks", path, (unsigned)found.blocks);
    if (found.mended > 0) {
        printf(", %u of them mended", (unsigned)found.mended);
    }
    if (found.cut > 0) {
        printf(", %u bytes cut off: %s", (unsigned)found.cut, found.cut_why);
    }
    printf("\n");
    memcpy(last, found.last, STEMLINE_BLOCK);
}

/* Both are at one turn by now and have committed the same; if not, a journal is lost, or the two are of
 * different runs: nothing more is to be sent. */
static void must_agree(void) {
    stemline_digest first, second;
    uint32_t turn = group[0].r.turn.slot;
    if (group[1].r.turn.slot != turn || !stemline_journal_digest(&group[0].j, turn, &first)
        || !stemline_journal_digest(&group[1].j, turn, &second)) {
        fprintf(stderr, "the replicas do not meet, at the turns %u and %u: is a journal lost?\n",
                (unsigned)turn, (unsigned)group[1].r.turn.slot);
        exit(1);
    }
    if (first.commits != second.commits || first.digest != second.digest) {
        fprintf(stderr, "the replicas have committed different things by turn %u\n", (unsigned)turn);
        exit(1);
    }
}

/* A transaction at the second replica. */
static void add_one(stemline_replica *r) {
    stemline_begin_reply begun = stemline_replica_begin(r);
    must(begun.number, "begin");
    stemline_read_reply old = stemline_replica_read(r, begun.ticket, 5);
    must(old.number, "read");
    must(stemline_replica_write(r, begun.ticket, 5, old.value + 1), "write");
    must(stemline_replica_ask(r, begun.ticket).number, "ask");
}

int main(int argc, char **argv) {
    static uint8_t last[2][STEMLINE_BLOCK];
    if (argc != 3) {
        fprintf(stderr, "two journals are to be named\n");
        return 1;
    }
    for (uint32_t k = 0; k < 2; k++) {
        reopen(&group[k], k, argv[1 + k], last[k]);
    }
    /* The blocks given back, once more; 512 zeros are refused as any damaged block is. */
    hand_out(last[0]);
    hand_out(last[1]);
    must_agree();
    add_one(&group[1].r);
    /* Two slots, one of each. */
    for (int slot = 0; slot < 2; slot++) {
        send(&group[stemline_replica_is_turn(&group[0].r) ? 0 : 1]);
    }
    must_agree();
    printf("item 5: %d and %d\n", (int)group[0].r.values[5], (int)group[1].r.values[5]);
    stemline_journal_close(&group[0].j);
    stemline_journal_close(&group[1].j);
    return 0;
}
