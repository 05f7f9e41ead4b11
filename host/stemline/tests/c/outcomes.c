/* A replica with a journal, and a second one without, in a group of two: after each step what became of tickets 0
 * to 7; last behind an open of the file, which is the argument. */
#include <stdio.h>
#include <stdlib.h>

#include "stemline_journal.h"

static stemline_replica r, peer;
static stemline_journal j;
static uint8_t block[STEMLINE_BLOCK];

static void must(int number) {
    if (number != 0) {
        fprintf(stderr, "%d: %s\n", number, j.why);
        exit(1);
    }
}

static void open_it(const char *path) {
    static const int32_t start[STEMLINE_ITEMS];
    static stemline_reopened found;
    must(stemline_journal_open(&j, &r, path, "grotesque", 2, 0, start, &found));
}

static void outcomes(const char *step) {
    static const char *const kinds[] = {"-", "open", "asked", "sent", "committed"};
    printf("%s:", step);
    for (uint32_t ticket = 0; ticket <= 7; ticket++) {
        stemline_outcome outcome;
        must(stemline_journal_outcome(&j, &r, ticket, &outcome));
        printf(" %s", kinds[outcome.kind]);
        if (outcome.place > 0) {
            printf(" %u", (unsigned)outcome.place);
        }
    }
    printf("\n");
}

/* Begins a transaction that writes an item. */
static uint32_t writes(stemline_replica *at, uint32_t item) {
    uint32_t ticket = stemline_replica_begin(at).ticket;
    must(stemline_replica_write(at, ticket, item, 40));
    return ticket;
}

/* A block at both. */
static void take(void) {
    stemline_take_reply taken = stemline_replica_take(&r, block, sizeof block);
    must(taken.number);
    must(stemline_journal_append(&j, &r));
    must(stemline_replica_take(&peer, block, sizeof block).number);
}

static void send(void) {
    must(stemline_replica_send(&r, block));
    must(stemline_journal_send(&j, block));
}

int main(int argc, char **argv) {
    static const int32_t start[STEMLINE_ITEMS];
    must(argc != 2);
    open_it(argv[1]);
    must(stemline_replica_make(&peer, 2, 1, start));
    uint32_t first = writes(&r, 5), second = writes(&r, 6);
    must(stemline_replica_ask(&r, second).number);
    must(stemline_replica_ask(&r, first).number);
    must(stemline_replica_withdraw(&r, writes(&r, 8)));
    must(stemline_replica_ask(&r, stemline_replica_begin(&r).ticket).number);
    writes(&r, 7);
    outcomes("asked");
    send();
    outcomes("sent");
    take();
    outcomes("taken");
    must(stemline_replica_ask(&peer, writes(&peer, 7)).number);
    must(stemline_replica_send(&peer, block));
    take();
    outcomes("the other's");
    must(stemline_replica_ask(&r, writes(&r, 9)).number);
    send();
    take();
    writes(&r, 10);
    outcomes("one more");
    stemline_journal_close(&j);
    stemline_outcome outcome;
    printf("closed: %d\n", stemline_journal_outcome(&j, &r, 1, &outcome));
    open_it(argv[1]);
    outcomes("opened");
    return 0;
}
