/* Three replicas hold one face, and set stems. stemline/examples/story.rs plays
 * the same in Rust and prints the same.
 *
 *     cc -std=c99 -I host/include host/examples/story.c \
 *         target/staticlib/libreplica.a -o story && ./story
 */
#include <errno.h>
#include <stdio.h>
#include <stdlib.h>
#include <string.h>

#include "stemline.h"

#define REPLICAS 3

static stemline_replica replicas[REPLICAS];

/* The story has no call that may be refused. */
static void must(uint8_t number) {
    if (number != STEMLINE_ACCEPTED) {
        fprintf(stderr, "story: %s (%d)\n", stemline_words(number), number);
        exit(1);
    }
}

/* Behind a step of so many characters: the three measures at each replica. */
static void show(int printed) {
    static const int shown[] = {5, 10, 20};
    printf("%*s", 64 - printed, "");
    for (int i = 0; i < 3; i++) {
        for (int k = 0; k < REPLICAS; k++) {
            printf("%s%2d", k == 0 ? "  " : " ", (int)replicas[k].values[shown[i]]);
        }
    }
    printf("\n");
}

/* A transaction that writes one item, and asks for commit. */
static void set(int k, uint32_t item, int32_t value) {
    stemline_begin_reply begun = stemline_replica_begin(&replicas[k]);
    must(begun.number);
    stemline_read_reply old = stemline_replica_read(&replicas[k], begun.ticket, item);
    must(old.number);
    must(stemline_replica_write(&replicas[k], begun.ticket, item, value));
    must(stemline_replica_ask(&replicas[k], begun.ticket).number);
    show(printf("  replica %d: ticket %u sets item %u from %d to %d", k, (unsigned)begun.ticket,
                (unsigned)item, (int)old.value, (int)value));
}

/* The replica whose turn it is sends. While some are behind, that is one of those in front. */
static void send(uint8_t block[STEMLINE_BLOCK]) {
    int k = 0;
    while (k < REPLICAS - 1 && !stemline_replica_is_turn(&replicas[k])) {
        k++;
    }
    must(stemline_replica_send(&replicas[k], block));
    show(printf("  replica %d: sends a block", k));
}

/* A block arrives, and what waits at the turn is worked off. */
static void take(int k, const uint8_t block[STEMLINE_BLOCK]) {
    stemline_take_reply taken = stemline_replica_take(&replicas[k], block, STEMLINE_BLOCK);
    must(taken.number);
    int printed = printf("  replica %d: takes a block", k);
    for (int i = 0; i < taken.count; i++) {
        printed += printf(",%s ticket %u of %d", i == 0 ? " commits" : "",
                          (unsigned)taken.steps[i].ticket, taken.steps[i].sender);
    }
    show(printed);
}

int main(void) {
    static const int32_t start[STEMLINE_ITEMS];
    uint8_t first[STEMLINE_BLOCK], second[STEMLINE_BLOCK];
    uint8_t to_86[STEMLINE_BLOCK], to_84[STEMLINE_BLOCK];
    int equal = 1;

    for (uint32_t k = 0; k < REPLICAS; k++) {
        must(stemline_replica_make(&replicas[k], REPLICAS, k, start));
    }
    printf("Behind each step: three measures, each at replicas 0, 1, 2.\n");
    printf("%66sitem 5    item 10   item 20\n", "");
    printf("Two stems on different letters.\n");
    set(0, 10, 80);
    set(1, 20, 70);
    send(first);
    take(0, first);
    take(1, first);
    send(second);
    take(1, second);
    take(0, second);

    printf("Replica 2 gets the second block before the first.\n");
    take(2, second);
    take(2, first);

    printf("The stem of the n: replica 2 sets 86, then replica 0 sets 84.\n");
    set(2, 5, 86);
    send(to_86);
    take(2, to_86);
    take(0, to_86);
    set(0, 5, 84);
    send(to_84);
    take(0, to_84);

    printf("Replica 1 gets the 84 before the 86.\n");
    take(1, to_84);
    take(1, to_86);
    take(2, to_84);

    for (int k = 0; k < REPLICAS; k++) {
        stemline_report_values said = stemline_replica_report(&replicas[k]).report;
        printf("replica %d: turn %u, commits %u, own %u\n", k, (unsigned)said.turn,
               (unsigned)said.commits, (unsigned)said.committed);
        equal &= memcmp(replicas[k].values, replicas[0].values, sizeof replicas[0].values) == 0;
    }
    printf("All three replicas hold the same measures: %s\n", equal ? "yes" : "no");
    /* what was printed may wait to be written, for a disk that is full */
    if (fflush(stdout) != 0 || ferror(stdout)) {
        fprintf(stderr, "story: cannot print: %s\n", strerror(errno));
        return 1;
    }
    return 0;
}
