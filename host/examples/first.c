/* A first program: two replicas, and one transaction at the second.
 *
 *     cc -std=c99 -I host/include host/examples/first.c \
 *         target/staticlib/libreplica.a -o first && ./first
 */
#include <stdio.h>

#include "stemline.h"

int main(void) {
    static stemline_replica group[2];
    static int32_t start[STEMLINE_ITEMS];
    for (uint32_t k = 0; k < 2; k++) {
        stemline_replica_make(&group[k], 2, k, start);
    }
    uint32_t ticket = stemline_replica_begin(&group[1]).ticket;
    uint8_t number = stemline_replica_write(&group[1], ticket, 5, 40);
    printf("the write: %s\n", stemline_words(number));
    stemline_replica_ask(&group[1], ticket);
    /* Slot 0 is replica 0's, which sends with nothing asked; slot 1 is replica 1's. */
    for (int k = 0; k < 2; k++) {
        uint8_t block[STEMLINE_BLOCK];
        stemline_replica_send(&group[k], block);
        stemline_replica_take(&group[0], block, sizeof block);
        stemline_replica_take(&group[1], block, sizeof block);
    }
    printf("item 5: %d and %d\n", (int)group[0].values[5], (int)group[1].values[5]);
    return 0;
}
