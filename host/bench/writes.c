/* Writes at a replica with all six transactions open, to count a write's instructions. In the repository's top folder:
 *
 *     cc -O2 -I host/include host/bench/writes.c target/staticlib/libreplica.a -o target/writes
 *     valgrind --tool=callgrind --toggle-collect=stemline_write target/writes [again]
 *
 * Each transaction writes eight items, 1,000 times over: 48,000 writes. With an argument each writes its one item nine
 * times: 54,000. "Collected" over the number printed is what one write takes.
 */
#include <stdio.h>

#include "stemline.h"

static stemline_replica replica;

int main(int argc, char **argv) {
    static int32_t start[STEMLINE_ITEMS];
    int again = argc > 1;
    long written = 0;
    (void)argv;
    for (int run = 0; run < 1000; run++) {
        uint32_t ticket[STEMLINE_TABLE];
        stemline_replica_make(&replica, 3, 0, start);
        for (uint32_t i = 0; i < STEMLINE_TABLE; i++) {
            ticket[i] = stemline_replica_begin(&replica).ticket;
        }
        for (uint32_t j = 0; j < (again ? 9u : 8u); j++) {
            for (uint32_t i = 0; i < STEMLINE_TABLE; i++) {
                /* Not in the order of the items, so that some are moved up. */
                uint32_t item = 8 * i + (again ? 0 : 5 * j % 8);
                written += stemline_replica_write(&replica, ticket[i], item, (int32_t)j) == 0;
            }
        }
    }
    printf("%ld\n", written);
    return 0;
}
