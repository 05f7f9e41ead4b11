/* A print room that only reads: a station beside two replicas, whose blocks it gets late.
 *
 *     cc -std=c99 -I host/include host/examples/print_room.c \
 *         target/staticlib/libreplica.a -o print_room && ./print_room
 */
#include <stdio.h>

#include "stemline.h"

#define SLOTS 6

int main(void) {
    static stemline_replica group[2], room;
    static int32_t start[STEMLINE_ITEMS];
    static uint8_t kept[SLOTS][STEMLINE_BLOCK]; /* what was handed out, by slot */
    for (uint32_t k = 0; k < 2; k++) {
        stemline_replica_make(&group[k], 2, k, start);
    }
    stemline_replica_make_station(&room, 2, start);

    /* The group goes on and does not wait for the room. */
    for (int slot = 0; slot < SLOTS; slot++) {
        stemline_replica *owner = &group[slot % 2];
        uint32_t ticket = stemline_replica_begin(owner).ticket;
        stemline_replica_write(owner, ticket, 5, 40 + slot);
        stemline_replica_ask(owner, ticket);
        stemline_replica_send(owner, kept[slot]);
        stemline_replica_take(&group[0], kept[slot], STEMLINE_BLOCK);
        stemline_replica_take(&group[1], kept[slot], STEMLINE_BLOCK);
    }
    uint8_t early = stemline_replica_take(&room, kept[SLOTS - 1], STEMLINE_BLOCK).number;
    printf("the last block, too early: %s (%d)\n", stemline_words(early), early);

    /* So it is kept, and offered again: from the room's turn on, all that was handed out. */
    for (uint32_t slot = room.turn.slot; slot < SLOTS; slot++) {
        uint8_t number = stemline_replica_take(&room, kept[slot], STEMLINE_BLOCK).number;
        printf("slot %u: %s, item 5 is %d\n", (unsigned)slot, stemline_words(number),
               (int)room.values[5]);
    }
    uint32_t ticket = stemline_replica_begin(&room).ticket;
    uint8_t written = stemline_replica_write(&room, ticket, 5, 99);
    printf("a write: %s (%d)\n", stemline_words(written), written);
    printf("read in the print room: %d\n", (int)stemline_replica_read(&room, ticket, 5).value);
    return stemline_replica_ask(&room, ticket).number;
}
