/* What became of a ticket, by a replica's table and the file of its journal. A part of
 * stemline_journal.c. */
#ifndef STEMLINE_JOURNAL_OUTCOME_H
#define STEMLINE_JOURNAL_OUTCOME_H

#include "journal_disk.h"

/* The place of the ticket in a writeset of these blocks, the first of a slot, behind so many commits; 0 where
 * no own block of them has it. Counts the commits on. Gives false at a block that is not as it was. */
static bool find_place(
    const stemline_journal *j, const uint8_t *blocks, uint32_t slot, uint32_t count, uint32_t ticket,
    uint32_t *commits, uint32_t *place) {
    for (uint32_t k = 0; k < count; k++) {
        const uint8_t *block = blocks + STEMLINE_BLOCK * (size_t)k;
        uint32_t records = block[3];
        if (!good_block(block, j->n, slot + k)) {
            return false;
        }
        for (uint32_t i = 0; (slot + k) % j->n == j->own && i < records; i++) {
            if (stemline_block_record(block, STEMLINE_BLOCK, i).ticket == ticket) {
                *place = *commits + i + 1;
            }
        }
        *commits += records;
    }
    return true;
}

int stemline_journal_outcome(
    stemline_journal *j, const stemline_replica *r, uint32_t ticket, stemline_outcome *outcome) {
    static const uint32_t most = 128;
    outcome->kind = STEMLINE_NOT_COMMITTED;
    outcome->place = 0;
    if (j->file < 0) {
        return fails(j, "go on with", "it failed before; open it anew");
    }
    for (int row = 0; ticket != 0 && row < STEMLINE_TABLE; row++) {
        if (r->table[row].ticket == ticket) {
            const int kinds[] = {STEMLINE_IS_OPEN, STEMLINE_IS_ASKED, STEMLINE_IS_SENT};
            outcome->kind = kinds[r->table[row].stage % 3];
            return 0;
        }
    }
    uint8_t *bytes = (uint8_t *)malloc(most * (size_t)STEMLINE_BLOCK);
    bool good = bytes != NULL;
    uint32_t commits = 0;
    for (uint32_t slot = 0; good && outcome->place == 0 && slot < j->blocks; slot += most) {
        uint32_t count = j->blocks - slot < most ? j->blocks - slot : most;
        good = read_at(j->file, bytes, STEMLINE_BLOCK * (size_t)count, place(slot));
        if (good && !find_place(j, bytes, slot, count, ticket, &commits, &outcome->place)) {
            free(bytes);
            return fails(j, "read", "a block of it is not as it was");
        }
    }
    int why = errno;
    free(bytes);
    if (!good) {
        return fails(j, "read", "%s", strerror(why));
    }
    outcome->kind = outcome->place > 0 ? STEMLINE_IS_COMMITTED : STEMLINE_NOT_COMMITTED;
    return 0;
}

#endif
