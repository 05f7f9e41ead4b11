/* The block of the replica in plain C: its check and its form. */
#include "plain.h"

/* The sum of all words, and that of all such sums up to each word. */
static void sums(const plain_block *block, uint32_t *first, uint32_t *second) {
    uint32_t a = 0, b = 0;
    for (int i = 0; i < PLAIN_WORDS; i++) {
        a += block->words[i];
        b += a;
    }
    *first = a;
    *second = b;
}

void plain_put_check(plain_block *block) {
    uint32_t first, second;
    sums(block, &first, &second);
    block->has.first = first;
    block->has.second = second;
}

/* Whether all from one place to another is zero. */
static bool is_zero(const void *from, const void *to) {
    static const uint8_t zeros[STEMLINE_BLOCK];
    return memcmp(from, zeros, (size_t)((const uint8_t *)to - (const uint8_t *)from)) == 0;
}

/* A ticket, 1 to 8 entries whose items rise, so that the last is the highest, and zeros. */
static bool good_record(const plain_record *record) {
    if (record->ticket - 1 >= PLAIN_TICKETS || record->writes - 1 >= PLAIN_ENTRIES) {
        return false;
    }
    const plain_entry *entry = record->entries, *behind = entry + record->writes;
    uint32_t last = entry->item;
    for (entry++; entry < behind; entry++) {
        if (entry->item <= last) {
            return false;
        }
        last = entry->item;
    }
    return last < STEMLINE_ITEMS && (record->writes == PLAIN_ENTRIES || is_zero(behind, record + 1));
}

static bool well_formed(const plain_block *block) {
    uint32_t kind = block->has.kind, n = block->has.n, count = block->has.count;
    uint32_t slot = block->has.slot;
    if (kind == PLAIN_NEXT ? count != 0 : kind != PLAIN_TOCOMMIT || count - 1 >= STEMLINE_TABLE) {
        return false;
    }
    if (n < 2 || n > STEMLINE_REPLICAS || slot >= STEMLINE_SLOTS || block->has.sender != slot % n) {
        return false;
    }
    const plain_record *first = block->has.records, *behind = first + count;
    for (const plain_record *record = first; record < behind; record++) {
        if (!good_record(record)) {
            return false;
        }
        for (const plain_record *other = first; other < record; other++) {
            if (other->ticket == record->ticket) {
                return false;
            }
        }
    }
    return (block->has.zeros[0] | block->has.zeros[1]) == 0 && is_zero(behind, &block->has.first);
}

uint8_t plain_block_number(const plain_block *block) {
    uint32_t first, second;
    sums(block, &first, &second);
    if (block->has.first != first || block->has.second != second) {
        return STEMLINE_WRONG_CHECK;
    }
    return well_formed(block) ? STEMLINE_ACCEPTED : STEMLINE_WRONG_FORM;
}
