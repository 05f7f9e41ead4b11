/* The calls of a client at the replica in plain C, and its makes. */
#include "plain.h"

size_t plain_size(void) {
    return sizeof(plain_replica);
}

const int32_t *plain_values(const plain_replica *r) {
    return r->values;
}

const uint8_t *plain_kept(const plain_replica *r, uint32_t slot) {
    return r->window[slot % STEMLINE_KEPT].bytes;
}

void plain_fast_forward(plain_replica *r, uint32_t slots, uint32_t tickets) {
    r->turn += slots;
    r->tickets += tickets;
    r->withdrawn += tickets;
}

uint8_t plain_make(plain_replica *r, uint32_t n, uint32_t own, const int32_t start[STEMLINE_ITEMS]) {
    if (own >= n || n < 2 || n > STEMLINE_REPLICAS) {
        return STEMLINE_OUT_OF_RANGE;
    }
    memset(r, 0, sizeof *r);
    r->n = n;
    r->own = own;
    memcpy(r->values, start, sizeof r->values);
    return STEMLINE_ACCEPTED;
}

uint8_t plain_make_station(plain_replica *r, uint32_t n, const int32_t start[STEMLINE_ITEMS]) {
    uint8_t number = plain_make(r, n, 0, start);
    if (number == STEMLINE_ACCEPTED) {
        r->own = STEMLINE_NO_NUMBER;
    }
    return number;
}

/* The first row with this ticket, be it 0 for a free one; NULL where there is none. */
static plain_row *row_of(plain_replica *r, uint32_t ticket) {
    for (plain_row *row = r->rows; row < r->rows + STEMLINE_TABLE; row++) {
        if (row->record.ticket == ticket) {
            return row;
        }
    }
    return NULL;
}

/* 0 for an active transaction, else why a call at it is refused. */
static inline uint8_t not_active(const plain_row *row, uint32_t ticket) {
    if (row == NULL || ticket == 0) {
        return STEMLINE_NOT_OPEN;
    }
    return row->stage == PLAIN_ACTIVE ? STEMLINE_ACCEPTED : STEMLINE_NOT_ACTIVE;
}

/* The entry of an item that the row has written. */
static inline plain_entry *entry_of(plain_row *row, uint32_t item) {
    plain_entry *entry = row->record.entries;
    while (entry->item != item) {
        entry++;
    }
    return entry;
}

stemline_begin_reply plain_begin(plain_replica *r) {
    stemline_begin_reply reply = {STEMLINE_ACCEPTED, 0};
    plain_row *row = row_of(r, 0);
    if (row == NULL) {
        reply.number = STEMLINE_ALL_OPEN;
        return reply;
    }
    if (r->tickets == PLAIN_TICKETS) {
        reply.number = STEMLINE_TICKETS_SPENT;
        return reply;
    }
    reply.ticket = ++r->tickets;
    row->record.ticket = reply.ticket;
    row->snapshot = r->commits;
    row->stage = PLAIN_ACTIVE;
    memcpy(r->snapshots[row - r->rows], r->values, sizeof r->values);
    return reply;
}

stemline_read_reply plain_read(const plain_replica *r, uint32_t ticket, uint32_t item) {
    stemline_read_reply reply = {STEMLINE_OUT_OF_RANGE, 0};
    if (item >= STEMLINE_ITEMS) {
        return reply;
    }
    plain_row *row = row_of((plain_replica *)r, ticket); /* which changes nothing */
    reply.number = not_active(row, ticket);
    if (reply.number == STEMLINE_ACCEPTED) {
        uint32_t at = (uint32_t)(row - r->rows);
        reply.value = r->holders[item] == at + 1 ? entry_of(row, item)->value : r->snapshots[at][item];
    }
    return reply;
}

/* While another's block is applied: whether an item of this one's class is still to come in it. */
static bool is_to_come(const plain_replica *r, uint32_t item) {
    const plain_block *block = &r->places[r->turn % r->n];
    for (uint32_t j = r->done; j < block->has.count; j++) {
        const plain_record *record = &block->has.records[j];
        for (uint32_t e = 0; e < record->writes; e++) {
            if (r->classes[record->entries[e].item] == r->classes[item]) {
                return true;
            }
        }
    }
    return false;
}

/* Puts a new item into its place in the record. */
static void insert(plain_record *record, uint32_t item, int32_t value) {
    plain_entry *first = record->entries, *at = first + record->writes++;
    for (; at > first && at[-1].item > item; at--) {
        *at = at[-1];
    }
    at->item = item;
    at->value = value;
}

uint8_t plain_write(plain_replica *r, uint32_t ticket, uint32_t item, int32_t value) {
    if (r->own == STEMLINE_NO_NUMBER) {
        return STEMLINE_STATION_ONLY_READS;
    }
    if (item >= STEMLINE_ITEMS) {
        return STEMLINE_OUT_OF_RANGE;
    }
    plain_row *row = row_of(r, ticket);
    uint8_t number = not_active(row, ticket);
    if (number != STEMLINE_ACCEPTED) {
        return number;
    }
    if (r->applying && is_to_come(r, item)) {
        return STEMLINE_APPLYING;
    }
    uint32_t holder = r->holders[item], own = (uint32_t)(row - r->rows) + 1;
    if (holder == own) {
        entry_of(row, item)->value = value;
        return STEMLINE_ACCEPTED;
    }
    if (r->stamps[item] > row->snapshot) {
        plain_end(r, row);
        r->aborted++;
        return STEMLINE_STALE;
    }
    if (holder != 0) {
        return STEMLINE_LOCKED;
    }
    if (row->record.writes == PLAIN_ENTRIES) {
        return STEMLINE_WRITESET_FULL;
    }
    insert(&row->record, item, value);
    r->holders[item] = (uint8_t)own;
    return STEMLINE_ACCEPTED;
}

stemline_ask_reply plain_ask(plain_replica *r, uint32_t ticket) {
    plain_row *row = row_of(r, ticket);
    stemline_ask_reply reply = {not_active(row, ticket), false};
    if (reply.number != STEMLINE_ACCEPTED) {
        return reply;
    }
    if (row->record.writes == 0) {
        row->record.ticket = 0;
        r->read_only++;
        reply.read_only = true;
        return reply;
    }
    row->stage = PLAIN_ASKED;
    r->queue[r->queued++] = (uint8_t)(row - r->rows);
    return reply;
}

uint8_t plain_withdraw(plain_replica *r, uint32_t ticket) {
    plain_row *row = row_of(r, ticket);
    uint8_t number = not_active(row, ticket);
    if (number == STEMLINE_ACCEPTED) {
        plain_end(r, row);
        r->withdrawn++;
    }
    return number;
}

stemline_report_reply plain_report(const plain_replica *r) {
    stemline_report_reply reply = {
        STEMLINE_ACCEPTED,
        {r->turn, r->commits, r->tickets, 0, r->committed, r->read_only, r->aborted, r->withdrawn}};
    for (const plain_row *row = r->rows; row < r->rows + STEMLINE_TABLE; row++) {
        reply.report.open_count += row->record.ticket != 0;
    }
    return reply;
}

uint8_t plain_load(plain_replica *r, const uint8_t *classes, size_t length) {
    if (length != STEMLINE_ITEMS) {
        return STEMLINE_WRONG_LENGTH;
    }
    for (uint32_t item = 0; item < STEMLINE_ITEMS; item++) {
        if (classes[item] < 1 || classes[item] > STEMLINE_CLASSES) {
            return STEMLINE_OUT_OF_RANGE;
        }
    }
    if (r->applying) {
        return STEMLINE_LOAD_WHILE_APPLYING;
    }
    memcpy(r->classes, classes, sizeof r->classes);
    return STEMLINE_ACCEPTED;
}
