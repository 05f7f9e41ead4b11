/* The calls that move the turn at the replica in plain C. */
#include "plain.h"

/* A block of the turn, without check and records. */
static void begin_block(const plain_replica *r, plain_block *block, uint8_t kind) {
    memset(block, 0, sizeof *block);
    block->has.kind = kind;
    block->has.sender = (uint8_t)(r->turn % r->n);
    block->has.n = (uint8_t)r->n;
    block->has.slot = r->turn;
}

/* The block for the own slot, in the outbox: the records of the rows asked, whole. */
static void fill(plain_replica *r, plain_block *block) {
    begin_block(r, block, r->queued == 0 ? PLAIN_NEXT : PLAIN_TOCOMMIT);
    block->has.count = (uint8_t)r->queued;
    for (uint32_t j = 0; j < r->queued; j++) {
        plain_row *row = &r->rows[r->queue[j]];
        size_t used = sizeof(plain_entry) * (1 + row->record.writes);
        memcpy(&block->has.records[j], &row->record, used);
        row->stage = PLAIN_SENT;
    }
    plain_put_check(block);
}

uint8_t plain_send(plain_replica *r, uint8_t block[STEMLINE_BLOCK]) {
    if (r->own == STEMLINE_NO_NUMBER) {
        return STEMLINE_STATION_ONLY_READS;
    }
    if (r->turn == STEMLINE_SLOTS) {
        return STEMLINE_SLOTS_SPENT;
    }
    if (r->turn % r->n != r->own) {
        return STEMLINE_NOT_OUR_TURN;
    }
    if (plain_is_out(r, r->turn)) {
        return STEMLINE_SLOT_OUT;
    }
    if (r->sent) {
        return STEMLINE_ALREADY_SENT;
    }
    fill(r, &r->outbox);
    memcpy(block, &r->outbox, STEMLINE_BLOCK);
    r->queued = 0;
    r->sent = true;
    return STEMLINE_ACCEPTED;
}

uint8_t plain_deliver(plain_replica *r, const uint8_t *bytes, size_t length) {
    plain_block block;
    if (length != STEMLINE_BLOCK) {
        return STEMLINE_WRONG_LENGTH;
    }
    memcpy(&block, bytes, sizeof block);
    uint8_t number = plain_block_number(&block);
    if (number != STEMLINE_ACCEPTED) {
        return number;
    }
    if (block.has.n != r->n) {
        return STEMLINE_WRONG_GROUP;
    }
    if (block.has.slot < r->turn) {
        return STEMLINE_PAST_SLOT;
    }
    if (plain_is_out(r, block.has.slot)) {
        return STEMLINE_SLOT_OUT;
    }
    if (block.has.slot - r->turn >= r->n) {
        return STEMLINE_FAR_SLOT;
    }
    if (block.has.sender == r->own && !(r->sent && memcmp(&r->outbox, &block, sizeof block) == 0)) {
        return STEMLINE_NOT_SENT;
    }
    if (r->places[block.has.sender].has.kind != 0) {
        return STEMLINE_SLOT_TAKEN;
    }
    memcpy(&r->places[block.has.sender], &block, sizeof block);
    return STEMLINE_ACCEPTED;
}

/* Ends the turn. The block goes to the window, and another's from there to the journal. */
static void leave(plain_replica *r, plain_block *place, stemline_work_reply *reply) {
    reply->moved = true;
    reply->append = reply->sender != r->own;
    memcpy(&r->window[r->turn % STEMLINE_KEPT], place, sizeof *place);
    place->has.kind = 0;
    r->turn++;
    r->done = 0;
    r->sent = r->applying = false;
}

/* Ends a row that another's writeset hits: among the tickets aborted it stands by its size. */
static void abort_row(plain_replica *r, uint32_t at, stemline_work_reply *reply) {
    plain_row *row = &r->rows[at];
    uint32_t i = reply->count++, kept = 0;
    for (; i > 0 && reply->aborted[i - 1] > row->record.ticket; i--) {
        reply->aborted[i] = reply->aborted[i - 1];
    }
    reply->aborted[i] = row->record.ticket;
    if (row->stage == PLAIN_ASKED) {
        for (uint32_t j = 0; j < r->queued; j++) {
            r->queue[kept] = r->queue[j];
            kept += r->queue[j] != at;
        }
        r->queued = kept;
    }
    plain_end(r, row);
    r->aborted++;
}

/* Ends all that hold an item of another's writeset. None of them is sent: the turn rests on the
 * own slot until the own block is back. */
static void abort_holders(plain_replica *r, const plain_record *record, stemline_work_reply *reply) {
    const plain_entry *entry = record->entries, *behind = entry + record->writes;
    for (; entry < behind; entry++) {
        uint32_t holder = r->holders[entry->item];
        if (holder != 0) {
            abort_row(r, holder - 1, reply);
        }
    }
}

/* Ends the own transaction of a writeset: it is open, and sent. */
static void end_own(plain_replica *r, uint32_t ticket) {
    plain_row *row = r->rows;
    while (row->record.ticket != ticket) {
        row++;
    }
    plain_end(r, row);
    r->committed++;
}

/* Passes a slot that is out: its next goes to the window. */
static void pass(plain_replica *r, stemline_work_reply *reply) {
    plain_block *next = &r->window[r->turn % STEMLINE_KEPT];
    begin_block(r, next, PLAIN_NEXT);
    plain_put_check(next);
    reply->sender = next->has.sender;
    reply->moved = reply->append = true;
    r->turn++;
}

/* Whether a work does something: the slot at the turn is out, or its block waits. */
static inline bool waits(const plain_replica *r) {
    return r->places[r->turn % r->n].has.kind != 0 || (plain_is_out(r, r->turn) && r->turn < STEMLINE_SLOTS);
}

stemline_work_reply plain_work(plain_replica *r) {
    stemline_work_reply reply = {STEMLINE_ACCEPTED, 0, false, 0, 0, {0}, false};
    plain_block *place = &r->places[r->turn % r->n];
    if (plain_is_out(r, r->turn) && r->turn < STEMLINE_SLOTS) {
        pass(r, &reply);
        return reply;
    }
    if (place->has.kind == 0) {
        reply.number = STEMLINE_NOTHING_WAITS;
        return reply;
    }
    reply.sender = place->has.sender;
    if (place->has.kind == PLAIN_NEXT) {
        leave(r, place, &reply);
        return reply;
    }
    const plain_record *record = &place->has.records[r->done++];
    reply.ticket = record->ticket;
    if (reply.sender == r->own) {
        end_own(r, record->ticket);
    } else {
        abort_holders(r, record, &reply);
        r->applying = true;
    }
    plain_apply(r, record);
    if (r->done == place->has.count) {
        leave(r, place, &reply);
    }
    return reply;
}

void plain_take(plain_replica *r, const uint8_t *bytes, size_t length, plain_taken *taken) {
    taken->count = 0;
    taken->number = plain_deliver(r, bytes, length);
    if (taken->number != STEMLINE_ACCEPTED) {
        return;
    }
    int left = 0;
    while (waits(r) && taken->count < PLAIN_STEPS && left < PLAIN_LEFT) {
        stemline_work_reply *step = &taken->steps[taken->count++];
        *step = plain_work(r);
        left += step->moved;
    }
}
