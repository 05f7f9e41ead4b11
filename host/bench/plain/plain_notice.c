/* The notices at the replica in plain C, and its restart, which is lent them. */
#include "plain.h"

uint8_t plain_out(plain_replica *r, uint32_t replica, uint32_t slot) {
    if (replica >= r->n || slot >= STEMLINE_SLOTS) {
        return STEMLINE_OUT_OF_RANGE;
    }
    /* it is out, or comes back later */
    bool away = r->until[replica] > r->turn;
    const plain_block *place = &r->places[replica];
    bool placed = place->has.kind != 0 && place->has.slot >= slot;
    bool sent = replica == r->own && r->sent && r->turn >= slot;
    if (r->turn > slot || away || placed || sent) {
        return STEMLINE_NOTICE_REFUSED;
    }
    r->from[replica] = slot;
    r->until[replica] = STEMLINE_SLOTS;
    return STEMLINE_ACCEPTED;
}

uint8_t plain_back(plain_replica *r, uint32_t replica, uint32_t slot) {
    if (replica >= r->n || slot >= STEMLINE_SLOTS) {
        return STEMLINE_OUT_OF_RANGE;
    }
    if (r->turn > slot || r->until[replica] != STEMLINE_SLOTS || slot <= r->from[replica]) {
        return STEMLINE_NOTICE_REFUSED;
    }
    r->until[replica] = slot;
    return STEMLINE_ACCEPTED;
}

/* Whether all notices together put a slot of a replica out. */
static bool was_out(const stemline_notice *notices, size_t count, uint32_t replica, uint32_t slot) {
    while (count > 0) {
        const stemline_notice *notice = &notices[--count];
        if (notice->replica == replica && notice->slot <= slot) {
            return notice->out == 1;
        }
    }
    return false;
}

static void put_notices(plain_replica *r, const stemline_notice *notices, size_t count) {
    for (const stemline_notice *notice = notices; notice < notices + count; notice++) {
        if (notice->replica >= r->n || notice->slot >= STEMLINE_SLOTS) {
            continue; /* it matches nothing */
        }
        if (notice->out == 1) {
            r->from[notice->replica] = notice->slot;
            r->until[notice->replica] = STEMLINE_SLOTS;
        } else {
            r->until[notice->replica] = notice->slot;
        }
    }
}

stemline_restart_reply plain_restart(
    plain_replica *r, uint32_t n, uint32_t own, const int32_t start[STEMLINE_ITEMS],
    const uint8_t *journal, size_t length, const stemline_notice *notices, size_t count,
    uint8_t block[STEMLINE_BLOCK]) {
    stemline_restart_reply reply = {plain_make(r, n, own, start), 0};
    if (reply.number != STEMLINE_ACCEPTED) {
        return reply;
    }
    memset(block, 0, STEMLINE_BLOCK);
    for (; length >= STEMLINE_BLOCK; journal += STEMLINE_BLOCK, length -= STEMLINE_BLOCK) {
        plain_block next;
        memcpy(&next, journal, sizeof next);
        if (plain_block_number(&next) != 0 || next.has.n != n || next.has.slot != r->turn) {
            break;
        }
        for (uint32_t j = 0; j < next.has.count; j++) {
            const plain_record *record = &next.has.records[j];
            plain_apply(r, record);
            if (next.has.sender == own) {
                r->tickets = r->tickets < record->ticket ? record->ticket : r->tickets;
                r->committed++;
            }
        }
        if (next.has.sender == own && !was_out(notices, count, own, next.has.slot)) {
            memcpy(block, &next, sizeof next);
        }
        memcpy(&r->window[r->turn % STEMLINE_KEPT], &next, sizeof next);
        r->turn++;
    }
    put_notices(r, notices, count);
    r->aborted = r->tickets < r->committed ? 0 : r->tickets - r->committed;
    reply.count = r->turn;
    return reply;
}
