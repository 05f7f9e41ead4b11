/* Replicas in structs with any bytes in them: every call returns, a refused one changes nothing, and
 * of the places no call is lent more than the struct has. Stops where that does not hold; prints for
 * each call how often it gave each number. */
#include "same.h"

enum call { MAKE, STATION, RESTART, BEGIN, READ, WRITE, ASK, WITHDRAW, REPORT, SEND, DELIVER, WORK,
            LOAD, OUT, BACK, GIVER, GIVE, CALLS };

static const char *const names[CALLS] = {
    "make", "make_station", "restart", "begin", "read", "write", "ask", "withdraw", "report", "send",
    "deliver", "work", "load", "out", "back", "giver", "give"};
static unsigned given[CALLS][256];
static uint8_t good[STEMLINE_BLOCK];
static int32_t start[STEMLINE_ITEMS] = {7, -7};

static uint32_t any(void) {
    static uint64_t state = 88172645463325252u;
    state ^= state << 13;
    state ^= state >> 7;
    state ^= state << 17;
    return (uint32_t)(state >> 16);
}

/* A number, most often a small one. */
static uint32_t number(void) {
    return any() % 4 == 0 ? any() : any() % 8;
}

static void fill(void *at, size_t length) {
    for (size_t i = 0; i < length; i++) {
        ((uint8_t *)at)[i] = (uint8_t)number();
    }
}

/* Any bytes; then, most often, rows, group, turn and counts among which a call finds something to do. */
static void alter(stemline_replica *r) {
    fill(r, sizeof *r);
    for (int at = 0; at < STEMLINE_TABLE; at++) {
        stemline_txn row = {number(), any() % 4, number(), any() % 10};
        r->table[at] = row;
    }
    r->turn.slot = any() % 2 ? 0 : number();
    r->turn.sent = (uint8_t)(any() % 2 * any());
    r->turn.applying = (uint8_t)(any() % 2 * any());
    r->group.replicas = (uint8_t)(any() % 2 ? 2 : number());
    r->group.own = (uint8_t)(any() % 4 ? any() % 4 : STEMLINE_NO_NUMBER);
    for (int k = 0; k < STEMLINE_REPLICAS; k++) {
        r->group.from[k] = number();
        r->group.until[k] = any() % 2 ? 0 : any() % 2 ? STEMLINE_SLOTS : number();
    }
    r->counts.tickets = number();
}

/* Two makes: one that is in range and fills the struct whatever it held, and one that may not be. */
static uint8_t make(stemline_replica *r) {
    static stemline_replica from_zeros, from_any;
    uint32_t n = 2 + any() % 5, own = any() % n;
    memset(&from_zeros, 0, sizeof from_zeros);
    memcpy(&from_any, r, sizeof from_any);
    hold(stemline_replica_make(&from_zeros, n, own, start) == 0, "make: refused");
    hold(stemline_replica_make(&from_any, n, own, start) == 0, "make: refused");
    size_t used = STEMLINE_PLACES(n);
    hold(memcmp(from_any.places + used, r->places + used, sizeof r->places - used) == 0,
         "make: places beyond those of the group");
    memcpy(from_any.places + used, from_zeros.places + used, sizeof r->places - used);
    hold(same(&from_zeros, &from_any), "make: what was there before is left");
    return stemline_replica_make(r, number(), number(), start);
}

/* A station in range is a replica in all but its number; then one that may not be in range. */
static uint8_t make_station(stemline_replica *r) {
    static stemline_replica replica, station;
    uint32_t n = 2 + any() % 5;
    memcpy(&replica, r, sizeof replica);
    memcpy(&station, r, sizeof station);
    hold(stemline_replica_make(&replica, n, any() % n, start) == 0, "make: refused");
    hold(stemline_replica_make_station(&station, n, start) == 0, "make_station: refused");
    hold(station.group.own == STEMLINE_NO_NUMBER, "make_station: a number");
    replica.group.own = STEMLINE_NO_NUMBER;
    hold(same(&replica, &station), "make_station: not what a make leaves");
    return stemline_replica_make_station(r, number(), start);
}

/* Two restarts from one journal, as the makes: one block that is good for a group of two, and any bytes. */
static uint8_t restart(stemline_replica *r) {
    static stemline_replica from_zeros, from_any;
    uint8_t journal[3 * STEMLINE_BLOCK], block[STEMLINE_BLOCK], again[STEMLINE_BLOCK];
    size_t length = any() % (sizeof journal + 1);
    fill(journal, sizeof journal);
    fill(block, sizeof block);
    memcpy(journal, good, any() % 4 ? sizeof good : 0);
    memset(&from_zeros, 0, sizeof from_zeros);
    memcpy(&from_any, r, sizeof from_any);
    stemline_notice notices[] = {{number(), number(), number()}, {any() % 2, 1, any() % 2}};
    size_t count = any() % 3;
    bool out = count > 0 && ((notices[0].replica == 0 && notices[0].slot == 0) || count > 1);
    stemline_restart_reply a =
        stemline_replica_restart(&from_zeros, 2, 0, start, journal, length, notices, count, block);
    stemline_restart_reply b =
        stemline_replica_restart(&from_any, 2, 0, start, journal, length, notices, count, again);
    hold(a.number == 0 && b.number == 0 && a.count == b.count, "restart: two answers");
    hold(memcmp(block, again, sizeof block) == 0, "restart: two blocks");
    hold(out || (a.count > 0) == (block[0] != 0), "restart: no block of the own ones");
    size_t used = STEMLINE_PLACES(2);
    memcpy(from_any.places + used, from_zeros.places + used, sizeof r->places - used);
    hold(same(&from_zeros, &from_any), "restart: what was there before is left");
    stemline_restart_reply said =
        stemline_replica_restart(r, number(), number(), start, journal, length, notices, count, again);
    hold(said.number == 0 || memcmp(block, again, sizeof block) == 0, "restart: the block is changed");
    hold(said.number == 0 || said.count == 0, "restart: a count where it is refused");
    return said.number;
}

static uint8_t send(stemline_replica *r) {
    uint8_t block[STEMLINE_BLOCK], before[STEMLINE_BLOCK];
    fill(block, sizeof block);
    memcpy(before, block, sizeof block);
    bool is_turn = stemline_replica_is_turn(r);
    uint8_t said = stemline_replica_send(r, block);
    hold(is_turn == (said == 0), "is_turn: not what the send answers");
    hold(said == 0 || memcmp(block, before, sizeof block) == 0, "send: the block is changed");
    return said;
}

static uint8_t deliver(stemline_replica *r) {
    uint8_t bytes[STEMLINE_BLOCK + 1] = {0};
    memcpy(bytes, any() % 4 ? good : r->outbox, STEMLINE_BLOCK);
    size_t length = STEMLINE_BLOCK - (any() % 8 == 0) + (any() % 8 == 0);
    hold_take(r, bytes, length);
    uint8_t said = stemline_replica_deliver(r, bytes, length);
    hold(said == 1 || (r->group.replicas <= 6 && length == STEMLINE_BLOCK), "deliver: not 1");
    return said;
}

static uint8_t work(stemline_replica *r) {
    uint8_t said = hold_work(stemline_replica_work, r).number;
    hold(said == 1 || r->group.replicas <= 6, "work: not 1");
    return said;
}

/* Turns told, most often near the own one, and of as many replicas as there are. */
static size_t tell(const stemline_replica *r, uint32_t turns[8]) {
    for (int k = 0; k < 8; k++) {
        turns[k] = any() % 3 == 0 ? STEMLINE_DOWN : any() % 2 ? r->turn.slot + any() % 3 : number();
    }
    return any() % 8 && r->group.replicas < 8 ? r->group.replicas : any() % 8;
}

static uint8_t giver(stemline_replica *r) {
    uint32_t turns[8];
    size_t count = tell(r, turns);
    stemline_giver_reply said = stemline_replica_giver(r, turns, count);
    hold(said.number == 0 ? said.giver < count && said.giver != r->group.own && turns[said.giver] != STEMLINE_DOWN
                          : said.giver == 0,
         "giver: not one of those told of");
    hold(said.number != 1 || count != r->group.replicas, "giver: 1");
    return said.number;
}

/* A giving from a window with a good block or any bytes where the turn's is; what a deliver ended counts as 0. */
static uint8_t give(stemline_replica *r) {
    static uint8_t window[STEMLINE_WINDOW];
    static stemline_replica before;
    uint32_t turns[8];
    size_t count = tell(r, turns);
    memcpy(window, r->window, sizeof window);
    for (uint32_t slot = r->turn.slot; slot - r->turn.slot < 3; slot++) {
        uint8_t *block = window + STEMLINE_BLOCK * (slot % STEMLINE_KEPT);
        put_next(block, any() % 4 ? r->group.replicas : 3, any() % 4 ? slot : any());
        block[any() % STEMLINE_BLOCK] ^= (uint8_t)(any() % 8 == 0);
    }
    memcpy(&before, r, sizeof before);
    stemline_giver_reply named = stemline_replica_giver(r, turns, count);
    stemline_give_reply said = stemline_replica_give(r, turns, count, window);
    bool away = said.number == 1 || said.number == 25 || said.number == 30 || said.number == 31;
    hold(said.giver == (named.number == 0 && said.number != 1 ? named.giver : 0), "give: another giver");
    hold(named.number == 0 || said.number == named.number || said.number == 1, "give: another number");
    hold(!away || (said.count == 0 && same(r, &before)), "give: turned away, and changed something");
    return away ? said.number : 0;
}

/* Classes, most often good ones. */
static uint8_t load(stemline_replica *r) {
    uint8_t classes[STEMLINE_ITEMS + 1];
    for (size_t item = 0; item < sizeof classes; item++) {
        classes[item] = (uint8_t)(1 + any() % STEMLINE_CLASSES);
    }
    if (any() % 4 == 0) {
        classes[any() % STEMLINE_ITEMS] = (uint8_t)(any() % 2 * (STEMLINE_CLASSES + 1));
    }
    size_t length = STEMLINE_ITEMS - (any() % 8 == 0) + (any() % 8 == 0);
    uint8_t said = stemline_replica_load(r, classes, length);
    hold((said == 1) == (length != STEMLINE_ITEMS), "load: not 1");
    hold(said != 0 || memcmp(r->classes, classes, sizeof r->classes) == 0, "load: other classes");
    return said;
}

static uint8_t play(stemline_replica *r, enum call call) {
    uint32_t ticket = r->table[any() % STEMLINE_TABLE].ticket;
    uint32_t item = any() % (STEMLINE_ITEMS + 2);
    switch (call) {
    case MAKE: return make(r);
    case STATION: return make_station(r);
    case RESTART: return restart(r);
    case BEGIN: return stemline_replica_begin(r).number;
    case READ: return stemline_replica_read(r, ticket, item).number;
    case WRITE: return stemline_replica_write(r, ticket, item, 40);
    case ASK: return stemline_replica_ask(r, ticket).number;
    case WITHDRAW: return stemline_replica_withdraw(r, ticket);
    case REPORT: return stemline_replica_report(r).number;
    case SEND: return send(r);
    case DELIVER: return deliver(r);
    case LOAD: return load(r);
    case OUT: return stemline_replica_out(r, number(), number());
    case BACK: return stemline_replica_back(r, number(), number());
    case GIVER: return giver(r);
    case GIVE: return give(r);
    default: return work(r);
    }
}

int main(void) {
    static stemline_replica r, before;
    hold(stemline_replica_make(&r, 2, 0, start) == 0, "make: refused");
    hold(stemline_replica_send(&r, good) == 0, "send: refused");
    for (int round = 0; round < 4000; round++) {
        alter(&r);
        for (int call = 0; call < 30; call++) {
            enum call name = (enum call)(any() % CALLS);
            memcpy(&before, &r, sizeof r);
            uint8_t said = play(&r, name);
            given[name][said]++;
            bool station = before.group.own == STEMLINE_NO_NUMBER;
            bool only_reads = name == WRITE || name == SEND || name == GIVER || name == GIVE;
            hold((said == STEMLINE_STATION_ONLY_READS) == (station && only_reads), "not 25");
            hold(said != STEMLINE_NOT_SENT || !station, "19 at a station");
            hold(said == 0 || said == STEMLINE_STALE || same(&r, &before), names[name]);
            if (name == MAKE || name == STATION || name == RESTART) {
                memcpy(&r, &before, sizeof r);
            }
        }
    }
    for (int name = 0; name < CALLS; name++) {
        printf("%s", names[name]);
        for (int said = 0; said < 256; said++) {
            if (given[name][said] > 0) {
                printf(" %d:%u", said, given[name][said]);
            }
        }
        printf("\n");
    }
    return 0;
}
