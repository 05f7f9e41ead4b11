/* Plays a list of calls at replicas in structs and prints the answers, both in the format of
 * model/src/replay.rs; each line is one that the format takes. There are three more:
 *
 *     L k n own slots tickets
 *     I k n slots tickets
 *     T k n own b
 *
 * L makes a replica whose item i starts with 10 * i - 600, as it is after so many slots and tickets, I such
 * a station; T restarts such a replica from the first b bytes of the journal and the notices taken.
 *
 * It stops where a refused call has changed something, where is_turn is not what a send answers, where
 * a take is not a deliver with its works, where a work leaves another window than with the block of its slot, and
 * where a giving is not its slots taken one by one. */
#include <inttypes.h>

#include "same.h"

#define PLACES 8
#define KEPT 64
#define JOURNAL (4096 * STEMLINE_BLOCK)
#define NOTICES 4096

typedef struct journal {
    uint8_t bytes[JOURNAL];
    size_t length;
    stemline_notice notices[NOTICES]; /* those taken */
    size_t taken;
} journal;

static stemline_replica replicas[PLACES];
static journal journals[PLACES];
static uint8_t kept[KEPT][STEMLINE_BLOCK];
static unsigned long sent;

static void show(const uint8_t block[STEMLINE_BLOCK]) {
    printf(" ");
    for (int i = 0; i < STEMLINE_BLOCK; i++) {
        printf("%02x", block[i]);
    }
}

static void append(journal *j, const uint8_t block[STEMLINE_BLOCK]) {
    hold(j->length < JOURNAL, "no room in a journal");
    memcpy(j->bytes + j->length, block, STEMLINE_BLOCK);
    j->length += STEMLINE_BLOCK;
}

/* Bytes of hexadecimal digits, at most so many; gives their number. */
static size_t bytes_of(const char *digits, uint8_t *bytes, size_t most) {
    size_t length = 0;
    while (length < most && sscanf(digits + 2 * length, "%2" SCNx8, &bytes[length]) == 1) {
        length++;
    }
    return length;
}

/* The values to start with: all the same, or as the tests' replicas have them. */
static void fill(int32_t start[STEMLINE_ITEMS], bool tests, int32_t value) {
    for (int item = 0; item < STEMLINE_ITEMS; item++) {
        start[item] = tests ? 10 * item - 600 : value;
    }
}

/* After a make. */
static void begin_journal(journal *j, uint8_t number) {
    if (number == 0) {
        j->length = j->taken = 0;
    }
}

/* make: with one value, or as the tests' replicas are */
static uint8_t make(stemline_replica *r, journal *j, char letter, const char *rest) {
    uint32_t n, own, slots = 0, tickets = 0;
    int32_t value = 0, start[STEMLINE_ITEMS];
    int fields = letter == 'M'
        ? sscanf(rest, "%" SCNu32 " %" SCNu32 " %" SCNd32, &n, &own, &value)
        : sscanf(rest, "%" SCNu32 " %" SCNu32 " %" SCNu32 " %" SCNu32, &n, &own, &slots, &tickets);
    hold(fields == (letter == 'M' ? 3 : 4), rest);
    fill(start, letter == 'L', value);
    uint8_t number = stemline_replica_make(r, n, own, start);
    r->turn.slot += slots;
    r->counts.tickets += tickets;
    r->counts.withdrawn += tickets;
    begin_journal(j, number);
    printf("%d", number);
    return number;
}

/* make a station: with one value, or as the tests' stations are */
static uint8_t make_station(stemline_replica *r, journal *j, char letter, const char *rest) {
    uint32_t n, slots = 0, tickets = 0;
    int32_t value = 0, start[STEMLINE_ITEMS];
    int fields = letter == 'A' ? sscanf(rest, "%" SCNu32 " %" SCNd32, &n, &value)
                               : sscanf(rest, "%" SCNu32 " %" SCNu32 " %" SCNu32, &n, &slots, &tickets);
    hold(fields == (letter == 'A' ? 2 : 3), rest);
    fill(start, letter == 'I', value);
    uint8_t number = stemline_replica_make_station(r, n, start);
    r->turn.slot += slots;
    r->counts.tickets += tickets;
    r->counts.withdrawn += tickets;
    begin_journal(j, number);
    printf("%d", number);
    return number;
}

/* restart: from the journal, with the same numbers or others, or from the line's bytes */
static uint8_t restart(stemline_replica *r, journal *j, char letter, const char *rest) {
    static uint8_t bytes[2100];
    uint32_t n = r->group.replicas, own = r->group.own, cut = 0;
    int32_t value = 0, start[STEMLINE_ITEMS];
    uint8_t block[STEMLINE_BLOCK];
    size_t length;
    if (letter == 'Y') {
        int at = 0;
        sscanf(rest, "%" SCNu32 " %" SCNu32 " %" SCNd32 "%n", &n, &own, &value, &at);
        hold(at > 0 && rest[at] == ' ', rest);
        length = bytes_of(rest + at + 1, bytes, sizeof bytes);
    } else {
        int fields = letter == 'Z' ? sscanf(rest, "%" SCNu32 " %" SCNd32, &cut, &value)
                                   : sscanf(rest, "%" SCNu32 " %" SCNu32 " %" SCNu32, &n, &own, &cut);
        hold(fields == (letter == 'Z' ? 2 : 3) && cut <= j->length, rest);
        length = cut;
    }
    fill(start, letter == 'T', value);
    /* exactly so many bytes, so that a read behind them is seen */
    uint8_t *lent = length > 0 ? (uint8_t *)malloc(length) : NULL;
    hold(length == 0 || lent != NULL, "no memory");
    if (length > 0) {
        memcpy(lent, letter == 'Y' ? bytes : j->bytes, length);
    }
    size_t count = letter == 'Y' ? 0 : j->taken;
    stemline_restart_reply reply =
        stemline_replica_restart(r, n, own, start, lent, length, j->notices, count, block);
    printf(reply.number ? "%d" : "%d %" PRIu32, reply.number, reply.count);
    if (reply.number == 0) {
        show(block);
        j->length = STEMLINE_BLOCK * (size_t)reply.count;
        j->taken = count;
        hold(j->length <= length, "restart: more blocks than there are");
        if (letter == 'Y') {
            memcpy(j->bytes, bytes, j->length);
        }
    }
    free(lent);
    return reply.number;
}

/* begin, read, write, ask, withdraw */
static uint8_t transaction(stemline_replica *r, char letter, const char *rest) {
    uint32_t ticket = 0, item = 0;
    int32_t value = 0;
    sscanf(rest, "%" SCNu32 " %" SCNu32 " %" SCNd32, &ticket, &item, &value);
    if (letter == 'B') {
        stemline_begin_reply reply = stemline_replica_begin(r);
        printf(reply.number ? "%d" : "%d %" PRIu32, reply.number, reply.ticket);
        return reply.number;
    }
    if (letter == 'R') {
        stemline_read_reply reply = stemline_replica_read(r, ticket, item);
        printf(reply.number ? "%d" : "%d %" PRId32, reply.number, reply.value);
        return reply.number;
    }
    if (letter == 'C') {
        stemline_ask_reply reply = stemline_replica_ask(r, ticket);
        printf(reply.number ? "%d" : "%d %d", reply.number, reply.read_only);
        return reply.number;
    }
    uint8_t number = letter == 'W' ? stemline_replica_write(r, ticket, item, value)
                                   : stemline_replica_withdraw(r, ticket);
    printf("%d", number);
    return number;
}

static uint8_t send(stemline_replica *r, journal *j) {
    uint8_t block[STEMLINE_BLOCK];
    bool is_turn = stemline_replica_is_turn(r);
    uint8_t number = stemline_replica_send(r, block);
    hold(is_turn == (number == 0), "is_turn: not what the send answers");
    printf("%d", number);
    if (number == 0) {
        show(block);
        memcpy(kept[sent++ % KEPT], block, sizeof block);
        append(j, block);
    }
    return number;
}

/* deliver: a kept block, one with a bit changed, or bytes */
static uint8_t deliver(stemline_replica *r, char letter, const char *rest) {
    uint8_t bytes[600];
    size_t length = STEMLINE_BLOCK;
    if (letter == 'H') {
        length = bytes_of(rest, bytes, sizeof bytes);
    } else {
        unsigned long i = 0;
        unsigned bit = 0;
        int fields = sscanf(rest, "%lu %u", &i, &bit);
        memcpy(bytes, kept[i % KEPT], STEMLINE_BLOCK);
        bytes[bit / 8] ^= (uint8_t)((fields == 2) << bit % 8);
    }
    hold_take(r, bytes, length);
    uint8_t number = stemline_replica_deliver(r, bytes, length);
    printf("%d", number);
    return number;
}

static uint8_t work(stemline_replica *r, journal *j) {
    stemline_work_reply w = hold_work(stemline_replica_work, r);
    /* a station has no journal */
    if (w.append && r->group.own != STEMLINE_NO_NUMBER) {
        append(j, stemline_window_block(r->window, r->turn.slot - 1));
    }
    printf("%d", w.number);
    if (w.number == 0) {
        printf(" %d %" PRIu32 " %d %d", w.sender, w.ticket, w.moved, w.count);
    }
    for (int i = 0; i < w.count; i++) {
        printf(" %" PRIu32, w.aborted[i]);
    }
    return w.number;
}

/* The window of a replica, block by block as over a line: with those of the slots from this one up to that, as far
 * as it has them. */
static void fetch(uint8_t window[STEMLINE_WINDOW], const stemline_replica *giver, uint32_t from, uint32_t to) {
    memset(window, 0, STEMLINE_WINDOW);
    for (uint32_t slot = to; slot > from && to - slot < STEMLINE_KEPT; slot--) {
        const uint8_t *block = stemline_window_block(giver->window, slot - 1);
        hold(block == NULL || stemline_window_put(window, slot - 1, block, STEMLINE_BLOCK), "no good block");
    }
}

/* A giving: the replica with number g stands at place g. Gives the number of one that was turned away. */
static uint8_t give(stemline_replica *r, journal *j, const char *rest) {
    static stemline_replica before;
    static uint8_t window[STEMLINE_WINDOW];
    uint32_t turns[STEMLINE_REPLICAS] = {0};
    size_t count = 0;
    for (int read; count < STEMLINE_REPLICAS && sscanf(rest, "%" SCNu32 "%n", &turns[count], &read) == 1; count++) {
        rest += read;
    }
    stemline_giver_reply g = stemline_replica_giver(r, turns, count);
    if (g.number == 0) {
        fetch(window, &replicas[g.giver], r->turn.slot, turns[g.giver]);
    }
    memcpy(&before, r, sizeof before);
    stemline_give_reply w = stemline_replica_give(r, turns, count, window);
    hold(w.giver == g.giver && (g.number == 0 || w.number == g.number), "give: another giver");
    if (g.number == 0 && w.number != STEMLINE_WINDOW_LACKS) {
        hold_give(&before, r, window, &w);
    }
    /* what the journal lacks is from its end on up to the turn; with the sent mark on it has the turn's block */
    for (uint32_t slot = before.turn.slot + (before.turn.sent != 0); slot < r->turn.slot; slot++) {
        append(j, stemline_window_block(r->window, slot));
    }
    printf("%d", w.number);
    if (g.number == 0) {
        printf(" %d", w.giver);
    }
    if (g.number != 0 || w.number == STEMLINE_WINDOW_LACKS) {
        return w.number;
    }
    printf(" %d", w.count);
    for (int i = 0; i < w.count; i++) {
        printf(" %" PRIu32, w.aborted[i]);
    }
    return 0;
}

static uint8_t load(stemline_replica *r, const char *rest) {
    uint8_t classes[130];
    size_t length = bytes_of(rest, classes, sizeof classes);
    uint8_t number = stemline_replica_load(r, classes, length);
    printf("%d", number);
    return number;
}

/* out, back */
static uint8_t notice(stemline_replica *r, journal *j, char letter, const char *rest) {
    stemline_notice n = {0, letter == 'O', 0};
    hold(sscanf(rest, "%" SCNu32 " %" SCNu32, &n.replica, &n.slot) == 2, rest);
    uint8_t number = n.out ? stemline_replica_out(r, n.replica, n.slot) : stemline_replica_back(r, n.replica, n.slot);
    if (number == 0) {
        hold(j->taken < NOTICES, "no room for a notice");
        j->notices[j->taken++] = n;
    }
    printf("%d", number);
    return number;
}

static uint8_t report(const stemline_replica *r) {
    stemline_report_reply reply = stemline_replica_report(r);
    const stemline_report_values *v = &reply.report;
    const uint32_t said[] = {v->turn, v->commits, v->tickets, v->open_count,
                             v->committed, v->read_only, v->aborted, v->withdrawn};
    printf("%d", reply.number);
    for (int i = 0; i < 8; i++) {
        printf(" %" PRIu32, said[i]);
    }
    return reply.number;
}

static uint8_t values(const stemline_replica *r) {
    printf("0");
    for (int item = 0; item < STEMLINE_ITEMS; item++) {
        printf(" %" PRId32, r->values[item]);
    }
    return 0;
}

static uint8_t block_of(const journal *j, const char *rest) {
    size_t i = 0;
    hold(sscanf(rest, "%zu", &i) == 1 && STEMLINE_BLOCK * (i + 1) <= j->length, rest);
    printf("0");
    show(j->bytes + STEMLINE_BLOCK * i);
    return 0;
}

static uint8_t play(stemline_replica *r, journal *j, char letter, const char *rest) {
    switch (letter) {
    case 'M': case 'L': return make(r, j, letter, rest);
    case 'A': case 'I': return make_station(r, j, letter, rest);
    case 'Z': case 'Y': case 'T': return restart(r, j, letter, rest);
    case 'J': return block_of(j, rest);
    case 'B': case 'R': case 'W': case 'C': case 'X': return transaction(r, letter, rest);
    case 'Q': return report(r);
    case 'S': return send(r, j);
    case 'D': case 'F': case 'H': return deliver(r, letter, rest);
    case 'K': return work(r, j);
    case 'G': return give(r, j, rest);
    case 'P': return load(r, rest);
    case 'O': case 'U': return notice(r, j, letter, rest);
    default: return values(r);
    }
}

int main(void) {
    static char line[4400];
    static stemline_replica before;
    while (fgets(line, sizeof line, stdin) != NULL) {
        int place = (line[2] - '0') % PLACES;
        stemline_replica *r = &replicas[place];
        memcpy(&before, r, sizeof before);
        uint8_t number = play(r, &journals[place], line[0], line + 4);
        printf("\n");
        hold(number == 0 || number == STEMLINE_STALE || same(r, &before), line);
    }
    return 0;
}
