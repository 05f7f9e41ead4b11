/* A replica with its journal and notices in files, by lines on standard input:
 *
 *     open PATH N OWN, send, take HEX, work, out R S, back R S, give T0 T1 .. COUNT HEX .., slot HEX
 *
 * A giving is told N turns, and lent a window of so many blocks; slot takes the turn's slot with a block. Each prints
 * its number, a send its block too. It ends where the disk fails, and says why. */
#include <inttypes.h>
#include <stdio.h>
#include <stdlib.h>

#include "stemline_journal.h"

static stemline_replica r;
static stemline_journal j;

/* Ends the program where the journal has failed. */
static void kept(int done) {
    if (done != 0) {
        printf("%s\n", j.why);
        exit(1);
    }
}

static void say(uint8_t number) {
    printf("%d\n", number);
}

static void show(const uint8_t block[STEMLINE_BLOCK]) {
    printf("0 ");
    for (int k = 0; k < STEMLINE_BLOCK; k++) {
        printf("%02x", block[k]);
    }
    printf("\n");
}

static void reopen(void) {
    static const int32_t start[STEMLINE_ITEMS];
    static stemline_reopened found;
    static char path[512];
    unsigned n = 0, own = 0;
    if (scanf("%511s %u %u", path, &n, &own) == 3) {
        stemline_journal_close(&j);
        kept(stemline_journal_open(&j, &r, path, "grotesque", n, own, start, &found));
        say(0);
    }
}

static void send_block(void) {
    uint8_t block[STEMLINE_BLOCK];
    uint8_t number = stemline_replica_send(&r, block);
    if (number != 0) {
        say(number);
        return;
    }
    kept(stemline_journal_send(&j, block));
    show(block);
}

static void read_block(uint8_t block[STEMLINE_BLOCK]) {
    static char digits[2 * STEMLINE_BLOCK + 1];
    unsigned byte;
    memset(block, 0, STEMLINE_BLOCK);
    if (scanf("%1024s", digits) != 1) {
        return;
    }
    for (int k = 0; k < STEMLINE_BLOCK && sscanf(digits + 2 * k, "%2x", &byte) == 1; k++) {
        block[k] = (uint8_t)byte;
    }
}

static void take_block(bool slot) {
    uint8_t block[STEMLINE_BLOCK];
    read_block(block);
    stemline_take_reply taken = slot ? stemline_replica_take_slot(&r, block, sizeof block)
                                     : stemline_replica_take(&r, block, sizeof block);
    kept(stemline_journal_append(&j, &r));
    say(taken.number);
}

static void give(void) {
    static uint8_t window[STEMLINE_WINDOW];
    uint8_t block[STEMLINE_BLOCK];
    uint32_t turns[STEMLINE_REPLICAS] = {0}, count = 0;
    memset(window, 0, sizeof window);
    for (uint32_t k = 0; k <= j.n; k++) {
        kept(scanf("%" SCNu32, k < j.n ? &turns[k] : &count) == 1 ? 0 : -1);
    }
    while (count-- > 0) {
        read_block(block);
        uint32_t slot = stemline_block_header(block, sizeof block).header.slot;
        kept(stemline_window_put(window, slot, block, sizeof block) ? 0 : -1);
    }
    stemline_give_reply given = stemline_replica_give(&r, turns, j.n, window);
    kept(stemline_journal_append(&j, &r));
    say(given.number);
}

static void work(void) {
    stemline_work_reply worked = stemline_replica_work(&r);
    kept(stemline_journal_append(&j, &r));
    say(worked.number);
}

static void notice(uint32_t out) {
    unsigned replica = 0, slot = 0;
    if (scanf("%u %u", &replica, &slot) != 2) {
        return;
    }
    stemline_notice taken = {replica, out, slot};
    uint8_t number = out ? stemline_replica_out(&r, replica, slot) : stemline_replica_back(&r, replica, slot);
    if (number == 0) {
        kept(stemline_journal_notice(&j, &taken));
    }
    say(number);
}

int main(void) {
    char verb[8];
    j.file = j.notices = -1;
    setvbuf(stdout, NULL, _IOLBF, 1 << 12);
    while (scanf("%7s", verb) == 1) {
        switch (verb[0]) {
        case 's':
            if (verb[1] == 'e') {
                send_block();
            } else {
                take_block(true);
            }
            break;
        case 't': take_block(false); break;
        case 'g': give(); break;
        case 'w': work(); break;
        case 'b': notice(0); break;
        default:
            if (verb[1] == 'u') {
                notice(1);
            } else {
                reopen();
            }
        }
    }
    return 0;
}
