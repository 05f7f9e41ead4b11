/* A replica's journal in a file: see stemline_journal.h. Compile it with the program;
 * it includes journal_head.h, journal_disk.h, journal_notices.h and journal_outcome.h, beside
 * it. The steps are those of host/stemline/src/journal.rs. */
#define _DEFAULT_SOURCE /* flock */
#define _DARWIN_C_SOURCE
#define _FILE_OFFSET_BITS 64
#define _POSIX_C_SOURCE 200809L
#include "stemline_journal.h"

#include <errno.h>
#include <fcntl.h>
#include <stdarg.h>
#include <stdio.h>
#include <stdlib.h>
#include <sys/file.h>
#include <sys/mman.h>
#include <sys/stat.h>
#include <unistd.h>

#include "journal_head.h"
#include "journal_disk.h"
#include "journal_notices.h"
#include "journal_outcome.h"

/* What the good blocks of a file amount to. */
typedef struct tally {
    uint32_t turn;
    notices notices;
    uint32_t round_count;                                 /* the blocks up to the last own slot, */
    uint8_t round[STEMLINE_REPLICAS][STEMLINE_BLOCK];     /* from behind the one before */
    uint32_t mended_count;
    uint32_t mended[2 * STEMLINE_REPLICAS];               /* slots that are taken from the copies */
    const uint8_t *mended_with[2 * STEMLINE_REPLICAS];
    char stop[128];                                       /* why they stop */
} tally;

/* ---- The blocks of a file */

/* A block that stands behind all before. */
static void note(stemline_journal *j, const uint8_t *block) {
    stemline_header_values header = stemline_block_header(block, STEMLINE_BLOCK).header;
    stemline_digest d = j->digests[j->blocks % STEMLINE_DIGESTS];
    memcpy(j->since[j->since_count++], block, STEMLINE_BLOCK);
    j->blocks++;
    d.turn = j->blocks;
    d.commits += header.count;
    d.digest = header.count > 0 ? digest(d.digest, block, STEMLINE_BLOCK) : d.digest;
    j->digests[j->blocks % STEMLINE_DIGESTS] = d;
}

/* A block of the file: the round is over with an own one. */
static void add(stemline_journal *j, tally *t, const uint8_t *block) {
    note(j, block);
    t->turn++;
    if (stemline_owner(t->turn - 1, j->n) == j->own) {
        memcpy(t->round, j->since, sizeof t->round);
        t->round_count = j->since_count;
        j->since_count = 0;
    }
}

/* Adds the good blocks of the file from the turn on. Gives false where it cannot be read. */
static bool add_good(stemline_journal *j, tally *t, off_t length) {
    static const size_t most = 128 * STEMLINE_BLOCK;
    uint8_t *bytes = (uint8_t *)malloc(most);
    bool good = bytes != NULL, goes = good;
    while (goes) {
        off_t left = length - place(t->turn);
        size_t count = left <= 0 ? 0 : left < (off_t)most ? (size_t)left : most;
        good = read_at(j->file, bytes, count, place(t->turn));
        strcpy(t->stop, "nothing is behind it");
        for (size_t at = 0; good && goes; at += STEMLINE_BLOCK) {
            const uint8_t *block = bytes + at;
            stemline_block_reply read;
            if (count - at < STEMLINE_BLOCK) {
                if (count > at && count < most) {
                    sprintf(t->stop, "the block is torn: %d of 512 bytes", (int)(count - at));
                }
                goes = count == most;
                break;
            }
            read = stemline_block_header(block, STEMLINE_BLOCK);
            if (read.number != 0) {
                sprintf(t->stop, "%s (%d)", stemline_words(read.number), read.number);
            } else if (read.header.replicas != j->n) {
                sprintf(t->stop, "the block is of a group of %d, the journal of one of %d",
                        read.header.replicas, (int)j->n);
            } else if (read.header.slot != t->turn) {
                sprintf(t->stop, "the block is of slot %lu, in the place of slot %lu",
                        (unsigned long)read.header.slot, (unsigned long)t->turn);
            } else {
                add(j, t, block);
                continue;
            }
            goes = false;
        }
        goes = goes && good;
    }
    free(bytes);
    return good;
}

/* Reads the blocks of the file, with those that the copies mend. */
static int look(stemline_journal *j, tally *t, const uint8_t *front, off_t length) {
    copy copies[2];
    uint32_t count = 0;
    for (long at = PAGE; at < HEAD; at += PAGE) {
        count += read_copy(front, at, j->n, j->own, &copies[count]);
    }
    for (bool goes = true; goes;) {
        if (!add_good(j, t, length)) {
            return fails(j, "read", "%s", strerror(errno));
        }
        goes = false;
        for (uint32_t k = 0; k < count && !goes; k++) {
            const copy *c = &copies[k];
            while (t->turn >= c->first && t->turn - c->first < c->count) {
                const uint8_t *block = c->blocks + STEMLINE_BLOCK * (size_t)(t->turn - c->first);
                t->mended[t->mended_count] = t->turn;
                t->mended_with[t->mended_count++] = block;
                add(j, t, block);
                goes = true;
            }
        }
    }
    uint32_t counted = 0;
    for (uint32_t k = 0; k < count; k++) {
        uint32_t end = copies[k].first + copies[k].count;
        if (end > t->turn) {
            const char *sent = "the own block of slot %lu behind it was perhaps handed out";
            const char *passed = "slot %lu behind it was passed as out, or a notice taken there";
            char words[128];
            snprintf(words, sizeof words, stemline_owner(end - 1, j->n) == j->own ? sent : passed,
                     (unsigned long)(end - 1));
            return fails(j, "take up", "its block %lu is damaged, and %s: %s", (unsigned long)t->turn, words,
                         t->stop);
        }
        counted = copies[k].notices > counted ? copies[k].notices : counted;
    }
    if (lacks_no_notice(j, &t->notices, counted) != 0) {
        return -1;
    }
    if (length - place(t->turn) > torn(j->n, j->own, t->turn)) {
        return fails(j, "take up",
                     "its block %lu is damaged, and more than a cut can tear is behind it: %s",
                     (unsigned long)t->turn, t->stop);
    }
    return 0;
}

/* Restarts the replica from all that the file has, which is mapped meanwhile. */
static int restart(
    stemline_journal *j, stemline_replica *r, const int32_t *start, off_t length, const notices *taken,
    uint8_t *last) {
    if ((off_t)(size_t)length != length) {
        return fails(j, "lend", "%s", strerror(EFBIG));
    }
    void *map = mmap(NULL, (size_t)length, PROT_READ, MAP_SHARED, j->file, 0);
    if (map == MAP_FAILED) {
        return fails(j, "lend", "%s", strerror(errno));
    }
    stemline_restart_reply reply = stemline_replica_restart(
        r, j->n, j->own, start, (const uint8_t *)map + HEAD, (size_t)length - HEAD, taken->all, j->taken,
        last);
    munmap(map, (size_t)length);
    return reply.number == 0 && reply.count == j->blocks
               ? 0
               : fails(j, "take up", "a restart does not take up the blocks that are read");
}

/* Cuts off what is behind the good blocks and makes the rest durable. What was read may
 * be in the system's memory alone, and count there as written: the last notice and the blocks
 * since the own one before the last are written once more, and the copy; where notices were
 * taken, also the head, and a copy of the blocks behind the last own one. */
static int take_up(stemline_journal *j, tally *t, const uint8_t *plain, bool noticed) {
    uint32_t first = j->blocks - j->since_count - t->round_count;
    if (noticed && renew_notices(j, &t->notices, "renew the notices of", false) != 0) {
        return -1;
    }
    if (noticed && !write_noticed(j, plain)) {
        return failed(j, "renew the head of");
    }
    bool done = ftruncate(j->file, place(j->blocks)) == 0
                && write_at(j->file, t->round, STEMLINE_BLOCK * (size_t)t->round_count, place(first))
                && write_at(j->file, j->since, STEMLINE_BLOCK * (size_t)j->since_count,
                            place(first + t->round_count))
                && (t->round_count == 0 || write_copy(j, first, t->round_count, t->round));
    if (!done) {
        return failed(j, "renew the end of");
    }
    return noticed ? keep(j) : make_durable(j);
}

static int open_with(
    stemline_journal *j, stemline_replica *r, const char *group, const int32_t *start,
    stemline_reopened *found, uint8_t *front, tally *t) {
    struct stat is;
    uint8_t due[END], any[END];
    put_head(due, group, j->n, j->own, start);
    put_head(any, group, j->n, 0, start);
    j->file = open_file(j, j->path, "open", &is);
    if (j->file < 0) {
        return -1;
    }
    off_t length = is.st_size;
    size_t read = length < HEAD ? (size_t)length : HEAD;
    if (!read_at(j->file, front, read, 0)) {
        return fails(j, "read", "%s", strerror(errno));
    }
    char words[1400];
    bool new_file = is_new(front, read, (uint64_t)length, due, words, sizeof words);
    if (words[0] != '\0') {
        return fails(j, "take up", "%s", words);
    }
    /* a head that is torn between its versions is of the later one */
    bool noticed = !new_file && memcmp(front, due, END) != 0;
    if (read_notices(j, &t->notices, due, noticed) != 0) {
        return -1;
    }
    if (new_file) {
        if (make(j, due) != 0) {
            return -1;
        }
        memset(front, 0, HEAD);
        length = HEAD;
    }
    j->digests[0].digest = digest(DIGEST_START, any, CHECK);
    if (look(j, t, front, length) != 0) {
        return -1;
    }
    j->kept = j->blocks;
    off_t end = length;
    for (uint32_t k = 0; k < t->mended_count; k++) {
        off_t at = place(t->mended[k]);
        if (!write_at(j->file, t->mended_with[k], STEMLINE_BLOCK, at)) {
            return fails(j, "mend", "%s", strerror(errno));
        }
        end = end < at + STEMLINE_BLOCK ? at + STEMLINE_BLOCK : end;
    }
    if (restart(j, r, start, end, &t->notices, found->last) != 0 || take_up(j, t, due, noticed) != 0) {
        return -1;
    }
    found->blocks = j->blocks;
    found->notices = j->taken;
    found->mended = t->mended_count;
    found->cut = length > place(j->blocks) ? (uint64_t)(length - place(j->blocks)) : 0;
    strcpy(found->cut_why, t->stop);
    return 0;
}

/* ---- What the header declares */

int stemline_journal_open(
    stemline_journal *j, stemline_replica *r, const char *path, const char *group,
    uint32_t n, uint32_t own, const int32_t start[STEMLINE_ITEMS], stemline_reopened *found) {
    memset(j, 0, sizeof *j);
    memset(found, 0, sizeof *found);
    j->file = -1;
    j->notices = -1;
    j->n = n;
    j->own = own;
    j->outages.replicas = (uint8_t)n;
    if (strlen(path) >= sizeof j->path) {
        strcpy(j->path, "(a path that is too long)");
        return fails(j, "open", "%s", strerror(ENAMETOOLONG));
    }
    strcpy(j->path, path);
    size_t name = strlen(group);
    if (name == 0) {
        return fails(j, "open", "the group has no name");
    }
    if (name > STEMLINE_GROUP_NAME) {
        return fails(j, "open", "the group's name has more than 255 bytes");
    }
    for (size_t k = 0; k < name; k++) {
        if ((unsigned char)group[k] < 32 || group[k] == 127) {
            return fails(j, "open", "the group's name has a control character");
        }
    }
    if (stemline_replica_make(r, n, own, start) != 0) {
        return fails(j, "open", "%s", stemline_words(STEMLINE_OUT_OF_RANGE));
    }
    uint8_t *front = (uint8_t *)calloc(1, HEAD);
    tally *t = (tally *)calloc(1, sizeof *t);
    int opened = front != NULL && t != NULL ? open_with(j, r, group, start, found, front, t)
                                            : fails(j, "open", "%s", strerror(ENOMEM));
    if (t != NULL) {
        free(t->notices.all);
    }
    free(t);
    free(front);
    if (opened != 0) {
        stemline_journal_close(j);
    }
    return opened;
}

/* Puts a block behind all others. */
static int append(stemline_journal *j, const uint8_t *block) {
    if (j->file < 0) {
        return fails(j, "go on with", "it failed before; open it anew");
    }
    if (!good_block(block, j->n, j->blocks)) {
        return fails(j, "append to", "it is to get the block of slot %lu next", (unsigned long)j->blocks);
    }
    if (!write_at(j->file, block, STEMLINE_BLOCK, place(j->blocks))) {
        return failed(j, "append to");
    }
    note(j, block);
    return 0;
}

int stemline_journal_append(stemline_journal *j, const stemline_replica *r) {
    if (j->file < 0) {
        return fails(j, "go on with", "it failed before; open it anew");
    }
    int done = 0;
    while (done == 0 && j->blocks < r->turn.slot) {
        uint32_t slot = j->blocks;
        const uint8_t *block = stemline_window_block(r->window, slot);
        if (block == NULL) {
            return fails(j, "append to", "the window lacks slot %lu", (unsigned long)slot);
        }
        if (stemline_owner(slot, j->n) == j->own) {
            done = stemline_journal_send(j, block); /* of a slot that is out */
        } else {
            done = append(j, block);
            j->passed = j->passed || stemline_is_out(&j->outages, slot);
        }
    }
    return done == 0 && j->passed ? keep(j) : done;
}

int stemline_journal_send(stemline_journal *j, const uint8_t block[STEMLINE_BLOCK]) {
    if (append(j, block) != 0) {
        return -1;
    }
    uint32_t count = j->since_count;
    j->since_count = 0;
    if (!write_copy(j, j->blocks - count, count, j->since)) {
        return failed(j, "put a copy into");
    }
    return make_durable(j);
}

bool stemline_journal_digest(const stemline_journal *j, uint32_t turn, stemline_digest *digest) {
    *digest = j->digests[turn % STEMLINE_DIGESTS];
    return digest->turn == turn && turn <= j->blocks;
}

void stemline_journal_close(stemline_journal *j) {
    int files[] = {j->notices, j->file};
    for (int k = 0; k < 2; k++) {
        if (files[k] >= 0) {
            (void)flock(files[k], LOCK_UN);
            close(files[k]);
        }
    }
    j->file = j->notices = -1;
}
