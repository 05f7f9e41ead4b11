/* The notices beside a journal, in a file of their own: the bytes and steps that
 * host/stemline/src/notices.rs tells. A part of stemline_journal.c. */
#ifndef STEMLINE_JOURNAL_NOTICES_H
#define STEMLINE_JOURNAL_NOTICES_H

#include "journal_disk.h"

enum { NOTICES_FRONT = 32, NOTICE = 24 };

/* What is read of them. */
typedef struct notices {
    stemline_notice *all;
    uint32_t blocks;      /* that the journal had at the last of them */
    uint8_t last[NOTICE]; /* its bytes */
    uint8_t front[NOTICES_FRONT];
} notices;

/* Where they are. */
static void notices_path(const stemline_journal *j, char path[sizeof j->path + 8]) {
    strcpy(path, j->path);
    strcat(path, ".notices");
}

/* What a file of notices begins with, beside the journal with this head of version 1. */
static void put_notices_front(uint8_t front[NOTICES_FRONT], const uint8_t *plain) {
    memcpy(front, "\x89stemline\r\n\x1a\n\0\x01\xff", 16);
    memcpy(front + 16, plain + CHECK, 8);
    put(front + 24, digest(DIGEST_START, front, 24), 8);
}

/* Puts a notice in force, behind all others. */
static void put_notice(stemline_journal *j, const stemline_notice *notice) {
    if (notice->replica < STEMLINE_REPLICAS) {
        if (notice->out != 0) {
            j->outages.from[notice->replica] = notice->slot;
        }
        j->outages.until[notice->replica] = notice->out != 0 ? STEMLINE_SLOTS : notice->slot;
    }
    j->taken++;
}

static off_t notice_place(uint32_t at) {
    return NOTICES_FRONT + (off_t)NOTICE * at;
}

/* Takes those of a file that are whole. Gives in words what is wrong with it, or NULL. */
static const char *take_notices(
    stemline_journal *j, notices *found, const uint8_t *file, size_t length, char words[128]) {
    if (length < NOTICES_FRONT) {
        return " ends within its front";
    }
    if (memcmp(file, found->front, NOTICES_FRONT) != 0) {
        uint8_t check[8];
        put(check, digest(DIGEST_START, file, 24), 8);
        bool good = memcmp(file, found->front, 16) == 0 && memcmp(file + 24, check, 8) == 0;
        return good ? " is of another replica, group or start" : " does not begin as notices do";
    }
    j->notices_digest = number(file + 24) | (uint64_t)number(file + 28) << 32;
    file += NOTICES_FRONT;
    length -= NOTICES_FRONT;
    for (; length >= NOTICE; file += NOTICE, length -= NOTICE) {
        uint8_t check[8];
        stemline_notice notice = {number(file), number(file + 4), number(file + 8)};
        uint64_t now = digest(j->notices_digest, file, 16);
        put(check, now, 8);
        if (notice.out > 1 || memcmp(file + 16, check, 8) != 0) {
            break;
        }
        found->all[j->taken] = notice;
        found->blocks = number(file + 12);
        memcpy(found->last, file, NOTICE);
        j->notices_digest = now;
        put_notice(j, &notice);
    }
    if (length > NOTICE) {
        snprintf(words, 128, " has %lu that are whole, and more than a cut can tear behind them",
                 (unsigned long)j->taken);
        return words;
    }
    return NULL;
}

/* Reads a file of notices, or gives NULL with errno. */
static uint8_t *read_notices_file(const char *path, size_t *length) {
    struct stat is;
    uint8_t *bytes = NULL;
    int file = open(path, O_RDONLY | O_CLOEXEC);
    if (file >= 0 && fstat(file, &is) == 0) {
        *length = (size_t)is.st_size;
        bytes = (uint8_t *)malloc(*length + 1);
        if (bytes != NULL && !read_at(file, bytes, *length, 0)) {
            free(bytes);
            bytes = NULL;
        }
    }
    int why = errno;
    if (file >= 0) {
        close(file);
    }
    errno = why;
    return bytes;
}

/* Reads the notices beside the journal with this head of version 1, of which the file's head says whether there
 * are any. */
static int read_notices(stemline_journal *j, notices *found, const uint8_t *plain, bool noticed) {
    char path[sizeof j->path + 8], words[128];
    size_t length = 0;
    notices_path(j, path);
    put_notices_front(found->front, plain);
    uint8_t *file = read_notices_file(path, &length);
    if (file == NULL && errno != ENOENT) {
        return fails(j, "read the notices of", "%s", strerror(errno));
    }
    int done = 0;
    if (file == NULL) {
        done = noticed ? fails(j, "take up", "its notices are lost: %s is missing", path) : 0;
    } else if (!noticed) {
        /* a cut before the first notice leaves no more than a front */
        size_t at = 0;
        while (at < length && at < NOTICES_FRONT && (file[at] == 0 || file[at] == found->front[at])) {
            at++;
        }
        if (at < length) {
            done = fails(j, "take up",
                         "it has taken no notices, and %s beside it is there: of another run, or of a journal "
                         "that is lost", path);
        }
    } else {
        found->all = (stemline_notice *)malloc((length / NOTICE + 1) * sizeof *found->all);
        const char *why = found->all == NULL ? strerror(ENOMEM) : take_notices(j, found, file, length, words);
        done = why == NULL ? 0 : fails(j, "take up", "its notices are damaged: %s%s", path, why);
    }
    free(file);
    return done;
}

/* That a journal with so many blocks, whose copies count so many notices, has all. */
static int lacks_no_notice(stemline_journal *j, const notices *found, uint32_t counted) {
    char path[sizeof j->path + 8];
    notices_path(j, path);
    if (counted > j->taken) {
        return fails(j, "take up", "its notices are lost: %lu were taken, and %s has %lu",
                     (unsigned long)counted, path, (unsigned long)j->taken);
    }
    if (found->blocks > j->blocks) {
        return fails(j, "take up",
                     "its block %lu is damaged or lost, and it had %lu when notice %lu was taken",
                     (unsigned long)j->blocks, (unsigned long)found->blocks, (unsigned long)j->taken);
    }
    return 0;
}

/* Opens their file and makes it durable up to its end: with the front alone, or with the last notice once more,
 * since that may be in the system's memory alone. What is torn behind is cut off. */
static int renew_notices(stemline_journal *j, const notices *found, const char *doing, bool begun) {
    struct stat is;
    char path[sizeof j->path + 8];
    const uint8_t *last = j->taken == 0 ? found->front : found->last;
    off_t end = notice_place(j->taken);
    size_t length = j->taken == 0 ? NOTICES_FRONT : NOTICE;
    notices_path(j, path);
    j->notices = open_file(j, path, doing, &is);
    if (j->notices < 0) {
        stemline_journal_close(j);
        return -1;
    }
    bool done = (begun || ftruncate(j->notices, end) == 0)
                && write_at(j->notices, last, length, end - (off_t)length) && fsync(j->notices) == 0;
    return done ? 0 : failed(j, doing);
}

/* Puts the journal's head of the version with notices into its file. */
static bool write_noticed(stemline_journal *j, const uint8_t *plain) {
    uint8_t head[END];
    put_noticed(head, plain);
    return write_at(j->file, head, END, 0);
}

/* Before the first notice: the front of their file, then the head, each durable before the next. */
static int begin_notices(stemline_journal *j) {
    uint8_t plain[END];
    notices none;
    memset(&none, 0, sizeof none);
    if (!read_at(j->file, plain, END, 0)) {
        return failed(j, "read");
    }
    put_notices_front(none.front, plain);
    j->notices_digest = number(none.front + 24) | (uint64_t)number(none.front + 28) << 32;
    if (renew_notices(j, &none, "make the notices of", true) != 0) {
        return -1;
    }
    return write_noticed(j, plain) ? make_durable(j) : failed(j, "renew the head of");
}

/* Puts a notice behind all others. */
static int append_notice(stemline_journal *j, const stemline_notice *notice) {
    uint8_t record[NOTICE];
    off_t end = notice_place(j->taken);
    put(record, notice->replica, 4);
    put(record + 4, notice->out != 0, 4);
    put(record + 8, notice->slot, 4);
    put(record + 12, j->blocks, 4);
    uint64_t now = digest(j->notices_digest, record, 16);
    put(record + 16, now, 8);
    if (!write_at(j->notices, record, NOTICE, end) || fsync(j->notices) != 0) {
        int why = errno;
        (void)!ftruncate(j->notices, end);
        errno = why;
        return failed(j, "put a notice beside");
    }
    j->notices_digest = now;
    put_notice(j, notice);
    return 0;
}

/* ---- What the header declares */

int stemline_journal_notice(stemline_journal *j, const stemline_notice *notice) {
    if (j->file < 0) {
        return fails(j, "go on with", "it failed before; open it anew");
    }
    if ((j->kept < j->blocks && keep(j) != 0) || (j->notices < 0 && begin_notices(j) != 0)
        || append_notice(j, notice) != 0) {
        return -1;
    }
    return keep(j);
}

int stemline_journal_taken(stemline_journal *j, uint32_t at, stemline_notice *notice) {
    uint8_t record[NOTICE];
    if (j->file < 0) {
        return fails(j, "go on with", "it failed before; open it anew");
    }
    if (at >= j->taken) {
        return fails(j, "look at the notices of", "there are %lu", (unsigned long)j->taken);
    }
    if (!read_at(j->notices, record, NOTICE, notice_place(at))) {
        return fails(j, "read the notices of", "%s", strerror(errno));
    }
    notice->replica = number(record);
    notice->out = number(record + 4);
    notice->slot = number(record + 8);
    return 0;
}

#endif
