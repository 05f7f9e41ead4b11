/* The steps of a journal at the disk, in the order of host/stemline/src/disk.rs. A part of
 * stemline_journal.c, which includes what it needs of the system. */
#ifndef STEMLINE_JOURNAL_DISK_H
#define STEMLINE_JOURNAL_DISK_H

#include "journal_head.h"

/* Says what went wrong; gives -1. */
static int fails(stemline_journal *j, const char *doing, const char *words, ...) {
    va_list more;
    int at = snprintf(j->why, sizeof j->why, "cannot %s the journal %s: ", doing, j->path);
    if (at > 0 && (size_t)at < sizeof j->why) {
        va_start(more, words);
        vsnprintf(j->why + at, sizeof j->why - (size_t)at, words, more);
        va_end(more);
    }
    return -1;
}

static off_t place(uint32_t slot) {
    return HEAD + (off_t)STEMLINE_BLOCK * slot;
}

/* Reads all of that, or fails; a shorter file is an error. */
static bool read_at(int file, void *bytes, size_t length, off_t at) {
    uint8_t *to = (uint8_t *)bytes;
    while (length > 0) {
        ssize_t count = pread(file, to, length, at);
        if (count < 0 && errno == EINTR) {
            continue;
        }
        if (count <= 0) {
            errno = count < 0 ? errno : EIO;
            return false;
        }
        to += count;
        at += count;
        length -= (size_t)count;
    }
    return true;
}

/* Writes all of that. A write may take a part; the next one then says why. */
static bool write_at(int file, const void *bytes, size_t length, off_t at) {
    const uint8_t *from = (const uint8_t *)bytes;
    while (length > 0) {
        ssize_t count = pwrite(file, from, length, at);
        if (count < 0 && errno == EINTR) {
            continue;
        }
        if (count <= 0) {
            errno = count < 0 ? errno : EIO;
            return false;
        }
        from += count;
        at += count;
        length -= (size_t)count;
    }
    return true;
}

/* The end of a journal's use: without what was appended since the last good fsync the
 * file is as a cut leaves it, and a copy of that is none. Where this fails too, there
 * is nothing more to do, and the error is told all the same. */
static int failed(stemline_journal *j, const char *doing) {
    int why = errno;
    if (ftruncate(j->file, place(j->kept)) == 0 && j->copied > 0 && j->kept < j->blocks) {
        (void)write_at(j->file, zeros, FRONT, j->copied);
    }
    stemline_journal_close(j);
    return fails(j, doing, "%s", strerror(why));
}

static int make_durable(stemline_journal *j) {
    if (fsync(j->file) != 0) {
        return failed(j, "sync");
    }
    j->kept = j->blocks;
    j->copied = 0;
    j->passed = false;
    return 0;
}

/* Opens a file or makes it, and locks it. A new one is durable once its folder is. Gives -1 where it cannot. */
static int open_file(stemline_journal *j, const char *path, const char *doing, struct stat *is) {
    int file = open(path, O_RDWR | O_CREAT | O_CLOEXEC, 0666);
    if (file < 0) {
        return fails(j, doing, "%s", strerror(errno));
    }
    if (flock(file, LOCK_EX | LOCK_NB) != 0) {
        fails(j, doing, "%s", errno == EWOULDBLOCK ? "it is open already" : strerror(errno));
    } else if (fstat(file, is) != 0) {
        fails(j, doing, "%s", strerror(errno));
    } else if (!S_ISREG(is->st_mode)) {
        fails(j, doing, "it is no file on a disk");
    } else {
        char folder[sizeof j->path];
        strcpy(folder, j->path);
        char *slash = strrchr(folder, '/');
        if (slash == NULL) {
            strcpy(folder, ".");
        } else {
            slash[slash == folder] = '\0';
        }
        int dir = open(folder, O_RDONLY | O_CLOEXEC);
        bool synced = dir >= 0 && fsync(dir) == 0;
        int why = errno;
        if (dir >= 0) {
            close(dir);
        }
        if (synced) {
            return file;
        }
        fails(j, doing, "its folder cannot be made durable: %s", strerror(why));
    }
    close(file);
    return -1;
}

/* Makes a file with this head and no blocks: first its length, then the head, each
 * durable before the next. */
static int make(stemline_journal *j, const uint8_t *head) {
    bool made = ftruncate(j->file, HEAD) == 0 && fsync(j->file) == 0
                && write_at(j->file, head, END, 0) && fsync(j->file) == 0;
    return made ? 0 : fails(j, "make", "%s", strerror(errno));
}

/* Writes the copy of a round, up to an own block or as far as it is, with the number of notices. */
static bool write_copy(
    stemline_journal *j, uint32_t first, uint32_t count, uint8_t (*blocks)[STEMLINE_BLOCK]) {
    uint8_t page[PAGE];
    size_t length = FRONT + STEMLINE_BLOCK * (size_t)count;
    put(page + 8, first, 4);
    put(page + 12, count, 1);
    put(page + 13, j->taken < 0xffffff ? j->taken : 0xffffff, 3);
    memcpy(page + FRONT, blocks, length - FRONT);
    put(page, digest(DIGEST_START, page + 8, length - 8), 8);
    j->copied = copy_place(j->n, j->own, first);
    return write_at(j->file, page, length, j->copied);
}

/* Makes all durable that was appended, and the number of notices, with a copy of the round so far. */
static int keep(stemline_journal *j) {
    if (!write_copy(j, j->blocks - j->since_count, j->since_count, j->since)) {
        return failed(j, "put a copy into");
    }
    return make_durable(j);
}

#endif
