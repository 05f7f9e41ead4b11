/* The head of a journal's file, and the copies in it: the bytes that
 * host/stemline/src/head.rs and round.rs tell. A part of stemline_journal.c. */
#ifndef STEMLINE_JOURNAL_HEAD_H
#define STEMLINE_JOURNAL_HEAD_H

#include <stdarg.h>
#include <stdio.h>

#include "stemline_journal.h"

enum {
    PAGE = 4096,
    NAMED = 32,
    STARTS = NAMED + STEMLINE_GROUP_NAME + 1,
    CHECK = STARTS + 4 * STEMLINE_ITEMS,
    END = CHECK + 8,
    PLAIN = 1,  /* the version of a file with no notices; STEMLINE_JOURNAL_VERSION is that of one with them */
    FRONT = 16, /* in front of the blocks of a copy */
    HEAD = STEMLINE_JOURNAL_HEAD
};

static const char mark[16] = "\x89stemline\r\n\x1a\n\0\0\xff";
static const uint8_t zeros[HEAD];

/* ---- Numbers and the digest */

static uint32_t number(const uint8_t *bytes) {
    return bytes[0] | (uint32_t)bytes[1] << 8 | (uint32_t)bytes[2] << 16 | (uint32_t)bytes[3] << 24;
}

static void put(uint8_t *bytes, uint64_t value, int count) {
    for (int k = 0; k < count; k++) {
        bytes[k] = (uint8_t)(value >> 8 * k);
    }
}

#define DIGEST_START UINT64_C(0x7374656d6c696e65)

/* Of so many bytes, a multiple of 8, behind others of which it was before. */
static uint64_t digest(uint64_t before, const uint8_t *bytes, size_t length) {
    for (size_t at = 0; at < length; at += 8) {
        uint64_t word = number(bytes + at) | (uint64_t)number(bytes + at + 4) << 32;
        before = (before ^ word) * UINT64_C(0x9e3779b97f4a7c15);
        before ^= before >> 32;
    }
    return before;
}

static bool is_zero(const uint8_t *bytes, size_t length) {
    size_t at = 0;
    while (at < length && bytes[at] == 0) {
        at++;
    }
    return at == length;
}

/* ---- The head */

static void put_head(
    uint8_t head[END], const char *group, uint32_t n, uint32_t own, const int32_t *start) {
    memset(head, 0, END);
    memcpy(head, mark, sizeof mark);
    put(head + 16, PLAIN, 4);
    put(head + 20, n, 4);
    put(head + 24, own, 4);
    put(head + 28, strlen(group), 4);
    memcpy(head + NAMED, group, strlen(group));
    for (int item = 0; item < STEMLINE_ITEMS; item++) {
        put(head + STARTS + 4 * item, (uint32_t)start[item], 4);
    }
    put(head + CHECK, digest(DIGEST_START, head, CHECK), 8);
}

/* The head of a journal with notices beside it, of the one without. */
static void put_noticed(uint8_t head[END], const uint8_t plain[END]) {
    memcpy(head, plain, END);
    put(head + 16, STEMLINE_JOURNAL_VERSION, 4);
    put(head + CHECK, digest(DIGEST_START, head, CHECK), 8);
}

/* Why a file has no head, or NULL. */
static const char *no_head(const uint8_t *front, size_t length, char words[128]) {
    if (length < sizeof mark || memcmp(front, mark, sizeof mark) != 0) {
        return "it is no journal, or of before there were heads: the mark is missing";
    }
    if (length < END) {
        return "it ends within its head";
    }
    if (number(front + 16) != PLAIN && number(front + 16) != STEMLINE_JOURNAL_VERSION) {
        snprintf(words, 128, "it is of version %lu, and this program knows the versions %d and %d",
                 (unsigned long)number(front + 16), PLAIN, STEMLINE_JOURNAL_VERSION);
        return words;
    }
    uint8_t check[8];
    put(check, digest(DIGEST_START, front, CHECK), 8);
    bool good = memcmp(front + CHECK, check, 8) == 0 && number(front + 28) <= STEMLINE_GROUP_NAME;
    return good ? NULL : "its head is damaged: the check does not match";
}

/* A name in quotes. */
static void quoted(char *to, const uint8_t *head) {
    uint32_t length = number(head + 28);
    *to++ = '"';
    for (uint32_t k = 0; k < length; k++) {
        if (head[NAMED + k] == '"' || head[NAMED + k] == '\\') {
            *to++ = '\\';
        }
        *to++ = (char)head[NAMED + k];
    }
    *to++ = '"';
    *to = '\0';
}

/* Adds one thing that differs to the words. */
static void differs(char *words, size_t size, const char *form, ...) {
    size_t at = strlen(words);
    va_list more;
    at += (size_t)snprintf(words + at, size - at, "%s", at > 0 ? "; " : "it is ");
    va_start(more, form);
    vsnprintf(words + at, size - at, form, more);
    va_end(more);
}

/* All that differs between two heads, in words; none where they are the same. */
static void compare_heads(const uint8_t *found, const uint8_t *due, char *words, size_t size) {
    unsigned long a = number(found + 20), b = number(due + 20);
    words[0] = '\0';
    if (a != b) {
        differs(words, size, "of %lu replicas, not of %lu", a, b);
    }
    a = number(found + 24);
    b = number(due + 24);
    if (a != b) {
        differs(words, size, "of replica %lu, not of %lu", a, b);
    }
    if (memcmp(found + 28, due + 28, STARTS - 28) != 0) {
        char name[2 * STEMLINE_GROUP_NAME + 3], other[2 * STEMLINE_GROUP_NAME + 3];
        quoted(name, found);
        quoted(other, due);
        differs(words, size, "of the group %s, not of %s", name, other);
    }
    for (int item = 0; item < STEMLINE_ITEMS; item++) {
        const uint8_t *value = found + STARTS + 4 * item, *other = due + STARTS + 4 * item;
        if (memcmp(value, other, 4) != 0) {
            differs(words, size, "of a start with %d = %ld, not %ld", item,
                    (long)(int32_t)number(value), (long)(int32_t)number(other));
            break;
        }
    }
}

/* Whether each byte of a head is that of one or of the other. */
static bool is_between(const uint8_t *head, const uint8_t *one, const uint8_t *other) {
    int at = 0;
    while (at < END && (head[at] == one[at] || head[at] == other[at])) {
        at++;
    }
    return at == END;
}

/* Whether the file is to be made: it is empty, or a cut left it while this head was put
 * there. Else it has this head, be it torn between its two versions, or the words say why it
 * is not to be touched. */
static bool is_new(
    const uint8_t *front, size_t read, uint64_t length, const uint8_t *due, char *words, size_t size) {
    char version[128];
    const char *why = no_head(front, read, version);
    words[0] = '\0';
    if (length < HEAD) {
        bool marked = read >= sizeof mark && memcmp(front, mark, sizeof mark) == 0;
        if (is_zero(front, read)) {
            return true;
        }
        why = marked ? "it ends within its head, and no cut of the power leaves that" : why;
    } else if (why == NULL) {
        compare_heads(front, due, words, size);
        return false;
    } else {
        uint8_t noticed[END];
        put_noticed(noticed, due);
        if (length == HEAD && is_between(front, zeros, due) && is_zero(front + END, HEAD - END)) {
            return true;
        }
        if (is_between(front, due, noticed)) {
            return false;
        }
    }
    snprintf(words, size, "%s", why);
    return false;
}

/* ---- What a cut tears */

/* The most bytes of it behind so many good blocks: those of the slots up to the next own one, which is
 * durable before anything follows. */
static long torn(uint32_t n, uint32_t own, uint32_t blocks) {
    return STEMLINE_BLOCK * (long)((own + n - stemline_owner(blocks, n)) % n + 1);
}

/* ---- The copies */

/* The blocks of consecutive slots behind an own one, up to the next own one at most; and the notices
 * taken by then. */
typedef struct copy {
    uint32_t first, count, notices;
    const uint8_t *blocks;
} copy;

/* Where the copy stands that begins with a slot: by turns. */
static long copy_place(uint32_t n, uint32_t own, uint32_t first) {
    return PAGE * (long)(1 + (first + n - 1 - own) / n % 2);
}

static bool good_block(const uint8_t *block, uint32_t n, uint32_t slot) {
    stemline_block_reply read = stemline_block_header(block, STEMLINE_BLOCK);
    return read.number == 0 && read.header.replicas == n && read.header.slot == slot;
}

static bool read_copy(const uint8_t *front, long at, uint32_t n, uint32_t own, copy *c) {
    const uint8_t *page = front + at;
    uint8_t check[8];
    c->first = number(page + 8);
    c->count = page[12];
    c->notices = number(page + 12) >> 8;
    c->blocks = page + FRONT;
    bool begins = c->first == 0 || (c->first <= STEMLINE_SLOTS && stemline_owner(c->first - 1, n) == own);
    if (!begins || c->count > (c->first == 0 ? own + 1 : n)) {
        return false;
    }
    put(check, digest(DIGEST_START, page + 8, FRONT - 8 + STEMLINE_BLOCK * (size_t)c->count), 8);
    bool good = memcmp(page, check, 8) == 0 && copy_place(n, own, c->first) == at;
    for (uint32_t k = 0; good && k < c->count; k++) {
        good = good_block(c->blocks + STEMLINE_BLOCK * (size_t)k, n, c->first + k);
    }
    return good;
}

#endif
