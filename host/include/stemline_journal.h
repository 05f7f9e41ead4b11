/* A replica's journal in a file, for C99 and later, and for C++, on Unix.
 *
 * Compile host/source/stemline_journal.c with the program. The files are those of
 * Durable in Rust: what one has written the other opens.
 *
 *     stemline_replica r;
 *     stemline_journal j;
 *     stemline_reopened found;
 *     if (stemline_journal_open(&j, &r, path, "grotesque", 3, 0, start, &found) != 0) {
 *         fprintf(stderr, "%s\n", j.why);     the file is left as it is
 *     }
 *
 * Of a file that is open holds: nothing is handed out that was not made durable.
 *
 * - open: takes up what is there, cuts off what a cut of the power tore, puts back
 *   from the copies in the head what is damaged of the last two rounds, makes it
 *   durable. The block found.last goes to every replica once more, if it is not
 *   512 zeros; every other replica hands its last one out once more too.
 * - send: stemline_replica_send, then stemline_journal_send with its block; only
 *   where that is 0 the block is handed out.
 * - work, take, take_slot and give: stemline_journal_append behind each, also behind a
 *   giving that a deliver's refusal ended; only where that is 0 what they answer is used.
 *   Of a slot that is out what it appends is durable then.
 * - out and back: stemline_replica_out or _back, then stemline_journal_notice; where that
 *   is 0 the notice is taken, where not the next open says whether it is. The notices stand in a file beside the journal, with
 *   `.notices` behind its name, and an open puts them in force again; where they are lost or
 *   damaged, it is an error.
 *
 * Each function answers 0 where it is done. Else it answers -1 and why says in one
 * line what went wrong: then hand nothing out, close the journal and open it anew;
 * until then every call answers -1. What was appended since the last good fsync is
 * cut off again.
 *
 * A file is open once at a time, on the whole machine, in C or Rust (flock). Nobody
 * else may write to it or cut it. It is mapped while it is opened, so that a long
 * journal takes no memory. Where a limit of the system on the length of files ends
 * a process by SIGXFSZ, ignore that signal: the write is then an error.
 *
 * Tickets above the highest in own blocks are given again after an open: what was
 * begun or asked before is gone. Who has noted tickets of before asks for their
 * outcomes before the first begin. */
#ifndef STEMLINE_JOURNAL_H
#define STEMLINE_JOURNAL_H

#include "stemline.h"

#ifdef __cplusplus
extern "C" {
#endif

#define STEMLINE_JOURNAL_VERSION 2  /* of the file; 1 where no notice was taken. No other is taken up */
#define STEMLINE_JOURNAL_HEAD 12288 /* bytes in front of the first block */
#define STEMLINE_GROUP_NAME 255     /* the most bytes of a group's name */
#define STEMLINE_DIGESTS 64         /* the turns whose digests are kept */

/* What all replicas of a group have in common at a turn: compare it with another's
 * of the same turn. If it differs, the copies differ: a replica's number is used
 * twice, or a replica is of another group or start. */
typedef struct stemline_digest {
    uint32_t turn, commits;
    uint64_t digest; /* of the group, its start and all blocks with writesets */
} stemline_digest;

enum stemline_outcome_kind {
    /* No own block has it: it ended otherwise, a cut of the power lost it, or it is not given
     * yet. Of a ticket that was given before the last open: it never was committed, and never
     * will be. */
    STEMLINE_NOT_COMMITTED,
    STEMLINE_IS_OPEN,     /* and not asked yet */
    STEMLINE_IS_ASKED,    /* it waits for the next own block; a cut of the power loses it */
    STEMLINE_IS_SENT,     /* in an own block that is durable: it will be committed, whatever happens */
    STEMLINE_IS_COMMITTED
};

/* What became of a transaction. */
typedef struct stemline_outcome {
    int kind;
    uint32_t place; /* of a committed one: which of all writesets of the group, from 1 on */
} stemline_outcome;

typedef struct stemline_journal {
    int file;    /* -1 where it is not open */
    int notices; /* the file beside it; -1 where no notice was taken */
    uint32_t n, own;
    uint32_t taken;          /* how many notices were */
    uint64_t notices_digest; /* of all of them */
    stemline_group outages;  /* what they put out */
    bool passed;             /* whether a slot that is out was appended since the last good fsync */
    uint32_t blocks, kept; /* in the file, and at the last good fsync */
    long copied;           /* where a copy was begun since, or 0 */
    uint32_t since_count;
    uint8_t since[STEMLINE_REPLICAS][STEMLINE_BLOCK]; /* the blocks behind the last own one */
    stemline_digest digests[STEMLINE_DIGESTS];        /* that of turn t at t mod 64 */
    char path[1024];
    char why[2048]; /* what went wrong */
} stemline_journal;

/* What an open found and did. */
typedef struct stemline_reopened {
    uint32_t blocks;  /* taken up */
    uint32_t mended;  /* of them, put back from the copies */
    uint32_t notices; /* taken before, with perhaps one whose call a cut has ended: stemline_journal_taken */
    uint64_t cut;     /* bytes behind them that are cut off */
    uint8_t last[STEMLINE_BLOCK]; /* the last own block whose slot is not out, or 512 zeros */
    char cut_why[128];            /* why the blocks stop there */
} stemline_reopened;

/* Opens the journal of replica own of n of a group, or makes it, and restarts r from
 * it, with the group's values to start with. A missing or empty file is a new one;
 * the file of another replica, group, size or start, or one that is damaged, is left
 * as it is. The name has 1 to 255 bytes and no control characters. */
int stemline_journal_open(
    stemline_journal *j, stemline_replica *r, const char *path, const char *group,
    uint32_t n, uint32_t own, const int32_t start[STEMLINE_ITEMS], stemline_reopened *found);

/* Appends the blocks of the slots that r's turn has left and the journal lacks, from r's window: others', and the
 * next of each that is out. Nothing where there are none, as behind a call that was refused. */
int stemline_journal_append(stemline_journal *j, const stemline_replica *r);

/* Appends the block that a send gave, and makes all durable. */
int stemline_journal_send(stemline_journal *j, const uint8_t block[STEMLINE_BLOCK]);

/* Puts a notice beside the journal that its replica took, and makes it durable, after all that was appended. */
int stemline_journal_notice(stemline_journal *j, const stemline_notice *notice);

/* Notice at, from 0 on, of all that were taken, in order. */
int stemline_journal_taken(stemline_journal *j, uint32_t at, stemline_notice *notice);

/* Whether the digest of a turn is known, and that. */
bool stemline_journal_digest(const stemline_journal *j, uint32_t turn, stemline_digest *digest);

/* What became of a ticket of r, by its table and by the file, which is read up to the
 * block that has the ticket. How a transaction ended that did not commit, the calls
 * answered: a withdraw, an ask of nothing written, a 9, an abort that a work named. */
int stemline_journal_outcome(
    stemline_journal *j, const stemline_replica *r, uint32_t ticket, stemline_outcome *outcome);

void stemline_journal_close(stemline_journal *j);

#ifdef __cplusplus
}
#endif

#endif
