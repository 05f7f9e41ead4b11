/* Opens the files named on standard input, each as replica own of n: a line with what was found, or why not. */
#include <stdio.h>
#include <stdlib.h>

#include "stemline_journal.h"

int main(void) {
    static stemline_replica r;
    static stemline_journal j;
    static stemline_reopened found;
    static const int32_t start[STEMLINE_ITEMS];
    char path[512];
    unsigned n, own;
    while (scanf("%511s %u %u", path, &n, &own) == 3) {
        stemline_digest digest;
        if (stemline_journal_open(&j, &r, path, "grotesque", n, own, start, &found) != 0) {
            printf("%s\n", j.why);
            continue;
        }
        if (!stemline_journal_digest(&j, r.turn.slot, &digest)) {
            printf("no digest\n");
        }
        printf("%lu blocks, %lu mended, %lu notices, %lu cut: %s; turn %lu, commits %lu, digest %016llx; last",
               (unsigned long)found.blocks, (unsigned long)found.mended, (unsigned long)found.notices,
               (unsigned long)found.cut, found.cut_why, (unsigned long)digest.turn, (unsigned long)digest.commits,
               (unsigned long long)digest.digest);
        for (int k = 0; k < STEMLINE_BLOCK; k++) {
            printf("%s%02x", k == 0 ? " " : "", found.last[k]);
        }
        for (uint32_t at = 0; at < found.notices; at++) {
            stemline_notice notice;
            if (stemline_journal_taken(&j, at, &notice) == 0) {
                printf("; %s %u %s %u", notice.out ? "Out" : "Back", (unsigned)notice.replica,
                       notice.out ? "from" : "at", (unsigned)notice.slot);
            }
        }
        printf("\n");
        stemline_journal_close(&j);
    }
    return 0;
}
