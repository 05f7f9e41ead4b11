/* Stands between a program and the disk: tells each step on stderr. The fsync fails whose number, from 1 on,
 * STEMLINE_FAIL is; the write whose number STEMLINE_SHORT is takes 100 bytes, and the next one none. */
#define _POSIX_C_SOURCE 200809L
#include <errno.h>
#include <stdio.h>
#include <stdlib.h>
#include <sys/stat.h>
#include <unistd.h>

int told_fsync(int file);
int told_ftruncate(int file, off_t length);
ssize_t told_pwrite(int file, const void *bytes, size_t length, off_t at);

static int asked(const char *name) {
    const char *number = getenv(name);
    return number == NULL ? 0 : atoi(number);
}

int told_fsync(int file) {
    static int count;
    struct stat is;
    if (fstat(file, &is) == 0 && S_ISDIR(is.st_mode)) {
        fprintf(stderr, "folder\n");
    } else {
        fprintf(stderr, "sync %ld\n", (long)is.st_size);
    }
    if (asked("STEMLINE_FAIL") == ++count) {
        errno = EIO;
        return -1;
    }
    return fsync(file);
}

int told_ftruncate(int file, off_t length) {
    fprintf(stderr, "cut %ld\n", (long)length);
    return ftruncate(file, length);
}

ssize_t told_pwrite(int file, const void *bytes, size_t length, off_t at) {
    static int count;
    int number = asked("STEMLINE_SHORT");
    fprintf(stderr, "write %ld at %ld\n", (long)length, (long)at);
    count++;
    if (number > 0 && count == number + 1) {
        errno = ENOSPC;
        return -1;
    }
    return pwrite(file, bytes, number > 0 && count == number ? 100 : length, at);
}
