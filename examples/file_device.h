/* A card in a file or on a block device, for journal.h (POSIX). */
#ifndef FILE_DEVICE_H
#define FILE_DEVICE_H

#include <errno.h>
#include <fcntl.h>
#include <sys/types.h>
#include <unistd.h>

#include "journal.h"

static inline int file_read(void *self, uint32_t block, uint8_t *bytes) {
    size_t done = 0;
    while (done < SPOT_BLOCK_BYTES) {
        const ssize_t n = pread(*(int *)self, bytes + done, SPOT_BLOCK_BYTES - done, (off_t)block * SPOT_BLOCK_BYTES + (off_t)done);
        if (n < 0 && errno == EINTR) continue;
        if (n <= 0) return 1;
        done += (size_t)n;
    }
    return 0;
}

static inline int file_write(void *self, uint32_t block, const uint8_t *bytes) {
    size_t done = 0;
    while (done < SPOT_BLOCK_BYTES) {
        const ssize_t n = pwrite(*(int *)self, bytes + done, SPOT_BLOCK_BYTES - done, (off_t)block * SPOT_BLOCK_BYTES + (off_t)done);
        if (n < 0 && errno == EINTR) continue;
        if (n <= 0) return 1;
        done += (size_t)n;
    }
    return 0;
}

static inline int file_sync(void *self) { return fdatasync(*(int *)self); }

/* The device over an open file, whose descriptor has to outlive it. */
static inline struct journal_device file_device(int *file) {
    struct journal_device d;
    d.self = file;
    d.read = file_read;
    d.write = file_write;
    d.sync = file_sync;
    return d;
}

#endif
