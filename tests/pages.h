/* Lent memory between pages that may not be touched. Needs _DEFAULT_SOURCE for mmap. */
#ifndef PAGES_H
#define PAGES_H

#include <stdint.h>
#include <stdio.h>
#include <stdlib.h>
#include <sys/mman.h>

/* Wide, so that an index that is far off stops too. */
static const size_t GUARD_BYTES = (size_t)1 << 28;

struct room {
    uint8_t *from;
    size_t size;
};

/* Room for a number of bytes, which is rounded up to whole pages. */
static inline struct room reserve(size_t bytes)
{
    size_t size = (bytes + 4095) / 4096 * 4096;
    uint8_t *base = mmap(NULL, size + 2 * GUARD_BYTES, PROT_NONE, MAP_PRIVATE | MAP_ANONYMOUS | MAP_NORESERVE, -1, 0);
    if (base == MAP_FAILED || mprotect(base + GUARD_BYTES, size, PROT_READ | PROT_WRITE) != 0) {
        perror("no guard pages");
        exit(1);
    }
    return (struct room){ base + GUARD_BYTES, size };
}

static inline void allow(struct room room, int rights)
{
    if (mprotect(room.from, room.size, rights) != 0) {
        perror("no rights of pages");
        exit(1);
    }
}

/* Where so many bytes end right before the guard. */
static inline void *last(struct room room, size_t bytes)
{
    return room.from + room.size - bytes;
}

#endif
