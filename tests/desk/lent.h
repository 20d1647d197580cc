/*
 * Buffers as they are lent in the comparison: guard bytes before them, and after them guard bytes
 * or a page that may not be touched, so that any access beyond them shows.
 */
#ifndef LENT_H
#define LENT_H

#include <stdbool.h>
#include <stdint.h>
#include <stdio.h>
#include <stdlib.h>
#include <string.h>
#include <sys/mman.h>
#include <unistd.h>

enum { GUARD = 64, ROOM = 1 << 17 };

typedef struct {
    uint8_t *room, *bytes;
    size_t len, tail; /* of guard bytes; where it is 0 the page follows */
} lent;

static inline lent make_room(void) {
    size_t page = (size_t)sysconf(_SC_PAGESIZE);
    uint8_t *room =
        mmap(NULL, ROOM + page, PROT_READ | PROT_WRITE, MAP_PRIVATE | MAP_ANONYMOUS, -1, 0);
    if (room == MAP_FAILED || mprotect(room + ROOM, page, PROT_NONE) != 0) {
        perror("desk");
        exit(2);
    }
    return (lent){room, room, 0, 0};
}

/* No choice and no slot number, so that any write shows. */
static inline uint8_t guard_byte(size_t i) {
    return (uint8_t)(128 + i % 127);
}

static inline void lend(lent *buffer, size_t len, size_t tail) {
    buffer->len = len;
    buffer->tail = tail;
    buffer->bytes = buffer->room + ROOM - tail - len;
    uint8_t *first = buffer->bytes - GUARD;
    for (size_t i = 0; i < GUARD + len + tail; i++)
        first[i] = guard_byte(i);
}

static inline void lend_copy(lent *buffer, const uint8_t *bytes, size_t len, size_t tail) {
    lend(buffer, len, tail);
    memcpy(buffer->bytes, bytes, len);
}

/* Whether the guard bytes are as lent, and the first `len` bytes as given. */
static inline bool still_has(const lent *buffer, const uint8_t *bytes, size_t len) {
    const uint8_t *first = buffer->bytes - GUARD;
    for (size_t i = 0; i < GUARD + buffer->len + buffer->tail; i++)
        if (first[i] != (i >= GUARD && i < GUARD + len ? bytes[i - GUARD] : guard_byte(i)))
            return false;
    return true;
}

#endif
