/*
 * Calls that come through a pipe, for child.c and held_child.c: their numbers, which are little-endian, the buffers that are lent, and
 * the reply. Each buffer is an allocation of its own that is just as long as its bytes and a guard on either side, so that a sanitizer or
 * valgrind would see a read past the guards too. Its first byte lies as malloc and a guard let it, so at a multiple of 8.
 */
#ifndef BUFFERS_H
#define BUFFERS_H

#include <stdint.h>
#include <stdio.h>
#include <stdlib.h>
#include <string.h>

enum { GUARD = 64, GUARD_BYTE = 0xA5 };

typedef struct {
    uint8_t *all, *bytes, *before;
    size_t length;
} Buffer;

static inline void need(int ok, const char *what) {
    if (!ok) {
        fprintf(stderr, "child: %s\n", what);
        exit(1);
    }
}

static inline uint64_t number(unsigned bytes) {
    uint8_t got[8];
    need(fread(got, 1, bytes, stdin) == bytes, "the call is cut off");
    uint64_t value = 0;
    for (unsigned k = 0; k < bytes; k++) value |= (uint64_t)got[k] << 8 * k;
    return value;
}

/* A buffer with its guards, and a copy of what it held. */
static inline Buffer take(size_t length) {
    Buffer b;
    b.length = length;
    b.all = (uint8_t *)malloc(length + 2 * GUARD);
    b.before = (uint8_t *)malloc(length + 1);
    need(b.all && b.before, "no memory");
    memset(b.all, GUARD_BYTE, length + 2 * GUARD);
    b.bytes = b.all + GUARD;
    need(fread(b.bytes, 1, length, stdin) == length, "the call is cut off");
    memcpy(b.before, b.bytes, length);
    return b;
}

static inline int guarded(const Buffer *b) {
    for (size_t k = 0; k < GUARD; k++)
        if (b->all[k] != GUARD_BYTE || b->bytes[b->length + k] != GUARD_BYTE) return 0;
    return 1;
}

static inline int unchanged(const Buffer *b) {
    return memcmp(b->before, b->bytes, b->length) == 0;
}

static inline void drop(Buffer *b) {
    free(b->all);
    free(b->before);
}

/* The answer, what the call leaves in the buffers that it may write, so many, and whether all else is as it was. */
static inline void reply(uint64_t answer, const Buffer *const *left, unsigned count, int as_it_was) {
    for (unsigned k = 0; k < 8; k++) putchar((int)(answer >> 8 * k & 0xFF));
    for (unsigned k = 0; k < count; k++) fwrite(left[k]->bytes, 1, left[k]->length, stdout);
    putchar(as_it_was);
    need(fflush(stdout) == 0, "the answer cannot be sent");
}

#endif
