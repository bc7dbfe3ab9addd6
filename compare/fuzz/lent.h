/* Slices that a call is lent: each lies against a page that can't be touched, and what is behind its other end is looked at after the call. */
#ifndef LENT_H
#define LENT_H

#include <stdint.h>
#include <stdio.h>
#include <stdlib.h>
#include <string.h>
#include <sys/mman.h>

enum { PAGE = 4096, ROOM = 1 << 20, MARGIN = 256, UNTOUCHED = 0x5a };

/* The input is at fault, or the library: the fuzzer keeps it. */
#define REQUIRE(holds) \
    do { \
        if (!(holds)) { \
            fprintf(stderr, "%s:%d: not so: %s\n", __FILE__, __LINE__, #holds); \
            abort(); \
        } \
    } while (0)

/* As long as any slice, all as it is before a call. */
static uint8_t as_before[ROOM];

struct lent {
    uint8_t *room; /* ROOM bytes between two pages that can't be touched */
    uint8_t *at;
    size_t entries;
    size_t width; /* bytes of an entry */
};

static inline void make_room(struct lent *slice, size_t width) {
    uint8_t *mapped = mmap(NULL, ROOM + 2 * PAGE, PROT_NONE, MAP_PRIVATE | MAP_ANONYMOUS, -1, 0);
    REQUIRE(mapped != MAP_FAILED);
    slice->room = mapped + PAGE;
    slice->width = width;
    REQUIRE(mprotect(slice->room, ROOM, PROT_READ | PROT_WRITE) == 0);
    memset(as_before, UNTOUCHED, sizeof as_before);
}

static inline size_t bytes_of(const struct lent *slice) { return slice->entries * slice->width; }

/* Lends so many entries, at the front of the room or at its end. */
static inline void lend(struct lent *slice, size_t entries, int at_front) {
    slice->entries = entries;
    REQUIRE(bytes_of(slice) + MARGIN <= ROOM);
    slice->at = at_front ? slice->room : slice->room + ROOM - bytes_of(slice);
    memset(at_front ? slice->at : slice->at - MARGIN, UNTOUCHED, bytes_of(slice) + MARGIN);
}

static inline void lend_copy(struct lent *slice, const uint8_t *from, size_t entries, int at_front) {
    lend(slice, entries, at_front);
    if (entries > 0)
        memcpy(slice->at, from, bytes_of(slice));
}

static inline uint32_t *numbers(const struct lent *slice) { return (uint32_t *)(void *)slice->at; }

static inline int all_untouched(const uint8_t *from, size_t count) { return memcmp(from, as_before, count) == 0; }

/* Nothing was written but the first entries. */
static inline int untouched_behind(const struct lent *slice, size_t written) {
    size_t kept = written * slice->width;
    int at_front = slice->at == slice->room;
    return written <= slice->entries && all_untouched(slice->at + kept, bytes_of(slice) - kept) &&
           all_untouched(at_front ? slice->at + bytes_of(slice) : slice->at - MARGIN, MARGIN);
}

/* A slice that is only read holds what was copied to it. */
static inline int unchanged(const struct lent *slice, const uint8_t *from) {
    int at_front = slice->at == slice->room;
    return memcmp(slice->at, from, bytes_of(slice)) == 0 &&
           all_untouched(at_front ? slice->at + bytes_of(slice) : slice->at - MARGIN, MARGIN);
}

#endif
