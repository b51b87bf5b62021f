/*
 * How long a pattern has held, in C and by hand: what host/bench.c measures asbru_pattern against. The bounds become minutes, an open one
 * lies out of all reach, and one pass over the samples looks at each run as it ends. Nothing here is proved; host/held.rs can be run on it
 * (`held_child plain`) as on the library.
 */
#include "plain.h"

enum { ESS, LSS, EFS, LFS, LEAST, GREATEST, REFERENCE, NUMBERS };

#define MOST INT64_C(1000000000)
#define OPEN INT64_MIN
/* beyond all minutes, and small enough to be added to another such */
#define FAR (INT64_C(1) << 60)

/* Where the interval may start and finish, and how long it may be. */
typedef struct {
    int64_t est, lst, eft, lft, least, greatest;
} Bounds;

static inline int in_range(int64_t number) {
    return number >= -MOST && number <= MOST;
}

/* Check 18 of an annotation. */
static int all_in_range(const int64_t *a) {
    for (int k = 0; k < NUMBERS; k++)
        if (!in_range(a[k]) && (a[k] != OPEN || k == LEAST || k == REFERENCE)) return 0;
    return a[LEAST] >= 0;
}

/* The bounds as minutes after `zero`. */
static Bounds bounds_of(const int64_t *a, int64_t zero) {
    Bounds b;
    b.est = a[ESS] == OPEN ? -FAR : zero + a[ESS];
    b.lst = a[LSS] == OPEN ? FAR : zero + a[LSS];
    b.eft = a[EFS] == OPEN ? -FAR : zero + a[EFS];
    b.lft = a[LFS] == OPEN ? FAR : zero + a[LFS];
    b.least = a[LEAST];
    b.greatest = a[GREATEST] == OPEN ? FAR : a[GREATEST];
    return b;
}

static inline int64_t larger(int64_t a, int64_t b) {
    return a > b ? a : b;
}

static inline int64_t smaller(int64_t a, int64_t b) {
    return a < b ? a : b;
}

/* An interval that lies between the earliest start and the latest finish. */
static inline int suits(const Bounds *b, int64_t first, int64_t last) {
    int64_t length = last - first;
    return (first <= b->lst) & (last >= b->eft) & (length >= b->least) & (length <= b->greatest);
}

/* A run: only the part of it that lies there can suit. */
static inline int satisfies(const Bounds *b, int64_t first, int64_t last) {
    return suits(b, larger(first, b->est), smaller(last, b->lft));
}

/* An interval that starts at `first`, where an earliest start is kept, and finishes at `soonest` or as soon after it as it may. */
static int can_suit(const Bounds *b, int64_t first, int64_t soonest) {
    int64_t last = larger(soonest, larger(b->eft, first + b->least));
    return last <= b->lft && suits(b, first, last);
}

uint64_t plain_pattern(const int64_t *annotation, const int64_t *samples, size_t count, int64_t asked) {
    if (!all_in_range(annotation) || !in_range(asked)) return 18;
    for (size_t k = 0; k < count; k++)
        if (samples[k] < -2 * MOST || samples[k] > 2 * MOST + 1) return 18;
    if (count > 1024) return 19;
    Bounds b = bounds_of(annotation, annotation[REFERENCE]);
    int satisfied = 0, holds = 0;
    int64_t first = 0, before = -FAR;
    for (size_t k = 0; k < count; k++) {
        int64_t minute = samples[k] >> 1;
        if (minute <= before) return 20;
        before = minute;
        if ((samples[k] & 1) == holds) continue;
        if (holds) satisfied |= satisfies(&b, first, minute - 1);
        holds = !holds;
        first = minute;
    }
    if (asked < before) return 20;
    if (holds) satisfied |= satisfies(&b, first, asked);
    /* a fresh run starts in the next minute, or in the one after it if the last run would only go on */
    int64_t fresh = larger(asked + 1 + holds, larger(b.est, b.eft - b.greatest));
    int can_be = satisfied || (holds && can_suit(&b, larger(first, b.est), asked)) || can_suit(&b, fresh, fresh);
    return (uint64_t)(satisfied + 2 * can_be) << 16;
}

uint64_t plain_normalise(int64_t *annotation) {
    if (!all_in_range(annotation)) return 18;
    Bounds b = bounds_of(annotation, 0), n;
    n.est = larger(b.est, b.eft - b.greatest);
    n.lst = smaller(b.lst, b.lft - b.least);
    n.eft = larger(b.eft, b.est + b.least);
    n.lft = smaller(b.lft, b.lst + b.greatest);
    n.least = larger(b.least, b.eft - b.lst);
    n.greatest = smaller(b.greatest, b.lft - b.est);
    if (n.est > n.lst || b.eft > b.lft || b.least > b.greatest) return 21;
    /* what came of an open bound is still far out of range */
    int64_t normal[NUMBERS] = {n.est, n.lst, n.eft, n.lft, n.least, n.greatest, annotation[REFERENCE]};
    for (int k = 0; k < NUMBERS; k++) {
        if (normal[k] < -FAR / 2 || normal[k] > FAR / 2) normal[k] = OPEN;
    }
    if (!all_in_range(normal)) return 26;
    for (int k = 0; k < NUMBERS; k++) annotation[k] = normal[k];
    return 0;
}

uint32_t plain_with_pattern(uint32_t word, uint32_t condition, uint64_t answer) {
    static const uint8_t satisfied[] = {0, 1, 2, 3, 4, 5, 20}, satisfiable[] = {6, 7, 0, 0, 0, 0, 21};
    if (condition > 6 || (answer & 0xFFFF) != 0) return word;
    uint32_t clear = UINT32_C(1) << satisfied[condition], set = (uint32_t)(answer >> 16 & 1) << satisfied[condition];
    if (satisfiable[condition]) {
        clear |= UINT32_C(1) << satisfiable[condition];
        set |= (uint32_t)(answer >> 17 & 1) << satisfiable[condition];
    }
    return (word & ~clear) | set;
}
