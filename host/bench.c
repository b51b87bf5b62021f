/*
 * Times asbru_check and asbru_step beside host/plain.c, a tuned C implementation without proofs, on the same tables and accepted
 * records in one run, and prints for each number of plans the nanoseconds for a plan and step, the record's bytes a second, and the
 * ratio of the two. The two take turns, and the best of several turns counts. All go by rule 2. Then, behind an empty line, the library
 * under such a table beside itself under the same plans in version 2, and behind another asbru_pattern beside host/plain_held.c in the
 * same way, with the nanoseconds for a sample.
 *
 *   bench [MOST STEPS]
 *
 * host/places compiles it with -DWITHOUT_RULE for an archive of ASBRU_VERSION 1 or 2, whose functions take no rule. Such an archive knows
 * rule 1 only, and here the two agree: no plan is named, and all wait numbers are 0. For one of 3 to 8, whose asbru_step takes no causes,
 * it compiles it with -DWITHOUT_CAUSES; plain C tells them all the same. For one without asbru_pattern, of a version before 4, it compiles
 * it with -DWITHOUT_PATTERN. Of one that refuses tables of version 2 the rows on them are left out.
 */
#define _POSIX_C_SOURCE 199309L
#include <stdio.h>
#include <stdlib.h>
#include <string.h>
#include <time.h>

#include "asbru.h"
#include "plain.h"

enum { TURNS = 25, MOST_PLANS = 256, HISTORIES = 64 };
enum { MOST_TABLE = 8 + 8 * MOST_PLANS };

static uint64_t seed = 88172645463325252ull;

static unsigned below(unsigned limit) {
    seed ^= seed << 13;
    seed ^= seed >> 7;
    seed ^= seed << 17;
    return (unsigned)(seed >> 33) % limit;
}

static double nanoseconds(void) {
    struct timespec t;
    clock_gettime(CLOCK_MONOTONIC, &t);
    return (double)t.tv_sec * 1e9 + (double)t.tv_nsec;
}

static void need(int ok, const char *what) {
    if (!ok) {
        fprintf(stderr, "bench: %s\n", what);
        exit(1);
    }
}

/*
 * A table of n plans with bodies 0 to 4: an unordered root with up to 40 children, and up to 6 under each other plan. Every plan but the
 * root can be aborted and is then retried, and those right under the root complete only with it, so that the tree goes on moving
 * however long the record is.
 */
static void make_table(uint8_t *table, unsigned n, uint16_t *parents) {
    unsigned children[MOST_PLANS] = {0};
    memset(table, 0, 8 + 8 * (size_t)n);
    memcpy(table, "APT\1", 4);
    table[5] = (uint8_t)n;
    table[6] = (uint8_t)(n >> 8);
    parents[0] = 0xFFFF;
    for (unsigned p = 1; p < n; p++) {
        unsigned q = p - 1;
        while (q > 0 && (children[q] == 6 || below(2) == 0)) q = parents[q];
        if (children[q] == (q ? 6 : 40)) q = p - 1;
        parents[p] = (uint16_t)q;
        children[q]++;
    }
    for (unsigned p = 0; p < n; p++) {
        uint8_t *e = table + 8 + 8 * p;
        e[0] = (uint8_t)parents[p];
        e[1] = (uint8_t)(parents[p] >> 8);
        e[2] = !children[p] ? 0 : p ? (uint8_t)(1 + below(4)) : 4;
        e[3] = children[p] ? 1 : 0;
        e[4] = p ? 0x30 : 0x20;
    }
}

/* The words of one step: one plan in 256 is told to abort, and one in 64 of the lower ones to complete. */
static void make_words(uint8_t *words, unsigned n, const uint16_t *parents) {
    memset(words, 0, 4 * (size_t)n);
    for (unsigned p = 1; p < n; p++) {
        if (below(256) == 0) words[4 * p] |= 0x10;
        if (parents[p] != 0 && below(64) == 0) words[4 * p] |= 0x20;
    }
}

typedef uint64_t Step(uint32_t, const uint8_t *, size_t, uint8_t *, size_t, const uint8_t *, size_t, uint8_t *, size_t);
typedef uint64_t Check(uint32_t, const uint8_t *, size_t, const uint8_t *, size_t);

#ifdef WITHOUT_RULE
uint64_t old_step(const uint8_t *, size_t, uint8_t *, size_t, const uint8_t *, size_t) __asm__("asbru_step");
uint64_t old_check(const uint8_t *, size_t, const uint8_t *, size_t) __asm__("asbru_check");

static uint64_t library_step(uint32_t rule, const uint8_t *t, size_t t_length, uint8_t *s, size_t s_length, const uint8_t *w,
                             size_t w_length, uint8_t *c, size_t c_length) {
    (void)rule, (void)c, (void)c_length;
    return old_step(t, t_length, s, s_length, w, w_length);
}

static uint64_t library_check(uint32_t rule, const uint8_t *t, size_t t_length, const uint8_t *r, size_t r_length) {
    (void)rule;
    return old_check(t, t_length, r, r_length);
}
#elif defined WITHOUT_CAUSES
uint64_t old_step(uint32_t, const uint8_t *, size_t, uint8_t *, size_t, const uint8_t *, size_t) __asm__("asbru_step");

static uint64_t library_step(uint32_t rule, const uint8_t *t, size_t t_length, uint8_t *s, size_t s_length, const uint8_t *w,
                             size_t w_length, uint8_t *c, size_t c_length) {
    (void)c, (void)c_length;
    return old_step(rule, t, t_length, s, s_length, w, w_length);
}

#define library_check asbru_check
#else
#define library_step asbru_step
#define library_check asbru_check
#endif

static double time_check(Check *check, const uint8_t *table, size_t length, unsigned n, const uint8_t *record, unsigned steps) {
    double begun = nanoseconds();
    uint64_t answer = check(ASBRU_RULE_2, table, length, record, 8 + 5 * (size_t)n * steps);
    double took = nanoseconds() - begun;
    need(answer == (uint64_t)steps << 32, "a record is not accepted");
    return took;
}

/* One call for each step of the record. */
static double time_step(Step *step, const uint8_t *table, size_t length, unsigned n, const uint8_t *record, unsigned steps) {
    uint8_t states[MOST_PLANS] = {0}, causes[MOST_PLANS];
    double begun = nanoseconds();
    for (unsigned i = 0; i < steps; i++) {
        uint64_t answer = step(ASBRU_RULE_2, table, length, states, n, record + 8 + 5 * (size_t)n * i, 4 * (size_t)n, causes, n);
        need(answer == 0, "a step is refused");
    }
    return nanoseconds() - begun;
}

static double least(double a, double b) {
    return a < b ? a : b;
}

/* A table of n plans, and a record of so many steps under it, which the caller frees. */
static uint8_t *make_record(uint8_t *table, unsigned n, unsigned steps) {
    uint8_t states[MOST_PLANS] = {0}, causes[MOST_PLANS];
    uint16_t parents[MOST_PLANS];
    make_table(table, n, parents);
    uint8_t *record = (uint8_t *)malloc(8 + 5 * (size_t)n * steps);
    need(record != NULL, "no memory");
    memcpy(record, table, 8);
    record[2] = 'R';
    for (unsigned i = 0; i < steps; i++) {
        uint8_t *words = record + 8 + 5 * (size_t)n * i;
        make_words(words, n, parents);
        uint64_t answer = plain_step(ASBRU_RULE_2, table, 8 + 8 * (size_t)n, states, n, words, 4 * (size_t)n, causes, n);
        need(answer == 0, "a step is refused");
        memcpy(words + 4 * (size_t)n, states, n);
    }
    return record;
}

/* So many steps are made one by one. */
static unsigned single_steps(unsigned steps) {
    return steps < 2000 ? steps : 2000;
}

static void measure(unsigned n, unsigned steps) {
    uint8_t table[MOST_TABLE];
    uint8_t *record = make_record(table, n, steps);
    double check = 1e18, plain = 1e18, step = 1e18, plain_one = 1e18;
    size_t length = 8 + 8 * (size_t)n;
    unsigned calls = single_steps(steps);
    for (int turn = 0; turn < TURNS; turn++) {
        check = least(check, time_check(library_check, table, length, n, record, steps));
        plain = least(plain, time_check(plain_check, table, length, n, record, steps));
        step = least(step, time_step(library_step, table, length, n, record, calls));
        plain_one = least(plain_one, time_step(plain_step, table, length, n, record, calls));
    }
    double plans = (double)n * steps, moved = (double)n * calls;
    printf("| %u | %u | %.1f | %.1f | %.2f | %.0f | %.1f | %.1f | %.2f |\n", n, steps, check / plans, plain / plans, check / plain,
           5 * plans / check * 1e3, step / moved, plain_one / moved, step / plain_one);
    free(record);
}

/* The library under a table of version 1, and under the same in version 2. */
static void measure_versions(unsigned n, unsigned steps) {
    uint8_t table[MOST_TABLE], moved[ASBRU_MOST_MOVED];
    uint8_t *record = make_record(table, n, steps);
    const uint8_t *tables[2] = {table, moved};
    size_t length = 8 + 8 * (size_t)n;
    /* by plain C, so that this also links to a library of before */
    size_t lengths[2] = {length, asbru_step_of(plain_to_version_2(table, length, moved, sizeof moved))};
    double check[2] = {1e18, 1e18}, step[2] = {1e18, 1e18};
    unsigned calls = single_steps(steps);
    for (int turn = 0; turn < TURNS; turn++) {
        for (int k = 0; k < 2; k++) {
            check[k] = least(check[k], time_check(library_check, tables[k], lengths[k], n, record, steps));
            step[k] = least(step[k], time_step(library_step, tables[k], lengths[k], n, record, calls));
        }
    }
    double plans = (double)n * steps, moves = (double)n * calls;
    printf("| %u | %u | %.1f | %.1f | %.2f | %.1f | %.1f | %.2f |\n", n, steps, check[0] / plans, check[1] / plans, check[1] / check[0],
           step[0] / moves, step[1] / moves, step[1] / step[0]);
    free(record);
}

/* Whether the library reads tables of version 2. */
static int knows_version_2(void) {
    static const uint8_t leaf[18] = {'A', 'P', 'T', 2, 0, 1, 0, 0, 0xFF, 0xFF};
    return asbru_number(library_check(ASBRU_RULE_2, leaf, sizeof leaf, NULL, 0)) == ASBRU_REFUSED_RECORD_HEADER;
}

typedef uint64_t Pattern(const int64_t *, const int64_t *, size_t, int64_t);

#ifndef WITHOUT_PATTERN
/* One call for each history, asked an hour after its last sample. */
static double time_pattern(Pattern *pattern, int64_t samples[HISTORIES][ASBRU_MOST_SAMPLES]) {
    /* every bound is there; no run is long enough, but one that goes on could be */
    static const int64_t annotation[ASBRU_BOUNDS] = {-500000, 500000, -500000, 900000, 100000, 800000, 1000};
    double begun = nanoseconds();
    for (unsigned i = 0; i < HISTORIES; i++) {
        int64_t asked = samples[i][ASBRU_MOST_SAMPLES - 1] / 2 + 60;
        uint64_t answer = pattern(annotation, samples[i], ASBRU_MOST_SAMPLES, asked);
        need(answer == (uint64_t)ASBRU_IS_SATISFIABLE << 16, "a history is not satisfiable only");
    }
    return nanoseconds() - begun;
}

/*
 * Samples a minute to an hour apart. Their truth is by chance, in many histories, so that a processor cannot foresee it, and errs for the
 * library as for plain C; or two are true and two are not, in turn, which it foresees.
 */
static void measure_pattern(int by_chance) {
    static int64_t samples[HISTORIES][ASBRU_MOST_SAMPLES];
    for (unsigned i = 0; i < HISTORIES; i++) {
        int64_t minute = 0;
        for (unsigned k = 0; k < ASBRU_MOST_SAMPLES; k++) {
            minute += 1 + below(60);
            samples[i][k] = asbru_sample(minute, (int)(by_chance ? below(2) : k >> 1 & 1));
        }
    }
    double pattern = 1e18, plain = 1e18, all = (double)HISTORIES * ASBRU_MOST_SAMPLES;
    for (int turn = 0; turn < TURNS; turn++) {
        pattern = least(pattern, time_pattern(asbru_pattern, samples));
        plain = least(plain, time_pattern(plain_pattern, samples));
    }
    const char *truth = by_chance ? "by chance" : "two and two";
    printf("| %d | %s | %.2f | %.2f | %.2f |\n", ASBRU_MOST_SAMPLES, truth, pattern / all, plain / all, pattern / plain);
}
#endif

int main(int argc, char **argv) {
    unsigned most = argc > 1 ? (unsigned)atoi(argv[1]) : 65535;
    static const unsigned plans[] = {3, 16, 64, 256};
    need(most >= 1 && most <= 65535, "1 to 65535 steps");
    printf("| plans | steps | check, ns | plain C | ratio | check, MB/s | step, ns | plain C | ratio |\n");
    printf("|---|---|---|---|---|---|---|---|---|\n");
    for (int k = 0; k < 4; k++) measure(plans[k], most);
    if (knows_version_2()) {
        printf("\n| plans | steps | check, version 1, ns | version 2 | ratio | step, version 1, ns | version 2 | ratio |\n");
        printf("|---|---|---|---|---|---|---|---|\n");
        measure_versions(16, most);
        measure_versions(256, most);
    }
#ifndef WITHOUT_PATTERN
    printf("\n| samples | true | pattern, ns | plain C | ratio |\n|---|---|---|---|---|\n");
    measure_pattern(1);
    measure_pattern(0);
#endif
    return 0;
}
