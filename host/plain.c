/*
 * The rules in C, tuned by hand: what host/bench.c measures the proved library against. One pass over the plans gathers, for each
 * parent, eight counters in one 64-bit word, its first child that is not done, and its choice; a second pass moves the plans. Where a
 * formula asks for more than a number of named children, a pass of its own judges it and writes what it finds into the counters. Nothing
 * here is proved; host/differ.rs can be run on it (`child plain`) as on the library.
 */
#include "plain.h"

#include <string.h>

enum { MOST = 256, NONE = 0xFFFF };
enum { INACTIVE, CONSIDERED, POSSIBLE, READY, ACTIVATED, SUSPENDED, COMPLETED, ABORTED, REJECTED };
enum { LEAF, SEQUENTIAL, PARALLEL, ANY_ORDER, UNORDERED, ON_ABORT, ON_SUSPEND, ON_ABORT_OR_SUSPEND, IF_THEN_ELSE };
enum { FILTER = 1, SETUP = 2, SUSPEND = 4, REACTIVATE = 8, ABORT = 16, COMPLETE = 32 };
enum { RETRY = 1, OPTIONAL = 2, NAMED = 4 };
enum { UNMOVED, ORDERED, OWN_CONDITION, CHILDREN_LOST, FORCED };
/* of the absent conditions, those that hold */
enum { ABSENT_HOLD = FILTER | SETUP | REACTIVATE | COMPLETE };

typedef struct {
    uint16_t parent;
    uint8_t body, flags, present, manual, overridable, wait;
    uint8_t rank, children, named;
    uint8_t row; /* of `counted` */
    uint16_t done, lets; /* sets of states: see below */
} Plan;

/* What the children of a plan are at: counters of 8 bits, each at most 64. */
#define ONE(field) (1ull << 8 * (field))
#define COUNT(word, field) ((unsigned)((word) >> 8 * (field)) & 0xFF)
enum { DONE_NAMED, LOST_NAMED, NOT_ENDED, WAITING, BEGUN, EXECUTING, ABORTED_ONES, IDLE };

/*
 * What a child in each state adds to them. A row each for children that are not named, those that are, and named ones of a plan with
 * retry-aborted under rule 2, to which an Aborted one is not lost.
 */
static const uint64_t counted[3][9] = {
#define ROW(named, lost)                                                                                                               \
    {                                                                                                                                  \
        ONE(NOT_ENDED) | ONE(WAITING) | ONE(IDLE), ONE(NOT_ENDED) | ONE(WAITING), ONE(NOT_ENDED) | ONE(WAITING), ONE(NOT_ENDED),       \
            ONE(NOT_ENDED) | ONE(BEGUN) | ONE(EXECUTING), ONE(NOT_ENDED) | ONE(BEGUN) | ONE(EXECUTING),                                \
            ONE(BEGUN) | (named) * ONE(DONE_NAMED), ONE(BEGUN) | ONE(ABORTED_ONES) | (lost) * ONE(LOST_NAMED),                         \
            (named) * ONE(LOST_NAMED)                                                                                                  \
    }
    ROW(0ull, 0ull), ROW(1ull, 1ull), ROW(1ull, 0ull)
#undef ROW
};

/*
 * Sets of states, a bit each, of the bodies that ask for them, without retry-aborted and with it. `done`: the plan is done with a child in
 * one of these, so that the next one is considered; bodies 5 to 7 go on as a sequential one, but for what counts as done. `lets`: behind
 * a child in one of these the next one may be other than Inactive.
 */
#define IN(state) (1 << (state))
enum { DONE = IN(COMPLETED) | IN(ABORTED) | IN(REJECTED), RETRYING = DONE & ~IN(ABORTED) };
enum { STARTED = IN(ACTIVATED) | IN(SUSPENDED) | IN(COMPLETED) | IN(ABORTED) };
static const uint16_t done[9][2] = {[SEQUENTIAL] = {DONE, RETRYING},
                                    [ON_ABORT] = {IN(ABORTED)},
                                    [ON_SUSPEND] = {IN(SUSPENDED)},
                                    [ON_ABORT_OR_SUSPEND] = {IN(ABORTED) | IN(SUSPENDED)}};
static const uint16_t lets[9][2] = {[SEQUENTIAL] = {DONE, RETRYING},
                                    [ON_ABORT] = {IN(ABORTED)},
                                    [ON_SUSPEND] = {STARTED},
                                    [ON_ABORT_OR_SUSPEND] = {STARTED},
                                    [IF_THEN_ELSE] = {IN(INACTIVE)}};

/* the new state under an ended parent */
static const uint8_t cut_off[9] = {INACTIVE, REJECTED, REJECTED, REJECTED, ABORTED, ABORTED, COMPLETED, ABORTED, REJECTED};

enum { CHILD, NOT, AND, OR, XOR, AT_LEAST };

typedef struct {
    uint8_t kind, a, b, zero;
} Node;

/*
 * The plans of a table of version 2 whose formulas are more than a number of named children, which `wait` holds as in version 1. Such a
 * plan counts as one that waits for one named child, and that child as Completed where the formula holds of the Completed children and as
 * lost where it fails of those that are not lost.
 */
typedef struct {
    unsigned count;
    uint16_t plan[MOST];
    uint8_t first[MOST];
    uint64_t named[MOST]; /* by plan: sets of ranks */
    uint16_t lost[MOST];  /* by plan: a set of states */
    Node nodes[MOST];
} Formulas;

typedef struct {
    uint64_t counts[MOST];
    uint16_t first[MOST], choice[MOST];
} Survey;

static inline uint64_t answer(unsigned number, unsigned step, unsigned plan) {
    return number | (uint64_t)plan << 16 | (uint64_t)step << 32;
}

static inline unsigned u16(const uint8_t *at) {
    return at[0] | at[1] << 8;
}

static inline uint32_t word_of(const uint8_t *words, unsigned p) {
    uint32_t x;
    memcpy(&x, words + 4 * p, 4);
    return x;
}

static int above(const Plan *plans, unsigned a, unsigned p) {
    while (p > a) p = plans[p].parent;
    return p == a;
}

/* Checks 22 and 9 of a table of version 2 whose plans have passed check 8. */
static uint64_t check_nodes(const Node *nodes, unsigned count, const Plan *plans, unsigned n) {
    uint16_t owner[MOST]; /* the plan in whose formula a node stands */
    uint8_t uses[MOST];   /* 2 stands for more too */
    memset(uses, 0, count);
    for (unsigned p = 0; p < n; p++) {
        if (!plans[p].children) continue;
        unsigned first = plans[p].wait;
        if (first >= count) return 22;
        uses[first] = uses[first] ? 2 : 1;
        owner[first] = (uint16_t)p;
    }
    for (unsigned i = 0; i < count; i++) {
        unsigned kind = nodes[i].kind, a = nodes[i].a, b = nodes[i].b;
        if (kind < NOT || kind > XOR) continue;
        if (a < count) uses[a] = uses[a] ? 2 : 1;
        if (kind != NOT && b < count) uses[b] = uses[b] ? 2 : 1;
    }
    for (unsigned i = 0; i < count; i++) {
        unsigned kind = nodes[i].kind, a = nodes[i].a, b = nodes[i].b;
        int of_two = kind >= AND && kind <= XOR, operand = kind == NOT || of_two;
        if (kind > AT_LEAST || nodes[i].zero || (!of_two && b) || uses[i] != 1 || (operand && (a <= i || a >= count))
            || (of_two && (b <= i || b >= count)))
            return answer(22, 0, i);
        /* a node comes after the one that uses it */
        if (operand) owner[a] = owner[i];
        if (of_two) owner[b] = owner[i];
    }
    for (unsigned i = 0; i < count; i++)
        if (nodes[i].kind == CHILD && nodes[i].a >= plans[owner[i]].children) return answer(22, 0, i);
    unsigned asks = n;
    for (unsigned i = 0; i < count; i++)
        if (nodes[i].kind == AT_LEAST && nodes[i].a > plans[owner[i]].named && owner[i] < asks) asks = owner[i];
    return asks < n ? answer(9, 0, asks) : 0;
}

/* The formulas of a table of version 2, whose node count is at t, and checks 22 and 9. */
static uint64_t read_formulas(uint32_t rule, const uint8_t *t, unsigned n, Plan *plans, Formulas *f) {
    unsigned count = u16(t);
    if (count > MOST) return 22;
    memcpy(f->nodes, t + 2, 4 * count);
    const Node *nodes = f->nodes;
    uint64_t bad = check_nodes(nodes, count, plans, n);
    if (bad) return bad;
    for (unsigned p = 0; p < n; p++) {
        Plan *e = plans + p;
        f->named[p] = 0;
        f->lost[p] = 0;
        if (p && f->lost[e->parent]) {
            if (e->flags & NAMED) f->named[e->parent] |= 1ull << e->rank;
            e->row = 0;
        }
        if (!e->children) continue;
        unsigned first = e->wait;
        if (nodes[first].kind == AT_LEAST) {
            e->wait = nodes[first].a;
            continue;
        }
        f->plan[f->count] = (uint16_t)p;
        f->first[f->count++] = (uint8_t)first;
        f->lost[p] = rule == 2 && e->flags & RETRY ? IN(REJECTED) : IN(REJECTED) | IN(ABORTED);
        e->wait = e->named = 1;
    }
    return 0;
}

/* Checks 17, 1 to 8, 22 and 9, and what a table gives under a rule. */
static uint64_t read_table(uint32_t rule, const uint8_t *t, size_t length, Plan *plans, Formulas *f) {
    if (rule != 1 && rule != 2) return 17;
    if (length < 8) return 1;
    if (memcmp(t, "APT", 3)) return 2;
    unsigned version = u16(t + 3);
    if (version != 1 && version != 2) return 3;
    unsigned n = u16(t + 5);
    if (n < 1 || n > MOST || t[7]) return 4;
    size_t end = 8 + 8 * (size_t)n;
    if (version == 1 ? length != end : length < end + 2 || length != end + 2 + 4 * (size_t)u16(t + end)) return 5;
    f->count = 0;
    for (unsigned p = 0; p < n; p++) {
        const uint8_t *e = t + 8 + 8 * p;
        Plan *plan = plans + p;
        *plan = (Plan){(uint16_t)u16(e), e[2], e[3], e[4], e[5], e[6], e[7], 0, 0, 0, 0, 0, 0};
        if (p == 0) {
            if (plan->parent != NONE) return answer(6, 0, 0);
        } else {
            if (plan->parent >= p || !above(plans, plan->parent, p - 1)) return answer(6, 0, p);
            Plan *q = plans + plan->parent;
            if (q->children == 64) return answer(6, 0, p);
            plan->rank = q->children++;
            q->named += plan->flags >> 2 & 1;
            if (plan->flags & NAMED) plan->row = rule == 2 && q->flags & RETRY ? 2 : 1;
        }
    }
    for (unsigned p = 0; p < n; p++) {
        const Plan *e = plans + p;
        if (e->body > IF_THEN_ELSE || e->flags >> 3 || (e->present | e->manual | e->overridable) >> 6) return answer(7, 0, p);
    }
    for (unsigned p = 0; p < n; p++) {
        Plan *e = plans + p;
        int leaf = e->body == LEAF;
        if (leaf != (e->children == 0) || ((e->manual | e->overridable) & ~e->present) || (p == 0 && e->flags & NAMED)
            || (leaf && (e->wait || e->flags & (RETRY | OPTIONAL)))
            || (e->body >= ON_ABORT && (e->children != 2 || e->flags & RETRY)))
            return answer(8, 0, p);
        e->done = done[e->body][e->flags & RETRY];
        e->lets = lets[e->body][e->flags & RETRY];
    }
    if (version == 2) return read_formulas(rule, t + end, n, plans, f);
    for (unsigned p = 0; p < n; p++)
        if (plans[p].wait > plans[p].named) return answer(9, 0, p);
    return 0;
}

/* Whether the formula from node i on holds of a set of children, of which some are named. */
static int truth(const Node *nodes, unsigned i, uint64_t set, uint64_t named) {
    const Node *e = nodes + i;
    switch (e->kind) {
    case CHILD:
        return set >> e->a & 1;
    case NOT:
        return !truth(nodes, e->a, set, named);
    case AND:
        return truth(nodes, e->a, set, named) && truth(nodes, e->b, set, named);
    case OR:
        return truth(nodes, e->a, set, named) || truth(nodes, e->b, set, named);
    case XOR:
        return truth(nodes, e->a, set, named) != truth(nodes, e->b, set, named);
    default:
        return __builtin_popcountll(set & named) >= e->a;
    }
}

/* What the formulas say of the plans in execution, into their counters. */
static void judge(const Plan *plans, unsigned n, const uint8_t *old, const Formulas *f, Survey *s) {
    uint64_t lost[MOST], completed[MOST];
    memset(lost, 0, n * sizeof lost[0]);
    memset(completed, 0, n * sizeof completed[0]);
    for (unsigned p = 1; p < n; p++) {
        unsigned q = plans[p].parent, state = old[p];
        lost[q] |= (uint64_t)(f->lost[q] >> state & 1) << plans[p].rank;
        completed[q] |= (uint64_t)(state == COMPLETED) << plans[p].rank;
    }
    for (unsigned k = 0; k < f->count; k++) {
        unsigned p = f->plan[k];
        if (old[p] != ACTIVATED && old[p] != SUSPENDED) continue;
        if (!truth(f->nodes, f->first[k], ~lost[p], f->named[p])) s->counts[p] += ONE(LOST_NAMED);
        if (truth(f->nodes, f->first[k], completed[p], f->named[p])) s->counts[p] += ONE(DONE_NAMED);
    }
}

static inline int contradicts(uint32_t x) {
    return (x & ~(x >> 6) & 3) != 0;
}

/* Whether bits from 20 on, picks apart, are wrong: a plan of body 8 may have 21, alone or with 20. */
static inline int stray(const Plan *e, unsigned from_20) {
    return from_20 && (e->body != IF_THEN_ELSE || from_20 >> 1 != 1);
}

/* One pass: what each plan's children are at. `shown` is NULL for a step, whose choices come from the picks. */
static void survey(const Plan *plans, unsigned n, const uint8_t *old, const uint8_t *shown, Survey *s) {
    memset(s->counts, 0, n * sizeof s->counts[0]);
    memset(s->first, 0, n * sizeof s->first[0]);
    memset(s->choice, 0, n * sizeof s->choice[0]);
    for (unsigned p = 1; p < n; p++) {
        unsigned q = plans[p].parent, state = old[p];
        s->counts[q] += counted[plans[p].row][state];
        if (!s->first[q] && !(plans[q].done >> state & 1)) s->first[q] = (uint16_t)p;
        if (state == READY && shown) {
            /* the lowest Ready child that is shown Activated, else the highest Ready one */
            unsigned c = s->choice[q];
            if (!c || shown[c] != ACTIVATED) s->choice[q] = (uint16_t)p;
        }
    }
}

/* What a Ready child has for it where one is chosen: most that it is the pick, else that it is named. */
static inline unsigned claim(const Plan *e, unsigned pick) {
    return e->rank == pick ? 2 * NAMED : e->flags & NAMED;
}

/* The picks' choices: the Ready child of that rank, else the lowest Ready one that is named, else the lowest Ready one. */
static void choose(const Plan *plans, unsigned n, const uint8_t *old, const uint8_t *words, Survey *s) {
    for (unsigned p = 1; p < n; p++) {
        if (old[p] != READY) continue;
        unsigned q = plans[p].parent, c = s->choice[q], pick = word_of(words, q) >> 24 & 63;
        if (!c || claim(plans + p, pick) > claim(plans + c, pick)) s->choice[q] = (uint16_t)p;
    }
}

/* Whether all children count as ended: of bodies 5 to 8 also an Inactive one beside an ended one, unless its turn has come. */
static inline int all_ended(const Plan *e, uint64_t counts) {
    if (!COUNT(counts, NOT_ENDED)) return 1;
    if (e->body < ON_ABORT || COUNT(counts, NOT_ENDED) != 1 || !COUNT(counts, IDLE)) return 0;
    return !((e->body == ON_ABORT || e->body == ON_ABORT_OR_SUSPEND) && COUNT(counts, ABORTED_ONES));
}

/* The conditions of a plan that hold under its word. */
static inline unsigned holding(const Plan *e, uint32_t x) {
    unsigned holds = x & (~(unsigned)e->manual | x >> 8);
    holds |= e->overridable & x >> 14;
    return (holds & e->present) | (ABSENT_HOLD & ~(unsigned)e->present);
}

/* The new state of plan p in execution or under a parent in execution. */
static inline unsigned move_on(const Plan *plans, const Survey *s, const uint8_t *words, unsigned p, unsigned old, int held, int orders) {
    const Plan *e = plans + p;
    uint32_t x = word_of(words, p);
    unsigned holds = holding(e, x);
    switch (old) {
    case INACTIVE: {
        if (!orders) return INACTIVE;
        if (p == 0) return CONSIDERED;
        unsigned q = e->parent, body = plans[q].body;
        if (body >= PARALLEL && body <= UNORDERED) return CONSIDERED;
        if (body != IF_THEN_ELSE) return s->first[q] == p ? CONSIDERED : INACTIVE;
        /* a first child is the plan just behind its parent */
        return COUNT(s->counts[q], IDLE) == 2 && (word_of(words, q) >> 20 & 3) == (p == q + 1 ? 3 : 0) ? CONSIDERED : INACTIVE;
    }
    case CONSIDERED:
    case POSSIBLE: {
        unsigned k = old == CONSIDERED ? FILTER : SETUP;
        if (holds & k) return old + 1;
        return (~(unsigned)e->present | x >> 6 | e->overridable) & k ? old : REJECTED;
    }
    case READY: {
        if (!orders) return READY;
        if (p == 0) return ACTIVATED;
        const Plan *q = plans + e->parent;
        uint64_t counts = s->counts[e->parent];
        switch (q->body) {
        case SEQUENTIAL:
            return s->first[e->parent] == p ? ACTIVATED : READY;
        case PARALLEL:
            return !COUNT(counts, WAITING) || COUNT(counts, BEGUN) ? ACTIVATED : READY;
        case ANY_ORDER:
            if (COUNT(counts, EXECUTING) || (q->flags & RETRY && COUNT(counts, ABORTED_ONES))) return READY;
            return s->choice[e->parent] == p ? ACTIVATED : READY;
        default:
            return ACTIVATED;
        }
    }
    case ACTIVATED:
    case SUSPENDED: {
        uint64_t counts = s->counts[p];
        if (holds & ABORT || e->named - COUNT(counts, LOST_NAMED) < e->wait) return ABORTED;
        if (old == SUSPENDED) return !held && holds & REACTIVATE ? ACTIVATED : SUSPENDED;
        if (held || holds & SUSPEND) return SUSPENDED;
        int may = COUNT(counts, DONE_NAMED) >= e->wait && (!(e->flags & OPTIONAL) || all_ended(e, counts));
        return holds & COMPLETE && may ? COMPLETED : ACTIVATED;
    }
    case ABORTED: {
        if (!orders || p == 0) return ABORTED;
        const Plan *q = plans + e->parent;
        if (!(q->flags & RETRY)) return ABORTED;
        return q->body != SEQUENTIAL || s->first[e->parent] == p ? CONSIDERED : ABORTED;
    }
    default:
        return old;
    }
}

/* The new state of plan p, where `now` has those of the plans before it. */
static inline unsigned next(const Plan *plans, const Survey *s, const uint8_t *old, const uint8_t *now, const uint8_t *words, unsigned p) {
    if (p == 0) return move_on(plans, s, words, 0, old[0], 0, 1);
    unsigned q = plans[p].parent, above_now = now[q];
    if (above_now < ACTIVATED) return INACTIVE;
    if (above_now > SUSPENDED) return cut_off[old[p]];
    int held = above_now == SUSPENDED;
    return move_on(plans, s, words, p, old[p], held, !held && old[q] == ACTIVATED);
}

/* Check 11. */
static uint64_t check_states(const Plan *plans, unsigned n, const uint8_t *states) {
    uint8_t running[MOST], undone[MOST];
    memset(running, 0, n);
    memset(undone, 0, n);
    for (unsigned p = 0; p < n; p++) {
        unsigned state = states[p];
        if (state > REJECTED) return answer(11, 0, p);
        if (p == 0) continue;
        unsigned q = plans[p].parent, up = states[q];
        int suits = up == ACTIVATED || (up == SUSPENDED && state != ACTIVATED) || state == INACTIVE
                    || ((up == COMPLETED || up == ABORTED) && state >= COMPLETED);
        int executing = state == ACTIVATED || state == SUSPENDED;
        unsigned body = plans[q].body;
        if (!suits || (body == ANY_ORDER && executing && running[q])
            || ((body == SEQUENTIAL || body >= ON_ABORT) && state != INACTIVE && undone[q]))
            return answer(11, 0, p);
        running[q] |= (uint8_t)executing;
        undone[q] |= !(plans[q].lets >> state & 1);
    }
    return 0;
}

/* Check 12 of words that are held. */
static uint64_t check_words(const Plan *plans, unsigned n, const uint8_t *words) {
    for (unsigned p = 0; p < n; p++) {
        uint32_t x = word_of(words, p), pick = x >> 24 & 63;
        int allowed = plans[p].body == ANY_ORDER ? pick < plans[p].children : pick == 0;
        if (stray(plans + p, x >> 20 & 0xC0F) || !allowed || contradicts(x)) return answer(12, 0, p);
    }
    return 0;
}

/* Checks 17, 1 to 8, 22 and 9 to 12. */
static uint64_t check_call(uint32_t rule, const uint8_t *t, size_t t_length, const uint8_t *states, size_t s_length,
                           const uint8_t *words, size_t w_length, size_t c_length, Plan *plans, Formulas *f) {
    uint64_t bad = read_table(rule, t, t_length, plans, f);
    if (bad) return bad;
    unsigned n = u16(t + 5);
    if (s_length != n || w_length != 4 * n || c_length != n) return 10;
    bad = check_states(plans, n, states);
    return bad ? bad : check_words(plans, n, words);
}

static void look_ahead(const Plan *plans, unsigned n, const Formulas *f, const uint8_t *states, const uint8_t *words, uint8_t *now) {
    Survey s;
    survey(plans, n, states, NULL, &s);
    if (f->count) judge(plans, n, states, f, &s);
    choose(plans, n, states, words, &s);
    for (unsigned p = 0; p < n; p++) now[p] = (uint8_t)next(plans, &s, states, now, words, p);
}

/* Why a plan moved, from its old state to that of now, where its parent is in `above_now`. */
static inline unsigned cause(const Plan *e, uint32_t x, unsigned old, unsigned now, unsigned above_now) {
    if (above_now != ACTIVATED && above_now != SUSPENDED) return FORCED;
    switch (now) {
    case CONSIDERED:
        return ORDERED;
    case ACTIVATED:
        return old == READY ? ORDERED : OWN_CONDITION;
    case SUSPENDED:
        return above_now == SUSPENDED ? FORCED : OWN_CONDITION;
    case ABORTED:
        return holding(e, x) & ABORT ? OWN_CONDITION : CHILDREN_LOST;
    default:
        return OWN_CONDITION;
    }
}

/* The causes of a step, told behind it, so that the checker need not ask for them. */
static void tell(const Plan *plans, unsigned n, const uint8_t *old, const uint8_t *now, const uint8_t *words, uint8_t *causes) {
    memset(causes, UNMOVED, n);
    for (unsigned p = 0; p < n; p++) {
        if (old[p] == now[p]) continue;
        unsigned above_now = p ? now[plans[p].parent] : ACTIVATED;
        causes[p] = (uint8_t)cause(plans + p, word_of(words, p), old[p], now[p], above_now);
    }
}

uint64_t plain_step(uint32_t rule, const uint8_t *table, size_t table_length, uint8_t *states, size_t states_length,
                    const uint8_t *words, size_t words_length, uint8_t *causes, size_t causes_length) {
    Plan plans[MOST];
    Formulas f;
    uint64_t bad = check_call(rule, table, table_length, states, states_length, words, words_length, causes_length, plans, &f);
    if (bad) return bad;
    uint8_t now[MOST];
    look_ahead(plans, (unsigned)states_length, &f, states, words, now);
    tell(plans, (unsigned)states_length, states, now, words, causes);
    memcpy(states, now, states_length);
    return 0;
}

uint64_t plain_rest(uint32_t rule, const uint8_t *table, size_t table_length, uint8_t *states, size_t states_length,
                    const uint8_t *words, size_t words_length, uint8_t *causes, size_t causes_length, uint16_t budget) {
    Plan plans[MOST];
    Formulas f;
    uint64_t bad = check_call(rule, table, table_length, states, states_length, words, words_length, causes_length, plans, &f);
    if (bad) return bad;
    uint8_t now[MOST], last[MOST]; /* what the last step that was taken began with; as long as there is none, nothing has moved */
    memcpy(last, states, states_length);
    for (unsigned k = 0;; k++) {
        look_ahead(plans, (unsigned)states_length, &f, states, words, now);
        int rests = !memcmp(states, now, states_length);
        if (rests || k == budget) {
            tell(plans, (unsigned)states_length, last, states, words, causes);
            return answer(0, k, !rests);
        }
        memcpy(last, states, states_length);
        memcpy(states, now, states_length);
    }
}

uint64_t plain_check(uint32_t rule, const uint8_t *table, size_t table_length, const uint8_t *record, size_t record_length) {
    Plan plans[MOST];
    Formulas f;
    uint64_t bad = read_table(rule, table, table_length, plans, &f);
    if (bad) return bad;
    unsigned n = u16(table + 5);
    if (record_length < 8 || memcmp(record, "APR", 3) || u16(record + 3) != 1 || u16(record + 5) != n || record[7]) return 13;
    size_t body = record_length - 8, size = 5 * (size_t)n, steps = body / size;
    if (body % size || steps > 65535) return 14;
    static const uint8_t idle[MOST];
    const uint8_t *old = idle, *words = record + 8;
    for (unsigned i = 1; i <= steps; i++, words += size) {
        const uint8_t *shown = words + 4 * n;
        for (unsigned p = 0; p < n; p++) {
            uint32_t x = word_of(words, p);
            if (stray(plans + p, x >> 20) || contradicts(x)) return answer(12, i, p);
        }
        Survey s;
        survey(plans, n, old, shown, &s);
        if (f.count) judge(plans, n, old, &f, &s);
        for (unsigned p = 0; p < n; p++)
            if (next(plans, &s, old, shown, words, p) != shown[p]) return answer(15, i, p);
        old = shown;
    }
    return answer(0, (unsigned)steps, 0);
}

/* Checks 1 to 8, 22 and 9 for a call by no rule: any will do. */
static uint64_t read_alone(const uint8_t *t, size_t length, Plan *plans, Formulas *f) {
    return read_table(1, t, length, plans, f);
}

uint64_t plain_bound(const uint8_t *table, size_t table_length, const uint8_t *words, size_t words_length) {
    Plan plans[MOST];
    Formulas f;
    uint64_t bad = read_alone(table, table_length, plans, &f);
    if (bad) return bad;
    unsigned n = u16(table + 5);
    if (words_length != 4 * n) return 10;
    bad = check_words(plans, n, words);
    if (bad) return bad;
    for (unsigned p = 0; p < n; p++) {
        int both = !(~holding(plans + p, word_of(words, p)) & (SUSPEND | REACTIVATE));
        if (both || plans[p].flags & RETRY) return answer(0, 0, 1);
    }
    return answer(0, 6 * n, 0);
}

/* The same checks of a table that has to be of this version. */
static uint64_t read_version(unsigned version, const uint8_t *t, size_t length, Plan *plans, Formulas *f) {
    if (length >= 8 && !memcmp(t, "APT", 3) && u16(t + 3) != version) return 3;
    return read_alone(t, length, plans, f);
}

uint64_t plain_to_version_2(const uint8_t *table, size_t table_length, uint8_t *output, size_t output_length) {
    Plan plans[MOST];
    Formulas f;
    uint64_t bad = read_version(1, table, table_length, plans, &f);
    if (bad) return bad;
    unsigned n = u16(table + 5), count = 0;
    for (unsigned p = 0; p < n; p++) count += plans[p].children > 0;
    size_t needed = table_length + 2 + 4 * (size_t)count;
    if (output_length < needed) return 24;
    memcpy(output, table, table_length);
    output[3] = 2;
    output[table_length] = (uint8_t)count;
    output[table_length + 1] = (uint8_t)(count >> 8);
    uint8_t *nodes = output + table_length + 2;
    for (unsigned p = 0, i = 0; p < n; p++) {
        if (!plans[p].children) continue;
        const Node node = {AT_LEAST, plans[p].wait, 0, 0};
        memcpy(nodes + 4 * i, &node, sizeof node);
        output[8 + 8 * p + 7] = (uint8_t)i++;
    }
    return answer(0, (unsigned)needed, 0);
}

uint64_t plain_to_version_1(const uint8_t *table, size_t table_length, uint8_t *output, size_t output_length) {
    Plan plans[MOST];
    Formulas f;
    uint64_t bad = read_version(2, table, table_length, plans, &f);
    if (bad) return bad;
    /* each node is used, so that there is one of another kind exactly where a formula begins with one */
    if (f.count) return 23;
    unsigned n = u16(table + 5);
    size_t needed = 8 + 8 * (size_t)n;
    if (output_length < needed) return 24;
    memcpy(output, table, needed);
    output[3] = 1;
    for (unsigned p = 0; p < n; p++) output[8 + 8 * p + 7] = plans[p].wait;
    return answer(0, (unsigned)needed, 0);
}
