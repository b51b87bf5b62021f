/*
 * asbru.h: the rules of Asbru plans, for a host program in C or C++.
 *
 * Four functions over byte buffers that the caller owns: one step, a run to rest, how many steps such a run can take, and the checker of
 * treatment records. Two move a table from one version to the other, and three make what a word says of a pattern from how long the pattern
 * has held. All are written in Rattle and proved (crate `tablet`). Link with libasbru.a, which `make` writes for x86-64. docs/RULES.md,
 * which `make install` puts into share/doc/asbru, has the rules in words, in numbered paragraphs: 'RULES 5.3' here. asbru_text.h, which is
 * not proved, has a text for each state, cause, body, kind of node and number.
 *
 *
 * RULE 1 AND RULE 2
 *
 * asbru_step, asbru_rest and asbru_check take the number of a rule first, one of `enum asbru_rule`; any other number is refused before all
 * else. (asbru_bound takes none: what it answers holds by both.) The rules differ in one thing, the children that are lost to a plan with
 * retry-aborted (RULES 1.8, 5.13). Treatments of now go by ASBRU_RULE_2; ASBRU_RULE_1 is for records that were kept before it came. A
 * record does not say by which rule it was kept: whoever keeps both kinds keeps them apart.
 *
 *
 * BUFFERS
 *
 * Each buffer of bytes is a pointer followed by its length in bytes; samples are a pointer followed by their number, and an annotation is a
 * pointer to its ASBRU_BOUNDS numbers. The pointer may be NULL where the length is 0. Any bytes, numbers and lengths may be handed in: what
 * is wrong with them is answered by number and place. The caller keeps two promises that no code can check: what it hands in is there
 * (readable, and `states`, `causes`, `output` and the annotation to be normalised writable), and `states`, `causes` and `output` overlap no
 * other buffer of the call: a table cannot be moved onto itself. Numbers are little-endian. n is the number of plans, 1 to 256; plans are
 * numbered from 0, parents before their children.
 *
 * Table: 8 + 8n bytes in version 1, and in version 2 the nodes behind them: 8 + 8n + 2 + 4k bytes.
 *   0-2  the mark 'A' 'P' 'T'
 *   3-4  the version, ASBRU_FORMAT or ASBRU_FORMAT_2: whether its plans wait for a number of children or for a formula
 *   5-6  n
 *   7    0
 *   then 8 bytes for each plan, in preorder (a plan, then all plans under its first child, then those under its second, ..):
 *   0-1  the parent's number: of plan 0 ASBRU_NO_PARENT, of any other plan the plan just before it or an ancestor of that one. A plan
 *        has at most 64 children; a child's rank is its place among them, from 0
 *   2    the body, one of `enum asbru_body`. Leaf exactly when the plan has no children. A body from ASBRU_ON_ABORT on has exactly two
 *        children, the first and the second, and no retry-aborted
 *   3    flags, of `enum asbru_flag`
 *   4    conditions present: the bits ASBRU_BIT of `enum asbru_condition`
 *   5    conditions that are manual, with the same bits; only of present ones
 *   6    conditions that are overridable, with the same bits; only of present ones
 *   7    of a leaf 0. In version 1 the wait number m: how many named children wait-for asks for; at most the number of named children.
 *        In version 2 the number of the first node of the plan's formula. Wait-for is asked twice: the plan completes only where it holds
 *        of the Completed children, and is Aborted where it does not hold of those that are not lost. Lost are Rejected and Aborted ones;
 *        of a plan with retry-aborted see RULE 1 AND RULE 2 (RULES 3.9, 5.13, 5.14)
 *   in version 2 then the number of nodes k, 16 bits, at most 256, and 4 bytes for each node, numbered from 0; asbru_put_nodes and
 *   asbru_put_node put them:
 *   0    its kind, one of `enum asbru_node`
 *   1    a: of ASBRU_CHILD a child's rank, below the number of children of the plan in whose formula the node stands, be the child named
 *        or not; of ASBRU_AT_LEAST how many named children there must be, at most those that the plan has; of any other kind the node that
 *        it asks, its operand
 *   2    b: of ASBRU_AND, ASBRU_OR and ASBRU_XOR the other operand; of any other kind 0
 *   3    0
 *   An operand has a higher number than the node that asks it, and is there. Each node is used exactly once: it is the first of one plan's
 *   formula, or one operand of one node.
 *
 * States: n bytes, one of `enum asbru_state` for each plan. A treatment starts with all of them ASBRU_INACTIVE and goes on, after a restart
 *   too, from those that asbru_step or asbru_rest last left. What is handed in must suit (RULES section 7; else number 11), as these do.
 *
 * Words: 4n bytes, a 32-bit word for each plan, which says what is so of that plan in one step. It is put together by `|` from the
 *   ASBRU_ macros below; asbru_put_word puts it at its place. All other bits are 0.
 *
 * Causes: n bytes, which asbru_step and asbru_rest write: one of `enum asbru_cause` for each plan, why it moved in that step (RULES section
 *   15). What stood there before is not looked at, and nothing reads them again: neither the next step nor a record needs them.
 *
 * Record: 8 bytes, and 5n more for each of its 0 to 65535 steps.
 *   0-7  a header as the table's, with the mark 'A' 'P' 'R' and the same n; its version is ASBRU_FORMAT, whatever the table's
 *   then for each step 4n bytes of words, with pick bits 0 (ASBRU_PICK_BITS), and the n states after that step. Before step 1 all
 *   plans are Inactive.
 *
 * Output: room for the table that a move writes, 8 + 8n bytes in version 1, 8 + 8n + 2 + 4k in version 2, where k is the number of plans
 *   with children. ASBRU_MOST_MOVED bytes are enough for every table. There may be more room than the table takes: bytes past it stay.
 *
 *
 * WHAT WORDS DO, FOR THE AUTHOR OF A HOST
 *
 * The rules are RULES sections 4 to 6. This is what a host's author may trip over.
 * - Words are of one step: nothing is kept of them. A bit that should count in the next step is set again there.
 * - An absent filter, setup, reactivate or complete always holds, and an absent suspend or abort never does. Bits of an absent condition
 *   move nothing (but see number 12). So, if nothing aborts or suspends it, a leaf without complete is Completed in the step after its
 *   activation, and so is a plan without complete, with wait number 0 and without wait-for-optional, before it has considered any child
 *   (RULES 5.17): such a root, its wait number forgotten, gives an empty treatment that is in order.
 * - Where nothing is known yet, a word is not 0. A Considered plan is Rejected in the step in which its filter is present, does not hold,
 *   is not overridable and is not said to be satisfiable, a Possible one by its setup, and stays so unless a plan above it is retried; so
 *   the word of a plan that has them says ASBRU_SATISFIABLE of both. That of an if-then-else plan says ASBRU_IF_SATISFIABLE: without it the
 *   condition can no longer be satisfied, and while both children are Inactive the second is considered. Once one of them is, these bits
 *   move nothing (RULES 6.16, 6.17).
 * - A manual condition that is not overridden holds while its pattern is satisfied and it is triggered, both in the same word; a trigger
 *   alone does nothing. Override makes an overridable condition hold whatever else the word says (number 12 apart). On a condition that is
 *   not manual a trigger is not looked at, nor is an override on one that is not overridable. Of an Activated plan abort counts before
 *   suspend and suspend before complete; a Suspended one does not complete, and a trigger of complete is lost on it (RULES 5.10, 5.11).
 * - The pick moves something only where an any-order plan may activate a child (RULES 6.2, 6.7; number 12 reads it always). Where the child
 *   of that rank was not Ready, the pick counts for nothing, and the plan falls back on another Ready child, a named one if there is one
 *   (RULES 6.8). So a pick of 0, which is that of an empty word, is a pick too, and a child cannot be held back by picking one that is not
 *   Ready. Up to ASBRU_VERSION 6 a plan fell back on the Ready child of lowest rank, named or not: a host that wants that child picks it.
 *   No answer of asbru_check changed by that (RULES 9.14).
 * - ASBRU_NOT counts as it stands, for loss too. A plan that waits for 'not child 0' is Aborted in the step after its activation, before it
 *   has considered any child, since child 0 has not failed; with ASBRU_XOR of two children it is the same (RULES 5.22). Where child 0 need
 *   not be done, leave it out of the formula.
 * - A plan moves at most once in a step, and a child feels its parent's new state in the same step: where a plan ends, Completed too,
 *   its Activated and Suspended children are Aborted and its Considered, Possible and Ready ones Rejected (RULES 5.4). From all plans
 *   Inactive the root is Activated after four steps and its first children after eight, at the earliest.
 *
 *
 * HOW LONG A RUN TAKES
 *
 * asbru_bound tells before a run how many steps it takes at most (RULES section 14). It is asked with the table and the words that the run
 * will hold, and knows a figure, 6 * n, where no plan has ASBRU_RETRY_ABORTED and no plan has its suspend and its reactivate both holding
 * under its word; an absent reactivate always holds. With a budget of at least the figure asbru_rest rests, by both rules and from all
 * states that it does not refuse.
 *   Where no figure is known the run may rest all the same, or go on for ever. So give it a budget that the screen can wait for, and where
 * it is used up show that the plans still move; their states are then those of one moment, and no outcome.
 *   The figure is of held words. Once a word changes, be it a trigger or a pick, ask anew, and count anew from there.
 *
 *
 * HOW LONG A PATTERN HAS HELD
 *
 * Times are whole minutes, -ASBRU_MOST_MINUTES to ASBRU_MOST_MINUTES, counted from where the host likes. A time annotation is seven of
 * them, in the order of `enum asbru_time_bound`: earliest and latest start, earliest and latest finish, least and greatest duration,
 * reference point. The first four are shifts from the reference point. ASBRU_OPEN stands for a bound that is open: any but the least
 * duration, which is 0 or more, and the reference point. A greatest duration below 0 admits nothing.
 *   A history is at most ASBRU_MOST_SAMPLES samples, their minutes strictly rising, none after the minute of asking. A sample says whether
 * the underlying pattern is true from its minute until the next sample's, the last one through the minute of asking; at all other minutes
 * it counts as not true. asbru_sample makes one.
 *   An annotation is satisfied by a whole run of true minutes that keeps its bounds, cut short only at the earliest start or the latest
 * finish: a run that is still too long does not satisfy it (RULES 12.6). Satisfiable: RULES 12.8. What is satisfied is satisfiable.
 *   So a host that asks every condition's pattern and puts the answers into words by asbru_with_pattern hands in no word that number 12
 * refuses for being satisfied but not satisfiable. A host that counts from now hands in the minute of asking as the reference point: where
 * nothing may finish after it, what is not satisfied is not satisfiable either, since the past stays as it is, and at the first no a filter
 * or setup that is not overridable Rejects its plan, and an if-then-else plan takes its second child. What means 'as soon as it has held'
 * is counted from a fixed minute, with the finish open (RULES 12.11).
 *
 *
 * MOVING TABLES
 *
 * asbru_to_version_2 moves every good table of version 1 to version 2, asbru_to_version_1 a good one of version 2 to version 1 exactly
 * where all its nodes are ASBRU_AT_LEAST (RULES section 13). What is written passes all checks of a table and means the same: every step by
 * either rule is the same under both tables, and every record, which need not be touched, gets the same answer of asbru_check. Moved to
 * version 2 and back a table has its old bytes again; moved to version 1 and back, exactly where its nodes stood in the order of their
 * plans.
 *
 *
 * ANSWERS
 *
 * An answer is number + plan * 2^16 + step * 2^32; asbru_number, asbru_plan and asbru_step_of take it apart. ASBRU_DONE is success, and
 * each function below says what plan and step then are. Any other number of `enum asbru_answer` is a refusal. Checks are made in the order
 * of the numbers, but 17 first and 22 between 8 and 9, each over all plans before the next (asbru_bound: 1 to 8, 22, 9, 10, 12;
 * asbru_check: 17, 1 to 8, 22, 9, 13, 14, then step by step 12 before 15; a move: 1 to 8, 22, 9, 23, 24; asbru_pattern 18 to 20;
 * asbru_normalise 18, 21, 26), so a refusal is the first thing wrong. `plan` is the lowest plan concerned, of 22 the lowest node; `step`
 * counts from 1; both are 0 where the list names none.
 *
 *
 * WHAT A CALL TOUCHES
 *
 * `states` and `causes` are all that is written, by asbru_step and asbru_rest, `output` by the moves, and the annotation by
 * asbru_normalise, and only where the answer's number is ASBRU_DONE: after a refusal they are as they were. Of `output` the bytes of the
 * table are written, which the answer counts, and none past them. Nothing is allocated, nothing is kept from one call to the next, and
 * nothing global is read or written, so calls from several threads are independent as long as no thread writes a buffer that another call
 * uses: tables may be shared, states may not. Every call returns. A call of asbru_step, asbru_rest or asbru_check takes about 26 KiB of
 * stack, whatever it is handed, and in version 2 up to 16 KiB more, the deeper a formula goes (256 nodes at most). Its time grows with n
 * and k, of asbru_rest with both for each step taken (at most 65535), of asbru_check with the record's length, of asbru_pattern with the
 * number of samples. asbru_bound makes no steps: its time grows with n and k, and it takes about 6 KiB of stack, as a move does; the calls
 * about patterns less than 1 KiB.
 */
#ifndef ASBRU_H
#define ASBRU_H

#include <stddef.h>
#include <stdint.h>

#ifdef __cplusplus
extern "C" {
#endif

/* Raised by one whenever a function, a format, a number or a rule changes: CHANGELOG.md says how. */
#define ASBRU_VERSION 9

/* Limits, and the sizes of what buffers hold. */
enum asbru_size {
    ASBRU_FORMAT = 1,   /* the version of records, and of tables whose plans wait for a number of children */
    ASBRU_FORMAT_2 = 2, /* the version of tables whose plans wait for a formula */
    ASBRU_HEADER = 8,   /* bytes: of a table and of a record */
    ASBRU_ENTRY = 8,    /* bytes: a plan's in a table */
    ASBRU_NODE = 4,     /* bytes: a node's in a table */
    ASBRU_WORD = 4,     /* bytes: a plan's among the words */
    ASBRU_MOST_PLANS = 256,
    ASBRU_MOST_NODES = 256,
    ASBRU_MOST_CHILDREN = 64, /* of one plan */
    ASBRU_MOST_STEPS = 65535, /* of a record, and the largest budget */
    ASBRU_MOST_MOVED = 3078, /* bytes: of a table that a move writes, 8 + 8 * 256 + 2 + 4 * 255 */
    ASBRU_MOST_SAMPLES = 1024, /* of a history */
    ASBRU_MOST_MINUTES = 1000000000, /* before and after minute 0 */
    ASBRU_NO_PARENT = 65535
};

/* Which children are lost to a plan with retry-aborted: see RULE 1 AND RULE 2. */
enum asbru_rule {
    ASBRU_RULE_1 = 1, /* Rejected and Aborted ones: for records of before */
    ASBRU_RULE_2 = 2  /* Rejected ones only: for what is treated now */
};

/* Byte 2 of a plan's entry: which children it considers and activates, and when (RULES 6.4 to 6.8, 6.13 to 6.17). */
enum asbru_body {
    ASBRU_LEAF,
    ASBRU_SEQUENTIAL,
    ASBRU_PARALLEL,
    ASBRU_ANY_ORDER,
    ASBRU_UNORDERED,
    /* these have exactly two children: the second is for when the first is Aborted, Suspended, or one of the two */
    ASBRU_ON_ABORT,
    ASBRU_ON_SUSPEND,
    ASBRU_ON_ABORT_OR_SUSPEND,
    ASBRU_IF_THEN_ELSE /* the first if a condition is satisfied, the second if it no longer can be */
};

/* Bits of byte 3. A leaf has neither of the first two, a body from ASBRU_ON_ABORT on not the first, plan 0 not the third. */
enum asbru_flag {
    ASBRU_RETRY_ABORTED = 1, /* its Aborted children are considered anew (RULES 6.3 to 6.7) */
    ASBRU_WAIT_FOR_OPTIONAL = 2, /* it completes only when all its children are Completed, Aborted or Rejected (RULES 5.14, but see 5.19) */
    ASBRU_NAMED = 4 /* counted by the parent's m or ASBRU_AT_LEAST, and first in the fallback (RULES 6.8); ASBRU_CHILD needs it not */
};

/* Byte 0 of a node: what it asks of some children of the plan in whose formula it stands, and what its a and b are. */
enum asbru_node {
    ASBRU_CHILD,   /* the child of rank a is one of them; b is 0 */
    ASBRU_NOT,     /* node a does not hold; b is 0. See WHAT WORDS DO before you use it */
    ASBRU_AND,     /* nodes a and b hold */
    ASBRU_OR,      /* node a or b holds, or both */
    ASBRU_XOR,     /* one of nodes a and b holds, and the other does not */
    ASBRU_AT_LEAST /* at least a of them are named; b is 0 */
};

/* The six conditions, by their bits in bytes 4 to 6 and in a word. */
enum asbru_condition {
    ASBRU_FILTER,
    ASBRU_SETUP,
    ASBRU_SUSPEND,
    ASBRU_REACTIVATE,
    ASBRU_ABORT,
    ASBRU_COMPLETE
};

/* The bit of a condition in bytes 4 to 6. */
#define ASBRU_BIT(c) (1u << (c))

/* The state of a plan. */
enum asbru_state {
    ASBRU_INACTIVE,
    ASBRU_CONSIDERED,
    ASBRU_POSSIBLE,
    ASBRU_READY,
    ASBRU_ACTIVATED,
    ASBRU_SUSPENDED,
    ASBRU_COMPLETED,
    ASBRU_ABORTED,
    ASBRU_REJECTED
};

/* Why a plan moved in a step: a byte of the causes (RULES section 15). */
enum asbru_cause {
    ASBRU_UNMOVED,       /* its state is as it was */
    ASBRU_ORDERED,       /* its parent considered, activated or retried it; the root's moves to Considered and from Ready count so too */
    ASBRU_OWN_CONDITION, /* its filter, setup, suspend, reactivate, abort or complete: it held, or filter or setup is not satisfiable */
    ASBRU_CHILDREN_LOST, /* too many of its children were lost, and its own abort does not hold */
    ASBRU_FORCED         /* its parent's new state: reset to Inactive, Rejected or Aborted under an ended one, Suspended with it */
};

/* What a word says, c being a condition. Bits 0-5: its pattern is satisfied. */
#define ASBRU_SATISFIED(c) ((uint32_t)1 << (c))
/* Bits 6, 7: filter or setup can still be satisfied; set wherever it is satisfied, whether or not the plan has the condition. */
#define ASBRU_SATISFIABLE(c) ((uint32_t)1 << (6 + (c)))
/* Bits 8-13: the trigger of a manual condition. */
#define ASBRU_TRIGGER(c) ((uint32_t)1 << (8 + (c)))
/* Bits 14-19: the override of an overridable condition. */
#define ASBRU_OVERRIDE(c) ((uint32_t)1 << (14 + (c)))
/* Bits 20, 21: the condition of an if-then-else plan is satisfied, can still be satisfied; the second is set wherever the first is, and
   neither is in the word of any other plan. */
#define ASBRU_IF_SATISFIED ((uint32_t)1 << 20)
#define ASBRU_IF_SATISFIABLE ((uint32_t)1 << 21)
/* Bits 24-29: the rank of the child to be activated, of an any-order plan; below its number of children; 0 of any other plan. */
#define ASBRU_PICK(rank) ((uint32_t)(rank) << 24)
/* All bits of a pick: a record has none of them. */
#define ASBRU_PICK_BITS ASBRU_PICK(63)

/* The numbers of a time annotation, by their places. */
enum asbru_time_bound {
    ASBRU_EARLIEST_START,
    ASBRU_LATEST_START,
    ASBRU_EARLIEST_FINISH,
    ASBRU_LATEST_FINISH,
    ASBRU_LEAST_DURATION,
    ASBRU_GREATEST_DURATION,
    ASBRU_REFERENCE_POINT,
    ASBRU_BOUNDS /* how many they are */
};

/* A bound that is open. */
#define ASBRU_OPEN INT64_MIN

/* The plan of asbru_pattern's answer: a bit for each. Never the first alone. */
enum asbru_judgement {
    ASBRU_IS_SATISFIED = 1,
    ASBRU_IS_SATISFIABLE = 2
};

/* The condition of an if-then-else plan, for asbru_with_pattern only: it is no bit of a word, as those of `enum asbru_condition` are. */
#define ASBRU_IF 6

/*
 * The number of an answer: given exactly when what stands above it is the first that is so, in the order told under ANSWERS. In brackets
 * what else the answer names.
 */
enum asbru_answer {
    ASBRU_DONE = 0,
    /* the table is shorter than 8 bytes */
    ASBRU_REFUSED_TABLE_SHORT = 1,
    /* the table's mark is wrong */
    ASBRU_REFUSED_TABLE_MARK = 2,
    /* the table's version is neither 1 nor 2; of a move, it is not the one moved from */
    ASBRU_REFUSED_TABLE_VERSION = 3,
    /* n is outside 1 to 256, or byte 7 of the table is not 0 */
    ASBRU_REFUSED_TABLE_COUNT = 4,
    /* the table's length is not 8 + 8n; in version 2 not 8 + 8n + 2 + 4k, or under 8 + 8n + 2 */
    ASBRU_REFUSED_TABLE_LENGTH = 5,
    /* [plan] the parent rule is broken, or a plan has a 65th child (which is then the plan named) */
    ASBRU_REFUSED_PARENT = 6,
    /* [plan] the body is above 8, or an unused bit is set in bytes 3 to 6 */
    ASBRU_REFUSED_UNDEFINED = 7,
    /* [plan] the body does not fit the children; a body from ASBRU_ON_ABORT on has another number of children than two, or retry-aborted;
       an absent condition is manual or overridable; plan 0 is named; a leaf has a byte 7 other than 0, retry-aborted or
       wait-for-optional */
    ASBRU_REFUSED_UNFIT = 8,
    /* [plan] the wait number, or in version 2 that of an ASBRU_AT_LEAST in the plan's formula, is above the number of named children */
    ASBRU_REFUSED_WAIT = 9,
    /* the states or the causes are not n bytes or the words not 4n, of asbru_bound the words not 4n; never of asbru_check */
    ASBRU_REFUSED_LENGTHS = 10,
    /* [plan] a state is above 8 or does not suit those of the plans before it (RULES 7.5; so of two children the second); only of
       asbru_step and asbru_rest */
    ASBRU_REFUSED_STATE = 11,
    /* [plan; of asbru_check the step too] a word has an unused bit, a wrong pick (in a record: any pick bit), ASBRU_IF_SATISFIED without
       ASBRU_IF_SATISFIABLE, one of these two on a plan that is no if-then-else, or filter or setup satisfied but not satisfiable, whether
       or not the plan has the condition and whether or not it is overridable */
    ASBRU_REFUSED_WORD = 12,
    /* the record's header is short or wrong; only of asbru_check */
    ASBRU_REFUSED_RECORD_HEADER = 13,
    /* the record's length behind its header is not a multiple of 5n, or over 65535 steps; only of asbru_check */
    ASBRU_REFUSED_RECORD_LENGTH = 14,
    /* [plan, step] no picks lead to the states shown: this plan is the lowest p of which no picks explain plans 0 to p, in the first step
       where that is so; only of asbru_check */
    ASBRU_REFUSED_UNEXPLAINED = 15,
    /* the input is over 65536 bytes: of the programs `aprcheck`, `aptime` and `aptmove`, never of these functions */
    ASBRU_REFUSED_INPUT_LONG = 16,
    /* the rule number is neither 1 nor 2; looked for before all else, by the calls that take one */
    ASBRU_REFUSED_RULE_NUMBER = 17,
    /* a number of the annotation, the minute of asking or a sample's minute is out of range, however many samples there are */
    ASBRU_REFUSED_VALUE_RANGE = 18,
    /* there are more than 1024 samples */
    ASBRU_REFUSED_MANY_SAMPLES = 19,
    /* the samples' minutes do not rise strictly, or the minute of asking is before the last of them */
    ASBRU_REFUSED_TIMES_ORDER = 20,
    /* the annotation to be normalised admits no interval */
    ASBRU_REFUSED_NO_INTERVAL = 21,
    /* [0, or in the plan's place a node; looked for after 8 and before 9] of a table of version 2: with 0, there are more than 256 nodes,
       or byte 7 of a plan with children names a node that is not there; else the lowest node, which can be 0 too, that is not as BUFFERS
       asks, ranks last; the number of an ASBRU_AT_LEAST is 9's (RULES 10.22) */
    ASBRU_REFUSED_FORMULA = 22,
    /* a node of the table, which passes all checks above, is of another kind than ASBRU_AT_LEAST; only of asbru_to_version_1 */
    ASBRU_REFUSED_NODE_KIND = 23,
    /* the output has less room than the table to be written takes; only of a move */
    ASBRU_REFUSED_OUTPUT_SHORT = 24,
    /* a number of the normal form is out of range */
    ASBRU_REFUSED_NORMAL_RANGE = 26
};

/*
 * One step of all plans, by a rule and under these words. ASBRU_DONE, with plan 0 and step 0: the new states stand in `states`, and in
 * `causes` why each plan moved.
 */
uint64_t asbru_step(uint32_t rule, const uint8_t *table, size_t table_length, uint8_t *states, size_t states_length,
                    const uint8_t *words, size_t words_length, uint8_t *causes, size_t causes_length);

/*
 * Steps by a rule and under the same words until one more would change nothing, but no more steps than the budget. ASBRU_DONE: plan 0
 * says that it rested, and step after how many steps, which is the least such number and at most the budget; plan 1 says that it is still
 * moving, and step is the budget. `states` then holds the states after that many steps, and `causes` the causes of the last of them, all
 * ASBRU_UNMOVED if it took none. The states and causes between are not shown, and a record needs the states: a host that keeps one makes
 * single steps, and hands in a copy of its states where it only looks ahead.
 */
uint64_t asbru_rest(uint32_t rule, const uint8_t *table, size_t table_length, uint8_t *states, size_t states_length,
                    const uint8_t *words, size_t words_length, uint8_t *causes, size_t causes_length, uint16_t budget);

/*
 * The most steps that a run under these words takes, where that is known: see HOW LONG A RUN TAKES. ASBRU_DONE: plan 0 says that there is
 * a figure, and step is it, 6 * n; plan 1 says that none is known, and step is 0. Where step is k and plan 0, asbru_rest with this table,
 * these words and a budget of k or more, by either rule and from whatever states, refuses them or answers plan 0 with a step of at most k.
 * It writes nothing.
 */
uint64_t asbru_bound(const uint8_t *table, size_t table_length, const uint8_t *words, size_t words_length);

/*
 * Whether a treatment record can come from the rules under a table, by the rule named and for some picks. ASBRU_DONE, with plan 0:
 * accepted, and step is the number of steps. It writes nothing. With rule 1 or 2 and an empty record it tells whether a table is good:
 * ASBRU_REFUSED_RECORD_HEADER, exactly where none of the numbers 1 to 9 and 22 is given.
 */
uint64_t asbru_check(uint32_t rule, const uint8_t *table, size_t table_length, const uint8_t *record, size_t record_length);

/*
 * Writes a table of version 1, as one of version 2, at the start of `output`. ASBRU_DONE, with plan 0: step is the number of bytes written.
 */
uint64_t asbru_to_version_2(const uint8_t *table, size_t table_length, uint8_t *output, size_t output_length);

/*
 * Writes a table of version 2 whose nodes are all ASBRU_AT_LEAST, as one of version 1, at the start of `output`. ASBRU_DONE, with plan 0:
 * step is the number of bytes written.
 */
uint64_t asbru_to_version_1(const uint8_t *table, size_t table_length, uint8_t *output, size_t output_length);

/*
 * Whether a pattern's history satisfies a time annotation at the minute of asking, or still can. ASBRU_DONE, with step 0: plan is
 * ASBRU_IS_SATISFIED | ASBRU_IS_SATISFIABLE, ASBRU_IS_SATISFIABLE or 0. It writes nothing. `samples` may be NULL where `count` is 0.
 */
uint64_t asbru_pattern(const int64_t annotation[ASBRU_BOUNDS], const int64_t *samples, size_t count, int64_t asked);

/*
 * Puts an annotation's normal form in its place: the narrowest bounds that admit the same intervals. ASBRU_DONE, with plan 0 and step 0.
 * Ask asbru_pattern about the annotation itself: a bound that was open excuses no start or finish inside a longer run, and the normal
 * form's does, so that the answers may differ.
 */
uint64_t asbru_normalise(int64_t annotation[ASBRU_BOUNDS]);

/*
 * A word with what asbru_pattern answered for a condition, one of `enum asbru_condition` or ASBRU_IF: the bit for satisfied and, of
 * ASBRU_FILTER, ASBRU_SETUP and ASBRU_IF, the bit for satisfiable, set or cleared; all other bits stay. Where the answer's number is not
 * ASBRU_DONE or the condition is none of these, all bits stay: so begin with the word of which nothing is known (WHAT WORDS DO), not with
 * 0. Of the answer only its number and bits 16 and 17, the plan's lowest two, are read.
 */
uint32_t asbru_with_pattern(uint32_t word, uint32_t condition, uint64_t answer);

/* A sample: from this minute on the pattern is true, or is not. Where the minute is out of range, so is the sample (number 18). */
static inline int64_t asbru_sample(int64_t minute, int truth) {
    if (minute < -ASBRU_MOST_MINUTES || minute > ASBRU_MOST_MINUTES) return INT64_MAX;
    return 2 * minute + (truth != 0);
}

/* The number of an answer, one of `enum asbru_answer`. */
static inline unsigned asbru_number(uint64_t answer) {
    return (unsigned)(answer & 0xFFFF);
}

/* The plan of an answer. */
static inline unsigned asbru_plan(uint64_t answer) {
    return (unsigned)(answer >> 16 & 0xFFFF);
}

/* The step, or number of steps, of an answer; of a move the number of bytes written. */
static inline unsigned asbru_step_of(uint64_t answer) {
    return (unsigned)(answer >> 32);
}

/* Puts the word of a plan at its place among the words of a step. */
static inline void asbru_put_word(uint8_t *words, size_t plan, uint32_t word) {
    for (size_t k = 0; k < ASBRU_WORD; k++) words[ASBRU_WORD * plan + k] = (uint8_t)(word >> 8 * k);
}

/* The word of a plan among the words of a step. */
static inline uint32_t asbru_get_word(const uint8_t *words, size_t plan) {
    uint32_t word = 0;
    for (size_t k = 0; k < ASBRU_WORD; k++) word |= (uint32_t)words[ASBRU_WORD * plan + k] << 8 * k;
    return word;
}

/* Puts the header of a table ('T') or of a record ('R') of so many plans at the start of its bytes; a table's is of version 1. */
static inline void asbru_put_header(uint8_t *bytes, char kind, unsigned plans) {
    const uint8_t header[ASBRU_HEADER] = {'A', 'P', (uint8_t)kind, ASBRU_FORMAT, 0, (uint8_t)plans, (uint8_t)(plans >> 8), 0};
    for (size_t k = 0; k < ASBRU_HEADER; k++) bytes[k] = header[k];
}

/* Where a node of a table of version 2 stands; with the number of its nodes, the length of the table. */
static inline size_t asbru_node_at(size_t plans, size_t node) {
    return ASBRU_HEADER + ASBRU_ENTRY * plans + 2 + ASBRU_NODE * node;
}

/* Makes a table whose header is there one of version 2, with so many nodes. */
static inline void asbru_put_nodes(uint8_t *table, size_t plans, unsigned nodes) {
    uint8_t *count = table + ASBRU_HEADER + ASBRU_ENTRY * plans;
    table[3] = ASBRU_FORMAT_2;
    count[0] = (uint8_t)nodes;
    count[1] = (uint8_t)(nodes >> 8);
}

/* Puts a node at its place in a table of version 2: its kind, one of `enum asbru_node`, a, and b, 0 where the kind has none. */
static inline void asbru_put_node(uint8_t *table, size_t plans, size_t node, unsigned kind, unsigned a, unsigned b) {
    const uint8_t bytes[ASBRU_NODE] = {(uint8_t)kind, (uint8_t)a, (uint8_t)b, 0};
    for (size_t k = 0; k < ASBRU_NODE; k++) table[asbru_node_at(plans, node) + k] = bytes[k];
}

/* The bytes of one step of a record. */
static inline size_t asbru_step_size(size_t plans) {
    return (ASBRU_WORD + 1) * plans;
}

/* Puts one step of a record at its place: the words less their picks, which are the host's own, and the states after the step. */
static inline void asbru_put_step(uint8_t *step, size_t plans, const uint8_t *words, const uint8_t *states) {
    for (size_t p = 0; p < plans; p++) {
        asbru_put_word(step, p, asbru_get_word(words, p) & ~ASBRU_PICK_BITS);
        step[ASBRU_WORD * plans + p] = states[p];
    }
}

#ifdef __cplusplus
}
#endif

#endif
