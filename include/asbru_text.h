/*
 * asbru_text.h: a text for each state, cause, body, kind of node and answer's number of asbru.h, for what a host shows to people. NOT
 * PROVED: these are words and nothing more. docs/RULES.md says more of each number, in paragraph 10.number.
 */
#ifndef ASBRU_TEXT_H
#define ASBRU_TEXT_H

#include "asbru.h"

/* The name of a state; of a byte that is no state, text that says so. */
static inline const char *asbru_state_text(unsigned state) {
    switch (state) {
    case ASBRU_INACTIVE: return "Inactive";
    case ASBRU_CONSIDERED: return "Considered";
    case ASBRU_POSSIBLE: return "Possible";
    case ASBRU_READY: return "Ready";
    case ASBRU_ACTIVATED: return "Activated";
    case ASBRU_SUSPENDED: return "Suspended";
    case ASBRU_COMPLETED: return "Completed";
    case ASBRU_ABORTED: return "Aborted";
    case ASBRU_REJECTED: return "Rejected";
    default: return "in no state";
    }
}

/* Why a plan moved, in words that can follow its new state; of a byte that is no cause, text that says so. */
static inline const char *asbru_cause_text(unsigned cause) {
    switch (cause) {
    case ASBRU_UNMOVED: return "unmoved";
    case ASBRU_ORDERED: return "ordered by the parent";
    case ASBRU_OWN_CONDITION: return "by its own condition";
    case ASBRU_CHILDREN_LOST: return "children lost";
    case ASBRU_FORCED: return "forced by the parent's state";
    default: return "for no cause that has a meaning";
    }
}

/* The name of a body; of a byte that is no body, text that says so. */
static inline const char *asbru_body_text(unsigned body) {
    switch (body) {
    case ASBRU_LEAF: return "leaf";
    case ASBRU_SEQUENTIAL: return "sequential";
    case ASBRU_PARALLEL: return "parallel";
    case ASBRU_ANY_ORDER: return "any-order";
    case ASBRU_UNORDERED: return "unordered";
    case ASBRU_ON_ABORT: return "on abort";
    case ASBRU_ON_SUSPEND: return "on suspend";
    case ASBRU_ON_ABORT_OR_SUSPEND: return "on abort or suspend";
    case ASBRU_IF_THEN_ELSE: return "if-then-else";
    default: return "none that has a meaning";
    }
}

/* What a node asks, by its kind; of a byte that is no kind, text that says so. */
static inline const char *asbru_node_text(unsigned kind) {
    switch (kind) {
    case ASBRU_CHILD: return "child of a rank";
    case ASBRU_NOT: return "not";
    case ASBRU_AND: return "and";
    case ASBRU_OR: return "or";
    case ASBRU_XOR: return "xor";
    case ASBRU_AT_LEAST: return "at least so many named children";
    default: return "none that has a meaning";
    }
}

/* What an answer's number means, in half a sentence that can follow the plan and step that the answer names; of 22 the node, or nothing. */
static inline const char *asbru_number_text(unsigned number) {
    switch (number) {
    case ASBRU_DONE: return "done";
    case ASBRU_REFUSED_TABLE_SHORT: return "the table is shorter than its header of 8 bytes";
    case ASBRU_REFUSED_TABLE_MARK: return "the table does not begin with its mark APT";
    case ASBRU_REFUSED_TABLE_VERSION: return "the table's version is neither 1 nor 2, or not the one that it is to be moved from";
    case ASBRU_REFUSED_TABLE_COUNT: return "the table does not count 1 to 256 plans, or byte 7 of its header is not 0";
    case ASBRU_REFUSED_TABLE_LENGTH: return "the table's length does not fit the plans and nodes that it counts";
    case ASBRU_REFUSED_PARENT: return "its parent is neither the plan before it nor above that one (of plan 0: is not 65535), or it is a 65th child";
    case ASBRU_REFUSED_UNDEFINED: return "its body is above 8, or its entry has a bit without a meaning";
    case ASBRU_REFUSED_UNFIT:
        return "its body does not fit its children or its retry-aborted, an absent condition is manual or overridable, it is the root "
               "and named, or it is a leaf that waits or retries";
    case ASBRU_REFUSED_WAIT: return "it waits for more named children than it has";
    case ASBRU_REFUSED_LENGTHS: return "the states, the words or the causes have not the length that the number of plans asks for";
    case ASBRU_REFUSED_STATE: return "its state cannot stand beside those of the plans before it";
    case ASBRU_REFUSED_WORD:
        return "its word has a bit that has no meaning there, a pick that is not allowed, or a condition satisfied that cannot be";
    case ASBRU_REFUSED_RECORD_HEADER: return "the record's header is short, or not of this table";
    case ASBRU_REFUSED_RECORD_LENGTH: return "the record does not end with a whole step, or has over 65535 steps";
    case ASBRU_REFUSED_UNEXPLAINED: return "no picks lead to the state shown";
    case ASBRU_REFUSED_INPUT_LONG: return "the input is over the program's 65536 bytes";
    case ASBRU_REFUSED_RULE_NUMBER: return "the rule number is neither 1 nor 2";
    case ASBRU_REFUSED_VALUE_RANGE: return "a number of the annotation or a minute is out of range";
    case ASBRU_REFUSED_MANY_SAMPLES: return "there are more than 1024 samples";
    case ASBRU_REFUSED_TIMES_ORDER: return "the samples' minutes do not rise, or the last is after the minute of asking";
    case ASBRU_REFUSED_NO_INTERVAL: return "the annotation admits no interval";
    case ASBRU_REFUSED_FORMULA:
        return "it has a byte without a meaning, an operand that is not above it or not there, another number of uses than one, or a rank "
               "without a child; or, where 0 is named, the table may have over 256 nodes or a formula whose first node is not there";
    case ASBRU_REFUSED_NODE_KIND: return "a node of the table is of another kind than 5, so that it cannot be moved to version 1";
    case ASBRU_REFUSED_OUTPUT_SHORT: return "the output has less room than what is to be written takes";
    case ASBRU_REFUSED_NORMAL_RANGE: return "a number of the normal form is out of range";
    default: return "no number of this library";
    }
}

#endif
