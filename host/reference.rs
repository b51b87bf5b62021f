//! A slow and plain implementation of document 01, "Requirements and rules for the build", and of
//! requests (i), (ii) and (v) to (ix) of document 02, "Bodies for the bad turn", "A retried step should not
//! sink its parent", "Wait for this or both of those", "Moving the library of tables", "Do the mandatory one
//! first", "How long can it go on moving?" and "Say why it moved".
//!
//! It is written to be read beside the documents: in the order of document 01, in their words, one
//! small function for each rule. A sentence in quotation marks is document 01's own; behind "02 (i):",
//! "02 (ii):" and so on it is that request's. Nothing here is clever; where a rule can be looked up again
//! by walking over the whole table, it is.
//!
//! Tests, among them the brute-force search over all picks, are in self_test.rs.

// ------------------------------------------------------------------------------------------------
// States
// ------------------------------------------------------------------------------------------------

// "0 Inactive, 1 Considered, 2 Possible, 3 Ready, 4 Activated, 5 Suspended, 6 Completed,
//  7 Aborted, 8 Rejected."
pub const INACTIVE: u8 = 0;
pub const CONSIDERED: u8 = 1;
pub const POSSIBLE: u8 = 2;
pub const READY: u8 = 3;
pub const ACTIVATED: u8 = 4;
pub const SUSPENDED: u8 = 5;
pub const COMPLETED: u8 = 6;
pub const ABORTED: u8 = 7;
pub const REJECTED: u8 = 8;

/// "Selection is 1 to 3"
pub fn in_selection(state: u8) -> bool {
    matches!(state, CONSIDERED | POSSIBLE | READY)
}

/// "execution 4 and 5"
pub fn in_execution(state: u8) -> bool {
    matches!(state, ACTIVATED | SUSPENDED)
}

/// "ended 6 to 8"
pub fn has_ended(state: u8) -> bool {
    matches!(state, COMPLETED | ABORTED | REJECTED)
}

// ------------------------------------------------------------------------------------------------
// Plan table
// ------------------------------------------------------------------------------------------------

/// "Header of 8 bytes"
pub const HEADER_BYTES: usize = 8;
/// "Then 8 bytes a plan"
pub const PLAN_BYTES: usize = 8;
/// "16-bit plan count n (1 to 256)"
pub const MOST_PLANS: usize = 256;
/// "65535 for plan 0 only"
pub const NO_PARENT: usize = 65_535;
/// "At most 64 children a plan"
pub const MOST_CHILDREN: usize = 64;

// "0 leaf, 1 sequential, 2 parallel, 3 any-order, 4 unordered"
pub const LEAF: u8 = 0;
pub const SEQUENTIAL: u8 = 1;
pub const PARALLEL: u8 = 2;
pub const ANY_ORDER: u8 = 3;
pub const UNORDERED: u8 = 4;
// 02 (i): "the bodies on abort, on suspend, on abort/suspend and if-then-else; add them as bodies 5
//  to 8, each with exactly two children and no retry-aborted"
pub const ON_ABORT: u8 = 5;
pub const ON_SUSPEND: u8 = 6;
pub const ON_ABORT_OR_SUSPEND: u8 = 7;
pub const IF_THEN_ELSE: u8 = 8;

// "bit 0 retry-aborted, bit 1 wait-for-optional, bit 2 named in the parent's wait-for"
pub const RETRY_ABORTED: u32 = 0;
pub const WAIT_FOR_OPTIONAL: u32 = 1;
pub const NAMED: u32 = 2;

// "bits 0 to 5 are filter, setup, suspend, reactivate, abort, complete"
pub const FILTER: u32 = 0;
pub const SETUP: u32 = 1;
pub const SUSPEND: u32 = 2;
pub const REACTIVATE: u32 = 3;
pub const ABORT: u32 = 4;
pub const COMPLETE: u32 = 5;

/// One plan of a table that passed its checks.
pub struct Plan {
    /// None for plan 0.
    pub parent: Option<usize>,
    /// The numbers of the children in table order: "a child's rank counts from 0".
    pub children: Vec<usize>,
    pub body: u8,
    pub flags: u8,
    pub present: u8,
    pub manual: u8,
    pub overridable: u8,
    /// "wait number m"; 02 (v): "Byte 7 of a plan with children is its formula's first node, of a leaf 0"
    pub byte_7: u8,
    /// What byte 7 stands for.
    pub wait_for: Formula,
}

/// A wait-for. Of version 1, "at least m named children"; 02 (v): "Kinds: 0 child of rank a, 1 not, 2 and,
/// 3 or, 4 xor, 5 at least a named children."
#[derive(Clone, PartialEq, Debug)]
pub enum Formula {
    Child(usize),
    Not(Box<Formula>),
    And(Box<Formula>, Box<Formula>),
    Or(Box<Formula>, Box<Formula>),
    Xor(Box<Formula>, Box<Formula>),
    AtLeast(usize),
}

/// Whether a body is one of those that have exactly two children.
pub fn is_for_two(body: u8) -> bool {
    matches!(body, ON_ABORT | ON_SUSPEND | ON_ABORT_OR_SUSPEND | IF_THEN_ELSE)
}

impl Plan {
    /// The two children of a body that has exactly two.
    pub fn first_and_second(&self) -> (usize, usize) {
        (self.children[0], self.children[1])
    }

    pub fn retries_aborted(&self) -> bool {
        bit(self.flags, RETRY_ABORTED)
    }

    fn waits_for_optional(&self) -> bool {
        bit(self.flags, WAIT_FOR_OPTIONAL)
    }

    pub fn is_named(&self) -> bool {
        bit(self.flags, NAMED)
    }
}

/// Bit number `number` of a byte or a word.
fn bit(bits: impl Into<u32>, number: u32) -> bool {
    bits.into() >> number & 1 == 1
}

/// "All numbers little-endian."
pub fn number_of_16_bits(bytes: &[u8], at: usize) -> usize {
    usize::from(u16::from_le_bytes([bytes[at], bytes[at + 1]]))
}

/// Byte `at` (0 to 7) of the entry of plan p.
fn plan_byte(table: &[u8], p: usize, at: usize) -> u8 {
    table[HEADER_BYTES + PLAN_BYTES * p + at]
}

/// "0-1 parent's number"
fn parents_number(table: &[u8], p: usize) -> usize {
    number_of_16_bits(table, HEADER_BYTES + PLAN_BYTES * p)
}

/// The plans among the first n whose parent is p, in table order.
fn children_in_table(table: &[u8], n: usize, p: usize) -> Vec<usize> {
    (1..n).filter(|&c| parents_number(table, c) == p).collect()
}

/// A plan with its wait-for as version 1 has it. That of a leaf, whose byte 7 is 0 in both versions, holds.
fn read_plan(table: &[u8], n: usize, p: usize) -> Plan {
    Plan {
        parent: if p == 0 { None } else { Some(parents_number(table, p)) },
        children: children_in_table(table, n, p),
        body: plan_byte(table, p, 2),
        flags: plan_byte(table, p, 3),
        present: plan_byte(table, p, 4),
        manual: plan_byte(table, p, 5),
        overridable: plan_byte(table, p, 6),
        byte_7: plan_byte(table, p, 7),
        wait_for: Formula::AtLeast(usize::from(plan_byte(table, p, 7))),
    }
}

// 02 (v): "Add table version 2: after the plans a 16-bit node count of at most 256 and 4 bytes a node:
//  kind, a, b, zero."
pub const COUNT_BYTES: usize = 2;
pub const NODE_BYTES: usize = 4;
pub const MOST_NODES: usize = 256;

// 02 (v): "0 child of rank a, 1 not, 2 and, 3 or, 4 xor, 5 at least a named children"
pub const CHILD: u8 = 0;
pub const NOT: u8 = 1;
pub const AND: u8 = 2;
pub const OR: u8 = 3;
pub const XOR: u8 = 4;
pub const AT_LEAST: u8 = 5;

/// One node as it stands in a table of version 2.
pub struct Node {
    pub kind: u8,
    pub a: u8,
    pub b: u8,
    pub zero: u8,
}

/// Where "the plans" end and, in version 2, the node count stands.
fn end_of_plans(n: usize) -> usize {
    HEADER_BYTES + PLAN_BYTES * n
}

/// The nodes of a table of version 2 whose length is right.
pub fn read_nodes(table: &[u8], n: usize) -> Vec<Node> {
    let node = |four: &[u8]| Node { kind: four[0], a: four[1], b: four[2], zero: four[3] };
    table[end_of_plans(n) + COUNT_BYTES..].chunks_exact(NODE_BYTES).map(node).collect()
}

/// 02 (v): "Operands are node numbers": a of a not, a and b of an and, an or and a xor.
pub fn operands(node: &Node) -> Vec<usize> {
    match node.kind {
        NOT => vec![usize::from(node.a)],
        AND | OR | XOR => vec![usize::from(node.a), usize::from(node.b)],
        _ => vec![],
    }
}

/// The formula whose first node is number i, of nodes that keep their rules: since operands have higher
/// numbers, the way down ends.
fn formula_from(nodes: &[Node], i: usize) -> Formula {
    let number = usize::from(nodes[i].a);
    let part = |operand: u8| Box::new(formula_from(nodes, usize::from(operand)));
    let Node { kind, a, b, .. } = nodes[i];
    match kind {
        CHILD => Formula::Child(number),
        NOT => Formula::Not(part(a)),
        AND => Formula::And(part(a), part(b)),
        OR => Formula::Or(part(a), part(b)),
        XOR => Formula::Xor(part(a), part(b)),
        _ => Formula::AtLeast(number),
    }
}

/// Whether a formula of plan p is true of the set of those of its children that are in it. Of version 1:
/// "wait-for holds of a set of children when at least m named children are in it". A child that a formula
/// asks for by its rank may be named or not.
pub fn is_true(formula: &Formula, plans: &[Plan], p: usize, is_in: &dyn Fn(usize) -> bool) -> bool {
    let part = |formula: &Formula| is_true(formula, plans, p, is_in);
    let children = &plans[p].children;
    match formula {
        Formula::Child(rank) => is_in(children[*rank]),
        Formula::Not(a) => !part(a),
        Formula::And(a, b) => part(a) && part(b),
        Formula::Or(a, b) => part(a) || part(b),
        Formula::Xor(a, b) => part(a) != part(b),
        Formula::AtLeast(number) => {
            children.iter().filter(|&&child| plans[child].is_named() && is_in(child)).count() >= *number
        }
    }
}

/// 02 (v): "Loss and completion put the formula where m stood, exactly as document 003 section 10 does,
/// "not" included." Here the set is that of the children whose old state is in `set`.
pub fn wait_for_holds(before: &Before, p: usize, set: impl Fn(u8) -> bool) -> bool {
    is_true(&before.plans[p].wait_for, before.plans, p, &|child| set(before.states[child]))
}

// ------------------------------------------------------------------------------------------------
// Input words
// ------------------------------------------------------------------------------------------------

/// "A 32-bit word a plan and step." The bytes are a whole number of words.
pub fn read_words(bytes: &[u8]) -> Vec<u32> {
    bytes.chunks_exact(4).map(|four| u32::from_le_bytes([four[0], four[1], four[2], four[3]])).collect()
}

/// "Bits 0-5: pattern satisfied, in the order above."
fn pattern_satisfied(word: u32, condition: u32) -> bool {
    bit(word, condition)
}

/// "Bits 6, 7: filter, setup still satisfiable."
fn pattern_satisfiable(word: u32, filter_or_setup: u32) -> bool {
    bit(word, 6 + filter_or_setup)
}

/// "Bits 8-13 manual trigger."
fn triggered(word: u32, condition: u32) -> bool {
    bit(word, 8 + condition)
}

/// "Bits 14-19 override."
fn overridden(word: u32, condition: u32) -> bool {
    bit(word, 14 + condition)
}

/// "Bits 24-29 pick: a child's rank"
pub fn pick_of(word: u32) -> usize {
    (word >> 24 & 0b11_1111) as usize
}

/// "0 unless the body is any-order, below the number of children"
fn may_be_picked(plan: &Plan, pick: usize) -> bool {
    if plan.body == ANY_ORDER {
        pick < plan.children.len()
    } else {
        pick == 0
    }
}

/// 02 (i): "word bit 20 (satisfied)", of the condition of an if-then-else.
fn if_is_satisfied(word: u32) -> bool {
    bit(word, 20)
}

/// 02 (i): "bit 21 (satisfiable)"
fn if_is_satisfiable(word: u32) -> bool {
    bit(word, 21)
}

/// "Other bits 0." They are 22, 23, 30 and 31; 20 and 21 are asked for by the body.
fn has_unused_bit(word: u32) -> bool {
    (22..24).chain(30..32).any(|number| bit(word, number))
}

/// "A present condition holds when (pattern satisfied, and triggered if it is manual) or
/// (overridable and overridden)."
fn present_condition_holds(plan: &Plan, word: u32, condition: u32) -> bool {
    let manual = bit(plan.manual, condition);
    let overridable = bit(plan.overridable, condition);
    (pattern_satisfied(word, condition) && (!manual || triggered(word, condition)))
        || (overridable && overridden(word, condition))
}

/// "Absent filter, setup, reactivate and complete always hold; absent suspend and abort never do"
fn absent_condition_holds(condition: u32) -> bool {
    matches!(condition, FILTER | SETUP | REACTIVATE | COMPLETE)
}

pub fn condition_holds(plan: &Plan, word: u32, condition: u32) -> bool {
    if bit(plan.present, condition) {
        present_condition_holds(plan, word, condition)
    } else {
        absent_condition_holds(condition)
    }
}

/// "A present filter or setup is satisfiable when its bit says so or it is overridable". Of an
/// absent one this is never asked, for it holds.
pub fn condition_is_satisfiable(plan: &Plan, word: u32, filter_or_setup: u32) -> bool {
    pattern_satisfiable(word, filter_or_setup) || bit(plan.overridable, filter_or_setup)
}

// ------------------------------------------------------------------------------------------------
// One step
// ------------------------------------------------------------------------------------------------

/// 02 (ii): "The clinic's stored records from before keep the old rule: the step, the run, the checker ...
/// take a number, 1 old and 2 new".
#[derive(Clone, Copy, PartialEq, Debug)]
pub enum Rule {
    Old,
    New,
}

/// What all plans of one step read: the rule, the table, the OLD states and the words.
#[derive(Clone, Copy)]
pub struct Before<'a> {
    pub rule: Rule,
    pub plans: &'a [Plan],
    pub states: &'a [u8],
    pub words: &'a [u32],
}

/// What a parent orders of one child in one step. An order is only obeyed in the state it is meant
/// for: considers when Inactive, activates when Ready, retries when Aborted.
struct Orders {
    considers: bool,
    activates: bool,
    retries: bool,
}

const NO_ORDERS: Orders = Orders { considers: false, activates: false, retries: false };

// 02 (ix): "0 unmoved, 1 ordered by the parent, 2 its own condition, 3 children lost, 4 forced by the
//  parent's state"
pub const UNMOVED: u8 = 0;
pub const ORDERED: u8 = 1;
pub const OWN_CONDITION: u8 = 2;
pub const CHILDREN_LOST: u8 = 3;
pub const FORCED: u8 = 4;

/// 02 (ix): "The move of one plan now also answers a cause".
struct Moved {
    state: u8,
    cause: u8,
}

fn moves_to(state: u8, cause: u8) -> Moved {
    Moved { state, cause }
}

/// The state is the old one.
fn stays(state: u8) -> Moved {
    Moved { state, cause: UNMOVED }
}

/// All plans of one step: "Plans move in table order."
fn moves_of_all(before: &Before) -> Vec<Moved> {
    let mut moves: Vec<Moved> = Vec::new();
    for (p, plan) in before.plans.iter().enumerate() {
        let moved = match plan.parent {
            None => move_of_root(before),
            // A parent has a lower number than its child, so its new state is known by now.
            Some(parent) => move_of_child(before, p, parent, moves[parent].state, pick_of(before.words[parent])),
        };
        moves.push(moved);
    }
    moves
}

/// The new states of all plans.
pub fn new_states(before: &Before) -> Vec<u8> {
    moves_of_all(before).iter().map(|moved| moved.state).collect()
}

/// Why each plan moved, if it did.
pub fn causes(before: &Before) -> Vec<u8> {
    moves_of_all(before).iter().map(|moved| moved.cause).collect()
}

/// "The root acts as if under a parent that stays Activated, that considers it when Inactive and
/// activates it when Ready." So these two moves of the root are ordered as well.
fn move_of_root(before: &Before) -> Moved {
    let orders = Orders { considers: true, activates: true, retries: false };
    move_of(before, 0, ACTIVATED, &orders)
}

/// "A plan reads its parent's NEW state and its children's and siblings' OLD states." The pick is
/// the parent's; no other pick is read.
fn move_of_child(before: &Before, p: usize, parent: usize, parent_new: u8, pick: usize) -> Moved {
    let orders = orders_to(before, p, parent, parent_new, pick);
    move_of(before, p, parent_new, &orders)
}

/// "By the parent's new state:"
fn move_of(before: &Before, p: usize, parent_new: u8, orders: &Orders) -> Moved {
    if parent_new == INACTIVE || in_selection(parent_new) {
        under_parent_that_has_not_begun(before.states[p])
    } else if has_ended(parent_new) {
        under_ended_parent(before.states[p])
    } else {
        under_executing_parent(before, p, parent_new, orders)
    }
}

/// "Inactive or selection: the child becomes Inactive." 02 (ix): "a reset to Inactive is 4"; a child that
/// was Inactive has not moved.
fn under_parent_that_has_not_begun(old: u8) -> Moved {
    if old == INACTIVE {
        stays(INACTIVE)
    } else {
        moves_to(INACTIVE, FORCED)
    }
}

/// "Ended: selection becomes Rejected, execution Aborted, all else stays." Whatever else holds of the child,
/// it is its parent's state that does it.
fn under_ended_parent(old: u8) -> Moved {
    if in_selection(old) {
        moves_to(REJECTED, FORCED)
    } else if in_execution(old) {
        moves_to(ABORTED, FORCED)
    } else {
        stays(old)
    }
}

/// "Activated or Suspended:" one rule for each old state.
fn under_executing_parent(before: &Before, p: usize, parent_new: u8, orders: &Orders) -> Moved {
    match before.states[p] {
        INACTIVE => from_inactive(orders),
        CONSIDERED => from_considered(before, p),
        POSSIBLE => from_possible(before, p),
        READY => from_ready(orders),
        ACTIVATED => from_activated(before, p, parent_new),
        SUSPENDED => from_suspended(before, p, parent_new),
        ended => from_ended(ended, orders),
    }
}

/// "Inactive: Considered if the parent considers it."
fn from_inactive(orders: &Orders) -> Moved {
    if orders.considers {
        moves_to(CONSIDERED, ORDERED)
    } else {
        stays(INACTIVE)
    }
}

/// "Considered: Possible if the filter holds; else Rejected if it is not satisfiable; else stays."
/// 02 (ix): "Filter, setup, reactivation and completion are 2"; and so is a filter that is not satisfiable.
fn from_considered(before: &Before, p: usize) -> Moved {
    if condition_holds(&before.plans[p], before.words[p], FILTER) {
        moves_to(POSSIBLE, OWN_CONDITION)
    } else if !condition_is_satisfiable(&before.plans[p], before.words[p], FILTER) {
        moves_to(REJECTED, OWN_CONDITION)
    } else {
        stays(CONSIDERED)
    }
}

/// "Possible: likewise with setup, to Ready."
fn from_possible(before: &Before, p: usize) -> Moved {
    if condition_holds(&before.plans[p], before.words[p], SETUP) {
        moves_to(READY, OWN_CONDITION)
    } else if !condition_is_satisfiable(&before.plans[p], before.words[p], SETUP) {
        moves_to(REJECTED, OWN_CONDITION)
    } else {
        stays(POSSIBLE)
    }
}

/// "Ready: Activated if the parent activates it."
fn from_ready(orders: &Orders) -> Moved {
    if orders.activates {
        moves_to(ACTIVATED, ORDERED)
    } else {
        stays(READY)
    }
}

/// "Activated: first match of: Aborted ...; Suspended ...; Completed ..."
fn from_activated(before: &Before, p: usize, parent_new: u8) -> Moved {
    if let Some(cause) = why_abort(before, p) {
        moves_to(ABORTED, cause)
    } else if let Some(cause) = why_suspend(before, p, parent_new) {
        moves_to(SUSPENDED, cause)
    } else if may_complete(before, p) {
        moves_to(COMPLETED, OWN_CONDITION)
    } else {
        stays(ACTIVATED)
    }
}

/// "Suspended: Aborted as above; else Activated if the parent is Activated and reactivate holds."
fn from_suspended(before: &Before, p: usize, parent_new: u8) -> Moved {
    if let Some(cause) = why_abort(before, p) {
        moves_to(ABORTED, cause)
    } else if may_reactivate(before, p, parent_new) {
        moves_to(ACTIVATED, OWN_CONDITION)
    } else {
        stays(SUSPENDED)
    }
}

/// "Ended: stays, but Aborted becomes Considered if the parent retries it."
fn from_ended(old: u8, orders: &Orders) -> Moved {
    if old == ABORTED && orders.retries {
        moves_to(CONSIDERED, ORDERED)
    } else {
        stays(old)
    }
}

/// "Aborted if abort holds or too many children are lost". 02 (ix): "Own abort goes before lost children".
fn why_abort(before: &Before, p: usize) -> Option<u8> {
    if condition_holds(&before.plans[p], before.words[p], ABORT) {
        Some(OWN_CONDITION)
    } else if too_many_are_lost(before, p) {
        Some(CHILDREN_LOST)
    } else {
        None
    }
}

/// "Too many are lost when wait-for fails of the children that are neither Rejected nor Aborted"; which
/// of these are lost is for the rule to say.
pub fn too_many_are_lost(before: &Before, p: usize) -> bool {
    !wait_for_holds(before, p, |state| !is_lost(before.rule, &before.plans[p], state))
}

/// 02 (ii): "Document 01 counts an Aborted child as lost even when it will be retried. From now on,
/// under retry-aborted only Rejected children are lost." The flag is the parent's.
pub fn is_lost(rule: Rule, parent: &Plan, child_state: u8) -> bool {
    match rule {
        Rule::New if parent.retries_aborted() => child_state == REJECTED,
        _ => matches!(child_state, REJECTED | ABORTED),
    }
}

/// "Suspended if the parent is Suspended or suspend holds". 02 (ix): "a forced suspension before an own one"
fn why_suspend(before: &Before, p: usize, parent_new: u8) -> Option<u8> {
    if parent_new == SUSPENDED {
        Some(FORCED)
    } else if condition_holds(&before.plans[p], before.words[p], SUSPEND) {
        Some(OWN_CONDITION)
    } else {
        None
    }
}

/// "Completed if complete holds, wait-for holds of the Completed children, and, with
/// wait-for-optional, all children are ended"
fn may_complete(before: &Before, p: usize) -> bool {
    condition_holds(&before.plans[p], before.words[p], COMPLETE)
        && wait_for_holds(before, p, |state| state == COMPLETED)
        && (!before.plans[p].waits_for_optional() || all_children_are_ended(before, p))
}

fn all_children_are_ended(before: &Before, p: usize) -> bool {
    let mut children = before.plans[p].children.iter();
    children.all(|&child| has_ended(before.states[child]) || counts_as_ended(before, p, child))
}

/// 02 (i): "For wait-for-optional an Inactive child counts as ended when its sibling has ended, except
/// the second after an aborted first in 5 and 7." The request speaks of its own bodies.
fn counts_as_ended(before: &Before, p: usize, child: usize) -> bool {
    let plan = &before.plans[p];
    if !is_for_two(plan.body) || before.states[child] != INACTIVE {
        return false;
    }
    let (first, second) = plan.first_and_second();
    if child == first {
        return has_ended(before.states[second]);
    }
    let is_awaited = matches!(plan.body, ON_ABORT | ON_ABORT_OR_SUSPEND) && before.states[first] == ABORTED;
    has_ended(before.states[first]) && !is_awaited
}

/// "Activated if the parent is Activated and reactivate holds"
fn may_reactivate(before: &Before, p: usize, parent_new: u8) -> bool {
    parent_new == ACTIVATED && condition_holds(&before.plans[p], before.words[p], REACTIVATE)
}

/// The orders that a plan `parent` gives to its child p.
fn orders_to(before: &Before, p: usize, parent: usize, parent_new: u8, pick: usize) -> Orders {
    if !gives_orders(before, parent, parent_new) {
        return NO_ORDERS;
    }
    match before.plans[parent].body {
        SEQUENTIAL => sequential_orders(before, p, parent),
        PARALLEL => parallel_orders(before, parent),
        ANY_ORDER => any_order_orders(before, p, parent, pick),
        ON_ABORT | ON_SUSPEND | ON_ABORT_OR_SUSPEND => bad_turn_orders(before, p, parent),
        IF_THEN_ELSE => if_then_else_orders(before, p, parent),
        _ => unordered_orders(before, parent),
    }
}

/// "A parent gives orders only in a step where it was and stays Activated."
fn gives_orders(before: &Before, parent: usize, parent_new: u8) -> bool {
    before.states[parent] == ACTIVATED && parent_new == ACTIVATED
}

/// "Unordered: considers, activates and retries every child." And for all bodies: "Retry is
/// given only with retry-aborted, to Aborted children" (that it is Aborted, `from_ended` asks).
fn unordered_orders(before: &Before, parent: usize) -> Orders {
    Orders { considers: true, activates: true, retries: before.plans[parent].retries_aborted() }
}

/// "Sequential: orders only the first child not done."
fn sequential_orders(before: &Before, p: usize, parent: usize) -> Orders {
    if first_child_not_done(before.plans, before.states, parent) == Some(p) {
        Orders { considers: true, activates: true, retries: before.plans[parent].retries_aborted() }
    } else {
        NO_ORDERS
    }
}

fn first_child_not_done(plans: &[Plan], states: &[u8], parent: usize) -> Option<usize> {
    plans[parent].children.iter().copied().find(|&child| !is_done(&plans[parent], states[child]))
}

/// "Done: Completed, Rejected, or Aborted without retry-aborted." The flag is the parent's.
pub fn is_done(parent: &Plan, child_state: u8) -> bool {
    match child_state {
        COMPLETED | REJECTED => true,
        ABORTED => !parent.retries_aborted(),
        _ => false,
    }
}

/// "Parallel: considers and retries all; activates Ready children when ..."
fn parallel_orders(before: &Before, parent: usize) -> Orders {
    Orders {
        considers: true,
        activates: parallel_gate_is_open(before, parent),
        retries: before.plans[parent].retries_aborted(),
    }
}

/// "when no child is 0, 1 or 2, or some child is 4, 5, 6 or 7"
fn parallel_gate_is_open(before: &Before, parent: usize) -> bool {
    let children = &before.plans[parent].children;
    let none_on_its_way =
        !children.iter().any(|&child| matches!(before.states[child], INACTIVE | CONSIDERED | POSSIBLE));
    let some_went_through = children
        .iter()
        .any(|&child| matches!(before.states[child], ACTIVATED | SUSPENDED | COMPLETED | ABORTED));
    none_on_its_way || some_went_through
}

/// "Any-order: considers and retries all; activates at most one"
fn any_order_orders(before: &Before, p: usize, parent: usize, pick: usize) -> Orders {
    Orders {
        considers: true,
        activates: child_activated_in_any_order(before, parent, pick) == Some(p),
        retries: before.plans[parent].retries_aborted(),
    }
}

/// "only if no child is in execution and, with retry-aborted, none is Aborted: the Ready child
/// whose rank is the pick", be it named or not. 02 (vii): "Where the pick is not Ready, an any-order plan
/// now takes the Ready child of lowest rank among the named ones, and only if there is none the lowest of
/// the rest." Named is the flag in the child's own entry: so it is by both rules, and in version 2 too,
/// whether the plan's formula asks for that child or not.
fn child_activated_in_any_order(before: &Before, parent: usize, pick: usize) -> Option<usize> {
    let plan = &before.plans[parent];
    let is = |child: usize, wanted: u8| before.states[child] == wanted;
    if plan.children.iter().any(|&child| in_execution(before.states[child])) {
        return None;
    }
    if plan.retries_aborted() && plan.children.iter().any(|&child| is(child, ABORTED)) {
        return None;
    }
    let ready: Vec<usize> = plan.children.iter().copied().filter(|&child| is(child, READY)).collect();
    let picked = plan.children.get(pick).copied().filter(|child| ready.contains(child));
    let lowest_named = ready.iter().copied().find(|&child| before.plans[child].is_named());
    let lowest = ready.first().copied();
    picked.or(lowest_named).or(lowest)
}

/// History. Before request (vii) it was "else the Ready child of lowest rank", named or not. A stored input
/// that relied on this goes on as it did once its picks are written out: each is this one then.
pub fn pick_written_out(before: &Before, parent: usize, pick: usize) -> usize {
    let plan = &before.plans[parent];
    let is_ready = |child: usize| before.states[child] == READY;
    if plan.body != ANY_ORDER || is_ready(plan.children[pick]) {
        return pick;
    }
    let lowest = plan.children.iter().position(|&child| is_ready(child));
    lowest.unwrap_or(pick)
}

/// 02 (i): "In 5 to 7 the first child is run as in an unordered body; the second is considered once
/// ..., and activated when Ready."
fn bad_turn_orders(before: &Before, p: usize, parent: usize) -> Orders {
    let plan = &before.plans[parent];
    let (first, _) = plan.first_and_second();
    if p == first {
        return unordered_orders(before, parent);
    }
    Orders { considers: is_a_bad_turn(plan.body, before.states[first]), activates: true, retries: false }
}

/// 02 (i): "once the first is Aborted (5), Suspended (6) or either (7)"
fn is_a_bad_turn(body: u8, first: u8) -> bool {
    match body {
        ON_ABORT => first == ABORTED,
        ON_SUSPEND => first == SUSPENDED,
        _ => first == ABORTED || first == SUSPENDED,
    }
}

/// 02 (i): "In 8, while both children are Inactive, the first is considered if word bit 20 (satisfied)
/// is set, the second if bit 21 (satisfiable) is clear; whichever is Ready is activated." The word is
/// that of the plan with this body.
fn if_then_else_orders(before: &Before, p: usize, parent: usize) -> Orders {
    let (first, second) = before.plans[parent].first_and_second();
    let both_are_inactive = before.states[first] == INACTIVE && before.states[second] == INACTIVE;
    let word = before.words[parent];
    let is_its_branch = if p == first { if_is_satisfied(word) } else { !if_is_satisfiable(word) };
    Orders { considers: both_are_inactive && is_its_branch, activates: true, retries: false }
}

// ------------------------------------------------------------------------------------------------
// States that may be handed in
// ------------------------------------------------------------------------------------------------

/// "A plan breaks a rule when it does so together with lower-numbered plans." So this reads the
/// states of plans 0 to p only, and the lower ones have been found to break none.
pub fn breaks_a_rule(plans: &[Plan], states: &[u8], p: usize) -> bool {
    !is_a_state(states[p])
        || plans[p].parent.is_some_and(|parent| {
            !suits_parent(states[p], states[parent])
                || breaks_any_order(plans, states, parent, p)
                || breaks_sequential(plans, states, parent, p)
                || breaks_for_two(plans, states, parent, p)
        })
}

/// "Bytes 0 to 8."
fn is_a_state(byte: u8) -> bool {
    byte <= REJECTED
}

/// "A child of a plan in 0, 1, 2, 3 or 8 is Inactive; of one in 6 or 7, Inactive or ended; of a
/// Suspended one, not Activated." Of an Activated one it may be in any state.
pub fn suits_parent(child: u8, parent: u8) -> bool {
    match parent {
        INACTIVE | CONSIDERED | POSSIBLE | READY | REJECTED => child == INACTIVE,
        COMPLETED | ABORTED => child == INACTIVE || has_ended(child),
        SUSPENDED => child != ACTIVATED,
        _ => true,
    }
}

/// "At most one child of an any-order plan is in execution." The second one breaks it.
fn breaks_any_order(plans: &[Plan], states: &[u8], parent: usize, p: usize) -> bool {
    plans[parent].body == ANY_ORDER
        && in_execution(states[p])
        && lower_siblings(plans, parent, p).any(|sibling| in_execution(states[sibling]))
}

/// "Of a sequential plan, every child after the first not done is Inactive." The later one breaks it.
fn breaks_sequential(plans: &[Plan], states: &[u8], parent: usize, p: usize) -> bool {
    plans[parent].body == SEQUENTIAL
        && states[p] != INACTIVE
        && lower_siblings(plans, parent, p).any(|sibling| !is_done(&plans[parent], states[sibling]))
}

/// 02 (i): "The second child may be other than Inactive in 5 only beside an Aborted first, in 6 and 7
/// only beside a first in state 4, 5, 6 or 7; in 8 at least one child is Inactive." The second breaks it.
fn breaks_for_two(plans: &[Plan], states: &[u8], parent: usize, p: usize) -> bool {
    let plan = &plans[parent];
    if !is_for_two(plan.body) || p == plan.first_and_second().0 || states[p] == INACTIVE {
        return false;
    }
    let first = states[plan.first_and_second().0];
    match plan.body {
        ON_ABORT => first != ABORTED,
        IF_THEN_ELSE => first != INACTIVE,
        _ => !matches!(first, ACTIVATED | SUSPENDED | COMPLETED | ABORTED),
    }
}

fn lower_siblings(plans: &[Plan], parent: usize, p: usize) -> impl Iterator<Item = usize> + '_ {
    plans[parent].children.iter().copied().filter(move |&sibling| sibling < p)
}

// ------------------------------------------------------------------------------------------------
// Rest
// ------------------------------------------------------------------------------------------------

/// How a run under held words went, and the states and causes that it leaves.
#[derive(Debug, PartialEq)]
pub enum Run {
    Rested { after: u16, states: Vec<u8>, causes: Vec<u8> },
    StillMoving { states: Vec<u8>, causes: Vec<u8> },
}

/// "rested after k, the least k up to the budget after which one more step changes nothing; or
/// still moving, exactly when no such k exists. The states are those after k, or after the whole
/// budget." 02 (ix): "A run gives its last step's causes, all 0 if it took none."
fn run_to_rest(start: &Before, budget: u16) -> Run {
    let mut now = start.states.to_vec();
    let mut last_causes = vec![UNMOVED; now.len()];
    for k in 0..=budget {
        let before = Before { states: &now, ..*start };
        let one_more = new_states(&before);
        if one_more == now {
            return Run::Rested { after: k, states: now, causes: last_causes };
        }
        // The step after the budget was made only to see whether it changes something.
        if k < budget {
            last_causes = causes(&before);
            now = one_more;
        }
    }
    Run::StillMoving { states: now, causes: last_causes }
}

/// The same answer as `run_to_rest`, sooner for a run that goes round in a circle for 65,535 steps.
///
/// Why it is exact: rule, table and words are held, so the states after a step are a function of the
/// states before it and of nothing else. If the states after k are those after an earlier j, then
/// the run from k repeats the run from j, with period k - j: for every later i the states after i
/// are those after j + (i - j) mod (k - j). None of the states in the circle is at rest, for a run
/// at rest was answered before it could repeat. So no k' up to any budget exists, and the states
/// after the whole budget are among those already seen. The causes of its last step are told by the
/// states before that step: those that led to the same states for the first time may be others.
fn run_to_rest_jumping(start: &Before, budget: u16) -> Run {
    let budget = usize::from(budget);
    let mut seen: Vec<Vec<u8>> = vec![start.states.to_vec()];
    let mut first_seen_after = std::collections::HashMap::from([(start.states.to_vec(), 0)]);
    for k in 0..=budget {
        let one_more = new_states(&Before { states: &seen[k], ..*start });
        if one_more == seen[k] {
            return Run::Rested { after: k as u16, states: one_more, causes: causes_of_step(start, k, |i| &seen[i]) };
        }
        if let Some(&j) = first_seen_after.get(&one_more) {
            let period = k + 1 - j;
            let states_after = |i: usize| &seen[if i < j { i } else { j + (i - j) % period }];
            let causes = causes_of_step(start, budget, states_after);
            return Run::StillMoving { states: states_after(budget).clone(), causes };
        }
        first_seen_after.insert(one_more.clone(), k + 1);
        seen.push(one_more);
    }
    Run::StillMoving { states: seen[budget].clone(), causes: causes_of_step(start, budget, |i| &seen[i]) }
}

/// The causes of a step of a run, counted from 1; "all 0" of step 0, for then it took none.
fn causes_of_step<'a>(start: &Before, step: usize, states_after: impl Fn(usize) -> &'a Vec<u8>) -> Vec<u8> {
    match step {
        0 => vec![UNMOVED; start.states.len()],
        _ => causes(&Before { states: states_after(step - 1), ..*start }),
    }
}

// ------------------------------------------------------------------------------------------------
// How long a run can go on
// ------------------------------------------------------------------------------------------------

/// 02 (viii): "if no plan has retry-aborted". The flag counts, whether or not there is anybody to retry.
fn nobody_retries(plans: &[Plan]) -> bool {
    !plans.iter().any(Plan::retries_aborted)
}

/// 02 (viii): "and no plan has suspend and reactivate both holding". Each plan is asked by itself.
fn nobody_holds_both(plans: &[Plan], words: &[u32]) -> bool {
    !plans.iter().zip(words).any(|(plan, &word)| holds_both(plan, word))
}

pub fn holds_both(plan: &Plan, word: u32) -> bool {
    condition_holds(plan, word, SUSPEND) && condition_holds(plan, word, REACTIVATE)
}

/// 02 (viii): "the run rests after at most 6 times the number of plans"
fn most_steps(plans: &[Plan]) -> usize {
    6 * plans.len()
}

// ------------------------------------------------------------------------------------------------
// Record
// ------------------------------------------------------------------------------------------------

/// "Header as the table's with mark `APR`, version 1 and the same n." So its last byte is 0 too.
fn record_header_is_right(record: &[u8], n: usize) -> bool {
    record.len() >= HEADER_BYTES
        && record[0..3] == *b"APR"
        && number_of_16_bits(record, 3) == 1
        && number_of_16_bits(record, 5) == n
        && record[7] == 0
}

/// "for each step 4n bytes of words (pick bits 0) and n state bytes"
fn step_bytes(n: usize) -> usize {
    4 * n + n
}

/// "each step is read as a part of the record that starts in its middle": its words and the states
/// that it shows. Steps count from 1.
fn part_of_step(record: &[u8], n: usize, step: usize) -> (&[u8], &[u8]) {
    let start = HEADER_BYTES + step_bytes(n) * (step - 1);
    let part = &record[start..start + step_bytes(n)];
    part.split_at(4 * n)
}

/// "For 15 the plan is the lowest p such that no picks explain plans 0 to p"; None when some picks
/// explain all plans.
///
/// The search goes plan by plan. It keeps, for each plan q, the picks of q that are still possible,
/// at first all that may be picked at all, and strikes out those that would give a child of q
/// another state than the shown one. When none is left at plan p, no picks explain plans 0 to p.
///
/// Why this is a full search: picks explain plans 0 to p exactly when, for each plan i from 0 to p,
/// the step with these picks gives i the shown state. Suppose this is so up to i - 1. Then the
/// parent of i has, under these picks, just the new state that is shown; all else that i reads is
/// the table, the old states and the words, and of all the picks only its parent's. So what is
/// demanded of the picks by plan i is a demand on the pick of i's parent alone. "Picks explain 0 to
/// p" is therefore a list of demands each of which speaks of one pick; picks of different plans are
/// chosen freely of each other; so all demands can be met together exactly when, for each q, some
/// pick of q meets all the demands on q. That is what stays in the sets. (Plans that are not
/// any-order have the one pick 0, and it is treated as any other.)
pub fn first_unexplained_plan(before: &Before, shown: &[u8]) -> Option<usize> {
    first_unexplained_by(before, shown, before.plans.iter().map(all_picks).collect())
}

/// The same by the fallback of before. 02 (vii): "Demand 3 does not move: prove that no record's verdict
/// changes." It does not, since either way the fallback gives a Ready child, and each of these can be picked.
pub fn first_unexplained_by_old_fallback(before: &Before, shown: &[u8]) -> Option<usize> {
    let picks = |q: usize| all_picks(&before.plans[q]).into_iter().map(|pick| pick_written_out(before, q, pick)).collect();
    first_unexplained_by(before, shown, (0..before.plans.len()).map(picks).collect())
}

/// The search, given for each plan the picks that are possible at first.
fn first_unexplained_by(before: &Before, shown: &[u8], mut possible_picks: Vec<Vec<usize>>) -> Option<usize> {
    for (p, plan) in before.plans.iter().enumerate() {
        match plan.parent {
            None => {
                if move_of_root(before).state != shown[p] {
                    return Some(p);
                }
            }
            Some(parent) => {
                let new_state_with = |pick| move_of_child(before, p, parent, shown[parent], pick).state;
                possible_picks[parent].retain(|&pick| new_state_with(pick) == shown[p]);
                if possible_picks[parent].is_empty() {
                    return Some(p);
                }
            }
        }
    }
    None
}

/// All picks that a word of this plan may carry.
pub fn all_picks(plan: &Plan) -> Vec<usize> {
    (0..MOST_CHILDREN).filter(|&pick| may_be_picked(plan, pick)).collect()
}

// ------------------------------------------------------------------------------------------------
// Answer numbers
// ------------------------------------------------------------------------------------------------

/// Number + plan · 2^16 + step · 2^32. "Unnamed places are 0."
pub type Answer = u64;

pub fn answer(number: u64, plan: usize, step: usize) -> Answer {
    number + ((plan as u64) << 16) + ((step as u64) << 32)
}

/// Done, or accepted, or rested.
pub const DONE: u64 = 0;
/// Where the run answers "still moving", this stands in the plan's place.
pub const STILL_MOVING: usize = 1;
/// And where no figure is known of how long a run can go on, this.
pub const NO_FIGURE: usize = 1;

/// A check gives its number, or lets the next one look.
type Check = Result<(), Answer>;

fn refuse_if(bad: bool, number: u64) -> Check {
    if bad {
        Err(answer(number, 0, 0))
    } else {
        Ok(())
    }
}

/// "name the lowest plan concerned"
fn refuse_lowest_plan(n: usize, number: u64, step: usize, is_concerned: impl Fn(usize) -> bool) -> Check {
    match (0..n).find(|&p| is_concerned(p)) {
        Some(p) => Err(answer(number, p, step)),
        None => Ok(()),
    }
}

/// 02 (ii): "Refusals: 17, another rule number, checked first."
fn read_rule(number: u32) -> Result<Rule, Answer> {
    match number {
        1 => Ok(Rule::Old),
        2 => Ok(Rule::New),
        _ => Err(answer(17, 0, 0)),
    }
}

/// A table of either version.
pub fn read_table(table: &[u8]) -> Result<Vec<Plan>, Answer> {
    read_table_of(&[1, 2], table)
}

/// The checks 1 to 8, 22 and 9, "in this order, one number over the whole table or call before the next", of a
/// table that has to be of one of these versions.
fn read_table_of(versions: &[usize], table: &[u8]) -> Result<Vec<Plan>, Answer> {
    // "1: table under 8 bytes"
    refuse_if(table.len() < HEADER_BYTES, 1)?;
    // "2: wrong mark"
    refuse_if(table[0..3] != *b"APT", 2)?;
    // "3: version not 1"; 02 (v): "3 allows versions 1 and 2"; 02 (vi): "3 also for a table not of the version
    //  moved from"
    let version = number_of_16_bits(table, 3);
    refuse_if(!versions.contains(&version), 3)?;
    // "4: n outside 1..256, or header byte 7 not 0"
    let n = number_of_16_bits(table, 5);
    refuse_if(!(1..=MOST_PLANS).contains(&n) || table[7] != 0, 4)?;
    // "5: table length not 8 + 8n"; 02 (v): "5 means the new length"
    refuse_if(if version == 1 { table.len() != end_of_plans(n) } else { !is_as_long_as_its_nodes(table, n) }, 5)?;
    // "6: parent rule, or a 65th child"
    refuse_lowest_plan(n, 6, 0, |p| breaks_parent_rule(table, p) || is_a_65th_child(table, p))?;
    // From here on the children of every plan are known; bytes 2 to 7 may still be bad.
    let mut plans: Vec<Plan> = (0..n).map(|p| read_plan(table, n, p)).collect();
    // "7: body above 4, or an unused bit in bytes 3 to 6"; 02 (i): "7 begins at body 9"
    refuse_lowest_plan(n, 7, 0, |p| plans[p].body > IF_THEN_ELSE || has_unused_bit_in_entry(&plans[p]))?;
    // "8: body against children; manual or overridable on an absent condition; root named; leaf
    //  with m or flag bits 0, 1"; 02 (i): "8 also covers a wrong number of children or retry"
    refuse_lowest_plan(n, 8, 0, |p| {
        body_is_against_children(&plans[p])
            || is_for_two_and_has_not_two_or_retries(&plans[p])
            || changes_an_absent_condition(&plans[p])
            || is_a_named_root(&plans[p])
            || is_a_leaf_that_waits_or_retries(&plans[p])
    })?;
    // 02 (v): "22 after 8 and before 9"; of version 1 there are no nodes
    if version == 2 {
        let nodes = read_nodes(table, n);
        check_nodes(&plans, &nodes)?;
        for plan in plans.iter_mut().filter(|plan| !plan.children.is_empty()) {
            plan.wait_for = formula_from(&nodes, usize::from(plan.byte_7));
        }
    }
    // "9: m above the number of named children"; 02 (v): "9 covers kind 5, naming the plan"
    refuse_lowest_plan(n, 9, 0, |p| asks_for_more_than(&plans[p].wait_for, named_children(&plans, p)))?;
    Ok(plans)
}

/// 02 (v): "after the plans a 16-bit node count ... and 4 bytes a node"
fn is_as_long_as_its_nodes(table: &[u8], n: usize) -> bool {
    let start = end_of_plans(n) + COUNT_BYTES;
    table.len() >= start && table.len() == start + NODE_BYTES * number_of_16_bits(table, end_of_plans(n))
}

/// 02 (v): "22 ..., a node count above 256 or a parent's byte 7 not below it (place 0), then the lowest node
/// that breaks these rules, its number in the plan's place"; and of these rules: "a rank, read once all else
/// holds".
fn check_nodes(plans: &[Plan], nodes: &[Node]) -> Check {
    let has_its_first = |plan: &Plan| plan.children.is_empty() || usize::from(plan.byte_7) < nodes.len();
    refuse_if(nodes.len() > MOST_NODES || !plans.iter().all(has_its_first), 22)?;
    let uses = uses(plans, nodes);
    refuse_lowest_node(nodes, |i| breaks_a_rule_of_nodes(nodes, &uses, i))?;
    let wrong_ranks: Vec<usize> = plans.iter().flat_map(|plan| nodes_with_a_wrong_rank(plan, nodes)).collect();
    refuse_lowest_node(nodes, |i| wrong_ranks.contains(&i))
}

fn refuse_lowest_node(nodes: &[Node], is_concerned: impl Fn(usize) -> bool) -> Check {
    refuse_lowest_plan(nodes.len(), 22, 0, is_concerned)
}

/// All rules of a node but that on ranks.
fn breaks_a_rule_of_nodes(nodes: &[Node], uses: &[usize], i: usize) -> bool {
    let node = &nodes[i];
    // "kind, a, b, zero"
    node.kind > AT_LEAST
        || node.zero != 0
        // "Unused a and b are 0": b is unused by a child, a not and a number of named children, and a by none
        || (matches!(node.kind, CHILD | NOT | AT_LEAST) && node.b != 0)
        // "Operands are node numbers, and an operand has a higher number than the node that uses it."
        || operands(node).iter().any(|&operand| operand <= i || operand >= nodes.len())
        // "every node is used exactly once"
        || uses.iter().filter(|&&used| used == i).count() != 1
}

/// The nodes that are used, each as often as it is: as the first node of a plan's formula, or as an operand,
/// by a node that breaks a rule too.
fn uses(plans: &[Plan], nodes: &[Node]) -> Vec<usize> {
    let by_plans = plans.iter().filter(|plan| !plan.children.is_empty()).map(|plan| usize::from(plan.byte_7));
    by_plans.chain(nodes.iter().flat_map(operands)).collect()
}

/// 02 (v): "a rank ... is below the number of children", those of the plan in whose formula the node stands.
fn nodes_with_a_wrong_rank(plan: &Plan, nodes: &[Node]) -> Vec<usize> {
    if plan.children.is_empty() {
        return vec![];
    }
    let is_wrong = |&i: &usize| nodes[i].kind == CHILD && usize::from(nodes[i].a) >= plan.children.len();
    nodes_from(nodes, usize::from(plan.byte_7)).into_iter().filter(is_wrong).collect()
}

/// This node and all that are met on the way down from it, of nodes that keep their rules.
pub fn nodes_from(nodes: &[Node], first: usize) -> Vec<usize> {
    let below = operands(&nodes[first]).into_iter().flat_map(|operand| nodes_from(nodes, operand));
    std::iter::once(first).chain(below).collect()
}

/// Whether some part of a formula asks for more than this number of named children.
fn asks_for_more_than(formula: &Formula, named: usize) -> bool {
    match formula {
        Formula::Child(_) => false,
        Formula::Not(a) => asks_for_more_than(a, named),
        Formula::And(a, b) | Formula::Or(a, b) | Formula::Xor(a, b) => {
            asks_for_more_than(a, named) || asks_for_more_than(b, named)
        }
        Formula::AtLeast(number) => *number > named,
    }
}

/// "65535 for plan 0 only. Any other plan's parent is the plan just before it or an ancestor of
/// that one." The plans below p have been found to keep the rule, so the walk up ends at plan 0.
fn breaks_parent_rule(table: &[u8], p: usize) -> bool {
    if p == 0 {
        return parents_number(table, p) != NO_PARENT;
    }
    let mut candidate = p - 1;
    loop {
        if parents_number(table, p) == candidate {
            return false;
        }
        if candidate == 0 {
            return true;
        }
        candidate = parents_number(table, candidate);
    }
}

/// "of too many children, the 65th": more than 64 plans up to this one have this one's parent.
fn is_a_65th_child(table: &[u8], p: usize) -> bool {
    let same_parent = (1..=p).filter(|&q| parents_number(table, q) == parents_number(table, p)).count();
    same_parent > MOST_CHILDREN
}

/// Byte 3 uses bits 0 to 2, bytes 4 to 6 use bits 0 to 5.
fn has_unused_bit_in_entry(plan: &Plan) -> bool {
    plan.flags > 0b111 || plan.present > 0b11_1111 || plan.manual > 0b11_1111 || plan.overridable > 0b11_1111
}

/// "Leaf exactly when there are no children."
fn body_is_against_children(plan: &Plan) -> bool {
    (plan.body == LEAF) != plan.children.is_empty()
}

/// 02 (i): "each with exactly two children and no retry-aborted"
fn is_for_two_and_has_not_two_or_retries(plan: &Plan) -> bool {
    is_for_two(plan.body) && (plan.children.len() != 2 || plan.retries_aborted())
}

/// "manual or overridable on an absent condition"
fn changes_an_absent_condition(plan: &Plan) -> bool {
    (plan.manual | plan.overridable) & !plan.present != 0
}

/// "root named"
fn is_a_named_root(plan: &Plan) -> bool {
    plan.parent.is_none() && plan.is_named()
}

/// "leaf with m or flag bits 0, 1"
fn is_a_leaf_that_waits_or_retries(plan: &Plan) -> bool {
    plan.body == LEAF && (plan.byte_7 != 0 || plan.retries_aborted() || plan.waits_for_optional())
}

pub fn named_children(plans: &[Plan], p: usize) -> usize {
    plans[p].children.iter().filter(|&&child| plans[child].is_named()).count()
}

/// "12: word with an unused bit, a wrong pick ..., or filter or setup satisfied but not satisfiable,
/// present or absent"
pub fn word_is_wrong(plan: &Plan, word: u32) -> bool {
    has_unused_bit(word)
        || !may_be_picked(plan, pick_of(word))
        || is_satisfied_but_not_satisfiable(word)
        || bits_of_an_if_are_wrong(plan, word)
}

/// "(in a record: any pick bit)"
fn word_in_record_is_wrong(plan: &Plan, word: u32) -> bool {
    word_is_wrong(plan, word) || pick_of(word) != 0
}

/// 02 (i): "12 covers bit 20 without 21, and either bit set off body 8"
fn bits_of_an_if_are_wrong(plan: &Plan, word: u32) -> bool {
    if plan.body == IF_THEN_ELSE {
        if_is_satisfied(word) && !if_is_satisfiable(word)
    } else {
        if_is_satisfied(word) || if_is_satisfiable(word)
    }
}

fn is_satisfied_but_not_satisfiable(word: u32) -> bool {
    [FILTER, SETUP].iter().any(|&c| pattern_satisfied(word, c) && !pattern_satisfiable(word, c))
}

/// The checks 10 to 12 of a call of the step or the run.
fn read_call(plans: &[Plan], states: &[u8], words: &[u8], causes: &[u8]) -> Result<Vec<u32>, Answer> {
    let n = plans.len();
    // "10: states not n bytes or words not 4n"; 02 (ix): "10 also for the cause buffer's length"
    refuse_if(states.len() != n || words.len() != 4 * n || causes.len() != n, 10)?;
    // "11: states handed in break a rule"
    refuse_lowest_plan(n, 11, 0, |p| breaks_a_rule(plans, states, p))?;
    read_held_words(plans, words)
}

/// The checks of a question how long a run can go on, which is handed no states: 10 of the words, and 12.
fn read_question(plans: &[Plan], words: &[u8]) -> Result<Vec<u32>, Answer> {
    refuse_if(words.len() != 4 * plans.len(), 10)?;
    read_held_words(plans, words)
}

/// The check 12 of words, one for each plan.
fn read_held_words(plans: &[Plan], words: &[u8]) -> Result<Vec<u32>, Answer> {
    let words = read_words(words);
    refuse_lowest_plan(plans.len(), 12, 0, |p| word_is_wrong(&plans[p], words[p]))?;
    Ok(words)
}

/// The checks 13 and 14: gives the number of steps.
fn read_record(record: &[u8], n: usize) -> Result<usize, Answer> {
    // "13: record header short or wrong"
    refuse_if(!record_header_is_right(record, n), 13)?;
    // "14: record body not a multiple of 5n, or over 65,535 steps"
    let body = record.len() - HEADER_BYTES;
    refuse_if(body % step_bytes(n) != 0 || body / step_bytes(n) > 65_535, 14)?;
    Ok(body / step_bytes(n))
}

/// For the lowest plan that no picks explain.
type Search = fn(&Before, &[u8]) -> Option<usize>;

/// "step by step 12 before 15", each naming the step, "from 1". The first step starts from a tree
/// in which nothing has begun.
fn compare_steps(rule: Rule, plans: &[Plan], record: &[u8], steps: usize, search: Search) -> Check {
    let n = plans.len();
    let inactive = vec![INACTIVE; n];
    let mut states: &[u8] = &inactive;
    for step in 1..=steps {
        let (words, shown) = part_of_step(record, n, step);
        let words = read_words(words);
        refuse_lowest_plan(n, 12, step, |p| word_in_record_is_wrong(&plans[p], words[p]))?;
        // "15: states that no picks explain"
        if let Some(p) = search(&Before { rule, plans, states, words: &words }, shown) {
            return Err(answer(15, p, step));
        }
        states = shown;
    }
    Ok(())
}

// ------------------------------------------------------------------------------------------------
// Moving tables
// ------------------------------------------------------------------------------------------------

/// The plans that wait for something: those with children, in plan order.
fn parents(plans: &[Plan]) -> Vec<usize> {
    (0..plans.len()).filter(|&p| !plans[p].children.is_empty()).collect()
}

/// 02 (vi): "nodes stand in plan order": where one plan has a higher number than another, so has its first node.
pub fn nodes_stand_in_plan_order(plans: &[Plan]) -> bool {
    parents(plans).windows(2).all(|pair| plans[pair[0]].byte_7 < plans[pair[1]].byte_7)
}

/// m, or what a formula of one node of kind 5 asks for. That of a leaf is 0.
fn number_waited_for(plan: &Plan) -> u8 {
    match plan.wait_for {
        Formula::AtLeast(number) => number as u8,
        _ => unreachable!("every node is of kind 5: 23 went before"),
    }
}

/// A header and plans as they stand in a table, each with a byte 7 of its own.
fn print_plans(version: u16, plans: &[Plan], byte_7: impl Fn(usize) -> u8) -> Vec<u8> {
    let mut table = b"APT".to_vec();
    table.extend(version.to_le_bytes());
    table.extend((plans.len() as u16).to_le_bytes());
    table.push(0);
    for (p, plan) in plans.iter().enumerate() {
        table.extend((plan.parent.unwrap_or(NO_PARENT) as u16).to_le_bytes());
        table.extend([plan.body, plan.flags, plan.present, plan.manual, plan.overridable, byte_7(p)]);
    }
    table
}

/// 02 (vi): "Move a table from 1 to 2, one kind-5 node for each plan with children in plan order"
fn moved_to_version_2(table: &[u8]) -> Result<Vec<u8>, Answer> {
    let plans = read_table_of(&[1], table)?;
    let parents = parents(&plans);
    // a leaf has no node, and its byte 7 is 0 in both versions
    let node_of = |p: usize| parents.iter().position(|&parent| parent == p).unwrap_or(0);
    let mut moved = print_plans(2, &plans, |p| node_of(p) as u8);
    moved.extend((parents.len() as u16).to_le_bytes());
    for &parent in &parents {
        moved.extend([AT_LEAST, number_waited_for(&plans[parent]), 0, 0]);
    }
    Ok(moved)
}

/// 02 (vi): "and from 2 to 1 exactly when every node is of kind 5"
fn moved_to_version_1(table: &[u8]) -> Result<Vec<u8>, Answer> {
    let plans = read_table_of(&[2], table)?;
    // 02 (vi): "23, a node of another kind, after the table checks"
    refuse_if(read_nodes(table, plans.len()).iter().any(|node| node.kind != AT_LEAST), 23)?;
    Ok(print_plans(1, &plans, |p| number_waited_for(&plans[p])))
}

// ------------------------------------------------------------------------------------------------
// The calls. "No refusal changes lent bytes": states, causes and output are written after the last check only.
// ------------------------------------------------------------------------------------------------

/// One synchronous step: "The step and the run write the new states over the states handed in." 02 (ix): "The
/// step takes one more lent buffer of n bytes for them", the causes; what stands in it is not read.
pub fn step(rule: u32, table: &[u8], states: &mut [u8], words: &[u8], causes: &mut [u8]) -> Answer {
    try_step(rule, table, states, words, causes).unwrap_or_else(|refusal| refusal)
}

fn try_step(rule: u32, table: &[u8], states: &mut [u8], words: &[u8], causes: &mut [u8]) -> Result<Answer, Answer> {
    let rule = read_rule(rule)?;
    let plans = read_table(table)?;
    let words = read_call(&plans, states, words, causes)?;
    let moves = moves_of_all(&Before { rule, plans: &plans, states, words: &words });
    for (p, moved) in moves.iter().enumerate() {
        states[p] = moved.state;
        causes[p] = moved.cause;
    }
    Ok(answer(DONE, 0, 0))
}

/// Running to rest under held words.
#[allow(dead_code)] // The tester calls `rest_jumping`, which the tests compare with this one.
pub fn rest(rule: u32, table: &[u8], states: &mut [u8], words: &[u8], causes: &mut [u8], budget: u16) -> Answer {
    try_rest(rule, table, states, words, causes, budget, run_to_rest).unwrap_or_else(|refusal| refusal)
}

/// The same, with the jump over the rounds of a circle.
pub fn rest_jumping(rule: u32, table: &[u8], states: &mut [u8], words: &[u8], causes: &mut [u8], budget: u16) -> Answer {
    try_rest(rule, table, states, words, causes, budget, run_to_rest_jumping).unwrap_or_else(|refusal| refusal)
}

type RunToRest = fn(&Before, u16) -> Run;

fn try_rest(
    rule: u32,
    table: &[u8],
    states: &mut [u8],
    words: &[u8],
    causes: &mut [u8],
    budget: u16,
    run: RunToRest,
) -> Result<Answer, Answer> {
    let rule = read_rule(rule)?;
    let plans = read_table(table)?;
    let words = read_call(&plans, states, words, causes)?;
    let (answer, new_states, last_causes) = match run(&Before { rule, plans: &plans, states, words: &words }, budget) {
        Run::Rested { after, states, causes } => (answer(DONE, 0, usize::from(after)), states, causes),
        Run::StillMoving { states, causes } => (answer(DONE, STILL_MOVING, usize::from(budget)), states, causes),
    };
    states.copy_from_slice(&new_states);
    causes.copy_from_slice(&last_causes);
    Ok(answer)
}

/// How long a run under these words can go on, by either rule and from whatever states: the figure is the answer's step.
pub fn bound(table: &[u8], words: &[u8]) -> Answer {
    try_bound(table, words).unwrap_or_else(|refusal| refusal)
}

fn try_bound(table: &[u8], words: &[u8]) -> Result<Answer, Answer> {
    let plans = read_table(table)?;
    let words = read_question(&plans, words)?;
    if nobody_retries(&plans) && nobody_holds_both(&plans, &words) {
        Ok(answer(DONE, 0, most_steps(&plans)))
    } else {
        Ok(answer(DONE, NO_FIGURE, 0))
    }
}

/// Checking a record: "Acceptance returns the number of steps."
pub fn check(rule: u32, table: &[u8], record: &[u8]) -> Answer {
    try_check(rule, table, record, first_unexplained_plan).unwrap_or_else(|refusal| refusal)
}

/// The same by the fallback of before 02 (vii).
pub fn check_by_old_fallback(rule: u32, table: &[u8], record: &[u8]) -> Answer {
    try_check(rule, table, record, first_unexplained_by_old_fallback).unwrap_or_else(|refusal| refusal)
}

/// "the checker goes 1-9, 13, 14, then step by step", with 22 where a table is read
fn try_check(rule: u32, table: &[u8], record: &[u8], search: Search) -> Result<Answer, Answer> {
    let rule = read_rule(rule)?;
    let plans = read_table(table)?;
    let steps = read_record(record, plans.len())?;
    compare_steps(rule, &plans, record, steps, search)?;
    Ok(answer(DONE, 0, steps))
}

/// Moving a table of version 1: the answer's step is the number of bytes.
pub fn to_version_2(table: &[u8], output: &mut [u8]) -> Answer {
    moved_to_version_2(table).and_then(|moved| write_moved(&moved, output)).unwrap_or_else(|refusal| refusal)
}

/// Moving a table of version 2, likewise.
pub fn to_version_1(table: &[u8], output: &mut [u8]) -> Answer {
    moved_to_version_1(table).and_then(|moved| write_moved(&moved, output)).unwrap_or_else(|refusal| refusal)
}

/// 02 (vi): "24, output buffer too short, after that. ... output bytes past the result stay as they were."
fn write_moved(moved: &[u8], output: &mut [u8]) -> Result<Answer, Answer> {
    refuse_if(output.len() < moved.len(), 24)?;
    output[..moved.len()].copy_from_slice(moved);
    Ok(answer(DONE, 0, moved.len()))
}

/// The sub tree question: "a part of the caller's own state slice, from the plan through its last
/// descendant; it is empty exactly for a refused table, a wrong length, or a plan not below n."
#[allow(dead_code)] // Not exported to C, so differ.rs does not ask it: trees.rs and the tests do.
pub fn sub_tree<'a>(table: &[u8], states: &'a [u8], p: usize) -> &'a [u8] {
    match read_table(table) {
        Ok(plans) if states.len() == plans.len() && p < plans.len() => &states[p..=last_descendant(&plans, p)],
        _ => &[],
    }
}

/// The highest plan at or below p in the tree: of a leaf, the leaf itself.
fn last_descendant(plans: &[Plan], p: usize) -> usize {
    (0..plans.len()).rev().find(|&q| is_or_descends_from(plans, q, p)).expect("p itself")
}

/// Whether p is met on the way from q up to the root.
fn is_or_descends_from(plans: &[Plan], q: usize, p: usize) -> bool {
    q == p || plans[q].parent.is_some_and(|parent| is_or_descends_from(plans, parent, p))
}
