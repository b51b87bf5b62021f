//! What a comparison must reach of the tables of version 2: wait-for formulas where they decide a move, the good tables at their limits,
//! and what is refused because of a node. As in turns.rs each is a line of words with a count, and what is wanted is listed apart from the
//! counting.

use crate::formula_cases::{self, Family};
use crate::reference::{self, Before, Formula, Node, Plan};
use crate::tally::Lines;

// ------------------------------------------------------------------------------------------------
// Truths
// ------------------------------------------------------------------------------------------------

/// What a formula is asked for: whether the plan is lost, by the children that are not, and whether it can be Completed, by those that are.
const LOSS: &str = "loss";
const COMPLETION: &str = "completion";
const QUESTIONS: [&str; 2] = [LOSS, COMPLETION];

const TRUTHS: [bool; 2] = [false, true];

fn child(named: bool, is_in: bool) -> String {
    let named = if named { "named" } else { "not named" };
    format!("a child, {named}, that is {}in the set", if is_in { "" } else { "not " })
}

fn not(a: bool) -> String {
    format!("not {a}")
}

fn of_two(operator: &str, a: bool, b: bool) -> String {
    format!("{a} {operator} {b}")
}

const OPERATORS: [&str; 3] = ["and", "or", "xor"];

/// How many named children are in the set, beside those asked for.
fn at_least(named_in_set: usize, asked: usize) -> String {
    let many = match named_in_set as i64 - asked as i64 {
        0 => "just as many as asked for",
        1.. => "more than asked for",
        -1 => "one too few",
        _ => "two or more too few",
    };
    format!("at least so many: {many}")
}

/// A part of a formula that decides it: were its truth another one, that of the whole formula would be.
fn decides(question: &str, what: &str) -> String {
    format!("{question} by {what}")
}

/// What a formula says beside what it would say if each "not" were left out.
fn with_and_without_nots(question: &str, holds: bool) -> String {
    let (is, would) = if holds { ("holds", "fail") } else { ("fails", "hold") };
    format!("{question}: wait-for {is}, and would {would} without its nots")
}

/// What became of a plan that waits for "(a and b) or c", by those of them that are in the set.
fn either_way(question: &str, both: bool, c: bool) -> String {
    format!("{question} of (a and b) or c: a and b is {both}, c is {c}")
}

/// All that can be met, in steps and in records.
pub fn wanted_truths() -> Vec<String> {
    let mut lines = Vec::new();
    for question in QUESTIONS {
        for a in TRUTHS {
            lines.push(decides(question, &not(a)));
            lines.push(with_and_without_nots(question, a));
            for b in TRUTHS {
                lines.push(decides(question, &child(a, b)));
                lines.extend(OPERATORS.map(|operator| decides(question, &of_two(operator, a, b))));
                lines.push(either_way(question, a, b));
            }
        }
        lines.extend([(2, 1), (1, 1), (0, 1), (0, 2)].map(|(is, asked)| decides(question, &at_least(is, asked))));
    }
    lines
}

/// The formulas that decide a move of one step under a table of version 2.
pub fn count_truths(lines: &mut Lines, before: &Before, new: &[u8]) {
    for p in 0..before.plans.len() {
        let Some((question, set)) = question(before, p, new) else { continue };
        let is_in = |child: usize| set(before, p, before.states[child]);
        let asked = Asked { question, plans: before.plans, p, is_in: &is_in };
        let formula = &before.plans[p].wait_for;
        asked.count(lines, formula);
        let (holds, without) = (asked.is_true(formula), asked.is_true(&without_nots(formula)));
        if holds != without {
            lines.count(with_and_without_nots(question, holds));
        }
        if let Some((a, b, c)) = parts_of_either_way(formula) {
            lines.count(either_way(question, asked.is_true(a) && asked.is_true(b), asked.is_true(c)));
        }
    }
}

type Set = fn(&Before, usize, u8) -> bool;

/// The question that decides plan p's move, if there is one: loss of a plan in execution under a parent in execution whose own abort does
/// not hold, where that loses it; else completion of an Activated one whose other conditions let it.
fn question(before: &Before, p: usize, new: &[u8]) -> Option<(&'static str, Set)> {
    let plan = &before.plans[p];
    let holds = |condition| reference::condition_holds(plan, before.words[p], condition);
    let parent_new = plan.parent.map_or(reference::ACTIVATED, |parent| new[parent]);
    let is_asked = reference::in_execution(before.states[p]) && reference::in_execution(parent_new);
    if plan.children.is_empty() || !is_asked || holds(reference::ABORT) {
        return None;
    }
    let may_complete = before.states[p] == reference::ACTIVATED
        && parent_new == reference::ACTIVATED
        && !holds(reference::SUSPEND)
        && holds(reference::COMPLETE)
        && (plan.flags >> reference::WAIT_FOR_OPTIONAL & 1 == 0 || new[p] == reference::COMPLETED);
    if may_complete && new[p] != reference::ABORTED {
        Some((COMPLETION, |_, _, state| state == reference::COMPLETED))
    } else {
        Some((LOSS, |before, p, state| !reference::is_lost(before.rule, &before.plans[p], state)))
    }
}

/// A formula of plan p that is asked of a set of its children.
struct Asked<'a> {
    question: &'static str,
    plans: &'a [Plan],
    p: usize,
    is_in: &'a dyn Fn(usize) -> bool,
}

impl Asked<'_> {
    fn is_true(&self, formula: &Formula) -> bool {
        reference::is_true(formula, self.plans, self.p, self.is_in)
    }

    /// The parts of a formula that decide it: itself, and down from it what the other side of an and or an or leaves open.
    fn count(&self, lines: &mut Lines, formula: &Formula) {
        let sides = |a: &Formula, b: &Formula| (self.is_true(a), self.is_true(b));
        let what = match formula {
            Formula::Child(rank) => self.what_of_child(*rank),
            Formula::AtLeast(asked) => self.what_of_named(*asked),
            Formula::Not(a) => {
                self.count(lines, a);
                not(self.is_true(a))
            }
            Formula::And(a, b) => {
                let (is_a, is_b) = sides(a, b);
                self.count_if(lines, is_b, a);
                self.count_if(lines, is_a, b);
                of_two("and", is_a, is_b)
            }
            Formula::Or(a, b) => {
                let (is_a, is_b) = sides(a, b);
                self.count_if(lines, !is_b, a);
                self.count_if(lines, !is_a, b);
                of_two("or", is_a, is_b)
            }
            Formula::Xor(a, b) => {
                let (is_a, is_b) = sides(a, b);
                self.count(lines, a);
                self.count(lines, b);
                of_two("xor", is_a, is_b)
            }
        };
        lines.count(decides(self.question, &what));
    }

    fn count_if(&self, lines: &mut Lines, decides: bool, formula: &Formula) {
        if decides {
            self.count(lines, formula);
        }
    }

    fn is_named(&self, child: usize) -> bool {
        self.plans[child].is_named()
    }

    fn what_of_child(&self, rank: usize) -> String {
        let asked = self.plans[self.p].children[rank];
        child(self.is_named(asked), (self.is_in)(asked))
    }

    fn what_of_named(&self, asked: usize) -> String {
        let children = &self.plans[self.p].children;
        at_least(children.iter().filter(|&&child| self.is_named(child) && (self.is_in)(child)).count(), asked)
    }
}

/// The same formula with each "not" left out.
fn without_nots(formula: &Formula) -> Formula {
    let part = |formula: &Formula| Box::new(without_nots(formula));
    match formula {
        Formula::Not(a) => without_nots(a),
        Formula::And(a, b) => Formula::And(part(a), part(b)),
        Formula::Or(a, b) => Formula::Or(part(a), part(b)),
        Formula::Xor(a, b) => Formula::Xor(part(a), part(b)),
        alone => alone.clone(),
    }
}

/// a, b and c of "(a and b) or c", three different children, whichever side comes first.
fn parts_of_either_way(formula: &Formula) -> Option<(&Formula, &Formula, &Formula)> {
    let Formula::Or(left, right) = formula else { return None };
    let (a, b, c) = match (&**left, &**right) {
        (Formula::And(a, b), c) | (c, Formula::And(a, b)) => (&**a, &**b, c),
        _ => return None,
    };
    let are_children = [a, b, c].iter().all(|part| matches!(part, Formula::Child(_)));
    (are_children && a != b && b != c && a != c).then_some((a, b, c))
}

// ------------------------------------------------------------------------------------------------
// Good tables
// ------------------------------------------------------------------------------------------------

const NO_NODES: &str = "no nodes";
const FULL: &str = "256 nodes";
const DEEP: &str = "a formula 200 nodes deep";
const IN_TURN: &str = "nodes of two plans in turn";
const OUT_OF_ORDER: &str = "a plan whose formula begins before that of a lower plan";

pub fn wanted_tables() -> Vec<String> {
    [NO_NODES, FULL, DEEP, IN_TURN, OUT_OF_ORDER].map(String::from).to_vec()
}

/// Of a good table of version 2.
pub fn count_table(lines: &mut Lines, table: &[u8], plans: &[Plan]) {
    let nodes = reference::read_nodes(table, plans.len());
    let formulas: Vec<Vec<usize>> = parents(plans).map(|plan| reference::nodes_from(&nodes, usize::from(plan.byte_7))).collect();
    let is_between = |one: &[usize], other: &[usize]| {
        let (lowest, highest) = (one.iter().min(), one.iter().max());
        other.iter().any(|node| Some(node) > lowest && Some(node) < highest)
    };
    let in_turn = formulas.windows(2).any(|pair| is_between(&pair[0], &pair[1]) && is_between(&pair[1], &pair[0]));
    let met = [
        (nodes.is_empty(), NO_NODES),
        (nodes.len() == reference::MOST_NODES, FULL),
        (plans.iter().any(|plan| depth(&plan.wait_for) >= 200), DEEP),
        (in_turn, IN_TURN),
        (formulas.windows(2).any(|pair| pair[0][0] > pair[1][0]), OUT_OF_ORDER),
    ];
    met.into_iter().filter(|&(is_met, _)| is_met).for_each(|(_, what)| lines.count(what.to_string()));
}

fn parents(plans: &[Plan]) -> impl Iterator<Item = &Plan> {
    plans.iter().filter(|plan| !plan.children.is_empty())
}

fn depth(formula: &Formula) -> usize {
    match formula {
        Formula::Child(_) | Formula::AtLeast(_) => 1,
        Formula::Not(a) => 1 + depth(a),
        Formula::And(a, b) | Formula::Or(a, b) | Formula::Xor(a, b) => 1 + depth(a).max(depth(b)),
    }
}

// ------------------------------------------------------------------------------------------------
// Refusals
// ------------------------------------------------------------------------------------------------

const VERSION_0: &str = "3: version 0";
const VERSION_3: &str = "3: version 3";
const NO_COUNT: &str = "5: a table of version 2 that ends with its plans";
const HALF_A_COUNT: &str = "5: a table of version 2 that ends in its node count";
const A_BYTE_SHORT: &str = "5: a byte fewer than the node count promises";
const A_BYTE_OVER: &str = "5: a byte more than the node count promises";
const TOO_MANY: &str = "22: more than 256 nodes";
const FIRST_IS_COUNT: &str = "22: the first node of a formula is the count";
const FIRST_IS_ABOVE: &str = "22: the first node of a formula is above the count";
const KIND_6: &str = "22: kind 6";
const KIND_ABOVE: &str = "22: a kind above 6";
const FOURTH: &str = "22: a fourth byte";
const UNUSED: &str = "22: a node that nothing uses";
const BY_TWO_NODES: &str = "22: a node that two nodes use";
const BY_BOTH: &str = "22: a node that a plan and a node use";
const BY_TWO_PLANS: &str = "22: a node that two plans use";
const BY_ONE_NODE: &str = "22: a node that is both operands of one";
const RANK_IS_NUMBER: &str = "22: a rank that is the number of children";
const RANK_IS_ABOVE: &str = "22: a rank above the number of children";
const LOWER_OF_TWO: &str = "22: a node, and a higher one breaks a rule too";
const BEHIND_A_RANK: &str = "22: a node behind one whose rank is above all";
const BEFORE_9: &str = "22: a node, and one asks for more named children than any plan has";
const RANK_BEFORE_9: &str = "22: a rank, and one asks for more named children than any plan has";
const BY_A_BROKEN_NODE: &str = "22: a node that breaks two rules, and only it uses a lower one";
const FIRST_BEFORE_NODES: &str = "22: the first node of a formula, and a node breaks a rule too";
const AFTER_8: &str = "8: and a node breaks a rule";
const NINE_BY_FIRST: &str = "9: the first node of a formula";
const NINE_BY_OTHER: &str = "9: a node further down";
const NINE_BY_PLAN: &str = "9: the lower plan, and a lower node of a higher plan asks for too many";
const NO_REASON: &str = "22 for no reason";

const OPERANDS: [(u8, usize); 7] = [(1, 0), (2, 0), (2, 1), (3, 0), (3, 1), (4, 0), (4, 1)];
const WRONG_OPERANDS: [&str; 3] = ["the node itself", "a lower node", "not a node"];

fn unused_b(kind: u8) -> String {
    format!("22: b of kind {kind}")
}

fn wrong_operand(kind: u8, operand: usize, what: &str) -> String {
    format!("22: {} of kind {kind} is {what}", ["a", "b"][operand])
}

/// Every reason, alone, and who is told where there are several. Each line begins with the number that is answered.
pub fn wanted_of_tables() -> Vec<String> {
    let alone = [
        VERSION_0, VERSION_3, NO_COUNT, HALF_A_COUNT, A_BYTE_SHORT, A_BYTE_OVER, TOO_MANY, FIRST_IS_COUNT, FIRST_IS_ABOVE, KIND_6,
        KIND_ABOVE, FOURTH, UNUSED, BY_TWO_NODES, BY_BOTH, BY_TWO_PLANS, BY_ONE_NODE, RANK_IS_NUMBER, RANK_IS_ABOVE, LOWER_OF_TWO,
        BEHIND_A_RANK, BEFORE_9, RANK_BEFORE_9, BY_A_BROKEN_NODE, FIRST_BEFORE_NODES, AFTER_8, NINE_BY_FIRST, NINE_BY_OTHER,
        NINE_BY_PLAN,
    ];
    let operands = OPERANDS.into_iter().flat_map(|(kind, at)| WRONG_OPERANDS.map(|what| wrong_operand(kind, at, what)));
    alone.map(String::from).into_iter().chain([0, 1, 5].map(unused_b)).chain(operands).collect()
}

/// What a table of version 2 says of its plans with children and its nodes, once its length is right and its plans have passed 6.
struct Table {
    plans: Vec<Family>,
    nodes: Vec<Node>,
}

impl Table {
    fn of(table: &[u8]) -> Table {
        let nodes = reference::read_nodes(table, reference::number_of_16_bits(table, 5));
        Table { plans: formula_cases::families(table), nodes }
    }

    /// All that is wrong with node i, its rank apart.
    fn faults(&self, i: usize) -> Vec<String> {
        let Node { kind, b, zero, .. } = self.nodes[i];
        let mut faults = Vec::new();
        match kind {
            0..=5 => {}
            6 => faults.push(KIND_6.to_string()),
            _ => faults.push(KIND_ABOVE.to_string()),
        }
        if zero != 0 {
            faults.push(FOURTH.to_string());
        }
        if [0, 1, 5].contains(&kind) && b != 0 {
            faults.push(unused_b(kind));
        }
        faults.extend(self.wrong_operands(i));
        faults.extend(self.wrong_use(i).map(String::from));
        faults
    }

    fn wrong_operands(&self, i: usize) -> Vec<String> {
        let wrong = |(at, &operand): (usize, &usize)| {
            let what = match operand {
                _ if operand == i => WRONG_OPERANDS[0],
                _ if operand < i => WRONG_OPERANDS[1],
                _ if operand >= self.nodes.len() => WRONG_OPERANDS[2],
                _ => return None,
            };
            Some(wrong_operand(self.nodes[i].kind, at, what))
        };
        reference::operands(&self.nodes[i]).iter().enumerate().filter_map(wrong).collect()
    }

    /// Of a node that is used three times and more, the first two that this asks for.
    fn wrong_use(&self, i: usize) -> Option<&'static str> {
        let by_plans = self.plans.iter().filter(|plan| plan.byte_7 == i).count();
        let by_each: Vec<usize> =
            self.nodes.iter().map(|node| reference::operands(node).iter().filter(|&&operand| operand == i).count()).collect();
        let by_nodes = by_each.iter().filter(|&&times| times > 0).count();
        match (by_plans, by_nodes) {
            _ if by_each.contains(&2) => Some(BY_ONE_NODE),
            (0, 0) => Some(UNUSED),
            (0, 1) | (1, 0) => None,
            (0, _) => Some(BY_TWO_NODES),
            (_, 0) => Some(BY_TWO_PLANS),
            _ => Some(BY_BOTH),
        }
    }

    /// Of nodes without faults: why the rank of node i is wrong, if it is.
    fn wrong_rank(&self, i: usize) -> Option<&'static str> {
        let plan = self.plans.iter().find(|plan| reference::nodes_from(&self.nodes, plan.byte_7).contains(&i))?;
        let rank = usize::from(self.nodes[i].a);
        match self.nodes[i].kind {
            0 if rank == plan.children => Some(RANK_IS_NUMBER),
            0 if rank > plan.children => Some(RANK_IS_ABOVE),
            _ => None,
        }
    }

    fn most(&self, number: impl Fn(&Family) -> usize) -> usize {
        self.plans.iter().map(number).max().unwrap_or(0)
    }

    /// A plan whose formula's first node is not there.
    fn first_past(&self) -> Option<&'static str> {
        let past = self.plans.iter().map(|plan| plan.byte_7).filter(|&first| first >= self.nodes.len()).max()?;
        Some(if past == self.nodes.len() { FIRST_IS_COUNT } else { FIRST_IS_ABOVE })
    }

    fn asks_for_more(&self, i: usize, named: usize) -> bool {
        self.nodes[i].kind == 5 && usize::from(self.nodes[i].a) > named
    }
}

/// Why a table is refused, where its version or a node has to do with it: the reason, if there is one alone, and what else is wrong.
pub fn why_refused(bytes: &[u8]) -> Vec<String> {
    let Some(answer) = reference::read_table(bytes).err() else { return vec![] };
    let place = (answer >> 16 & 0xFFFF) as usize;
    let one = |why: Option<&str>| why.map(String::from).into_iter().collect();
    match answer & 0xFFFF {
        3 => one(why_3(bytes)),
        _ if !formula_cases::is_of_version_2(bytes) => vec![],
        5 => one(why_5(bytes)),
        8 => one(why_8(&Table::of(bytes))),
        9 => why_9(&Table::of(bytes), place),
        22 => why_22(&Table::of(bytes), place),
        _ => vec![],
    }
}

fn why_3(bytes: &[u8]) -> Option<&'static str> {
    match bytes[3..5] {
        [0, 0] => Some(VERSION_0),
        [3, 0] => Some(VERSION_3),
        _ => None,
    }
}

fn why_5(bytes: &[u8]) -> Option<&'static str> {
    let end_of_plans = reference::HEADER_BYTES + reference::PLAN_BYTES * reference::number_of_16_bits(bytes, 5);
    match bytes.len().checked_sub(end_of_plans)? {
        0 => return Some(NO_COUNT),
        1 => return Some(HALF_A_COUNT),
        _ => {}
    }
    let promised = end_of_plans + reference::COUNT_BYTES + reference::NODE_BYTES * reference::number_of_16_bits(bytes, end_of_plans);
    match bytes.len() {
        length if length + 1 == promised => Some(A_BYTE_SHORT),
        length if length == promised + 1 => Some(A_BYTE_OVER),
        _ => None,
    }
}

fn why_8(table: &Table) -> Option<&'static str> {
    let is_broken = table.first_past().is_some() || (0..table.nodes.len()).any(|i| !table.faults(i).is_empty());
    is_broken.then_some(AFTER_8)
}

fn why_22(table: &Table, place: usize) -> Vec<String> {
    if table.nodes.len() > reference::MOST_NODES {
        return vec![TOO_MANY.to_string()];
    }
    let broken: Vec<usize> = (0..table.nodes.len()).filter(|&i| !table.faults(i).is_empty()).collect();
    if let Some(past) = table.first_past() {
        let besides = broken.iter().any(|&i| i > 0).then_some(FIRST_BEFORE_NODES);
        return std::iter::once(past).chain(besides).map(String::from).collect();
    }
    let asks_for_too_many = (0..table.nodes.len()).any(|i| table.asks_for_more(i, table.most(|plan| plan.named)));
    if broken.is_empty() {
        let besides = asks_for_too_many.then_some(RANK_BEFORE_9);
        return table.wrong_rank(place).or(Some(NO_REASON)).into_iter().chain(besides).map(String::from).collect();
    }
    let faults = table.faults(place);
    let above_all = |i: usize| table.nodes[i].kind == 0 && usize::from(table.nodes[i].a) >= table.most(|plan| plan.children);
    let besides = [
        (faults.is_empty(), NO_REASON),
        (broken.len() > 1, LOWER_OF_TWO),
        ((0..place).any(above_all), BEHIND_A_RANK),
        (asks_for_too_many, BEFORE_9),
        // the lower one is in order, so it has no other use
        (faults.len() > 1 && reference::operands(&table.nodes[place]).iter().any(|&operand| operand < place), BY_A_BROKEN_NODE),
    ];
    let besides = besides.into_iter().filter(|&(is_so, _)| is_so).map(|(_, what)| what.to_string());
    // a reason counts where it is the only one
    let alone = if faults.len() == 1 { faults } else { vec![] };
    alone.into_iter().chain(besides).collect()
}

fn why_9(table: &Table, place: usize) -> Vec<String> {
    let too_many = |plan: &Family| -> Vec<usize> {
        reference::nodes_from(&table.nodes, plan.byte_7).into_iter().filter(|&i| table.asks_for_more(i, plan.named)).collect()
    };
    let told = table.plans.iter().find(|plan| plan.plan == place).expect("9 names a plan with children");
    let of_told = too_many(told);
    let of_higher = table.plans.iter().filter(|plan| plan.plan > place).flat_map(too_many);
    let lowest = of_told.iter().min().expect("9 names a plan that asks for too many");
    let met = [
        (of_told.contains(&told.byte_7), NINE_BY_FIRST),
        (of_told.iter().any(|&i| i != told.byte_7), NINE_BY_OTHER),
        (of_higher.min().is_some_and(|i| i < *lowest), NINE_BY_PLAN),
    ];
    met.into_iter().filter(|&(is_met, _)| is_met).map(|(_, what)| what.to_string()).collect()
}
