//! Random tables of version 2: wait-for formulas for the plans of a table of version 1, and every way to break one.

use crate::dice::Dice;
use crate::reference::{self, Formula};

const HEADER: usize = reference::HEADER_BYTES;
const ENTRY: usize = reference::PLAN_BYTES;
const COUNT: usize = reference::COUNT_BYTES;
const NODE: usize = reference::NODE_BYTES;
const MOST_NODES: usize = reference::MOST_NODES;

// ------------------------------------------------------------------------------------------------
// Formulas
// ------------------------------------------------------------------------------------------------

/// What the formula of a plan is like.
#[derive(Clone, Copy)]
pub enum Manner {
    /// One node of kind 5 that asks for as many children as m did.
    Counting,
    /// Neither not nor xor: what holds of some children holds of more.
    Helping,
    /// "(a and b) or c"
    EitherWay,
    /// Both of two children or neither: each alone is worse than none.
    BothOrNone,
    /// Of all kinds, and mostly true of all children, so that a plan is not lost as soon as it is activated.
    Any,
}

pub const ALL_MANNERS: [Manner; 8] = [
    Manner::Counting,
    Manner::Counting,
    Manner::Helping,
    Manner::Helping,
    Manner::EitherWay,
    Manner::BothOrNone,
    Manner::Any,
    Manner::Any,
];

/// A plan with children, and how many a formula can ask for.
pub struct Family {
    pub plan: usize,
    pub children: usize,
    pub named: usize,
    /// m, or of version 2 the formula's first node.
    pub byte_7: usize,
}

/// Those of a table whose plans are all there.
pub fn families(table: &[u8]) -> Vec<Family> {
    let n = reference::number_of_16_bits(table, 5);
    let entries: Vec<&[u8]> = table[HEADER..].chunks_exact(ENTRY).take(n).collect();
    let of_plan = |plan: usize| {
        let children: Vec<&&[u8]> = entries.iter().filter(|entry| entry[0..2] == (plan as u16).to_le_bytes()).collect();
        let named = children.iter().filter(|entry| entry[3] >> reference::NAMED & 1 == 1).count();
        Family { plan, children: children.len(), named, byte_7: usize::from(entries[plan][7]) }
    };
    (0..entries.len()).map(of_plan).filter(|family| family.children > 0).collect()
}

fn boxed(formula: Formula) -> Box<Formula> {
    Box::new(formula)
}

fn some_child(dice: &mut Dice, family: &Family) -> Formula {
    Formula::Child(dice.below(family.children))
}

/// Of just so many nodes; without not and xor of no more than that.
fn formula_of(dice: &mut Dice, family: &Family, may_turn: bool, nodes: usize) -> Formula {
    let turns = may_turn && (nodes == 2 || (nodes > 2 && dice.percent(25)));
    match nodes {
        1 | 2 if !turns && dice.percent(30) => Formula::AtLeast(dice.between(0, family.named)),
        1 | 2 if !turns => some_child(dice, family),
        _ if turns => Formula::Not(boxed(formula_of(dice, family, may_turn, nodes - 1))),
        _ => {
            let left = dice.between(1, nodes - 2);
            let a = boxed(formula_of(dice, family, may_turn, left));
            let b = boxed(formula_of(dice, family, may_turn, nodes - 1 - left));
            match dice.below(if may_turn { 3 } else { 2 }) {
                0 => Formula::And(a, b),
                1 => Formula::Or(a, b),
                _ => Formula::Xor(a, b),
            }
        }
    }
}

/// As many nots as there is room for, and a child below them: as deep as a formula can be.
fn deepest_formula(dice: &mut Dice, family: &Family, room: usize) -> Formula {
    (1..room).fold(some_child(dice, family), |formula, _| Formula::Not(boxed(formula)))
}

/// So many different children.
fn some_children<const N: usize>(dice: &mut Dice, family: &Family) -> [Formula; N] {
    let mut all: Vec<usize> = (0..family.children).collect();
    std::array::from_fn(|_| Formula::Child(all.swap_remove(dice.below(all.len()))))
}

/// A formula of this manner that finds room.
fn formula(dice: &mut Dice, family: &Family, manner: Manner, room: usize) -> Formula {
    let nodes = dice.between(1, 7).min(room);
    match manner {
        Manner::Counting => Formula::AtLeast(family.byte_7),
        Manner::EitherWay if family.children >= 3 && room >= 5 => {
            let [a, b, c] = some_children(dice, family).map(boxed);
            let both = boxed(Formula::And(a, b));
            if dice.percent(70) {
                Formula::Or(both, c)
            } else {
                Formula::Or(c, both)
            }
        }
        Manner::BothOrNone if family.children >= 2 && room >= 4 => {
            let [a, b] = some_children(dice, family).map(boxed);
            Formula::Not(boxed(Formula::Xor(a, b)))
        }
        Manner::Any => {
            let drawn = formula_of(dice, family, true, nodes);
            if !is_true_of_all(&drawn) && nodes < room && dice.percent(75) {
                Formula::Not(boxed(drawn))
            } else {
                drawn
            }
        }
        _ => formula_of(dice, family, false, nodes),
    }
}

/// Whether a formula is true of all children; none asks for more than are named.
fn is_true_of_all(formula: &Formula) -> bool {
    match formula {
        Formula::Child(_) | Formula::AtLeast(_) => true,
        Formula::Not(a) => !is_true_of_all(a),
        Formula::And(a, b) => is_true_of_all(a) && is_true_of_all(b),
        Formula::Or(a, b) => is_true_of_all(a) || is_true_of_all(b),
        Formula::Xor(a, b) => is_true_of_all(a) != is_true_of_all(b),
    }
}

fn size(formula: &Formula) -> usize {
    match formula {
        Formula::Child(_) | Formula::AtLeast(_) => 1,
        Formula::Not(a) => 1 + size(a),
        Formula::And(a, b) | Formula::Or(a, b) | Formula::Xor(a, b) => 1 + size(a) + size(b),
    }
}

// ------------------------------------------------------------------------------------------------
// Tables
// ------------------------------------------------------------------------------------------------

/// Whether a table says that it is of version 2.
pub fn is_of_version_2(table: &[u8]) -> bool {
    table.get(3..5) == Some(&[2, 0])
}

/// The version of a table that passes check 3.
pub fn version_of(table: &[u8]) -> u8 {
    if is_of_version_2(table) {
        2
    } else {
        1
    }
}

/// Makes a table of version 1 one of version 2: byte 7 of its plans with children is a node's number then. Few have all the nodes that a
/// table can have.
pub fn add_formulas(dice: &mut Dice, table: &mut Vec<u8>, manners: &[Manner]) {
    let families = families(table);
    let full = dice.percent(3);
    let of_table = dice.one_of(manners);
    let mixed = dice.percent(30);
    let mut room = MOST_NODES;
    let mut formulas = Vec::new();
    for (at, family) in families.iter().enumerate() {
        // each of the plans behind has one node at least
        let free = room - (families.len() - 1 - at);
        let manner = if mixed { dice.one_of(manners) } else { of_table };
        let formula = match (full && at + 1 == families.len(), dice.below(2)) {
            (true, 0) => deepest_formula(dice, family, free),
            (true, _) => formula_of(dice, family, true, free),
            _ => formula(dice, family, manner, free),
        };
        room -= size(&formula);
        formulas.push((family.plan, formula));
    }
    let order = if dice.percent(75) { Order::InTurn } else { Order::ByPlan };
    write_nodes(dice, table, &formulas, order);
}

/// The same with a node of kind 5 for each plan, which asks for what m asked for. One plan, if it is named by its place among those with
/// children, has a formula with one node of another kind.
pub fn add_counts(dice: &mut Dice, table: &mut Vec<u8>, order: Order, other: Option<usize>) {
    let families = families(table);
    let room = MOST_NODES + 1 - families.len();
    let mut formulas = Vec::new();
    for (at, family) in families.iter().enumerate() {
        let count = Formula::AtLeast(family.byte_7);
        formulas.push((family.plan, if other == Some(at) { over_counts(dice, family, count, room) } else { count }));
    }
    write_nodes(dice, table, &formulas, order);
}

/// A formula that finds room and has one node of another kind than 5: a child, or what is above one such count or two.
fn over_counts(dice: &mut Dice, family: &Family, count: Formula, room: usize) -> Formula {
    let [a, b] = [count.clone(), count].map(boxed);
    match dice.below(if room < 3 { 1 } else { 5 }) {
        0 => some_child(dice, family),
        1 => Formula::Not(a),
        2 => Formula::And(a, b),
        3 => Formula::Or(a, b),
        _ => Formula::Xor(a, b),
    }
}

/// In which order the nodes of a table stand.
#[derive(Clone, Copy)]
pub enum Order {
    /// Those of one plan, then those of the next.
    ByPlan,
    /// Any in which operands come later, those of several plans in turn.
    InTurn,
}

/// Puts the nodes behind the plans of a table of version 1, which is of version 2 then.
fn write_nodes(dice: &mut Dice, table: &mut Vec<u8>, formulas: &[(usize, Formula)], order: Order) {
    table[3] = 2;
    table.extend([0; COUNT]);
    let start = table.len();
    // formulas that wait to be written, each with the place of the byte that has to name its first node
    let place = |plan: usize| HEADER + ENTRY * plan + 7;
    let mut waiting: Vec<(usize, &Formula)> = formulas.iter().rev().map(|(plan, formula)| (place(*plan), formula)).collect();
    while !waiting.is_empty() {
        let next = match order {
            Order::InTurn => dice.below(waiting.len()),
            Order::ByPlan => waiting.len() - 1,
        };
        let (place, formula) = waiting.swap_remove(next);
        let node = table.len();
        table[place] = ((node - start) / NODE) as u8;
        let (kind, a) = match formula {
            Formula::Child(rank) => (reference::CHILD, *rank as u8),
            Formula::AtLeast(number) => (reference::AT_LEAST, *number as u8),
            Formula::Not(a) => {
                waiting.push((node + 1, a));
                (reference::NOT, 0)
            }
            Formula::And(a, b) | Formula::Or(a, b) | Formula::Xor(a, b) => {
                waiting.extend([(node + 1, &**a), (node + 2, &**b)]);
                (kind_of_two(formula), 0)
            }
        };
        table.extend([kind, a, 0, 0]);
    }
    let count = (table.len() - start) / NODE;
    table[start - COUNT..start].copy_from_slice(&(count as u16).to_le_bytes());
}

fn kind_of_two(formula: &Formula) -> u8 {
    match formula {
        Formula::And(..) => reference::AND,
        Formula::Or(..) => reference::OR,
        _ => reference::XOR,
    }
}

// ------------------------------------------------------------------------------------------------
// Spoiling
// ------------------------------------------------------------------------------------------------

/// A table of version 2 whose length fits its counts.
struct Nodes<'a> {
    table: &'a mut Vec<u8>,
    plans: usize,
    count: usize,
}

impl<'a> Nodes<'a> {
    fn of(table: &'a mut Vec<u8>) -> Option<Nodes<'a>> {
        if table.len() < HEADER || !is_of_version_2(table) {
            return None;
        }
        let plans = reference::number_of_16_bits(table, 5);
        let at = HEADER + ENTRY * plans;
        let count = if table.len() < at + COUNT { return None } else { reference::number_of_16_bits(table, at) };
        (plans > 0 && table.len() == at + COUNT + NODE * count).then_some(Nodes { table, plans, count })
    }

    /// Where byte `at` of node i stands.
    fn place(&self, i: usize, at: usize) -> usize {
        HEADER + ENTRY * self.plans + COUNT + NODE * i + at
    }

    fn kind(&self, i: usize) -> u8 {
        self.table[self.place(i, 0)]
    }

    fn set_count(&mut self, count: usize) {
        let at = HEADER + ENTRY * self.plans;
        self.table[at..at + COUNT].copy_from_slice(&(count as u16).to_le_bytes());
    }

    fn push(&mut self, node: [u8; NODE]) {
        self.table.extend(node);
        self.count += 1;
        self.set_count(self.count);
    }

    /// A node of one of these kinds.
    fn some(&self, dice: &mut Dice, kinds: &[u8]) -> Option<usize> {
        let of_kind: Vec<usize> = (0..self.count).filter(|&i| kinds.contains(&self.kind(i))).collect();
        (!of_kind.is_empty()).then(|| dice.one_of(&of_kind))
    }

    /// The places of the bytes by which node i uses others.
    fn operands(&self, i: usize) -> Vec<usize> {
        match self.kind(i) {
            reference::NOT => vec![self.place(i, 1)],
            reference::AND | reference::OR | reference::XOR => vec![self.place(i, 1), self.place(i, 2)],
            _ => vec![],
        }
    }

    fn firsts(&self) -> Vec<usize> {
        families(self.table).iter().map(|family| HEADER + ENTRY * family.plan + 7).collect()
    }

    /// The plan in whose formula a node stands, if nodes above it are used as they should be.
    fn family_of(&self, node: usize) -> Option<Family> {
        let mut below = node;
        for _ in 0..self.count {
            let by_plan = families(self.table).into_iter().find(|family| family.byte_7 == below);
            if by_plan.is_some() {
                return by_plan;
            }
            below = (0..self.count).find(|&i| self.operands(i).iter().any(|&place| usize::from(self.table[place]) == below))?;
        }
        None
    }
}

/// Breaks a table of version 2 in one place, in a way that a number of its own, 22 or 9 or 5, tells; does nothing to any other table.
pub fn spoil_nodes(dice: &mut Dice, table: &mut Vec<u8>) {
    let Some(mut nodes) = Nodes::of(table) else { return };
    match dice.below(32) {
        0 => add_too_many(dice, &mut nodes),
        1 | 2 => lead_past_the_count(dice, &mut nodes),
        3 => set_some(dice, &mut nodes, &EACH_KIND, 0, |dice| dice.one_of(&[6, 6, 7, 128, 255])),
        4 => set_some(dice, &mut nodes, &EACH_KIND, 3, |dice| dice.one_of(&[1, 2, 128, 255])),
        5..=7 => {
            let kind = dice.one_of(&[reference::CHILD, reference::NOT, reference::AT_LEAST]);
            set_some(dice, &mut nodes, &[kind], 2, |dice| dice.one_of(&[1, 1, 2, 255]));
        }
        8..=11 => change_operand(dice, &mut nodes),
        12..=18 => add_a_circle(dice, &mut nodes),
        19 => nodes.push([dice.one_of(&[reference::CHILD, reference::AT_LEAST]), 0, 0, 0]),
        20..=22 => use_again(dice, &mut nodes),
        23 | 24 => ask_for_a_child_too_many(dice, &mut nodes),
        25..=27 => ask_for_too_many_named(dice, &mut nodes),
        28..=30 => spoil_count(dice, &mut nodes),
        _ => {
            let at = HEADER + ENTRY * nodes.plans + dice.below(nodes.table.len() - HEADER - ENTRY * nodes.plans);
            nodes.table[at] = if dice.percent(50) { nodes.table[at] ^ 1 << dice.below(8) } else { dice.byte() };
        }
    }
}

const EACH_KIND: [u8; 6] =
    [reference::CHILD, reference::NOT, reference::AND, reference::OR, reference::XOR, reference::AT_LEAST];
const WITH_OPERANDS: [u8; 4] = [reference::NOT, reference::AND, reference::OR, reference::XOR];
const OF_TWO: [u8; 3] = [reference::AND, reference::OR, reference::XOR];

/// More nodes than a table can have; their number and the length fit.
fn add_too_many(dice: &mut Dice, nodes: &mut Nodes) {
    let count = dice.one_of(&[257, 257, 258, 300, 512]);
    while nodes.count < count {
        nodes.push([reference::CHILD, 0, 0, 0]);
    }
}

/// The formula of a plan begins with a node that is not there.
fn lead_past_the_count(dice: &mut Dice, nodes: &mut Nodes) {
    let firsts = nodes.firsts();
    if !firsts.is_empty() && nodes.count < 255 {
        let first = dice.one_of(&[nodes.count, nodes.count, nodes.count + 1, 255]);
        nodes.table[dice.one_of(&firsts)] = first as u8;
    }
}

/// Another byte `at` of a node of one of these kinds.
fn set_some(dice: &mut Dice, nodes: &mut Nodes, kinds: &[u8], at: usize, byte: impl Fn(&mut Dice) -> u8) {
    if let Some(i) = nodes.some(dice, kinds) {
        let place = nodes.place(i, at);
        nodes.table[place] = byte(dice);
    }
}

/// Another operand: the node itself, a lower one, or one that is not there.
fn change_operand(dice: &mut Dice, nodes: &mut Nodes) {
    if let Some(i) = nodes.some(dice, &WITH_OPERANDS) {
        let place = dice.one_of(&nodes.operands(i));
        let lower = dice.below(i + 1);
        nodes.table[place] = dice.one_of(&[i, lower, nodes.count, nodes.count, nodes.count + 1, 255]) as u8;
    }
}

/// Nodes that no plan's formula has, each used once: one that is its own operand, or two of which the higher one uses the lower. At times
/// the one that does so breaks another rule besides.
fn add_a_circle(dice: &mut Dice, nodes: &mut Nodes) {
    if nodes.count > MOST_NODES - 4 {
        return;
    }
    let back_to = nodes.count as u8;
    if dice.percent(50) {
        nodes.push([reference::NOT, back_to + 1, 0, 0]);
    }
    let last = nodes.count as u8;
    let fourth = u8::from(dice.percent(15));
    match dice.below(7) {
        0 => nodes.push([reference::NOT, back_to, 0, fourth]),
        at => {
            let kind = OF_TWO[at % 3];
            let (a, b) = if at > 3 { (back_to, last + 1) } else { (last + 1, back_to) };
            nodes.push([kind, a, b, fourth]);
            nodes.push([reference::CHILD, 0, 0, 0]);
        }
    }
}

/// A node is used in the place of another one: as well by another node or plan, or twice by one node.
fn use_again(dice: &mut Dice, nodes: &mut Nodes) {
    let firsts = nodes.firsts();
    let operands: Vec<usize> = (0..nodes.count).flat_map(|i| nodes.operands(i)).collect();
    let twice = nodes.some(dice, &OF_TWO).filter(|_| dice.percent(25));
    let (from, to) = match twice {
        Some(i) if dice.percent(50) => (nodes.place(i, 1), nodes.place(i, 2)),
        Some(i) => (nodes.place(i, 2), nodes.place(i, 1)),
        None => {
            let of_plans = dice.percent(30) && !firsts.is_empty();
            let all = if of_plans { firsts } else { [firsts, operands].concat() };
            if all.is_empty() {
                return;
            }
            (dice.one_of(&all), dice.one_of(&all))
        }
    };
    nodes.table[to] = nodes.table[from];
}

/// The rank of a child that is not there.
fn ask_for_a_child_too_many(dice: &mut Dice, nodes: &mut Nodes) {
    let Some(i) = nodes.some(dice, &[reference::CHILD]) else { return };
    let Some(family) = nodes.family_of(i) else { return };
    let place = nodes.place(i, 1);
    nodes.table[place] = dice.one_of(&[family.children, family.children, family.children + 1, 64, 255]) as u8;
}

/// More named children than there are: of one node, or of two.
fn ask_for_too_many_named(dice: &mut Dice, nodes: &mut Nodes) {
    for _ in 0..dice.between(1, 2) {
        let Some(i) = nodes.some(dice, &[reference::CHILD, reference::AT_LEAST]) else { return };
        let Some(family) = nodes.family_of(i) else { return };
        let at = nodes.place(i, 0);
        let number = dice.one_of(&[family.named + 1, family.named + 1, 65, 255]) as u8;
        nodes.table[at..at + NODE].copy_from_slice(&[reference::AT_LEAST, number, 0, 0]);
    }
}

/// A count that the length does not fit, or no nodes; or a table that ends with its plans or in its count, or a byte too soon or too late.
fn spoil_count(dice: &mut Dice, nodes: &mut Nodes) {
    let end = HEADER + ENTRY * nodes.plans;
    match dice.below(9) {
        0 => nodes.set_count(nodes.count.saturating_sub(1)),
        1 => nodes.set_count(nodes.count + 1),
        2 => nodes.set_count(nodes.count + 256),
        3 => {
            nodes.set_count(0);
            nodes.table.truncate(end + COUNT);
        }
        4 => nodes.table.truncate(nodes.table.len() - 1),
        5 => nodes.table.push(0),
        _ => nodes.table.truncate(end + dice.below(COUNT + 1)),
    }
}

/// Breaks a table of version 2 so that it is refused with 22; leaves any other as it is.
pub fn spoil_for_22(dice: &mut Dice, table: &mut Vec<u8>) {
    if let Some(mut nodes) = Nodes::of(table) {
        match nodes.count {
            0 => nodes.push([reference::CHILD, 0, 0, 0]),
            _ => set_some(dice, &mut nodes, &EACH_KIND, 3, |_| 1),
        }
    }
}

/// Breaks a table so that it is refused with 9, if it has more than one plan.
pub fn spoil_for_9(dice: &mut Dice, table: &mut Vec<u8>) {
    match Nodes::of(table) {
        Some(mut nodes) => ask_for_too_many_named(dice, &mut nodes),
        None => {
            if let Some(byte) = table.get_mut(HEADER + 7) {
                *byte ^= 1 << 7;
            }
        }
    }
}
