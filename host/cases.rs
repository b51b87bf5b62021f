//! Random calls for the differential tester.
//!
//! A `Maker` keeps a pool of live situations: a good table and states that a run of steps has led
//! to. Most calls go on from one of them; some spoil a table, states, words, causes or a record first. All
//! choices come from seeded `Dice`, so a seed and a call's number name a call for good.

use crate::dice::Dice;
use crate::formula_cases::{self, Manner, ALL_MANNERS};
use crate::reference::{self, Before, Formula, Plan, Rule};

// ------------------------------------------------------------------------------------------------
// Calls
// ------------------------------------------------------------------------------------------------

#[derive(Clone, Copy, PartialEq, Debug)]
pub enum Kind {
    Step,
    Rest,
    Check,
}

/// One call as it is sent to both implementations.
#[derive(Clone)]
pub struct Call {
    pub kind: Kind,
    pub rule: u32,
    pub table: Vec<u8>,
    /// Empty for a check.
    pub states: Vec<u8>,
    /// The record for a check.
    pub words: Vec<u8>,
    /// What stands in the causes before; empty for a check.
    pub causes: Vec<u8>,
    /// 0 unless the kind is rest.
    pub budget: u16,
    /// The situation in the pool that goes on from the answer of this call.
    continues: Option<usize>,
}

impl Call {
    /// The reference's answer, and the states and the causes that it leaves.
    pub fn ask_reference(&self) -> (reference::Answer, Vec<u8>, Vec<u8>) {
        let Call { rule, table, words, .. } = self;
        let (mut states, mut causes) = (self.states.clone(), self.causes.clone());
        let answer = match self.kind {
            Kind::Step => reference::step(*rule, table, &mut states, words, &mut causes),
            Kind::Rest => reference::rest_jumping(*rule, table, &mut states, words, &mut causes, self.budget),
            Kind::Check => reference::check(*rule, table, words),
        };
        (answer, states, causes)
    }

    /// The same call by another rule.
    pub fn by(&self, rule: u32) -> Call {
        Call { rule, ..self.clone() }
    }
}

/// The rules there are, by their numbers.
pub const RULES: [(u32, Rule); 2] = [(1, Rule::Old), (2, Rule::New)];

/// Numbers of no rule: those beside the two, and some that would pass where only a part of the number is read, or its sign.
pub const WRONG_RULES: [u32; 8] = [0, 3, u32::MAX, 257, 258, 65_537, 65_538, (1 << 31) + 1];

/// One of these, or any other; half of the others end in 1 or 2 as 16 bits.
fn wrong_rule(dice: &mut Dice) -> u32 {
    let any = dice.roll() as u32 | 1 << 16;
    match dice.below(WRONG_RULES.len() + 2) {
        0 => any,
        1 => any & !0xFFFF | dice.between(1, 2) as u32,
        at => WRONG_RULES[at - 2],
    }
}

// ------------------------------------------------------------------------------------------------
// Tables
// ------------------------------------------------------------------------------------------------

const HEADER: usize = reference::HEADER_BYTES;
const ENTRY: usize = reference::PLAN_BYTES;

#[derive(Clone, Copy)]
enum Shape {
    /// Every plan hangs on the highest plan that still has room.
    Wide,
    /// A chain, or nearly one.
    Deep,
    /// Two or three levels.
    Bushy,
    /// Any place that the parent rule allows.
    Mixed,
    /// Two children a plan, for the bodies that have just two; of an even number of plans one has one child.
    Twos,
}

const SHAPES: [Shape; 6] = [Shape::Wide, Shape::Deep, Shape::Bushy, Shape::Mixed, Shape::Twos, Shape::Twos];

/// The parents of n plans in preorder; no plan gets more than `most_children`.
fn parents(dice: &mut Dice, n: usize, shape: Shape, most_children: usize) -> Vec<usize> {
    let mut parents = vec![reference::NO_PARENT];
    let mut children = vec![0; n];
    let breaks_of_a_chain = dice.one_of(&[0, 3, 10]);
    for p in 1..n {
        // The plan just before and its ancestors, lowest number (the root) first. The plan just
        // before has no children yet, so there is always one with room.
        let mut open = vec![p - 1];
        while let Some(parent) = open.last().map(|&q| parents[q]).filter(|&q| q != reference::NO_PARENT) {
            open.push(parent);
        }
        open.reverse();
        let deepest = open.len() - 1;
        let level = match shape {
            Shape::Wide => 0,
            Shape::Deep if dice.percent(breaks_of_a_chain) => dice.between(0, deepest),
            Shape::Deep => deepest,
            Shape::Bushy => dice.between(0, deepest.min(2)),
            Shape::Mixed => dice.between(0, deepest),
            Shape::Twos => {
                let lack_one = |level: &usize| children[open[*level]] == 1;
                let deepest_lacking = (0..deepest).rev().find(lack_one);
                let all_are_needed = (0..deepest).filter(lack_one).count() >= n - p;
                deepest_lacking.filter(|_| all_are_needed || dice.percent(50)).unwrap_or(deepest)
            }
        };
        let parent = open[level..]
            .iter()
            .copied()
            .find(|&q| children[q] < most_children)
            .expect("the plan just before has room");
        children[parent] += 1;
        parents.push(parent);
    }
    parents
}

/// How the fields of one table are rolled: densities in percent.
#[derive(Clone)]
struct Style {
    /// One body for all plans with children, or any of 1 to 4.
    body: Option<u8>,
    /// Of plans with two children, those that have one of the bodies 5 to 8 instead.
    for_two: usize,
    /// The flags of a plan with children. No body from 5 on has retry-aborted.
    retry: usize,
    optional: usize,
    named: usize,
    present: usize,
    /// Of complete on a plan with children, besides: without it, and with m 0, such a plan completes
    /// in the step after it was activated, before its children have begun.
    complete: usize,
    manual: usize,
    overridable: usize,
    /// Of the root: that it has no condition but complete.
    plain_root: usize,
    /// How high m tends to be.
    wait: Wait,
    /// What the formulas of version 2 can be like.
    manners: &'static [Manner],
}

#[derive(Clone, Copy)]
enum Wait {
    Zero,
    Low,
    Any,
    All,
}

/// No conditions, no retries: a tree that runs down to its leaves and completes all the way up.
const GENTLE: Style = Style {
    body: None,
    for_two: 0,
    retry: 0,
    optional: 0,
    named: 100,
    present: 0,
    complete: 0,
    manual: 0,
    overridable: 0,
    plain_root: 0,
    wait: Wait::All,
    manners: &[Manner::Counting],
};

/// Bodies for two wherever they fit, in plans that go on until they are told to complete.
fn style_of_turns(dice: &mut Dice) -> Style {
    Style {
        for_two: 100,
        optional: 70,
        complete: 100,
        wait: dice.one_of(&[Wait::Zero, Wait::Zero, Wait::Low]),
        present: dice.one_of(&[30, 100]),
        manual: 0,
        // a formula that asks for one of the two would mostly end the plan with its first turn
        manners: &[Manner::Counting, Manner::Counting, Manner::Counting, Manner::Any],
        ..any_style(dice)
    }
}

/// Plans that need most of their children, many of them with retry-aborted, and that go on until they are told to complete.
fn style_of_losses(dice: &mut Dice) -> Style {
    Style {
        body: None,
        for_two: 0,
        retry: dice.one_of(&[0, 0, 50, 100, 100]),
        optional: dice.one_of(&[0, 0, 0, 50]),
        named: dice.one_of(&[70, 100]),
        present: dice.one_of(&[30, 60, 100]),
        complete: 100,
        manual: 0,
        overridable: 0,
        plain_root: 30,
        wait: dice.one_of(&[Wait::Any, Wait::All, Wait::All]),
        ..any_style(dice)
    }
}

/// Any-order plans that go on until they are told to complete, of whose children about half are named.
fn style_of_choices(dice: &mut Dice) -> Style {
    Style {
        body: Some(reference::ANY_ORDER),
        for_two: 0,
        retry: dice.one_of(&[0, 0, 100]),
        optional: 0,
        named: 50,
        present: dice.one_of(&[0, 10, 30]),
        complete: 100,
        wait: dice.one_of(&[Wait::Zero, Wait::All, Wait::All]),
        // a formula that asks for some of the children would mostly end the plan before it has a choice
        manners: &[Manner::Counting, Manner::Counting, Manner::Counting, Manner::Any],
        ..any_style(dice)
    }
}

fn any_style(dice: &mut Dice) -> Style {
    // Any-order twice: of its rules the pick is the one that is reached least.
    let bodies = [
        reference::SEQUENTIAL,
        reference::PARALLEL,
        reference::ANY_ORDER,
        reference::ANY_ORDER,
        reference::UNORDERED,
    ];
    Style {
        body: if dice.percent(50) { Some(dice.one_of(&bodies)) } else { None },
        for_two: dice.one_of(&[0, 50, 90, 100]),
        retry: dice.one_of(&[0, 50, 100]),
        optional: dice.one_of(&[0, 0, 50, 100]),
        named: dice.one_of(&[0, 50, 50, 90, 100]),
        present: dice.one_of(&[0, 10, 30, 60, 100]),
        complete: dice.one_of(&[0, 50, 100]),
        manual: dice.one_of(&[0, 0, 30, 100]),
        overridable: dice.one_of(&[0, 0, 30, 100]),
        plain_root: 70,
        wait: dice.one_of(&[Wait::Zero, Wait::Low, Wait::Any, Wait::All]),
        manners: &ALL_MANNERS,
    }
}

/// Six bits, each set with this chance.
fn condition_bits(dice: &mut Dice, chance: usize) -> u8 {
    (0..6).filter(|_| dice.percent(chance)).map(|condition| 1u8 << condition).sum()
}

fn wait_number(dice: &mut Dice, wait: Wait, named: usize) -> usize {
    match wait {
        Wait::Zero => 0,
        Wait::Low => dice.between(0, named.min(1)),
        Wait::Any => dice.between(0, named),
        Wait::All => named,
    }
}

fn body_for_two(dice: &mut Dice) -> u8 {
    dice.between(reference::ON_ABORT.into(), reference::IF_THEN_ELSE.into()) as u8
}

/// A table of these parents, half of them of version 2. It passes the checks unless the parents themselves break a rule.
fn table_of(dice: &mut Dice, parents: &[usize], style: &Style) -> Vec<u8> {
    let table = table_of_version_1(dice, parents, style);
    in_either_version(dice, table, style.manners)
}

/// A table of version 1, or one of version 2 with the same plans.
pub fn in_either_version(dice: &mut Dice, mut table: Vec<u8>, manners: &[Manner]) -> Vec<u8> {
    // some tables are of version 2 from the start: in all it is half of them
    if dice.percent(42) {
        formula_cases::add_formulas(dice, &mut table, manners);
    }
    table
}

fn table_of_version_1(dice: &mut Dice, parents: &[usize], style: &Style) -> Vec<u8> {
    let n = parents.len();
    let has_children = |p: usize| parents.contains(&p);
    let bodies: Vec<u8> = (0..n)
        .map(|p| match parents.iter().filter(|&&parent| parent == p).count() {
            0 => reference::LEAF,
            2 if dice.percent(style.for_two) => body_for_two(dice),
            _ => style.body.unwrap_or(dice.between(1, 4) as u8),
        })
        .collect();
    let flags: Vec<u8> = (0..n)
        .map(|p| {
            let may_retry = has_children(p) && !reference::is_for_two(bodies[p]);
            let retry = may_retry && dice.percent(style.retry);
            let optional = has_children(p) && dice.percent(style.optional);
            let named = p != 0 && dice.percent(style.named);
            u8::from(retry) | u8::from(optional) << 1 | u8::from(named) << 2
        })
        .collect();
    let mut table = header(b"APT", n);
    for p in 0..n {
        let named = (1..n).filter(|&c| parents[c] == p && flags[c] & 4 != 0).count();
        let mut present = condition_bits(dice, style.present);
        if has_children(p) && dice.percent(style.complete) {
            present |= 1 << reference::COMPLETE;
        }
        // A root that is not selected or is ended early would leave nothing to see below it.
        if p == 0 && dice.percent(style.plain_root) {
            present &= 1 << reference::COMPLETE;
        }
        table.extend((parents[p] as u16).to_le_bytes());
        table.extend([
            bodies[p],
            flags[p],
            present,
            present & condition_bits(dice, style.manual),
            present & condition_bits(dice, style.overridable),
            wait_number(dice, style.wait, named) as u8,
        ]);
    }
    table
}

fn header(mark: &[u8; 3], n: usize) -> Vec<u8> {
    let mut bytes = mark.to_vec();
    bytes.extend(1u16.to_le_bytes());
    bytes.extend((n as u16).to_le_bytes());
    bytes.push(0);
    bytes
}

/// Most tables are small, some middling, few big.
pub fn plan_count(dice: &mut Dice) -> usize {
    match dice.below(1000) {
        0..=79 => dice.between(1, 2),
        80..=869 => dice.between(3, 12),
        870..=959 => dice.between(13, 64),
        // Just enough for a plan with 64 children.
        960..=974 => dice.between(65, 70),
        975..=989 => dice.between(71, 255),
        _ => 256,
    }
}

pub fn good_table(dice: &mut Dice, n: usize) -> Vec<u8> {
    let table = good_table_of_version_1(dice, n);
    in_either_version(dice, table, &ALL_MANNERS)
}

pub fn good_table_of_version_1(dice: &mut Dice, n: usize) -> Vec<u8> {
    let shape = dice.one_of(&SHAPES);
    let parents = parents(dice, n, shape, reference::MOST_CHILDREN);
    let style = any_style(dice);
    table_of_version_1(dice, &parents, &style)
}

/// One child a plan.
pub fn chain_of_version_1(dice: &mut Dice, n: usize) -> Vec<u8> {
    let style = any_style(dice);
    table_of_version_1(dice, &parents_in_a_chain(n), &style)
}

fn parents_in_a_chain(n: usize) -> Vec<usize> {
    (0..n).map(|p| p.checked_sub(1).unwrap_or(reference::NO_PARENT)).collect()
}

/// A tree that runs down to its leaves and completes all the way up: a chain, or of any shape.
#[allow(dead_code)] // For bounds.rs, which wants long runs of all sizes.
pub fn gentle_table_of_version_1(dice: &mut Dice, n: usize) -> Vec<u8> {
    let shape = dice.one_of(&SHAPES);
    let parents = if dice.percent(50) { parents_in_a_chain(n) } else { parents(dice, n, shape, reference::MOST_CHILDREN) };
    table_of_version_1(dice, &parents, &GENTLE)
}

/// A small table of version 2 with nodes of all kinds, which are broken somewhere.
pub fn table_of_broken_formulas(dice: &mut Dice) -> Vec<u8> {
    let n = dice.between(3, 9);
    let mut table = good_table_of_version_1(dice, n);
    formula_cases::add_formulas(dice, &mut table, &[Manner::Any]);
    spoil_formulas(dice, &mut table);
    table
}

/// A small table of bodies for two.
fn table_of_turns(dice: &mut Dice) -> Vec<u8> {
    let n = dice.one_of(&[3, 3, 5, 7]);
    let parents = parents(dice, n, Shape::Twos, 2);
    let style = style_of_turns(dice);
    table_of(dice, &parents, &style)
}

/// A small table of any-order plans with several children.
fn table_of_choices(dice: &mut Dice) -> Vec<u8> {
    let n = dice.between(5, 9);
    let shape = dice.one_of(&[Shape::Wide, Shape::Wide, Shape::Bushy]);
    let parents = parents(dice, n, shape, reference::MOST_CHILDREN);
    let style = style_of_choices(dice);
    table_of(dice, &parents, &style)
}

/// A small table of plans that could lose their children.
fn table_of_losses(dice: &mut Dice) -> Vec<u8> {
    let n = dice.between(3, 9);
    let shape = dice.one_of(&[Shape::Bushy, Shape::Mixed, Shape::Twos]);
    let table = plans_of_losses(dice, n, shape);
    in_either_version(dice, table, &ALL_MANNERS)
}

/// The same, of version 2: a plan or two whose formulas ask for some of their few children and not for others. Many are unordered, so that
/// children in selection and in execution can be lost at once.
fn table_of_waits(dice: &mut Dice) -> Vec<u8> {
    let n = dice.between(3, 6);
    let shape = dice.one_of(&[Shape::Wide, Shape::Wide, Shape::Twos]);
    let mut table = plans_of_losses(dice, n, shape);
    if dice.percent(60) {
        table[HEADER + 2] = reference::UNORDERED;
    }
    let manners = [Manner::EitherWay, Manner::BothOrNone, Manner::BothOrNone, Manner::Any];
    formula_cases::add_formulas(dice, &mut table, &manners);
    table
}

/// Leaves, some of which are slowly selected, wait to be aborted or completed; the others can be suspended, and few of them aborted. Of
/// version 1.
fn plans_of_losses(dice: &mut Dice, n: usize, shape: Shape) -> Vec<u8> {
    let parents = parents(dice, n, shape, reference::MOST_CHILDREN);
    let style = style_of_losses(dice);
    let mut table = table_of_version_1(dice, &parents, &style);
    for entry in table[HEADER..].chunks_exact_mut(ENTRY) {
        let selection = 1 << reference::FILTER | 1 << reference::SETUP;
        let (present, absent): (u8, u8) = match (entry[2], dice.below(10)) {
            (_, 0) => (0, 0),
            (reference::LEAF, 1..=4) => (1 << reference::ABORT | selection, 0),
            (reference::LEAF, _) => (1 << reference::ABORT, selection),
            _ => (1 << reference::SUSPEND, 1 << reference::ABORT | selection),
        };
        entry[4] |= present | 1 << reference::COMPLETE;
        entry[4..7].iter_mut().for_each(|conditions| *conditions &= !absent);
    }
    table
}

/// The same of any shape.
#[allow(dead_code)] // For bounds.rs.
pub fn losing_table_of_version_1(dice: &mut Dice, n: usize) -> Vec<u8> {
    let shape = dice.one_of(&SHAPES);
    plans_of_losses(dice, n, shape)
}

/// Whether the two rules could differ on a plan: it retries and waits for some of its children.
pub fn may_part_the_rules(plan: &Plan) -> bool {
    plan.retries_aborted() && plan.wait_for != Formula::AtLeast(0)
}

pub fn read_good_table(table: &[u8]) -> Vec<Plan> {
    reference::read_table(table).unwrap_or_else(|answer| panic!("a good table is refused: {answer:x}"))
}

/// A plan with 65 or more children among at most 256 plans.
fn table_with_65_children(dice: &mut Dice) -> Vec<u8> {
    let n = dice.between(66, 140);
    let mut parents = parents(dice, n, Shape::Wide, 255);
    // Sometimes the crowded plan is not the root: the root gets one child, which gets all others.
    if dice.percent(50) {
        parents[2..].fill(1);
    }
    let style = any_style(dice);
    table_of(dice, &parents, &style)
}

/// 257 plans: all is right but for their number.
fn table_of_257_plans(dice: &mut Dice) -> Vec<u8> {
    let shape = dice.one_of(&SHAPES);
    let parents = parents(dice, 257, shape, reference::MOST_CHILDREN);
    let style = any_style(dice);
    table_of(dice, &parents, &style)
}

/// Spoils a table in one place. By chance the result may still be good.
pub fn spoil_table(dice: &mut Dice, table: &mut Vec<u8>) {
    match dice.below(100) {
        0..=3 => table.truncate(dice.below(HEADER)),
        4..=19 => spoil_header(dice, table),
        20..=27 => spoil_length(dice, table),
        28..=29 => *table = table_with_65_children(dice),
        30 => *table = table_of_257_plans(dice),
        31..=64 if formula_cases::is_of_version_2(table) => spoil_formulas(dice, table),
        _ => spoil_entry(dice, table),
    }
}

/// The same in one place or in several.
pub fn spoil_in_places(dice: &mut Dice, table: &mut Vec<u8>) {
    for _ in 0..dice.one_of(&[1, 1, 1, 2, 3]) {
        spoil_table(dice, table);
    }
}

/// Breaks the formulas in one place, at times in two, or a plan besides.
fn spoil_formulas(dice: &mut Dice, table: &mut Vec<u8>) {
    formula_cases::spoil_nodes(dice, table);
    match dice.below(10) {
        0..=2 => formula_cases::spoil_nodes(dice, table),
        3 => spoil_entry(dice, table),
        _ => {}
    }
}

/// One byte of the header of a table or record, by a bit or as a whole; or another version; or a plan count near by.
fn spoil_header(dice: &mut Dice, bytes: &mut [u8]) {
    if bytes.len() < HEADER {
        return;
    }
    let n = u16::from_le_bytes([bytes[5], bytes[6]]);
    if dice.percent(30) {
        let other = dice.one_of(&[0, 1, n.wrapping_sub(1), n.wrapping_add(1), 256, 257, 65_535]);
        bytes[5..7].copy_from_slice(&other.to_le_bytes());
        return;
    }
    if dice.percent(20) {
        let version: u16 = dice.one_of(&[0, 1, 2, 3, 3, 256, 257, 258]);
        bytes[3..5].copy_from_slice(&version.to_le_bytes());
        return;
    }
    let at = dice.below(HEADER);
    bytes[at] = if dice.percent(50) { bytes[at] ^ 1 << dice.below(8) } else { dice.byte() };
}

/// A few bytes more or fewer, or a whole entry more or fewer.
fn spoil_length(dice: &mut Dice, bytes: &mut Vec<u8>) {
    let by = if dice.percent(30) { ENTRY } else { dice.between(1, 9) };
    if dice.percent(50) {
        bytes.truncate(bytes.len().saturating_sub(by));
    } else {
        for _ in 0..by {
            let byte = dice.one_of(&[0, 0, 1, 255]);
            bytes.push(byte);
        }
    }
}

/// The number of plans whose entries are all there.
pub fn whole_entries(table: &[u8]) -> usize {
    let after_header = table.len().saturating_sub(HEADER) / ENTRY;
    let counted = if table.len() < HEADER { 0 } else { reference::number_of_16_bits(table, 5) };
    after_header.min(counted)
}

/// One field of one plan's entry.
fn spoil_entry(dice: &mut Dice, table: &mut [u8]) {
    let entries = whole_entries(table);
    if entries == 0 {
        return;
    }
    let p = if dice.percent(15) { 0 } else { dice.below(entries) };
    let entry = &mut table[HEADER + ENTRY * p..HEADER + ENTRY * (p + 1)];
    match dice.below(12) {
        0 => {
            let parent = dice.one_of(&[p, p + 1, p.saturating_sub(2), p / 2, 256, 65_535]) as u16;
            entry[0..2].copy_from_slice(&parent.to_le_bytes());
        }
        1 => entry[2] = dice.below(10) as u8,
        2 => entry[2] = dice.byte(),
        // Any bit of the flags, conditions, manual or overridable.
        3 | 4 => entry[dice.between(3, 6)] ^= 1 << dice.below(8),
        // A condition goes; its manual and overridable bits stay behind.
        5 => entry[4] &= dice.byte(),
        6 => entry[7] = entry[7].wrapping_add(1),
        7 => entry[7] = dice.byte(),
        // A body for two children, however many there are, or one that retries.
        8..=10 => {
            entry[2] = body_for_two(dice);
            entry[3] |= u8::from(dice.percent(50)) << reference::RETRY_ABORTED;
        }
        _ => entry[dice.below(ENTRY)] ^= 1 << dice.below(8),
    }
}

// ------------------------------------------------------------------------------------------------
// Words
// ------------------------------------------------------------------------------------------------

/// How likely each bit of a word is, in percent.
#[derive(Clone)]
pub struct Mood {
    satisfied: [usize; 6],
    satisfiable: usize,
    triggered: usize,
    overridden: usize,
}

pub fn mood(dice: &mut Dice) -> Mood {
    let number = dice.below(8);
    mood_of(number)
}

const CALM: usize = 0;
const INTERRUPTED: usize = 2;
const ABORTING: usize = 3;
const ANYTHING: usize = 6;
const LOSING: usize = 8;

/// One in which many plans are aborted.
#[allow(dead_code)] // For bounds.rs.
pub fn aborting_mood() -> Mood {
    mood_of(ABORTING)
}

fn mood_of(number: usize) -> Mood {
    let (satisfied, satisfiable, triggered, overridden) = match number {
        // All goes well.
        CALM | 1 => ([90, 90, 3, 70, 2, 40], 97, 80, 5),
        // Many interruptions.
        INTERRUPTED => ([85, 85, 30, 50, 3, 20], 97, 80, 5),
        // Many aborts.
        ABORTING => ([90, 90, 5, 60, 20, 20], 95, 80, 5),
        // Slow selection, many rejections.
        4 => ([40, 40, 5, 50, 5, 30], 60, 60, 10),
        // Nothing happens.
        5 => ([0, 0, 0, 0, 0, 0], 95, 0, 0),
        // Anything.
        ANYTHING => ([50; 6], 70, 50, 50),
        // Slow selection, interruptions, few ends.
        LOSING => ([50, 50, 25, 60, 5, 5], 99, 80, 5),
        // By hand.
        _ => ([60, 60, 10, 40, 5, 30], 80, 40, 40),
    };
    Mood { satisfied, satisfiable, triggered, overridden }
}

/// A word that check 12 lets pass.
fn good_word(dice: &mut Dice, plan: &Plan, mood: &Mood) -> u32 {
    let mut word = 0;
    for condition in 0..6 {
        // The end of the root is the end of the whole tree: make it rarer.
        let rarely = plan.parent.is_none() && condition >= 4 && dice.percent(60);
        if !rarely && dice.percent(mood.satisfied[condition]) {
            word |= 1 << condition;
        }
        if dice.percent(mood.triggered) {
            word |= 1 << (8 + condition);
        }
        if !rarely && dice.percent(mood.overridden) {
            word |= 1 << (14 + condition);
        }
    }
    for filter_or_setup in 0..2 {
        let satisfied = word >> filter_or_setup & 1 == 1;
        if satisfied || dice.percent(mood.satisfiable) {
            word |= 1 << (6 + filter_or_setup);
        }
    }
    if plan.body == reference::ANY_ORDER {
        word = with_pick(word, dice.below(plan.children.len()));
    }
    if plan.body == reference::IF_THEN_ELSE {
        // the second branch, not yet known, the first branch
        word = with_if(word, dice.one_of(&[0, 2, 3]));
    }
    word
}

pub fn good_words(dice: &mut Dice, plans: &[Plan], mood: &Mood) -> Vec<u32> {
    plans.iter().map(|plan| good_word(dice, plan, mood)).collect()
}

pub fn bytes_of_words(words: &[u32]) -> Vec<u8> {
    words.iter().flat_map(|word| word.to_le_bytes()).collect()
}

pub fn spoil_words(dice: &mut Dice, words: &mut Vec<u8>, plans: &[Plan]) {
    match dice.below(12) {
        0 => spoil_slice_length(dice, words),
        1 => words.iter_mut().for_each(|byte| *byte = dice.byte()),
        2 => change_word(dice, words, |dice, word| with_pick(word, dice.below(64))),
        3 | 4 => {
            let p = dice.below(plans.len());
            if words.len() >= 4 * p + 4 {
                // Just too high; where there are 64 children, there is no such pick.
                let pick = plans[p].children.len() % 64;
                change_word(dice, &mut words[4 * p..4 * p + 4], |_, word| with_pick(word, pick));
            }
        }
        5 => change_word(dice, words, |dice, word| {
            let filter_or_setup = dice.below(2);
            word & !(1 << (6 + filter_or_setup)) | 1 << filter_or_setup
        }),
        6 | 7 => change_word(dice, words, any_if),
        _ => change_word(dice, words, |dice, word| word ^ 1 << dice.below(32)),
    }
}

fn with_pick(word: u32, pick: usize) -> u32 {
    word & !(63 << 24) | (pick as u32) << 24
}

/// Bits 20 and 21: that the condition of an if-then-else is satisfied, and satisfiable.
fn with_if(word: u32, bits: u32) -> u32 {
    word & !(3 << 20) | bits << 20
}

fn any_if(dice: &mut Dice, word: u32) -> u32 {
    with_if(word, dice.one_of(&[1, 1, 2, 3]))
}

fn change_word(dice: &mut Dice, words: &mut [u8], change: impl Fn(&mut Dice, u32) -> u32) {
    if words.len() < 4 {
        return;
    }
    let at = 4 * dice.below(words.len() / 4);
    let word = u32::from_le_bytes([words[at], words[at + 1], words[at + 2], words[at + 3]]);
    words[at..at + 4].copy_from_slice(&change(dice, word).to_le_bytes());
}

/// Another length for states, words or causes: none, a few bytes fewer or more, or twice as many.
pub fn spoil_slice_length(dice: &mut Dice, bytes: &mut Vec<u8>) {
    match dice.below(5) {
        0 => bytes.clear(),
        1 | 2 => bytes.truncate(bytes.len().saturating_sub(dice.between(1, 4))),
        3 => bytes.extend(vec![0; dice.between(1, 4)]),
        _ => bytes.extend_from_within(..),
    }
}

// ------------------------------------------------------------------------------------------------
// States
// ------------------------------------------------------------------------------------------------

/// The few states that the leaves of one tree are mostly in: several Ready ones that an any-order plan
/// can choose from, several ends that wait-for counts, or any three, for rules on all children of a
/// plan show only when these have little in common.
fn states_of_leaves(dice: &mut Dice) -> Vec<u8> {
    match dice.below(4) {
        0 => vec![3, 3, 3, 3, 6, 8, 2],
        1 => vec![6, 7, 8, 6, 7, 8, 3, 4],
        _ => (0..3).map(|_| dice.below(9) as u8).collect(),
    }
}

/// The same of plans with children: mostly Activated, for below others nothing goes on.
fn states_of_others(dice: &mut Dice) -> Vec<u8> {
    match dice.below(4) {
        0 | 1 => vec![4, 4, 4, 4, 4, 3, 7],
        2 => vec![4, 4, 4, 5, 5, 6, 7],
        _ => vec![4, 4, 4, 4, 0, 1, 2, 3, 5, 6, 7, 8],
    }
}

/// States that may be handed in though no run may ever lead to them.
pub fn good_states(dice: &mut Dice, plans: &[Plan]) -> Vec<u8> {
    let of_leaves = states_of_leaves(dice);
    let of_others = states_of_others(dice);
    likely_states(dice, plans, &of_leaves, &of_others)
}

/// The same, of leaves and of plans with children mostly one of those given.
fn likely_states(dice: &mut Dice, plans: &[Plan], of_leaves: &[u8], of_others: &[u8]) -> Vec<u8> {
    let mut states = vec![reference::INACTIVE; plans.len()];
    for (p, plan) in plans.iter().enumerate() {
        let likely = if plan.body == reference::LEAF { of_leaves } else { of_others };
        for _ in 0..3 {
            states[p] = if dice.percent(90) { dice.one_of(likely) } else { dice.below(9) as u8 };
            if !reference::breaks_a_rule(plans, &states, p) {
                break;
            }
            // Inactive breaks no rule, whatever the plans before are in.
            states[p] = reference::INACTIVE;
        }
    }
    states
}

/// A byte in place of a state: mostly a state, sometimes 9, 255 or any byte.
fn any_state_byte(dice: &mut Dice) -> u8 {
    match dice.below(10) {
        0 => 9,
        1 => 255,
        2 => dice.byte(),
        _ => dice.below(9) as u8,
    }
}

/// The states as a rule, one byte, or all bytes.
fn spoil_states(dice: &mut Dice, states: &mut Vec<u8>, plans: &[Plan]) {
    match dice.below(12) {
        0 => spoil_slice_length(dice, states),
        1 => states.iter_mut().for_each(|state| *state = dice.below(9) as u8),
        2 => states.iter_mut().for_each(|state| *state = dice.byte()),
        3..=7 => spoil_siblings(dice, states, plans),
        _ => {
            if !states.is_empty() {
                let p = dice.below(states.len());
                states[p] = any_state_byte(dice);
            }
        }
    }
}

/// States that may be handed in, and then two children of one plan in states of their own: of a
/// sequential plan one after the first not done, of an any-order plan two in execution, below a
/// plan that has not begun or has ended one that goes on.
fn spoil_siblings(dice: &mut Dice, states: &mut Vec<u8>, plans: &[Plan]) {
    if plans.len() == 1 {
        return;
    }
    *states = good_states(dice, plans);
    // Every plan but the root has a parent: big families come up more often than small ones.
    let parent = plans[dice.between(1, plans.len() - 1)].parent.expect("not the root");
    for _ in 0..dice.between(1, 2) {
        let child = dice.one_of(&plans[parent].children);
        states[child] = dice.one_of(&[4, 4, 5, 5, 0, 3, 6, 7, 8]);
    }
}

// ------------------------------------------------------------------------------------------------
// Records
// ------------------------------------------------------------------------------------------------

/// What a record is to tell of: of a body for two that its turns come, of a plan that needs its children that it loses some, of a plan in
/// any order that it takes one child after another.
#[derive(Clone, Copy)]
enum Story {
    Any,
    Turns,
    Losses,
    Choices,
}

/// A good record of so many steps by a rule: random words and picks, and the pick bits cleared afterwards.
fn good_record(dice: &mut Dice, rule: Rule, plans: &[Plan], story: Story, steps: usize) -> Vec<u8> {
    let mut record = header(b"APR", plans.len());
    let mut states = vec![reference::INACTIVE; plans.len()];
    let next_mood = |dice: &mut Dice| match story {
        Story::Any => mood(dice),
        Story::Turns => mood_of(dice.one_of(&[INTERRUPTED, ABORTING])),
        Story::Losses => mood_of(dice.one_of(&[LOSING, LOSING, LOSING, CALM])),
        Story::Choices => mood_of(CALM),
    };
    let mut temper = next_mood(dice);
    for _ in 0..steps {
        if dice.percent(10) {
            temper = next_mood(dice);
        }
        let mut words = good_words(dice, plans, &temper);
        if matches!(story, Story::Losses) {
            strike(dice, plans, &states, &mut words);
            tell_losers(dice, plans, &states, &mut words);
        }
        states = reference::new_states(&Before { rule, plans, states: &states, words: &words });
        let without_picks: Vec<u32> = words.iter().map(|&word| with_pick(word, 0)).collect();
        record.extend(bytes_of_words(&without_picks));
        record.extend(&states);
    }
    record
}

/// At times all goes wrong at once for a leaf in execution and its siblings: those in execution are aborted, and those in selection, if
/// there are any, are rejected; and at times their parent is told to suspend.
fn strike(dice: &mut Dice, plans: &[Plan], states: &[u8], words: &mut [u32]) {
    let at_work = |&p: &usize| plans[p].body == reference::LEAF && reference::in_execution(states[p]);
    let parents: Vec<usize> = (0..plans.len()).filter(at_work).filter_map(|p| plans[p].parent).collect();
    if parents.is_empty() {
        return;
    }
    let parent = dice.one_of(&parents);
    let children = &plans[parent].children;
    let some_in_selection = children.iter().any(|&child| reference::in_selection(states[child]));
    if !dice.percent(if some_in_selection { 60 } else { 15 }) {
        return;
    }
    if dice.percent(40) {
        words[parent] |= 1 << reference::SUSPEND;
    }
    for &child in children {
        if reference::in_execution(states[child]) {
            words[child] |= 1 << reference::ABORT;
        } else {
            // filter and setup: not satisfied, not satisfiable, not overridden
            words[child] &= !(3 | 3 << 6 | 3 << 14);
        }
    }
}

/// A plan in execution that has an Aborted child is at times told to complete or to suspend, or its parent is told to suspend.
fn tell_losers(dice: &mut Dice, plans: &[Plan], states: &[u8], words: &mut [u32]) {
    for (p, plan) in plans.iter().enumerate() {
        let has_lost = plan.children.iter().any(|&child| states[child] == reference::ABORTED);
        if reference::in_execution(states[p]) && has_lost {
            match (dice.below(8), plan.parent) {
                (0 | 1, _) => words[p] |= 1 << reference::COMPLETE,
                (2, _) => words[p] |= 1 << reference::SUSPEND,
                (3 | 4, Some(parent)) => words[parent] |= 1 << reference::SUSPEND,
                _ => {}
            }
        }
    }
}

/// What stands before each step of a record that is accepted by a rule, and the states that it shows.
pub fn for_each_step(rule: Rule, plans: &[Plan], record: &[u8], mut look: impl FnMut(&Before, &[u8])) {
    let n = plans.len();
    let inactive = vec![reference::INACTIVE; n];
    let mut states: &[u8] = &inactive;
    for part in record[HEADER..].chunks_exact(5 * n) {
        let (words, shown) = part.split_at(4 * n);
        look(&Before { rule, plans, states, words: &reference::read_words(words) }, shown);
        states = shown;
    }
}

/// A record that was kept by either rule; half of them are spoiled.
#[cfg(test)]
pub fn any_record(dice: &mut Dice, plans: &[Plan]) -> Vec<u8> {
    let (_, kept_by) = any_rule(dice);
    let steps = record_steps(dice, plans.len());
    let mut record = good_record(dice, kept_by, plans, Story::Losses, steps);
    if dice.percent(50) {
        spoil_record(dice, &mut record, plans);
    }
    record
}

fn record_steps(dice: &mut Dice, n: usize) -> usize {
    match dice.below(100) {
        0..=3 => 0,
        4..=19 => dice.between(1, 8),
        20..=97 => dice.between(9, 40),
        _ if n <= 12 => dice.between(41, 300),
        _ => 1,
    }
}

/// Spoils a record in one place: a state, a word, the header or the length.
fn spoil_record(dice: &mut Dice, record: &mut Vec<u8>, plans: &[Plan]) {
    match dice.below(100) {
        0..=5 => spoil_header(dice, record),
        6..=9 => spoil_length(dice, record),
        10 => record.truncate(dice.below(HEADER)),
        11..=34 => spoil_word_in_record(dice, record, plans.len()),
        35..=54 => spoil_turn(dice, record, plans),
        _ => spoil_state_in_record(dice, record, plans),
    }
}

/// A random step of a record: where its words and where its states begin.
fn step_in_record(dice: &mut Dice, record: &[u8], n: usize) -> Option<(usize, usize)> {
    let steps = record.len().saturating_sub(HEADER) / (5 * n);
    if steps == 0 {
        return None;
    }
    let start = HEADER + 5 * n * dice.below(steps);
    Some((start, start + 4 * n))
}

fn spoil_word_in_record(dice: &mut Dice, record: &mut Vec<u8>, n: usize) {
    if let Some((words_start, states_start)) = step_in_record(dice, record, n) {
        let part = &mut record[words_start..states_start];
        let some_bit = |dice: &mut Dice, word: u32| word ^ 1 << dice.below(32);
        let change = if dice.percent(50) { some_bit } else { any_if };
        change_word(dice, part, change);
        cut_after_sometimes(dice, record, states_start + n);
    }
}

/// Leaves nothing to compare after the spoiled step: it must be found there or not at all.
fn cut_after_sometimes(dice: &mut Dice, record: &mut Vec<u8>, end: usize) {
    if dice.percent(40) {
        record.truncate(end);
    }
}

fn spoil_state_in_record(dice: &mut Dice, record: &mut Vec<u8>, plans: &[Plan]) {
    let n = plans.len();
    let Some((words_start, states_start)) = step_in_record(dice, record, n) else {
        return;
    };
    let p = dice.below(n);
    let before = if words_start == HEADER { reference::INACTIVE } else { record[words_start - n + p] };
    let shown = record[states_start + p];
    match dice.below(6) {
        // The plan did not move.
        0 => record[states_start + p] = before,
        // The plan moved on once more, or back by one.
        1 => record[states_start + p] = shown.wrapping_add(1),
        2 => record[states_start + p] = shown.saturating_sub(1),
        // Another pick, or two picks, or none: Ready and Activated among the children of one plan.
        3 | 4 => move_pick(dice, &mut record[states_start..states_start + n], plans),
        _ => record[states_start + p] = any_state_byte(dice),
    }
    cut_after_sometimes(dice, record, states_start + n);
}

/// Another choice, or two, or none, in a step in which an any-order plan is shown to have chosen.
fn spoil_choice(dice: &mut Dice, record: &mut Vec<u8>, plans: &[Plan]) {
    let n = plans.len();
    let steps = record.len().saturating_sub(HEADER) / (5 * n);
    let is_chosen = |states_start: usize, child: usize| {
        record[states_start - 5 * n + child] == reference::READY && record[states_start + child] == reference::ACTIVATED
    };
    let chooses = |&(states_start, p): &(usize, usize)| {
        plans[p].body == reference::ANY_ORDER && plans[p].children.iter().any(|&child| is_chosen(states_start, child))
    };
    // from step 2 on, for before it no plan is Ready
    let places: Vec<(usize, usize)> =
        (1..steps).flat_map(|step| (0..n).map(move |p| (HEADER + 5 * n * step + 4 * n, p))).filter(chooses).collect();
    if !places.is_empty() {
        let (states_start, p) = dice.one_of(&places);
        move_choice(dice, &mut record[states_start..states_start + n], &plans[p].children);
        cut_after_sometimes(dice, record, states_start + n);
    }
}

/// The same of one any-order plan, whatever it is at.
fn move_pick(dice: &mut Dice, states: &mut [u8], plans: &[Plan]) {
    let any_order: Vec<usize> = (0..plans.len()).filter(|&p| plans[p].body == reference::ANY_ORDER).collect();
    if !any_order.is_empty() {
        let p = dice.one_of(&any_order);
        move_choice(dice, states, &plans[p].children);
    }
}

/// Among the children of an any-order plan: an Activated one is shown Ready, a Ready one Activated,
/// or both.
fn move_choice(dice: &mut Dice, states: &mut [u8], children: &[usize]) {
    let in_state = |states: &[u8], wanted: u8| -> Vec<usize> {
        children.iter().copied().filter(|&child| states[child] == wanted).collect()
    };
    let activated = in_state(states, reference::ACTIVATED);
    let ready = in_state(states, reference::READY);
    if !activated.is_empty() && dice.percent(80) {
        states[dice.one_of(&activated)] = reference::READY;
    }
    if !ready.is_empty() && dice.percent(80) {
        states[dice.one_of(&ready)] = reference::ACTIVATED;
    }
}

/// Where a plan with a body for two was and is shown Activated: a child that is shown considered is shown Inactive instead, or one that
/// is left Inactive is shown Considered.
fn spoil_turn(dice: &mut Dice, record: &mut Vec<u8>, plans: &[Plan]) {
    let n = plans.len();
    let steps = record.len().saturating_sub(HEADER) / (5 * n);
    let is_activated = |at: usize| record[at] == reference::ACTIVATED;
    let is_ordered = |&(states_start, child): &(usize, usize)| {
        let parent = plans[child].parent.filter(|&q| reference::is_for_two(plans[q].body));
        parent.is_some_and(|q| is_activated(states_start + q) && is_activated(states_start - 5 * n + q))
    };
    let shown = dice.one_of(&[reference::INACTIVE, reference::CONSIDERED]);
    let was_inactive = |&(states_start, child): &(usize, usize)| {
        record[states_start - 5 * n + child] == reference::INACTIVE && record[states_start + child] == shown
    };
    // from step 2 on, for before it no plan is Activated
    let places: Vec<(usize, usize)> = (1..steps)
        .flat_map(|step| (1..n).map(move |child| (HEADER + 5 * n * step + 4 * n, child)))
        .filter(is_ordered)
        .filter(was_inactive)
        .collect();
    // a first child's turn comes more often
    let is_second = |&(_, child): &(usize, usize)| plans[child].parent.is_some_and(|q| plans[q].first_and_second().1 == child);
    let seconds: Vec<(usize, usize)> = places.iter().copied().filter(is_second).collect();
    let places = if seconds.is_empty() || dice.percent(40) { places } else { seconds };
    if !places.is_empty() {
        let (states_start, child) = dice.one_of(&places);
        record[states_start + child] = reference::CONSIDERED - shown;
        cut_after_sometimes(dice, record, states_start + n);
    }
}

/// The longest record that is accepted and the shortest that is too long: one plan and 65,535 or
/// 65,536 steps. The plan stays Considered, or one word at the end is spoiled.
fn longest_record(dice: &mut Dice) -> (Vec<u8>, Vec<u8>) {
    let mut table = header(b"APT", 1);
    table.extend([255, 255, 0, 0, 1, 0, 0, 0]);
    let steps = dice.one_of(&[65_535, 65_535, 65_536]);
    let mut record = header(b"APR", 1);
    for _ in 0..steps {
        record.extend([64, 0, 0, 0, reference::CONSIDERED]);
    }
    if dice.percent(50) {
        let last = record.len() - 1;
        record[last] = reference::POSSIBLE;
    }
    (table, record)
}

// ------------------------------------------------------------------------------------------------
// The maker
// ------------------------------------------------------------------------------------------------

/// A good table and the states that a run has led to.
struct Situation {
    table: Vec<u8>,
    plans: Vec<Plan>,
    states: Vec<u8>,
    mood: Mood,
    steps_left: usize,
}

const POOL: usize = 64;

pub struct Maker {
    dice: Dice,
    /// For the sake of the causes alone: whatever is drawn from these, all other choices stay as they are.
    dice_of_causes: Dice,
    pool: Vec<Situation>,
}

impl Maker {
    pub fn new(seed: u64) -> Maker {
        let mut dice = Dice::new(seed);
        let pool = (0..POOL).map(|_| fresh_situation(&mut dice)).collect();
        Maker { dice, dice_of_causes: Dice::new(!seed), pool }
    }

    pub fn next_call(&mut self) -> Call {
        let mut call = if self.dice_of_causes.percent(4) { pressed_call(&mut self.dice_of_causes) } else { self.any_call() };
        if call.kind != Kind::Check {
            lend_causes(&mut self.dice_of_causes, &mut call);
        }
        call
    }

    fn any_call(&mut self) -> Call {
        let mut call = match self.dice.below(100) {
            0..=54 => self.step_call(),
            55..=74 => self.rest_call(),
            _ => self.check_call(),
        };
        if self.dice.percent(4) {
            call.rule = wrong_rule(&mut self.dice);
            call.continues = None;
            // Of what else is wrong with it each number comes up, and not only what is met often.
            let number = self.dice.one_of(&numbers_of(call.kind));
            spoil_for(&mut self.dice, number, &mut call);
        }
        call
    }

    /// The situation that the call came from goes on with the states that the reference gave.
    pub fn go_on(&mut self, call: &Call, states_after: &[u8]) {
        let Some(chosen) = call.continues else { return };
        let situation = &mut self.pool[chosen];
        let unchanged = situation.states == states_after;
        let rests_for_good = unchanged && reference::has_ended(states_after[0]);
        if situation.steps_left == 0 || rests_for_good {
            *situation = fresh_situation(&mut self.dice);
        } else {
            // A tree that waits for something may wait for ever: make room for another soon.
            situation.steps_left =
                if unchanged { situation.steps_left / 3 } else { situation.steps_left - 1 };
            situation.states = states_after.to_vec();
        }
    }

    fn step_call(&mut self) -> Call {
        match self.dice.below(100) {
            0..=19 => return turning_call(&mut self.dice),
            20..=37 => return losing_call(&mut self.dice),
            38..=43 => return broken_formula_call(&mut self.dice),
            44..=53 => return deciding_call(&mut self.dice),
            54..=61 => return choosing_call(&mut self.dice),
            _ => {}
        }
        let chosen = self.dice.below(POOL);
        let mut call = self.good_call(Kind::Step, chosen);
        match self.dice.below(100) {
            0..=64 => call.continues = Some(chosen),
            65..=79 => call.states = good_states(&mut self.dice, &self.pool[chosen].plans),
            _ => spoil_call(&mut self.dice, &mut call, &self.pool[chosen].plans),
        }
        call
    }

    fn rest_call(&mut self) -> Call {
        match self.dice.below(1000) {
            0..=29 => return restless_call(&mut self.dice),
            30..=31 => return long_call(&mut self.dice),
            _ => {}
        }
        let chosen = self.dice.below(POOL);
        let mut call = self.good_call(Kind::Rest, chosen);
        match self.dice.below(100) {
            // Only a short run goes on: a long one would mostly leave a tree that has ended.
            0..=29 => call.continues = Some(chosen),
            30..=49 => call.states = good_states(&mut self.dice, &self.pool[chosen].plans),
            50..=79 => {}
            _ => spoil_call(&mut self.dice, &mut call, &self.pool[chosen].plans),
        }
        call.budget =
            if call.continues.is_some() { self.dice.between(0, 6) as u16 } else { self.budget(&call) };
        call
    }

    /// Mostly small; sometimes just at, below or above the number of steps after which the run
    /// rests; rarely the largest, on small tables or where the run soon rests.
    fn budget(&mut self, call: &Call) -> u16 {
        match self.dice.below(100) {
            0..=9 => 0,
            10..=49 => self.dice.between(1, 16) as u16,
            50..=69 => self.dice.between(17, 100) as u16,
            70..=71 => self.dice.between(101, 2000) as u16,
            72..=95 => self.budget_near_rest(call),
            _ => largest_bounded_budget(call),
        }
    }

    fn budget_near_rest(&mut self, call: &Call) -> u16 {
        let steps = steps_in_answer(&Call { budget: 200, ..call.clone() });
        (steps + self.dice.between(0, 2)).saturating_sub(1) as u16
    }

    fn check_call(&mut self) -> Call {
        if self.dice.below(1500) == 0 {
            let (table, record) = longest_record(&mut self.dice);
            return check_of(any_rule(&mut self.dice).0, table, record);
        }
        let dice = &mut self.dice;
        let n = plan_count(dice);
        let (mut table, story) = match dice.below(100) {
            0..=26 => (table_of_turns(dice), Story::Turns),
            27..=54 => (table_of_losses(dice), Story::Losses),
            55..=76 => (table_of_waits(dice), Story::Losses),
            77..=85 => (table_of_choices(dice), Story::Choices),
            _ => (good_table(dice, n), Story::Any),
        };
        let story = if dice.percent(80) { story } else { Story::Any };
        let plans = read_good_table(&table);
        let (rule, kept_by) = any_rule(dice);
        let steps = record_steps(dice, plans.len());
        let mut record = good_record(dice, kept_by, &plans, story, steps);
        match dice.below(100) {
            0..=24 => {}
            // What only one rule gives is seen in whole records.
            25..=59 if matches!(story, Story::Losses) => {}
            25..=84 if matches!(story, Story::Choices) => spoil_choice(dice, &mut record, &plans),
            25..=84 => spoil_record(dice, &mut record, &plans),
            85..=94 => {
                for _ in 0..dice.between(2, 3) {
                    spoil_record(dice, &mut record, &plans);
                }
            }
            _ => spoil_table(dice, &mut table),
        }
        // Some are judged by the rule that they were not kept by.
        check_of(if dice.percent(25) { 3 - rule } else { rule }, table, record)
    }

    /// A call on the chosen situation that is not refused.
    fn good_call(&mut self, kind: Kind, chosen: usize) -> Call {
        let situation = &self.pool[chosen];
        let dice = &mut self.dice;
        let mood = if dice.percent(20) { mood(dice) } else { situation.mood.clone() };
        let (rule, _) = any_rule(dice);
        let words = bytes_of_words(&good_words(dice, &situation.plans, &mood));
        Call { kind, ..step_of(rule, situation.table.clone(), situation.states.clone(), words) }
    }
}

pub fn any_rule(dice: &mut Dice) -> (u32, Rule) {
    dice.one_of(&RULES)
}

/// Stands in causes that nothing was drawn for. It is no cause: who leaves it there is seen.
const NO_CAUSE: u8 = 0xC5;

fn step_of(rule: u32, table: Vec<u8>, states: Vec<u8>, words: Vec<u8>) -> Call {
    let causes = vec![NO_CAUSE; states.len()];
    Call { kind: Kind::Step, rule, table, states, words, causes, budget: 0, continues: None }
}

pub fn rest_of(rule: u32, table: Vec<u8>, states: Vec<u8>, words: Vec<u8>, budget: u16) -> Call {
    Call { kind: Kind::Rest, budget, ..step_of(rule, table, states, words) }
}

pub fn check_of(rule: u32, table: Vec<u8>, record: Vec<u8>) -> Call {
    Call { kind: Kind::Check, ..step_of(rule, table, vec![], record) }
}

/// Causes as a host may lend them: whatever bytes, one for each plan. At times they are of another length; of what else is wrong with
/// the call each number then comes up. A call that a situation goes on from is not refused, or its answer would move later choices.
fn lend_causes(dice: &mut Dice, call: &mut Call) {
    call.causes = (0..whole_entries(&call.table)).map(|_| dice.byte()).collect();
    if call.continues.is_none() && dice.percent(7) {
        spoil_slice_length(dice, &mut call.causes);
        let number = dice.one_of(&numbers_of(call.kind));
        spoil_for(dice, number, call);
    }
}

/// A run that mostly goes round in a circle: leaves that are aborted and retried again and again, and
/// above them only plans that cannot complete. Where these need all their children, it is so by rule 2 only.
fn restless_call(dice: &mut Dice) -> Call {
    let n = dice.between(2, 4);
    let mut table = good_table_of_version_1(dice, n);
    let mut words = Vec::new();
    let plans = read_good_table(&table);
    let needed = dice.percent(50);
    for (p, plan) in plans.iter().enumerate() {
        let entry = &mut table[HEADER + ENTRY * p..HEADER + ENTRY * (p + 1)];
        entry[5] = 0;
        entry[6] = 0;
        entry[7] = 0;
        if plan.body == reference::LEAF {
            entry[4] = 1 << reference::ABORT;
            words.push(1 << reference::ABORT);
        } else {
            let retries = !reference::is_for_two(plan.body);
            entry[3] |= u8::from(retries) << reference::RETRY_ABORTED;
            entry[4] = 1 << reference::COMPLETE;
            if needed && retries {
                entry[7] = reference::named_children(&plans, p) as u8;
            }
            let any_order = plan.body == reference::ANY_ORDER;
            words.push(with_pick(0, if any_order { dice.below(plan.children.len()) } else { 0 }));
        }
    }
    let table = in_either_version(dice, table, &ALL_MANNERS);
    let budget = if dice.percent(50) { 65_535 } else { dice.between(0, 2000) as u16 };
    let states = vec![reference::INACTIVE; n];
    let rule = any_rule(dice).0;
    rest_of(rule, table, states, bytes_of_words(&words), budget)
}

/// A step of plans with bodies for two that are Activated, over children in states that these bodies tell apart; at times all are told to
/// complete, and at times a child or a word is spoiled.
fn turning_call(dice: &mut Dice) -> Call {
    let table = table_of_turns(dice);
    let plans = read_good_table(&table);
    let of_leaves = dice.one_of(&[[7, 7, 0, 3], [5, 4, 0, 3], [6, 7, 8, 0], [4, 7, 6, 3]]);
    let mut states = likely_states(dice, &plans, &of_leaves, &[4]);
    let mood = mood(dice);
    let told = u32::from(dice.percent(50)) << reference::COMPLETE;
    let words: Vec<u32> = good_words(dice, &plans, &mood).iter().map(|word| word | told).collect();
    let mut words = bytes_of_words(&words);
    match dice.below(10) {
        0 => change_word(dice, &mut words, any_if),
        1 => spoil_siblings(dice, &mut states, &plans),
        _ => {}
    }
    step_of(any_rule(dice).0, table, states, words)
}

/// A step of plans in execution, most of which retry, over children that have mostly ended badly.
fn losing_call(dice: &mut Dice) -> Call {
    let table = table_of_losses(dice);
    let plans = read_good_table(&table);
    let of_leaves = dice.one_of(&[[7, 7, 3, 6], [7, 7, 0, 5], [7, 8, 7, 6], [7, 4, 3, 0]]);
    let of_others = dice.one_of(&[[4, 4, 4, 4], [4, 4, 5, 7], [5, 5, 5, 4], [5, 5, 5, 4]]);
    let states = likely_states(dice, &plans, &of_leaves, &of_others);
    let mood = mood_of(dice.one_of(&[INTERRUPTED, LOSING]));
    let words = bytes_of_words(&good_words(dice, &plans, &mood));
    step_of(any_rule(dice).0, table, states, words)
}

/// A step of plans in execution that mostly are told to complete, where formulas of version 2 decide, over children that have mostly ended.
fn deciding_call(dice: &mut Dice) -> Call {
    let table = table_of_waits(dice);
    let plans = read_good_table(&table);
    let of_leaves = dice.one_of(&[[6, 6, 7, 0], [6, 7, 8, 3], [7, 7, 3, 0], [7, 8, 7, 8]]);
    let states = likely_states(dice, &plans, &of_leaves, &[4, 4, 4, 5]);
    let told = u32::from(dice.percent(80)) << reference::COMPLETE;
    let calm = mood_of(CALM);
    let words: Vec<u32> = good_words(dice, &plans, &calm).iter().map(|word| word | told).collect();
    let words = bytes_of_words(&words);
    step_of(any_rule(dice).0, table, states, words)
}

/// A step of any-order plans in execution, over children of which about half are Ready, so that by chance the pick is one of them or not.
fn choosing_call(dice: &mut Dice) -> Call {
    let table = table_of_choices(dice);
    let plans = read_good_table(&table);
    let of_leaves = dice.one_of(&[[3, 3, 2, 2], [3, 3, 6, 8], [3, 3, 3, 7]]);
    let states = likely_states(dice, &plans, &of_leaves, &[4]);
    let words = bytes_of_words(&good_words(dice, &plans, &mood_of(CALM)));
    step_of(any_rule(dice).0, table, states, words)
}

/// A step in which much moves a plan at once: all conditions are there and hold as coins fall, most plans are in execution, and of the
/// leaves many are lost. At times the root is in selection: elsewhere it seldom has a filter or a setup.
fn pressed_call(dice: &mut Dice) -> Call {
    let n = dice.between(3, 6);
    let shape = dice.one_of(&[Shape::Deep, Shape::Mixed, Shape::Bushy]);
    let parents = parents(dice, n, shape, reference::MOST_CHILDREN);
    let style = Style { present: 100, manual: 0, overridable: 0, plain_root: 0, ..style_of_losses(dice) };
    let table = table_of(dice, &parents, &style);
    let plans = read_good_table(&table);
    let of_leaves = dice.one_of(&[[7, 8, 1, 2], [7, 8, 4, 5]]);
    let of_others = dice.one_of(&[[4, 4, 4, 5], [4, 4, 4, 5], [4, 4, 1, 2]]);
    let states = likely_states(dice, &plans, &of_leaves, &of_others);
    let words = bytes_of_words(&good_words(dice, &plans, &mood_of(ANYTHING)));
    step_of(any_rule(dice).0, table, states, words)
}

/// A step under formulas that are broken somewhere.
fn broken_formula_call(dice: &mut Dice) -> Call {
    let table = table_of_broken_formulas(dice);
    let n = whole_entries(&table);
    step_of(any_rule(dice).0, table, vec![0; n], vec![0; 4 * n])
}

/// A long run to rest: down a deep tree and up again.
fn long_call(dice: &mut Dice) -> Call {
    let n = dice.between(20, 256);
    let parents = parents(dice, n, Shape::Deep, reference::MOST_CHILDREN);
    let table = table_of(dice, &parents, &GENTLE);
    let budget = dice.one_of(&[65_535, 65_535, 1000, 6 * n, 4 * n]) as u16;
    let (rule, _) = any_rule(dice);
    rest_of(rule, table, vec![0; n], vec![0; 4 * n], budget)
}

/// A new table, all plans Inactive or further on; on big tables mostly further on, for it would take
/// hundreds of calls to get down to their leaves.
fn fresh_situation(dice: &mut Dice) -> Situation {
    let n = plan_count(dice);
    let table = if dice.percent(10) { table_of_losses(dice) } else { good_table(dice, n) };
    let plans = read_good_table(&table);
    let n = plans.len();
    let far = if n > 12 { 70 } else { 30 };
    let states = if dice.percent(far) { good_states(dice, &plans) } else { vec![reference::INACTIVE; n] };
    let mood = mood(dice);
    let steps_left = dice.between(5, 60);
    Situation { table, plans, states, mood, steps_left }
}

/// Spoils table, states or words of a step or a run, in one place or in several.
fn spoil_call(dice: &mut Dice, call: &mut Call, plans: &[Plan]) {
    let places = dice.one_of(&[1, 1, 1, 1, 2, 2, 3]);
    for _ in 0..places {
        match dice.below(10) {
            0..=3 => spoil_table(dice, &mut call.table),
            4..=6 => spoil_states(dice, &mut call.states, plans),
            _ => spoil_words(dice, &mut call.words, plans),
        }
    }
}

/// The numbers that a call with a good rule can be answered with: checks 1 to 9 and 22 are the table's, 10 to 12 of a step and a run,
/// 12 to 15 of a record.
pub fn numbers_of(kind: Kind) -> Vec<u64> {
    let of_table = (0..=9).chain([22]);
    if kind == Kind::Check {
        of_table.chain(12..=15).collect()
    } else {
        of_table.chain(10..=12).collect()
    }
}

/// Spoils a call in one place: a rule answers it with this number, if it was good.
fn spoil_for(dice: &mut Dice, number: u64, call: &mut Call) {
    let Call { table, states, words, .. } = call;
    let start = if call.kind == Kind::Check { HEADER } else { 0 };
    match number {
        0 => {}
        1 => table.truncate(dice.below(HEADER)),
        2 => flip(table, dice.below(3), 0),
        3 => flip(table, dice.between(3, 4), 1),
        4 => flip(table, 7, 0),
        5 => spoil_length(dice, table),
        6 => flip(table, HEADER, 0),
        7 => flip(table, HEADER + dice.between(3, 6), 7),
        8 => flip(table, HEADER + 3, reference::NAMED),
        9 => formula_cases::spoil_for_9(dice, table),
        22 => formula_cases::spoil_for_22(dice, table),
        10 => {
            let either = if dice.percent(50) { states } else { words };
            spoil_slice_length(dice, either);
        }
        11 => flip(states, 0, 4),
        12 => flip(words, start + 3, 7),
        13 => flip(words, dice.below(HEADER), 0),
        14 => words.push(0),
        _ => {
            let last = words.len().saturating_sub(1);
            flip(words, last, 0);
        }
    }
}

/// Changes a bit, if the bytes are that many.
fn flip(bytes: &mut [u8], at: usize, bit: u32) {
    if let Some(byte) = bytes.get_mut(at) {
        *byte ^= 1 << bit;
    }
}

/// 65,535 where the run rests soon or the table has at most three plans, so that the other
/// implementation need not make 65,535 steps of a big tree; else 300.
fn largest_bounded_budget(call: &Call) -> u16 {
    let small = Call { budget: 300, ..call.clone() };
    if call.states.len() <= 3 || steps_in_answer(&small) < 300 {
        65_535
    } else {
        300
    }
}

/// The step in the reference's answer; 0 if it refuses.
fn steps_in_answer(call: &Call) -> usize {
    (call.ask_reference().0 >> 32) as usize
}
