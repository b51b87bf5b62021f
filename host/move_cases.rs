//! Random calls that move a table to the other version: tables of both versions, with nodes of kind 5 in plan order and in others, with
//! nodes of other kinds, and spoiled ones; and outputs that just hold the moved table, that do not, and that have room left.

use crate::cases;
use crate::dice::Dice;
use crate::formula_cases::{self, Manner, Order};
use crate::reference::{self, Answer};

#[derive(Clone, Copy, PartialEq)]
pub enum To {
    Version1,
    Version2,
}

impl To {
    pub fn version(self) -> u8 {
        match self {
            To::Version1 => 1,
            To::Version2 => 2,
        }
    }

    /// Moves a table by the reference.
    pub fn by_reference(self, table: &[u8], output: &mut [u8]) -> Answer {
        match self {
            To::Version1 => reference::to_version_1(table, output),
            To::Version2 => reference::to_version_2(table, output),
        }
    }
}

/// One call as it is sent to both implementations.
pub struct Move {
    pub to: To,
    pub table: Vec<u8>,
    /// What stands in the output before.
    pub output: Vec<u8>,
}

impl Move {
    /// The reference's answer and the output that it leaves.
    pub fn ask_reference(&self) -> (Answer, Vec<u8>) {
        let mut output = self.output.clone();
        (self.to.by_reference(&self.table, &mut output), output)
    }
}

pub fn next_move(dice: &mut Dice) -> Move {
    let to = dice.one_of(&[To::Version1, To::Version2]);
    let mut table = good_table(dice, to);
    match dice.below(100) {
        0..=34 => cases::spoil_in_places(dice, &mut table),
        35..=39 => formula_cases::spoil_for_9(dice, &mut table),
        _ => {}
    }
    let output = output(dice, to, &table);
    Move { to, table, output }
}

// ------------------------------------------------------------------------------------------------
// Tables
// ------------------------------------------------------------------------------------------------

/// Mostly one of the version that it is moved from.
fn good_table(dice: &mut Dice, to: To) -> Vec<u8> {
    match (to, dice.below(20)) {
        (To::Version1, 0 | 1) => of_version_1(dice),
        (To::Version1, 2..=9) => of_counts(dice, Order::InTurn),
        (To::Version1, 10..=12) => of_counts(dice, Order::ByPlan),
        (To::Version1, 13..=17) => of_counts_but_one(dice),
        (To::Version2, 0) => of_counts(dice, Order::InTurn),
        (To::Version2, 1) => of_formulas(dice),
        (To::Version1, _) => of_formulas(dice),
        (To::Version2, _) => of_version_1(dice),
    }
}

/// Of any size; few are as full of plans with children as a table can be.
pub fn of_version_1(dice: &mut Dice) -> Vec<u8> {
    if dice.percent(1) {
        return cases::chain_of_version_1(dice, reference::MOST_PLANS);
    }
    let n = cases::plan_count(dice);
    cases::good_table_of_version_1(dice, n)
}

/// Of version 2, and each plan with children waits for a number of those that are named.
pub fn of_counts(dice: &mut Dice, order: Order) -> Vec<u8> {
    let mut table = of_version_1(dice);
    formula_cases::add_counts(dice, &mut table, order, None);
    table
}

/// The same, but for one node: the first, the last or any. Most of them have some plans with children.
fn of_counts_but_one(dice: &mut Dice) -> Vec<u8> {
    let n = dice.one_of(&[4, 8, 12, 20]);
    let mut table = if dice.percent(80) { cases::good_table_of_version_1(dice, n) } else { of_version_1(dice) };
    let families = formula_cases::families(&table).len();
    if families > 0 {
        let last = families - 1;
        let any = dice.below(families);
        let other = dice.one_of(&[0, any, any, last]);
        let order = dice.one_of(&[Order::ByPlan, Order::ByPlan, Order::InTurn]);
        formula_cases::add_counts(dice, &mut table, order, Some(other));
    }
    table
}

/// Of version 2, with nodes of all kinds.
pub fn of_formulas(dice: &mut Dice) -> Vec<u8> {
    let mut table = of_version_1(dice);
    formula_cases::add_formulas(dice, &mut table, &[Manner::Any]);
    table
}

// ------------------------------------------------------------------------------------------------
// Outputs
// ------------------------------------------------------------------------------------------------

/// More bytes than any table has.
pub const AMPLE: usize = 4_096;

/// Any bytes: just as many as are needed, one fewer or more, more, fewer, or none.
fn output(dice: &mut Dice, to: To, table: &[u8]) -> Vec<u8> {
    let needed = needed(to, table);
    let length = match dice.below(20) {
        0..=5 => needed,
        6..=9 => needed - 1,
        10 | 11 => needed + 1,
        12..=15 => needed + dice.between(2, 80),
        16 | 17 => dice.below(needed),
        _ => 0,
    };
    (0..length).map(|_| dice.byte()).collect()
}

/// How many bytes the moved table has; of a table that is not moved, what its header and plans would take.
fn needed(to: To, table: &[u8]) -> usize {
    let answer = to.by_reference(table, &mut [0; AMPLE]);
    if answer & 0xFFFF == reference::DONE {
        (answer >> 32) as usize
    } else {
        reference::HEADER_BYTES + reference::PLAN_BYTES * cases::whole_entries(table)
    }
}
