//! Moves random tables there and back by the program `aptmove`, and compares what it writes with the reference.
//!
//!     moves PROGRAM [ARGS..] --seed S [--tables N]
//!
//! starts PROGRAM anew for each table and each way: N tables of version 1 and N of version 2 whose nodes stand in plan order, which come
//! back as they were, N of version 2 whose nodes stand in another order, which come back with other bytes, and some inputs that are
//! refused, for each number. Under a moved table plans must make the same steps as before. A difference prints the seed and the input or
//! table as hex, and the status is then 1; it is 1 too where not so many tables came back, or wait-fors decided too few of the steps.

#[allow(dead_code)]
mod cases;
#[allow(dead_code)]
mod dice;
#[allow(dead_code)]
mod formula_cases;
#[allow(dead_code)]
mod move_cases;
mod program;
#[allow(dead_code)]
mod reference;
mod same_steps;

use dice::{hex, Dice};
use formula_cases::Order;
use move_cases::{To, AMPLE};
use program::{refusal_line, written, Options, MOST_BYTES};
use same_steps::Pair;
use std::process::ExitCode;

/// So many tables of each group are moved if it is not said.
const TABLES: usize = 200;
/// So many steps are made under each moved table, by each rule.
const STEPS: usize = 24;
/// Every number that can be met; of the calls' numbers not 24, since the program has room.
const REFUSALS: [u64; 12] = [16, 1, 2, 3, 4, 5, 6, 7, 8, 22, 9, 23];
/// So many inputs are refused with each.
const REFUSED: usize = 5;

fn main() -> ExitCode {
    let options = Options::from_arguments("--tables", TABLES);
    match run(&options) {
        Ok(()) => ExitCode::SUCCESS,
        Err(what) => {
            println!("{what}");
            ExitCode::FAILURE
        }
    }
}

fn run(options: &Options) -> Result<(), String> {
    let mut dice = Dice::new(options.seed);
    println!("seed {}: {} tables of each group by {:?}", options.seed, options.count, options.program);
    for group in [Group::OfVersion1, Group::InPlanOrder, Group::InAnotherOrder] {
        let moved = move_group(options, &mut dice, group)?;
        println!("  {}: {} came back with the same bytes, {} with others", group.name(), moved.same_bytes, moved.other_bytes);
        println!("    {} steps by each rule under moved tables, as before; wait-fors decided {}", moved.steps, moved.decided);
        moved.are_right(options.count, group)?;
    }
    for number in REFUSALS {
        for turn in 0..REFUSED {
            compare(options, &refused_input(&mut dice, number, turn))?;
        }
    }
    println!("  refused: {REFUSED} inputs with each of {REFUSALS:?}");
    Ok(())
}

fn difference(options: &Options, what: &str) -> String {
    format!("DIFFERENCE\nseed {}\n{what}", options.seed)
}

// ------------------------------------------------------------------------------------------------
// Tables that are moved
// ------------------------------------------------------------------------------------------------

#[derive(Clone, Copy, PartialEq)]
enum Group {
    OfVersion1,
    InPlanOrder,
    InAnotherOrder,
}

impl Group {
    fn name(self) -> &'static str {
        match self {
            Group::OfVersion1 => "of version 1",
            Group::InPlanOrder => "of version 2, nodes in plan order",
            Group::InAnotherOrder => "of version 2, nodes in another order",
        }
    }

    fn table(self, dice: &mut Dice) -> Vec<u8> {
        match self {
            Group::OfVersion1 => move_cases::of_version_1(dice),
            Group::InPlanOrder => move_cases::of_counts(dice, Order::ByPlan),
            Group::InAnotherOrder => drawn_until(|| move_cases::of_counts(dice, Order::InTurn), |table| !stands_in_plan_order(table)),
        }
    }
}

fn stands_in_plan_order(table: &[u8]) -> bool {
    reference::read_table(table).is_ok_and(|plans| reference::nodes_stand_in_plan_order(&plans))
}

/// The first that is drawn of which this is so.
fn drawn_until(mut draw: impl FnMut() -> Vec<u8>, is_so: impl Fn(&[u8]) -> bool) -> Vec<u8> {
    loop {
        let drawn = draw();
        if is_so(&drawn) {
            return drawn;
        }
    }
}

/// What came of the tables of a group.
#[derive(Default)]
struct Moved {
    same_bytes: usize,
    other_bytes: usize,
    steps: usize,
    decided: usize,
}

impl Moved {
    fn make_steps(&mut self, dice: &mut Dice, table: &[u8], other: &[u8]) -> Result<(), String> {
        let pair = Pair::of(table, other);
        for _ in 0..STEPS {
            let is_decided = pair.step(dice).map_err(|apart| format!("table {}\nmoved {}\n{apart}", hex(table), hex(other)))?;
            self.decided += usize::from(is_decided);
            self.steps += 1;
        }
        Ok(())
    }

    /// All tables of the group came back, with the bytes that they should have; and a step in each of them, by and large, hung on a
    /// wait-for, so that a wrong one would have been seen.
    fn are_right(&self, tables: usize, group: Group) -> Result<(), String> {
        let right = if group == Group::InAnotherOrder { (0, tables) } else { (tables, 0) };
        if (self.same_bytes, self.other_bytes) != right {
            return Err(format!("{}: of {tables} tables not {right:?} came back with the same bytes and with others", group.name()));
        }
        if self.decided < tables {
            return Err(format!("{}: NOT REACHED: as many steps that a wait-for decides as there are tables", group.name()));
        }
        Ok(())
    }
}

fn move_group(options: &Options, dice: &mut Dice, group: Group) -> Result<Moved, String> {
    let mut moved = Moved::default();
    for _ in 0..options.count {
        let table = group.table(dice);
        let there = compare(options, &table)?;
        let back = compare(options, &there)?;
        let mut make_steps = |other| moved.make_steps(dice, &table, other).map_err(|what| difference(options, &what));
        make_steps(&there)?;
        if back == table {
            moved.same_bytes += 1;
        } else {
            make_steps(&back)?;
            moved.other_bytes += 1;
        }
    }
    Ok(moved)
}

// ------------------------------------------------------------------------------------------------
// What the program says
// ------------------------------------------------------------------------------------------------

/// What is written for an input, and the line that is said: one of the two is empty.
fn expected(input: &[u8]) -> (Vec<u8>, String) {
    let mut output = vec![0; AMPLE];
    let answer = if input.len() > MOST_BYTES { reference::answer(16, 0, 0) } else { other_version(input).by_reference(input, &mut output) };
    if answer & 0xFFFF != reference::DONE {
        return (vec![], refusal_line(answer));
    }
    output.truncate((answer >> 32) as usize);
    (output, String::new())
}

/// "1 becomes 2, 2 becomes 1"; any other version is refused either way.
fn other_version(input: &[u8]) -> To {
    if input.get(3..5) == Some(&[1, 0]) {
        To::Version2
    } else {
        To::Version1
    }
}

/// What the program writes, which is what the reference says.
fn compare(options: &Options, input: &[u8]) -> Result<Vec<u8>, String> {
    let (expected, received) = (expected(input), written(&options.program, input));
    if received == expected {
        return Ok(received.0);
    }
    let told = |(bytes, line): &(Vec<u8>, String)| format!("{} {line:?}", hex(bytes));
    Err(difference(options, &format!("input {}\nexpected {}\nreceived {}", hex(input), told(&expected), told(&received))))
}

// ------------------------------------------------------------------------------------------------
// Inputs that are refused
// ------------------------------------------------------------------------------------------------

/// The next of those that are refused with this number.
fn refused_input(dice: &mut Dice, number: u64, turn: usize) -> Vec<u8> {
    let starts_so = format!("refused {number} ");
    drawn_until(|| likely_refused(dice, number, turn), |input| expected(input).1.starts_with(&starts_so))
}

/// Longer than the program takes, first by a byte; just as long as it takes; with nodes of other kinds; or spoiled.
fn likely_refused(dice: &mut Dice, number: u64, turn: usize) -> Vec<u8> {
    let mut input = match number {
        23 => move_cases::of_formulas(dice),
        _ => dice.one_of(&[Group::OfVersion1, Group::InAnotherOrder]).table(dice),
    };
    match (number, turn) {
        (16, _) => input.resize(MOST_BYTES + 1 + 1_000 * turn, 0),
        (5, 0) => input.resize(MOST_BYTES, 0),
        (23, _) => {}
        _ => cases::spoil_in_places(dice, &mut input),
    }
    input
}
