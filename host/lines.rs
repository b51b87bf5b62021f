//! Compares the lines that `aprcheck` prints with those of the reference, on random inputs.
//!
//!     lines PROGRAM [ARGS..] --seed S --inputs N
//!
//! starts PROGRAM anew for each input: a table and a record, as `cases` makes and spoils them, at times cut short, and at times longer
//! than the program takes. A difference prints the seed and the input as hex, and the status is then 1; it is 1 too where the inputs,
//! `REACH_FROM` of them or more, have no accepted record in which the second child's turn comes, for each of the bodies 5 to 8, or none
//! that rule 1 would judge otherwise, for each of the two verdicts, or do not end in each of the ways in which a table of version 2 can.

#[allow(dead_code)]
mod cases;
mod dice;
#[allow(dead_code)]
mod formula_cases;
#[allow(dead_code)]
mod losses;
mod program;
#[allow(dead_code)]
mod reference;
#[allow(dead_code)]
mod tally;
#[allow(dead_code)]
mod turns;

use cases::{Kind, Maker};
use dice::{hex, Dice};
use program::{printed, refusal_line, Options, MOST_BYTES};
use reference::Rule;
use std::process::ExitCode;
use tally::Lines;

/// "`aprcheck` uses 2"
const RULE: u32 = 2;

/// So many inputs are compared if it is not said; from so many on a run is held to what it must reach.
const REACH_FROM: usize = 400;

fn main() -> ExitCode {
    let Options { program, seed, count: inputs } = Options::from_arguments("--inputs", REACH_FROM);
    let mut maker = Maker::new(seed);
    let mut dice = Dice::new(seed);
    let mut accepted = 0;
    let (mut turns, mut verdicts, mut ends) = (Lines::default(), Lines::default(), Lines::default());
    for _ in 0..inputs {
        let input = next_input(&mut maker, &mut dice);
        let (expected, got) = (line(&input), printed(&program, &input));
        if got != expected {
            println!("DIFFERENCE\nseed {seed}\ninput {}\nexpected {expected:?}\nreceived {got:?}", hex(&input));
            return ExitCode::FAILURE;
        }
        let (table, record) = input.split_at(table_length(&input));
        if expected.starts_with("accepted") {
            accepted += 1;
            let plans = reference::read_table(table).expect("the table of an accepted record passes");
            cases::for_each_step(Rule::New, &plans, record, |before, shown| turns::count_orders(&mut turns, before, shown));
        }
        if input.len() <= MOST_BYTES {
            end_of_nodes(&input, &expected).into_iter().for_each(|end| ends.count(end.to_string()));
            losses::count_verdicts(&mut verdicts, &cases::check_of(RULE, table.to_vec(), record.to_vec()));
        }
    }
    println!("seed {seed}: {inputs} inputs, no difference, {accepted} accepted");
    let comes = |line: &String| line.contains("second child, Inactive") && line.ends_with("becomes Considered");
    let wanted: Vec<String> = turns::wanted_orders().into_iter().filter(comes).collect();
    let wanted_verdicts = losses::wanted_verdicts(RULE);
    verdicts.print("  records that only one rule accepts", &wanted_verdicts);
    let wanted_ends = ENDS.map(String::from);
    ends.print("  inputs with a table of version 2", &wanted_ends);
    let all = turns.are_all(&wanted).and_then(|()| verdicts.are_all(&wanted_verdicts)).and_then(|()| ends.are_all(&wanted_ends));
    match all {
        Err(what) if inputs >= REACH_FROM => {
            println!("{what}");
            ExitCode::FAILURE
        }
        _ => ExitCode::SUCCESS,
    }
}

/// A table and a record, one in ten cut somewhere, one in ten about where the table's plans or its nodes end, and one in fifty filled up
/// beyond what the program takes.
fn next_input(maker: &mut Maker, dice: &mut Dice) -> Vec<u8> {
    let call = loop {
        let call = maker.next_call();
        if call.kind == Kind::Check {
            break call;
        }
    };
    let end_of_table = call.table.len();
    let mut input = [call.table, call.words].concat();
    match dice.below(10) {
        0 => input.truncate(dice.below(input.len() + 1)),
        1 => {
            let end_of_plans = 8 + 8 * plan_count(&input);
            let ends = [end_of_plans, end_of_plans + 1, end_of_plans + 2, end_of_table.saturating_sub(1), end_of_table];
            input.truncate(dice.one_of(&ends));
        }
        _ => {}
    }
    if dice.below(50) == 0 {
        input.resize(dice.between(MOST_BYTES, MOST_BYTES + 2), 0);
    }
    input
}

/// The line for an input, with its end.
fn line(input: &[u8]) -> String {
    if input.len() > MOST_BYTES {
        return "refused 16 0 0\n".to_string();
    }
    let (table, record) = input.split_at(table_length(input));
    let answer = reference::check(RULE, table, record);
    if answer & 0xFFFF == 0 {
        format!("accepted {} {}\n", plan_count(input), answer >> 32)
    } else {
        refusal_line(answer)
    }
}

/// "the table is its first 8 + 8n bytes, or all of it if there are fewer or if the first 8 bytes are missing or refused"; 02 (v):
/// "`aprcheck` finds the table's end by the node count"
fn table_length(input: &[u8]) -> usize {
    let whole = if header_passes(input) { end_of_table(input) } else { None };
    whole.filter(|&end| end <= input.len()).unwrap_or(input.len())
}

fn header_passes(input: &[u8]) -> bool {
    match reference::read_table(&input[..input.len().min(8)]) {
        Ok(_) => true,
        // a header alone lacks its plans, and nothing else is wrong with it
        Err(answer) => answer & 0xFFFF == 5,
    }
}

/// Where a table with this header ends; of version 2, if its node count is there.
fn end_of_table(input: &[u8]) -> Option<usize> {
    let end_of_plans = 8 + 8 * plan_count(input);
    if !formula_cases::is_of_version_2(input) {
        return Some(end_of_plans);
    }
    let end_of_count = end_of_plans + reference::COUNT_BYTES;
    let nodes = (end_of_count <= input.len()).then(|| reference::number_of_16_bits(input, end_of_plans))?;
    Some(end_of_count + reference::NODE_BYTES * nodes)
}

const ACCEPTED: &str = "a record is accepted under formulas";
const REFUSED: &str = "a node is refused";
const IN_PLANS: &str = "the input ends in the plans or with them";
const IN_COUNT: &str = "the input ends in the node count";
const IN_NODES: &str = "the input ends in the nodes";
const WITH_NODES: &str = "the input ends with the nodes";
const ENDS: [&str; 6] = [ACCEPTED, REFUSED, IN_PLANS, IN_COUNT, IN_NODES, WITH_NODES];

/// Where an input ends that has a table of version 2, if not in its record, and what is said of those that have all their nodes.
fn end_of_nodes(input: &[u8], line: &str) -> Option<&'static str> {
    if !formula_cases::is_of_version_2(input) || !header_passes(input) {
        return None;
    }
    let end_of_plans = 8 + 8 * plan_count(input);
    match end_of_table(input) {
        None if input.len() <= end_of_plans => Some(IN_PLANS),
        None => Some(IN_COUNT),
        Some(end) if input.len() < end => Some(IN_NODES),
        Some(_) if line.starts_with("refused 22") => Some(REFUSED),
        Some(end) if input.len() == end => Some(WITH_NODES),
        Some(end) if line.starts_with("accepted") && end > end_of_plans + reference::COUNT_BYTES => Some(ACCEPTED),
        _ => None,
    }
}

fn plan_count(input: &[u8]) -> usize {
    if input.len() < 7 {
        0
    } else {
        reference::number_of_16_bits(input, 5)
    }
}
