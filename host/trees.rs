//! Compares the table's own check and the sub tree question with the reference, on random tables.
//!
//!     trees PROGRAM [ARGS..] --seed S [--questions N]
//!
//! The library does not export the two to C, so they are asked of the program `trials`, a line each. PROGRAM is started anew for as many
//! lines as it takes at once. A difference prints the seed, the question's number and its line, and the status is then 1; it is 1 too
//! where the questions, `REACH_FROM` of them or more, do not reach every kind of answer.

#[allow(dead_code)]
mod cases;
#[allow(dead_code)]
mod dice;
#[allow(dead_code)]
mod formula_cases;
#[allow(dead_code)]
mod formulas;
mod program;
#[allow(dead_code)]
mod reference;
#[allow(dead_code)]
mod tally;
#[allow(dead_code)]
mod turns;

use dice::{hex, Dice};
use program::{printed, refusal_line, Options};
use std::process::ExitCode;
use tally::Lines;

/// What `trials` reads at most.
const MOST_BYTES: usize = 262_144;

/// So many questions are asked if it is not said; from so many on a run is held to what it must reach.
const REACH_FROM: usize = 6_000;

/// The kinds of answers: of a table by its number, then of a sub tree.
const KINDS: [&str; 17] = [
    "accepted",
    "refused 1",
    "refused 2",
    "refused 3",
    "refused 4",
    "refused 5",
    "refused 6",
    "refused 7",
    "refused 8",
    "refused 9",
    "refused 22",
    "of a root",
    "of an inner plan",
    "of a leaf",
    "empty for a refused table",
    "empty for a wrong length",
    "empty for a plan not below n",
];
const OF_NODES: usize = 10;
const OF_A_ROOT: usize = 11;
const OF_AN_INNER_PLAN: usize = 12;
const OF_A_LEAF: usize = 13;
const EMPTY_BY_TABLE: usize = 14;
const EMPTY_BY_LENGTH: usize = 15;
const EMPTY_BY_PLAN: usize = 16;

/// A line for the program, the line that it must print, each with its end, the answer's place in `KINDS`, and whether a table is refused
/// for one of the bodies 5 to 8 or for its nodes.
struct Question {
    line: String,
    answer: String,
    kind: usize,
    for_body: Option<String>,
    for_nodes: Vec<String>,
}

fn main() -> ExitCode {
    let options = Options::from_arguments("--questions", REACH_FROM);
    match run(&options) {
        Ok(()) => ExitCode::SUCCESS,
        Err(message) => {
            println!("{message}");
            ExitCode::FAILURE
        }
    }
}

fn run(options: &Options) -> Result<(), String> {
    let questions = questions(options);
    let (mut counts, mut for_bodies, mut for_nodes) = ([0; KINDS.len()], Lines::default(), Lines::default());
    let (mut asked, mut runs) = (0, 0);
    while asked < questions.len() {
        let batch = next_batch(&questions[asked..]);
        compare(options, asked, batch)?;
        batch.iter().for_each(|question| counts[question.kind] += 1);
        batch.iter().filter_map(|question| question.for_body.clone()).for_each(|why| for_bodies.count(why));
        batch.iter().flat_map(|question| question.for_nodes.clone()).for_each(|why| for_nodes.count(why));
        asked += batch.len();
        runs += 1;
    }
    println!("seed {}: {asked} questions in {runs} runs, no difference", options.seed);
    print(&counts);
    let wanted = turns::wanted_of_tables();
    for_bodies.print("  refusals by bodies 5 to 8", &wanted);
    let wanted_of_nodes = formulas::wanted_of_tables();
    for_nodes.print("  refusals by nodes", &wanted_of_nodes);
    for_nodes.are_possible(&wanted_of_nodes)?;
    if asked < REACH_FROM {
        println!("what must be reached is asked for from {REACH_FROM} questions on");
        return Ok(());
    }
    match counts.iter().position(|&count| count == 0) {
        Some(kind) => Err(format!("NOT REACHED: {} {}", if kind < OF_A_ROOT { "table" } else { "sub tree" }, KINDS[kind])),
        None => for_bodies.are_all(&wanted).and_then(|()| for_nodes.are_all(&wanted_of_nodes)),
    }
}

/// As many questions as the program takes at once.
fn next_batch(questions: &[Question]) -> &[Question] {
    let mut bytes = 0;
    let fits = |question: &&Question| {
        bytes += question.line.len();
        bytes <= MOST_BYTES
    };
    &questions[..questions.iter().take_while(fits).count()]
}

/// Asks the program a batch, before which `asked` questions were asked: it must print each answer, and nothing else.
fn compare(options: &Options, asked: usize, batch: &[Question]) -> Result<(), String> {
    let input: String = batch.iter().map(|question| question.line.as_str()).collect();
    let output = printed(&options.program, input.as_bytes());
    let mut lines = output.split_inclusive('\n');
    for (number, question) in (asked + 1..).zip(batch) {
        let got = lines.next().unwrap_or("");
        if got != question.answer {
            return Err(report(options, number, question, got));
        }
    }
    match lines.next() {
        Some(more) => Err(format!("DIFFERENCE\nseed {}\nbehind the last answer {more:?}", options.seed)),
        None => Ok(()),
    }
}

fn report(options: &Options, number: usize, question: &Question, got: &str) -> String {
    let Question { line, answer, .. } = question;
    format!("DIFFERENCE\nseed {}\nquestion {number}\n{line}expected {answer:?}\nreceived {got:?}", options.seed)
}

fn print(counts: &[u64]) {
    let refused: String = counts[1..OF_A_ROOT].iter().map(|count| format!(" {count}")).collect();
    println!("  tables: {} accepted; refused 1 to 9 and 22:{refused}", counts[0]);
    let sub_trees: Vec<String> = (OF_A_ROOT..KINDS.len()).map(|kind| format!("{} {}", counts[kind], KINDS[kind])).collect();
    println!("  sub trees: {}", sub_trees.join(", "));
}

// ------------------------------------------------------------------------------------------------
// Questions
// ------------------------------------------------------------------------------------------------

fn questions(options: &Options) -> Vec<Question> {
    let mut dice = Dice::new(options.seed);
    let mut questions = Vec::new();
    while questions.len() < options.count {
        ask_about_a_table(&mut dice, &mut questions);
    }
    questions.truncate(options.count);
    questions
}

/// A table, mostly small or of any size, half of them spoiled: its check, and some of its sub trees. Some have formulas of all kinds, which
/// are broken.
fn ask_about_a_table(dice: &mut Dice, questions: &mut Vec<Question>) {
    if dice.percent(30) {
        questions.push(check_of(&cases::table_of_broken_formulas(dice)).0);
        return;
    }
    let n = if dice.percent(60) { cases::plan_count(dice) } else { dice.between(1, reference::MOST_PLANS) };
    let mut table = cases::good_table(dice, n);
    if dice.percent(50) {
        for _ in 0..dice.one_of(&[1, 1, 2, 3]) {
            spoil(dice, &mut table, n);
        }
    }
    let (check, passes) = check_of(&table);
    questions.push(check);
    // of a refused table all sub trees are empty
    for _ in 0..if passes { 4 } else { 1 } {
        let states = states(dice, n);
        let plan = plan(dice, n);
        questions.push(sub_tree_of(&table, &states, plan));
    }
}

/// As for the calls, and besides what is seldom met there: a header alone, a named root, a plan that is made a leaf and keeps nothing else
/// that a leaf may not have, and a flag that a leaf may not have.
fn spoil(dice: &mut Dice, table: &mut Vec<u8>, n: usize) {
    let p = dice.below(n);
    match dice.below(20) {
        0 => table.truncate(reference::HEADER_BYTES),
        1 => change_entry(table, 0, |entry| entry[3] |= 1 << reference::NAMED),
        2 => change_entry(table, p, |entry| {
            entry[2] = reference::LEAF;
            entry[3] &= 1 << reference::NAMED;
            entry[7] = 0;
        }),
        3 => {
            let flag = dice.one_of(&[reference::RETRY_ABORTED, reference::WAIT_FOR_OPTIONAL]);
            change_entry(table, p, |entry| entry[3] |= 1 << flag);
        }
        _ => cases::spoil_table(dice, table),
    }
}

/// Changes the entry of plan p, if the table is still that long.
fn change_entry(table: &mut [u8], p: usize, change: impl Fn(&mut [u8])) {
    let start = reference::HEADER_BYTES + reference::PLAN_BYTES * p;
    if let Some(entry) = table.get_mut(start..start + reference::PLAN_BYTES) {
        change(entry);
    }
}

/// Any bytes, for the question does not read them, and so that no other part looks like the right one; at times too few or too many.
fn states(dice: &mut Dice, n: usize) -> Vec<u8> {
    let mut states: Vec<u8> = (0..n).map(|_| dice.byte()).collect();
    if dice.percent(10) {
        cases::spoil_slice_length(dice, &mut states);
    }
    states
}

/// Mostly a plan of the tree; `trials` reads 16 bits of its number.
fn plan(dice: &mut Dice, n: usize) -> usize {
    match dice.below(10) {
        0 => dice.one_of(&[n, n, n + 1, 255, 256, 65_535]),
        1 => 0,
        _ => dice.below(n),
    }
}

/// The table's own check, and whether the table passes it.
fn check_of(table: &[u8]) -> (Question, bool) {
    let (answer, kind) = match reference::read_table(table) {
        Ok(plans) => (format!("accepted {}\n", plans.len()), 0),
        Err(answer) if answer & 0xFFFF == 22 => (refusal_line(answer), OF_NODES),
        Err(answer) => (refusal_line(answer), (answer & 0xFFFF) as usize),
    };
    let (for_body, for_nodes) = (turns::why_refused(table), formulas::why_refused(table));
    (Question { line: format!("table {}\n", hex(table)), answer, kind, for_body, for_nodes }, kind == 0)
}

fn sub_tree_of(table: &[u8], states: &[u8], plan: usize) -> Question {
    let part = reference::sub_tree(table, states, plan);
    let kind = match (part.len(), reference::read_table(table)) {
        (0, Err(_)) => EMPTY_BY_TABLE,
        (0, Ok(plans)) if states.len() != plans.len() => EMPTY_BY_LENGTH,
        (0, Ok(_)) => EMPTY_BY_PLAN,
        (1, _) => OF_A_LEAF,
        _ if plan == 0 => OF_A_ROOT,
        _ => OF_AN_INNER_PLAN,
    };
    let line = format!("subtree {} {} {plan}\n", hex(table), hex(states));
    Question { line, answer: format!("{}\n", hex(part)), kind, for_body: None, for_nodes: vec![] }
}
