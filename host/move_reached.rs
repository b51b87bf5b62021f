//! What a comparison of the calls that move tables must meet: each number in each direction, and how the table and the output came to it.

use crate::formula_cases;
use crate::move_cases::{Move, To};
use crate::reference::{self, Node, Plan};
use crate::tally::{chosen, Lines};

const VERSION: u64 = 3;
const FORMULA: u64 = 22;
const OTHER_KIND: u64 = 23;
const SHORT: u64 = 24;
/// All numbers, as the checks go; the table's are those up to 9.
const NUMBERS: [u64; 13] = [reference::DONE, 1, 2, VERSION, 4, 5, 6, 7, 8, FORMULA, 9, OTHER_KIND, SHORT];

/// Two of them are about nodes, which a table of version 1 does not have.
fn numbers(to: To) -> impl Iterator<Item = u64> {
    NUMBERS.into_iter().filter(move |&number| to == To::Version1 || ![FORMULA, OTHER_KIND].contains(&number))
}

const JUST_ENOUGH: &str = "0: just as much output as needed";
const A_BYTE_OVER: &str = "0: a byte more output than needed";
const MUCH_OVER: &str = "0: much more output than needed";
const ONE_PLAN: &str = "0: one plan";
const MOST_PLANS: &str = "0: 256 plans";
const MOST_PARENTS: &str = "0: 255 plans with children";
const WAITS: &str = "0: plans that wait for different numbers of children";
const A_BYTE_UNDER: &str = "24: a byte too few";
const MANY_UNDER: &str = "24: many bytes too few";
const MOVED_ALREADY: &str = "3: a good table of the version moved to";
const MOVED_AND_BROKEN: &str = "3: of the version moved to, and it breaks a rule of that";
const VERSION_0: &str = "3: version 0";
const VERSION_3: &str = "3: version 3";
const VERSION_IN_ONE_BYTE: &str = "3: of the version, only one byte is that of the one moved from";
const IN_EITHER: [&str; 14] = [
    JUST_ENOUGH, A_BYTE_OVER, MUCH_OVER, ONE_PLAN, MOST_PLANS, MOST_PARENTS, WAITS, A_BYTE_UNDER, MANY_UNDER, MOVED_ALREADY,
    MOVED_AND_BROKEN, VERSION_0, VERSION_3, VERSION_IN_ONE_BYTE,
];

const IN_PLAN_ORDER: &str = "0: several nodes, in plan order";
const IN_ANOTHER_ORDER: &str = "0: several nodes, not in plan order";
const NONE_IS_5: &str = "23: no node is of kind 5";
const OTHER_AND_A_BYTE_UNDER: &str = "23: and the output is a byte too short";
const OTHER_AND_MANY_UNDER: &str = "23: and the output is many bytes too short";
const TO_VERSION_1: [&str; 5] = [IN_PLAN_ORDER, IN_ANOTHER_ORDER, NONE_IS_5, OTHER_AND_A_BYTE_UNDER, OTHER_AND_MANY_UNDER];

/// Numbers that go before 23 though the table's length is right, so that its nodes are known.
const BEFORE_23: [u64; 5] = [6, 7, 8, FORMULA, 9];
/// The only node of another kind than 5, of three and more. The last one has no operands.
const ONLY: [(&str, &[u8]); 3] = [("first", &[0, 1, 2, 3, 4]), ("middle", &[0, 1, 2, 3, 4]), ("last", &[0])];

fn answered(number: u64) -> String {
    format!("answered {number}")
}

fn without_output(number: u64) -> String {
    format!("{number}: and there is no output")
}

fn before_23(number: u64) -> String {
    format!("{number}: and a node is of another kind than 5")
}

fn only(place: &str, kind: u8) -> String {
    format!("23: only the {place} of some nodes is of another kind, which is {kind}")
}

fn in_direction(to: To, line: String) -> String {
    format!("to version {}, {line}", to.version())
}

pub fn wanted() -> Vec<String> {
    [To::Version1, To::Version2].into_iter().flat_map(|to| wanted_in(to).into_iter().map(move |line| in_direction(to, line))).collect()
}

fn wanted_in(to: To) -> Vec<String> {
    let mut wanted: Vec<String> = numbers(to).map(answered).collect();
    wanted.extend(numbers(to).filter(|&number| number != reference::DONE).map(without_output));
    wanted.extend(IN_EITHER.map(String::from));
    if to == To::Version1 {
        wanted.extend(TO_VERSION_1.map(String::from));
        wanted.extend(BEFORE_23.map(before_23));
        wanted.extend(ONLY.iter().flat_map(|(place, kinds)| kinds.iter().map(|&kind| only(place, kind))));
    }
    wanted
}

/// What is met in a call and its answer.
pub fn count(lines: &mut Lines, call: &Move, answer: u64) {
    let number = answer & 0xFFFF;
    let mut met = vec![answered(number)];
    if number != reference::DONE && call.output.is_empty() {
        met.push(without_output(number));
    }
    if call.to == To::Version1 && BEFORE_23.contains(&number) && nodes(call).iter().any(is_other) {
        met.push(before_23(number));
    }
    met.extend(match number {
        reference::DONE => done(call, (answer >> 32) as usize),
        VERSION => chosen(&why_3(call)),
        OTHER_KIND => why_23(call),
        SHORT => chosen(&lack_of_output(call, [A_BYTE_UNDER, MANY_UNDER])),
        _ => vec![],
    });
    met.into_iter().for_each(|line| lines.count(in_direction(call.to, line)));
}

fn done(call: &Move, written: usize) -> Vec<String> {
    let plans = good_plans(&call.table);
    let parents: Vec<&Plan> = plans.iter().filter(|plan| !plan.children.is_empty()).collect();
    let over = call.output.len() - written;
    let moves_nodes = call.to == To::Version1 && parents.len() > 1;
    let in_order = reference::nodes_stand_in_plan_order(&plans);
    chosen(&[
        (over == 0, JUST_ENOUGH),
        (over == 1, A_BYTE_OVER),
        (over > 1, MUCH_OVER),
        (plans.len() == 1, ONE_PLAN),
        (plans.len() == reference::MOST_PLANS, MOST_PLANS),
        (parents.len() == reference::MOST_PLANS - 1, MOST_PARENTS),
        (parents.windows(2).any(|pair| pair[0].wait_for != pair[1].wait_for), WAITS),
        (moves_nodes && in_order, IN_PLAN_ORDER),
        (moves_nodes && !in_order, IN_ANOTHER_ORDER),
    ])
}

fn good_plans(table: &[u8]) -> Vec<Plan> {
    reference::read_table(table).unwrap_or_else(|answer| panic!("a table that is moved was refused: {answer:x}"))
}

fn why_3(call: &Move) -> [(bool, &'static str); 5] {
    let to = call.to.version();
    let from = 3 - to;
    let version = &call.table[3..5];
    let is_good = reference::read_table(&call.table).is_ok();
    [
        (version == [to, 0] && is_good, MOVED_ALREADY),
        (version == [to, 0] && !is_good, MOVED_AND_BROKEN),
        (version == [0, 0], VERSION_0),
        (version == [3, 0], VERSION_3),
        (version[0] == from, VERSION_IN_ONE_BYTE),
    ]
}

/// How far the output is below what it takes for the table to be moved.
fn lack_of_output(call: &Move, [by_one, by_many]: [&'static str; 2]) -> [(bool, &'static str); 2] {
    let plans = reference::HEADER_BYTES + reference::PLAN_BYTES * reference::number_of_16_bits(&call.table, 5);
    let nodes = match call.to {
        To::Version1 => 0,
        To::Version2 => reference::COUNT_BYTES + reference::NODE_BYTES * formula_cases::families(&call.table).len(),
    };
    let lack = (plans + nodes).saturating_sub(call.output.len());
    [(lack == 1, by_one), (lack > 1, by_many)]
}

fn nodes(call: &Move) -> Vec<Node> {
    reference::read_nodes(&call.table, reference::number_of_16_bits(&call.table, 5))
}

fn is_other(node: &Node) -> bool {
    node.kind != reference::AT_LEAST
}

fn why_23(call: &Move) -> Vec<String> {
    let nodes = nodes(call);
    let others: Vec<usize> = (0..nodes.len()).filter(|&i| is_other(&nodes[i])).collect();
    let mut met = chosen(&lack_of_output(call, [OTHER_AND_A_BYTE_UNDER, OTHER_AND_MANY_UNDER]));
    if others.len() == nodes.len() {
        met.push(NONE_IS_5.to_string());
    }
    if let ([other], 3..) = (&others[..], nodes.len()) {
        let place = match other {
            0 => "first",
            _ if other + 1 == nodes.len() => "last",
            _ => "middle",
        };
        met.push(only(place, nodes[*other].kind));
    }
    met
}
