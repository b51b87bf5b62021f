//! What a comparison must reach of the bodies for the bad turn, 5 to 8: their orders, what they wait for, and what is refused because of
//! them. Each is a line of words with a count. What is wanted is listed apart from the counting, by the request's words once more: a line
//! that is met though it is not wanted was thought impossible.

use crate::cases::{Call, Kind};
use crate::reference::{self, Before, Plan};
use crate::tally::Lines;

const FOR_TWO: [u8; 4] =
    [reference::ON_ABORT, reference::ON_SUSPEND, reference::ON_ABORT_OR_SUSPEND, reference::IF_THEN_ELSE];

// ------------------------------------------------------------------------------------------------
// Orders
// ------------------------------------------------------------------------------------------------

pub const STATES: [&str; 9] = [
    "Inactive",
    "Considered",
    "Possible",
    "Ready",
    "Activated",
    "Suspended",
    "Completed",
    "Aborted",
    "Rejected",
];
const CHILDREN: [&str; 2] = ["first", "second"];
/// Bits 20 and 21 as check 12 lets them pass, and who is then considered.
const BRANCHES: [(u32, Option<usize>); 3] = [(0, Some(1)), (2, None), (3, Some(0))];

/// A child of a body from 5 on that its plan could order to do something: Inactive, Ready or Aborted, and what became of it. Beside which
/// sibling it is tells more only where it is Inactive.
fn order(body: u8, child: usize, old: u8, beside: &str, new: u8) -> String {
    let beside = if old == reference::INACTIVE { format!(" beside {beside}") } else { String::new() };
    let (old, new) = (STATES[usize::from(old)], STATES[usize::from(new)]);
    format!("body {body}: {} child, {old}{beside}, becomes {new}", CHILDREN[child])
}

/// What an Inactive child's sibling is, as far as the body asks; of an if-then-else also the two bits.
fn sibling(body: u8, state: u8, word: u32) -> String {
    if body != reference::IF_THEN_ELSE {
        return STATES[usize::from(state)].to_string();
    }
    let idle = if state == reference::INACTIVE { "Inactive" } else { "one that has begun" };
    format!("{idle}, bits 21 and 20 being {:02b}", word >> 20 & 3)
}

/// All orders that can be met: by the request's words once more, and in no way by the reference's code.
pub fn wanted_orders() -> Vec<String> {
    let considered = |yes: bool| u8::from(yes);
    let mut lines = Vec::new();
    for body in FOR_TWO {
        for child in 0..2 {
            lines.push(order(body, child, 3, "", 4));
            lines.push(order(body, child, 7, "", 7));
        }
        if body == reference::IF_THEN_ELSE {
            for (bits, branch) in BRANCHES {
                for child in 0..2 {
                    let both_idle = sibling(body, 0, bits << 20);
                    lines.push(order(body, child, 0, &both_idle, considered(branch == Some(child))));
                    lines.push(order(body, child, 0, &sibling(body, 4, bits << 20), 0));
                }
            }
            continue;
        }
        lines.push(order(body, 0, 0, STATES[0], 1));
        let turns: &[u8] = [&[7][..], &[5], &[5, 7]][usize::from(body - reference::ON_ABORT)];
        for state in 0..9 {
            lines.push(order(body, 1, 0, STATES[usize::from(state)], considered(turns.contains(&state))));
        }
    }
    lines
}

/// The orders of one step, of plans from body 5 on that were and stay Activated.
pub fn count_orders(lines: &mut Lines, before: &Before, new: &[u8]) {
    let old = before.states;
    for (p, plan) in before.plans.iter().enumerate() {
        if !reference::is_for_two(plan.body) || [old[p], new[p]] != [reference::ACTIVATED; 2] {
            continue;
        }
        let (first, second) = plan.first_and_second();
        for (child, (p_child, p_sibling)) in [(first, second), (second, first)].into_iter().enumerate() {
            if matches!(old[p_child], reference::INACTIVE | reference::READY | reference::ABORTED) {
                let beside = sibling(plan.body, old[p_sibling], before.words[p]);
                lines.count(order(plan.body, child, old[p_child], &beside, new[p_child]));
            }
        }
    }
}

// ------------------------------------------------------------------------------------------------
// Wait-for-optional
// ------------------------------------------------------------------------------------------------

/// What a first and a second child can be at, as far as the rule tells it apart: whether an ended first was Aborted counts only beside an
/// Inactive second. With each, the bodies whose states can be so, and those that then count both children as ended.
const WAITS: [(&str, &[u8], &[u8]); 9] = [
    ("Inactive and Inactive", &FOR_TWO, &[]),
    ("under way and Inactive", &FOR_TWO, &[]),
    ("Aborted and Inactive", &FOR_TWO, &[6, 8]),
    ("otherwise ended and Inactive", &FOR_TWO, &FOR_TWO),
    ("Inactive and under way", &[8], &[]),
    ("Inactive and ended", &[8], &[8]),
    ("under way and begun", &[6, 7], &[]),
    ("ended and under way", &[5, 6, 7], &[]),
    ("ended and ended", &[5, 6, 7], &[5, 6, 7]),
];

/// The place in `WAITS` of the states of two children.
fn wait_of(first: u8, second: u8) -> usize {
    let (ended, second_ended) = (reference::has_ended(first), reference::has_ended(second));
    match (first, second) {
        (reference::INACTIVE, reference::INACTIVE) => 0,
        (reference::ABORTED, reference::INACTIVE) => 2,
        (_, reference::INACTIVE) => 1 + 2 * usize::from(ended),
        (reference::INACTIVE, _) => 4 + usize::from(second_ended),
        _ if ended => 7 + usize::from(second_ended),
        _ => 6,
    }
}

fn wait(body: u8, at: usize, completes: bool) -> String {
    let what = if completes { "completes" } else { "waits" };
    format!("body {body} with wait-for-optional, children {}: {what}", WAITS[at].0)
}

/// All that can be met where a plan with wait-for-optional would complete without it.
pub fn wanted_waits() -> Vec<String> {
    let of = |at: usize, (_, can, complete): (&str, &[u8], &[u8])| -> Vec<String> {
        can.iter().map(|&body| wait(body, at, complete.contains(&body))).collect()
    };
    WAITS.into_iter().enumerate().flat_map(|(at, row)| of(at, row)).collect()
}

/// Of a step that is not refused: plans from body 5 on with wait-for-optional that complete, or would if they had not that flag.
pub fn count_waits(lines: &mut Lines, call: &Call, plans: &[Plan], new: &[u8]) {
    for (p, plan) in plans.iter().enumerate() {
        let may_matter = reference::is_for_two(plan.body)
            && plan.flags >> reference::WAIT_FOR_OPTIONAL & 1 == 1
            && call.states[p] == reference::ACTIVATED;
        if may_matter {
            let mut without = call.clone();
            without.table = with_entry(&call.table, p, |entry| entry[3] &= !(1 << reference::WAIT_FOR_OPTIONAL));
            if without.ask_reference().1[p] == reference::COMPLETED {
                let (first, second) = plan.first_and_second();
                let at = wait_of(call.states[first], call.states[second]);
                lines.count(wait(plan.body, at, new[p] == reference::COMPLETED));
            }
        }
    }
}

// ------------------------------------------------------------------------------------------------
// Refusals
// ------------------------------------------------------------------------------------------------

/// A table with another entry of plan p.
fn with_entry(table: &[u8], p: usize, change: impl Fn(&mut [u8])) -> Vec<u8> {
    let mut other = table.to_vec();
    let start = reference::HEADER_BYTES + reference::PLAN_BYTES * p;
    change(&mut other[start..start + reference::PLAN_BYTES]);
    other
}

/// A table in which plan p is unordered: what is then no longer refused was refused for the body.
fn unordered(table: &[u8], p: usize) -> Vec<u8> {
    with_entry(table, p, |entry| entry[2] = reference::UNORDERED)
}

const UNFIT: [(usize, &str); 3] = [(1, "one child"), (2, "retry-aborted"), (3, "three children or more")];

fn undefined(body: u8) -> String {
    format!("7: a body that is {}", if body == 9 { "9" } else { "above 9" })
}

fn unfit(body: u8, what: &str) -> String {
    format!("8: body {body} with {what}")
}

/// The refusals 7 and 8 that the bodies from 5 on have brought.
pub fn wanted_of_tables() -> Vec<String> {
    let unfits = FOR_TWO.into_iter().flat_map(|body| UNFIT.map(|(_, what)| unfit(body, what)));
    [9, 10].map(undefined).into_iter().chain(unfits).collect()
}

/// Why a table is refused with 7 or 8, where that is for a body from 5 on.
pub fn why_refused(table: &[u8]) -> Option<String> {
    let answer = reference::read_table(table).err().filter(|answer| matches!(answer & 0xFFFF, 7 | 8))?;
    let p = (answer >> 16 & 0xFFFF) as usize;
    if reference::read_table(&unordered(table, p)).err() == Some(answer) {
        return None;
    }
    let n = reference::number_of_16_bits(table, 5);
    let entries: Vec<&[u8]> = table[reference::HEADER_BYTES..].chunks_exact(reference::PLAN_BYTES).take(n).collect();
    let body = entries[p][2];
    if body > reference::IF_THEN_ELSE {
        return Some(undefined(body));
    }
    let children = entries.iter().filter(|entry| entry[0..2] == (p as u16).to_le_bytes()).count();
    let (_, what) = UNFIT.into_iter().find(|&(size, _)| size == children.min(3))?;
    Some(body).filter(|&body| reference::is_for_two(body)).map(|body| unfit(body, what))
}

fn misplaced(body: u8) -> String {
    format!("11: the second child of body {body}")
}

fn where_from(kind: Kind) -> &'static str {
    if kind == Kind::Check {
        "record"
    } else {
        "call"
    }
}

fn stray_body(kind: Kind, body: u8) -> String {
    format!("12 in a {}: bit 20 or 21 on body {body}", where_from(kind))
}

fn stray_bits(kind: Kind, bits: u32) -> String {
    format!("12 in a {}: bits 21 and 20 being {bits:02b}, off body 8", where_from(kind))
}

fn too_soon_or_not(body: u8, child: usize, shown: u8) -> String {
    format!("15: body {body}, {} child, Inactive, is shown {}", CHILDREN[child], STATES[usize::from(shown)])
}

/// The refusals of calls on good tables that the bodies from 5 on have brought.
pub fn wanted_of_calls() -> Vec<String> {
    let mut lines: Vec<String> = FOR_TWO.into_iter().map(misplaced).collect();
    for kind in [Kind::Step, Kind::Check] {
        lines.extend((0..=reference::IF_THEN_ELSE).map(|body| stray_body(kind, body)));
        lines.extend((1..4).map(|bits| stray_bits(kind, bits)));
    }
    for body in FOR_TWO {
        for (child, shown) in [(0, 0), (1, 1), (1, 0)] {
            lines.push(too_soon_or_not(body, child, shown));
        }
    }
    lines.push(too_soon_or_not(reference::IF_THEN_ELSE, 0, 1));
    lines
}

/// Why a call on a good table is refused, where that is for a body from 5 on.
pub fn count_refused_call(lines: &mut Lines, call: &Call, plans: &[Plan], answer: u64) {
    let (p, step) = ((answer >> 16 & 0xFFFF) as usize, (answer >> 32) as usize);
    match answer & 0xFFFF {
        11 => count_misplaced(lines, call, plans, p, answer),
        12 => count_stray(lines, call, plans, p, step, answer),
        15 => count_too_soon_or_not(lines, call, plans, p, step),
        _ => {}
    }
}

/// The parent of plan p, if it has a body from 5 on.
fn parent_for_two(plans: &[Plan], p: usize) -> Option<usize> {
    plans[p].parent.filter(|&q| reference::is_for_two(plans[q].body))
}

fn count_misplaced(lines: &mut Lines, call: &Call, plans: &[Plan], p: usize, answer: u64) {
    let Some(parent) = parent_for_two(plans, p) else { return };
    let mut other = call.clone();
    other.table = unordered(&call.table, parent);
    if other.ask_reference().0 != answer {
        lines.count(misplaced(plans[parent].body));
    }
}

/// Where the words of a step begin: in a record, or those of a call, which counts as step 0.
fn words_of(step: usize, n: usize) -> usize {
    step.checked_sub(1).map_or(0, |before| reference::HEADER_BYTES + 5 * n * before)
}

fn count_stray(lines: &mut Lines, call: &Call, plans: &[Plan], p: usize, step: usize, answer: u64) {
    let at = words_of(step, plans.len()) + 4 * p + 2;
    let bits = u32::from(call.words[at] >> 4 & 3);
    let mut without = call.clone();
    without.words[at] &= !(3 << 4);
    if without.ask_reference().0 != answer {
        lines.count(stray_body(call.kind, plans[p].body));
        if plans[p].body != reference::IF_THEN_ELSE {
            lines.count(stray_bits(call.kind, bits));
        }
    }
}

fn count_too_soon_or_not(lines: &mut Lines, call: &Call, plans: &[Plan], p: usize, step: usize) {
    let Some(parent) = parent_for_two(plans, p) else { return };
    let (n, words) = (plans.len(), words_of(step, plans.len()));
    // before step 1 no plan is Activated
    let old = if step > 1 { &call.words[words - n..words] } else { return };
    let shown = &call.words[words + 4 * n..words + 5 * n];
    let gives_orders = [old[parent], shown[parent]] == [reference::ACTIVATED; 2];
    if gives_orders && old[p] == reference::INACTIVE && shown[p] <= reference::CONSIDERED {
        let child = usize::from(p != plans[parent].first_and_second().0);
        lines.count(too_soon_or_not(plans[parent].body, child, shown[p]));
    }
}
