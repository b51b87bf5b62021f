//! What a comparison must reach of the two rules on lost children, and of the refusal of any other rule number, 17. As in turns.rs each is
//! a line of words with a count, and what is wanted is listed apart from the counting.

use crate::cases::{self, Call, Kind, RULES, WRONG_RULES};
use crate::reference::{self, Before, Plan, Rule};
use crate::tally::Lines;

// ------------------------------------------------------------------------------------------------
// Moves
// ------------------------------------------------------------------------------------------------

/// What wait-for says of a plan that has an Aborted child: of its children that are neither Rejected nor Aborted, and of those that are
/// not Rejected. Where it holds of both, a named child is Aborted.
#[derive(Clone, Copy, PartialEq)]
enum WaitFor {
    /// Of both.
    Holds,
    /// Fails of the first, and holds of the second.
    FailsForAborted,
    /// Holds of the first, and fails of the second: by a "not" or a xor.
    HoldsForAborted,
    /// Of both.
    Fails,
}

/// What becomes of a plan.
const ABORTED: &str = "is Aborted";
const NOT_ABORTED: &str = "is not Aborted";
const RETRIES: &str = "stays and retries them";
const WITH_PARENT: &str = "is Suspended with its parent";
const BY_ITSELF: &str = "is Suspended by its own suspend";
const UNDER_PARENT: &str = "stays under a Suspended parent";
const NOT_REACTIVATED: &str = "stays, for reactivate does not hold";
const REACTIVATED: &str = "is reactivated";
const COMPLETED: &str = "is Completed";
const OTHERWISE: &str = "does what no rule says";

pub fn number_of(rule: Rule) -> u32 {
    RULES[usize::from(rule == Rule::New)].0
}

fn from(old: u8) -> &'static str {
    if old == reference::ACTIVATED {
        "Activated"
    } else {
        "Suspended"
    }
}

fn truth(wait_for: WaitFor) -> &'static str {
    match wait_for {
        WaitFor::Holds => "holds",
        WaitFor::FailsForAborted => "fails for Aborted children only",
        WaitFor::HoldsForAborted => "holds for Aborted children only",
        WaitFor::Fails => "fails for Rejected children or for those that are left",
    }
}

/// A move that only one of the rules gives: of a plan with retry-aborted.
fn apart(rule: Rule, body: u8, old: u8, what: &str) -> String {
    format!("rule {}, body {body}, {}, wait-for {}: {what}", number_of(rule), from(old), truth(WaitFor::FailsForAborted))
}

/// Another, which only a formula with a "not" or a xor gives: told without its body.
fn turned(rule: Rule, wait_for: WaitFor, old: u8, what: &str) -> String {
    format!("rule {}, {}, wait-for {}: {what}", number_of(rule), from(old), truth(wait_for))
}

/// A move that both rules give.
fn alike(rule: Rule, retries: bool, wait_for: WaitFor, old: u8, what: &str) -> String {
    let retries = if retries { "with" } else { "without" };
    format!("rule {}, {retries} retry-aborted, {}, wait-for {}: {what}", number_of(rule), from(old), truth(wait_for))
}

/// All moves that only one of the rules gives. Under rule 2 such a plan can be Completed though wait-for fails of the children that are
/// neither Rejected nor Aborted, and the Completed ones are among these: by a "not" or a xor only.
pub fn wanted_apart() -> Vec<String> {
    let mut lines = Vec::new();
    for body in [reference::SEQUENTIAL, reference::PARALLEL, reference::ANY_ORDER, reference::UNORDERED] {
        for old in [reference::ACTIVATED, reference::SUSPENDED] {
            lines.push(apart(Rule::Old, body, old, ABORTED));
        }
        for what in [RETRIES, WITH_PARENT, BY_ITSELF] {
            lines.push(apart(Rule::New, body, reference::ACTIVATED, what));
        }
        for what in [UNDER_PARENT, NOT_REACTIVATED, REACTIVATED] {
            lines.push(apart(Rule::New, body, reference::SUSPENDED, what));
        }
    }
    for old in [reference::ACTIVATED, reference::SUSPENDED] {
        lines.push(turned(Rule::Old, WaitFor::HoldsForAborted, old, NOT_ABORTED));
        lines.push(turned(Rule::New, WaitFor::HoldsForAborted, old, ABORTED));
    }
    lines.push(turned(Rule::New, WaitFor::FailsForAborted, reference::ACTIVATED, COMPLETED));
    lines
}

/// What both rules give though there is an Aborted child.
pub fn wanted_alike() -> Vec<String> {
    let mut lines = Vec::new();
    for (_, rule) in RULES {
        for old in [reference::ACTIVATED, reference::SUSPENDED] {
            lines.push(alike(rule, false, WaitFor::FailsForAborted, old, ABORTED));
            lines.push(alike(rule, false, WaitFor::HoldsForAborted, old, NOT_ABORTED));
            for retries in [false, true] {
                lines.push(alike(rule, retries, WaitFor::Holds, old, NOT_ABORTED));
                lines.push(alike(rule, retries, WaitFor::Fails, old, ABORTED));
            }
        }
    }
    lines
}

/// The moves of one step: of plans in execution, under a parent in execution, that have an Aborted child and whose own abort does not hold.
/// All other moves have nothing to do with the rule.
pub fn count_moves(lines: &mut [Lines; 2], before: &Before, new: &[u8]) {
    for (p, plan) in before.plans.iter().enumerate() {
        let old = before.states[p];
        let parent_new = plan.parent.map_or(reference::ACTIVATED, |parent| new[parent]);
        if !reference::in_execution(old) || !reference::in_execution(parent_new) {
            continue;
        }
        let Some(wait_for) = wait_for(before, p) else { continue };
        if reference::condition_holds(plan, before.words[p], reference::ABORT) {
            continue;
        }
        let retries = plan.retries_aborted();
        let [lines_apart, lines_alike] = lines;
        let is_aborted = if new[p] == reference::ABORTED { ABORTED } else { NOT_ABORTED };
        match wait_for {
            WaitFor::FailsForAborted if retries => match what_became(before, p, parent_new, new) {
                COMPLETED => lines_apart.count(turned(before.rule, wait_for, old, COMPLETED)),
                what => lines_apart.count(apart(before.rule, plan.body, old, what)),
            },
            WaitFor::HoldsForAborted if retries => lines_apart.count(turned(before.rule, wait_for, old, is_aborted)),
            _ => lines_alike.count(alike(before.rule, retries, wait_for, old, is_aborted)),
        }
    }
}

/// None without such a child.
fn wait_for(before: &Before, p: usize) -> Option<WaitFor> {
    let is_named = |child: usize| before.plans[child].is_named();
    let children = &before.plans[p].children;
    let aborted: Vec<usize> = children.iter().copied().filter(|&child| before.states[child] == reference::ABORTED).collect();
    if aborted.is_empty() {
        return None;
    }
    let of_neither = reference::wait_for_holds(before, p, |state| !matches!(state, reference::REJECTED | reference::ABORTED));
    let of_not_rejected = reference::wait_for_holds(before, p, |state| state != reference::REJECTED);
    match (of_neither, of_not_rejected) {
        (true, true) => aborted.into_iter().any(is_named).then_some(WaitFor::Holds),
        (true, false) => Some(WaitFor::HoldsForAborted),
        (false, true) => Some(WaitFor::FailsForAborted),
        (false, false) => Some(WaitFor::Fails),
    }
}

fn what_became(before: &Before, p: usize, parent_new: u8, new: &[u8]) -> &'static str {
    let mut children = before.plans[p].children.iter();
    let mut all_are_retried = || children.all(|&c| before.states[c] != reference::ABORTED || new[c] == reference::CONSIDERED);
    match (before.states[p], new[p]) {
        (_, reference::ABORTED) => ABORTED,
        (reference::ACTIVATED, reference::COMPLETED) => COMPLETED,
        (reference::ACTIVATED, reference::ACTIVATED) if all_are_retried() => RETRIES,
        (reference::ACTIVATED, reference::SUSPENDED) if parent_new == reference::SUSPENDED => WITH_PARENT,
        (reference::ACTIVATED, reference::SUSPENDED) => BY_ITSELF,
        (reference::SUSPENDED, reference::SUSPENDED) if parent_new == reference::SUSPENDED => UNDER_PARENT,
        (reference::SUSPENDED, reference::SUSPENDED) => NOT_REACTIVATED,
        (reference::SUSPENDED, reference::ACTIVATED) => REACTIVATED,
        _ => OTHERWISE,
    }
}

// ------------------------------------------------------------------------------------------------
// Whole runs and records
// ------------------------------------------------------------------------------------------------

fn run(rule: u32) -> String {
    format!("a run by rule {rule} that goes otherwise by the other")
}

fn verdict(asked: u32, numbers: [u64; 2]) -> String {
    let told = numbers.map(|number| if number == 0 { "accepted".to_string() } else { format!("refused with {number}") });
    format!("a record asked by rule {asked}: by rule 1 {}, by rule 2 {}", told[0], told[1])
}

/// Records asked by a rule that one rule accepts and the other does not.
pub fn wanted_verdicts(rule: u32) -> Vec<String> {
    vec![verdict(rule, [0, 15]), verdict(rule, [15, 0])]
}

/// These, and runs that go otherwise by the other rule.
pub fn wanted_answers() -> Vec<String> {
    let of_rule = |(rule, _): (u32, Rule)| wanted_verdicts(rule).into_iter().chain([run(rule)]);
    RULES.into_iter().flat_map(of_rule).collect()
}

/// A run or a check with a good rule and table, if the rules answer it differently.
pub fn count_answers(lines: &mut Lines, call: &Call, plans: &[Plan]) {
    if plans.iter().any(cases::may_part_the_rules) {
        match call.kind {
            Kind::Step => {}
            Kind::Rest if call.by(1).ask_reference() == call.by(2).ask_reference() => {}
            Kind::Rest => lines.count(run(call.rule)),
            Kind::Check => count_verdicts(lines, call),
        }
    }
}

/// A check, if one rule accepts and the other does not.
pub fn count_verdicts(lines: &mut Lines, call: &Call) {
    let numbers = [1, 2].map(|rule| call.by(rule).ask_reference().0 & 0xFFFF);
    if numbers[0] != numbers[1] && numbers.contains(&0) {
        lines.count(verdict(call.rule, numbers));
    }
}

// ------------------------------------------------------------------------------------------------
// Other rule numbers
// ------------------------------------------------------------------------------------------------

const KINDS: [Kind; 3] = [Kind::Step, Kind::Rest, Kind::Check];

fn wrong_number(kind: Kind, rule: u32) -> String {
    let rule = if WRONG_RULES.contains(&rule) { rule.to_string() } else { "another".to_string() };
    format!("17 of a {kind:?} by rule {rule}")
}

fn instead(kind: Kind, number: u64) -> String {
    format!("17 of a {kind:?} that a rule would answer with {number}")
}

/// Each wrong number, and 17 in place of each other number, of each call.
pub fn wanted_of_numbers() -> Vec<String> {
    let of_kind = |kind: Kind| {
        let wrong = WRONG_RULES.into_iter().chain([u32::MAX - 1]).map(move |rule| wrong_number(kind, rule));
        wrong.chain(cases::numbers_of(kind).into_iter().map(move |number| instead(kind, number)))
    };
    KINDS.into_iter().flat_map(of_kind).collect()
}

/// A call that was answered with 17.
pub fn count_wrong_number(lines: &mut Lines, call: &Call) {
    lines.count(wrong_number(call.kind, call.rule));
    lines.count(instead(call.kind, call.by(2).ask_reference().0 & 0xFFFF));
}
