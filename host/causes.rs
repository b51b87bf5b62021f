//! What a comparison must reach of request (ix) of document 02, "Say why it moved": each cause with each move that can have it, what is
//! told where several reasons hold at once, what runs leave, and 10 for the length of the causes. As in turns.rs each is a line of words
//! with a count, and what is wanted is listed apart from the counting.

use crate::cases::{self, Call, Kind};
use crate::reference::{self, Before};
use crate::reference::{ABORTED, ACTIVATED, COMPLETED, CONSIDERED, INACTIVE, POSSIBLE, READY, REJECTED, SUSPENDED};
use crate::reference::{CHILDREN_LOST, FORCED, ORDERED, OWN_CONDITION, UNMOVED};
use crate::tally::Lines;
use crate::turns::STATES;

// ------------------------------------------------------------------------------------------------
// Moves by causes
// ------------------------------------------------------------------------------------------------

/// By their numbers.
const CAUSES: [&str; 5] = ["unmoved", "ordered", "own condition", "children lost", "forced"];

/// Each move that can be from states that may be handed in, and the causes that it can have:
/// - a plan in selection or execution has a parent in execution, which does not become Inactive again, so neither does it; it moves on, or
///   is Rejected or Aborted, by itself or with its parent;
/// - a Ready plan is Rejected with its parent only, for it asks no condition;
/// - an ended plan stays, or becomes Inactive when a plan above it is retried; Aborted is retried.
const MOVES: [(u8, u8, &[u8]); 25] = [
    (INACTIVE, INACTIVE, &[UNMOVED]),
    (INACTIVE, CONSIDERED, &[ORDERED]),
    (CONSIDERED, CONSIDERED, &[UNMOVED]),
    (CONSIDERED, POSSIBLE, &[OWN_CONDITION]),
    (CONSIDERED, REJECTED, &[OWN_CONDITION, FORCED]),
    (POSSIBLE, POSSIBLE, &[UNMOVED]),
    (POSSIBLE, READY, &[OWN_CONDITION]),
    (POSSIBLE, REJECTED, &[OWN_CONDITION, FORCED]),
    (READY, READY, &[UNMOVED]),
    (READY, ACTIVATED, &[ORDERED]),
    (READY, REJECTED, &[FORCED]),
    (ACTIVATED, ACTIVATED, &[UNMOVED]),
    (ACTIVATED, SUSPENDED, &[OWN_CONDITION, FORCED]),
    (ACTIVATED, COMPLETED, &[OWN_CONDITION]),
    (ACTIVATED, ABORTED, &[OWN_CONDITION, CHILDREN_LOST, FORCED]),
    (SUSPENDED, ACTIVATED, &[OWN_CONDITION]),
    (SUSPENDED, SUSPENDED, &[UNMOVED]),
    (SUSPENDED, ABORTED, &[OWN_CONDITION, CHILDREN_LOST, FORCED]),
    (COMPLETED, INACTIVE, &[FORCED]),
    (COMPLETED, COMPLETED, &[UNMOVED]),
    (ABORTED, INACTIVE, &[FORCED]),
    (ABORTED, CONSIDERED, &[ORDERED]),
    (ABORTED, ABORTED, &[UNMOVED]),
    (REJECTED, INACTIVE, &[FORCED]),
    (REJECTED, REJECTED, &[UNMOVED]),
];

fn row(old: u8, new: u8) -> String {
    let [old_name, new_name] = [old, new].map(|state| STATES[usize::from(state)]);
    if old == new {
        format!("{old_name} stays")
    } else {
        format!("{old_name} -> {new_name}")
    }
}

fn cause_of(cause: u8) -> &'static str {
    CAUSES[usize::from(cause)]
}

fn moved(old: u8, new: u8, cause: u8) -> String {
    format!("{}: {}", row(old, new), cause_of(cause))
}

fn of_root(old: u8, new: u8, cause: u8) -> String {
    format!("the root, {}", moved(old, new, cause))
}

/// All moves by their causes; and once more those of the root. Nobody forces or retries it, and it never waits for an order.
pub fn wanted_moves() -> Vec<String> {
    let all = || MOVES.into_iter().flat_map(|(old, new, causes)| causes.iter().map(move |&cause| (old, new, cause)));
    let never_of_root = [(INACTIVE, INACTIVE), (READY, READY), (ABORTED, CONSIDERED)];
    let can_be_of_root = |&(old, new, cause): &(u8, u8, u8)| cause != FORCED && !never_of_root.contains(&(old, new));
    let of_all = all().map(|(old, new, cause)| moved(old, new, cause));
    of_all.chain(all().filter(can_be_of_root).map(|(old, new, cause)| of_root(old, new, cause))).collect()
}

/// The moves of one step.
pub fn count_moves(lines: &mut Lines, old: &[u8], new: &[u8], causes: &[u8]) {
    for (p, &cause) in causes.iter().enumerate() {
        lines.count(moved(old[p], new[p], cause));
        if p == 0 {
            lines.count(of_root(old[p], new[p], cause));
        }
    }
}

/// The moves down, the causes across; a point where the move cannot have that cause.
pub fn print_moves(lines: &Lines) {
    let heads = (UNMOVED..=FORCED).map(|cause| format!("{:>17}", format!("{cause} {}", cause_of(cause))));
    println!("  {:<24}{}", "", heads.collect::<String>());
    for (old, new, possible) in MOVES {
        let cell = |cause: u8| match (lines.times(&moved(old, new, cause)), possible.contains(&cause)) {
            (0, false) => format!("{:>17}", "."),
            (count, _) => format!("{count:>17}"),
        };
        println!("  {:<24}{}", row(old, new), (UNMOVED..=FORCED).map(cell).collect::<String>());
    }
}

// ------------------------------------------------------------------------------------------------
// Several reasons at once
// ------------------------------------------------------------------------------------------------

/// What can move a plan.
#[derive(Clone, Copy)]
enum Reason {
    ParentEnded,
    ParentSuspended,
    Holds(u32),
    CanNoLongerHold(u32),
    ChildrenLost,
}

use Reason::{CanNoLongerHold, ChildrenLost, Holds, ParentEnded, ParentSuspended};

impl Reason {
    fn in_words(self) -> String {
        let name = |condition: u32| ["filter", "setup", "suspend", "reactivate", "abort", "complete"][condition as usize];
        match self {
            ParentEnded => "the parent has ended".to_string(),
            ParentSuspended => "the parent is Suspended".to_string(),
            Holds(condition) => format!("its {} holds", name(condition)),
            CanNoLongerHold(condition) => format!("its {} can no longer hold", name(condition)),
            ChildrenLost => "too many children are lost".to_string(),
        }
    }

    /// Whether it is there, for plan p whose parent now has this state.
    fn is_there(self, before: &Before, p: usize, parent_new: u8) -> bool {
        let (plan, word) = (&before.plans[p], before.words[p]);
        let holds = |condition| reference::condition_holds(plan, word, condition);
        match self {
            ParentEnded => reference::has_ended(parent_new),
            ParentSuspended => parent_new == SUSPENDED,
            Holds(condition) => holds(condition),
            CanNoLongerHold(condition) => !holds(condition) && !reference::condition_is_satisfiable(plan, word, condition),
            ChildrenLost => reference::too_many_are_lost(before, p),
        }
    }

    /// Whether it cannot be there beside another that comes behind it: the parent has one state, and what holds can.
    fn excludes(self, behind: Reason) -> bool {
        matches!((self, behind), (ParentEnded, ParentSuspended) | (Holds(_), CanNoLongerHold(_)))
    }
}

/// For each old state that several reasons can move, these in the order in which they are told, each with what the plan then becomes and
/// the cause: "Own abort goes before lost children; a forced suspension before an own one", and an ended parent before all. What comes
/// behind them, completion and reactivation, is left out.
const REASONS: [(u8, &[(Reason, u8, u8)]); 4] = [
    (
        CONSIDERED,
        &[
            (ParentEnded, REJECTED, FORCED),
            (Holds(reference::FILTER), POSSIBLE, OWN_CONDITION),
            (CanNoLongerHold(reference::FILTER), REJECTED, OWN_CONDITION),
        ],
    ),
    (
        POSSIBLE,
        &[
            (ParentEnded, REJECTED, FORCED),
            (Holds(reference::SETUP), READY, OWN_CONDITION),
            (CanNoLongerHold(reference::SETUP), REJECTED, OWN_CONDITION),
        ],
    ),
    (
        ACTIVATED,
        &[
            (ParentEnded, ABORTED, FORCED),
            (Holds(reference::ABORT), ABORTED, OWN_CONDITION),
            (ChildrenLost, ABORTED, CHILDREN_LOST),
            (ParentSuspended, SUSPENDED, FORCED),
            (Holds(reference::SUSPEND), SUSPENDED, OWN_CONDITION),
        ],
    ),
    (
        SUSPENDED,
        &[
            (ParentEnded, ABORTED, FORCED),
            (Holds(reference::ABORT), ABORTED, OWN_CONDITION),
            (ChildrenLost, ABORTED, CHILDREN_LOST),
        ],
    ),
];

fn told(old: u8, reasons: &[Reason], new: u8, cause: u8) -> String {
    let reasons: Vec<String> = reasons.iter().map(|reason| reason.in_words()).collect();
    format!("{}, as {}", moved(old, new, cause), reasons.join(" and "))
}

/// Each set of reasons that can be there together: the first of them is told.
pub fn wanted_reasons() -> Vec<String> {
    let mut lines = Vec::new();
    for (old, reasons) in REASONS {
        for set in 1..1 << reasons.len() {
            let there: Vec<_> = reasons.iter().enumerate().filter(|(at, _)| set >> at & 1 == 1).map(|(_, &reason)| reason).collect();
            let names: Vec<Reason> = there.iter().map(|&(reason, _, _)| reason).collect();
            let can_be = !names.iter().any(|&one| names.iter().any(|&behind| one.excludes(behind)));
            if can_be {
                let (_, new, cause) = there[0];
                lines.push(told(old, &names, new, cause));
            }
        }
    }
    lines
}

/// Of one step: the plans that some reason moves.
pub fn count_reasons(lines: &mut Lines, before: &Before, new: &[u8], causes: &[u8]) {
    for (p, plan) in before.plans.iter().enumerate() {
        let parent_new = plan.parent.map_or(ACTIVATED, |parent| new[parent]);
        let old = before.states[p];
        let Some((_, reasons)) = REASONS.into_iter().find(|&(state, _)| state == old) else { continue };
        let is_there = |&reason: &Reason| reason.is_there(before, p, parent_new);
        let there: Vec<Reason> = reasons.iter().map(|&(reason, _, _)| reason).filter(is_there).collect();
        if !there.is_empty() {
            lines.count(told(old, &there, new[p], causes[p]));
        }
    }
}

// ------------------------------------------------------------------------------------------------
// Runs
// ------------------------------------------------------------------------------------------------

const NONE: &str = "all causes are 0";
const SOME: &str = "some cause is not 0";
const AT_ONCE: &str = "rests at once";
const NO_BUDGET: &str = "has no budget and is still moving";
const RESTS: &str = "rests after some steps";
const TRIED_OTHER: &str = "is still moving, and the step that it only tried has other causes";
const TRIED_SAME: &str = "is still moving, and the step that it only tried has the same causes";

fn run(end: &str, causes: &str) -> String {
    format!("a run that {end}: {causes}")
}

/// "A run gives its last step's causes, all 0 if it took none." A step that was taken has moved a plan.
pub fn wanted_runs() -> Vec<String> {
    let took_none = [AT_ONCE, NO_BUDGET].map(|end| run(end, NONE));
    let took_some = [RESTS, TRIED_OTHER, TRIED_SAME].map(|end| run(end, SOME));
    took_none.into_iter().chain(took_some).collect()
}

/// A run that was not refused, and what it leaves.
pub fn count_run(lines: &mut Lines, call: &Call, answer: u64, states: &[u8], causes: &[u8]) {
    let rests = answer >> 16 & 0xFFFF != reference::STILL_MOVING as u64;
    let end = match (answer >> 32, rests) {
        (0, true) => AT_ONCE,
        (0, false) => NO_BUDGET,
        (_, true) => RESTS,
        _ if tried(call, states) == causes => TRIED_SAME,
        _ => TRIED_OTHER,
    };
    lines.count(run(end, if causes.iter().all(|&cause| cause == UNMOVED) { NONE } else { SOME }));
}

/// The causes of one more step, from the states that a run has left.
fn tried(call: &Call, states: &[u8]) -> Vec<u8> {
    let mut step = call.clone();
    step.kind = Kind::Step;
    step.states = states.to_vec();
    step.ask_reference().2
}

// ------------------------------------------------------------------------------------------------
// The length of the causes
// ------------------------------------------------------------------------------------------------

const KINDS: [Kind; 2] = [Kind::Step, Kind::Rest];
const LENGTHS: [&str; 3] = ["no", "too few", "too many"];

fn alone(kind: Kind, length: &str) -> String {
    format!("a {kind:?} that lends {length} causes and is else in order: 10")
}

fn beside(kind: Kind, with_right_causes: u64, number: u64) -> String {
    format!("a {kind:?} that lends a wrong number of causes, and would else be answered with {with_right_causes}: {number}")
}

/// "10 also for the cause buffer's length": before 11 and 12, and behind 17 and what a table is refused for.
pub fn wanted_lengths() -> Vec<String> {
    let of_kind = |kind: Kind| {
        let alones = LENGTHS.map(|length| alone(kind, length)).into_iter();
        let numbers = cases::numbers_of(kind).into_iter().chain([17]);
        alones.chain(numbers.map(move |number| beside(kind, number, if matches!(number, 0 | 10..=12) { 10 } else { number })))
    };
    KINDS.into_iter().flat_map(of_kind).collect()
}

/// A call, if it lends a wrong number of causes.
pub fn count_length(lines: &mut Lines, call: &Call, number: u64) {
    let n = cases::whole_entries(&call.table);
    if call.kind == Kind::Check || call.causes.len() == n {
        return;
    }
    let mut right = call.clone();
    right.causes = vec![UNMOVED; n];
    let with_right_causes = right.ask_reference().0 & 0xFFFF;
    lines.count(beside(call.kind, with_right_causes, number));
    if (with_right_causes, number) == (0, 10) {
        let length = match call.causes.len() {
            0 => LENGTHS[0],
            few if few < n => LENGTHS[1],
            _ => LENGTHS[2],
        };
        lines.count(alone(call.kind, length));
    }
}
