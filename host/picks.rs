//! What a comparison must reach of the choice that an any-order plan makes among its Ready children, and of the records in which the
//! fallback of request (vii) of document 02, "Do the mandatory one first", and that of before would choose differently. As in turns.rs each
//! is a line of words with a count, and what is wanted is listed apart from the counting.

use crate::cases::{self, Call, RULES};
use crate::losses::number_of;
use crate::reference::{self, Before, Plan, Rule};
use crate::tally::Lines;

// ------------------------------------------------------------------------------------------------
// Choices
// ------------------------------------------------------------------------------------------------

/// Who is activated.
const NO_ONE: &str = "no one";
const PICK: &str = "the pick";
const LOWEST_NAMED: &str = "the lowest that is named";
const LOWEST: &str = "the lowest";
const ANOTHER: &str = "another one";
const SEVERAL: &str = "more than one";

/// What the Ready children can be, as far as the fallback tells it apart. With each, whether the pick can be a named one of them, whether
/// it can be one that is not named, and who is activated where it is none of them.
const READY: [(&str, bool, bool, &str); 8] = [
    ("none", false, false, NO_ONE),
    ("one, not named", false, true, LOWEST),
    ("one, named", true, false, LOWEST_NAMED),
    ("several, none named", false, true, LOWEST),
    ("several, the lowest alone named", true, true, LOWEST_NAMED),
    ("several, a higher one alone named", true, true, LOWEST_NAMED),
    ("several, two or more named with the lowest", true, true, LOWEST_NAMED),
    ("several, two or more named without the lowest", true, true, LOWEST_NAMED),
];

/// The place in `READY` of Ready children, in the order of their ranks, by whether they are named.
fn ready_of(named: &[bool]) -> usize {
    let lowest = named.first() == Some(&true);
    match (named.len(), named.iter().filter(|&&named| named).count()) {
        (0, _) => 0,
        (1, count) => 1 + count,
        (_, 0) => 3,
        (_, 1) => 4 + usize::from(!lowest),
        _ => 6 + usize::from(!lowest),
    }
}

fn choice(pick_is_ready: bool, pick_is_named: bool, ready: usize, who: &str) -> String {
    let [is_ready, is_named] = [pick_is_ready, pick_is_named].map(|yes| if yes { "" } else { "not " });
    format!("the pick {is_ready}Ready, {is_named}named; Ready: {}: {who} is activated", READY[ready].0)
}

/// Why no one is activated though some are Ready.
const RUNNING: &str = "a child in execution";
const RETRIED: &str = "an Aborted child that is retried";

fn held_back(why: &str, who: &str) -> String {
    format!("{why}, and a named one Ready: {who} is activated")
}

/// By each rule and in each version, where the lowest Ready child is not named and a higher one is.
fn by_rule(rule: Rule, version: u8, pick_is_ready: bool, who: &str) -> String {
    let (rule, pick) = (number_of(rule), if pick_is_ready { "Ready and not named" } else { "not Ready" });
    format!("rule {rule}, version {version}: a higher Ready one named and the lowest not, the pick {pick}: {who} is activated")
}

fn rules_and_versions() -> impl Iterator<Item = (Rule, u8)> {
    RULES.into_iter().flat_map(|(_, rule)| [(rule, 1), (rule, 2)])
}

/// All choices that can be met: by the documents' words once more, and in no way by the reference's code.
pub fn wanted_choices() -> Vec<String> {
    let mut lines = vec![held_back(RUNNING, NO_ONE), held_back(RETRIED, NO_ONE)];
    for (at, (_, named, not_named, otherwise)) in READY.into_iter().enumerate() {
        lines.extend([false, true].map(|pick_is_named| choice(false, pick_is_named, at, otherwise)));
        let ready_picks = [(true, named), (false, not_named)].into_iter().filter(|&(_, can_be)| can_be);
        lines.extend(ready_picks.map(|(pick_is_named, _)| choice(true, pick_is_named, at, PICK)));
    }
    for (rule, version) in rules_and_versions() {
        lines.extend([by_rule(rule, version, false, LOWEST_NAMED), by_rule(rule, version, true, PICK)]);
    }
    lines
}

/// A choice of one step: of an any-order plan that was and stays Activated.
struct Chooser<'a> {
    before: &'a Before<'a>,
    plan: &'a Plan,
    /// The child whose rank is the pick.
    pick: usize,
    /// The Ready children, and those of them that are activated, in the order of their ranks.
    ready: Vec<usize>,
    activated: Vec<usize>,
}

impl Chooser<'_> {
    fn is_named(&self, child: usize) -> bool {
        self.before.plans[child].is_named()
    }

    fn lowest_named(&self) -> Option<usize> {
        self.ready.iter().copied().find(|&child| self.is_named(child))
    }

    fn named(&self) -> Vec<bool> {
        self.ready.iter().map(|&child| self.is_named(child)).collect()
    }

    /// Whether the lowest Ready child is not named and a higher one is: there the fallbacks part.
    fn passes_over_the_lowest(&self) -> bool {
        self.lowest_named().is_some_and(|named| named != self.ready[0])
    }

    fn held_back_by(&self) -> Option<&'static str> {
        let mut states = self.plan.children.iter().map(|&child| self.before.states[child]);
        if states.clone().any(reference::in_execution) {
            return Some(RUNNING);
        }
        let one_is_retried = self.plan.retries_aborted() && states.any(|state| state == reference::ABORTED);
        one_is_retried.then_some(RETRIED)
    }

    /// The one that is activated, as far as the Ready children tell.
    fn who(&self) -> &'static str {
        match self.activated[..] {
            [] => NO_ONE,
            [child] if Some(child) == self.lowest_named() => LOWEST_NAMED,
            [child] if child == self.ready[0] => LOWEST,
            [_] => ANOTHER,
            _ => SEVERAL,
        }
    }
}

fn choosers<'a>(before: &'a Before<'a>, new: &[u8]) -> Vec<Chooser<'a>> {
    let chooser = |p: usize| {
        let plan = &before.plans[p];
        let ready: Vec<usize> = plan.children.iter().copied().filter(|&child| before.states[child] == reference::READY).collect();
        let activated = ready.iter().copied().filter(|&child| new[child] == reference::ACTIVATED).collect();
        Chooser { before, plan, pick: plan.children[reference::pick_of(before.words[p])], ready, activated }
    };
    let chooses = |&p: &usize| before.plans[p].body == reference::ANY_ORDER && [before.states[p], new[p]] == [reference::ACTIVATED; 2];
    (0..before.plans.len()).filter(chooses).map(chooser).collect()
}

/// The choices of one step.
pub fn count_choices(lines: &mut Lines, version: u8, before: &Before, new: &[u8]) {
    for chooser in choosers(before, new) {
        if let Some(why) = chooser.held_back_by() {
            if chooser.lowest_named().is_some() {
                lines.count(held_back(why, chooser.who()));
            }
            continue;
        }
        let pick_is_ready = chooser.ready.contains(&chooser.pick);
        let pick_is_named = chooser.is_named(chooser.pick);
        let who = if chooser.activated == [chooser.pick] { PICK } else { chooser.who() };
        lines.count(choice(pick_is_ready, pick_is_named, ready_of(&chooser.named()), who));
        if chooser.passes_over_the_lowest() && !(pick_is_ready && pick_is_named) {
            lines.count(by_rule(before.rule, version, pick_is_ready, who));
        }
    }
}

// ------------------------------------------------------------------------------------------------
// Records
// ------------------------------------------------------------------------------------------------

/// Who is shown activated in a record where the fallbacks part: the lowest by that of before, the lowest that is named by that of now, and
/// each of them, and any other, by its own pick.
fn shown(rule: Rule, version: u8, who: &str) -> String {
    let rule = number_of(rule);
    format!("rule {rule}, version {version}: the fallbacks part, and {who} is shown activated")
}

pub fn wanted_in_records() -> Vec<String> {
    let of = |(rule, version)| [LOWEST, LOWEST_NAMED, ANOTHER].map(|who| shown(rule, version, who));
    rules_and_versions().flat_map(of).collect()
}

/// The choosers of a step in which the fallbacks part: where some child is not Ready, so that it could be the pick.
fn parted<'a>(before: &'a Before<'a>, new: &[u8]) -> Vec<Chooser<'a>> {
    let parts = |chooser: &Chooser| {
        let some_pick_is_not_ready = chooser.ready.len() < chooser.plan.children.len();
        some_pick_is_not_ready && chooser.passes_over_the_lowest() && chooser.held_back_by().is_none()
    };
    choosers(before, new).into_iter().filter(parts).collect()
}

/// The choices of one step of an accepted record.
pub fn count_shown(lines: &mut Lines, version: u8, before: &Before, new: &[u8]) {
    for chooser in parted(before, new) {
        lines.count(shown(before.rule, version, chooser.who()));
    }
}

fn verdict(rule: Rule, version: u8, number: u64) -> String {
    let rule = number_of(rule);
    let told = if number == 0 { "accepts, and in some step of it" } else { "refuses with 15, and in that step" };
    format!("a record that rule {rule} in version {version} {told} the fallbacks part")
}

/// "Demand 3 does not move": so no line tells of a record on which they do not agree.
pub fn wanted_verdicts() -> Vec<String> {
    rules_and_versions().flat_map(|(rule, version)| [0, 15].map(|number| verdict(rule, version, number))).collect()
}

/// A check with a good rule and table, which is judged by the old fallback once more.
pub fn count_verdicts(lines: &mut Lines, rule: Rule, version: u8, call: &Call, plans: &[Plan], answer: u64) {
    let of_before = reference::check_by_old_fallback(call.rule, &call.table, &call.words);
    if of_before != answer {
        lines.count(format!("a record whose verdict is {answer:x}, and by the old fallback {of_before:x}"));
    }
    let (number, last) = (answer & 0xFFFF, answer >> 32);
    if matches!(number, 0 | 15) {
        let (mut step, mut they_part) = (0, false);
        cases::for_each_step(rule, plans, &call.words, |before, new| {
            step += 1;
            // behind a step that is refused the record may be anything
            they_part |= (number == 0 || step == last) && !parted(before, new).is_empty();
        });
        if they_part {
            lines.count(verdict(rule, version, number));
        }
    }
}
