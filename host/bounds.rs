//! Holds runs to the figure that is told before them, and sees trees of which none is told move for ever.
//!
//!     bounds CHILD [ARGS..] --seed S --trees N [--reach-from N] [--patience SECONDS]
//!
//! starts CHILD with ARGS and talks with it as talk.rs and requests.rs tell. First come N random trees under held words that keep both
//! premises. Asked how long a run can go on, the child must answer six steps a plan. With that budget a run must rest, by both rules, after
//! as many steps as the reference takes and in the same states; and with a budget that is one smaller it must still be moving. Then come
//! `PER_BROKEN` times fewer trees that break the second premise only, and as many that break the first only. Of each the child must answer
//! that no figure is known, and with the largest budget it must run, by either rule, as the reference does, which looks for states that
//! come again.
//!
//! Status 0: there was no difference; no run of the first trees took more than five steps a plan, and in none did a plan come back to a
//! state that it had left; and, from `REACH_FROM` trees on or as many as `--reach-from` says, all was met that is wanted below. Status 1:
//! anything else.

#[allow(dead_code)]
mod bound_cases;
#[allow(dead_code)]
mod cases;
#[allow(dead_code)]
mod dice;
#[allow(dead_code)]
mod formula_cases;
#[allow(dead_code)]
mod reference;
#[allow(dead_code)]
mod requests;
mod talk;
mod tally;

use bound_cases::{Broken, Question};
use cases::Call;
use dice::Dice;
use formula_cases::version_of;
use reference::{answer, Before, Plan, DONE, NO_FIGURE, STILL_MOVING};
use std::process::ExitCode;
use talk::{Left, Options};
use tally::{chosen, class, Lines, Sizes};

/// So many trees keep the premises if it is not said, and from so many on a run is held to what it must meet.
const REACH_FROM: u64 = 20_000;
/// For so many of them one breaks the second premise, and one the first.
const PER_BROKEN: u64 = 10;

fn main() -> ExitCode {
    match run() {
        Ok(()) => ExitCode::SUCCESS,
        Err(message) => {
            println!("{message}");
            ExitCode::FAILURE
        }
    }
}

fn run() -> Result<(), String> {
    let options = Options::from_arguments("bounds", "trees", REACH_FROM)?;
    compare_kept(&options)?;
    compare_broken(&options.one_in(PER_BROKEN), Broken::Second)?;
    compare_broken(&options.one_in(PER_BROKEN), Broken::First)
}

// ------------------------------------------------------------------------------------------------
// Trees and what is asked about them
// ------------------------------------------------------------------------------------------------

/// A table of either version, the words that are held, and the states that a run starts from.
struct Tree {
    number: u64,
    question: Question,
    plans: Vec<Plan>,
    words: Vec<u32>,
    states: Vec<u8>,
}

impl Tree {
    fn new(dice: &mut Dice, number: u64, question: Question) -> Tree {
        let plans = cases::read_good_table(&question.table);
        let words = reference::read_words(&question.words);
        let states = if dice.percent(50) { vec![reference::INACTIVE; plans.len()] } else { cases::good_states(dice, &plans) };
        Tree { number, question, plans, words, states }
    }

    fn starts_inactive(&self) -> bool {
        self.states.iter().all(|&state| state == reference::INACTIVE)
    }

    /// The question how long a run can go on, which must be answered so.
    fn bound(&self, answer: u64, met: Vec<String>) -> Expected {
        (Ask { tree: self.number, sent: Sent::Bound(self.question.clone()), met }, answer, vec![])
    }

    fn run(&self, rule: u32, budget: usize) -> Call {
        let Question { table, words } = &self.question;
        cases::rest_of(rule, table.clone(), self.states.clone(), words.clone(), budget as u16)
    }
}

/// One call that is made for a tree, and what has been met once its answer was compared.
struct Ask {
    tree: u64,
    sent: Sent,
    met: Vec<String>,
}

enum Sent {
    Bound(Question),
    Run(Call),
}

/// A call, and what must be answered and left.
type Expected = (Ask, u64, Left);

impl talk::Call for Ask {
    fn request(&self) -> Vec<u8> {
        match &self.sent {
            Sent::Bound(question) => question.request(),
            Sent::Run(call) => call.request(),
        }
    }

    fn tell(&self) -> String {
        let what = match &self.sent {
            Sent::Bound(question) => question.tell(),
            Sent::Run(call) => call.tell(),
        };
        format!("tree {}\n{what}", self.tree)
    }
}

/// Makes tree after tree, each with so many calls. What is met is counted; `look` is shown each call and its answer.
fn compare_trees<const CALLS: usize>(
    options: &Options,
    ask_about: impl Fn(&mut Dice, u64) -> [Expected; CALLS],
    mut look: impl FnMut(&Ask, u64),
) -> Result<Lines, String> {
    let mut reached = Lines::default();
    let mut dice = Dice::new(options.seed);
    let mut calls = (1..).flat_map(|number| ask_about(&mut dice, number));
    let next = || calls.next().expect("there is always another tree");
    talk::compare(&options.each_takes(CALLS as u64), next, |asked| {
        asked.call.met.iter().for_each(|line| reached.count(line.clone()));
        look(&asked.call, asked.answer);
    })?;
    Ok(reached)
}

// ------------------------------------------------------------------------------------------------
// Trees that keep the premises
// ------------------------------------------------------------------------------------------------

/// "at most 6 times the number of plans" (02 (viii))
fn figure(n: usize) -> usize {
    6 * n
}

const SIZES: Sizes<5> = [("1", 1), ("2 to 12", 12), ("13 to 64", 64), ("65 to 255", 255), ("256", 256)];

fn size_of(n: usize) -> &'static str {
    SIZES[class(&SIZES, n as u64)].0
}

fn compare_kept(options: &Options) -> Result<(), String> {
    let mut longest: [Option<Rested>; SIZES.len()] = [None; SIZES.len()];
    let reached = compare_trees(options, ask_about_kept, |ask, answer| {
        if let Some(run) = Rested::of(ask, answer) {
            let longest = &mut longest[class(&SIZES, run.plans as u64)];
            if longest.map_or(true, |before| run.is_longer_than(&before)) {
                *longest = Some(run);
            }
        }
    })?;
    println!("longest runs of trees that keep both premises, by the number of plans");
    for Rested { tree, plans, steps } in longest.into_iter().flatten() {
        println!("  {:<10} {:.3} steps a plan: {steps} of {plans}, tree {tree}", size_of(plans), steps as f64 / plans as f64);
    }
    reached.are_right("trees that keep both premises", &wanted_of_kept(), || options.asks_for_all())
}

/// A run that rested, after how many steps of how many plans.
#[derive(Clone, Copy)]
struct Rested {
    tree: u64,
    plans: usize,
    steps: usize,
}

impl Rested {
    fn of(ask: &Ask, answer: u64) -> Option<Rested> {
        match &ask.sent {
            Sent::Run(call) if rests(answer) => Some(Rested { tree: ask.tree, plans: call.states.len(), steps: (answer >> 32) as usize }),
            _ => None,
        }
    }

    /// For the number of its plans.
    fn is_longer_than(&self, other: &Rested) -> bool {
        self.steps * other.plans > other.steps * self.plans
    }
}

/// Whether a run that is answered so has rested.
fn rests(answer: u64) -> bool {
    answer >> 16 & 0xFFFF != STILL_MOVING as u64
}

/// Mostly small, and few of those with many plans, whose runs are long.
fn plan_count(dice: &mut Dice) -> usize {
    match dice.below(1000) {
        0..=49 => 1,
        50..=879 => dice.between(2, 12),
        880..=969 => dice.between(13, 64),
        970..=989 => dice.between(65, 255),
        _ => reference::MOST_PLANS,
    }
}

/// The bound; by each rule a run with the figure as its budget, and one whose budget is a step too small, or 0 if it rests at once.
fn ask_about_kept(dice: &mut Dice, number: u64) -> [Expected; 5] {
    let n = plan_count(dice);
    let mood = cases::mood(dice);
    let question = if dice.percent(30) {
        bound_cases::question(dice, Broken::Neither, &mood, 0, |dice| cases::gentle_table_of_version_1(dice, n))
    } else {
        let by_coins = dice.one_of(&[0, 30, 100]);
        bound_cases::question(dice, Broken::Neither, &mood, by_coins, |dice| cases::good_table_of_version_1(dice, n))
    };
    let tree = Tree::new(dice, number, question);
    let path = path(&tree);
    let steps = path.len() - 1;
    let run = |rule: u32, budget: usize, met: Vec<String>| {
        let (answer, left) = at_end_of(&path, budget);
        (Ask { tree: number, sent: Sent::Run(tree.run(rule, budget)), met }, answer, left)
    };
    let whole = |rule: u32| run(rule, figure(n), met_in_run(&tree, rule, steps));
    let short = |rule: u32| run(rule, steps.saturating_sub(1), vec![]);
    let bound = tree.bound(answer(DONE, 0, figure(n)), met_in_tree(&tree, &path));
    [bound, whole(1), short(1), whole(2), short(2)]
}

/// The states after so many steps of a run, and the causes of the last of them.
struct After {
    states: Vec<u8>,
    causes: Vec<u8>,
}

/// From the first states to those at rest, or up to where the figure is passed: the same by both rules, since nobody retries.
fn path(tree: &Tree) -> Vec<After> {
    let Tree { plans, words, states, .. } = tree;
    let mut path = vec![After { states: states.clone(), causes: vec![reference::UNMOVED; states.len()] }];
    while path.len() <= figure(plans.len()) + 1 {
        let now = &path[path.len() - 1].states;
        let before = Before { rule: reference::Rule::New, plans, states: now, words };
        let next = reference::new_states(&before);
        if next == *now {
            break;
        }
        path.push(After { causes: reference::causes(&before), states: next });
    }
    path
}

/// What a run along this path answers and leaves.
fn at_end_of(path: &[After], budget: usize) -> (u64, Left) {
    let steps = path.len() - 1;
    let answer = if steps <= budget { answer(DONE, 0, steps) } else { answer(DONE, STILL_MOVING, budget) };
    let After { states, causes } = &path[steps.min(budget)];
    (answer, requests::left(states.clone(), causes.clone()))
}

const SUSPENDS: &str = "suspend of a plan holds";
const REACTIVATES: &str = "reactivate of a plan is present and holds";
const APART: &str = "suspend of one plan holds, and a present reactivate of another";
const PICKS: &str = "a pick is not 0";
const SIX_MOVES: &str = "a plan moves six times";
const STAYS_SUSPENDED: &str = "a plan that the run has suspended rests so";
const REACTIVATED: &str = "a plan is handed in Suspended, and reactivated";
/// Not wanted: RULES 14.6 says why there is none.
const COMES_BACK: &str = "a plan comes back to a state that it has left";
const OF_TREES: [&str; 7] = [SUSPENDS, REACTIVATES, APART, PICKS, SIX_MOVES, STAYS_SUSPENDED, REACTIVATED];

/// How many steps a run takes, beside the number of plans. More than five a plan are not wanted: RULES 14.8 says that none is known.
fn length_of(steps: usize, n: usize) -> &'static str {
    match (steps, steps / n) {
        (0, _) => LENGTHS[0],
        (_, whole @ 0..=4) => LENGTHS[whole + 1],
        _ if steps == 5 * n => LENGTHS[6],
        _ if steps <= figure(n) => "takes more than 5n",
        _ => "takes more than 6n",
    }
}

const LENGTHS: [&str; 7] =
    ["rests at once", "takes less than n", "takes n to 2n", "takes 2n to 3n", "takes 3n to 4n", "takes 4n to 5n", "takes 5n"];

fn in_tree(version: u8, what: &str) -> String {
    format!("version {version}, {what}")
}

fn by_rule(rule: u32, what: &str) -> String {
    format!("by rule {rule} a run {what}")
}

fn of_size(size: &str, length: &str) -> String {
    format!("of {size} plans a run {length}")
}

fn wanted_of_kept() -> Vec<String> {
    let mut wanted: Vec<String> = OF_TREES.map(String::from).to_vec();
    for version in [1, 2] {
        wanted.extend((reference::LEAF..=reference::IF_THEN_ELSE).map(|body| in_tree(version, &format!("body {body}"))));
        wanted.extend(SIZES.map(|(size, _)| in_tree(version, &format!("{size} plans"))));
    }
    for (rule, _) in cases::RULES {
        wanted.extend(STARTS.iter().chain(&LENGTHS).map(|what| by_rule(rule, what)));
    }
    wanted.extend(SIZES.map(|(size, _)| of_size(size, LENGTHS[6])));
    wanted
}

const STARTS: [&str; 2] = ["starts with all plans Inactive", "starts from other states"];

fn start_of(tree: &Tree) -> &'static str {
    STARTS[usize::from(!tree.starts_inactive())]
}

fn met_in_run(tree: &Tree, rule: u32, steps: usize) -> Vec<String> {
    let n = tree.plans.len();
    let length = length_of(steps, n);
    let mut met = vec![by_rule(rule, start_of(tree)), by_rule(rule, length)];
    if length == LENGTHS[6] {
        met.push(of_size(size_of(n), length));
    }
    met
}

/// Of a tree that moves at all.
fn met_in_tree(tree: &Tree, path: &[After]) -> Vec<String> {
    if path.len() == 1 {
        return vec![];
    }
    let (plans, words) = (&tree.plans, &tree.words);
    let holding = |condition: u32| -> Vec<usize> {
        let is_so = |&p: &usize| plans[p].present >> condition & 1 == 1 && reference::condition_holds(&plans[p], words[p], condition);
        (0..plans.len()).filter(is_so).collect()
    };
    let (suspends, reactivates) = (holding(reference::SUSPEND), holding(reference::REACTIVATE));
    let ways: Vec<Vec<u8>> = (0..plans.len()).map(|p| way_of(path, p)).collect();
    let some_way = |is_so: &dyn Fn(&[u8]) -> bool| ways.iter().any(|way| is_so(way));
    let mut met = chosen(&[
        (!suspends.is_empty(), SUSPENDS),
        (!reactivates.is_empty(), REACTIVATES),
        // they are never those of one plan
        (!suspends.is_empty() && !reactivates.is_empty(), APART),
        (words.iter().any(|&word| reference::pick_of(word) != 0), PICKS),
        (some_way(&|way| way.len() == 7), SIX_MOVES),
        (some_way(&|way| way.len() > 1 && way.ends_with(&[reference::SUSPENDED])), STAYS_SUSPENDED),
        (some_way(&|way| way.starts_with(&[reference::SUSPENDED, reference::ACTIVATED])), REACTIVATED),
        (some_way(&|way| (1..way.len()).any(|k| way[..k].contains(&way[k]))), COMES_BACK),
    ]);
    let version = version_of(&tree.question.table);
    met.push(in_tree(version, &format!("{} plans", size_of(plans.len()))));
    met.extend(bodies(plans).into_iter().map(|body| in_tree(version, &format!("body {body}"))));
    met
}

/// The states of a plan along a path, each as often as it comes to it.
fn way_of(path: &[After], p: usize) -> Vec<u8> {
    let mut way: Vec<u8> = path.iter().map(|after| after.states[p]).collect();
    way.dedup();
    way
}

fn bodies(plans: &[Plan]) -> Vec<u8> {
    (reference::LEAF..=reference::IF_THEN_ELSE).filter(|&body| plans.iter().any(|plan| plan.body == body)).collect()
}

// ------------------------------------------------------------------------------------------------
// Trees that break one premise
// ------------------------------------------------------------------------------------------------

/// "a 16-bit budget, 0 to 65,535 steps"
const LARGEST_BUDGET: usize = 65_535;
/// Trees whose runs mostly go on to the end of the budget are small, or the child would take long.
const FEW_PLANS: [usize; 6] = [1, 2, 2, 3, 3, 4];

fn compare_broken(options: &Options, broken: Broken) -> Result<(), String> {
    let reached = compare_trees(options, |dice, number| ask_about_broken(dice, number, broken), |_, _| {})?;
    let name = if broken == Broken::First { "trees in which a plan retries" } else { "trees in which suspend and reactivate both hold" };
    for (rule, _) in cases::RULES {
        let [rest, go_on] = ENDS.map(|end| reached.times(&by_rule(rule, end)));
        println!("{name}: by rule {rule} {rest} runs rest, and {go_on} go on for ever");
    }
    reached.are_right(name, &wanted_of_broken(broken), || options.asks_for_all())
}

/// The bound, and a run with the largest budget. Half of the trees are such that many plans are aborted, and few complete.
fn ask_about_broken(dice: &mut Dice, number: u64, broken: Broken) -> [Expected; 2] {
    let (mood, draw): (_, fn(&mut Dice, usize) -> Vec<u8>) = if dice.percent(50) {
        (cases::aborting_mood(), cases::losing_table_of_version_1)
    } else {
        (cases::mood(dice), cases::good_table_of_version_1)
    };
    let question = bound_cases::question(dice, broken, &mood, 50, |dice| {
        let n = dice.one_of(&FEW_PLANS);
        draw(dice, n)
    });
    let tree = Tree::new(dice, number, question);
    let (rule, _) = cases::any_rule(dice);
    let call = tree.run(rule, LARGEST_BUDGET);
    let (at_end, states, causes) = call.ask_reference();
    let met = met_in_broken(&tree, rule, at_end);
    let run = (Ask { tree: number, sent: Sent::Run(call), met }, at_end, requests::left(states, causes));
    [tree.bound(answer(DONE, NO_FIGURE, 0), vec![]), run]
}

const ENDS: [&str; 2] = ["rests", "goes on for ever"];

fn in_version(version: u8, end: &str) -> String {
    format!("in version {version} a run {end}")
}

fn for_ever(how: &str) -> String {
    format!("a run that {} {how}", ENDS[1])
}

/// The plans that break a premise are of these bodies: a leaf never retries, and neither does a body for two.
fn breaking_bodies(broken: Broken) -> std::ops::RangeInclusive<u8> {
    if broken == Broken::First {
        reference::SEQUENTIAL..=reference::UNORDERED
    } else {
        reference::LEAF..=reference::IF_THEN_ELSE
    }
}

fn by_a_plan(body: u8) -> String {
    for_ever(&format!("where only a plan of body {body} breaks the premise"))
}

fn wanted_of_broken(broken: Broken) -> Vec<String> {
    let mut wanted = Vec::new();
    for (rule, _) in cases::RULES {
        wanted.extend(ENDS.map(|end| by_rule(rule, end)));
    }
    wanted.extend([1, 2].into_iter().flat_map(|version| ENDS.map(|end| in_version(version, end))));
    wanted.extend(STARTS.map(for_ever));
    wanted.extend(breaking_bodies(broken).map(by_a_plan));
    wanted
}

fn met_in_broken(tree: &Tree, rule: u32, answer: u64) -> Vec<String> {
    let goes_on = !rests(answer);
    let end = ENDS[usize::from(goes_on)];
    let version = version_of(&tree.question.table);
    let mut met = vec![by_rule(rule, end), in_version(version, end)];
    if goes_on {
        met.push(for_ever(start_of(tree)));
        let breaks = |p: &usize| tree.plans[*p].retries_aborted() || reference::holds_both(&tree.plans[*p], tree.words[*p]);
        let breaking: Vec<usize> = (0..tree.plans.len()).filter(breaks).collect();
        if let [p] = breaking[..] {
            met.push(by_a_plan(tree.plans[p].body));
        }
    }
    met
}
