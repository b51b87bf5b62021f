//! What a comparison of the questions how long a run can go on must meet: each number, both answers, and what decided between these.

use crate::bound_cases::Question;
use crate::formula_cases;
use crate::reference::{self, Plan};
use crate::tally::{chosen, Lines};

const LENGTH: u64 = 10;
const WORD: u64 = 12;
/// Refusals before a version is known, and those of a table of a version; one of them is of nodes, which version 1 does not have.
const OF_HEADER: [u64; 3] = [1, 2, 3];
const OF_TABLE: [u64; 7] = [4, 5, 6, 7, 8, FORMULA, 9];
const FORMULA: u64 = 22;
/// Numbers that stand though a premise fails as well, of a call whose plans are known.
const BESIDE_A_RETRY: [u64; 4] = [FORMULA, 9, LENGTH, WORD];

const TOO_FEW: &str = "10: some bytes too few";
const A_WORD_TOO_FEW: &str = "10: a word too few";
const TOO_MANY: &str = "10: some bytes too many";
const A_WORD_TOO_MANY: &str = "10: a word too many";
const TWICE: &str = "10: twice as many bytes";
const LENGTHS: [&str; 5] = [TOO_FEW, A_WORD_TOO_FEW, TOO_MANY, A_WORD_TOO_MANY, TWICE];

const UNUSED: &str = "12: only an unused bit";
const HIGH_PICK: &str = "12: only a pick that is too high, of an any-order plan";
const OTHER_PICK: &str = "12: only a pick of another plan";
const FILTER: &str = "12: only a filter that is satisfied and not satisfiable";
const SETUP: &str = "12: only a setup that is satisfied and not satisfiable";
const IF: &str = "12: only an if-then-else that is satisfied and not satisfiable";
const OTHER_IF: &str = "12: only bits of an if-then-else, of another plan";
const FIRST_WORD: &str = "12: the first of several words";
const LAST_WORD: &str = "12: the last of several words";
const SEVERAL_WORDS: &str = "12: a later word is wrong too";
const WRONG_AND_BOTH_HOLD: &str = "12: and of a plan suspend and reactivate both hold";
const WORDS: [&str; 11] = [
    UNUSED, HIGH_PICK, OTHER_PICK, FILTER, SETUP, IF, OTHER_IF, FIRST_WORD, LAST_WORD, SEVERAL_WORDS, WRONG_AND_BOTH_HOLD,
];

const FIGURE_OF_1: &str = "a figure: of one plan";
const FIGURE_OF_256: &str = "a figure: of 256 plans";
const CHILD_SUSPENDS: &str = "a figure: suspend of a plan holds, and reactivate of its parent";
const PARENT_SUSPENDS: &str = "a figure: reactivate of a plan holds, and suspend of its parent";
const NONE_OF_1: &str = "no figure: of one plan";
const NONE_OF_256: &str = "no figure: of 256 plans";
const FIRST_HOLDS: &str = "no figure: both hold of the first of several plans only";
const LAST_HOLDS: &str = "no figure: both hold of the last of several plans only";
const SEVERAL_HOLD: &str = "no figure: both hold of several plans, and nobody retries";
const FIRST_RETRIES: &str = "no figure: the first plan retries, and no other";
const LAST_RETRIES: &str = "no figure: the last plan with children retries, which is not the first, and no other";
const SEVERAL_RETRY: &str = "no figure: several plans retry, and of none both hold";
const BOTH_FAIL: &str = "no figure: neither premise holds";
const ANSWERS: [&str; 13] = [
    FIGURE_OF_1, FIGURE_OF_256, CHILD_SUSPENDS, PARENT_SUSPENDS, NONE_OF_1, NONE_OF_256, FIRST_HOLDS, LAST_HOLDS, SEVERAL_HOLD,
    FIRST_RETRIES, LAST_RETRIES, SEVERAL_RETRY, BOTH_FAIL,
];

/// Ways in which a condition holds, fails, and is absent.
const HOLDS: [&str; 3] = ["is satisfied", "is satisfied and triggered", "is overridden"];
const FAILS: [&str; 3] = ["is not satisfied", "is satisfied and not triggered", "is overridden, which it cannot be"];
const ABSENT: [&str; 2] = ["is absent", "is absent, though its pattern is satisfied"];

fn answered(number: u64) -> String {
    format!("answered {number}")
}

fn without_words(number: u64) -> String {
    format!("{number}: and there are no words")
}

fn beside_a_retry(number: u64) -> String {
    format!("{number}: and a plan retries")
}

fn in_version(version: u8, line: &str) -> String {
    format!("version {version}, {line}")
}

/// Of a plan by which alone there is no figure, or of any plan beside others where there is one.
fn ways(figure: bool, suspend: &str, reactivate: &str) -> String {
    format!("{}: suspend {suspend}, reactivate {reactivate}", if figure { "a figure" } else { "no figure" })
}

fn only_retries(body: u8) -> String {
    format!("no figure: only a plan of body {body} retries")
}

pub fn wanted() -> Vec<String> {
    let mut wanted: Vec<String> = OF_HEADER.map(answered).to_vec();
    wanted.extend(OF_HEADER.into_iter().chain(OF_TABLE).chain([LENGTH]).map(without_words));
    wanted.extend(BESIDE_A_RETRY.map(beside_a_retry));
    wanted.extend([&LENGTHS[..], &WORDS, &ANSWERS].concat().into_iter().map(String::from));
    wanted.extend([1, 2].into_iter().flat_map(|version| wanted_in(version).into_iter().map(move |line| in_version(version, &line))));
    wanted
}

fn wanted_in(version: u8) -> Vec<String> {
    let of_table = OF_TABLE.into_iter().filter(|&number| version == 2 || number != FORMULA);
    let mut wanted: Vec<String> = of_table.chain([LENGTH, WORD]).map(answered).collect();
    for suspend in [&HOLDS[..], &FAILS, &ABSENT].concat() {
        for reactivate in [&HOLDS[..], &FAILS, &ABSENT].concat() {
            let both_hold = HOLDS.contains(&suspend) && !FAILS.contains(&reactivate);
            wanted.push(ways(!both_hold, suspend, reactivate));
        }
    }
    wanted.extend([reference::SEQUENTIAL, reference::PARALLEL, reference::ANY_ORDER, reference::UNORDERED].map(only_retries));
    wanted
}

/// What is met in a question and its answer.
pub fn count(lines: &mut Lines, question: &Question, answer: u64) {
    let (number, plan) = (answer & 0xFFFF, (answer >> 16 & 0xFFFF) as usize);
    let mut met = Vec::new();
    if number != reference::DONE && number != WORD && question.words.is_empty() {
        met.push(without_words(number));
    }
    if BESIDE_A_RETRY.contains(&number) && some_entry_retries(&question.table) {
        met.push(beside_a_retry(number));
    }
    let mut of_version = if number == reference::DONE { vec![] } else { vec![answered(number)] };
    if let Ok(plans) = reference::read_table(&question.table) {
        let words = reference::read_words(&question.words);
        match number {
            LENGTH => met.extend(chosen(&why_10(plans.len(), question.words.len()))),
            WORD => met.extend(chosen(&why_12(&plans, &words, plan))),
            _ => {
                met.extend(chosen(&why_a_figure_or_none(&plans, &words)));
                of_version.extend(what_decides(&plans, &words, plan != reference::NO_FIGURE));
            }
        }
    }
    if OF_HEADER.contains(&number) {
        met.extend(of_version);
    } else {
        let version = formula_cases::version_of(&question.table);
        met.extend(of_version.iter().map(|line| in_version(version, line)));
    }
    met.into_iter().for_each(|line| lines.count(line));
}

/// Of a table whose plans are all there.
fn some_entry_retries(table: &[u8]) -> bool {
    let n = reference::number_of_16_bits(table, 5);
    let mut entries = table[reference::HEADER_BYTES..].chunks_exact(reference::PLAN_BYTES).take(n);
    entries.any(|entry| entry[3] >> reference::RETRY_ABORTED & 1 == 1)
}

fn why_10(n: usize, length: usize) -> [(bool, &'static str); 5] {
    let needed = 4 * n;
    [
        (length < needed && needed - length < 4, TOO_FEW),
        (length + 4 == needed, A_WORD_TOO_FEW),
        (length > needed && length - needed < 4, TOO_MANY),
        (length == needed + 4 && n > 1, A_WORD_TOO_MANY),
        (length == 2 * needed && n > 1, TWICE),
    ]
}

fn why_12(plans: &[Plan], words: &[u32], p: usize) -> [(bool, &'static str); 11] {
    let (plan, word) = (&plans[p], words[p]);
    let is_set = |bit: u32| word >> bit & 1 == 1;
    let (is_any_order, is_if) = (plan.body == reference::ANY_ORDER, plan.body == reference::IF_THEN_ELSE);
    let pick = reference::pick_of(word);
    let reasons = [
        [22, 23, 30, 31].into_iter().any(is_set),
        is_any_order && pick >= plan.children.len(),
        !is_any_order && pick != 0,
        is_set(0) && !is_set(6),
        is_set(1) && !is_set(7),
        is_if && is_set(20) && !is_set(21),
        !is_if && (is_set(20) || is_set(21)),
    ];
    let only = |reason: usize| reasons[reason] && reasons.iter().filter(|&&is_so| is_so).count() == 1;
    let is_last = p + 1 == plans.len();
    [
        (only(0), UNUSED),
        (only(1), HIGH_PICK),
        (only(2), OTHER_PICK),
        (only(3), FILTER),
        (only(4), SETUP),
        (only(5), IF),
        (only(6), OTHER_IF),
        (p == 0 && !is_last, FIRST_WORD),
        (p > 0 && is_last, LAST_WORD),
        ((p + 1..plans.len()).any(|later| reference::word_is_wrong(&plans[later], words[later])), SEVERAL_WORDS),
        (!holding_both(plans, words).is_empty(), WRONG_AND_BOTH_HOLD),
    ]
}

fn holding_both(plans: &[Plan], words: &[u32]) -> Vec<usize> {
    (0..plans.len()).filter(|&p| reference::holds_both(&plans[p], words[p])).collect()
}

fn retrying(plans: &[Plan]) -> Vec<usize> {
    (0..plans.len()).filter(|&p| plans[p].retries_aborted()).collect()
}

fn why_a_figure_or_none(plans: &[Plan], words: &[u32]) -> [(bool, &'static str); 13] {
    let (both, retrying, n) = (holding_both(plans, words), retrying(plans), plans.len());
    let figure = both.is_empty() && retrying.is_empty();
    let (only_both, only_retry) = (retrying.is_empty() && !both.is_empty(), both.is_empty() && !retrying.is_empty());
    let last_parent = (0..n).rev().find(|&p| !plans[p].children.is_empty()).unwrap_or(0);
    let holds = |p: usize, condition: u32| reference::condition_holds(&plans[p], words[p], condition);
    let with_parent = |of_child: u32, of_parent: u32| {
        (1..n).any(|p| holds(p, of_child) && plans[p].parent.is_some_and(|parent| holds(parent, of_parent)))
    };
    [
        (figure && n == 1, FIGURE_OF_1),
        (figure && n == reference::MOST_PLANS, FIGURE_OF_256),
        (figure && with_parent(reference::SUSPEND, reference::REACTIVATE), CHILD_SUSPENDS),
        (figure && with_parent(reference::REACTIVATE, reference::SUSPEND), PARENT_SUSPENDS),
        (!figure && n == 1, NONE_OF_1),
        (!figure && n == reference::MOST_PLANS, NONE_OF_256),
        (only_both && both == [0] && n > 1, FIRST_HOLDS),
        (only_both && both == [n - 1] && n > 1, LAST_HOLDS),
        (only_both && both.len() > 1, SEVERAL_HOLD),
        (only_retry && retrying == [0], FIRST_RETRIES),
        (only_retry && retrying == [last_parent] && last_parent > 0, LAST_RETRIES),
        (only_retry && retrying.len() > 1, SEVERAL_RETRY),
        (!both.is_empty() && !retrying.is_empty(), BOTH_FAIL),
    ]
}

/// Where there is a figure, how the conditions of each plan stand; where one plan alone breaks one premise, how it does.
fn what_decides(plans: &[Plan], words: &[u32], figure: bool) -> Vec<String> {
    let of_plan = |p: usize| {
        let way = |condition: u32| way(&plans[p], words[p], condition);
        ways(figure, way(reference::SUSPEND), way(reference::REACTIVATE))
    };
    match (figure, &holding_both(plans, words)[..], &retrying(plans)[..]) {
        (true, _, _) => (0..plans.len()).map(of_plan).collect(),
        (false, [p], []) => vec![of_plan(*p)],
        (false, [], [p]) => vec![only_retries(plans[*p].body)],
        _ => vec![],
    }
}

/// In which of the ways above a condition stands.
fn way(plan: &Plan, word: u32, condition: u32) -> &'static str {
    let of_plan = |byte: u8| byte >> condition & 1 == 1;
    let of_word = |first: u32| word >> (first + condition) & 1 == 1;
    let (satisfied, triggered, overridden) = (of_word(0), of_word(8), of_word(14));
    if !of_plan(plan.present) {
        ABSENT[usize::from(satisfied)]
    } else if satisfied && !of_plan(plan.manual) {
        HOLDS[0]
    } else if satisfied && triggered {
        HOLDS[1]
    } else if overridden && of_plan(plan.overridable) {
        HOLDS[2]
    } else if satisfied {
        FAILS[1]
    } else {
        FAILS[if overridden { 2 } else { 0 }]
    }
}
