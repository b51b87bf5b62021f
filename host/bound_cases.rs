//! Random questions how long a run can go on: tables of both versions and held words that keep both premises, that break one of them or
//! both, by one plan or by several; and spoiled ones.

use crate::cases::{self, Mood};
use crate::dice::Dice;
use crate::formula_cases::{self, ALL_MANNERS};
use crate::reference::{self, Plan};

/// One question as it is sent to both implementations.
#[derive(Clone)]
pub struct Question {
    pub table: Vec<u8>,
    pub words: Vec<u8>,
}

/// Which of the premises fail.
#[derive(Clone, Copy, PartialEq)]
pub enum Broken {
    Neither,
    /// A plan has retry-aborted.
    First,
    /// A plan has suspend and reactivate both holding.
    Second,
    Both,
}

impl Broken {
    fn has_first(self) -> bool {
        matches!(self, Broken::First | Broken::Both)
    }

    fn has_second(self) -> bool {
        matches!(self, Broken::Second | Broken::Both)
    }
}

/// Of any size; of most plans suspend and reactivate stand as coins fall.
pub fn next_question(dice: &mut Dice) -> Question {
    let broken = dice.one_of(&[Broken::Neither, Broken::Neither, Broken::First, Broken::Second, Broken::Second, Broken::Both]);
    let any_table = |dice: &mut Dice| {
        let n = cases::plan_count(dice);
        cases::good_table_of_version_1(dice, n)
    };
    let mood = cases::mood(dice);
    let mut question = question(dice, broken, &mood, 90, any_table);
    match dice.below(100) {
        0..=12 => spoil_table(dice, &mut question),
        13..=34 => spoil_words(dice, &mut question),
        35..=38 => cases::spoil_slice_length(dice, &mut question.words),
        39..=42 => {
            spoil_words(dice, &mut question);
            spoil_table(dice, &mut question);
        }
        _ => {}
    }
    question
}

// ------------------------------------------------------------------------------------------------
// Premises
// ------------------------------------------------------------------------------------------------

/// On a table of version 1 that is drawn until it can be so, or one of version 2 with the same plans: just these premises fail. Of so many
/// plans in a hundred suspend and reactivate stand as coins fall; of the others as the table and the mood have it, if that is as wished.
pub fn question(dice: &mut Dice, broken: Broken, mood: &Mood, by_coins: usize, draw: impl Fn(&mut Dice) -> Vec<u8>) -> Question {
    let (mut table, mut plans) = loop {
        let table = draw(dice);
        let plans = cases::read_good_table(&table);
        if !broken.has_first() || plans.iter().any(may_retry) {
            break (table, plans);
        }
    };
    let mut words = cases::good_words(dice, &plans, mood);
    set_retries(dice, &mut plans, broken.has_first());
    set_both(dice, &mut plans, &mut words, broken.has_second(), by_coins);
    write_plans(&mut table, &plans);
    Question { table: cases::in_either_version(dice, table, &ALL_MANNERS), words: cases::bytes_of_words(&words) }
}

/// A leaf never retries, and neither does a body for two.
fn may_retry(plan: &Plan) -> bool {
    plan.body != reference::LEAF && !reference::is_for_two(plan.body)
}

fn set_retries(dice: &mut Dice, plans: &mut [Plan], some_do: bool) {
    let able: Vec<bool> = plans.iter().map(may_retry).collect();
    let retries = some_of(dice, &able, some_do);
    for (plan, retries) in plans.iter_mut().zip(retries) {
        set_bit(&mut plan.flags, reference::RETRY_ABORTED, retries);
    }
}

fn set_both(dice: &mut Dice, plans: &mut [Plan], words: &mut [u32], some_do: bool, by_coins: usize) {
    let able = vec![true; plans.len()];
    let hold_both = some_of(dice, &able, some_do);
    for ((plan, word), both) in plans.iter_mut().zip(words).zip(hold_both) {
        if dice.percent(by_coins) {
            toss_both(dice, plan, word);
        }
        while reference::holds_both(plan, *word) != both {
            toss_both(dice, plan, word);
        }
    }
}

/// None of those that are able, or mostly one, at times several.
fn some_of(dice: &mut Dice, able: &[bool], some_are: bool) -> Vec<bool> {
    let places: Vec<usize> = (0..able.len()).filter(|&p| able[p]).collect();
    let mut chosen = vec![false; able.len()];
    if some_are {
        // the first and the last of them as often as all others together
        let any = dice.one_of(&places);
        chosen[dice.one_of(&[places[0], any, any, places[places.len() - 1]])] = true;
        let more = dice.one_of(&[0, 0, 0, 30]);
        places.iter().filter(|_| dice.percent(more)).for_each(|&p| chosen[p] = true);
    }
    chosen
}

fn toss_both(dice: &mut Dice, plan: &mut Plan, word: &mut u32) {
    for condition in [reference::SUSPEND, reference::REACTIVATE] {
        toss_condition(dice, plan, word, condition);
    }
}

/// Each bit as a coin falls, but that an absent condition is neither manual nor overridable.
fn toss_condition(dice: &mut Dice, plan: &mut Plan, word: &mut u32, condition: u32) {
    let present = dice.percent(50);
    set_bit(&mut plan.present, condition, present);
    set_bit(&mut plan.manual, condition, present && dice.percent(50));
    set_bit(&mut plan.overridable, condition, present && dice.percent(50));
    // satisfied, triggered, overridden
    for first in [0, 8, 14] {
        let bit = 1 << (first + condition);
        *word = if dice.percent(50) { *word | bit } else { *word & !bit };
    }
}

fn set_bit(byte: &mut u8, number: u32, to: bool) {
    *byte = *byte & !(1 << number) | u8::from(to) << number;
}

/// The flags and conditions of all plans, into the table that they were read from.
fn write_plans(table: &mut [u8], plans: &[Plan]) {
    for (entry, plan) in table[reference::HEADER_BYTES..].chunks_exact_mut(reference::PLAN_BYTES).zip(plans) {
        entry[3..7].copy_from_slice(&[plan.flags, plan.present, plan.manual, plan.overridable]);
    }
}

// ------------------------------------------------------------------------------------------------
// Spoiling
// ------------------------------------------------------------------------------------------------

/// Spoils the table in one place or in several; at times the words are none at all besides.
fn spoil_table(dice: &mut Dice, question: &mut Question) {
    match dice.below(10) {
        0 => formula_cases::spoil_for_9(dice, &mut question.table),
        1 | 2 => formula_cases::spoil_for_22(dice, &mut question.table),
        _ => cases::spoil_in_places(dice, &mut question.table),
    }
    if dice.percent(20) {
        question.words.clear();
    }
}

/// Spoils the words of a good table in one place or in two; at times that of an if-then-else, since there are few of these.
fn spoil_words(dice: &mut Dice, question: &mut Question) {
    let plans = cases::read_good_table(&question.table);
    let ifs: Vec<usize> = (0..plans.len()).filter(|&p| plans[p].body == reference::IF_THEN_ELSE).collect();
    if !ifs.is_empty() && dice.percent(30) {
        // bits 20 and 21: satisfied, and not satisfiable
        let byte = &mut question.words[4 * dice.one_of(&ifs) + 2];
        *byte = *byte & !(1 << 5) | 1 << 4;
        return;
    }
    for _ in 0..dice.between(1, 2) {
        cases::spoil_words(dice, &mut question.words, &plans);
    }
}
