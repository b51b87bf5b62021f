//! Random calls of asbru_pattern, asbru_normalise and asbru_with_pattern for held.rs.
//!
//! A history is made first, with small or large gaps, at times pushed to an end of the range; then an interval that it holds, or that could
//! still come, and bounds close around it, so that each bound comes to decide. One in four inputs is spoiled. All choices come from one
//! seeded `Dice`, so a seed and a call's number name a call for good.

use crate::dice::Dice;
use crate::held_reference::{self as reference, Interval, History, Sample, LEAST, MOST_MINUTES, MOST_SAMPLES, NUMBERS, OPEN, REFERENCE};

/// One call as it is sent to both implementations.
pub enum Call {
    Pattern { numbers: [i64; NUMBERS], samples: Vec<i64>, asked: i64 },
    Normalise { numbers: [i64; NUMBERS] },
    WithPattern { word: u32, condition: u32, answer: u64 },
}

impl Call {
    /// The reference's answer, and the bytes of the annotation that it leaves.
    pub fn ask_reference(&self) -> (u64, Vec<u8>) {
        match self {
            Call::Pattern { numbers, samples, asked } => (reference::pattern(numbers, samples, *asked), bytes(numbers)),
            Call::Normalise { numbers } => {
                let mut left = *numbers;
                (reference::normalise(&mut left), bytes(&left))
            }
            Call::WithPattern { word, condition, answer } => (reference::with_pattern(*word, *condition, *answer).into(), Vec::new()),
        }
    }
}

pub fn bytes(numbers: &[i64]) -> Vec<u8> {
    numbers.iter().flat_map(|number| number.to_le_bytes()).collect()
}

pub fn next_call(dice: &mut Dice) -> Call {
    match dice.below(10) {
        0..=6 => next_pattern(dice),
        7..=8 => next_normalise(dice),
        _ => next_word(dice),
    }
}

// ------------------------------------------------------------------------------------------------
// Numbers
// ------------------------------------------------------------------------------------------------

/// A number from `low` to `high`, both included.
fn between(dice: &mut Dice, low: i64, high: i64) -> i64 {
    low + dice.below((high - low) as usize + 1) as i64
}

fn into_range(minute: i64) -> i64 {
    minute.clamp(-MOST_MINUTES, MOST_MINUTES)
}

/// Numbers that a wrong comparison or a narrow type would take for others.
const WRONG: [i64; 8] =
    [-MOST_MINUTES - 1, MOST_MINUTES + 1, OPEN, OPEN + 1, i64::MAX, 1 << 32, -(1 << 32), i64::MAX - MOST_MINUTES];

fn wrong_number(dice: &mut Dice) -> i64 {
    match dice.below(WRONG.len() + 6) {
        0 => (dice.roll() as i64) | 1 << 40,
        1..=3 => -MOST_MINUTES - 1,
        4..=5 => MOST_MINUTES + 1,
        at => WRONG[at - 6],
    }
}

/// Samples just out of range at either end, true and false, and far out of it.
const WRONG_SAMPLES: [i64; 9] = [
    -2 * MOST_MINUTES - 1,
    -2 * MOST_MINUTES - 2,
    2 * MOST_MINUTES + 2,
    2 * MOST_MINUTES + 3,
    OPEN,
    OPEN + 1,
    i64::MAX,
    i64::MAX - 1,
    1 << 33,
];

/// Numbers at which an annotation reaches the ends of the range.
const EDGES: [i64; 10] = [
    OPEN,
    -MOST_MINUTES,
    -MOST_MINUTES + 1,
    -MOST_MINUTES / 2,
    -1,
    0,
    1,
    MOST_MINUTES / 2,
    MOST_MINUTES - 1,
    MOST_MINUTES,
];

fn edge_numbers(dice: &mut Dice) -> [i64; NUMBERS] {
    let mut numbers = [OPEN; NUMBERS];
    // open half the time, or hardly any interval would be admitted
    for number in &mut numbers {
        *number = if dice.percent(50) { OPEN } else { dice.one_of(&EDGES) };
    }
    numbers[LEAST] = dice.one_of(&EDGES).max(0);
    numbers[REFERENCE] = into_range(dice.one_of(&EDGES));
    numbers
}

// ------------------------------------------------------------------------------------------------
// Annotations
// ------------------------------------------------------------------------------------------------

/// Bounds around an interval: a bound is open, just kept, or kept with room; seldom just missed.
fn numbers_around(dice: &mut Dice, aim: Interval, spread: i64) -> [i64; NUMBERS] {
    let reference = match dice.below(4) {
        0 => aim.first,
        1 => aim.last + between(dice, 0, spread),
        2 => aim.first + between(dice, -spread, spread),
        _ => between(dice, -MOST_MINUTES, MOST_MINUTES),
    };
    let reference = into_range(reference);
    let open = dice.one_of(&[20, 50, 80]);
    let mut bound = |at: i64, outwards: i64| {
        let room = match dice.below(20) {
            0..=8 => 0,
            9..=11 => 1,
            12..=16 => between(dice, 0, spread),
            17..=18 => -1,
            _ => -between(dice, 0, spread),
        };
        (!dice.percent(open)).then_some(into_range(at + outwards * room))
    };
    let (first, last, length) = (aim.first - reference, aim.last - reference, aim.last - aim.first);
    let shifts = [bound(first, -1), bound(first, 1), bound(last, -1), bound(last, 1)].map(|shift| shift.unwrap_or(OPEN));
    let (least, greatest) = (bound(length, -1).unwrap_or(0).max(0), bound(length, 1).unwrap_or(OPEN));
    [shifts[0], shifts[1], shifts[2], shifts[3], least, greatest, reference]
}

/// Puts a number that is out of range at some place.
fn spoil_a_number(dice: &mut Dice, numbers: &mut [i64; NUMBERS]) {
    let place = dice.below(NUMBERS);
    numbers[place] = if place == LEAST && dice.percent(30) { -between(dice, 1, 3) } else { wrong_number(dice) };
}

fn next_normalise(dice: &mut Dice) -> Call {
    let spread = dice.one_of(&[3, 30, MOST_MINUTES]);
    let any = between(dice, -spread, spread);
    let first = dice.one_of(&[0, any, -MOST_MINUTES, MOST_MINUTES]);
    let aim = Interval { first, last: first + between(dice, 0, spread) };
    let mut numbers = if dice.percent(40) { edge_numbers(dice) } else { numbers_around(dice, aim, spread) };
    if dice.percent(15) {
        spoil_a_number(dice, &mut numbers);
    }
    Call::Normalise { numbers }
}

// ------------------------------------------------------------------------------------------------
// Histories
// ------------------------------------------------------------------------------------------------

/// A history with gaps up to `spread`. Where the range does not hold it, it is cut or starts at the range's end.
fn next_history(dice: &mut Dice, spread: i64) -> History {
    let count = match dice.below(100) {
        0..=7 => 0,
        8..=19 => 1,
        20..=69 => between(dice, 2, 6),
        70..=96 => between(dice, 7, 40),
        97..=98 => MOST_SAMPLES as i64,
        _ => between(dice, 900, MOST_SAMPLES as i64),
    };
    let gap = spread.min(MOST_MINUTES / (count + 1));
    let chance = dice.one_of(&[30, 50, 70, 90]);
    let mut minute = match dice.below(8) {
        0 => -MOST_MINUTES,
        1 => between(dice, -MOST_MINUTES, 0),
        _ => between(dice, -spread, 0),
    };
    let mut samples: Vec<Sample> = Vec::new();
    for _ in 0..count {
        samples.push(Sample { minute, truth: dice.percent(chance) });
        minute += between(dice, 1, gap);
    }
    let last = samples.last().map_or(minute, |sample| sample.minute);
    let any = between(dice, 0, gap);
    let asked = last + dice.one_of(&[0, 0, 1, any]);
    // pushed so that it is asked at the end of the range
    let by = if dice.percent(8) { MOST_MINUTES - asked } else { 0 };
    let samples = samples.into_iter().map(|sample| Sample { minute: sample.minute + by, ..sample }).collect();
    History { samples, asked: asked + by }
}

/// An interval that the history holds, or that could still come.
fn next_aim(dice: &mut Dice, history: &History, spread: i64) -> Interval {
    let runs = reference::runs(history);
    let asked = history.asked;
    let mut aim = match (runs.last(), dice.below(8)) {
        (Some(_), 0..=4) => dice.one_of(&runs),
        // the last run, going on or ended
        (Some(last), 5) => Interval { first: last.first, last: asked + between(dice, 0, spread) },
        _ => {
            let first = asked + between(dice, 0, 3);
            Interval { first, last: first + between(dice, 0, spread) }
        }
    };
    // at times from within it, at times not to its end
    if dice.percent(25) {
        aim.first = between(dice, aim.first, aim.last);
    }
    if dice.percent(25) {
        aim.last = between(dice, aim.first, aim.last);
    }
    aim
}

fn next_pattern(dice: &mut Dice) -> Call {
    let spread = dice.one_of(&[2, 5, 40, MOST_MINUTES]);
    let history = next_history(dice, spread);
    let aim = next_aim(dice, &history, spread);
    let mut numbers = if dice.percent(10) { edge_numbers(dice) } else { numbers_around(dice, aim, spread) };
    let mut samples: Vec<i64> = history.samples.iter().map(|sample| 2 * sample.minute + i64::from(sample.truth)).collect();
    let mut asked = history.asked;
    if dice.percent(25) {
        // at times twice, so that the order of refusals shows
        for _ in 0..dice.one_of(&[1, 1, 2, 3]) {
            spoil(dice, &mut numbers, &mut samples, &mut asked);
        }
    }
    Call::Pattern { numbers, samples, asked }
}

fn spoil(dice: &mut Dice, numbers: &mut [i64; NUMBERS], samples: &mut Vec<i64>, asked: &mut i64) {
    match dice.below(12) {
        0..=3 => spoil_a_number(dice, numbers),
        4 => *asked = wrong_number(dice),
        5..=6 => spoil_a_sample(dice, samples),
        7 => fill_up(dice, samples, asked),
        8 => {
            if let Some(&last) = samples.last() {
                *asked = last.div_euclid(2).saturating_sub(between(dice, 1, 2));
            }
        }
        _ => spoil_the_order(dice, samples),
    }
}

fn spoil_a_sample(dice: &mut Dice, samples: &mut Vec<i64>) {
    let wrong = if dice.percent(10) { dice.roll() as i64 | 1 << 40 } else { dice.one_of(&WRONG_SAMPLES) };
    if samples.is_empty() {
        samples.push(0);
    }
    let (last, any) = (samples.len() - 1, dice.below(samples.len()));
    samples[dice.one_of(&[0, last, any])] = wrong;
}

/// One sample too many, or more: in their order, and asked after all of them where the range allows.
fn fill_up(dice: &mut Dice, samples: &mut Vec<i64>, asked: &mut i64) {
    let any = dice.between(1, 80);
    let count = MOST_SAMPLES + dice.one_of(&[1, 1, 2, any]);
    let mut minute = samples.last().map_or(0, |last| last.div_euclid(2));
    while samples.len() < count {
        minute = minute.saturating_add(1);
        samples.push(minute.saturating_mul(2));
    }
    samples.truncate(count);
    *asked = (*asked).max(minute);
    // what is wrong beyond the last sample that there may be
    if dice.percent(40) {
        samples[dice.between(MOST_SAMPLES, count - 1)] = dice.one_of(&WRONG_SAMPLES);
    }
}

/// One sample's minute is made that of the one before it, or an earlier one.
fn spoil_the_order(dice: &mut Dice, samples: &mut [i64]) {
    if samples.len() < 2 {
        return;
    }
    let (last, any) = (samples.len() - 1, dice.between(1, samples.len() - 1));
    let at = dice.one_of(&[1, last, any]);
    let minute = samples[at - 1].div_euclid(2).saturating_sub(dice.one_of(&[0, 0, 1, 5]));
    samples[at] = minute.saturating_mul(2).saturating_add(between(dice, 0, 1));
}

// ------------------------------------------------------------------------------------------------
// Words
// ------------------------------------------------------------------------------------------------

/// Conditions that there are not: the next ones, and some that would pass where only a part of the number is read.
const WRONG_CONDITIONS: [u32; 8] = [7, 8, 20, 32, 256, 65_536, 1 << 31, u32::MAX];

fn next_word(dice: &mut Dice) -> Call {
    let condition = if dice.percent(20) { dice.one_of(&WRONG_CONDITIONS) } else { dice.below(7) as u32 };
    let verdict = dice.one_of(&[0, 2, 3]);
    // refusals: asbru_pattern's, another's with a place, and numbers whose last byte is 0
    let number = if dice.percent(75) { 0 } else { dice.one_of(&[18, 19, 20, 1, 12, 256, 32_768]) };
    let place = if matches!(number, 1 | 12) { dice.roll() & 0xFFFF_FFFF_FFFC_0000 } else { 0 };
    Call::WithPattern { word: dice.roll() as u32, condition, answer: number | verdict << 16 | place }
}
