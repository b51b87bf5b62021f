//! Tests of held_reference.rs itself: `rustc --test held.rs`.

use crate::dice::Dice;
use crate::held_reference::{self as reference, Annotation, History, Sample, MOST_MINUTES, MOST_SAMPLES, NUMBERS, OPEN};

/// Not satisfied and no longer satisfiable; not satisfied yet; satisfied.
const NEITHER: u64 = 0;
const SATISFIABLE: u64 = 2 << 16;
const SATISFIED: u64 = 3 << 16;

const T: bool = true;
const F: bool = false;

fn sample(minute: i64, truth: bool) -> i64 {
    2 * minute + i64::from(truth)
}

/// Both ways, which must agree where the slow one can be gone.
fn ask(numbers: [i64; NUMBERS], samples: &[(i64, bool)], asked: i64) -> u64 {
    let samples: Vec<i64> = samples.iter().map(|&(minute, truth)| sample(minute, truth)).collect();
    let (annotation, history) = reference::read(&numbers, &samples, asked).expect("nothing to refuse");
    let judged = reference::judge(&annotation, &history);
    assert_eq!(reference::judge_slowly(&annotation, &history).unwrap_or(judged), judged, "{annotation:?}");
    reference::pattern(&numbers, &samples, asked)
}

fn normal(mut numbers: [i64; NUMBERS]) -> Result<[i64; NUMBERS], u64> {
    match reference::normalise(&mut numbers) {
        0 => Ok(numbers),
        refusal => Err(refusal),
    }
}

// ------------------------------------------------------------------------------------------------
// Cases worked out by hand
// ------------------------------------------------------------------------------------------------

#[test]
fn a_run_is_clipped_at_the_latest_finish() {
    let run = [(0, T)];
    assert_eq!(ask([0, OPEN, OPEN, 5, 0, OPEN, 0], &run, 10), SATISFIED);
    // without it nothing is true after the minute of asking, so the run ends there
    assert_eq!(ask([0, OPEN, OPEN, OPEN, 0, OPEN, 0], &run, 10), SATISFIED);
    // then it is too long, but another can come
    assert_eq!(ask([0, OPEN, OPEN, OPEN, 0, 5, 0], &run, 10), SATISFIABLE);
    // unless it would have to start by minute 0
    assert_eq!(ask([0, 0, OPEN, OPEN, 0, 5, 0], &run, 10), NEITHER);
}

#[test]
fn a_run_is_clipped_at_the_earliest_start() {
    let run = [(-5, T), (3, F)];
    assert_eq!(ask([0, 0, OPEN, OPEN, 2, 2, 0], &run, 3), SATISFIED);
    // nothing else excuses a start inside a run
    assert_eq!(ask([-1, 0, OPEN, OPEN, 2, 2, 0], &run, 3), NEITHER);
    assert_eq!(ask([OPEN, 0, OPEN, OPEN, 2, 2, 0], &run, 3), NEITHER);
}

#[test]
fn true_samples_in_a_row_are_one_run() {
    let two = [(0, T), (2, T), (4, F)];
    assert_eq!(ask([OPEN, 0, OPEN, OPEN, 3, OPEN, 0], &two, 4), SATISFIED);
    assert_eq!(ask([OPEN, 0, OPEN, OPEN, 0, 2, 0], &two, 4), NEITHER);
    assert_eq!(ask([OPEN, 0, OPEN, OPEN, 4, OPEN, 0], &two, 4), NEITHER);
}

#[test]
fn a_run_that_is_too_short_can_go_on() {
    assert_eq!(ask([OPEN, 0, OPEN, OPEN, 3, OPEN, 0], &[(0, T)], 2), SATISFIABLE);
    assert_eq!(ask([OPEN, 0, OPEN, OPEN, 3, OPEN, 0], &[(0, T)], 3), SATISFIED);
    assert_eq!(ask([OPEN, 0, OPEN, OPEN, 3, OPEN, 0], &[(0, T), (2, F)], 2), NEITHER);
}

#[test]
fn nothing_true_by_the_latest_start() {
    assert_eq!(ask([OPEN, 0, OPEN, OPEN, 0, OPEN, 0], &[(-3, F)], -1), SATISFIABLE);
    assert_eq!(ask([OPEN, 0, OPEN, OPEN, 0, OPEN, 0], &[(-3, F)], 0), NEITHER);
    assert_eq!(ask([OPEN, 0, OPEN, OPEN, 0, OPEN, 0], &[(-3, F), (1, T)], 1), NEITHER);
}

#[test]
fn an_empty_history_waits_for_a_fresh_run() {
    assert_eq!(ask([OPEN; NUMBERS].map(|_| 0), &[], -1), SATISFIABLE);
    assert_eq!(ask([OPEN; NUMBERS].map(|_| 0), &[], 0), NEITHER);
    assert_eq!(ask([OPEN, OPEN, OPEN, 3, 2, OPEN, 0], &[], 0), SATISFIABLE);
    assert_eq!(ask([OPEN, OPEN, OPEN, 3, 2, OPEN, 0], &[], 1), NEITHER);
    assert_eq!(ask([OPEN, OPEN, OPEN, OPEN, 0, -1, 0], &[], 0), NEITHER);
}

/// In the minute after the asking a run that is going on only goes on, so a fresh one starts a minute later.
#[test]
fn a_fresh_run_leaves_a_minute_between() {
    for (latest_start, expected) in [(1, NEITHER), (2, SATISFIABLE)] {
        assert_eq!(ask([OPEN, latest_start, OPEN, OPEN, 0, 0, 0], &[(-1, T)], 0), expected);
    }
    assert_eq!(ask([OPEN, 1, OPEN, OPEN, 0, 0, 0], &[(-1, F)], 0), SATISFIABLE);
    // but at the earliest start an interval may start inside a run
    assert_eq!(ask([1, 1, OPEN, OPEN, 0, 0, 0], &[(-1, T)], 0), SATISFIABLE);
}

/// "003: bilirubin_decrease < 1 [[-2 h, _], [_, 0h], [_, _], now] requires monitoring the decrease of bilirubin level over a period of the
/// last 2 hours": with the least duration that makes it so, asked at the reference point.
#[test]
fn bilirubin_over_the_last_two_hours() {
    let at = |now: i64| [-120, OPEN, OPEN, 0, 120, OPEN, now];
    assert_eq!(ask(at(1_000), &[(100, T)], 1_000), SATISFIED);
    assert_eq!(ask(at(1_000), &[(880, T)], 1_000), SATISFIED);
    // no later run is 120 minutes long and finishes by now
    assert_eq!(ask(at(1_000), &[(881, T)], 1_000), NEITHER);
    assert_eq!(ask(at(1_000), &[(100, T), (950, F), (951, T)], 1_000), NEITHER);
    // asked before the reference point
    assert_eq!(ask(at(1_000), &[(100, T)], 990), SATISFIABLE);
    assert_eq!(ask(at(1_000), &[(100, T), (990, F)], 990), NEITHER);
    assert_eq!(ask(at(1_000), &[(100, F)], 879), SATISFIABLE);
    assert_eq!(ask(at(1_000), &[(100, F)], 880), NEITHER);
    // document 003's own annotation leaves the duration open: any run in the two hours will do
    assert_eq!(ask([-120, OPEN, OPEN, 0, 0, OPEN, 1_000], &[(100, F), (950, T), (951, F)], 1_000), SATISFIED);
}

#[test]
fn refusals_in_their_order() {
    let numbers = [0; NUMBERS];
    let many: Vec<i64> = (0..1_025).map(|minute| sample(minute, T)).collect();
    assert_eq!(reference::pattern(&numbers, &many, 2_000), 19);
    assert_eq!(reference::pattern(&numbers, &many[..MOST_SAMPLES], 1_023), SATISFIED);
    assert_eq!(reference::pattern(&numbers, &many[..MOST_SAMPLES], 1_022), 20);
    assert_eq!(reference::pattern(&numbers, &[sample(0, F), sample(0, T)], 0), 20);
    assert_eq!(reference::pattern(&numbers, &[sample(1, F), sample(0, T)], 1), 20);
    // the lowest and the highest samples there are, and their neighbours
    let (low, high) = (sample(-MOST_MINUTES, F), sample(MOST_MINUTES, T));
    for (number, expected) in [(low, 0), (low - 1, 18), (high, 0), (high + 1, 18), (OPEN, 18), (i64::MAX, 18)] {
        assert_eq!(reference::pattern(&numbers, &[number], MOST_MINUTES) & 0xFFFF, expected, "{number}");
        // out of range goes before too many
        assert_eq!(reference::pattern(&numbers, &[many.clone(), vec![number]].concat(), MOST_MINUTES), if expected == 0 { 19 } else { 18 });
    }
    for asked in [-MOST_MINUTES - 1, MOST_MINUTES + 1, OPEN, i64::MAX] {
        assert_eq!(reference::pattern(&numbers, &[], asked), 18);
    }
    for place in 0..NUMBERS {
        for wrong in [-MOST_MINUTES - 1, MOST_MINUTES + 1, OPEN + 1, i64::MAX] {
            let mut numbers = numbers;
            numbers[place] = wrong;
            assert_eq!(reference::pattern(&numbers, &[], 0), 18);
            assert_eq!(normal(numbers), Err(18));
        }
    }
    assert_eq!(normal([0, 0, 0, 0, -1, 0, 0]), Err(18));
    assert_eq!(normal([0, 0, 0, 0, OPEN, 0, 0]), Err(18));
    assert_eq!(normal([0, 0, 0, 0, 0, 0, OPEN]), Err(18));
}

#[test]
fn normal_forms() {
    assert_eq!(normal([0, 10, 0, 100, 5, 20, 7]), Ok([0, 10, 5, 30, 5, 20, 7]));
    assert_eq!(normal([OPEN, 0, 10, OPEN, 0, 5, 0]), Err(21));
    assert_eq!(normal([OPEN, OPEN, -MOST_MINUTES, OPEN, 0, 5, 0]), Err(26));
    assert_eq!(normal([OPEN, OPEN, OPEN, OPEN, 0, -1, 0]), Err(21));
    assert_eq!(normal([OPEN, OPEN, OPEN, OPEN, 3, OPEN, 9]), Ok([OPEN, OPEN, OPEN, OPEN, 3, OPEN, 9]));
    assert_eq!(normal([-120, OPEN, OPEN, 0, 120, OPEN, 1_000]), Ok([-120, -120, 0, 0, 120, 120, 1_000]));
}

/// The same intervals are admitted, but an earliest start that was open excuses a start inside a run once it is not.
#[test]
fn a_normal_form_can_be_satisfied_where_the_annotation_was_not() {
    let numbers = [OPEN, OPEN, 0, OPEN, 0, 0, 0];
    assert_eq!(ask(numbers, &[(-1, T)], 0), SATISFIABLE);
    assert_eq!(normal(numbers), Ok([0, OPEN, 0, OPEN, 0, 0, 0]));
    assert_eq!(ask([0, OPEN, 0, OPEN, 0, 0, 0], &[(-1, T)], 0), SATISFIED);
}

#[test]
fn words() {
    for condition in 0..=6 {
        let (satisfied, satisfiable) = [(1, 64), (2, 128), (4, 0), (8, 0), (16, 0), (32, 0), (1 << 20, 1 << 21)][condition as usize];
        for word in [0, u32::MAX, 0x00A5_A5A5] {
            let others = word & !(satisfied | satisfiable);
            assert_eq!(reference::with_pattern(word, condition, NEITHER), others);
            assert_eq!(reference::with_pattern(word, condition, SATISFIABLE), others | satisfiable);
            assert_eq!(reference::with_pattern(word, condition, SATISFIED), others | satisfied | satisfiable);
            assert_eq!(reference::with_pattern(word, condition, 18), word);
            assert_eq!(reference::with_pattern(word, 7 + condition, SATISFIED), word);
        }
    }
}

// ------------------------------------------------------------------------------------------------
// The fast way beside the slow one
// ------------------------------------------------------------------------------------------------

fn expect_both_ways_alike(ta: &Annotation, history: &History) -> (bool, bool) {
    let slowly = reference::judge_slowly(ta, history).expect("small numbers");
    let told: Vec<(i64, bool)> = history.samples.iter().map(|sample| (sample.minute, sample.truth)).collect();
    assert_eq!(reference::judge(ta, history), slowly, "{ta:?} {told:?} asked {}", history.asked);
    slowly
}

/// All annotations with bounds -1, 0, 1 or open, against all histories in the minutes -1 to 1.
#[test]
fn all_of_the_smallest_cases() {
    let bounds = [None, Some(-1), Some(0), Some(1)];
    let mut counts = [0; 3];
    for number in 0..4_usize.pow(5) * 2 {
        let bound = |place: u32| bounds[number / 4_usize.pow(place) % 4];
        let (ess, lss, efs, lfs, max_du) = (bound(0), bound(1), bound(2), bound(3), bound(4));
        let ta = Annotation { ess, lss, efs, lfs, max_du, min_du: number as i64 / 1024, reference: 0 };
        for asked in -1..=1 {
            // at each minute no sample, or one of two
            for samples in 0..3_usize.pow(asked as u32 + 2) {
                let at = |minute: i64| samples / 3_usize.pow(minute as u32 + 1) % 3;
                let samples = (-1..=asked).filter(|&minute| at(minute) > 0).map(|minute| Sample { minute, truth: at(minute) == 2 });
                let (satisfied, satisfiable) = expect_both_ways_alike(&ta, &History { samples: samples.collect(), asked });
                counts[usize::from(satisfied) + usize::from(satisfiable)] += 1;
            }
        }
    }
    assert!(counts.iter().all(|&count| count > 1_000), "{counts:?}");
}

fn any_bound(dice: &mut Dice, most: i64) -> Option<i64> {
    (!dice.percent(45)).then(|| any_number(dice, most))
}

/// From -most to most.
fn any_number(dice: &mut Dice, most: i64) -> i64 {
    dice.below(2 * most as usize + 1) as i64 - most
}

fn any_annotation(dice: &mut Dice, most: i64) -> Annotation {
    Annotation {
        ess: any_bound(dice, most),
        lss: any_bound(dice, most),
        efs: any_bound(dice, most),
        lfs: any_bound(dice, most),
        min_du: dice.below(most as usize + 1) as i64,
        max_du: any_bound(dice, most),
        reference: any_number(dice, 1),
    }
}

#[test]
fn random_small_cases() {
    let mut dice = Dice::new(11);
    let mut counts = [0; 3];
    for _ in 0..4_000 {
        let ta = any_annotation(&mut dice, 3);
        let asked = any_number(&mut dice, 3) + 1;
        let chance = dice.one_of(&[10, 50, 90]);
        let minutes = (-6..=asked).filter(|_| dice.percent(60)).collect::<Vec<i64>>();
        let samples = minutes.into_iter().map(|minute| Sample { minute, truth: dice.percent(chance) }).collect();
        let (satisfied, satisfiable) = expect_both_ways_alike(&ta, &History { samples, asked });
        counts[usize::from(satisfied) + usize::from(satisfiable)] += 1;
    }
    assert!(counts.iter().all(|&count| count > 400), "{counts:?}");
}

/// "02: For an annotation that admits some interval, the normalised one admits the same intervals, and normalising again changes nothing."
/// And it is the narrowest, as document 001's theorem says: each number of the three ranges belongs to a matched interval.
#[test]
fn normal_forms_admit_the_same_intervals() {
    let mut dice = Dice::new(12);
    let (mut admitting, mut changed) = (0, 0);
    for _ in 0..6_000 {
        let ta = any_annotation(&mut dice, 4);
        assert_eq!(reference::admits(&ta), reference::admits_slowly(&ta).expect("small numbers"), "{ta:?}");
        if !reference::admits(&ta) {
            assert_eq!(normal(ta.numbers()), Err(21));
            continue;
        }
        admitting += 1;
        let normal_numbers = normal(ta.numbers()).expect("small numbers");
        let narrow = Annotation::read(&normal_numbers).expect("in range");
        changed += i32::from(narrow != ta);
        assert_eq!(normal(normal_numbers), Ok(normal_numbers));
        let all = || (-24..=24).flat_map(|t1| (t1..=24).map(move |t2| (t1, t2)));
        assert!(all().all(|(t1, t2)| reference::is_matched(&ta, t1, t2) == reference::is_matched(&narrow, t1, t2)), "{ta:?}");
        let is_met = |bound: Option<i64>, part: fn(i64, i64) -> i64, at: i64| {
            bound.is_none_or(|bound| all().any(|(t1, t2)| reference::is_matched(&ta, t1, t2) && part(t1, t2) == at + bound))
        };
        let (first, last, length) = (|t1, _| t1, |_, t2| t2, |t1, t2| t2 - t1);
        assert!(is_met(narrow.ess, first, ta.reference) && is_met(narrow.lss, first, ta.reference), "{ta:?} {narrow:?}");
        assert!(is_met(narrow.efs, last, ta.reference) && is_met(narrow.lfs, last, ta.reference), "{ta:?} {narrow:?}");
        assert!(is_met(Some(narrow.min_du), length, 0) && is_met(narrow.max_du, length, 0), "{ta:?} {narrow:?}");
    }
    assert!(admitting > 1_000 && changed > 1_000, "{admitting} {changed}");
}

/// Where all minutes lie in the history's far future or past, moving the whole of a small case by a large number changes nothing.
#[test]
fn far_from_minute_0() {
    let mut dice = Dice::new(13);
    for _ in 0..2_000 {
        let ta = any_annotation(&mut dice, 30);
        let asked = any_number(&mut dice, 40);
        let minutes = (-60..=asked).filter(|_| dice.percent(20)).collect::<Vec<i64>>();
        let samples: Vec<Sample> = minutes.into_iter().map(|minute| Sample { minute, truth: dice.percent(50) }).collect();
        let here = reference::judge(&ta, &History { samples: samples.clone(), asked });
        for by in [-MOST_MINUTES + 60, MOST_MINUTES - 60] {
            let samples = samples.iter().map(|sample| Sample { minute: sample.minute + by, ..*sample }).collect();
            let there = Annotation { reference: ta.reference + by, ..ta };
            assert_eq!(reference::judge(&there, &History { samples, asked: asked + by }), here);
        }
    }
}
