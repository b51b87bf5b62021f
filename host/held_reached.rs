//! What a comparison of patterns must reach: each refusal by each of its causes, each way to be satisfied or satisfiable, each bound and
//! each formula where it decides, and the ends of the range. As in turns.rs each is a line of words with a count, and what is wanted is
//! listed apart from the counting.

use crate::held_cases::Call;
use crate::held_reference::{self as reference, Annotation, History, Interval, Sample};
use crate::held_reference::{LEAST, MOST_MINUTES, MOST_SAMPLES, NUMBERS, OPEN, REFERENCE};
use crate::tally::Lines;
use std::collections::BTreeMap;

const NAMES: [&str; NUMBERS] = [
    "earliest start",
    "latest start",
    "earliest finish",
    "latest finish",
    "least duration",
    "greatest duration",
    "reference point",
];
/// The places of the two bounds at which an interval may start or finish inside a run.
const EXCUSES: [usize; 2] = [0, 3];
/// The places of bounds: all but the reference point.
const BOUNDS: std::ops::Range<usize> = 0..REFERENCE;

fn lines(parts: impl IntoIterator<Item = impl Into<String>>) -> Vec<String> {
    parts.into_iter().map(Into::into).collect()
}

// ------------------------------------------------------------------------------------------------
// All of it
// ------------------------------------------------------------------------------------------------

#[derive(Default)]
pub struct Reached {
    /// By call and number; of words, which are no answers, all under 0.
    answers: BTreeMap<(&'static str, u64), u64>,
    verdicts: Lines,
    ways: Lines,
    decisive: Lines,
    ends: Lines,
    refusals: Lines,
    normal: Lines,
    words: Lines,
}

impl Reached {
    pub fn add(&mut self, call: &Call, answer: u64, left: &[u8]) {
        let told = match call {
            Call::Pattern { .. } => ("pattern", answer & 0xFFFF),
            Call::Normalise { .. } => ("normalise", answer & 0xFFFF),
            Call::WithPattern { .. } => ("with_pattern", 0),
        };
        *self.answers.entry(told).or_default() += 1;
        match call {
            Call::Pattern { numbers, samples, asked } => match reference::read(numbers, samples, *asked) {
                Ok((ta, history)) => {
                    self.verdicts.count(verdict(samples.len(), answer >> 16));
                    self.verdicts.count(way(reference::judge_slowly(&ta, &history).is_some(), answer >> 16));
                    count_ways(&mut self.ways, &ta, &history);
                    count_decisive(&mut self.decisive, &ta, &history);
                    count_ends(&mut self.ends, numbers, samples, *asked);
                }
                Err(number) => count_refused(&mut self.refusals, number, numbers, samples, *asked),
            },
            Call::Normalise { numbers } => {
                let left: Vec<i64> = left.chunks_exact(8).map(|bytes| i64::from_le_bytes(bytes.try_into().expect("8 bytes"))).collect();
                count_normal(&mut self.normal, numbers, answer, &left);
            }
            Call::WithPattern { word, condition, answer: put } => count_word(&mut self.words, *word, *condition, *put, answer),
        }
    }

    /// Each part with its name and what is wanted of it.
    fn parts(&self) -> [(&str, &Lines, Vec<String>); 7] {
        [
            ("answers by number of samples", &self.verdicts, wanted_verdicts()),
            ("ways to be satisfied or satisfiable", &self.ways, wanted_ways()),
            ("bounds and criteria that decide", &self.decisive, wanted_decisive()),
            ("ends of the range, and open bounds", &self.ends, wanted_ends()),
            ("refusals of a pattern", &self.refusals, wanted_refusals()),
            ("normal forms and their refusals", &self.normal, wanted_normal()),
            ("words", &self.words, wanted_words()),
        ]
    }

    pub fn print(&self) {
        let told: Vec<String> = self.answers.iter().map(|((call, number), count)| format!("{call} {number}: {count}")).collect();
        println!("answers by number: {}", told.join(", "));
        for (name, lines, wanted) in self.parts() {
            lines.print(name, &wanted);
        }
    }

    pub fn nothing_impossible(&self) -> Result<(), String> {
        self.parts().iter().try_for_each(|(name, lines, wanted)| lines.are_possible(wanted).map_err(|what| format!("{what} ({name})")))
    }

    pub fn all_reached(&self) -> Result<(), String> {
        self.parts().iter().try_for_each(|(name, lines, wanted)| lines.are_all(wanted).map_err(|what| format!("{what} ({name})")))
    }
}

// ------------------------------------------------------------------------------------------------
// Answers
// ------------------------------------------------------------------------------------------------

const VERDICTS: [&str; 4] = ["neither", "satisfied and not satisfiable", "only satisfiable", "satisfied"];
const COUNTS: [&str; 4] = ["0", "1", "2 to 1,023", "1,024"];

fn verdict(count: usize, verdict: u64) -> String {
    let counts = COUNTS[[0, 1, MOST_SAMPLES - 1].iter().filter(|&&most| count > most).count()];
    format!("{counts} samples: {}", VERDICTS[verdict as usize])
}

fn way(slow: bool, verdict: u64) -> String {
    format!("{}: {}", if slow { "by all intervals and continuations" } else { "the fast way" }, VERDICTS[verdict as usize])
}

/// What is satisfied is satisfiable, and nothing is satisfied by an empty history.
fn wanted_verdicts() -> Vec<String> {
    let all = [0, 1, 2, MOST_SAMPLES].into_iter().flat_map(|count| [0, 2, 3].map(|judged| (count, judged)));
    let ways = [false, true].into_iter().flat_map(|slow| [0, 2, 3].map(|judged| way(slow, judged)));
    all.filter(|&it| it != (0, 3)).map(|(count, judged)| verdict(count, judged)).chain(ways).collect()
}

fn satisfied_by(clipped: [bool; 2], goes_on: bool) -> String {
    let from = ["the run's start", "the earliest start inside the run"][usize::from(clipped[0])];
    let to = ["the run's end", "the latest finish inside the run"][usize::from(clipped[1])];
    format!("satisfied from {from} to {to}, the run {}", if goes_on { "going on at the asking" } else { "having ended" })
}

const OF_ONE_SAMPLE: &str = "satisfied by runs of one true sample only";
const OF_SOME_SAMPLES: &str = "satisfied by a run of two true samples or more";
const GOING_ON: &str = "satisfiable only, by the run going on";
const GOING_ON_LATER: &str = "satisfiable only, by the run going on, from an earliest start that is still to come";
const FRESH: &str = "satisfiable only, by a fresh run, though a run goes on";
const FRESH_AFTER_NONE: &str = "satisfiable only, by a fresh run, where none goes on";
const EITHER: &str = "satisfiable only, by the run going on or a fresh one";
const NEXT_MINUTE: &str = "satisfiable only, by a fresh run in the minute after the asking and no later";
const NO_ROOM: &str = "neither, for in the minute after the asking a run goes on, and a fresh one cannot start";
const TOO_LATE: &str = "neither, and none goes on";
const NOT_BY_GOING_ON: &str = "neither, though a run goes on";

fn wanted_ways() -> Vec<String> {
    let intervals = [false, true].into_iter().flat_map(|first| [false, true].map(|last| [first, last]));
    let mut wanted: Vec<String> = intervals.flat_map(|clipped| [false, true].map(|goes_on| satisfied_by(clipped, goes_on))).collect();
    wanted.extend(lines([OF_ONE_SAMPLE, OF_SOME_SAMPLES, GOING_ON, GOING_ON_LATER, FRESH, FRESH_AFTER_NONE, EITHER, NEXT_MINUTE]));
    wanted.extend(lines([NO_ROOM, TOO_LATE, NOT_BY_GOING_ON]));
    wanted
}

fn count_ways(ways: &mut Lines, ta: &Annotation, history: &History) {
    let runs = reference::runs(history);
    let satisfying: Vec<(Interval, Interval)> =
        runs.iter().flat_map(|&run| reference::satisfying(ta, run).into_iter().map(move |interval| (run, interval))).collect();
    for (run, interval) in &satisfying {
        let clipped = [interval.first > run.first, interval.last < run.last];
        ways.count(satisfied_by(clipped, run.last == history.asked));
    }
    let is_of_one = |run: &Interval| samples_of(history, run) == 1;
    if !satisfying.is_empty() {
        ways.count(if satisfying.iter().all(|(run, _)| is_of_one(run)) { OF_ONE_SAMPLE } else { OF_SOME_SAMPLES }.to_string());
        return;
    }
    let going_on = reference::going_on(history, &runs);
    let by_going_on = going_on.is_some_and(|run| reference::can_go_on(ta, run));
    let fresh = |soonest: i64| reference::can_begin(ta, soonest);
    let way = match (by_going_on, fresh(reference::soonest_start(history, going_on))) {
        // the run's start is too early then
        (true, false) if ta.ess.is_some_and(|ess| ta.reference + ess > history.asked) => GOING_ON_LATER,
        (true, false) => GOING_ON,
        (true, true) => EITHER,
        (false, true) if going_on.is_some() => FRESH,
        (false, true) if !fresh(history.asked + 2) => NEXT_MINUTE,
        (false, true) => FRESH_AFTER_NONE,
        (false, false) if going_on.is_none() => TOO_LATE,
        (false, false) if fresh(history.asked + 1) => NO_ROOM,
        (false, false) => NOT_BY_GOING_ON,
    };
    ways.count(way.to_string());
}

fn samples_of(history: &History, run: &Interval) -> usize {
    history.samples.iter().filter(|sample| (run.first..=run.last).contains(&sample.minute)).count()
}

// ------------------------------------------------------------------------------------------------
// Bounds and criteria that decide
// ------------------------------------------------------------------------------------------------

const START_INSIDE: &str = "not satisfied, and for nothing but the minute before the start";
const FINISH_INSIDE: &str = "not satisfied, and for nothing but the minute after the finish";

fn decisive(place: usize, what: &str) -> String {
    format!("without its {}: {what}", NAMES[place])
}

const SATISFIED_THEN: &str = "it would be satisfied";
const SATISFIABLE_THEN: &str = "it would be satisfiable";
const UNSATISFIED_THEN: &str = "it would not be satisfied";
const UNSATISFIABLE_THEN: &str = "it would not be satisfiable";

fn wanted_decisive() -> Vec<String> {
    let missing = BOUNDS.flat_map(|place| [SATISFIED_THEN, SATISFIABLE_THEN].map(|what| decisive(place, what)));
    let excused = EXCUSES.into_iter().map(|place| decisive(place, UNSATISFIED_THEN));
    let still = EXCUSES.into_iter().map(|place| decisive(place, UNSATISFIABLE_THEN));
    missing.chain(excused).chain(still).chain(lines([START_INSIDE, FINISH_INSIDE])).collect()
}

/// Each bound without which the answer is another, and each of the last two criteria if it alone stands in the way.
fn count_decisive(lines: &mut Lines, ta: &Annotation, history: &History) {
    let (satisfied, satisfiable) = reference::judge(ta, history);
    for place in BOUNDS {
        let (satisfied_then, satisfiable_then) = reference::judge(&without(ta, place), history);
        let told = [
            (!satisfied && satisfied_then, SATISFIED_THEN),
            (!satisfiable && satisfiable_then, SATISFIABLE_THEN),
            (satisfied && !satisfied_then, UNSATISFIED_THEN),
            (satisfiable && !satisfiable_then, UNSATISFIABLE_THEN),
        ];
        told.into_iter().filter(|&(is_so, _)| is_so).for_each(|(_, what)| lines.count(decisive(place, what)));
    }
    if !satisfied {
        let runs = reference::runs(history);
        let start_is_free = |run: &Interval| some_suits(ta, run, [run.first, run.last], [clip(run.last, ta, 3), run.last]);
        let finish_is_free = |run: &Interval| some_suits(ta, run, [run.first, clip(run.first, ta, 0)], [run.first, run.last]);
        if runs.iter().any(start_is_free) {
            lines.count(START_INSIDE.to_string());
        }
        if runs.iter().any(finish_is_free) {
            lines.count(FINISH_INSIDE.to_string());
        }
    }
}

/// The annotation with one bound open, or without a least duration.
fn without(ta: &Annotation, place: usize) -> Annotation {
    let mut numbers = ta.numbers();
    numbers[place] = if place == LEAST { 0 } else { OPEN };
    Annotation::read(&numbers).expect("open bounds are in range")
}

/// Where the last two criteria put an interval's finish (place 3) or start (place 0) in a run that ends or starts at `edge`.
fn clip(edge: i64, ta: &Annotation, place: usize) -> i64 {
    match (place, ta.ess, ta.lfs) {
        (0, Some(ess), _) => edge.max(ta.reference + ess),
        (3, _, Some(lfs)) => edge.min(ta.reference + lfs),
        _ => edge,
    }
}

/// Whether an interval inside a run keeps the six bounds, with its start and its finish from the first to the second minute of a pair.
fn some_suits(ta: &Annotation, run: &Interval, starts: [i64; 2], finishes: [i64; 2]) -> bool {
    let within = |minute: i64| (run.first..=run.last).contains(&minute);
    let shift = |minute: i64| minute - ta.reference;
    let low = |bound: Option<i64>, minute: i64| Some(bound.map_or(shift(minute), |bound| bound.max(shift(minute))));
    let high = |bound: Option<i64>, minute: i64| Some(bound.map_or(shift(minute), |bound| bound.min(shift(minute))));
    let narrowed = Annotation {
        ess: low(ta.ess, starts[0]),
        lss: high(ta.lss, starts[1]),
        efs: low(ta.efs, finishes[0]),
        lfs: high(ta.lfs, finishes[1]),
        ..*ta
    };
    starts.into_iter().chain(finishes).all(within) && reference::admits(&narrowed)
}

// ------------------------------------------------------------------------------------------------
// Ends of the range
// ------------------------------------------------------------------------------------------------

fn end(name: &str, what: &str) -> String {
    format!("answered with {name} {what}")
}

fn lowest(place: usize) -> i64 {
    if place == LEAST {
        0
    } else {
        -MOST_MINUTES
    }
}

fn may_be_open(place: usize) -> bool {
    !matches!(place, LEAST | REFERENCE)
}

fn wanted_ends() -> Vec<String> {
    let of_place = |place: usize| {
        let ends = ["at the lowest", "at the highest", "open"].map(|what| (place, what));
        ends.into_iter().filter(|&(place, what)| what != "open" || may_be_open(place)).map(|(place, what)| end(NAMES[place], what))
    };
    let minutes = ["a true sample", "a false sample", "the minute of asking"];
    let of_minutes = minutes.into_iter().flat_map(|name| ["at the lowest", "at the highest"].map(|what| end(name, what)));
    (0..NUMBERS).flat_map(of_place).chain(of_minutes).collect()
}

fn count_ends(lines: &mut Lines, numbers: &[i64; NUMBERS], samples: &[i64], asked: i64) {
    let at = |number: i64, lowest: i64| match number {
        OPEN => Some("open"),
        MOST_MINUTES => Some("at the highest"),
        _ if number == lowest => Some("at the lowest"),
        _ => None,
    };
    let of_samples = samples.iter().map(|&number| {
        let sample = Sample::read(number);
        (if sample.truth { "a true sample" } else { "a false sample" }, at(sample.minute, -MOST_MINUTES))
    });
    let of_numbers = (0..NUMBERS).map(|place| (NAMES[place], at(numbers[place], lowest(place))));
    let all = of_numbers.chain(of_samples).chain([("the minute of asking", at(asked, -MOST_MINUTES))]);
    all.filter_map(|(name, at)| at.map(|at| end(name, at))).for_each(|line| lines.count(line));
}

// ------------------------------------------------------------------------------------------------
// Refusals of a pattern
// ------------------------------------------------------------------------------------------------

/// How far out of range a number is.
fn how_wrong(number: i64, lowest: i64) -> &'static str {
    match number {
        OPEN => "the least number there is",
        i64::MAX => "the greatest number there is",
        _ if number == lowest - 1 => "one below the range",
        _ if number == MOST_MINUTES + 1 => "one above the range",
        _ => "far out of range",
    }
}

const HOW_WRONG: [&str; 5] =
    ["the least number there is", "the greatest number there is", "one below the range", "one above the range", "far out of range"];
const SAMPLES: [&str; 2] = ["a sample among 1,024", "a sample past 1,024"];

fn out_of_range(name: &str, how: &str) -> String {
    format!("18 for {name} alone: {how}")
}

/// Of the seven numbers, by pattern and by normalise.
fn wanted_out_of_range() -> impl Iterator<Item = String> {
    let of_place = |place: usize| {
        HOW_WRONG.into_iter().filter(move |&how| how != HOW_WRONG[0] || !may_be_open(place)).map(move |how| out_of_range(NAMES[place], how))
    };
    (0..NUMBERS).flat_map(of_place)
}

/// The lines for those of the numbers that are out of range.
fn out_of_range_numbers(numbers: &[i64; NUMBERS]) -> Vec<String> {
    let wrong = (0..NUMBERS).filter(|&place| !reference::is_in_range(place, numbers[place]));
    wrong.map(|place| out_of_range(NAMES[place], how_wrong(numbers[place], lowest(place)))).collect()
}

fn before(number: u64, others: &str) -> String {
    format!("{number} where {others} would be given without it")
}

const EQUAL_AND_RISING: &str = "20 for equal minutes, first false and then true";
const EQUAL_NUMBERS: &str = "20 for one sample twice";
const EQUAL_AND_FALLING: &str = "20 for equal minutes, first true and then false";
const FALLING: &str = "20 for falling minutes";
const FALLING_BY_ONE: &str = "20 for minutes that fall by one";
const LAST_PAIR: &str = "20 for the last two of 1,024 samples";
const FIRST_PAIR: &str = "20 for the first two of 1,024 samples";
const ASKED_EARLY: &str = "20 for the minute of asking, which is one before the last sample";
const ASKED_EARLIER: &str = "20 for the minute of asking, which is more than one before the last sample";
const ONE_TOO_MANY: &str = "19 for 1,025 samples";
const TOO_MANY: &str = "19 for more than 1,025 samples";

fn wanted_refusals() -> Vec<String> {
    let mut wanted: Vec<String> = wanted_out_of_range().collect();
    for how in HOW_WRONG {
        wanted.push(out_of_range("the minute of asking", how));
        SAMPLES.iter().for_each(|name| wanted.push(out_of_range(name, how)));
    }
    wanted.extend([before(18, "19"), before(18, "20"), before(18, "19 and then 20"), before(19, "20")]);
    wanted.extend(lines([EQUAL_AND_RISING, EQUAL_NUMBERS, EQUAL_AND_FALLING, FALLING, FALLING_BY_ONE, LAST_PAIR, FIRST_PAIR]));
    wanted.extend(lines([ASKED_EARLY, ASKED_EARLIER, ONE_TOO_MANY, TOO_MANY]));
    wanted
}

fn count_refused(lines: &mut Lines, number: u64, numbers: &[i64; NUMBERS], samples: &[i64], asked: i64) {
    let minutes: Vec<i64> = samples.iter().map(|&sample| Sample::read(sample).minute).collect();
    let falls: Vec<usize> = (1..samples.len()).filter(|&at| minutes[at] <= minutes[at - 1]).collect();
    let early = minutes.last().map_or(0, |last| last.saturating_sub(asked));
    let too_many = samples.len() > MOST_SAMPLES;
    let in_no_order = !falls.is_empty() || early > 0;
    match (number, too_many, in_no_order) {
        (18, true, true) => lines.count(before(18, "19 and then 20")),
        (18, true, false) => lines.count(before(18, "19")),
        (18, false, true) => lines.count(before(18, "20")),
        (19, _, true) => lines.count(before(19, "20")),
        _ => {}
    }
    match number {
        18 => {
            let mut wrong = out_of_range_numbers(numbers);
            let wrong_samples = (0..samples.len()).filter(|&at| !reference::is_minute(minutes[at]));
            wrong.extend(wrong_samples.map(|at| out_of_range(SAMPLES[usize::from(at >= MOST_SAMPLES)], how_wrong_sample(samples[at]))));
            if !reference::is_minute(asked) {
                wrong.push(out_of_range("the minute of asking", how_wrong(asked, -MOST_MINUTES)));
            }
            if let [one] = &wrong[..] {
                lines.count(one.clone());
            }
        }
        19 => lines.count(if samples.len() == MOST_SAMPLES + 1 { ONE_TOO_MANY } else { TOO_MANY }.to_string()),
        _ => match (&falls[..], early) {
            (&[at], ..=0) => count_fall(lines, samples, at),
            (&[], 1) => lines.count(ASKED_EARLY.to_string()),
            (&[], _) => lines.count(ASKED_EARLIER.to_string()),
            // more than one thing is wrong
            _ => {}
        },
    }
}

/// As a number, at the ends, or else by its minute.
fn how_wrong_sample(number: i64) -> &'static str {
    if matches!(number, OPEN | i64::MAX) {
        how_wrong(number, 0)
    } else {
        how_wrong(Sample::read(number).minute, -MOST_MINUTES)
    }
}

/// Of the sample at this place and the one before it.
fn count_fall(lines: &mut Lines, samples: &[i64], at: usize) {
    let [first, second] = [samples[at - 1], samples[at]].map(Sample::read);
    let why = match (first.minute - second.minute, samples[at] - samples[at - 1]) {
        (0, 0) => EQUAL_NUMBERS,
        (0, 1) => EQUAL_AND_RISING,
        (0, _) => EQUAL_AND_FALLING,
        (1, _) => FALLING_BY_ONE,
        _ => FALLING,
    };
    lines.count(why.to_string());
    if samples.len() == MOST_SAMPLES && (at == 1 || at == MOST_SAMPLES - 1) {
        lines.count(if at == 1 { FIRST_PAIR } else { LAST_PAIR }.to_string());
    }
}

// ------------------------------------------------------------------------------------------------
// Normal forms
// ------------------------------------------------------------------------------------------------

const UNCHANGED: &str = "a normal form that is what it was";
const FIRST_21: &str = "21 where 26 would be given without it";

/// What must hold for an interval to be admitted.
const LEGAL: [&str; 5] = [
    "earliest start and latest start",
    "earliest finish and latest finish",
    "least and greatest duration",
    "earliest start, least duration and latest finish",
    "latest start, greatest duration and earliest finish",
];

/// What is left between the two sides of each, None where a bound is open: below 0 none is admitted.
fn room(ta: &Annotation) -> [Option<i64>; 5] {
    [
        ta.ess.zip(ta.lss).map(|(ess, lss)| lss - ess),
        ta.efs.zip(ta.lfs).map(|(efs, lfs)| lfs - efs),
        ta.max_du.map(|max_du| max_du - ta.min_du),
        ta.ess.zip(ta.lfs).map(|(ess, lfs)| lfs - ess - ta.min_du),
        ta.lss.zip(ta.max_du).zip(ta.efs).map(|((lss, max_du), efs)| lss + max_du - efs),
    ]
}

fn legal(which: usize, what: &str) -> String {
    format!("{what}: {}", LEGAL[which])
}

const JUST: &str = "0 with just enough room";
const JUST_NOT: &str = "21 for one minute alone";

fn formula(place: usize, what: &str) -> String {
    format!("{} by its formula: {what}", NAMES[place])
}

const MOVED: &str = "another than it was";
const WAS_OPEN: &str = "no longer open";
const AT_THE_END: &str = "at the end of the range";
const BEYOND: &str = "26 for it alone, which is just out of range";
const FAR_BEYOND: &str = "26 for it alone, which is farther out of range";

fn wanted_normal() -> Vec<String> {
    let of_bound = |place: usize| {
        let kinds = [MOVED, WAS_OPEN, AT_THE_END, BEYOND, FAR_BEYOND].into_iter().filter(move |&what| what != WAS_OPEN || place != LEAST);
        kinds.map(move |what| formula(place, what))
    };
    let rooms = (0..LEGAL.len()).flat_map(|which| [JUST, JUST_NOT].map(|what| legal(which, what)));
    BOUNDS.flat_map(of_bound).chain(rooms).chain(wanted_out_of_range()).chain(lines([UNCHANGED, FIRST_21])).collect()
}

fn count_normal(lines: &mut Lines, numbers: &[i64; NUMBERS], answer: u64, left: &[i64]) {
    let Some(ta) = Annotation::read(numbers) else {
        if let [one] = &out_of_range_numbers(numbers)[..] {
            lines.count(one.clone());
        }
        return;
    };
    let normal = reference::formulas(&ta).numbers();
    let beyond: Vec<usize> = (0..NUMBERS).filter(|&place| !reference::is_in_range(place, normal[place])).collect();
    let room = room(&ta);
    match answer {
        0 => {
            (0..LEGAL.len()).filter(|&which| room[which] == Some(0)).for_each(|which| lines.count(legal(which, JUST)));
            let changed: Vec<usize> = BOUNDS.filter(|&place| left[place] != numbers[place]).collect();
            if changed.is_empty() {
                lines.count(UNCHANGED.to_string());
            }
            for place in changed {
                lines.count(formula(place, if numbers[place] == OPEN { WAS_OPEN } else { MOVED }));
                if left[place].abs() == MOST_MINUTES {
                    lines.count(formula(place, AT_THE_END));
                }
            }
        }
        21 => {
            let broken: Vec<usize> = (0..LEGAL.len()).filter(|&which| room[which].is_some_and(|room| room < 0)).collect();
            if let [which] = broken[..] {
                if room[which] == Some(-1) {
                    lines.count(legal(which, JUST_NOT));
                }
            }
            if !beyond.is_empty() {
                lines.count(FIRST_21.to_string());
            }
        }
        _ => {
            if let [place] = beyond[..] {
                lines.count(formula(place, if normal[place].abs() == MOST_MINUTES + 1 { BEYOND } else { FAR_BEYOND }));
            }
        }
    }
}

// ------------------------------------------------------------------------------------------------
// Words
// ------------------------------------------------------------------------------------------------

fn put(condition: u32, put: u64, changes: bool) -> String {
    let condition = if condition <= 6 { format!("condition {condition}") } else { "no condition".to_string() };
    let what = if put & 0xFFFF == 0 { VERDICTS[(put >> 16 & 3) as usize] } else { "a refusal" };
    format!("{condition}, {what}: the word {}", if changes { "is another" } else { "stays" })
}

fn wanted_words() -> Vec<String> {
    let mut wanted = Vec::new();
    for condition in 0..=7 {
        for verdict in [0, 2, 3] {
            wanted.push(put(condition, verdict << 16, false));
            if condition <= 6 {
                wanted.push(put(condition, verdict << 16, true));
            }
        }
        wanted.push(put(condition, 18, false));
    }
    wanted
}

fn count_word(lines: &mut Lines, word: u32, condition: u32, answer: u64, left: u64) {
    lines.count(put(condition, answer, left != u64::from(word)));
}
