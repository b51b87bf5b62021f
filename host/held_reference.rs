//! A plain reading of request (iii) of document 02, "How long must it have held", with section 13 of document 003 and the six formulas of
//! document 001: whether a history satisfies a time annotation or still can, the normal form of an annotation, and the bits of a word.
//!
//! It is written from these documents alone. A sentence in quotation marks is theirs: behind "02:" request (iii)'s, behind "003:" and
//! "001:" that document's. First the slow way, which goes through all intervals and all continuations by the documents' words, and which
//! only small numbers can afford: these are answered by it. Then the fast way, for all others; held_test.rs holds it to the slow one.

/// As everywhere: number + plan * 2^16 + step * 2^32.
pub type Answer = u64;

/// "02: Times are whole minutes from -1,000,000,000 to 1,000,000,000."
pub const MOST_MINUTES: i64 = 1_000_000_000;
/// "02: a history of at most 1,024 samples"
pub const MOST_SAMPLES: usize = 1_024;
/// asbru.h: a bound that is open.
pub const OPEN: i64 = i64::MIN;

// "02: 18 value out of range, 19 too many samples, 20 times not strictly rising or the minute of asking before the last sample; when
//  normalising, 21 no interval admitted, then 26 a normalised bound out of range"
const OUT_OF_RANGE: Answer = 18;
const MANY_SAMPLES: Answer = 19;
const TIMES_ORDER: Answer = 20;
const NO_INTERVAL: Answer = 21;
const NORMAL_RANGE: Answer = 26;

// ------------------------------------------------------------------------------------------------
// Annotations and histories
// ------------------------------------------------------------------------------------------------

// "02: an annotation of earliest and latest start, earliest and latest finish, least and greatest duration and a reference point": the
// places of the seven numbers
pub const LEAST: usize = 4;
pub const REFERENCE: usize = 6;
pub const NUMBERS: usize = 7;

/// A time annotation; None is a bound that is open. The four shifts are relative to the reference point.
#[derive(Clone, Copy, PartialEq, Debug)]
pub struct Annotation {
    pub ess: Option<i64>,
    pub lss: Option<i64>,
    pub efs: Option<i64>,
    pub lfs: Option<i64>,
    pub min_du: i64,
    pub max_du: Option<i64>,
    pub reference: i64,
}

/// Whether a number of an annotation is in range. "02: Any bound may be open except the least duration, which is 0 or more."
pub fn is_in_range(place: usize, number: i64) -> bool {
    match place {
        LEAST => (0..=MOST_MINUTES).contains(&number),
        REFERENCE => is_minute(number),
        _ => number == OPEN || is_minute(number),
    }
}

pub fn is_minute(number: i64) -> bool {
    (-MOST_MINUTES..=MOST_MINUTES).contains(&number)
}

impl Annotation {
    /// None where a number is out of range.
    pub fn read(numbers: &[i64; NUMBERS]) -> Option<Annotation> {
        if (0..NUMBERS).any(|place| !is_in_range(place, numbers[place])) {
            return None;
        }
        let bound = |place: usize| (numbers[place] != OPEN).then_some(numbers[place]);
        let (ess, lss, efs, lfs, max_du) = (bound(0), bound(1), bound(2), bound(3), bound(5));
        Some(Annotation { ess, lss, efs, lfs, min_du: numbers[LEAST], max_du, reference: numbers[REFERENCE] })
    }

    pub fn numbers(&self) -> [i64; NUMBERS] {
        let number = |bound: Option<i64>| bound.unwrap_or(OPEN);
        let shifts = [self.ess, self.lss, self.efs, self.lfs].map(number);
        [shifts[0], shifts[1], shifts[2], shifts[3], self.min_du, number(self.max_du), self.reference]
    }

    /// A shift as a minute.
    fn minute(&self, shift: Option<i64>) -> Option<i64> {
        shift.map(|shift| self.reference + shift)
    }
}

#[derive(Clone, Copy)]
pub struct Sample {
    pub minute: i64,
    pub truth: bool,
}

impl Sample {
    /// asbru.h: 2 * minute + truth.
    pub fn read(number: i64) -> Sample {
        Sample { minute: number.div_euclid(2), truth: number.rem_euclid(2) == 1 }
    }
}

/// Samples whose minutes rise strictly, and the minute of asking, which is not before the last of them.
pub struct History {
    pub samples: Vec<Sample>,
    pub asked: i64,
}

impl History {
    /// "02: A sample says whether the underlying pattern is true from its minute until the next sample's, the last one through the minute
    /// of asking, which is handed in; outside these minutes it counts as not true."
    fn is_true(&self, minute: i64) -> bool {
        let last = self.samples.iter().rev().find(|sample| sample.minute <= minute);
        minute <= self.asked && last.is_some_and(|sample| sample.truth)
    }

    /// Minutes before which nothing is true.
    fn start(&self) -> i64 {
        self.samples.first().map_or(self.asked, |sample| sample.minute)
    }
}

/// A history that passes the checks 18 to 20, with its annotation.
pub fn read(numbers: &[i64; NUMBERS], samples: &[i64], asked: i64) -> Result<(Annotation, History), Answer> {
    let samples: Vec<Sample> = samples.iter().map(|&number| Sample::read(number)).collect();
    if !is_minute(asked) || samples.iter().any(|sample| !is_minute(sample.minute)) {
        return Err(OUT_OF_RANGE);
    }
    let annotation = Annotation::read(numbers).ok_or(OUT_OF_RANGE)?;
    if samples.len() > MOST_SAMPLES {
        return Err(MANY_SAMPLES);
    }
    let rising = samples.windows(2).all(|pair| pair[0].minute < pair[1].minute);
    if !rising || samples.last().is_some_and(|last| asked < last.minute) {
        return Err(TIMES_ORDER);
    }
    Ok((annotation, History { samples, asked }))
}

// ------------------------------------------------------------------------------------------------
// The slow way
// ------------------------------------------------------------------------------------------------

/// The eight criteria of an interval from t1 to t2, in the order of document 003, where `is_true` tells the underlying condition. "02: An
/// interval runs from its first to its last minute, [..] and its duration is their difference." A bound that is open asks nothing, and no
/// interval starts or finishes at it.
pub fn criteria(ta: &Annotation, is_true: impl Fn(i64) -> bool, t1: i64, t2: i64) -> [bool; 8] {
    let (est, lst, eft, lft) = (ta.minute(ta.ess), ta.minute(ta.lss), ta.minute(ta.efs), ta.minute(ta.lfs));
    [
        // "003: I is at least as long as the minimum duration"
        t2 - t1 >= ta.min_du,
        // "003: I is not longer than the maximum duration"
        ta.max_du.is_none_or(|max_du| t2 - t1 <= max_du),
        // "003: the starting point of I is not sooner than the reference point plus the earliest starting shift"
        est.is_none_or(|est| t1 >= est),
        // "003: the starting point of I is not later than the reference point plus the latest starting shift"
        lst.is_none_or(|lst| t1 <= lst),
        // "003: the finishing point of I is not sooner than the reference point plus the earliest finishing shift"
        eft.is_none_or(|eft| t2 >= eft),
        // "003: the finishing point of I is not later than the reference point plus the latest finishing shift"
        lft.is_none_or(|lft| t2 <= lft),
        // "003: the underlying condition was not true directly before the earliest time of I or the earliest time of I is the earliest
        //  starting shift plus the reference point"
        !is_true(t1 - 1) || est == Some(t1),
        // "003: the underlying condition was not true directly after the latest time of I or the latest time of I is the latest finishing
        //  shift plus the reference point"
        !is_true(t2 + 1) || lft == Some(t2),
    ]
}

/// "003: if and only if there is an interval I during which the underlying condition evaluated to true. Eight criteria have to be met": all
/// intervals from `low` to `high`, outside of which nothing is true.
fn some_interval_satisfies(ta: &Annotation, is_true: impl Fn(i64) -> bool, low: i64, high: i64) -> bool {
    let intervals = (low..=high).flat_map(|t1| (t1..=high).map(move |t2| (t1, t2)));
    let mut those_during_which_it_is_true = intervals.filter(|&(t1, t2)| (t1..=t2).all(&is_true));
    those_during_which_it_is_true.any(|(t1, t2)| criteria(ta, &is_true, t1, t2) == [true; 8])
}

fn satisfied_slowly(ta: &Annotation, history: &History) -> bool {
    some_interval_satisfies(ta, |minute| history.is_true(minute), history.start(), history.asked)
}

/// "02: some continuation of the history, of any length, satisfies it": all continuations that are true in some of the `length` minutes
/// after the minute of asking and not later.
fn satisfiable_slowly(ta: &Annotation, history: &History, length: i64) -> bool {
    let asked = history.asked;
    (0..1_u64 << length).any(|continuation| {
        let is_true = |minute: i64| match minute - asked {
            after @ 1.. => after <= length && continuation >> (after - 1) & 1 == 1,
            _ => history.is_true(minute),
        };
        some_interval_satisfies(ta, is_true, history.start(), asked + length)
    })
}

/// How many minutes after the minute of asking are as good as any number of them. Of all continuations that satisfy, and all intervals in
/// them that do, take one that finishes earliest. If it finishes by the minute of asking, only the minute after that is looked at, and it
/// may be false. Else let nothing be true after the interval: it still satisfies. Then
/// - it starts by asked + 2, or by the earliest start or finish: otherwise all of it could be a minute earlier, after a false minute;
/// - it finishes by its start + minDu, or by the earliest finish, or by asked: otherwise it could finish a minute earlier.
fn enough_minutes(ta: &Annotation, asked: i64) -> i64 {
    let start = [Some(asked + 2), ta.minute(ta.ess), ta.minute(ta.efs)].into_iter().flatten().max().unwrap_or(asked);
    start + ta.min_du - asked
}

/// Satisfied and satisfiable, by all intervals and all continuations; None where they are too many.
pub fn judge_slowly(ta: &Annotation, history: &History) -> Option<(bool, bool)> {
    let minutes = enough_minutes(ta, history.asked);
    let affordable = minutes <= 10 && history.asked - history.start() <= 30;
    affordable.then(|| (satisfied_slowly(ta, history), satisfiable_slowly(ta, history, minutes)))
}

/// "001: an interval [a, b] is matched by a time annotation TA [..] iff a in TA.sti, b in TA.fti and b - a in TA.dti": the first six of the
/// eight criteria.
pub fn is_matched(ta: &Annotation, t1: i64, t2: i64) -> bool {
    t1 <= t2 && criteria(ta, |_| false, t1, t2) == [true; 8]
}

/// Whether an interval is matched, by a search through all those that lie no farther than 3B from the reference point, B being the largest
/// number of the annotation; None where they are too many. They are enough: as long as both ends lie more than B beyond the point, on one
/// side, both can go a minute nearer; then one of them is within B, and the other can go nearer while it is over 2B beyond the point.
pub fn admits_slowly(ta: &Annotation) -> Option<bool> {
    let around_0 = Annotation { reference: 0, ..*ta };
    let largest = around_0.numbers().into_iter().filter(|&number| number != OPEN).map(i64::abs).max().unwrap_or(0);
    let near = -3 * largest..=3 * largest;
    (largest <= 6).then(|| near.clone().any(|t1| near.clone().any(|t2| is_matched(&around_0, t1, t2))))
}

// ------------------------------------------------------------------------------------------------
// The fast way
// ------------------------------------------------------------------------------------------------

/// From its first to its last minute.
#[derive(Clone, Copy, PartialEq, Debug)]
pub struct Interval {
    pub first: i64,
    pub last: i64,
}

/// The longest intervals at all minutes of which it is true, in their order. Samples that say the same as the one before add nothing.
pub fn runs(history: &History) -> Vec<Interval> {
    let mut runs: Vec<Interval> = Vec::new();
    let ends = history.samples.iter().skip(1).map(|next| next.minute - 1).chain([history.asked]);
    for (sample, last) in history.samples.iter().zip(ends) {
        match runs.last_mut() {
            _ if !sample.truth => {}
            Some(run) if run.last + 1 == sample.minute => run.last = last,
            _ => runs.push(Interval { first: sample.minute, last }),
        }
    }
    runs
}

/// The intervals of a run that the last two criteria leave: from the run's start or the earliest start to the run's end or the latest
/// finish. Those that keep the other six satisfy.
pub fn satisfying(ta: &Annotation, run: Interval) -> Vec<Interval> {
    let starts = [Some(run.first), ta.minute(ta.ess)];
    let finishes = [Some(run.last), ta.minute(ta.lfs)];
    let pairs = starts.into_iter().flatten().flat_map(|first| finishes.into_iter().flatten().map(move |last| Interval { first, last }));
    pairs.filter(|i| run.first <= i.first && i.last <= run.last && is_matched(ta, i.first, i.last)).collect()
}

/// Whether a run that is true at the minute of asking can go on and satisfy. It can be ended at any minute from there on, so the interval
/// may finish there too; it starts with the run, or at the earliest start, which may still be to come.
pub fn can_go_on(ta: &Annotation, run: Interval) -> bool {
    let starts = [Some(run.first), ta.minute(ta.ess).filter(|&est| est >= run.first)];
    starts.into_iter().flatten().any(|first| {
        let soonest = [Some(run.last), Some(first + ta.min_du), ta.minute(ta.efs)].into_iter().flatten().max();
        soonest.is_some_and(|last| is_matched(ta, first, last))
    })
}

/// Whether a fresh run that starts at the minute `soonest` or later can satisfy: after it all may be false, so that any interval from there
/// on will do that is matched.
pub fn can_begin(ta: &Annotation, soonest: i64) -> bool {
    admits(&Annotation { ess: Some(ta.ess.map_or(soonest - ta.reference, |ess| ess.max(soonest - ta.reference))), ..*ta })
}

/// The first minute after the asking at which a fresh run can start: the next, or the one after it if the next would only go on with a run.
pub fn soonest_start(history: &History, going_on: Option<Interval>) -> i64 {
    history.asked + if going_on.is_some() { 2 } else { 1 }
}

/// The run that is true at the minute of asking.
pub fn going_on(history: &History, runs: &[Interval]) -> Option<Interval> {
    runs.last().copied().filter(|run| run.last == history.asked)
}

/// Whether an interval is matched. A start has a finish exactly where start + minDu and the earliest finish are not after start + maxDu
/// or the latest finish; that says of the start no more than two further bounds.
pub fn admits(ta: &Annotation) -> bool {
    let not_after = |low: Option<i64>, high: Option<i64>| low.zip(high).is_none_or(|(low, high)| low <= high);
    let earliest = latest_of(ta.ess, minus(ta.efs, ta.max_du));
    let latest = earliest_of(ta.lss, minus(ta.lfs, Some(ta.min_du)));
    not_after(earliest, latest) && not_after(Some(ta.min_du), ta.max_du) && not_after(ta.efs, ta.lfs)
}

/// Of lower bounds, where an open one is -infinity.
fn latest_of(a: Option<i64>, b: Option<i64>) -> Option<i64> {
    a.into_iter().chain(b).max()
}

/// Of upper bounds, where an open one is infinity.
fn earliest_of(a: Option<i64>, b: Option<i64>) -> Option<i64> {
    a.into_iter().chain(b).min()
}

/// Open, and so infinite, where one of the two is: in the formulas the sign is always that for which this asks nothing.
fn plus(a: Option<i64>, b: Option<i64>) -> Option<i64> {
    a.zip(b).map(|(a, b)| a + b)
}

fn minus(a: Option<i64>, b: Option<i64>) -> Option<i64> {
    plus(a, b.map(|b| -b))
}

/// "001: TA'.ess = max(TA.ess, TA.efs - TA.maxDu)" and so on, all six from the old values.
pub fn formulas(ta: &Annotation) -> Annotation {
    let min_du = Some(ta.min_du);
    Annotation {
        ess: latest_of(ta.ess, minus(ta.efs, ta.max_du)),
        lss: earliest_of(ta.lss, minus(ta.lfs, min_du)),
        efs: latest_of(ta.efs, plus(ta.ess, min_du)),
        lfs: earliest_of(ta.lfs, plus(ta.lss, ta.max_du)),
        min_du: minus(ta.efs, ta.lss).map_or(ta.min_du, |least| least.max(ta.min_du)),
        max_du: earliest_of(ta.max_du, minus(ta.lfs, ta.ess)),
        reference: ta.reference,
    }
}

// ------------------------------------------------------------------------------------------------
// The calls
// ------------------------------------------------------------------------------------------------

/// Satisfied and satisfiable.
pub fn judge(ta: &Annotation, history: &History) -> (bool, bool) {
    let runs = runs(history);
    let satisfied = runs.iter().any(|&run| !satisfying(ta, run).is_empty());
    let going_on = going_on(history, &runs);
    let can_be = going_on.is_some_and(|run| can_go_on(ta, run)) || can_begin(ta, soonest_start(history, going_on));
    (satisfied, satisfied || can_be)
}

/// asbru_pattern: 1 in the plan's place says satisfied, 2 satisfiable.
pub fn pattern(numbers: &[i64; NUMBERS], samples: &[i64], asked: i64) -> Answer {
    match read(numbers, samples, asked) {
        Err(refusal) => refusal,
        Ok((annotation, history)) => {
            let (satisfied, satisfiable) = judge_slowly(&annotation, &history).unwrap_or_else(|| judge(&annotation, &history));
            (u64::from(satisfied) + 2 * u64::from(satisfiable)) << 16
        }
    }
}

/// asbru_normalise.
pub fn normalise(numbers: &mut [i64; NUMBERS]) -> Answer {
    let Some(annotation) = Annotation::read(numbers) else { return OUT_OF_RANGE };
    if !admits_slowly(&annotation).unwrap_or_else(|| admits(&annotation)) {
        return NO_INTERVAL;
    }
    let normal = formulas(&annotation).numbers();
    if (0..NUMBERS).any(|place| !is_in_range(place, normal[place])) {
        return NORMAL_RANGE;
    }
    *numbers = normal;
    0
}

/// asbru_with_pattern, from asbru.h: "the bit for satisfied and, of ASBRU_FILTER, ASBRU_SETUP and ASBRU_IF, the bit for satisfiable; all
/// other bits stay".
pub fn with_pattern(word: u32, condition: u32, answer: Answer) -> u32 {
    // bits 0 to 5 satisfied, 6 and 7 satisfiable of filter and setup, 20 and 21 of an if-then-else
    let (satisfied, satisfiable) = match condition {
        0 | 1 => (1 << condition, 1 << (6 + condition)),
        2..=5 => (1 << condition, 0),
        6 => (1 << 20, 1 << 21),
        _ => return word,
    };
    if answer & 0xFFFF != 0 {
        return word;
    }
    let set = |word: u32, bits: u32, yes: bool| if yes { word | bits } else { word & !bits };
    set(set(word, satisfied, answer >> 16 & 1 == 1), satisfiable, answer >> 17 & 1 == 1)
}
