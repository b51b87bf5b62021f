//! Compares what `aptime` prints with held_reference.rs and a reading of the text of our own, on random texts.
//!
//!     questions PROGRAM [ARGS..] --seed S --texts N
//!
//! starts PROGRAM anew for each text: an annotation and a history of `held_cases`, written down with more blanks and remarks than need be,
//! and in any order that says the same; one in two has a line that is wrong, some are longer than the program takes. A difference prints
//! the seed and the text, and the status is then 1; it is 1 too where `REACH_FROM` texts or more do not reach all of `wanted`.

#[allow(dead_code)]
mod dice;
#[allow(dead_code)]
mod held_cases;
#[allow(dead_code)]
mod held_reference;
mod program;
#[allow(dead_code)]
mod tally;

use dice::Dice;
use held_cases::{next_call, Call};
use held_reference::{self as reference, LEAST, MOST_MINUTES, NUMBERS, OPEN, REFERENCE};
use program::{printed, refusal_line, Options, MOST_BYTES};
use std::process::ExitCode;
use tally::Lines;

/// So many texts are compared if it is not said; from so many on a run is held to what it must reach.
const REACH_FROM: usize = 600;

fn main() -> ExitCode {
    let Options { program, seed, count: texts } = Options::from_arguments("--texts", REACH_FROM);
    let mut dice = Dice::new(seed);
    let mut reached = Lines::default();
    for _ in 0..texts {
        let text = next_text(&mut dice);
        let (expected, got) = (answer(&text, &mut reached), printed(&program, &text));
        if got != expected {
            println!("DIFFERENCE\nseed {seed}\ntext \"{}\"\nexpected {expected:?}\nreceived {got:?}", text.escape_ascii());
            return ExitCode::FAILURE;
        }
    }
    println!("seed {seed}: {texts} texts, no difference");
    let wanted = wanted();
    reached.print("  faults, answers and ways to write", &wanted);
    match reached.are_possible(&wanted).and_then(|()| if texts < REACH_FROM { Ok(()) } else { reached.are_all(&wanted) }) {
        Ok(()) => ExitCode::SUCCESS,
        Err(what) => {
            println!("{what}");
            ExitCode::FAILURE
        }
    }
}

// ------------------------------------------------------------------------------------------------
// A reading of the text
// ------------------------------------------------------------------------------------------------

const NO_STATEMENT: &str = "not a statement";
const NO_NUMBER: &str = "a number was expected";
const NO_DOTS: &str = "'..' was expected";
const NO_TRUTH: &str = "'true' or 'false' was expected";
const MORE: &str = "something follows the statement";
const AGAIN: &str = "said before";
const NOT_ASKED: &str = "'asked' is missing";

/// Statements of two bounds, and of one number: each is said once, and has the place of its first number. The minute of asking stands
/// behind the seven numbers of the annotation.
const PAIRS: [(&str, usize); 3] = [("start", 0), ("finish", 2), ("lasts", LEAST)];
const SINGLES: [(&str, usize); 2] = [("from", REFERENCE), ("asked", ASKED)];
const ASKED: usize = NUMBERS;

/// What a text says; None where it does not.
#[derive(Default)]
struct Said {
    numbers: [Option<i64>; NUMBERS + 1],
    samples: Vec<i64>,
}

/// What is wrong with a line: the words that are printed, and at which word of which statement.
struct Fault {
    what: &'static str,
    head: String,
    at: usize,
}

/// What a text says, or its first line that is wrong, counted from 1.
fn read(text: &[u8]) -> Result<Said, (usize, Fault)> {
    let mut said = Said::default();
    let lines = lines_of(text);
    for (at, line) in lines.iter().enumerate() {
        said.take_in(&words_of(line)).map_err(|fault| (at + 1, fault))?;
    }
    match said.numbers[ASKED] {
        Some(_) => Ok(said),
        None => Err((lines.len() + 1, Fault { what: NOT_ASKED, head: "a text".to_string(), at: 0 })),
    }
}

/// What follows the last newline is a line only if there is something.
fn lines_of(text: &[u8]) -> Vec<&[u8]> {
    let mut lines: Vec<&[u8]> = text.split(|&byte| byte == b'\n').collect();
    if lines.last().is_some_and(|last| last.is_empty()) {
        lines.pop();
    }
    lines
}

/// Bytes that are no letters of any text make a word that means nothing, whatever is put for them.
fn words_of(line: &[u8]) -> Vec<String> {
    let words = line.split(|&byte| byte <= b' ').filter(|word| !word.is_empty());
    words.map(|word| String::from_utf8_lossy(word).into_owned()).collect()
}

impl Said {
    fn take_in(&mut self, words: &[String]) -> Result<(), Fault> {
        let word = |at: usize| words.get(at).map_or("", |word| word.as_str());
        let head = word(0);
        if head.is_empty() || head.starts_with('#') {
            return Ok(());
        }
        let fault = |what, at| Fault { what, head: head.to_string(), at };
        let number = |at| number_of(word(at)).ok_or(fault(NO_NUMBER, at));
        let bound = |at, open| if word(at) == "_" { Ok(open) } else { number(at) };
        let ends = |at| if words.len() > at { Err(fault(MORE, at)) } else { Ok(()) };
        if let Some(&(_, place)) = PAIRS.iter().find(|pair| pair.0 == head) {
            // an open least duration is 0
            let first = bound(1, if place == LEAST { 0 } else { OPEN })?;
            let dots = word(2) == "..";
            let last = dots.then(|| bound(3, OPEN)).ok_or(fault(NO_DOTS, 2))??;
            ends(4)?;
            self.say(place, &[first, last]).ok_or(fault(AGAIN, 0))
        } else if let Some(&(_, place)) = SINGLES.iter().find(|single| single.0 == head) {
            let only = number(1)?;
            ends(2)?;
            self.say(place, &[only]).ok_or(fault(AGAIN, 0))
        } else if head == "at" {
            let minute = number(1)?;
            let truth: bool = word(2).parse().map_err(|_| fault(NO_TRUTH, 2))?;
            ends(3)?;
            self.samples.push(2 * minute + i64::from(truth));
            Ok(())
        } else {
            Err(Fault { what: NO_STATEMENT, head: "a line".to_string(), at: 0 })
        }
    }

    /// None if it was said before.
    fn say(&mut self, place: usize, numbers: &[i64]) -> Option<()> {
        for (kept, &number) in self.numbers[place..].iter_mut().zip(numbers) {
            if kept.replace(number).is_some() {
                return None;
            }
        }
        Some(())
    }

    /// "001: Table 1", the defaults: open, and 0 for the least duration. The reference point is 0.
    fn annotation(&self) -> [i64; NUMBERS] {
        let mut numbers = [OPEN; NUMBERS];
        (numbers[LEAST], numbers[REFERENCE]) = (0, 0);
        for (number, said) in numbers.iter_mut().zip(self.numbers) {
            *number = said.unwrap_or(*number);
        }
        numbers
    }
}

/// `-` if it is negative, then one to ten digits.
fn number_of(word: &str) -> Option<i64> {
    let digits = word.strip_prefix('-').unwrap_or(word);
    let is_number = (1..=10).contains(&digits.len()) && digits.bytes().all(|byte| byte.is_ascii_digit());
    is_number.then(|| word.parse().expect("ten digits are a number"))
}

// ------------------------------------------------------------------------------------------------
// What is printed
// ------------------------------------------------------------------------------------------------

/// All that is printed for a text; what kind of text and answer it was is counted.
fn answer(text: &[u8], reached: &mut Lines) -> String {
    if text.len() > MOST_BYTES {
        reached.count("refused 16".to_string());
        return refusal_line(16);
    }
    let said = match read(text) {
        Ok(said) => said,
        Err((line, Fault { what, head, at })) => {
            reached.count(fault_of(what, &head, at));
            return format!("line {line}: {what}\n");
        }
    };
    count_writing(reached, text, &said);
    let (numbers, asked) = (said.annotation(), said.numbers[ASKED].expect("it was asked"));
    let judged = reference::pattern(&numbers, &said.samples, asked);
    if judged & 0xFFFF != 0 {
        reached.count(format!("refused {judged}"));
        return refusal_line(judged);
    }
    let (kind, verdict) = match judged >> 16 {
        3 => ("satisfied", satisfied(&numbers, &said.samples, asked)),
        2 => ("satisfiable", "not satisfied\nsatisfiable\n".to_string()),
        _ => ("neither", "not satisfied\nnot satisfiable\n".to_string()),
    };
    let mut normal = numbers;
    let normalised = reference::normalise(&mut normal);
    reached.count(of_normal(kind, normalised));
    match normalised {
        0 => verdict + &normal_form(&normal),
        refusal => verdict + "no normal form: " + &refusal_line(refusal),
    }
}

/// The earliest interval that satisfies. Of those that do no two start at the same minute.
fn satisfied(numbers: &[i64; NUMBERS], samples: &[i64], asked: i64) -> String {
    let (ta, history) = reference::read(numbers, samples, asked).expect("it is satisfied");
    let intervals = reference::runs(&history).into_iter().flat_map(|run| reference::satisfying(&ta, run));
    let earliest = intervals.min_by_key(|interval| interval.first).expect("it is satisfied");
    format!("satisfied by {} .. {}\nsatisfiable\n", earliest.first, earliest.last)
}

fn normal_form(numbers: &[i64; NUMBERS]) -> String {
    let told = numbers.map(|number| if number == OPEN { "_".to_string() } else { number.to_string() });
    let pairs = PAIRS.map(|(head, place)| format!("{head} {} .. {}\n", told[place], told[place + 1]));
    format!("normal form:\n{}from {}\n", pairs.concat(), told[REFERENCE])
}

// ------------------------------------------------------------------------------------------------
// What must be reached
// ------------------------------------------------------------------------------------------------

fn fault_of(what: &str, head: &str, at: usize) -> String {
    format!("{what}: {head}, word {at}")
}

fn of_normal(kind: &str, normalised: u64) -> String {
    match normalised {
        0 => format!("{kind}, and a normal form"),
        refusal => format!("{kind}, and no normal form by {refusal}"),
    }
}

fn not_said(head: &str) -> String {
    format!("nothing of {head}")
}

/// Ways to write, counted where all of a text is read: each with whether a text or word has it.
type Way<T> = (&'static str, fn(&T) -> bool);
const OF_TEXTS: [Way<[u8]>; 4] = [
    ("no newline at the end", |text| text.last() != Some(&b'\n')),
    ("a carriage return before each newline", |text| text.contains(&b'\r') && count(text, b"\r\n") == count(text, b"\n")),
    ("an empty line", |text| count(text, b"\n\n") > 0),
    ("65,536 bytes", |text| text.len() == MOST_BYTES),
];
const OF_WORDS: [Way<str>; 6] = [
    ("a remark", |word| word.starts_with('#')),
    ("an open bound", |word| word == "_"),
    ("-0", |word| word == "-0"),
    ("zeros in front", |word| word.trim_start_matches('-').starts_with("00") && number_of(word).is_some()),
    ("the greatest minute", |word| word == MOST_MINUTES.to_string()),
    ("the least minute", |word| word == (-MOST_MINUTES).to_string()),
];

fn count(text: &[u8], part: &[u8]) -> usize {
    text.windows(part.len()).filter(|&bytes| bytes == part).count()
}

fn count_writing(reached: &mut Lines, text: &[u8], said: &Said) {
    let mut count_if = |holds: bool, what: &str| {
        if holds {
            reached.count(what.to_string());
        }
    };
    for (what, holds) in OF_TEXTS {
        count_if(holds(text), what);
    }
    let words: Vec<String> = lines_of(text).into_iter().flat_map(words_of).collect();
    for (what, holds) in OF_WORDS {
        count_if(words.iter().any(|word| holds(word)), what);
    }
    for (head, place) in PAIRS.into_iter().chain(SINGLES) {
        count_if(said.numbers[place].is_none(), &not_said(head));
    }
    count_if(said.samples.is_empty(), &not_said("at"));
}

fn wanted() -> Vec<String> {
    let mut wanted = vec![fault_of(NO_STATEMENT, "a line", 0), fault_of(NOT_ASKED, "a text", 0)];
    for (head, _) in PAIRS {
        let faults = [(NO_NUMBER, 1), (NO_DOTS, 2), (NO_NUMBER, 3), (MORE, 4), (AGAIN, 0)];
        wanted.extend(faults.map(|(what, at)| fault_of(what, head, at)));
    }
    for (head, _) in SINGLES {
        wanted.extend([(NO_NUMBER, 1), (MORE, 2), (AGAIN, 0)].map(|(what, at)| fault_of(what, head, at)));
    }
    wanted.extend([(NO_NUMBER, 1), (NO_TRUTH, 2), (MORE, 3)].map(|(what, at)| fault_of(what, "at", at)));
    wanted.extend([16, 18, 19, 20].map(|number| format!("refused {number}")));
    // what admits no interval is neither satisfied nor satisfiable
    wanted.extend(["satisfied", "satisfiable", "neither"].into_iter().flat_map(|kind| [0, 26].map(|number| of_normal(kind, number))));
    wanted.push(of_normal("neither", 21));
    wanted.extend(OF_TEXTS.map(|way| way.0.to_string()));
    wanted.extend(OF_WORDS.map(|way| way.0.to_string()));
    wanted.extend(["start", "finish", "lasts", "from", "at"].map(not_said));
    wanted
}

// ------------------------------------------------------------------------------------------------
// Texts
// ------------------------------------------------------------------------------------------------

type Line = Vec<String>;

fn next_text(dice: &mut Dice) -> Vec<u8> {
    if dice.percent(2) {
        return scrap(dice);
    }
    let (mut numbers, samples, asked) = loop {
        if let Call::Pattern { numbers, samples, asked } = next_call(dice) {
            break (numbers, samples, asked);
        }
    };
    if dice.percent(5) {
        // bounds that ask for next to nothing, and whose normal form is out of range
        (numbers[0], numbers[2], numbers[5]) = (OPEN, -MOST_MINUTES, MOST_MINUTES);
    }
    let mut lines: Vec<Line> = samples.iter().map(|&sample| at_line(dice, sample)).collect();
    let mut once: Vec<Line> = PAIRS.iter().filter_map(|&(head, place)| pair_line(dice, head, &numbers[place..place + 2])).collect();
    if numbers[REFERENCE] != 0 || dice.percent(50) {
        once.push(vec!["from".to_string(), written(dice, numbers[REFERENCE])]);
    }
    once.push(vec!["asked".to_string(), written(dice, asked)]);
    // samples keep their order, all else stands anywhere among them
    for line in once {
        lines.insert(dice.below(lines.len() + 1), line);
    }
    if dice.percent(50) {
        spoil(dice, &mut lines);
    }
    text_of(dice, &lines)
}

/// A text without any sense.
fn scrap(dice: &mut Dice) -> Vec<u8> {
    let bytes = [dice.byte(), b'\n', b' ', b'#', b'-', b'0', b'.', b'_', 0, 255];
    (0..dice.below(40)).map(|_| dice.one_of(&bytes)).collect()
}

fn at_line(dice: &mut Dice, sample: i64) -> Line {
    let truth = (sample.rem_euclid(2) == 1).to_string();
    vec!["at".to_string(), written(dice, sample.div_euclid(2)), truth]
}

/// Two bounds; at times None if they are the defaults.
fn pair_line(dice: &mut Dice, head: &str, bounds: &[i64]) -> Option<Line> {
    let default = if head == "lasts" { 0 } else { OPEN };
    let is_default = bounds == [default, OPEN];
    let first = if bounds[0] == default && dice.percent(50) { "_".to_string() } else { written(dice, bounds[0]) };
    let line = vec![head.to_string(), first, "..".to_string(), written(dice, bounds[1])];
    (!is_default || dice.percent(50)).then_some(line)
}

fn written(dice: &mut Dice, number: i64) -> String {
    match number {
        OPEN => "_".to_string(),
        0 => dice.one_of(&["0", "0", "-0", "000"]).to_string(),
        _ if dice.percent(5) => format!("{number:04}"),
        _ => number.to_string(),
    }
}

/// Words that are taken for others by who reads too little or too much of them.
const WRONG_WORDS: [&str; 25] = [
    "", "-", "--1", "+1", "1-", "1!", "!1", "1\u{a0}", "1.0", "1..2", "0x1", "12345678901", "00000000001", "-00000000001", "_1", "__",
    "...", ".", "True", "true1", "tru", "Start", "starts", "ask", "a#",
];

/// Makes a line wrong: another word, a word less, a word more, said twice, or not at all.
fn spoil(dice: &mut Dice, lines: &mut Vec<Line>) {
    let heads = ["start", "finish", "lasts", "from", "asked", "at"];
    let head = dice.one_of(&heads);
    let Some(at) = lines.iter().position(|line| line[0] == head) else { return };
    let line = &mut lines[at];
    let place = dice.between(1, line.len() - 1);
    match dice.below(10) {
        0..=3 => line[place] = dice.one_of(&WRONG_WORDS).to_string(),
        4..=5 => line.push(dice.one_of(&["_", "..", "0", "true", "#"]).to_string()),
        6 => line.truncate(place),
        7..=8 => {
            let again = line.clone();
            lines.insert(dice.between(at + 1, lines.len()), again);
        }
        _ if dice.percent(50) => line[0] = dice.one_of(&WRONG_WORDS).to_string(),
        _ => {
            lines.remove(at);
        }
    }
}

/// Lines as bytes, with blanks, remarks and empty lines among them; at times as long as the program takes, or longer.
fn text_of(dice: &mut Dice, lines: &[Line]) -> Vec<u8> {
    let end = dice.one_of(&["\n", "\n", "\r\n", " \n"]);
    let airy = dice.percent(30);
    let mut text = String::new();
    for line in lines {
        if airy && dice.percent(30) {
            text += dice.one_of(&["", "# from 1", " #", "#at 2 true", "\t"]);
            text += end;
        }
        text += &line.join(if airy { dice.one_of(&["  ", "\t", " \0 ", "\r"]) } else { " " });
        text += end;
    }
    if dice.percent(10) {
        text.pop();
    }
    let mut text = text.into_bytes();
    if dice.percent(5) {
        // a remark, unless there was no newline: then it follows the last statement
        text.push(b'#');
        text.resize(dice.between(MOST_BYTES - 1, MOST_BYTES + 1), b'x');
    }
    text
}
