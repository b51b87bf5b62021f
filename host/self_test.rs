//! Tests of the reference itself: `rustc --test differ.rs`.

use crate::cases;
use crate::dice::Dice;
use crate::formula_cases::Order;
use crate::move_cases::{self, To, AMPLE};
use crate::reference::{self, answer, Before, Plan, Rule};
use crate::same_steps::Pair;

// ------------------------------------------------------------------------------------------------
// "Small protocols to try"
// ------------------------------------------------------------------------------------------------

/// "T1: root any-order, m 2, no conditions; leaves 1 and 2, named, complete present."
const T1: [u8; 32] = [
    0x41, 0x50, 0x54, 0x01, 0x00, 0x03, 0x00, 0x00, //
    0xFF, 0xFF, 0x03, 0x00, 0x00, 0x00, 0x00, 0x02, //
    0x00, 0x00, 0x00, 0x04, 0x20, 0x00, 0x00, 0x00, //
    0x00, 0x00, 0x00, 0x04, 0x20, 0x00, 0x00, 0x00,
];

/// T1 with other bytes: pairs of a place and a byte.
fn t1_with(changes: &[(usize, u8)]) -> Vec<u8> {
    changed(&T1, changes)
}

fn changed(table: &[u8], changes: &[(usize, u8)]) -> Vec<u8> {
    let mut table = table.to_vec();
    for &(at, byte) in changes {
        table[at] = byte;
    }
    table
}

/// The place of byte `at` of plan p's entry.
fn place(p: usize, at: usize) -> usize {
    8 + 8 * p + at
}

fn bytes(words: [u32; 3]) -> Vec<u8> {
    cases::bytes_of_words(&words)
}

/// A step of which the test does not ask the causes: as many are lent as states. They are 0 exactly where a state stays.
fn step(rule: u32, table: &[u8], states: &mut [u8], words: &[u8]) -> u64 {
    let (before, mut causes) = (states.to_vec(), vec![0; states.len()]);
    let answer = reference::step(rule, table, states, words, &mut causes);
    assert!((0..states.len()).all(|p| (causes[p] == 0) == (states[p] == before[p])), "from {before:?} to {states:?}: {causes:?}");
    answer
}

type Rest = fn(u32, &[u8], &mut [u8], &[u8], &mut [u8], u16) -> u64;

const RUNS: [Rest; 2] = [reference::rest, reference::rest_jumping];

/// A run of which the test does not ask the causes.
fn run(rest: Rest, rule: u32, table: &[u8], states: &mut [u8], words: &[u8], budget: u16) -> u64 {
    let mut causes = vec![0; states.len()];
    rest(rule, table, states, words, &mut causes, budget)
}

fn expect_step_by(rule: u32, table: &[u8], from: [u8; 3], words: [u32; 3], to: [u8; 3]) {
    let mut states = from;
    assert_eq!(step(rule, table, &mut states, &bytes(words)), 0);
    assert_eq!(states, to, "by rule {rule} from {from:?} with {words:?}");
}

/// By both rules, as all below that name none.
fn expect_step(table: &[u8], from: [u8; 3], words: [u32; 3], to: [u8; 3]) {
    for rule in [1, 2] {
        expect_step_by(rule, table, from, words, to);
    }
}

fn expect_refusal(table: &[u8], states: [u8; 3], words: [u32; 3], expected: u64) {
    for rule in [1, 2] {
        let mut lent = states;
        assert_eq!(step(rule, table, &mut lent, &bytes(words)), expected);
        assert_eq!(lent, states);
    }
}

fn check(table: &[u8], record: &[u8]) -> u64 {
    let answer = reference::check(1, table, record);
    assert_eq!(reference::check(2, table, record), answer);
    answer
}

const FIRST_EIGHT: [[u8; 3]; 8] =
    [[1, 0, 0], [2, 0, 0], [3, 0, 0], [4, 0, 0], [4, 1, 1], [4, 2, 2], [4, 3, 3], [4, 4, 3]];

#[test]
fn t1_from_000() {
    let mut states = [0, 0, 0];
    for expected in FIRST_EIGHT {
        expect_step(&T1, states, [0, 0, 0], expected);
        states = expected;
    }
}

#[test]
fn t1_picks_and_completes() {
    expect_step(&T1, [4, 3, 3], [1 << 24, 0, 0], [4, 3, 4]);
    expect_step(&T1, [4, 4, 3], [0, 32, 0], [4, 6, 3]);
    expect_step(&T1, [4, 6, 3], [0, 0, 0], [4, 6, 4]);
    expect_step(&T1, [4, 6, 4], [0, 0, 32], [4, 6, 6]);
    expect_step(&T1, [4, 6, 6], [0, 0, 0], [6, 6, 6]);
}

#[test]
fn t1_rests() {
    for rest in RUNS {
        for rule in [1, 2] {
            let mut states = [0, 0, 0];
            assert_eq!(run(rest, rule, &T1, &mut states, &bytes([0, 0, 0]), 8), answer(0, 0, 8));
            assert_eq!(states, [4, 4, 3]);
            let mut states = [0, 0, 0];
            assert_eq!(run(rest, rule, &T1, &mut states, &bytes([0, 0, 0]), 7), answer(0, 1, 7));
            assert_eq!(states, [4, 3, 3]);
        }
    }
}

#[test]
fn t1_loses_children() {
    expect_step(&T1, [4, 7, 3], [0, 0, 0], [7, 7, 8]);
    let m_1 = t1_with(&[(place(0, 7), 1)]);
    expect_step(&m_1, [4, 7, 3], [0, 0, 0], [4, 7, 4]);
    let m_1_and_retry = t1_with(&[(place(0, 7), 1), (place(0, 3), 1)]);
    expect_step(&m_1_and_retry, [4, 7, 3], [0, 0, 0], [4, 1, 3]);
}

#[test]
fn t1_with_conditions() {
    let abort = t1_with(&[(place(0, 4), 16)]);
    expect_step(&abort, [4, 4, 3], [16, 0, 0], [7, 7, 8]);
    let suspend = t1_with(&[(place(0, 4), 4)]);
    expect_step(&suspend, [4, 4, 3], [4, 0, 0], [5, 5, 3]);
    expect_step(&suspend, [4, 4, 3], [4, 32, 0], [5, 5, 3]);
    expect_step(&suspend, [5, 5, 3], [0, 0, 0], [4, 4, 3]);
    let filter = t1_with(&[(place(1, 4), 33)]);
    expect_step(&filter, [4, 1, 1], [0, 0, 0], [4, 8, 2]);
    expect_step(&filter, [4, 1, 1], [0, 64, 0], [4, 1, 2]);
    expect_step(&filter, [4, 1, 1], [0, 65, 0], [4, 2, 2]);
}

#[test]
fn t1_refused() {
    expect_refusal(&T1, [0, 0, 0], [0, 1, 0], answer(12, 1, 0));
    expect_refusal(&T1, [0, 0, 0], [2 << 24, 0, 0], answer(12, 0, 0));
    expect_refusal(&T1, [4, 4, 4], [0, 0, 0], answer(11, 2, 0));
    expect_refusal(&t1_with(&[(place(0, 7), 3)]), [0, 0, 0], [0, 0, 0], answer(9, 0, 0));
    expect_refusal(&T1[..31], [0, 0, 0], [0, 0, 0], answer(5, 0, 0));
}

/// A root with n - 1 leaves that hang on the root, or on plan 1 from plan 65 on.
fn wide_table(n: usize, on_root: usize) -> Vec<u8> {
    let mut table = b"APT\x01\x00".to_vec();
    table.extend((n as u16).to_le_bytes());
    table.push(0);
    table.extend([255, 255, 4, 0, 0, 0, 0, 0]);
    for p in 1..n {
        let parent: u16 = if p <= on_root { 0 } else { p as u16 - 1 };
        let body = if p >= on_root && p + 1 < n { 4 } else { 0 };
        table.extend(parent.to_le_bytes());
        table.extend([body, 0, 0, 0, 0, 0]);
    }
    table
}

#[test]
fn sizes() {
    let number = |table: &[u8]| reference::read_table(table).err().unwrap_or(0);
    assert_eq!(number(&wide_table(257, 64)), answer(4, 0, 0));
    assert_eq!(number(&wide_table(256, 64)), 0);
    assert_eq!(number(&wide_table(100, 65)), answer(6, 65, 0));
    assert_eq!(number(&wide_table(100, 64)), 0);
    for length in 0..8 {
        assert_eq!(number(&T1[..length]), answer(1, 0, 0));
    }
    assert_eq!(number(&T1[..8]), answer(5, 0, 0));
}

fn record_of(steps: &[[u8; 3]]) -> Vec<u8> {
    let mut record = b"APR\x01\x00\x03\x00\x00".to_vec();
    for states in steps {
        record.extend([0; 12]);
        record.extend(states);
    }
    record
}

#[test]
fn records_of_t1() {
    let mut steps = FIRST_EIGHT;
    assert_eq!(check(&T1, &record_of(&[])), answer(0, 0, 0));
    assert_eq!(check(&T1, &record_of(&steps)), answer(0, 0, 8));
    steps[7] = [4, 3, 4];
    assert_eq!(check(&T1, &record_of(&steps)), answer(0, 0, 8));
    steps[7] = [4, 3, 3];
    assert_eq!(check(&T1, &record_of(&steps)), answer(15, 2, 8));
    steps[7] = [4, 4, 4];
    assert_eq!(check(&T1, &record_of(&steps)), answer(15, 2, 8));
    steps[7] = [4, 9, 4];
    assert_eq!(check(&T1, &record_of(&steps)), answer(15, 1, 8));
    assert_eq!(check(&T1, b"APR\x01\x00\x03\x00"), answer(13, 0, 0));
    assert_eq!(check(&T1, &record_of(&steps)[..22]), answer(14, 0, 0));
}

/// Plan 0 has the children 1 and 4, plan 1 the leaves 2 and 3.
#[test]
fn sub_trees_of_five_plans() {
    let mut table = b"APT\x01\x00\x05\x00\x00".to_vec();
    for (parent, body) in [(65_535u16, 4), (0, 1), (1, 0), (1, 0), (0, 0)] {
        table.extend(parent.to_le_bytes());
        table.extend([body, 0, 0, 0, 0, 0]);
    }
    let states = [10, 11, 12, 13, 14];
    let parts: [&[u8]; 7] = [&states, &[11, 12, 13], &[12], &[13], &[14], &[], &[]];
    for (p, part) in parts.into_iter().enumerate() {
        assert_eq!(reference::sub_tree(&table, &states, p), part, "of plan {p}");
    }
    let empty: &[u8] = &[];
    assert_eq!(reference::sub_tree(&table, &states, 65_535), empty);
    assert_eq!(reference::sub_tree(&table, &states[..4], 0), empty);
    assert_eq!(reference::sub_tree(&table, &[0; 6], 0), empty);
    assert_eq!(reference::sub_tree(&table[..47], &states, 0), empty);
}

// ------------------------------------------------------------------------------------------------
// Request (i) of document 02: bodies 5 to 8
// ------------------------------------------------------------------------------------------------

/// A root of this body with m 0 and two leaves that are not named, each with complete present.
fn two(body: u8) -> Vec<u8> {
    let entry = |parent: u16, body: u8| [parent as u8, (parent >> 8) as u8, body, 0, 32, 0, 0, 0];
    [*b"APT\x01\x00\x03\x00\x00", entry(65_535, body), entry(0, 0), entry(0, 0)].concat()
}

/// The same with wait-for-optional.
fn two_waiting(body: u8) -> Vec<u8> {
    changed(&two(body), &[(place(0, 3), 2)])
}

const IF_SATISFIED: u32 = 1 << 20;
const IF_SATISFIABLE: u32 = 1 << 21;

/// States in turn, each from the one before, under idle words.
fn expect_steps(table: &[u8], states: &[[u8; 3]]) {
    for pair in states.windows(2) {
        expect_step(table, pair[0], [0, 0, 0], pair[1]);
    }
}

#[test]
fn on_abort() {
    expect_step(&two(5), [4, 0, 0], [0, 0, 0], [4, 1, 0]);
    for rests in [[4, 4, 0], [4, 6, 0], [4, 8, 0]] {
        expect_step(&two(5), rests, [0, 0, 0], rests);
    }
    expect_step(&two(5), [4, 5, 0], [0, 0, 0], [4, 4, 0]);
    expect_steps(&two(5), &[[4, 7, 0], [4, 7, 1], [4, 7, 2], [4, 7, 3], [4, 7, 4], [4, 7, 4]]);
    expect_step(&two(5), [4, 7, 7], [0, 0, 0], [4, 7, 7]);
}

#[test]
fn on_suspend() {
    expect_steps(&two(6), &[[4, 5, 0], [4, 4, 1], [4, 4, 2], [4, 4, 3], [4, 4, 4]]);
    for rests in [[4, 4, 0], [4, 6, 0], [4, 7, 0], [4, 8, 0]] {
        expect_step(&two(6), rests, [0, 0, 0], rests);
    }
}

#[test]
fn on_abort_or_suspend() {
    expect_step(&two(7), [4, 5, 0], [0, 0, 0], [4, 4, 1]);
    expect_steps(&two(7), &[[4, 7, 0], [4, 7, 1], [4, 7, 2], [4, 7, 3], [4, 7, 4]]);
    for rests in [[4, 4, 0], [4, 6, 0], [4, 8, 0]] {
        expect_step(&two(7), rests, [0, 0, 0], rests);
    }
}

#[test]
fn if_then_else() {
    let both = IF_SATISFIED | IF_SATISFIABLE;
    expect_steps(&two(8), &[[4, 0, 0], [4, 0, 1], [4, 0, 2], [4, 0, 3], [4, 0, 4]]);
    expect_step(&two(8), [4, 0, 0], [IF_SATISFIABLE, 0, 0], [4, 0, 0]);
    expect_step(&two(8), [4, 0, 0], [both, 0, 0], [4, 1, 0]);
    expect_step(&two(8), [4, 3, 0], [0, 0, 0], [4, 4, 0]);
    // once a branch is taken the condition is not asked again
    for state in [4, 6, 7, 8] {
        expect_step(&two(8), [4, state, 0], [0, 0, 0], [4, state, 0]);
        expect_step(&two(8), [4, 0, state], [both, 0, 0], [4, 0, state]);
    }
}

/// No orders where the plan was not Activated or does not stay so.
#[test]
fn bodies_for_two_give_no_orders_unless_activated() {
    for body in 5..=8 {
        let suspend_too = changed(&two(body), &[(place(0, 4), 36)]);
        let bits = if body == 8 { IF_SATISFIED | IF_SATISFIABLE } else { 0 };
        expect_step(&suspend_too, [4, 3, 0], [bits | 4, 0, 0], [5, 3, 0]);
        expect_step(&suspend_too, [5, 3, 0], [bits, 0, 0], [4, 3, 0]);
        expect_step(&suspend_too, [5, 0, 0], [bits, 0, 0], [4, 0, 0]);
    }
}

#[test]
fn bodies_for_two_wait_for_optional() {
    for body in 5..=8 {
        let waits = two_waiting(body);
        expect_step(&waits, [4, 6, 0], [32, 0, 0], [6, 6, 0]);
        expect_step(&waits, [4, 8, 0], [32, 0, 0], [6, 8, 0]);
        let after_an_abort = if body == 5 || body == 7 { [4, 7, 1] } else { [6, 7, 0] };
        expect_step(&waits, [4, 7, 0], [32, 0, 0], after_an_abort);
        // an Inactive child beside one that goes on does not count, nor two Inactive ones
        expect_step(&waits, [4, 4, 0], [32, 0, 0], [4, 4, 0]);
        let considers = if body == 8 { [4, 0, 1] } else { [4, 1, 0] };
        expect_step(&waits, [4, 0, 0], [32, 0, 0], considers);
    }
    expect_step(&two_waiting(8), [4, 0, 6], [32, 0, 0], [6, 0, 6]);
    expect_step(&two_waiting(8), [4, 0, 7], [32, 0, 0], [6, 0, 7]);
    expect_step(&two_waiting(8), [4, 0, 4], [32, 0, 0], [4, 0, 4]);
    expect_step(&two_waiting(7), [4, 7, 4], [32, 0, 0], [4, 7, 4]);
    expect_step(&two_waiting(7), [4, 7, 6], [32, 0, 0], [6, 7, 6]);
    // bodies 1 to 4 count as before
    for body in 1..=4 {
        expect_step(&two_waiting(body), [4, 6, 0], [32, 0, 0], [4, 6, 1]);
    }
}

#[test]
fn bodies_for_two_refused() {
    for body in 0..=255 {
        let above = if body > 8 { answer(7, 0, 0) } else { 0 };
        let number = reference::read_table(&two(body)).err().unwrap_or(0);
        assert_eq!(number, if body == 0 { answer(8, 0, 0) } else { above }, "body {body}");
    }
    for body in 5..=8 {
        let mut three = two(body);
        three.extend_from_within(place(2, 0)..);
        three[5] = 4;
        let mut one = two(body);
        one.truncate(place(2, 0));
        one[5] = 2;
        let retries = changed(&two(body), &[(place(0, 3), 1)]);
        for table in [three, one, retries] {
            assert_eq!(reference::read_table(&table).err(), Some(answer(8, 0, 0)), "body {body}");
        }
    }
    // 11, at the second child
    for state in 1..=8 {
        for first in 0..=8 {
            let stands = [first == 7, (4..=7).contains(&first), (4..=7).contains(&first), first == 0];
            for body in 5..=8 {
                let mut states = [4, first, state];
                let number = step(2, &two(body), &mut states, &bytes([0, 0, 0]));
                let expected = if stands[usize::from(body) - 5] { 0 } else { answer(11, 2, 0) };
                assert_eq!(number, expected, "body {body}: 4, {first}, {state}");
            }
        }
    }
    // 12, in calls and in records
    for body in 1..=8 {
        for p in 0..3 {
            for bits in 1..4 {
                let mut words = [0, 0, 0];
                words[p] = bits << 20;
                let wrong = if body == 8 && p == 0 { bits == 1 } else { true };
                let expected = |step| if wrong { answer(12, p, step) } else { answer(0, 0, step) };
                let mut states = [0, 0, 0];
                assert_eq!(step(2, &two(body), &mut states, &bytes(words)), expected(0));
                let mut record = record_of(&[[1, 0, 0]]);
                record[8..20].copy_from_slice(&bytes(words));
                assert_eq!(check(&two(body), &record), expected(1));
            }
        }
    }
}

#[test]
fn records_with_a_second_child() {
    let abort = changed(&two(5), &[(place(1, 4), 48)]);
    let begun = [[1, 0, 0], [2, 0, 0], [3, 0, 0], [4, 0, 0], [4, 1, 0], [4, 2, 0], [4, 3, 0], [4, 4, 0]];
    let with = |after: &[[u8; 3]]| {
        let mut record = record_of(&[&begun[..], after].concat());
        // step 9: abort on plan 1
        record[8 + 15 * 8 + 4] = 16;
        check(&abort, &record)
    };
    assert_eq!(with(&[[4, 7, 0], [4, 7, 1], [4, 7, 2]]), answer(0, 0, 11));
    assert_eq!(with(&[[4, 7, 1], [4, 7, 2]]), answer(15, 2, 9));
    assert_eq!(with(&[[4, 7, 0], [4, 7, 0]]), answer(15, 2, 10));
}

// ------------------------------------------------------------------------------------------------
// Request (ii) of document 02: rules 1 and 2
// ------------------------------------------------------------------------------------------------

/// T1 with retry-aborted on plan 0.
fn t1_retrying() -> Vec<u8> {
    t1_with(&[(place(0, 3), 1)])
}

/// "T1 with retry goes from 473 to 413"; m 1 with retry, and m 2 without, stand in `t1_loses_children`.
#[test]
fn an_aborted_child_that_is_retried_is_lost_by_rule_1_only() {
    expect_step_by(1, &t1_retrying(), [4, 7, 3], [0, 0, 0], [7, 7, 8]);
    expect_step_by(2, &t1_retrying(), [4, 7, 3], [0, 0, 0], [4, 1, 3]);
    // both Aborted; and a Suspended plan, which does not retry
    expect_step_by(1, &t1_retrying(), [4, 7, 7], [0, 0, 0], [7, 7, 7]);
    expect_step_by(2, &t1_retrying(), [4, 7, 7], [0, 0, 0], [4, 1, 1]);
    expect_step_by(1, &t1_retrying(), [5, 7, 3], [0, 0, 0], [7, 7, 8]);
    expect_step_by(2, &t1_retrying(), [5, 7, 3], [0, 0, 0], [4, 7, 3]);
}

#[test]
fn a_rejected_child_is_lost_by_both_rules() {
    expect_step(&t1_retrying(), [4, 8, 3], [0, 0, 0], [7, 8, 8]);
    expect_step(&t1_retrying(), [4, 7, 8], [0, 0, 0], [7, 7, 8]);
    expect_step(&t1_retrying(), [5, 8, 7], [0, 0, 0], [7, 8, 7]);
}

#[test]
fn runs_by_a_rule() {
    for rest in RUNS {
        for (rule, steps, at_rest) in [(1, 1, [7, 7, 8]), (2, 3, [4, 3, 4])] {
            let mut states = [4, 7, 3];
            assert_eq!(run(rest, rule, &t1_retrying(), &mut states, &bytes([0, 0, 0]), 9), answer(0, 0, steps));
            assert_eq!(states, at_rest);
        }
    }
}

#[test]
fn records_by_a_rule() {
    let abort = changed(&t1_retrying(), &[(place(1, 4), 48)]);
    let with = |rule: u32, last: [u8; 3]| {
        let mut record = record_of(&[&FIRST_EIGHT[..], &[[4, 7, 3], last]].concat());
        // step 9: abort on plan 1
        record[8 + 15 * 8 + 4] = 16;
        reference::check(rule, &abort, &record)
    };
    assert_eq!(with(1, [7, 7, 8]), answer(0, 0, 10));
    assert_eq!(with(2, [7, 7, 8]), answer(15, 0, 10));
    assert_eq!(with(1, [4, 1, 3]), answer(15, 0, 10));
    assert_eq!(with(2, [4, 1, 3]), answer(0, 0, 10));
}

#[test]
fn other_rule_numbers_are_refused_first() {
    for rule in cases::WRONG_RULES {
        for table in [&T1[..], &T1[..7]] {
            for states in [[4, 7, 3], [9, 9, 9]] {
                let mut lent = states;
                assert_eq!(step(rule, table, &mut lent, &bytes([0, 0, 0])), answer(17, 0, 0));
                assert_eq!(run(reference::rest, rule, table, &mut lent, &bytes([0, 0, 0]), 9), answer(17, 0, 0));
                assert_eq!(lent, states);
            }
            for record in [record_of(&FIRST_EIGHT), vec![]] {
                assert_eq!(reference::check(rule, table, &record), answer(17, 0, 0));
            }
        }
    }
}

// ------------------------------------------------------------------------------------------------
// Random comparisons
// ------------------------------------------------------------------------------------------------

/// A small good table, states that may be handed in and good words.
fn small_case(dice: &mut Dice, most_plans: usize) -> (Vec<Plan>, Vec<u8>, Vec<u32>) {
    let n = dice.between(1, most_plans);
    let table = cases::good_table(dice, n);
    let plans = reference::read_table(&table).unwrap_or_else(|_| panic!("a good table"));
    let states = cases::good_states(dice, &plans);
    let mood = cases::mood(dice);
    let words = cases::good_words(dice, &plans, &mood);
    (plans, states, words)
}

/// Two or three any-order plans that go on side by side below an unordered root, or two below one of
/// the bodies under which two can, most of them with several Ready children, named or not: here the
/// picks of different plans could get into each other's way.
fn case_with_choices(dice: &mut Dice) -> (Vec<Plan>, Vec<u8>, Vec<u32>) {
    let mut table = Vec::new();
    let mut states = vec![reference::ACTIVATED];
    let mut add_plan = |parent: usize, body: u8, flags: u8| {
        table.extend((parent as u16).to_le_bytes());
        // Complete is present and never satisfied where there are children, so that they go on.
        let present = if body == reference::LEAF { 0 } else { 1 << reference::COMPLETE };
        table.extend([body, flags, present, 0, 0, 0]);
        table.len() / 8 - 1
    };
    let for_two = dice.one_of(&[reference::ON_SUSPEND, reference::ON_ABORT_OR_SUSPEND]);
    let body = if dice.percent(25) { for_two } else { reference::UNORDERED };
    let root = add_plan(reference::NO_PARENT, body, 0);
    for rank in 0..if reference::is_for_two(body) { 2 } else { dice.between(2, 3) } {
        let chooser = add_plan(root, reference::ANY_ORDER, u8::from(dice.percent(30)) << reference::RETRY_ABORTED);
        // Beside a first child that has not begun, the second of a body for two is Inactive.
        let may_begin = !reference::is_for_two(body) || rank == 0 || states[1] != reference::READY;
        states.push(if may_begin { dice.one_of(&[4, 4, 4, 4, 5, 3]) } else { 0 });
        for _ in 0..dice.between(1, 4) {
            add_plan(chooser, reference::LEAF, u8::from(dice.percent(50)) << reference::NAMED);
            let may_begin = reference::in_execution(states[chooser]);
            states.push(if may_begin { dice.one_of(&[3, 3, 3, 3, 3, 2, 6, 7, 8]) } else { 0 });
        }
    }
    let mut whole = b"APT\x01\x00".to_vec();
    whole.extend([states.len() as u8, 0, 0]);
    whole.extend(table);
    let plans = reference::read_table(&whole).unwrap_or_else(|answer| panic!("refused: {answer:x}"));
    let words = vec![0; plans.len()];
    (plans, states, words)
}

/// Every combination of picks in turn, each as the words of a whole step.
fn words_with_all_picks(plans: &[Plan], words: &[u32]) -> Vec<Vec<u32>> {
    let mut combinations: Vec<Vec<u32>> = vec![Vec::new()];
    for (plan, &word) in plans.iter().zip(words) {
        let without_pick = word & !(63 << 24);
        combinations = combinations
            .iter()
            .flat_map(|begun| {
                reference::all_picks(plan).into_iter().map(move |pick| {
                    let mut longer = begun.clone();
                    longer.push(without_pick | (pick as u32) << 24);
                    longer
                })
            })
            .collect();
    }
    combinations
}

/// The lowest p such that no combination of picks explains plans 0 to p, by trying them all: each
/// combination explains the plans up to its first difference, and the one that comes furthest counts.
fn first_unexplained_by_brute_force(before: &Before, shown: &[u8]) -> Option<usize> {
    let furthest = words_with_all_picks(before.plans, before.words)
        .iter()
        .map(|words| {
            let states = reference::new_states(&Before { words, ..*before });
            states.iter().zip(shown).take_while(|(new, shown)| new == shown).count()
        })
        .max()
        .expect("there is at least one combination");
    (furthest < shown.len()).then_some(furthest)
}

/// What a step with these words shows, with up to three plans changed.
fn nearly_shown(dice: &mut Dice, before: &Before) -> Vec<u8> {
    let mut shown = reference::new_states(before);
    for _ in 0..dice.below(4) {
        let p = dice.below(shown.len());
        shown[p] = dice.one_of(&[0, 1, 2, 3, 3, 3, 4, 4, 4, 5, 6, 7, 8, 9, 255]);
    }
    shown
}

/// The plans whose pick decides which of their children is activated.
fn plans_with_a_choice(before: &Before) -> usize {
    let first_picks: Vec<u32> = before.words.iter().map(|word| word & !(63 << 24)).collect();
    let usual = reference::new_states(&Before { words: &first_picks, ..*before });
    let matters = |p: usize| {
        reference::all_picks(&before.plans[p]).into_iter().any(|pick| {
            let mut words = first_picks.clone();
            words[p] |= (pick as u32) << 24;
            reference::new_states(&Before { words: &words, ..*before }) != usual
        })
    };
    (0..before.plans.len()).filter(|&p| matters(p)).count()
}

#[test]
fn plan_by_plan_search_finds_what_brute_force_finds() {
    let mut dice = Dice::new(1);
    // Cases that were explained and unexplained, by the number of plans that had a choice, and those
    // in which a plan of each body from 5 on was Activated.
    let (mut explained, mut unexplained) = ([0; 4], [0; 4]);
    let mut for_two = [[0; 2]; 4];
    for _ in 0..50_000 {
        let (plans, states, words) =
            if dice.percent(50) { small_case(&mut dice, 9) } else { case_with_choices(&mut dice) };
        let (_, rule) = cases::any_rule(&mut dice);
        let before = Before { rule, plans: &plans, states: &states, words: &words };
        let shown = nearly_shown(&mut dice, &before);
        let found = reference::first_unexplained_plan(&before, &shown);
        assert_eq!(found, first_unexplained_by_brute_force(&before, &shown));
        assert_eq!(found, reference::first_unexplained_by_old_fallback(&before, &shown));
        let choices = plans_with_a_choice(&before);
        match found {
            None => explained[choices] += 1,
            Some(_) => unexplained[choices] += 1,
        }
        for (plan, _) in plans.iter().zip(&states).filter(|(_, &state)| state == reference::ACTIVATED) {
            if reference::is_for_two(plan.body) {
                for_two[usize::from(plan.body - reference::ON_ABORT)][usize::from(found.is_some())] += 1;
            }
        }
    }
    println!("by plans with a choice: explained {explained:?}, unexplained {unexplained:?}");
    println!("with a plan of body 5, 6, 7, 8, explained and unexplained: {for_two:?}");
    assert!(explained.into_iter().chain(unexplained).all(|count| count > 30));
    assert!(for_two.into_iter().flatten().all(|count| count > 100));
}

#[test]
fn jumping_run_answers_as_the_plain_one() {
    let mut dice = Dice::new(2);
    let mut moving = 0;
    for _ in 0..10_000 {
        let n = dice.between(1, 8);
        let table = cases::good_table(&mut dice, n);
        let plans = reference::read_table(&table).unwrap_or_else(|_| panic!("a good table"));
        let mut states = cases::good_states(&mut dice, &plans);
        let mood = cases::mood(&mut dice);
        let words: Vec<u8> =
            cases::good_words(&mut dice, &plans, &mood).iter().flat_map(|word| word.to_le_bytes()).collect();
        let budget = dice.one_of(&[0, 1, 5, 20, 60, 61, 62, 63, 64, 65, 66, 67, 65_535]);
        let mut jumped = states.clone();
        let (mut causes, mut jumped_causes) = (vec![0; n], vec![255; n]);
        let (rule, _) = cases::any_rule(&mut dice);
        let plain = reference::rest(rule, &table, &mut states, &words, &mut causes, budget);
        assert_eq!(reference::rest_jumping(rule, &table, &mut jumped, &words, &mut jumped_causes, budget), plain);
        assert_eq!((jumped, jumped_causes), (states, causes));
        moving += u64::from(plain >> 16 & 0xFFFF == 1 && budget >= 60);
    }
    println!("still moving after 60 steps and more: {moving}");
    assert!(moving > 100);
}

#[test]
fn states_that_may_be_handed_in_lead_to_such_states() {
    let mut dice = Dice::new(3);
    // Plans of bodies 1, 3, 5 and 8 with a child in execution.
    let mut with_one = [0; 9];
    for _ in 0..20_000 {
        let (plans, states, words) = small_case(&mut dice, 14);
        let (_, rule) = cases::any_rule(&mut dice);
        let new = reference::new_states(&Before { rule, plans: &plans, states: &states, words: &words });
        assert!((0..plans.len()).all(|p| !reference::breaks_a_rule(&plans, &new, p)));
        for plan in plans.iter().filter(|plan| matches!(plan.body, 1 | 3 | 5 | 8)) {
            let running = plan.children.iter().filter(|&&child| reference::in_execution(new[child])).count();
            assert!(running <= 1, "body {}: {running} in execution", plan.body);
            with_one[usize::from(plan.body)] += running;
        }
    }
    println!("plans with a child in execution, by body: {with_one:?}");
    assert!([1, 3, 5, 8].into_iter().all(|body| with_one[body] > 100));
}

#[test]
fn the_rules_agree_without_an_aborted_child_that_is_retried() {
    let mut dice = Dice::new(5);
    let (mut apart, mut alike) = (0, 0);
    for _ in 0..20_000 {
        let (plans, states, words) = small_case(&mut dice, 14);
        let new = |rule| reference::new_states(&Before { rule, plans: &plans, states: &states, words: &words });
        let is_retried = |child: usize| {
            let parent = plans[child].parent.map(|parent| &plans[parent]);
            states[child] == reference::ABORTED && parent.is_some_and(|parent| !reference::is_done(parent, states[child]))
        };
        let some_are = (0..plans.len()).any(is_retried);
        if new(Rule::Old) != new(Rule::New) {
            assert!(some_are);
            apart += 1;
        } else {
            alike += usize::from(some_are);
        }
    }
    println!("with an Aborted child that is retried: {apart} apart, {alike} alike");
    assert!(apart > 100 && alike > 100);
}

/// A plan and its descendants, found from above: in preorder.
fn with_descendants(plans: &[Plan], p: usize) -> Vec<u8> {
    let below = plans[p].children.iter().flat_map(|&child| with_descendants(plans, child));
    std::iter::once(p as u8).chain(below).collect()
}

#[test]
fn a_sub_tree_is_the_plan_and_its_descendants_and_no_other() {
    let mut dice = Dice::new(4);
    for _ in 0..2_000 {
        let n = dice.between(1, 40);
        let table = cases::good_table(&mut dice, n);
        let plans = reference::read_table(&table).unwrap_or_else(|_| panic!("a good table"));
        let numbers: Vec<u8> = (0..n as u8).collect();
        for p in 0..n {
            assert_eq!(reference::sub_tree(&table, &numbers, p), with_descendants(&plans, p));
        }
    }
}

// ------------------------------------------------------------------------------------------------
// Request (v) of document 02: wait-for formulas
// ------------------------------------------------------------------------------------------------

/// A table of version 2: a root of body 4 that begins its formula at `first`, so many leaves, all with complete and abort present, of
/// which those of these ranks are named; and these nodes.
fn formula_table(first: u8, leaves: u8, named: &[u8], nodes: &[[u8; 4]]) -> Vec<u8> {
    let mut table = b"APT\x02\x00".to_vec();
    table.extend([leaves + 1, 0, 0, 255, 255, 4, 0, 48, 0, 0, first]);
    for rank in 0..leaves {
        table.extend([0, 0, 0, u8::from(named.contains(&rank)) << 2, 48, 0, 0, 0]);
    }
    with_nodes(table, nodes)
}

fn with_nodes(mut table: Vec<u8>, nodes: &[[u8; 4]]) -> Vec<u8> {
    table.extend((nodes.len() as u16).to_le_bytes());
    table.extend(nodes.concat());
    table
}

/// What the root becomes, Activated over three leaves in these states, where complete holds of it.
fn root_after(table: &[u8], leaves: [u8; 3]) -> u8 {
    let mut states = [4, leaves[0], leaves[1], leaves[2]];
    let words: Vec<u8> = [32u32, 0, 0, 0].iter().flat_map(|word| word.to_le_bytes()).collect();
    assert_eq!(step(2, table, &mut states, &words), 0);
    states[0]
}

/// What the formula that begins at the first of these nodes says of each set of three children, of which 0 and 2 are named: a 1 or a 0
/// for each set, first of none, then of child 0, of 1, of 1 and 0, of 2, of 2 and 0, of 2 and 1, of all.
fn truths(nodes: &[[u8; 4]]) -> String {
    let table = formula_table(0, 3, &[0, 2], nodes);
    let truth = |set: u8| {
        let states = |inside: u8, outside: u8| [0, 1, 2].map(|rank| if set >> rank & 1 == 1 { inside } else { outside });
        // loss reads the children that are neither Rejected nor Aborted, as those that are Ready
        let (rejected, aborted) = (root_after(&table, states(3, 8)), root_after(&table, states(3, 7)));
        assert_eq!(rejected == 7, aborted == 7, "of {set:03b}");
        // completion reads the Completed ones; that a plan with Activated children besides is not lost is asked of all children
        let all_hold = root_after(&table, [3, 3, 3]) != 7;
        let completed = root_after(&table, states(6, 4));
        if all_hold {
            assert_eq!(completed == 6, rejected != 7, "of {set:03b}");
        } else {
            assert_eq!(completed, 7, "of {set:03b}");
        }
        if rejected == 7 { '0' } else { '1' }
    };
    (0..8).map(truth).collect()
}

const CHILD_0: [u8; 4] = [0, 0, 0, 0];
const CHILD_1: [u8; 4] = [0, 1, 0, 0];
const CHILD_2: [u8; 4] = [0, 2, 0, 0];

/// Written by hand: under each row the sets "none, 0, 1, 01, 2, 02, 12, 012".
#[test]
fn each_kind_of_each_set() {
    let rows: [(&[[u8; 4]], &str); 18] = [
        (&[CHILD_0], "01010101"),
        (&[CHILD_1], "00110011"),
        (&[CHILD_2], "00001111"),
        (&[[1, 1, 0, 0], CHILD_0], "10101010"),
        (&[[1, 1, 0, 0], CHILD_2], "11110000"),
        (&[[2, 1, 2, 0], CHILD_0, CHILD_1], "00010001"),
        (&[[3, 1, 2, 0], CHILD_0, CHILD_1], "01110111"),
        (&[[4, 1, 2, 0], CHILD_0, CHILD_1], "01100110"),
        (&[[4, 2, 1, 0], CHILD_2, CHILD_0], "01011010"),
        // named are 0 and 2
        (&[[5, 0, 0, 0]], "11111111"),
        (&[[5, 1, 0, 0]], "01011111"),
        (&[[5, 2, 0, 0]], "00000101"),
        // the same child twice
        (&[[2, 1, 2, 0], CHILD_1, CHILD_1], "00110011"),
        (&[[4, 1, 2, 0], CHILD_1, CHILD_1], "00000000"),
        // "(one and two) or three", and with its nodes in another order
        (&[[3, 1, 2, 0], [2, 3, 4, 0], CHILD_2, CHILD_0, CHILD_1], "00011111"),
        (&[[3, 4, 1, 0], [2, 3, 2, 0], CHILD_1, CHILD_0, CHILD_2], "00011111"),
        // not (0 or 1), and two nots
        (&[[1, 1, 0, 0], [3, 2, 3, 0], CHILD_0, CHILD_1], "10001000"),
        (&[[1, 1, 0, 0], [1, 2, 0, 0], CHILD_1], "00110011"),
    ];
    for (nodes, expected) in rows {
        assert_eq!(truths(nodes), expected, "{nodes:?}");
    }
}

#[test]
fn nested_formulas_of_each_set() {
    let rows: [(&[[u8; 4]], &str); 6] = [
        // 0 and not 1
        (&[[2, 1, 2, 0], CHILD_0, [1, 3, 0, 0], CHILD_1], "01000100"),
        // (0 xor 1) xor 2: an odd number of them
        (&[[4, 1, 2, 0], [4, 3, 4, 0], CHILD_2, CHILD_0, CHILD_1], "01101001"),
        // not (0 xor 1) or 2
        (&[[3, 1, 2, 0], [1, 3, 0, 0], CHILD_2, [4, 4, 5, 0], CHILD_0, CHILD_1], "10011111"),
        // (0 or 1) and not (0 and 1), which is 0 xor 1
        (&[[2, 1, 2, 0], [3, 3, 4, 0], [1, 5, 0, 0], CHILD_0, CHILD_1, [2, 6, 7, 0], CHILD_0, CHILD_1], "01100110"),
        // 1 and at least one of 0 and 2
        (&[[2, 1, 2, 0], CHILD_1, [5, 1, 0, 0]], "00010011"),
        // 1 xor not (at least two of 0 and 2)
        (&[[4, 1, 2, 0], CHILD_1, [1, 3, 0, 0], [5, 2, 0, 0]], "11001001"),
    ];
    for (nodes, expected) in rows {
        assert_eq!(truths(nodes), expected, "{nodes:?}");
    }
}

/// Two plans with formulas of their own, whose nodes stand in turn: plan 0 waits for its second child, plan 4, and plan 1 for neither of
/// its two, plans 2 and 3.
#[test]
fn formulas_of_two_plans() {
    let mut table = b"APT\x02\x00\x05\x00\x00".to_vec();
    for (parent, body, first) in [(65_535u16, 4, 1), (0, 4, 0), (1, 0, 0), (1, 0, 0), (0, 0, 0)] {
        table.extend(parent.to_le_bytes());
        table.extend([body, 0, 32, 0, 0, first]);
    }
    let table = with_nodes(table, &[[1, 2, 0, 0], [0, 1, 0, 0], [3, 4, 3, 0], [0, 1, 0, 0], [0, 0, 0, 0]]);
    let after = |states: [u8; 5]| {
        let mut states = states;
        let words: Vec<u8> = [32u32, 32, 0, 0, 0].iter().flat_map(|word| word.to_le_bytes()).collect();
        assert_eq!(step(2, &table, &mut states, &words), 0);
        states
    };
    // plan 1 is not lost and completes only without its children; plan 0 completes by plan 4 and is lost with it
    assert_eq!(after([4, 4, 7, 8, 4]), [4, 6, 7, 8, 4]);
    assert_eq!(after([4, 4, 4, 8, 4]), [4, 7, 7, 8, 4]);
    assert_eq!(after([4, 4, 8, 6, 4]), [4, 7, 8, 6, 4]);
    assert_eq!(after([4, 3, 0, 0, 6]), [6, 8, 0, 0, 6]);
    assert_eq!(after([4, 3, 0, 0, 7]), [7, 8, 0, 0, 7]);
}

/// "'not' included": a plan that waits for a child not to be there is lost while it can still come.
#[test]
fn not_child_0_is_lost_while_child_0_is_neither_rejected_nor_aborted() {
    let table = formula_table(0, 1, &[], &[[1, 1, 0, 0], CHILD_0]);
    for rule in [1, 2] {
        for plan in [4, 5] {
            for child in 0..=8 {
                // a child of a Suspended plan is not Activated
                if (plan, child) == (5, 4) {
                    continue;
                }
                let mut states = [plan, child];
                assert_eq!(step(rule, &table, &mut states, &[0; 8]), 0);
                let lost = !matches!(child, 7 | 8);
                assert_eq!(states[0] == 7, lost, "rule {rule}, {plan}, {child}");
            }
            // under retry-aborted an Aborted child is lost by rule 1 only
            let retrying = changed(&table, &[(place(0, 3), 1)]);
            let mut states = [plan, 7];
            assert_eq!(step(rule, &retrying, &mut states, &[0; 8]), 0);
            assert_eq!(states[0] == 7, rule == 2, "rule {rule}, {plan}");
        }
    }
    // and it completes where none has: here the one child was Rejected
    let mut states = [4, 8];
    assert_eq!(step(2, &table, &mut states, &[32, 0, 0, 0, 0, 0, 0, 0]), 0);
    assert_eq!(states, [6, 8]);
}

/// Two leaves' table of version 1 and the same with one node of kind 5: what T1 does it does in both.
#[test]
fn t1_in_version_2() {
    let t1 = with_nodes(t1_with(&[(3, 2), (place(0, 7), 0)]), &[[5, 2, 0, 0]]);
    let mut states = [0, 0, 0];
    for expected in FIRST_EIGHT {
        expect_step(&t1, states, [0, 0, 0], expected);
        states = expected;
    }
    expect_step(&t1, [4, 6, 3], [0, 0, 0], [4, 6, 4]);
    expect_step(&t1, [4, 6, 6], [0, 0, 0], [6, 6, 6]);
    expect_step(&t1, [4, 7, 3], [0, 0, 0], [7, 7, 8]);
    assert_eq!(check(&t1, &record_of(&FIRST_EIGHT)), answer(0, 0, 8));
    // the record's header stays version 1
    let mut of_version_2 = record_of(&FIRST_EIGHT);
    of_version_2[3] = 2;
    assert_eq!(check(&t1, &of_version_2), answer(13, 0, 0));
    assert_eq!(reference::sub_tree(&t1, &[9, 8, 7], 1), [8]);
}

fn refusal(table: &[u8]) -> u64 {
    reference::read_table(table).err().unwrap_or(0)
}

fn expect_22(nodes: &[[u8; 4]], place: usize) {
    assert_eq!(refusal(&formula_table(0, 3, &[0, 2], nodes)), answer(22, place, 0), "{nodes:?}");
}

#[test]
fn versions_and_lengths() {
    let good = formula_table(0, 3, &[], &[CHILD_0]);
    assert_eq!(refusal(&good), 0);
    for version in 0..=65_535u16 {
        let [low, high] = version.to_le_bytes();
        let expected = match version {
            // of version 1 the nodes are too many bytes
            1 => answer(5, 0, 0),
            2 => 0,
            _ => answer(3, 0, 0),
        };
        assert_eq!(refusal(&changed(&good, &[(3, low), (4, high)])), expected, "version {version}");
    }
    let end = 8 + 8 * 4;
    assert_eq!(refusal(&good[..end]), answer(5, 0, 0));
    assert_eq!(refusal(&good[..end + 1]), answer(5, 0, 0));
    // no nodes, and a parent that needs one
    assert_eq!(refusal(&changed(&good[..end + 2], &[(end, 0)])), answer(22, 0, 0));
    assert_eq!(refusal(&good[..end + 2]), answer(5, 0, 0));
    assert_eq!(refusal(&good[..good.len() - 1]), answer(5, 0, 0));
    assert_eq!(refusal(&[&good[..], &[0]].concat()), answer(5, 0, 0));
    for count in [0, 2, 255] {
        assert_eq!(refusal(&changed(&good, &[(end, count)])), answer(5, 0, 0));
    }
    assert_eq!(refusal(&changed(&good, &[(end + 1, 1)])), answer(5, 0, 0));
    // a leaf alone needs none and may have none
    let leaf = b"APT\x02\x00\x01\x00\x00\xFF\xFF\x00\x00\x00\x00\x00\x00";
    assert_eq!(refusal(&with_nodes(leaf.to_vec(), &[])), 0);
    assert_eq!(refusal(&with_nodes(leaf.to_vec(), &[CHILD_0])), answer(22, 0, 0));
    assert_eq!(refusal(leaf), answer(5, 0, 0));
    // of version 1 it is 8 + 8n bytes and nothing more
    assert_eq!(refusal(&with_nodes(T1.to_vec(), &[])), answer(5, 0, 0));
}

/// A chain of nots down to a child: as many nodes as are said.
fn nots(count: usize) -> Vec<[u8; 4]> {
    (1..count).map(|i| [1, i as u8, 0, 0]).chain([CHILD_0]).collect()
}

#[test]
fn counts_and_first_nodes() {
    assert_eq!(refusal(&formula_table(0, 3, &[], &nots(256))), 0);
    // a count above 256 is told before the node 1 that nothing uses
    expect_22(&[CHILD_0; 256], 1);
    expect_22(&[CHILD_0; 257], 0);
    expect_22(&[CHILD_0; 512], 0);
    let good = [[2, 1, 2, 0], CHILD_0, CHILD_1];
    for first in 0..=255 {
        let expected = if first == 0 { 0 } else { answer(22, 0, 0) };
        assert_eq!(refusal(&formula_table(first, 3, &[], &good)), expected, "first node {first}");
    }
    // of a leaf byte 7 is 0, and is no use of node 0
    let leaf_with_7 = changed(&formula_table(0, 3, &[], &good), &[(place(2, 7), 1)]);
    assert_eq!(refusal(&leaf_with_7), answer(8, 2, 0));
}

#[test]
fn each_reason_of_22_and_its_node() {
    let with_last = |node: [u8; 4]| [[2, 1, 2, 0], CHILD_0, node];
    for kind in 6..=255 {
        expect_22(&with_last([kind, 0, 0, 0]), 2);
    }
    for bit in 0..8 {
        let byte = 1 << bit;
        // the fourth byte, and b of kinds 0, 1 and 5
        expect_22(&with_last([0, 0, 0, byte]), 2);
        expect_22(&with_last([5, 0, 0, byte]), 2);
        expect_22(&with_last([0, 0, byte, 0]), 2);
        expect_22(&with_last([5, 0, byte, 0]), 2);
        expect_22(&[[1, 1, byte, 0], CHILD_0], 0);
        expect_22(&[[3, 1, 2, byte], CHILD_0, CHILD_1], 0);
    }
    // operands: the node itself, a lower one, one past the count; of nodes that are used once, so that nothing else is wrong
    for kind in 2..=4 {
        expect_22(&[CHILD_0, [kind, 1, 2, 0], CHILD_0], 1);
        expect_22(&[CHILD_0, [kind, 2, 1, 0], CHILD_0], 1);
        expect_22(&[CHILD_0, [1, 2, 0, 0], [kind, 1, 3, 0], CHILD_0], 2);
        expect_22(&[CHILD_0, [1, 2, 0, 0], [kind, 3, 1, 0], CHILD_0], 2);
        for past in [3, 4, 255] {
            expect_22(&[[kind, past, 1, 0], CHILD_0, CHILD_0], 0);
            expect_22(&[[kind, 1, past, 0], CHILD_0, CHILD_0], 0);
        }
    }
    expect_22(&[CHILD_0, [1, 1, 0, 0]], 1);
    expect_22(&[CHILD_0, [1, 2, 0, 0], [1, 1, 0, 0]], 2);
    expect_22(&[[1, 2, 0, 0], CHILD_0], 0);
    // used by none, by two nodes, by one node twice, by the plan and a node
    expect_22(&[CHILD_0, CHILD_1], 1);
    expect_22(&[[2, 1, 2, 0], [1, 3, 0, 0], [1, 3, 0, 0], CHILD_0], 3);
    expect_22(&[[2, 1, 1, 0], CHILD_0], 1);
    expect_22(&[CHILD_0, [1, 0, 0, 0]], 0);
    // a of kinds 0 and 5 is no operand
    expect_22(&[[5, 1, 0, 0], CHILD_0], 1);
    expect_22(&[[0, 1, 0, 0], CHILD_0], 1);
    // the rank of a child that is not there
    for rank in 3..=255 {
        expect_22(&[[0, rank, 0, 0]], 0);
        expect_22(&[[1, 1, 0, 0], [0, rank, 0, 0]], 1);
    }
}

/// A chain of four plans, three of which have a child, and where their formulas begin.
#[test]
fn nodes_that_several_plans_use() {
    let refusal_of = |firsts: [u8; 3], nodes: &[[u8; 4]]| {
        let mut table = b"APT\x02\x00\x04\x00\x00".to_vec();
        for (parent, body, first) in [(65_535u16, 4, firsts[0]), (0, 4, firsts[1]), (1, 4, firsts[2]), (2, 0, 0)] {
            table.extend(parent.to_le_bytes());
            table.extend([body, 0, 0, 0, 0, first]);
        }
        refusal(&with_nodes(table, nodes))
    };
    assert_eq!(refusal_of([2, 0, 1], &[CHILD_0; 3]), 0);
    // two plans use node 1, or a plan and a node do, or two plans and a node
    assert_eq!(refusal_of([0, 1, 1], &[CHILD_0; 2]), answer(22, 1, 0));
    assert_eq!(refusal_of([0, 1, 2], &[[1, 1, 0, 0], CHILD_0, CHILD_0]), answer(22, 1, 0));
    assert_eq!(refusal_of([0, 1, 1], &[[1, 1, 0, 0], CHILD_0]), answer(22, 1, 0));
    // two plans use node 2, and none uses node 1
    assert_eq!(refusal_of([0, 2, 2], &[CHILD_0; 3]), answer(22, 1, 0));
    // a parent's byte 7 past the count goes before the node 1 that it leaves unused
    assert_eq!(refusal_of([2, 0, 3], &[CHILD_0; 3]), answer(22, 0, 0));
    // each plan has one child: rank 1 is too high for each, and the lowest node is told, not that of the lowest plan
    assert_eq!(refusal_of([2, 0, 1], &[CHILD_0, CHILD_1, CHILD_1]), answer(22, 1, 0));
}

#[test]
fn the_lowest_node_is_told_and_a_rank_last() {
    // of two broken nodes the lower one
    expect_22(&[[2, 1, 2, 0], [0, 0, 1, 0], [6, 0, 0, 0]], 1);
    // a rank that is not there, before and behind a node that breaks another rule
    expect_22(&[[2, 1, 2, 0], [0, 3, 0, 0], [5, 0, 1, 0]], 2);
    expect_22(&[[2, 1, 2, 0], [5, 0, 1, 0], [0, 3, 0, 0]], 1);
    expect_22(&[[0, 3, 0, 0], CHILD_0], 1);
    // of two ranks the lower node's
    expect_22(&[[2, 1, 2, 0], [0, 3, 0, 0], [0, 4, 0, 0]], 1);
    // a use counts though the node that uses breaks a rule: node 1 is used once, by a node that is broken
    expect_22(&[CHILD_0, [1, 2, 0, 0], [2, 1, 3, 0], CHILD_0], 2);
    expect_22(&[[2, 1, 2, 9], CHILD_0, [6, 0, 0, 0]], 0);
    // a node of no kind uses nothing
    expect_22(&[[1, 1, 0, 0], [2, 2, 3, 0], [6, 3, 4, 0], CHILD_0, CHILD_1], 2);
}

#[test]
fn nine_of_a_kind_5() {
    let asked = |nodes: &[[u8; 4]]| refusal(&formula_table(0, 3, &[0, 2], nodes));
    assert_eq!(asked(&[[5, 2, 0, 0]]), 0);
    for number in 3..=255 {
        assert_eq!(asked(&[[5, number, 0, 0]]), answer(9, 0, 0));
        assert_eq!(asked(&[[1, 1, 0, 0], [3, 2, 3, 0], CHILD_0, [5, number, 0, 0]]), answer(9, 0, 0));
    }
    // plan 1 has one named child, plan 0 none
    let mut table = b"APT\x02\x00\x03\x00\x00".to_vec();
    for (parent, body, flags, first) in [(65_535u16, 4, 0, 1), (0, 4, 0, 0), (1, 0, 4, 0)] {
        table.extend(parent.to_le_bytes());
        table.extend([body, flags, 0, 0, 0, first]);
    }
    let asked = |of_plan_1: u8, of_plan_0: u8| refusal(&with_nodes(table.clone(), &[[5, of_plan_1, 0, 0], [5, of_plan_0, 0, 0]]));
    assert_eq!(asked(1, 0), 0);
    assert_eq!(asked(2, 0), answer(9, 1, 0));
    assert_eq!(asked(1, 1), answer(9, 0, 0));
    // the lower plan, though its node is the higher one
    assert_eq!(asked(2, 1), answer(9, 0, 0));
}

#[test]
fn eight_goes_before_22_and_22_before_9() {
    let broken = [[2, 1, 2, 0], [5, 3, 0, 0], [6, 0, 0, 0]];
    let table = formula_table(0, 3, &[0, 2], &broken);
    assert_eq!(refusal(&table), answer(22, 2, 0));
    // a leaf with wait-for-optional, an unused bit, a wrong parent: at plan 3, which is behind node 2
    assert_eq!(refusal(&changed(&table, &[(place(3, 3), 2)])), answer(8, 3, 0));
    assert_eq!(refusal(&changed(&table, &[(place(3, 3), 8)])), answer(7, 3, 0));
    assert_eq!(refusal(&changed(&table, &[(place(3, 0), 9)])), answer(6, 3, 0));
    let mut whole = broken;
    whole[2] = CHILD_0;
    assert_eq!(refusal(&formula_table(0, 3, &[0, 2], &whole)), answer(9, 0, 0));
    // a rank goes before 9 too
    whole[2] = [0, 3, 0, 0];
    assert_eq!(refusal(&formula_table(0, 3, &[0, 2], &whole)), answer(22, 2, 0));
    // and of version 1 a wait number is 9, whatever it would be as a node's number
    assert_eq!(refusal(&t1_with(&[(place(0, 7), 3)])), answer(9, 0, 0));
}

// ------------------------------------------------------------------------------------------------
// Request (vi) of document 02: moving tables
// ------------------------------------------------------------------------------------------------

/// The moved table; bytes past it stay as they were.
fn moved(to: To, table: &[u8]) -> Vec<u8> {
    let before: Vec<u8> = (0..AMPLE).map(|at| at as u8 ^ 0x5A).collect();
    let mut output = before.clone();
    let written = to.by_reference(table, &mut output);
    let length = (written >> 32) as usize;
    assert_eq!(written, answer(0, 0, length), "{table:?}");
    assert_eq!(output[length..], before[length..]);
    output.truncate(length);
    output
}

/// Into so much room: a refusal changes no byte of the output.
fn expect_unmoved(to: To, table: &[u8], room: usize, expected: u64) {
    let mut output = vec![0xA5; room];
    assert_eq!(to.by_reference(table, &mut output), expected, "{table:?} into {room} bytes");
    assert_eq!(output, vec![0xA5; room]);
}

/// Plan 0 has the children 1 and 5, plan 1 has 2 and 4, plan 2 has 3; all of them but plan 0 are named, and bytes 7 of plans 0, 1 and 2 are
/// these.
fn six_plans(version: u8, bytes_7: [u8; 3]) -> Vec<u8> {
    let [first, second, third] = bytes_7;
    let header = [b'A', b'P', b'T', version, 0, 6, 0, 0];
    let parents = [[255, 255, 4, 0, 32, 32, 0, first], [0, 0, 1, 7, 33, 0, 1, second], [1, 0, 3, 5, 0, 0, 0, third]];
    let leaves = [[2, 0, 0, 4, 63, 1, 2, 0], [1, 0, 0, 4, 0, 0, 0, 0], [0, 0, 0, 4, 0, 0, 0, 0]];
    [&header, parents.as_flattened(), leaves.as_flattened()].concat()
}

/// The place of byte `at` of node i behind these.
fn place_of_node(i: usize, at: usize) -> usize {
    place(6, 2) + 4 * i + at
}

/// Written by hand.
#[test]
fn tables_moved() {
    let t1_in_2 = with_nodes(t1_with(&[(3, 2), (place(0, 7), 0)]), &[[5, 2, 0, 0]]);
    assert_eq!(moved(To::Version2, &T1), t1_in_2);
    assert_eq!(moved(To::Version1, &t1_in_2), T1);
    let in_1 = six_plans(1, [2, 0, 1]);
    let in_2 = with_nodes(six_plans(2, [0, 1, 2]), &[[5, 2, 0, 0], [5, 0, 0, 0], [5, 1, 0, 0]]);
    assert_eq!(moved(To::Version2, &in_1), in_2);
    assert_eq!(moved(To::Version1, &in_2), in_1);
    let in_another_order = with_nodes(six_plans(2, [1, 2, 0]), &[[5, 1, 0, 0], [5, 2, 0, 0], [5, 0, 0, 0]]);
    assert_eq!(moved(To::Version1, &in_another_order), in_1);
    // one plan has no node, and 256 plans have 255 at most
    let alone = b"APT\x01\x00\x01\x00\x00\xFF\xFF\x00\x00\x00\x00\x00\x00";
    assert_eq!(moved(To::Version2, alone), with_nodes(changed(alone, &[(3, 2)]), &[]));
    let chain = moved(To::Version2, &wide_table(256, 1));
    assert_eq!(chain.len(), 8 + 8 * 256 + 2 + 4 * 255);
    assert_eq!(chain[place(254, 7)], 254);
    assert_eq!(chain[place(255, 7)], 0);
    assert_eq!(moved(To::Version1, &chain), wide_table(256, 1));
}

#[test]
fn moves_refused_for_the_table() {
    let in_1 = six_plans(1, [2, 0, 1]);
    let in_2 = with_nodes(six_plans(2, [0, 1, 2]), &[[5, 2, 0, 0], [5, 0, 0, 0], [5, 1, 0, 0]]);
    for (to, table, other) in [(To::Version2, &in_1, &in_2), (To::Version1, &in_2, &in_1)] {
        let rows: [(&[(usize, u8)], u64); 8] = [
            (&[(0, 0x42)], answer(2, 0, 0)),
            (&[(4, 1)], answer(3, 0, 0)),
            (&[(3, 3)], answer(3, 0, 0)),
            (&[(7, 1)], answer(4, 0, 0)),
            (&[(5, 7)], answer(5, 0, 0)),
            (&[(place(3, 0), 3)], answer(6, 3, 0)),
            (&[(place(4, 3), 8)], answer(7, 4, 0)),
            (&[(place(5, 7), 1)], answer(8, 5, 0)),
        ];
        for room in [0, 40, AMPLE] {
            expect_unmoved(to, &table[..7], room, answer(1, 0, 0));
            for (changes, expected) in rows {
                expect_unmoved(to, &changed(table, changes), room, expected);
            }
            // a table of the other version, also where more is wrong with it
            expect_unmoved(to, other, room, answer(3, 0, 0));
            expect_unmoved(to, &changed(other, &[(7, 1)]), room, answer(3, 0, 0));
            expect_unmoved(to, &other[..8], room, answer(3, 0, 0));
        }
    }
    for room in [0, 40, AMPLE] {
        expect_unmoved(To::Version2, &changed(&in_1, &[(place(2, 7), 2)]), room, answer(9, 2, 0));
        expect_unmoved(To::Version1, &changed(&in_2, &[(place_of_node(0, 1), 3)]), room, answer(9, 0, 0));
        expect_unmoved(To::Version1, &changed(&in_2, &[(place(1, 7), 2)]), room, answer(22, 1, 0));
        expect_unmoved(To::Version1, &changed(&in_2, &[(place(1, 7), 3)]), room, answer(22, 0, 0));
    }
}

#[test]
fn moves_refused_for_a_node_or_the_output() {
    let counts = [[5, 2, 0, 0], [5, 0, 0, 0], [5, 1, 0, 0]];
    let with_other = |i: usize, node: [u8; 4]| {
        let mut nodes = counts;
        nodes[i] = node;
        with_nodes(six_plans(2, [0, 1, 2]), &nodes)
    };
    // 23 with any room, and 9 before it
    for room in [0, 55, 56, AMPLE] {
        for i in 0..3 {
            expect_unmoved(To::Version1, &with_other(i, CHILD_0), room, answer(23, 0, 0));
        }
        for kind in 1..5 {
            let b = if kind == reference::NOT { 0 } else { 4 };
            let nodes = [[kind, 3, b, 0], [5, 0, 0, 0], [5, 1, 0, 0], [5, 2, 0, 0], [5, 1, 0, 0]];
            let used = if kind == reference::NOT { 4 } else { 5 };
            expect_unmoved(To::Version1, &with_nodes(six_plans(2, [0, 1, 2]), &nodes[..used]), room, answer(23, 0, 0));
        }
        let too_many_besides = changed(&with_other(0, CHILD_0), &[(place_of_node(2, 1), 2)]);
        expect_unmoved(To::Version1, &too_many_besides, room, answer(9, 2, 0));
    }
    // 24 up to a byte
    let in_1 = six_plans(1, [2, 0, 1]);
    let in_2 = with_nodes(six_plans(2, [0, 1, 2]), &counts);
    for (to, table, moved) in [(To::Version2, &in_1, &in_2), (To::Version1, &in_2, &in_1)] {
        for room in 0..moved.len() {
            expect_unmoved(to, table, room, answer(24, 0, 0));
        }
        let mut just_enough = vec![0; moved.len()];
        assert_eq!(to.by_reference(table, &mut just_enough), answer(0, 0, moved.len()));
        assert_eq!(just_enough, *moved);
    }
}

/// "There and back gives the same bytes; back and there gives the same bytes exactly when nodes stand in plan order"
#[test]
fn there_and_back() {
    let mut dice = Dice::new(6);
    let mut by_order = [0; 2];
    for _ in 0..3_000 {
        let in_1 = move_cases::of_version_1(&mut dice);
        assert_eq!(moved(To::Version1, &moved(To::Version2, &in_1)), in_1);
        let order = dice.one_of(&[Order::ByPlan, Order::InTurn]);
        let in_2 = move_cases::of_counts(&mut dice, order);
        let in_order = reference::nodes_stand_in_plan_order(&good_plans(&in_2));
        assert_eq!(moved(To::Version2, &moved(To::Version1, &in_2)) == in_2, in_order);
        by_order[usize::from(in_order)] += 1;
    }
    println!("nodes not in plan order {}, in plan order {}", by_order[0], by_order[1]);
    assert!(by_order.into_iter().all(|count| count > 500));
}

fn good_plans(table: &[u8]) -> Vec<Plan> {
    reference::read_table(table).unwrap_or_else(|answer| panic!("refused: {answer:x}"))
}

/// "and always the same steps. Demand 3's verdict on any record is the same under the moved table."
#[test]
fn moved_tables_make_the_same_steps_and_judge_records_alike() {
    let mut dice = Dice::new(7);
    let (mut decided, mut verdicts) = (0, [0; 2]);
    for turn in 0..2_000 {
        let to = [To::Version1, To::Version2][turn % 2];
        let table = match to {
            To::Version1 => move_cases::of_counts(&mut dice, Order::InTurn),
            To::Version2 => move_cases::of_version_1(&mut dice),
        };
        let other = moved(to, &table);
        let pair = Pair::of(&table, &other);
        for _ in 0..10 {
            decided += usize::from(pair.step(&mut dice).unwrap_or_else(|apart| panic!("{table:?}\n{apart}")));
        }
        for rule in [1, 2] {
            let record = cases::any_record(&mut dice, &good_plans(&table));
            let verdict = reference::check(rule, &table, &record);
            assert_eq!(reference::check(rule, &other, &record), verdict);
            verdicts[usize::from(verdict & 0xFFFF != 0)] += 1;
        }
    }
    println!("steps that a wait-for decides: {decided}; records accepted {}, refused {}", verdicts[0], verdicts[1]);
    assert!(decided > 500 && verdicts.into_iter().all(|count| count > 500));
}

// ------------------------------------------------------------------------------------------------
// Request (vii) of document 02: the child that is taken where the pick is not Ready
// ------------------------------------------------------------------------------------------------

/// An any-order root and a leaf for each of these, which says whether it is named. Each of them ends only when told to. Of version 1 with
/// m 0, the same in version 2, and in version 2 with a formula that holds too and asks for a child by its rank.
fn any_order_tables(flags: u8, named: &[bool]) -> [Vec<u8>; 3] {
    let mut table = vec![b'A', b'P', b'T', 1, 0, named.len() as u8 + 1, 0, 0];
    table.extend([255, 255, 3, flags, 32, 0, 0, 0]);
    for &named in named {
        table.extend([0, 0, 0, u8::from(named) << 2, 32, 0, 0, 0]);
    }
    let in_2 = moved(To::Version2, &table);
    let by_rank = with_nodes(changed(&table, &[(3, 2)]), &[[3, 1, 2, 0], CHILD_0, [5, 0, 0, 0]]);
    [table, in_2, by_rank]
}

/// The ranks of the Ready children that are Activated after a step of an Activated plan with this pick.
fn activated(rule: u32, table: &[u8], children: &[u8], pick: usize) -> Vec<usize> {
    let mut states = [&[4], children].concat();
    let words: Vec<u8> = (0..states.len()).flat_map(|p| if p == 0 { (pick as u32) << 24 } else { 0 }.to_le_bytes()).collect();
    assert_eq!(step(rule, table, &mut states, &words), 0);
    assert_eq!(states[0], 4);
    (0..children.len()).filter(|&rank| children[rank] == 3 && states[rank + 1] == 4).collect()
}

/// By both rules, and in each of the tables.
fn expect_activated(flags: u8, named: [bool; 4], children: [u8; 4], pick: usize, expected: &[usize]) {
    for rule in [1, 2] {
        for table in any_order_tables(flags, &named) {
            assert_eq!(activated(rule, &table, &children, pick), expected, "rule {rule}, {children:?}, named {named:?}, pick {pick}");
        }
    }
}

const NAMED: bool = true;
const OTHER: bool = false;

#[test]
fn a_ready_pick_is_taken_whoever_is_named() {
    // not named, though one that is named is Ready; with and without a lower one that is
    expect_activated(0, [OTHER, NAMED, OTHER, OTHER], [3, 3, 3, 3], 2, &[2]);
    expect_activated(0, [OTHER, OTHER, OTHER, NAMED], [3, 3, 3, 3], 0, &[0]);
    expect_activated(0, [OTHER, OTHER, OTHER, NAMED], [2, 6, 3, 3], 2, &[2]);
    // named, though a lower one is Ready, named or not
    expect_activated(0, [NAMED, OTHER, OTHER, NAMED], [3, 3, 3, 3], 3, &[3]);
    expect_activated(0, [OTHER, OTHER, NAMED, OTHER], [3, 3, 3, 3], 2, &[2]);
    // none is named
    expect_activated(0, [OTHER, OTHER, OTHER, OTHER], [3, 3, 3, 3], 3, &[3]);
}

#[test]
fn where_the_pick_is_not_ready_the_lowest_named_one_is_taken() {
    // the lowest Ready one is not named, and a higher one is
    expect_activated(0, [OTHER, OTHER, NAMED, OTHER], [3, 2, 3, 3], 1, &[2]);
    expect_activated(0, [OTHER, OTHER, OTHER, NAMED], [6, 3, 3, 3], 0, &[3]);
    expect_activated(0, [OTHER, NAMED, OTHER, OTHER], [3, 3, 3, 8], 3, &[1]);
    // two named ones: the lower
    expect_activated(0, [OTHER, OTHER, NAMED, NAMED], [3, 2, 3, 3], 1, &[2]);
    expect_activated(0, [NAMED, NAMED, OTHER, NAMED], [8, 3, 3, 3], 0, &[1]);
    expect_activated(0, [NAMED, NAMED, NAMED, NAMED], [3, 3, 3, 7], 3, &[0]);
    // no Ready one is named: the lowest
    expect_activated(0, [OTHER, OTHER, OTHER, OTHER], [2, 3, 3, 3], 0, &[1]);
    expect_activated(0, [OTHER, OTHER, OTHER, OTHER], [3, 3, 3, 1], 3, &[0]);
}

#[test]
fn a_named_one_that_is_not_ready_counts_for_nothing() {
    // neither the pick nor another one, lower or higher
    expect_activated(0, [NAMED, OTHER, OTHER, NAMED], [2, 3, 3, 8], 0, &[1]);
    expect_activated(0, [NAMED, OTHER, OTHER, NAMED], [6, 3, 3, 1], 3, &[1]);
    expect_activated(0, [NAMED, NAMED, OTHER, NAMED], [7, 2, 3, 3], 0, &[3]);
    // nothing is Ready
    for pick in 0..4 {
        expect_activated(0, [NAMED, OTHER, NAMED, OTHER], [2, 1, 6, 8], pick, &[]);
        expect_activated(0, [OTHER, OTHER, OTHER, OTHER], [0, 0, 7, 8], pick, &[]);
    }
}

/// "only if no child is in execution and, with retry-aborted, none is Aborted": a named one waits as any other does.
#[test]
fn a_named_one_waits_too() {
    for pick in 0..4 {
        for running in [4, 5] {
            expect_activated(0, [OTHER, NAMED, NAMED, OTHER], [running, 3, 3, 3], pick, &[]);
            expect_activated(0, [OTHER, NAMED, NAMED, OTHER], [3, 3, 3, running], pick, &[]);
        }
        expect_activated(1, [OTHER, NAMED, NAMED, OTHER], [7, 3, 3, 3], pick, &[]);
    }
    expect_activated(0, [OTHER, OTHER, NAMED, OTHER], [7, 3, 3, 3], 0, &[2]);
}

/// Three leaves, the last of them named; the first has ended when the next one is taken. The words are idle, so that the pick is 0.
#[test]
fn runs_and_records_where_the_pick_is_not_ready() {
    let [table, in_2, by_rank] = any_order_tables(0, &[OTHER, OTHER, NAMED]);
    let begun = [[1, 0, 0, 0], [2, 0, 0, 0], [3, 0, 0, 0], [4, 0, 0, 0], [4, 1, 1, 1], [4, 2, 2, 2], [4, 3, 3, 3], [4, 4, 3, 3]];
    let record = |last: [u8; 4]| {
        let mut record = b"APR\x01\x00\x04\x00\x00".to_vec();
        for states in begun.into_iter().chain([[4, 6, 3, 3], last]) {
            record.extend([0; 16]);
            record.extend(states);
        }
        // step 9: complete on plan 1
        record[8 + 20 * 8 + 4] = 32;
        record
    };
    for table in [table, in_2, by_rank] {
        for rule in [1, 2] {
            for rest in RUNS {
                let mut states = [4, 6, 3, 3];
                assert_eq!(run(rest, rule, &table, &mut states, &[0; 16], 9), answer(0, 0, 1));
                assert_eq!(states, [4, 6, 3, 4]);
            }
            // a record shows either one, and not both or none, as it did before
            let rows = [([4, 6, 4, 3], answer(0, 0, 10)), ([4, 6, 3, 4], answer(0, 0, 10)), ([4, 6, 4, 4], answer(15, 3, 10))];
            for (last, expected) in rows.into_iter().chain([([4, 6, 3, 3], answer(15, 3, 10))]) {
                assert_eq!(reference::check(rule, &table, &record(last)), expected);
                assert_eq!(reference::check_by_old_fallback(rule, &table, &record(last)), expected);
            }
        }
    }
}

/// What document 01 said: "else the Ready child of lowest rank". With the pick that stands behind the arrow, a stored input goes on so.
#[test]
fn picks_written_out() {
    let rows = [
        // 0 is not Ready: the lowest Ready one, though 3 is named
        ([OTHER, OTHER, OTHER, NAMED], [6, 3, 3, 3], 0, 1),
        ([OTHER, NAMED, OTHER, OTHER], [3, 3, 3, 8], 3, 0),
        // a Ready pick stays, and so does one where nothing is Ready
        ([OTHER, OTHER, NAMED, OTHER], [3, 3, 3, 3], 3, 3),
        ([OTHER, OTHER, NAMED, OTHER], [2, 6, 8, 1], 2, 2),
    ];
    for (named, children, pick, expected) in rows {
        for table in any_order_tables(0, &named) {
            let (plans, states) = (good_plans(&table), [&[4], &children[..]].concat());
            let before = Before { rule: Rule::New, plans: &plans, states: &states, words: &[0; 5] };
            assert_eq!(reference::pick_written_out(&before, 0, pick), expected);
            // of a leaf, or of another body, the one pick is 0
            assert_eq!(reference::pick_written_out(&before, 1, 0), 0);
        }
    }
    let [mut unordered, ..] = any_order_tables(0, &[OTHER; 4]);
    unordered[place(0, 2)] = 4;
    let plans = good_plans(&unordered);
    let before = Before { rule: Rule::New, plans: &plans, states: &[4, 2, 3, 3, 3], words: &[0; 5] };
    assert_eq!(reference::pick_written_out(&before, 0, 0), 0);
}

/// All states of up to four leaves below one any-order plan, and all ways to name them: what the picks can lead to, taken together, is the
/// same by both fallbacks, though one pick can lead elsewhere. This is all that a record asks.
#[test]
fn the_fallbacks_lead_to_the_same_states_over_all_picks() {
    let mut apart = 0;
    for (leaves, flags) in [(1, 0), (2, 0), (3, 0), (4, 0), (4, 1)] {
        for set in 0..1 << leaves {
            let named: Vec<bool> = (0..leaves).map(|rank| set >> rank & 1 == 1).collect();
            let [table, ..] = any_order_tables(flags, &named);
            for number in 0..5usize.pow(leaves) {
                let children: Vec<u8> = (0..leaves).map(|rank| [2, 3, 5, 6, 7][number / 5usize.pow(rank) % 5]).collect();
                if children.iter().filter(|&&state| state == 5).count() < 2 {
                    apart += leads_apart(&table, &children);
                }
            }
        }
    }
    // Counted by hand: the lowest of r Ready ones is not named and another is, in 2^(r-1) - 1 ways; each of the k - r others is in one of
    // three states, or of two where Aborted ones are retried, named or not, and can be the pick. Of three leaves 18, of four 504 and 240.
    assert_eq!(apart, 18 + 504 + 240);
}

/// Of how many picks the two fallbacks lead to different states, once it is seen that all picks together do not.
fn leads_apart(table: &[u8], children: &[u8]) -> usize {
    let (plans, states) = (good_plans(table), [&[4], children].concat());
    let after = |pick: usize| {
        let mut words = vec![0; states.len()];
        words[0] = (pick as u32) << 24;
        reference::new_states(&Before { rule: Rule::New, plans: &plans, states: &states, words: &words })
    };
    let idle = vec![0; states.len()];
    let before = Before { rule: Rule::New, plans: &plans, states: &states, words: &idle };
    let now: Vec<Vec<u8>> = (0..children.len()).map(after).collect();
    let then: Vec<Vec<u8>> = (0..children.len()).map(|pick| after(reference::pick_written_out(&before, 0, pick))).collect();
    assert!(now.iter().all(|states| then.contains(states)) && then.iter().all(|states| now.contains(states)), "{table:?}, {children:?}");
    now.iter().zip(&then).filter(|(now, then)| now != then).count()
}

// ------------------------------------------------------------------------------------------------
// Request (viii) of document 02: how long a run can go on
// ------------------------------------------------------------------------------------------------

/// "at most 6 times the number of plans"
fn figure(n: usize) -> u64 {
    answer(0, 0, 6 * n)
}

const NO_FIGURE: u64 = 1 << 16;

/// A table of version 1 with these plans, each with its parent, body, flags, conditions and m.
fn table_of(plans: &[(u16, [u8; 4])]) -> Vec<u8> {
    let mut table = vec![b'A', b'P', b'T', 1, 0, plans.len() as u8, 0, 0];
    for &(parent, [body, flags, present, wait]) in plans {
        table.extend(parent.to_le_bytes());
        table.extend([body, flags, present, 0, 0, wait]);
    }
    table
}

/// In both versions.
fn expect_bound(table: &[u8], words: &[u32], expected: u64) {
    let words = cases::bytes_of_words(words);
    for table in [table.to_vec(), moved(To::Version2, table)] {
        assert_eq!(reference::bound(&table, &words), expected, "{table:?} with {words:?}");
    }
}

/// By both rules and in both versions: the answer, and the states that are left.
fn expect_run(table: &[u8], words: &[u32], from: &[u8], budget: u16, expected: u64, left: &[u8]) {
    let words = cases::bytes_of_words(words);
    for table in [table.to_vec(), moved(To::Version2, table)] {
        for rule in [1, 2] {
            for rest in RUNS {
                let mut states = from.to_vec();
                assert_eq!(run(rest, rule, &table, &mut states, &words, budget), expected);
                assert_eq!(states, left);
            }
        }
    }
}

/// A plan that waits for one child; a leaf with suspend, which holds, and reactivate, which does not; a leaf that completes.
#[test]
fn a_plan_moves_six_times() {
    let table = table_of(&[(65_535, [4, 0, 0, 1]), (0, [0, 0, 4 | 8, 0]), (0, [0, 4, 32, 0])]);
    let words = [0, 4, 32];
    expect_bound(&table, &words, figure(3));
    expect_run(&table, &words, &[0, 0, 0], 18, answer(0, 0, 10), &[6, 7, 6]);
    expect_run(&table, &words, &[0, 0, 0], 9, answer(0, 1, 9), &[4, 5, 6]);
    // its reactivate holds, or is absent, which is the same
    expect_bound(&table, &[0, 4 | 8, 32], NO_FIGURE);
    expect_bound(&changed(&table, &[(place(1, 4), 4)]), &words, NO_FIGURE);
}

#[test]
fn a_chain_of_four_takes_twenty_steps() {
    let table = table_of(&[(65_535, [4, 0, 0, 1]), (0, [4, 4, 0, 1]), (1, [4, 4, 0, 1]), (2, [0, 4, 0, 0])]);
    expect_bound(&table, &[0; 4], figure(4));
    expect_run(&table, &[0; 4], &[0; 4], 24, answer(0, 0, 20), &[6; 4]);
    expect_run(&table, &[0; 4], &[0; 4], 20, answer(0, 0, 20), &[6; 4]);
    expect_run(&table, &[0; 4], &[0; 4], 19, answer(0, 1, 19), &[4, 6, 6, 6]);
}

/// "Give one table showing that without the second premise a tree can move for ever."
#[test]
fn a_leaf_swings_for_ever() {
    let table = table_of(&[(65_535, [0, 0, 4, 0])]);
    expect_bound(&table, &[4], NO_FIGURE);
    for (from, budget, left) in [(4, 6, 4), (4, 65_535, 5), (0, 6, 4), (0, 65_535, 5)] {
        expect_run(&table, &[4], &[from], budget, answer(0, 1, budget.into()), &[left]);
    }
    // as soon as suspend does not hold, or reactivate is present and does not
    expect_bound(&table, &[0], figure(1));
    let held_back = changed(&table, &[(place(0, 4), 4 | 8)]);
    expect_bound(&held_back, &[4], figure(1));
    expect_run(&held_back, &[4], &[0], 6, answer(0, 0, 5), &[5]);
}

#[test]
fn a_leaf_is_retried_for_ever() {
    let table = table_of(&[(65_535, [4, 1, 32, 0]), (0, [0, 0, 16, 0])]);
    expect_bound(&table, &[0, 16], NO_FIGURE);
    expect_run(&table, &[0, 16], &[4, 1], 12, answer(0, 1, 12), &[4, 3]);
    expect_run(&table, &[0, 16], &[4, 1], 65_535, answer(0, 1, 65_535), &[4, 1]);
    // the flag counts, also where nobody would be retried
    expect_bound(&table, &[0, 0], NO_FIGURE);
    expect_bound(&changed(&table, &[(place(0, 3), 0)]), &[0, 16], figure(2));
}

/// Of each plan of a chain of three, where no other has anything.
#[test]
fn each_premise_of_each_plan() {
    let chain = table_of(&[(65_535, [1, 0, 0, 0]), (0, [2, 0, 0, 0]), (1, [0, 0, 0, 0])]);
    // present, manual and overridable of suspend (4) and reactivate (8); the word; whether both hold
    let rows: [([u8; 3], u32, bool); 14] = [
        ([0, 0, 0], 4, false),
        ([4, 0, 0], 4, true),
        ([4, 0, 0], 0, false),
        ([4, 4, 0], 4, false),
        ([4, 4, 0], 4 | 4 << 8, true),
        ([4, 4, 0], 4 << 8, false),
        ([4, 0, 0], 4 << 14, false),
        ([4, 0, 4], 4 << 14, true),
        ([12, 0, 0], 12, true),
        ([12, 0, 0], 4, false),
        ([12, 0, 0], 8, false),
        ([12, 8, 0], 12, false),
        ([12, 8, 0], 12 | 8 << 8, true),
        ([12, 8, 8], 4 | 8 << 14, true),
    ];
    for p in 0..3 {
        for (conditions, word, both) in rows {
            let changes: Vec<(usize, u8)> = (0..3).map(|at| (place(p, 4 + at), conditions[at])).collect();
            let table = changed(&chain, &changes);
            let mut words = [0; 3];
            words[p] = word;
            expect_bound(&table, &words, if both { NO_FIGURE } else { figure(3) });
            // the second premise alone, the first alone, and neither
            for parent in 0..2 {
                expect_bound(&changed(&table, &[(place(parent, 3), 1)]), &words, NO_FIGURE);
            }
        }
    }
    // wait-for-optional and named are other flags
    expect_bound(&changed(&chain, &[(place(0, 3), 2), (place(1, 3), 4 | 2), (place(2, 3), 4)]), &[0; 3], figure(3));
}

/// A suspend of one plan and a reactivate of another.
#[test]
fn each_plan_is_asked_by_itself() {
    for (suspends, reactivates) in [(0, 1), (1, 0), (1, 2), (2, 1)] {
        let mut table = t1_with(&[]);
        let mut words = [0; 3];
        for (p, holding) in [(suspends, 4), (reactivates, 8)] {
            table[place(p, 4)] |= 12;
            words[p] = holding;
        }
        expect_bound(&table, &words, figure(3));
        words[suspends] |= 8;
        expect_bound(&table, &words, NO_FIGURE);
    }
}

/// "1 to 9, 22" as of any call, then 10 of the words, then 12; and all of them before the premises are asked.
#[test]
fn bounds_refused_in_order() {
    let retrying = t1_with(&[(place(0, 3), 1)]);
    let wrong_words = bytes([0, 1, 1 << 31]);
    for table in [retrying.clone(), moved(To::Version2, &retrying)] {
        assert_eq!(reference::bound(&table, &bytes([0, 0, 0])), NO_FIGURE);
        assert_eq!(reference::bound(&table, &wrong_words), answer(12, 1, 0));
        for words in [&[][..], &[0; 4], &[0; 11], &[0; 13], &[0; 24], &[255; 8]] {
            assert_eq!(reference::bound(&table, words), answer(10, 0, 0));
        }
        let spoiled = [(7, 1, 4), (place(1, 0), 7, 6), (place(2, 4), 64, 7), (place(2, 5), 4, 8)];
        for (at, byte, number) in spoiled {
            let refusal = reference::bound(&changed(&table, &[(at, byte)]), &[]) & 0xFFFF;
            assert_eq!(refusal, number);
        }
        assert_eq!(reference::bound(&table[..7], &[]), answer(1, 0, 0));
        assert_eq!(reference::bound(&changed(&table, &[(2, b'R')]), &[]), answer(2, 0, 0));
        assert_eq!(reference::bound(&changed(&table, &[(3, 3)]), &[]), answer(3, 0, 0));
        assert_eq!(reference::bound(&table[..table.len() - 1], &[]), answer(5, 0, 0));
    }
    assert_eq!(reference::bound(&t1_with(&[(place(0, 7), 3)]), &wrong_words), answer(9, 0, 0));
    let node = formula_table(0, 3, &[], &[[6, 0, 0, 0]]);
    assert_eq!(reference::bound(&node, &[]), answer(22, 0, 0));
    // there is no rule and there are no states: neither 17 nor 11 is looked for, and a pick counts as in a step
    assert_eq!(reference::bound(&T1, &bytes([1 << 24, 0, 0])), figure(3));
    assert_eq!(reference::bound(&T1, &bytes([2 << 24, 0, 0])), answer(12, 0, 0));
}

// ------------------------------------------------------------------------------------------------
// Request (ix) of document 02: why a plan moved
// ------------------------------------------------------------------------------------------------

/// Stands in the causes before: no cause.
const GARBAGE: u8 = 0xC5;

/// By a rule: the states and the causes that one step leaves.
fn expect_causes_by(rule: u32, table: &[u8], from: &[u8], words: &[u32], to: &[u8], causes: &[u8]) {
    let (mut states, mut lent) = (from.to_vec(), vec![GARBAGE; from.len()]);
    assert_eq!(reference::step(rule, table, &mut states, &cases::bytes_of_words(words), &mut lent), 0);
    assert_eq!((&states[..], &lent[..]), (to, causes), "by rule {rule} from {from:?} with {words:?}");
}

/// By both rules and in both versions.
fn expect_causes(table: &[u8], from: &[u8], words: &[u32], to: &[u8], causes: &[u8]) {
    for table in [table.to_vec(), moved(To::Version2, table)] {
        for rule in [1, 2] {
            expect_causes_by(rule, &table, from, words, to, causes);
        }
    }
}

/// "1 ordered by the parent", the root too; "Filter, setup ... are 2", also where they are absent.
#[test]
fn causes_of_t1_from_000() {
    let causes = [[1, 0, 0], [2, 0, 0], [2, 0, 0], [1, 0, 0], [0, 1, 1], [0, 2, 2], [0, 2, 2], [0, 1, 0]];
    let mut states = [0, 0, 0];
    for (expected, causes) in FIRST_EIGHT.into_iter().zip(causes) {
        expect_causes(&T1, &states, &[0, 0, 0], &expected, &causes);
        states = expected;
    }
    expect_causes(&T1, &[4, 4, 3], &[0, 0, 0], &[4, 4, 3], &[0, 0, 0]);
}

#[test]
fn completion_is_its_own() {
    expect_causes(&T1, &[4, 4, 3], &[0, 32, 0], &[4, 6, 3], &[0, 2, 0]);
    expect_causes(&T1, &[4, 6, 3], &[0, 0, 0], &[4, 6, 4], &[0, 0, 1]);
    expect_causes(&T1, &[4, 6, 4], &[0, 0, 32], &[4, 6, 6], &[0, 0, 2]);
    // a root without complete
    expect_causes(&T1, &[4, 6, 6], &[0, 0, 0], &[6, 6, 6], &[2, 0, 0]);
    expect_causes(&T1, &[6, 6, 6], &[0, 0, 0], &[6, 6, 6], &[0, 0, 0]);
}

/// Plan 1 has a filter or a setup: it holds, it still can, it no longer can. Those of the root are its own too.
#[test]
fn selection_and_rejection_are_its_own() {
    let (filter, setup) = (t1_with(&[(place(1, 4), 33)]), t1_with(&[(place(1, 4), 34)]));
    for (word, new, cause) in [(65, 2, 2), (64, 1, 0), (0, 8, 2)] {
        expect_causes(&filter, &[4, 1, 1], &[0, word, 0], &[4, new, 2], &[0, cause, 2]);
    }
    for (word, new, cause) in [(130, 3, 2), (128, 2, 0), (0, 8, 2)] {
        expect_causes(&setup, &[4, 2, 2], &[0, word, 0], &[4, new, 3], &[0, cause, 2]);
    }
    let root = table_of(&[(65_535, [0, 0, 1 | 2, 0])]);
    for (from, word, new, cause) in [(1, 65, 2, 2), (1, 64, 1, 0), (1, 0, 8, 2), (2, 130, 3, 2), (2, 128, 2, 0), (2, 0, 8, 2)] {
        expect_causes(&root, &[from], &[word], &[new], &[cause]);
    }
    // under a Suspended parent, which gives no orders, and would be reactivated if its reactivate held
    let held = table_of(&[(65_535, [4, 0, 8, 0]), (0, [0, 0, 1 | 2, 0])]);
    expect_causes(&held, &[5, 1], &[0, 65], &[5, 2], &[0, 2]);
    expect_causes(&held, &[5, 2], &[0, 0], &[5, 8], &[0, 2]);
    expect_causes(&held, &[5, 0], &[0, 0], &[5, 0], &[0, 0]);
    expect_causes(&held, &[5, 3], &[0, 0], &[5, 3], &[0, 0]);
}

/// Each body considers and activates; those with retry-aborted retry.
#[test]
fn orders_of_each_body() {
    for body in 1..=4 {
        let table = table_of(&[(65_535, [body, 1, 32, 0]), (0, [0, 0, 32, 0])]);
        for (from, to) in [(0, 1), (3, 4), (7, 1)] {
            expect_causes(&table, &[4, from], &[0, 0], &[4, to], &[0, 1]);
        }
        // a parent that is reactivated gives no orders yet
        for state in [0, 3, 7] {
            expect_causes(&table, &[5, state], &[0, 0], &[4, state], &[2, 0]);
        }
    }
    expect_causes(&two(5), &[4, 7, 0], &[0, 0, 0], &[4, 7, 1], &[0, 0, 1]);
    expect_causes(&two(6), &[4, 5, 0], &[0, 0, 0], &[4, 4, 1], &[0, 2, 1]);
    expect_causes(&two(7), &[4, 7, 3], &[0, 0, 0], &[4, 7, 4], &[0, 0, 1]);
    expect_causes(&two(8), &[4, 0, 0], &[0, 0, 0], &[4, 0, 1], &[0, 0, 1]);
    expect_causes(&two(8), &[4, 0, 0], &[IF_SATISFIED | IF_SATISFIABLE, 0, 0], &[4, 1, 0], &[0, 1, 0]);
}

/// An unordered root with abort and complete that needs plan 1; plan 1 and plan 2 are leaves with abort and complete.
fn needing_plan_1() -> Vec<u8> {
    table_of(&[(65_535, [4, 0, 48, 1]), (0, [0, 4, 48, 0]), (0, [0, 0, 48, 0])])
}

/// "Own abort goes before lost children"
#[test]
fn own_abort_and_lost_children() {
    let table = needing_plan_1();
    // a leaf's own
    expect_causes(&table, &[4, 4, 4], &[0, 16, 0], &[4, 7, 4], &[0, 2, 0]);
    // the root's: its own, its lost child, both
    expect_causes(&table, &[4, 4, 4], &[16, 0, 0], &[7, 7, 7], &[2, 4, 4]);
    expect_causes(&table, &[4, 7, 4], &[0, 0, 0], &[7, 7, 7], &[3, 0, 4]);
    expect_causes(&table, &[4, 8, 4], &[0, 0, 0], &[7, 8, 7], &[3, 0, 4]);
    expect_causes(&table, &[4, 7, 4], &[16, 0, 0], &[7, 7, 7], &[2, 0, 4]);
    // the same of a Suspended root
    expect_causes(&table, &[5, 5, 5], &[16, 0, 0], &[7, 7, 7], &[2, 4, 4]);
    expect_causes(&table, &[5, 7, 5], &[0, 0, 0], &[7, 7, 7], &[3, 0, 4]);
    expect_causes(&table, &[5, 7, 5], &[16, 0, 0], &[7, 7, 7], &[2, 0, 4]);
    // and of a plan that is not the root: plan 1 needs plan 2
    let chain = table_of(&[(65_535, [4, 0, 32, 0]), (0, [4, 4, 16, 1]), (1, [0, 4, 32, 0])]);
    for from in [4, 5] {
        for lost in [7, 8] {
            expect_causes(&chain, &[4, from, lost], &[0, 0, 0], &[4, 7, lost], &[0, 3, 0]);
            expect_causes(&chain, &[4, from, lost], &[0, 16, 0], &[4, 7, lost], &[0, 2, 0]);
        }
        expect_causes(&chain, &[4, from, 3], &[0, 16, 0], &[4, 7, 8], &[0, 2, 4]);
    }
}

/// An Aborted child that is retried is lost by rule 1 only.
#[test]
fn lost_by_a_rule() {
    expect_causes_by(1, &t1_retrying(), &[4, 7, 3], &[0, 0, 0], &[7, 7, 8], &[3, 0, 4]);
    expect_causes_by(2, &t1_retrying(), &[4, 7, 3], &[0, 0, 0], &[4, 1, 3], &[0, 1, 0]);
}

/// A formula with a "not" fails though no child is lost: it is told as lost children all the same.
#[test]
fn lost_by_a_formula() {
    let table = formula_table(0, 1, &[], &[[1, 1, 0, 0], CHILD_0]);
    for rule in [1, 2] {
        expect_causes_by(rule, &table, &[4, 0], &[0, 0], &[7, 0], &[3, 0]);
        expect_causes_by(rule, &table, &[4, 3], &[0, 0], &[7, 8], &[3, 4]);
    }
}

/// An unordered root and a leaf, each with suspend, reactivate, abort and complete.
fn suspending() -> Vec<u8> {
    table_of(&[(65_535, [4, 0, 60, 0]), (0, [0, 0, 60, 0])])
}

/// "a forced suspension before an own one"; "reactivation" is 2
#[test]
fn suspension_and_reactivation() {
    let table = suspending();
    expect_causes(&table, &[4, 4], &[0, 4], &[4, 5], &[0, 2]);
    expect_causes(&table, &[4, 4], &[4, 0], &[5, 5], &[2, 4]);
    expect_causes(&table, &[4, 4], &[4, 4], &[5, 5], &[2, 4]);
    expect_causes(&table, &[5, 5], &[8, 8], &[4, 4], &[2, 2]);
    expect_causes(&table, &[5, 5], &[8, 0], &[4, 5], &[2, 0]);
    expect_causes(&table, &[5, 5], &[0, 8], &[5, 5], &[0, 0]);
    expect_causes(&table, &[4, 5], &[0, 8], &[4, 4], &[0, 2]);
    // a Suspended plan stays so, whatever suspends it once more
    expect_causes(&table, &[4, 5], &[4, 4], &[5, 5], &[2, 0]);
    // an absent reactivate holds
    let without = t1_with(&[(place(0, 4), 4)]);
    expect_causes(&without, &[5, 5, 3], &[0, 0, 0], &[4, 4, 3], &[2, 2, 0]);
}

/// Under a Suspended parent a plan's own abort and its lost children go before the suspension.
#[test]
fn aborted_though_the_parent_is_suspended() {
    expect_causes(&suspending(), &[4, 4], &[4, 16], &[5, 7], &[2, 2]);
    expect_causes(&suspending(), &[4, 4], &[4, 16 | 4], &[5, 7], &[2, 2]);
    expect_causes(&suspending(), &[5, 5], &[0, 16], &[5, 7], &[0, 2]);
    let chain = table_of(&[(65_535, [4, 0, 12, 0]), (0, [4, 0, 20, 1]), (1, [0, 4, 32, 0])]);
    expect_causes(&chain, &[4, 4, 7], &[4, 4, 0], &[5, 7, 7], &[2, 3, 0]);
    expect_causes(&chain, &[4, 4, 7], &[4, 20, 0], &[5, 7, 7], &[2, 2, 0]);
    expect_causes(&chain, &[4, 4, 4], &[4, 4, 0], &[5, 5, 5], &[2, 4, 4]);
}

/// "4 forced by the parent's state", whatever holds of the plan itself: nothing, all, or that it cannot be selected.
#[test]
fn under_a_parent_that_ends() {
    let leaf = (0, [0, 0, 63, 0]);
    let table = table_of(&[&[(65_535, [4, 0, 48, 0])], &[leaf; 9][..]].concat());
    let from = [4, 0, 1, 2, 3, 4, 5, 6, 7, 8];
    for (word, end) in [(32, 6), (16, 7)] {
        for of_leaves in [0, 64 | 128, 63 | 64 | 128] {
            let mut words = [of_leaves; 10];
            words[0] = word;
            expect_causes(&table, &from, &words, &[end, 0, 8, 8, 8, 7, 7, 6, 7, 8], &[2, 0, 4, 4, 4, 4, 4, 0, 0, 0]);
        }
    }
    // down to the last descendant: plan 1 has lost plan 2 and is told to suspend, plan 3 to abort
    let deep = table_of(&[(65_535, [4, 0, 32, 0]), (0, [4, 0, 4, 1]), (1, [0, 4, 32, 0]), (1, [0, 0, 48, 0])]);
    expect_causes(&deep, &[4, 4, 7, 4], &[32, 4, 0, 16], &[6, 7, 7, 7], &[2, 4, 0, 4]);
}

/// "a reset to Inactive is 4": under a plan that is retried, and under one that is reset itself. Who is Inactive already is not moved.
#[test]
fn resets() {
    let leaf_of = |parent: u16| (parent, [0; 4]);
    let others = [(65_535, [4, 1, 32, 0]), (0, [4, 0, 32, 0]), (1, [4, 0, 32, 0])];
    let table = table_of(&[&others[..], &[leaf_of(2), leaf_of(2), leaf_of(1), leaf_of(1), leaf_of(1)]].concat());
    expect_causes(&table, &[4, 7, 6, 6, 0, 7, 8, 0], &[0; 8], &[4, 1, 0, 0, 0, 0, 0, 0], &[0, 1, 4, 4, 0, 4, 4, 0]);
    expect_causes(&table, &[4, 7, 7, 8, 7, 6, 6, 6], &[0; 8], &[4, 1, 0, 0, 0, 0, 0, 0], &[0, 1, 4, 4, 4, 4, 4, 4]);
    expect_causes(&table, &[4, 1, 0, 0, 0, 0, 0, 0], &[0; 8], &[4, 2, 0, 0, 0, 0, 0, 0], &[0, 2, 0, 0, 0, 0, 0, 0]);
}

/// By both rules and in both versions, plain and jumping: what a run answers, and the states and causes that it leaves.
fn expect_causes_of_run(table: &[u8], from: &[u8], words: &[u32], budget: u16, expected: u64, left: &[u8], causes: &[u8]) {
    for table in [table.to_vec(), moved(To::Version2, table)] {
        for rule in [1, 2] {
            for rest in RUNS {
                let (mut states, mut lent) = (from.to_vec(), vec![GARBAGE; from.len()]);
                assert_eq!(rest(rule, &table, &mut states, &cases::bytes_of_words(words), &mut lent, budget), expected);
                assert_eq!((&states[..], &lent[..]), (left, causes), "from {from:?} with {words:?} and {budget} steps");
            }
        }
    }
}

/// "A run gives its last step's causes, all 0 if it took none."
#[test]
fn causes_that_a_run_leaves() {
    // at rest at once; nothing may be taken
    expect_causes_of_run(&T1, &[4, 4, 3], &[0; 3], 8, answer(0, 0, 0), &[4, 4, 3], &[0, 0, 0]);
    expect_causes_of_run(&T1, &[4, 4, 3], &[0; 3], 0, answer(0, 0, 0), &[4, 4, 3], &[0, 0, 0]);
    expect_causes_of_run(&T1, &[0, 0, 0], &[0; 3], 0, answer(0, 1, 0), &[0, 0, 0], &[0, 0, 0]);
    // rested: of the eighth step, and not of the ninth, in which nothing would move
    expect_causes_of_run(&T1, &[0, 0, 0], &[0; 3], 8, answer(0, 0, 8), &[4, 4, 3], &[0, 1, 0]);
    expect_causes_of_run(&T1, &[0, 0, 0], &[0; 3], 65_535, answer(0, 0, 8), &[4, 4, 3], &[0, 1, 0]);
    // still moving: of the seventh, and not of the eighth
    expect_causes_of_run(&T1, &[0, 0, 0], &[0; 3], 7, answer(0, 1, 7), &[4, 3, 3], &[0, 2, 2]);
    expect_causes_of_run(&T1, &[0, 0, 0], &[0; 3], 1, answer(0, 1, 1), &[1, 0, 0], &[1, 0, 0]);
    expect_causes_of_run(&needing_plan_1(), &[4, 4, 4], &[0, 16, 0], 1, answer(0, 1, 1), &[4, 7, 4], &[0, 2, 0]);
    expect_causes_of_run(&needing_plan_1(), &[4, 4, 4], &[0, 16, 0], 2, answer(0, 0, 2), &[7, 7, 7], &[3, 0, 4]);
}

/// Round in a circle the same states may be come to otherwise than for the first time.
#[test]
fn causes_that_a_run_in_a_circle_leaves() {
    // Ready, then Activated and Suspended in turn
    let swinging = table_of(&[(65_535, [0, 0, 4, 0])]);
    for (budget, state, cause) in [(0, 3, 0), (1, 4, 1), (2, 5, 2), (3, 4, 2), (4, 5, 2), (65_535, 4, 2)] {
        expect_causes_of_run(&swinging, &[3], &[4], budget, answer(0, 1, budget.into()), &[state], &[cause]);
    }
    // 1 2 3 4 7 and 1 again
    let retried = table_of(&[(65_535, [4, 1, 32, 0]), (0, [0, 0, 16, 0])]);
    for (budget, state, cause) in [(0, 1, 0), (1, 2, 2), (2, 3, 2), (3, 4, 1), (4, 7, 2), (5, 1, 1), (12, 3, 2), (65_535, 1, 1)] {
        expect_causes_of_run(&retried, &[4, 1], &[0, 16], budget, answer(0, 1, budget.into()), &[4, state], &[0, cause]);
    }
}

/// The same as so many single steps.
#[test]
fn a_run_leaves_the_causes_of_the_last_step_that_it_took() {
    let mut dice = Dice::new(11);
    let (mut took_none, mut took_some) = (0, 0);
    for _ in 0..5_000 {
        let n = dice.between(1, 8);
        let table = cases::good_table(&mut dice, n);
        let plans = good_plans(&table);
        let from = cases::good_states(&mut dice, &plans);
        let mood = cases::mood(&mut dice);
        let words = cases::bytes_of_words(&cases::good_words(&mut dice, &plans, &mood));
        let (rule, _) = cases::any_rule(&mut dice);
        let budget = dice.between(0, 6) as u16;
        let (mut states, mut causes) = (from.clone(), vec![GARBAGE; n]);
        let steps = reference::rest(rule, &table, &mut states, &words, &mut causes, budget) >> 32;
        let (mut stepped, mut last) = (from, vec![0; n]);
        for _ in 0..steps {
            assert_eq!(reference::step(rule, &table, &mut stepped, &words, &mut last), 0);
        }
        assert_eq!((states, causes), (stepped, last));
        *if steps == 0 { &mut took_none } else { &mut took_some } += 1;
    }
    assert!(took_none > 500 && took_some > 500, "{took_none}, {took_some}");
}

/// A step and runs of T1 with so many causes, which are refused so and leave states and causes as they were.
fn expect_refused_causes(rule: u32, table: &[u8], states: [u8; 3], words: [u32; 3], causes: usize, expected: u64) {
    let (mut lent, mut lent_causes, garbage) = (states, vec![GARBAGE; causes], vec![GARBAGE; causes]);
    assert_eq!(reference::step(rule, table, &mut lent, &bytes(words), &mut lent_causes), expected, "{causes} causes");
    assert_eq!((lent, &lent_causes), (states, &garbage));
    for rest in RUNS {
        assert_eq!(rest(rule, table, &mut lent, &bytes(words), &mut lent_causes, 9), expected, "{causes} causes");
        assert_eq!((lent, &lent_causes), (states, &garbage));
    }
}

/// "Refusals: 10 also for the cause buffer's length."
#[test]
fn causes_of_a_wrong_length() {
    for rule in [1, 2] {
        for causes in [0, 1, 2, 4, 6, 12, 256, 259] {
            expect_refused_causes(rule, &T1, [4, 4, 3], [0, 0, 0], causes, answer(10, 0, 0));
            // before 11 and 12, and behind what the table is refused for
            expect_refused_causes(rule, &T1, [9, 9, 9], [0, 0, 0], causes, answer(10, 0, 0));
            expect_refused_causes(rule, &T1, [4, 4, 3], [0, 1, 0], causes, answer(10, 0, 0));
            expect_refused_causes(rule, &t1_with(&[(place(0, 7), 3)]), [4, 4, 3], [0, 0, 0], causes, answer(9, 0, 0));
            expect_refused_causes(rule, &T1[..7], [4, 4, 3], [0, 0, 0], causes, answer(1, 0, 0));
        }
    }
    expect_refused_causes(3, &T1, [4, 4, 3], [0, 0, 0], 2, answer(17, 0, 0));
}

/// "No refusal changes lent bytes", causes of the right length neither.
#[test]
fn a_refusal_leaves_the_causes() {
    expect_refused_causes(2, &T1, [4, 4, 4], [0, 0, 0], 3, answer(11, 2, 0));
    expect_refused_causes(2, &T1, [0, 0, 0], [0, 1, 0], 3, answer(12, 1, 0));
    expect_refused_causes(2, &T1[..31], [0, 0, 0], [0, 0, 0], 3, answer(5, 0, 0));
    expect_refused_causes(0, &T1, [0, 0, 0], [0, 0, 0], 3, answer(17, 0, 0));
    // 10 of the states or of the words alone
    for (states, words) in [(2, 12), (4, 12), (3, 8), (3, 16)] {
        let mut lent = [GARBAGE; 3];
        assert_eq!(reference::step(2, &T1, &mut vec![0; states], &vec![0; words], &mut lent), answer(10, 0, 0));
        assert_eq!(lent, [GARBAGE; 3]);
    }
}
