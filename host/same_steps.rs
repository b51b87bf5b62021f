//! Whether two tables of the same plans make the same step: "back and there gives ... always the same steps" (02 (vi)). For moves.rs and
//! the reference's own tests.

use crate::cases;
use crate::dice::Dice;
use crate::reference::{self, Before, Formula, Plan};

/// A table's plans as two tables have them, and as they would be if they waited for nothing.
pub struct Pair {
    one: Vec<Plan>,
    other: Vec<Plan>,
    waiting_for_nothing: Vec<Plan>,
}

impl Pair {
    /// Of tables that pass.
    pub fn of(one: &[u8], other: &[u8]) -> Pair {
        let read = |table| reference::read_table(table).unwrap_or_else(|answer| panic!("a table that was moved is refused: {answer:x}"));
        let mut waiting_for_nothing = read(one);
        waiting_for_nothing.iter_mut().for_each(|plan| plan.wait_for = Formula::AtLeast(0));
        Pair { one: read(one), other: read(other), waiting_for_nothing }
    }

    /// One step from states and under words that pass, by each rule: whether some wait-for decided it, so that it would have gone
    /// otherwise without. Where the tables do not make the same step, the text says which.
    pub fn step(&self, dice: &mut Dice) -> Result<bool, String> {
        let states = cases::good_states(dice, &self.one);
        let mood = cases::mood(dice);
        let words = cases::good_words(dice, &self.one, &mood);
        let mut decided = false;
        for (number, rule) in cases::RULES {
            let after = |plans| reference::new_states(&Before { rule, plans, states: &states, words: &words });
            let (one, other) = (after(&self.one), after(&self.other));
            if one != other {
                return Err(format!("rule {number}\nstates {states:?}\nwords {words:x?}\nlead to {one:?}\nand to {other:?}"));
            }
            decided |= one != after(&self.waiting_for_nothing);
        }
        Ok(decided)
    }
}
