//! What differ.rs and bounds.rs send to a child that makes the library's calls, such as child.c. All numbers are little-endian.
//!
//!     request: u8 kind (1 step, 2 rest, 3 check, 4 to version 1, 5 to version 2, 6 bound); u32 rule (0 for the last three);
//!              u32 length of the table, u32 of the states (0 for a check and a bound; for 4 and 5: of the output), u32 of the
//!              words (for a check: of the record; 0 for 4 and 5), u32 of the causes (0 unless step or rest); u16 budget (0
//!              unless rest); the bytes of the table, of the states or of what stands in the output, of the words or record,
//!              of what stands in the causes
//!     answer:  u64; the states or the output, as many bytes as were sent; the causes, likewise; u8, 1 when the table, the words
//!              or record, and the guard bytes around all buffers of the child are intact

use crate::bound_cases::Question;
use crate::cases::{Call, Kind};
use crate::dice::hex;
use crate::talk::{self, Asked, Left};

/// The parts are the table; the states or what stands in the output; the words or the record; what stands in the causes.
pub fn request(kind: u8, rule: u32, parts: [&[u8]; 4], budget: u16) -> Vec<u8> {
    let mut bytes = vec![kind];
    bytes.extend(rule.to_le_bytes());
    for part in parts {
        bytes.extend((part.len() as u32).to_le_bytes());
    }
    bytes.extend(budget.to_le_bytes());
    bytes.extend(parts.concat());
    bytes
}

pub fn kind_number(kind: Kind) -> u8 {
    match kind {
        Kind::Step => 1,
        Kind::Rest => 2,
        Kind::Check => 3,
    }
}

/// What a step, a run or a check leaves.
pub fn left(states: Vec<u8>, causes: Vec<u8>) -> Left {
    vec![states, causes]
}

impl Asked<Call> {
    /// The states that the call leaves.
    pub fn states(&self) -> &[u8] {
        &self.left[0]
    }

    /// The causes that it leaves.
    pub fn causes(&self) -> &[u8] {
        &self.left[1]
    }
}

impl talk::Call for Call {
    fn request(&self) -> Vec<u8> {
        request(kind_number(self.kind), self.rule, [&self.table, &self.states, &self.words, &self.causes], self.budget)
    }

    fn tell(&self) -> String {
        format!(
            "kind {} ({:?})\nrule {}\ntable {}\nstates {}\n{} {}\ncauses {}\nbudget {}",
            kind_number(self.kind),
            self.kind,
            self.rule,
            hex(&self.table),
            hex(&self.states),
            if self.kind == Kind::Check { "record" } else { "words" },
            hex(&self.words),
            hex(&self.causes),
            self.budget,
        )
    }
}

impl talk::Call for Question {
    fn request(&self) -> Vec<u8> {
        request(6, 0, [&self.table, &[], &self.words, &[]], 0)
    }

    fn tell(&self) -> String {
        format!("bound\ntable {}\nwords {}", hex(&self.table), hex(&self.words))
    }
}
