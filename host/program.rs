//! What lines.rs, moves.rs, questions.rs and trees.rs share: their command line, and a program that is started on an input.

use std::io::Write;
use std::process::{Command, Output, Stdio};

pub struct Options {
    /// The program and its arguments.
    pub program: Vec<String>,
    pub seed: u64,
    /// How much is compared.
    pub count: usize,
}

impl Options {
    /// `--seed` and the option named `count_option` are the tester's; everything else is the program's.
    pub fn from_arguments(count_option: &str, count: usize) -> Options {
        let mut options = Options { program: Vec::new(), seed: 1, count };
        let mut arguments = std::env::args().skip(1);
        while let Some(argument) = arguments.next() {
            let mut number = || arguments.next().and_then(|text| text.parse::<u64>().ok()).expect("a number");
            if argument == "--seed" {
                options.seed = number();
            } else if argument == count_option {
                options.count = number() as usize;
            } else {
                options.program.push(argument);
            }
        }
        options
    }
}

/// "16: program input over 65,536 bytes"
#[allow(dead_code)] // `trials`, which is ours for trees.rs, takes more.
pub const MOST_BYTES: usize = 65_536;

/// What the program prints for an input.
#[allow(dead_code)] // moves.rs reads what is no text.
pub fn printed(program: &[String], input: &[u8]) -> String {
    text(&started(program, input, Stdio::inherit()).stdout)
}

/// The bytes that the program writes for an input, and what it says on standard error.
#[allow(dead_code)] // Only one that writes bytes has both.
pub fn written(program: &[String], input: &[u8]) -> (Vec<u8>, String) {
    let output = started(program, input, Stdio::piped());
    (output.stdout, text(&output.stderr))
}

fn text(bytes: &[u8]) -> String {
    String::from_utf8_lossy(bytes).into_owned()
}

/// The programs read all that they take before they write.
fn started(program: &[String], input: &[u8], errors: Stdio) -> Output {
    let mut process = Command::new(&program[0])
        .args(&program[1..])
        .stdin(Stdio::piped())
        .stdout(Stdio::piped())
        .stderr(errors)
        .spawn()
        .expect("the program starts");
    let mut to_program = process.stdin.take().expect("a pipe");
    // a program that has seen enough may stop reading
    let _ = to_program.write_all(input);
    drop(to_program);
    process.wait_with_output().expect("the program ends")
}

/// The line of a refusal, with its end: "`refused number step plan`".
pub fn refusal_line(answer: u64) -> String {
    let (number, plan, step) = (answer & 0xFFFF, answer >> 16 & 0xFFFF, answer >> 32);
    format!("refused {number} {step} {plan}\n")
}
