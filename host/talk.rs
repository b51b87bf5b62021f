//! What differ.rs, bounds.rs and held.rs share: their command line, and a child that is sent calls, whose answers are compared with a
//! reference's.
//!
//! Requests are the tester's own. An answer is a u64; what the call leaves in the buffers that it may write, one after the other, as many
//! bytes of each as the reference says; and a u8, 1 when all other bytes that were lent, and the guard bytes around them, are as they were.
//! Numbers are little-endian.
//!
//! Requests come in batches, so the child must send its answers before it waits for the next request. It ends when its standard input does.

use crate::dice::hex;
use std::io::{self, BufReader, Read, Write};
use std::process::{Child, ChildStdin, ChildStdout, Command, Stdio};
use std::sync::mpsc::{self, RecvTimeoutError};
use std::time::{Duration, Instant};

// ------------------------------------------------------------------------------------------------
// Command line
// ------------------------------------------------------------------------------------------------

pub struct Options {
    /// The child's program and its arguments.
    child: Vec<String>,
    pub seed: u64,
    /// What is counted: calls, or what takes several of them.
    counted: &'static str,
    calls: u64,
    /// From so many calls on a run is held to what it must reach. A shorter one may well miss what is rare, and that says nothing about
    /// the child.
    reach_from: u64,
    /// How long a batch may take before the child is taken to hang.
    patience: Duration,
}

impl Options {
    /// `--seed`, `--reach-from`, `--patience` and an option for what is counted are the tester's; everything else is the child's. Unless
    /// it is said, there are `reach_from` of these, which must reach everything.
    pub fn from_arguments(tester: &str, counted: &'static str, reach_from: u64) -> Result<Options, String> {
        let usage = format!("usage: {tester} CHILD [ARGS..] --seed S --{counted} N [--reach-from N] [--patience SECONDS]");
        let patience = Duration::from_secs(120);
        let mut options = Options { child: Vec::new(), seed: 1, counted, calls: reach_from, reach_from, patience };
        let mut arguments = std::env::args().skip(1);
        while let Some(argument) = arguments.next() {
            let mut number = || arguments.next().and_then(|text| text.parse().ok()).ok_or(usage.clone());
            match argument.as_str() {
                "--seed" => options.seed = number()?,
                option if option.strip_prefix("--") == Some(counted) => options.calls = number()?,
                "--reach-from" => options.reach_from = number()?,
                "--patience" => options.patience = Duration::from_secs(number()?),
                _ => options.child.push(argument),
            }
        }
        if options.child.is_empty() {
            return Err(usage);
        }
        Ok(options)
    }

    /// For a second comparison, which makes one call where the first makes so many.
    #[allow(dead_code)] // held.rs makes one comparison only.
    pub fn one_in(&self, many: u64) -> Options {
        Options { child: self.child.clone(), calls: self.calls / many, reach_from: self.reach_from / many, ..*self }
    }

    /// For a comparison that makes so many calls for each that is counted.
    #[allow(dead_code)] // bounds.rs alone counts something else than calls.
    pub fn each_takes(&self, calls: u64) -> Options {
        Options { child: self.child.clone(), calls: self.calls * calls, reach_from: self.reach_from * calls, ..*self }
    }

    /// Whether the run is held to what it must reach; says so where it is not.
    pub fn asks_for_all(&self) -> bool {
        let asks = self.calls >= self.reach_from;
        if !asks {
            println!("what must be reached is asked for from {} {} on", self.reach_from, self.counted);
        }
        asks
    }
}

// ------------------------------------------------------------------------------------------------
// The comparison
// ------------------------------------------------------------------------------------------------

/// A call of whatever kind a tester makes.
pub trait Call {
    /// The bytes that are sent for it.
    fn request(&self) -> Vec<u8>;
    /// All of it for a report, a line for each part.
    fn tell(&self) -> String;
}

/// A call, its number (from 1) and what the reference says to it.
pub struct Asked<C> {
    pub number: u64,
    pub call: C,
    pub answer: u64,
    pub left: Left,
}

/// What a call leaves in each buffer that it may write.
pub type Left = Vec<Vec<u8>>;

/// What the child says to a call.
struct Reply {
    answer: u64,
    left: Left,
    guards: u8,
}

/// A batch ends at this many calls or bytes, whichever comes first.
const BATCH_CALLS: usize = 256;
const BATCH_BYTES: usize = 1 << 20;

/// Makes calls by `next`, each with the reference's answer and what it leaves, and compares the child's. A difference ends it; each call
/// without one is counted.
pub fn compare<C: Call>(
    options: &Options,
    mut next: impl FnMut() -> (C, u64, Left),
    mut count: impl FnMut(&Asked<C>),
) -> Result<(), String> {
    let start = Instant::now();
    let mut child = Talk::start(&options.child)?;
    let mut made = 0;
    while made < options.calls {
        let (batch, requests) = next_batch(&mut next, made, options.calls);
        let replies = child.exchange(&batch, requests, options.patience);
        for (asked, reply) in batch.iter().zip(&replies) {
            if let Some(difference) = difference(asked, reply) {
                return Err(report(options.seed, asked, &difference));
            }
            count(asked);
        }
        if replies.len() < batch.len() {
            return Err(find_the_call_that_stops_the_child(options, &batch[replies.len()..]));
        }
        made += batch.len() as u64;
    }
    child.finish()?;
    println!("seed {}: {made} calls, no difference, {:.1} s", options.seed, start.elapsed().as_secs_f64());
    Ok(())
}

/// The next calls, and their requests.
fn next_batch<C: Call>(next: &mut impl FnMut() -> (C, u64, Left), made: u64, wanted: u64) -> (Vec<Asked<C>>, Vec<u8>) {
    let (mut batch, mut requests) = (Vec::new(), Vec::new());
    while batch.len() < BATCH_CALLS && requests.len() < BATCH_BYTES && made + (batch.len() as u64) < wanted {
        let (call, answer, left) = next();
        requests.extend(call.request());
        batch.push(Asked { number: made + batch.len() as u64 + 1, call, answer, left });
    }
    (batch, requests)
}

/// What is wrong with a reply, or None.
fn difference<C>(asked: &Asked<C>, reply: &Reply) -> Option<String> {
    if reply.answer == asked.answer && reply.left == asked.left && reply.guards == 1 {
        return None;
    }
    Some(format!(
        "expected {}\n{}received {}\n{}  guards {}",
        in_words(asked.answer),
        told_left(&asked.left),
        in_words(reply.answer),
        told_left(&reply.left),
        if reply.guards == 1 { "intact" } else { "broken" },
    ))
}

/// A line for each buffer.
fn told_left(left: &Left) -> String {
    left.iter().map(|bytes| format!("  leaves {}\n", hex(bytes))).collect()
}

fn report<C: Call>(seed: u64, asked: &Asked<C>, what: &str) -> String {
    format!("DIFFERENCE\nseed {seed}\ncall {}\n{}\n{what}", asked.number, asked.call.tell())
}

fn in_words(answer: u64) -> String {
    format!("number {} plan {} step {}", number_of(answer), answer >> 16 & 0xFFFF, answer >> 32)
}

pub fn number_of(answer: u64) -> u64 {
    answer & 0xFFFF
}

// ------------------------------------------------------------------------------------------------
// Talking with the child
// ------------------------------------------------------------------------------------------------

struct Talk {
    process: Child,
    /// None once it has been closed.
    to_child: Option<ChildStdin>,
    from_child: BufReader<ChildStdout>,
}

impl Talk {
    fn start(command: &[String]) -> Result<Talk, String> {
        let mut process = Command::new(&command[0])
            .args(&command[1..])
            .stdin(Stdio::piped())
            .stdout(Stdio::piped())
            .spawn()
            .map_err(|error| format!("cannot start {}: {error}", command[0]))?;
        let to_child = process.stdin.take();
        let from_child = BufReader::new(process.stdout.take().expect("standard output is piped"));
        Ok(Talk { process, to_child, from_child })
    }

    /// Sends a whole batch and reads the replies: fewer of them than calls if the child stops.
    ///
    /// One thread writes while this one reads. If one thread did both, child and tester could wait
    /// for each other for ever: the child to get rid of an answer, the tester of a request. A third
    /// thread ends a child that does not answer in time; the reader then sees that it has gone.
    fn exchange<C>(&mut self, batch: &[Asked<C>], requests: Vec<u8>, patience: Duration) -> Vec<Reply> {
        let to_child = self.to_child.as_mut().expect("open until the end");
        let from_child = &mut self.from_child;
        let process = &mut self.process;
        let (all_read, wait_for_all_read) = mpsc::channel::<()>();
        std::thread::scope(|scope| {
            // An error here means that the child has gone; the reader sees that too.
            scope.spawn(move || to_child.write_all(&requests).and_then(|()| to_child.flush()).ok());
            scope.spawn(move || {
                if wait_for_all_read.recv_timeout(patience) == Err(RecvTimeoutError::Timeout) {
                    process.kill().ok();
                }
            });
            let reply = |asked: &Asked<C>| read_reply(from_child, &asked.left).ok();
            let replies = batch.iter().map_while(reply).collect();
            drop(all_read);
            replies
        })
    }

    /// Ends the child's input; it must then say no more and end well.
    fn finish(mut self) -> Result<(), String> {
        self.to_child = None;
        let mut rest = Vec::new();
        self.from_child.read_to_end(&mut rest).map_err(|error| format!("cannot read: {error}"))?;
        if !rest.is_empty() {
            return Err(format!("the child wrote {} bytes after its last answer", rest.len()));
        }
        match self.process.wait() {
            Ok(status) if status.success() => Ok(()),
            Ok(status) => Err(format!("the child ended with {status}")),
            Err(error) => Err(format!("cannot wait for the child: {error}")),
        }
    }
}

impl Drop for Talk {
    /// A child is not left behind when the tester stops at a difference.
    fn drop(&mut self) {
        self.process.kill().ok();
        self.process.wait().ok();
    }
}

/// Its buffers are as long as those that the reference leaves.
fn read_reply(from_child: &mut impl Read, expected: &Left) -> io::Result<Reply> {
    let mut answer = [0; 8];
    let mut left: Left = expected.iter().map(|bytes| vec![0; bytes.len()]).collect();
    let mut guards = [0];
    from_child.read_exact(&mut answer)?;
    left.iter_mut().try_for_each(|bytes| from_child.read_exact(bytes))?;
    from_child.read_exact(&mut guards)?;
    Ok(Reply { answer: u64::from_le_bytes(answer), left, guards: guards[0] })
}

/// The child stopped somewhere in these calls. Answers that it had not sent yet are lost, so each
/// call is tried again with a child of its own.
fn find_the_call_that_stops_the_child<C: Call>(options: &Options, unanswered: &[Asked<C>]) -> String {
    for asked in unanswered {
        let alone = Talk::start(&options.child).map(|mut talk| {
            let replies = talk.exchange(std::slice::from_ref(asked), asked.call.request(), options.patience);
            (replies, talk.finish())
        });
        let what = match alone {
            Err(message) => message,
            Ok((replies, end)) => match (replies.first(), end) {
                (None, end) => format!("no answer: {}", end.err().unwrap_or("the child ended".to_string())),
                (Some(reply), Ok(())) => match difference(asked, reply) {
                    None => continue,
                    Some(difference) => difference,
                },
                (Some(_), Err(end)) => end,
            },
        };
        return report(options.seed, asked, &what);
    }
    format!(
        "DIFFERENCE\nseed {}\nthe child stopped in calls {} to {}, and on none of them alone",
        options.seed,
        unanswered[0].number,
        unanswered[0].number + unanswered.len() as u64 - 1,
    )
}
