//! The sessions or the calls of a seed, one after the other, in a child process:
//! what `trials` and `calls` share. `one` is the word for one of them.

use crate::guarded::Wrongs;
use crate::options::{self, Options};
use crate::panics;
use crate::process::{self, Progress};

/// The other side has this long for one of them, in seconds.
pub const SECONDS: u32 = 20;
/// So many differences are printed.
const PRINTED: u64 = 3;
/// What is said of one that does not differ again.
pub const NOT_ALONE: &str =
    "It does not differ by itself: the other side seems to remember something.";

/// A whole program: takes its words, and runs it in a child process.
pub fn program(
    script: &str,
    help: &str,
    one: &str,
    run: fn(&Options, &Progress) -> i32,
    died: fn(&Options, &Progress, i32) -> i32,
) -> ! {
    let most = (&*format!("--{one}s"), 100_000);
    let options = options::given(script, help, most, |_| false);
    panics::quiet();
    process::watched(
        |progress| run(&options, progress),
        |progress, signal| died(&options, progress, signal),
    )
}

/// Compares those that the options ask for: answers how many, and how many
/// differ. `compare` is told the number of each, and answers what differs; the
/// first few of these go to `report`.
pub fn each<T>(
    options: &Options,
    progress: &Progress,
    mut compare: impl FnMut(u64) -> Option<(T, Wrongs)>,
    report: impl Fn(u64, &T, &Wrongs),
) -> (u64, u64) {
    println!("seed {}", options.seed);
    let (mut total, mut differ) = (0, 0);
    for index in options.indices() {
        progress.set(0, index);
        process::time_limit(SECONDS);
        let found = compare(index);
        total += 1;
        progress.set(2, total);
        let Some((trial, wrongs)) = found else {
            continue;
        };
        differ += 1;
        progress.set(3, differ);
        if differ <= PRINTED {
            process::time_limit(20 * SECONDS);
            report(index, &trial, &wrongs);
        }
    }
    (total, differ)
}

/// The line that opens a difference.
pub fn difference(options: &Options, one: &str, index: u64, name: &str, what: &str) {
    println!();
    println!(
        "DIFFERENCE in {one} {index} of seed {} ({name}): {what}",
        options.seed
    );
}

/// What the child died of; by 14 it waited too long.
pub fn death(signal: i32) -> String {
    let limit = if signal == 14 { ", the time limit" } else { "" };
    format!("ours died of signal {signal}{limit}")
}

/// How many there were when the child died, and how many differed.
pub fn with_the_last(progress: &Progress) -> (u64, u64) {
    (progress.get(2) + 1, progress.get(3) + 1)
}

/// The last line. Answers the exit status.
pub fn end(one: &str, (total, differ): (u64, u64)) -> i32 {
    println!("{total} {one}s, {differ} differ");
    (differ > 0) as i32
}
