//! The calls of a seed, one after the other: each is compared, and the first few
//! that differ are shortened and printed.

use crate::guarded::Wrongs;
use crate::options::Options;
use crate::process::{self, End, Progress};
use crate::rounds::{self, NOT_ALONE, SECONDS};

/// What is counted.
const ONE: &str = "call";
/// So many lines of a difference are printed.
const LINES: usize = 40;
/// Runs that shortening may take, when each needs a child process, and when each
/// of these waits for its time limit.
const TRIES: u32 = 4_000;
const CHILD_TRIES: u32 = 400;
const WAITING_TRIES: u32 = 20;

/// What is tried in a call.
pub trait Trial: Sized {
    /// That of call number `index` of a seed, in this part of it.
    fn new(seed: u64, index: u64, part: u64) -> Self;
    /// What is tried, in few words.
    fn name(&self) -> String;
    /// What differs when it is tried by itself.
    fn alone(&self) -> Wrongs;
    /// One that differs, made shorter in so many tries while it still does.
    fn shortened(&self, tries: u32, differs: impl FnMut(&Self) -> bool) -> Self;
    /// Prints it in words: so many events, groups or lines.
    fn print(&self, most: usize);
    /// Prints what both sides say to it.
    fn print_sides(&self);
}

/// A whole program.
pub fn program<T: Trial>(script: &str, help: &str, run: fn(&Options, &Progress) -> i32) -> ! {
    rounds::program(script, help, ONE, run, died::<T>)
}

/// Compares those that the options ask for: answers how many, and how many
/// differ. `compare` is told the number of each, and answers the first trial of it
/// that differs, and what does.
pub fn each<T: Trial>(
    options: &Options,
    progress: &Progress,
    compare: impl FnMut(u64) -> Option<(T, Wrongs)>,
) -> (u64, u64) {
    rounds::each(options, progress, compare, |index, trial, wrongs| {
        report(options, index, trial, wrongs);
    })
}

/// Prints a trial that differs, as short as can be.
fn report<T: Trial>(options: &Options, index: u64, trial: &T, wrongs: &Wrongs) {
    let words = |wrongs: &Wrongs| format!("{} (model/ours)", wrongs.join(", "));
    rounds::difference(options, ONE, index, &trial.name(), &words(wrongs));
    if trial.alone().is_empty() {
        println!("{NOT_ALONE}");
        trial.print(LINES);
    } else {
        let short = trial.shortened(TRIES, |trial| !trial.alone().is_empty());
        println!("shortened to {}: {}", short.name(), words(&short.alone()));
        short.print(LINES);
        short.print_sides();
    }
    println!();
}

/// The child died: tells in which call, shortened in children of its own.
/// Answers the exit status.
fn died<T: Trial>(options: &Options, progress: &Progress, signal: i32) -> i32 {
    let index = progress.get(0);
    let trial = T::new(options.seed, index, progress.get(1));
    rounds::difference(options, ONE, index, &trial.name(), &rounds::death(signal));
    let (limit, tries) = if signal == 14 {
        (1, WAITING_TRIES)
    } else {
        (SECONDS, CHILD_TRIES)
    };
    let dies = |trial: &T| {
        let end = process::in_child(|| {
            process::time_limit(limit);
            trial.alone();
            0
        });
        matches!(end, End::Signal(_))
    };
    if dies(&trial) {
        let short = trial.shortened(tries, dies);
        println!("shortened to {}", short.name());
        short.print(LINES);
    } else {
        println!("It does not die of it alone: the other side seems to remember something.");
        trial.print(LINES);
    }
    println!();
    end(rounds::with_the_last(progress))
}

/// The last line. Answers the exit status.
pub fn end(counted: (u64, u64)) -> i32 {
    rounds::end(ONE, counted)
}
