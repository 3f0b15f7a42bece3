//! The session files of a seed, one after the other: each is compared, and the
//! first few that differ are shortened and printed.

use crate::guarded::Wrongs;
use crate::options::Options;
use crate::process::Progress;
use crate::rounds::{self, NOT_ALONE};
use crate::{hex, shorten};

/// What is counted.
const ONE: &str = "session";
/// So many lines of a difference are printed.
const LINES: usize = 200;

/// A session file, and what else is lent with it.
pub trait Trial {
    /// Number `index` of a seed.
    fn new(seed: u64, index: u64) -> Self;
    /// What sort it is, in words.
    fn name(&self) -> String;
    fn bytes(&self) -> &[u8];
    /// The same with another file.
    fn with_file(&self, bytes: &[u8]) -> Self;
    /// What differs when it is tried by itself, on a memory with junk.
    fn alone(&self) -> Wrongs;
    /// Prints what both sides say to it, where they differ.
    fn print_sides(&self);
}

/// A whole program.
pub fn program<T: Trial>(script: &str, help: &str, run: fn(&Options, &Progress) -> i32) -> ! {
    rounds::program(script, help, ONE, run, died::<T>)
}

/// Compares those that the options ask for: answers how many, and how many
/// differ. `compare` is told the number of each.
pub fn each<T: Trial>(
    options: &Options,
    progress: &Progress,
    mut compare: impl FnMut(u64, &T) -> Wrongs,
) -> (u64, u64) {
    let compared = |index| {
        let trial = T::new(options.seed, index);
        if options.only.is_some() {
            println!("{ONE} {index}: {}", trial.name());
            print!("{}", hex::text(trial.bytes()));
        }
        let wrongs = compare(index, &trial);
        (!wrongs.is_empty()).then_some((trial, wrongs))
    };
    rounds::each(options, progress, compared, |index, trial, wrongs| {
        report(options, index, trial, wrongs);
    })
}

/// Prints a trial that differs, as short as can be.
fn report<T: Trial>(options: &Options, index: u64, trial: &T, wrongs: &Wrongs) {
    let words = |wrongs: &Wrongs| format!("{} (model/ours)", wrongs.join("; "));
    rounds::difference(options, ONE, index, &trial.name(), &words(wrongs));
    if trial.alone().is_empty() {
        println!("{NOT_ALONE}");
        hex::print(trial.bytes(), LINES);
        println!();
        return;
    }
    let differs = |bytes: &[u8]| !trial.with_file(bytes).alone().is_empty();
    let short = trial.with_file(&shorten::shorten(trial.bytes(), differs));
    println!(
        "{} bytes shortened to {}: {}",
        trial.bytes().len(),
        short.bytes().len(),
        words(&short.alone())
    );
    hex::print(short.bytes(), LINES);
    short.print_sides();
    println!();
}

/// The child died: tells in which trial. Answers the exit status.
fn died<T: Trial>(options: &Options, progress: &Progress, signal: i32) -> i32 {
    let index = progress.get(0);
    let trial = T::new(options.seed, index);
    rounds::difference(options, ONE, index, &trial.name(), &rounds::death(signal));
    hex::print(trial.bytes(), LINES);
    println!();
    end(rounds::with_the_last(progress))
}

/// The last line. Answers the exit status.
pub fn end(counted: (u64, u64)) -> i32 {
    rounds::end(ONE, counted)
}
