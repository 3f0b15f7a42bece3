//! A question about whole session files that both sides answer, each over the
//! same sample memory: how it is put to the files of a seed. What is asked, and
//! of which files, each program says for itself.

mod lent;
mod tally;
mod tried;

pub use tried::Tried;

use crate::counts::Counts;
use crate::guarded::Wrongs;
use crate::options::Options;
use crate::process::Progress;
use crate::rng::Rng;
use crate::trials;
use lent::Lent;
use std::fmt::Display;

pub trait Question: Sized {
    /// The sorts of file.
    type Sort: Copy + Ord + Display;
    /// What ours writes, beside the refusal that it returns: so many of these.
    type Number: Copy + PartialEq;
    const NUMBERS: usize;
    type Said: Said;
    type Tally: Tally<Self>;

    /// What stands beside the numbers, and in them before they are written: none
    /// that is ever answered.
    const GUARD: Self::Number;
    /// Tells that something was written beside the numbers.
    const BESIDE: &'static str;
    /// How the memory is chosen, beside the files.
    const LENDING: u64;
    /// The lengths of memories that are longer than usual.
    const LONGER: &'static [usize];

    /// File number `index` of a seed.
    fn choose(seed: u64, index: u64) -> (Self::Sort, Vec<u8>);
    /// The length of the memory that is lent with a file.
    fn memory(sort: Self::Sort, rng: &mut Rng) -> usize;
    fn model(bytes: &[u8], memory: &mut [u32]) -> Self::Said;
    fn ours(bytes: &[u8], memory: &mut [u32], numbers: &mut [Self::Number]) -> Self::Said;
}

/// What one side said to a file.
pub trait Said {
    fn refusal(&self) -> u32;
    /// What this one, the model's, and ours differ in.
    fn compare(&self, ours: &Self, wrongs: &mut Wrongs);
    /// What holds of everything that is said, whatever the session and the model.
    /// The memory is as it was, or it is not.
    fn laws(&self, untouched: bool, wrongs: &mut Wrongs);
    /// Prints this one, the model's, and ours side by side.
    fn print(&self, ours: &Self);
}

/// `--coverage`: what is counted for one question alone.
pub trait Tally<Q: Question>: Default {
    /// A file, and what the model said to it.
    fn note(&mut self, tried: &Tried<Q>, said: &Q::Said);
    /// All counts, each under its head line.
    fn parts(&self) -> Vec<(&'static str, &Counts)>;
}

/// A whole program.
pub fn program<Q: Question>(script: &str, help: &str) -> ! {
    trials::program::<Tried<Q>>(script, help, run::<Q>)
}

/// The whole comparison. Answers the exit status.
fn run<Q: Question>(options: &Options, progress: &Progress) -> i32 {
    let mut lent = Lent::<Q>::new();
    let mut tally = options.coverage.then(tally::All::<Q>::new);
    let counted = trials::each(options, progress, |_, tried| {
        let found = lent.ask(tried);
        if let Some(tally) = &mut tally {
            tally.note(tried, &found);
        }
        found.wrongs
    });
    if let Some(tally) = &tally {
        tally.print();
    }
    trials::end(counted)
}
