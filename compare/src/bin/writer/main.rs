//! Compares the session writers, the second model's with that of libnergutsai.a, and
//! reads back what was written.

mod call;
mod faults;
mod lent;
mod print;
mod rows;
mod shorten;
mod tally;
mod trial;

use compare::calls::{self, Trial as _};
use compare::options::Options;
use compare::process::Progress;
use tally::Tally;
use trial::{Part, Trial, PARTS};

const HELP: &str = "\
compare/writer - the second model's session writer against libnergutsai.a

usage: compare/writer [--seed S] [--calls N] [--only INDEX] [--coverage]
                      [--help]

  --seed S        the seed, a number from 0 (default 1)
  --calls N       how many calls (default 100000)
  --only INDEX    only this one of the seed, printed in words
  --coverage      print how often each refusal and each meeting of them happened
  --help          this text

Of each call the refusal is compared, the end answered, every byte of the output,
and what must not be written: the rows, and what stands beside rows, output and
end. What was written is read back, and must give the rows. With each call a
session file is read, and written again from its rows: the bytes must be its own.
The first few calls that differ are shortened and printed. The last line is
`N calls, D differ`.
Exit status: 0 nothing differs, 1 something does, 2 wrong usage.
";

fn main() {
    calls::program::<Trial>("compare/writer", HELP, run);
}

/// The whole comparison. Answers the exit status.
fn run(options: &Options, progress: &Progress) -> i32 {
    let mut tally = options.coverage.then(Tally::default);
    let (mut read, mut refused, mut again) = (0, 0, 0);
    let counted = calls::each(options, progress, |index| {
        let mut differs = None;
        for part in PARTS {
            progress.set(1, part as u64);
            let trial = Trial::of(options.seed, index, part);
            if options.only.is_some() {
                println!("call {index}: {}", trial.name());
                trial.print(usize::MAX);
            }
            let Some(call) = &trial.call else {
                refused += 1;
                continue;
            };
            let found = lent::compare(call);
            read += found.read as u64;
            again += (part == Part::File) as u64;
            if let (Some(tally), Part::Rows) = (&mut tally, part) {
                tally.note(call, &found);
            }
            if !found.wrongs.is_empty() && differs.is_none() {
                differs = Some((trial, found.wrongs));
            }
        }
        differs
    });
    if let Some(tally) = &tally {
        tally.print();
    }
    println!("{read} sessions read back; {again} files written again, {refused} refused when read");
    calls::end(counted)
}
