//! Compares the cutters, the second model's with that of libnergutsai.a, and plays what
//! was written on the proved board.

mod board;
mod call;
mod choose;
mod faults;
mod lent;
mod levels;
mod listing;
mod order;
mod play;
mod plays;
mod print;
mod recording;
mod session;
mod shorten;
mod tally;

use call::Call;
use compare::calls::{self, Trial};
use compare::options::Options;
use compare::process::Progress;
use lent::Lent;
use tally::Tally;

const HELP: &str = "\
compare/cutter - the second model's cutter against libnergutsai.a, and its cuts played

usage: compare/cutter [--seed S] [--calls N] [--only INDEX] [--coverage]
                      [--help]

  --seed S        the seed, a number from 0 (default 1)
  --calls N       how many calls (default 100000)
  --only INDEX    only this one of the seed, printed in words
  --coverage      print how often each refusal and each meeting of them happened
  --help          this text

Of each call the refusal is compared, the end answered, every byte of the output,
and what must not be written: the recording, and what stands beside recording,
output and end. What was written is read back, and played on the proved board
after a power-up: after each tick all twenty levels must be what the recording
alone says. Some plays are listed as session files too.
The first few calls that differ are shortened and printed. The last line is
`N calls, D differ`.
Exit status: 0 nothing differs, 1 something does, 2 wrong usage.
";

fn main() {
    calls::program::<Call>("compare/cutter", HELP, run);
}

/// The whole comparison. Answers the exit status.
fn run(options: &Options, progress: &Progress) -> i32 {
    let mut lent = Lent::new();
    let mut tally = options.coverage.then(Tally::default);
    let (mut written, mut played, mut ticks, mut files) = (0, 0, 0, 0);
    let counted = calls::each(options, progress, |index| {
        let call = Call::of(options.seed, index);
        if options.only.is_some() {
            println!("call {index}: {}", call.name());
            call.print(usize::MAX);
        }
        let found = lent.compare(&call);
        written += found.written as u64;
        if let Some(play) = found.played {
            played += 1;
            ticks += play.ticks as u64;
            files += play.as_file as u64;
        }
        if let Some(tally) = &mut tally {
            tally.note(&call, &found);
        }
        (!found.wrongs.is_empty()).then_some((call, found.wrongs))
    });
    if let Some(tally) = &tally {
        tally.print();
    }
    println!("{written} cuts written, {played} played over {ticks} ticks, {files} also as files");
    calls::end(counted)
}
