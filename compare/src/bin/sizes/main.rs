//! Compares the smallest size that plays whole session files: the second
//! model's answer with that of libnergutsai.a.

mod aim;
mod answer;
mod asides;
mod asked;
mod board;
mod files;
mod losses;
mod power_ups;
mod replay;
mod rounds;
mod seen;
mod stretches;
mod tally;

use asked::Sizes;
use compare::question;

const HELP: &str = "\
compare/sizes - the second model's smallest size that plays against libnergutsai.a

usage: compare/sizes [--seed S] [--sessions N] [--only INDEX] [--coverage]
                     [--help]

  --seed S        the seed, a number from 0 (default 1)
  --sessions N    how many session files (default 100000)
  --only INDEX    only this one of the seed, printed as commented hex text
  --coverage      print what sorts of session there were and what was answered
  --help          this text

Of each file the refusal is compared, the size code named, the sample memory
afterwards, and what must not be written: the file, and what stands beside file,
memory and code. Some memories are short, and a few are deeper than 16,384
values. What holds of every answer is asked of it too: a code up to 15, code 0
where it is refused, and the memory as it was where the file is refused.
The first few files that differ are shortened and printed. The last line is
`N sessions, D differ`.
Exit status: 0 nothing differs, 1 something does, 2 wrong usage.
";

fn main() {
    question::program::<Sizes>("compare/sizes", HELP);
}
