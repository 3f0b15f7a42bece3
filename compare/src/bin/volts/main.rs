//! Compares the lowest, highest and last volts of whole session files: the
//! second model's with those of libnergutsai.a.

mod asked;
mod files;
mod seen;
mod stretches;
mod table;
mod tally;

use asked::Volts;
use compare::question;

const HELP: &str = "\
compare/volts - the second model's table of volts against libnergutsai.a

usage: compare/volts [--seed S] [--sessions N] [--only INDEX] [--coverage]
                     [--help]

  --seed S        the seed, a number from 0 (default 1)
  --sessions N    how many session files (default 100000)
  --only INDEX    only this one of the seed, printed as commented hex text
  --coverage      print what sorts of session there were and what was answered
  --help          this text

Of each file the refusal is compared, the sixty numbers bit by bit, the sample
memory afterwards, and what must not be written: the file, and what stands beside
file, memory and numbers. Some memories are short. What holds of every table is
asked of it too: lowest, 0 and last in order up to highest, no negative zero, and
zeros alone where it is refused.
The first few files that differ are shortened and printed. The last line is
`N sessions, D differ`.
Exit status: 0 nothing differs, 1 something does, 2 wrong usage.
";

fn main() {
    question::program::<Volts>("compare/volts", HELP);
}
