//! Compares the listings of whole session files: the second model's with those
//! of libnergutsai.a.

mod lent;
mod tally;

use compare::files::File;
use compare::guarded::Wrongs;
use compare::options::Options;
use compare::process::Progress;
use compare::rng::Rng;
use compare::trials::{self, Trial};
use lent::Lent;
use tally::Tally;

const HELP: &str = "\
compare/sessions - the second model against libnergutsai.a, by whole session files

usage: compare/sessions [--seed S] [--sessions N] [--only INDEX] [--coverage]
                        [--help]

  --seed S        the seed, a number from 0 (default 1)
  --sessions N    how many session files (default 100000)
  --only INDEX    only this one of the seed, printed as commented hex text
  --coverage      print what sorts of file there were and what was answered
  --help          this text

Of each file the bytes of the listing are compared, the length answered, the
sample memory afterwards, and what must not be written: the output past the
text, the file, and what stands beside the three. Some outputs are too short:
then 0 must be answered and nothing written.
The first few files that differ are shortened and printed. The last line is
`N sessions, D differ`.
Exit status: 0 nothing differs, 1 something does, 2 wrong usage.
";

/// How the memory, the outputs and the rest are chosen, beside the files.
const LENDING: u64 = 0x5E55_1015;

fn main() {
    trials::program::<Listed>("compare/sessions", HELP, run);
}

/// The whole comparison. Answers the exit status.
fn run(options: &Options, progress: &Progress) -> i32 {
    let mut lent = Lent::new();
    let mut tally = options.coverage.then(Tally::default);
    let counted = trials::each(options, progress, |index, Listed(file)| {
        let listing = second::listing(&file.bytes);
        let mut rng = Rng::new(options.seed ^ LENDING, index);
        let wrongs = compare(&mut lent, &mut rng, &file.bytes, &listing);
        if let Some(tally) = &mut tally {
            tally.note(file.sort, &file.bytes, &listing);
        }
        wrongs
    });
    if let Some(tally) = &tally {
        tally.print();
    }
    trials::end(counted)
}

/// One file, on the memory as the last one left it or with junk in it; before
/// it, sometimes, an output that is too short.
fn compare(lent: &mut Lent, rng: &mut Rng, bytes: &[u8], listing: &str) -> Wrongs {
    if rng.chance(1, 32) {
        lent.set_memory(|| rng.word());
    }
    let mut wrongs = Vec::new();
    if rng.chance(1, 8) {
        let room = nergutsai::room(bytes.len());
        let any = rng.below(room as u32) as usize;
        wrongs = lent.refuse(bytes, rng.pick(&[room - 1, room - 1, any, 0]));
    }
    let more = rng.pick(&[0, 0, 0, 1, 100]);
    wrongs.extend(lent.list(bytes, more, listing));
    wrongs
}

/// A session file that is listed.
struct Listed(File);

impl Listed {
    /// By itself, on a memory with junk: what went wrong, and our listing.
    fn both(&self) -> (Wrongs, String) {
        let bytes = self.bytes();
        let mut lent = Lent::new();
        let mut rng = Rng::new(LENDING, 0);
        lent.set_memory(|| rng.word());
        let mut wrongs = lent.refuse(bytes, nergutsai::room(bytes.len()) - 1);
        wrongs.extend(lent.list(bytes, 1, &second::listing(bytes)));
        (wrongs, lent.whole_text())
    }
}

impl Trial for Listed {
    fn new(seed: u64, index: u64) -> Listed {
        Listed(File::new(seed, index))
    }

    fn name(&self) -> String {
        self.0.sort.name().to_string()
    }

    fn bytes(&self) -> &[u8] {
        &self.0.bytes
    }

    fn with_file(&self, bytes: &[u8]) -> Listed {
        Listed(File {
            sort: self.0.sort,
            bytes: bytes.to_vec(),
        })
    }

    fn alone(&self) -> Wrongs {
        self.both().0
    }

    fn print_sides(&self) {
        first_line(&second::listing(self.bytes()), &self.both().1);
    }
}

/// The first line that differs, from both.
fn first_line(model: &str, ours: &str) {
    let (mut left, mut right) = (model.split('\n'), ours.split('\n'));
    for number in 1.. {
        let both = (left.next(), right.next());
        if both == (None, None) {
            break;
        }
        if both.0 != both.1 {
            println!("line {number} of the listing:");
            println!("  model  {}", both.0.unwrap_or("(none)"));
            println!("  ours   {}", both.1.unwrap_or("(none)"));
            break;
        }
    }
}
