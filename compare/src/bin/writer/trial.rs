//! What is tried in a call of the comparison: first rows that are chosen, then a
//! session file, read and written again. And a trial that differs, shortened.

use super::call::Call;
use super::{lent, print, shorten};
use compare::calls;
use compare::files::File;
use compare::guarded::Wrongs;
use compare::hex;

#[derive(Clone, Copy, PartialEq)]
pub enum Part {
    Rows,
    File,
}

pub const PARTS: [Part; 2] = [Part::Rows, Part::File];

#[derive(Clone)]
pub struct Trial {
    name: String,
    file: Option<Vec<u8>>,
    /// None of a file that is refused: there is nothing to write.
    pub call: Option<Call>,
}

impl Trial {
    pub fn of(seed: u64, index: u64, part: Part) -> Trial {
        match part {
            Part::Rows => Trial::of_call(Call::new(seed, index)),
            Part::File => {
                let File { sort, bytes } = File::new(seed, index);
                Trial {
                    name: format!("a file, {}", sort.name()),
                    call: Call::again(seed, index, bytes.clone()),
                    file: Some(bytes),
                }
            }
        }
    }

    fn of_call(call: Call) -> Trial {
        Trial {
            name: call.words(),
            file: call.file.clone(),
            call: Some(call),
        }
    }
}

impl calls::Trial for Trial {
    fn new(seed: u64, index: u64, part: u64) -> Trial {
        Trial::of(seed, index, PARTS[part as usize])
    }

    fn name(&self) -> String {
        self.name.clone()
    }

    fn alone(&self) -> Wrongs {
        let call = self.call.as_ref();
        call.map_or(Vec::new(), |call| lent::compare(call).wrongs)
    }

    /// With fewer events, or a file of fewer records.
    fn shortened(&self, mut tries: u32, mut differs: impl FnMut(&Trial) -> bool) -> Trial {
        let Some(call) = &self.call else {
            return self.clone();
        };
        let mut differs = |call: &Call| differs(&Trial::of_call(call.clone()));
        let fewer = match &self.file {
            None => Some(shorten::shorten(call, tries, differs)),
            Some(file) => {
                let bytes = compare::shorten::shorten(file, |bytes| {
                    let fewer = (tries > 0).then(|| call.with_file(bytes)).flatten();
                    tries = tries.saturating_sub(1);
                    fewer.is_some_and(|fewer| differs(&fewer))
                });
                call.with_file(&bytes)
            }
        };
        fewer.map_or(self.clone(), Trial::of_call)
    }

    /// So many events, or lines of the file.
    fn print(&self, most: usize) {
        if let Some(file) = &self.file {
            hex::print(file, most);
        }
        match &self.call {
            None => println!("refused when read: nothing to write"),
            Some(call) if self.file.is_none() => print!("{}", print::call(call, most)),
            Some(call) => print!("{}", print::output(call)),
        }
    }

    fn print_sides(&self) {
        if let Some(call) = &self.call {
            print!("{}", lent::compare(call).sides.text());
        }
    }
}
