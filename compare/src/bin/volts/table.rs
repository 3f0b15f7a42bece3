//! A table of volts: the refusal and the sixty numbers, bit by bit, how two of
//! them differ, and what holds of every one.

use compare::guarded::Wrongs;
use compare::question::Said;

/// Lowest, highest and last of channel 0, then of channel 1, and so on.
pub const NUMBERS: usize = 60;

pub struct Table {
    pub refusal: u32,
    pub numbers: [f32; NUMBERS],
}

impl Table {
    /// The three numbers of each channel.
    pub fn channels(&self) -> impl Iterator<Item = [f32; 3]> + '_ {
        self.numbers
            .chunks_exact(3)
            .map(|three| [three[0], three[1], three[2]])
    }

    /// The numbers that differ: which, this one's, the other's.
    fn differing(&self, other: &Table) -> Vec<(String, f32, f32)> {
        let both = self.numbers.iter().zip(&other.numbers).enumerate();
        both.filter(|(_, (a, b))| a.to_bits() != b.to_bits())
            .map(|(i, (a, b))| (name(i), *a, *b))
            .collect()
    }
}

/// The most numbers that are printed.
const PRINTED: usize = 12;

impl Said for Table {
    fn refusal(&self) -> u32 {
        self.refusal
    }

    fn compare(&self, ours: &Table, wrongs: &mut Wrongs) {
        if self.refusal != ours.refusal {
            wrongs.push(format!("refusal {}/{}", self.refusal, ours.refusal));
        }
        if let [(name, model, ours), more @ ..] = &self.differing(ours)[..] {
            let and = match more.len() {
                0 => String::new(),
                more => format!(" and {more} more"),
            };
            wrongs.push(format!("{name} {model}/{ours}{and}"));
        }
    }

    fn laws(&self, _untouched: bool, wrongs: &mut Wrongs) {
        let mut law = |holds: bool, text: &str| {
            if !holds {
                wrongs.push(text.to_string());
            }
        };
        let zero = |volts: f32| volts.to_bits() == 0;
        law(
            matches!(self.refusal, 0 | 10..=13 | 18),
            "ours has no such refusal",
        );
        if self.refusal != 0 {
            let zeros = self.numbers.iter().all(|volts| zero(*volts));
            law(zeros, "ours is refused without sixty zeros");
            return;
        }
        let plus = |volts: &f32| *volts != 0.0 || zero(*volts);
        law(self.numbers.iter().all(plus), "ours has a negative zero");
        // Ranges 1 and 2 have twice and four times the volts of range 0.
        let whole = |volts: &f32| (volts * 65_536.0) % 5.0 == 0.0 && volts.abs() <= 10.0;
        law(self.numbers.iter().all(whole), "ours has volts of no level");
        let order = |[lowest, highest, last]: [f32; 3]| {
            let around = |volts: f32| lowest <= volts && volts <= highest;
            around(0.0) && around(last)
        };
        law(self.channels().all(order), "ours is out of order");
    }

    /// The refusals, and the numbers that differ.
    fn print(&self, ours: &Table) {
        println!("      {:<20} {:<24} ours", "", "model");
        let (left, right) = (self.refusal, ours.refusal);
        println!("      {:<20} {left:<24} {right}", "refusal");
        let differing = self.differing(ours);
        for (name, model, ours) in differing.iter().take(PRINTED) {
            println!("      {name:<20} {:<24} {}", volts(*model), volts(*ours));
        }
        let more = differing.len().saturating_sub(PRINTED);
        if more > 0 {
            println!("      and {more} more numbers differ");
        }
    }
}

/// A number with its bits.
fn volts(number: f32) -> String {
    format!("{number} ({:08X}h)", number.to_bits())
}

fn name(number: usize) -> String {
    let which = ["lowest", "highest", "last"][number % 3];
    format!("channel {:02} {which}", number / 3)
}

#[cfg(test)]
mod tests {
    use super::*;

    /// How many laws a table breaks: the first three numbers, then zeros.
    fn broken(refusal: u32, three: [f32; 3]) -> usize {
        let mut numbers = [0.0; NUMBERS];
        numbers[..3].copy_from_slice(&three);
        let mut wrongs = Vec::new();
        Table { refusal, numbers }.laws(false, &mut wrongs);
        wrongs.len()
    }

    #[test]
    fn each_law_is_asked() {
        let step = 5.0 / 65_536.0;
        let cases = [
            (0, [-2.5, step, -step], 0),
            (18, [0.0; 3], 0),
            (3, [0.0; 3], 1),
            (11, [0.0, 0.0, step], 1),
            (11, [0.0, 0.0, -0.0], 1),
            (0, [0.0, 0.0, -0.0], 1),
            (0, [0.0, step, -step], 1),
            (0, [-step, step, 2.0 * step], 1),
            (0, [step, step, step], 1),
            (0, [-step, step, step / 5.0], 1),
            (0, [f32::NAN; 3], 2),
        ];
        for (refusal, three, laws) in cases {
            assert_eq!(broken(refusal, three), laws, "{refusal} {three:?}");
        }
    }
}
