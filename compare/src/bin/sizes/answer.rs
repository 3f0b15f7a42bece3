//! An answer: the refusal and the size code, how two of them differ, and what
//! holds of every one.

use compare::guarded::Wrongs;
use compare::question::Said;

/// "19 exactly when none of the sixteen codes plays without loss"
pub const NO_CODE: u32 = 19;
/// The last of the sixteen.
pub const LAST: u32 = 15;

#[derive(Clone, Copy)]
pub struct Answer {
    pub refusal: u32,
    pub code: u32,
}

impl Answer {
    /// "Refusals: 10 to 13 first": the file is no session.
    pub fn is_of_file(self) -> bool {
        matches!(self.refusal, 10..=13)
    }
}

impl Said for Answer {
    fn refusal(&self) -> u32 {
        self.refusal
    }

    fn compare(&self, ours: &Answer, wrongs: &mut Wrongs) {
        if self.refusal != ours.refusal {
            wrongs.push(format!("refusal {}/{}", self.refusal, ours.refusal));
        }
        if self.code != ours.code {
            wrongs.push(format!("code {}/{}", self.code, ours.code));
        }
    }

    fn laws(&self, untouched: bool, wrongs: &mut Wrongs) {
        let mut law = |holds: bool, text: &str| {
            if !holds {
                wrongs.push(text.to_string());
            }
        };
        let known = self.refusal == 0 || self.is_of_file() || self.refusal == NO_CODE;
        law(known, "ours has no such refusal");
        law(self.code <= LAST, "ours names no size code");
        // "each names code 0"
        law(
            self.refusal == 0 || self.code == 0,
            "ours is refused without code 0",
        );
        // "with the memory untouched"
        law(
            untouched || !self.is_of_file(),
            "ours wrote to the memory of a refused file",
        );
    }

    fn print(&self, ours: &Answer) {
        println!("      {:<20} {:<12} ours", "", "model");
        for (name, model, ours) in [
            ("refusal", self.refusal, ours.refusal),
            ("size code", self.code, ours.code),
        ] {
            println!("      {name:<20} {model:<12} {ours}");
        }
    }
}

#[cfg(test)]
mod tests {
    use super::*;

    #[test]
    fn each_law_is_asked() {
        let cases = [
            (0, 0, false, 0),
            (0, 15, false, 0),
            (19, 0, false, 0),
            (10, 0, true, 0),
            (13, 0, true, 0),
            (0, 16, true, 1),
            (19, 15, false, 1),
            (11, 1, true, 1),
            (12, 0, false, 1),
            (18, 0, true, 1),
            (9, 0, false, 1),
            (13, 16, false, 3),
        ];
        for (refusal, code, untouched, laws) in cases {
            let mut wrongs = Vec::new();
            Answer { refusal, code }.laws(untouched, &mut wrongs);
            assert_eq!(wrongs.len(), laws, "{refusal} {code} {untouched}");
        }
    }
}
