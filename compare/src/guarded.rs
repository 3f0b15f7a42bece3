//! What is lent to the other side, between guards.

use std::hint::black_box;
use std::iter::repeat_n;

/// How many guards stand on each side.
const GUARDS: usize = 16;

/// What went wrong in a call, each in words; model/ours.
pub type Wrongs = Vec<String>;

pub struct Guarded<T> {
    all: Vec<T>,
    guard: T,
}

impl<T: Copy + PartialEq> Guarded<T> {
    /// Nothing, between guards. A guard is a number that nobody would write.
    pub fn new(guard: T) -> Guarded<T> {
        let all = vec![guard; 2 * GUARDS];
        Guarded { all, guard }
    }

    /// Puts these between new guards.
    pub fn set(&mut self, inside: impl IntoIterator<Item = T>) {
        self.all.clear();
        self.all.extend(repeat_n(self.guard, GUARDS));
        self.all.extend(inside);
        self.all.extend(repeat_n(self.guard, GUARDS));
    }

    /// The same with so many that are not set: guards too.
    pub fn unset(&mut self, length: usize) {
        self.set(repeat_n(self.guard, length));
    }

    pub fn lent(&mut self) -> &mut [T] {
        let end = self.all.len() - GUARDS;
        &mut self.all[GUARDS..end]
    }

    /// What was lent, as it is now. What is lent to be read is taken as
    /// unchanged, unless it is hidden what became of it.
    pub fn inside(&self) -> &[T] {
        let all = black_box(&self.all);
        &all[GUARDS..all.len() - GUARDS]
    }

    /// Whether all from this place on are as `unset` left them.
    pub fn is_unset(&self, from: usize) -> bool {
        let rest = self.inside().get(from..).unwrap_or(&[]);
        rest.iter().all(|one| *one == self.guard)
    }

    /// Tells if what was lent to be read is not this any more.
    pub fn look_at(&self, what: &str, before: &[T], wrongs: &mut Wrongs) {
        if self.inside() != before {
            wrongs.push(what.to_string());
        }
    }

    /// Tells if something was written where nothing is lent, and makes it good.
    pub fn look_beside(&mut self, what: &str, wrongs: &mut Wrongs) {
        let end = self.all.len() - GUARDS;
        let (before, after) = (&self.all[..GUARDS], &self.all[end..]);
        let guard = self.guard;
        if before.iter().chain(after).any(|one| *one != guard) {
            wrongs.push(what.to_string());
            self.all[..GUARDS].fill(guard);
            self.all[end..].fill(guard);
        }
    }
}

#[cfg(test)]
mod tests {
    use super::*;

    #[test]
    fn what_is_written_beside_is_told_once() {
        let mut lent = Guarded::new(7);
        lent.set([1, 2, 3]);
        let last = lent.all.len() - 1;
        for (place, told) in [
            (0, 1),
            (GUARDS - 1, 1),
            (GUARDS, 0),
            (GUARDS + 3, 1),
            (last, 1),
        ] {
            lent.all[place] = 5;
            let mut wrongs = Vec::new();
            lent.look_beside("beside", &mut wrongs);
            assert_eq!(wrongs.len(), told);
            lent.look_beside("beside", &mut wrongs);
            assert_eq!(wrongs.len(), told);
        }
        assert_eq!(lent.inside(), [5, 2, 3]);
    }
}
