//! How full the fullest buffer of a session gets, by the size code that is to be
//! its answer.

use compare::power_ups::DEEPEST;
use compare::rng::Rng;

#[derive(Clone, Copy)]
pub struct Aim {
    /// The fitted code of that buffer.
    pub fitted: u32,
    /// How many values it is to hold at once; more than its depth if some are to
    /// be lost at every code.
    pub top: u32,
}

/// Of a thousand sessions, how many aim at each code from 0 on, and the others
/// at none: each code takes about twice as long as the one before.
const CODES: [u32; 11] = [160, 180, 150, 110, 80, 60, 40, 30, 20, 16, 16];
/// The fitted codes of the others.
const SHALLOW: [u32; 12] = [0, 0, 0, 0, 1, 1, 1, 2, 2, 3, 4, 6];

/// More values than this take thousands of events.
const LONG: u32 = 200;

impl Aim {
    pub fn any(rng: &mut Rng) -> Aim {
        let mut left = rng.below(1000);
        for (code, share) in (0..).zip(CODES) {
            if left < share {
                return Aim::at(code, rng);
            }
            left -= share;
        }
        let fitted = rng.pick(&SHALLOW);
        Aim::over(fitted, rng)
    }

    /// One of the sizes that most sessions have.
    pub fn small(rng: &mut Rng) -> Aim {
        let code = rng.below(3);
        Aim::at(code, rng)
    }

    /// More than the size of the code before, and not more than that of this
    /// one: mostly at one of the two ends.
    pub fn at(code: u32, rng: &mut Rng) -> Aim {
        let size = 8 << code;
        let least = least(code);
        let between = least + rng.below(size - least + 1);
        let deeper = code + rng.below(DEEPEST + 1);
        let fitted = rng.pick(&[code, code, code + 1, deeper]);
        Aim {
            fitted: fitted.min(DEEPEST.max(code)),
            top: rng.pick(&[least, least, between, size - 1, size, size]),
        }
    }

    /// More than the depth of this fitted code.
    pub fn over(fitted: u32, rng: &mut Rng) -> Aim {
        Aim {
            fitted,
            top: (8 << fitted) + rng.pick(&[1, 1, 2, 5]),
        }
    }

    pub fn is_long(self) -> bool {
        self.top > LONG
    }
}

/// The fewest values at once for which no lower code will do.
pub fn least(code: u32) -> u32 {
    match code {
        0 => 1,
        _ => (4 << code) + 1,
    }
}

#[cfg(test)]
mod tests {
    use super::*;

    #[test]
    fn an_aim_needs_its_code_and_no_more() {
        let mut rng = Rng::new(1, 1);
        for code in 0..=DEEPEST {
            for aim in (0..100).map(|_| Aim::at(code, &mut rng)) {
                assert!(aim.fitted >= code && aim.fitted <= DEEPEST);
                assert!(aim.top <= 8 << code);
                assert!(code == 0 || aim.top > 8 << (code - 1));
            }
            assert!(Aim::over(code, &mut rng).top > 8 << code);
        }
    }
}
