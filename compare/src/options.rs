//! The words that a comparison is called with.

use std::ops::Range;
use std::process::exit;

pub struct Options {
    pub seed: u64,
    /// How much is compared: events, sessions or calls.
    pub most: u64,
    /// Only this one of the seed.
    pub only: Option<u64>,
    pub coverage: bool,
}

impl Options {
    /// Those that are compared, by their numbers.
    pub fn indices(&self) -> Range<u64> {
        match self.only {
            Some(index) => index..index + 1,
            None => 0..self.most,
        }
    }
}

/// The words of this call. `most` is the word for how much is compared, and how
/// much that is without it; `other` takes a word that one program alone knows.
/// After --help the program ends with status 0, after a wrong word with 2.
pub fn given(
    script: &str,
    help: &str,
    most: (&str, u64),
    other: impl FnMut(&str) -> bool,
) -> Options {
    read(help, most, other).unwrap_or_else(|text| {
        eprintln!("{text}\n(`{script} --help` tells more)");
        exit(2);
    })
}

fn read(
    help: &str,
    (counted, most): (&str, u64),
    mut other: impl FnMut(&str) -> bool,
) -> Result<Options, String> {
    let mut options = Options {
        seed: 1,
        most,
        only: None,
        coverage: false,
    };
    let mut words = std::env::args().skip(1);
    while let Some(option) = words.next() {
        let mut number = || -> Result<u64, String> {
            let text = words
                .next()
                .ok_or(format!("{option}: a number is missing"))?;
            text.replace(['_', ','], "")
                .parse()
                .map_err(|_| format!("{option}: `{text}` is not a number"))
        };
        match option.as_str() {
            "--seed" => options.seed = number()?,
            "--only" => options.only = Some(number()?),
            "--coverage" => options.coverage = true,
            "--help" | "-h" => {
                print!("{help}");
                exit(0);
            }
            word if word == counted => options.most = number()?,
            word if other(word) => {}
            _ => return Err(format!("`{option}` is not an option")),
        }
    }
    Ok(options)
}
