//! Numbers with their units.

use std::ops::RangeInclusive;

use crate::lines::Words;

/// The unit that a number of the files is counted in.
#[derive(Clone, Copy, Debug, PartialEq, Eq)]
pub enum Unit {
    Minutes,
    Grams,
    GramsPerMinute,
    Cents,
    CentsPerKilogram,
}

/// One way to write a unit.
struct Spelling {
    words: &'static str,
    /// How many of the unit one of these is.
    factor: u64,
}

impl Unit {
    /// The unit in words, as messages have it.
    pub fn words(self) -> &'static str {
        self.spellings()[0].words
    }

    /// A number and its unit, as texts have them.
    pub fn amount(self, number: impl Into<u64>) -> String {
        let number = number.into();
        let words = self.spellings()[usize::from(number == 1)].words;
        format!("{number} {words}")
    }

    /// In the unit itself the plural and the singular, then greater units.
    fn spellings(self) -> &'static [Spelling] {
        match self {
            Unit::Minutes => {
                &[Spelling { words: "minutes", factor: 1 }, Spelling { words: "minute", factor: 1 }]
            }
            Unit::Grams => &[
                Spelling { words: "grams", factor: 1 },
                Spelling { words: "gram", factor: 1 },
                Spelling { words: "kilograms", factor: 1000 },
                Spelling { words: "kilogram", factor: 1000 },
            ],
            Unit::GramsPerMinute => &[
                Spelling { words: "grams per minute", factor: 1 },
                Spelling { words: "gram per minute", factor: 1 },
            ],
            Unit::Cents => {
                &[Spelling { words: "cents", factor: 1 }, Spelling { words: "cent", factor: 1 }]
            }
            Unit::CentsPerKilogram => &[
                Spelling { words: "cents per kilogram", factor: 1 },
                Spelling { words: "cent per kilogram", factor: 1 },
            ],
        }
    }

    /// The units that may be written, for a message.
    fn choice(self) -> &'static str {
        match self {
            Unit::Grams => "grams or kilograms",
            _ => self.words(),
        }
    }

    /// Reads the unit if it comes next.
    fn read(self, words: &mut Words) -> Option<&'static Spelling> {
        self.spellings().iter().find(|spelling| words.take(spelling.words))
    }
}

/// What a number of a text means.
#[derive(Clone, Debug, PartialEq, Eq)]
pub struct Quantity {
    /// As messages have it, with its article.
    pub name: &'static str,
    pub unit: Unit,
    pub limits: RangeInclusive<u64>,
}

impl Quantity {
    /// Reads a number and its unit, which may be left out at the line's end.
    pub fn read(&self, words: &mut Words) -> Result<u64, String> {
        let number = words.word()?;
        let spelling = self.read_last_unit(words)?;
        self.count(number, spelling)
    }

    /// Reads two numbers and the unit of both, which may be left out.
    pub fn read_two(&self, words: &mut Words) -> Result<[u64; 2], String> {
        let numbers = [words.word()?, words.word()?];
        let spelling = self.read_last_unit(words)?;
        Ok([self.count(numbers[0], spelling)?, self.count(numbers[1], spelling)?])
    }

    /// Reads a number and its unit, which may not be left out.
    pub fn read_with_unit(&self, words: &mut Words) -> Result<u64, String> {
        let number = words.word()?;
        match self.unit.read(words) {
            Some(spelling) => self.count(number, spelling),
            // Either the line ends here or another word stands in the unit's place.
            None => Err(self.wrong_unit(words.word()?)),
        }
    }

    /// Reads the unit up to the line's end.
    fn read_last_unit(&self, words: &mut Words) -> Result<&'static Spelling, String> {
        let spelling = match self.unit.read(words) {
            Some(spelling) => spelling,
            None => match words.peek() {
                None => &self.unit.spellings()[0],
                Some(word) => return Err(self.wrong_unit(word)),
            },
        };
        words.end()?;
        Ok(spelling)
    }

    /// The number in the quantity's unit.
    fn count(&self, number: &str, spelling: &Spelling) -> Result<u64, String> {
        let (whole, decimals) = number.split_once('.').unwrap_or((number, "0"));
        if !is_digits(whole) || !is_digits(decimals) {
            return Err(format!("\"{number}\" is not a number in digits; {}", self.expected()));
        }
        let decimals = decimals.trim_end_matches('0');
        let parts = parts_of_one(decimals, spelling.factor).ok_or_else(|| {
            let (written, unit) = (spelling.words, self.unit.words());
            format!("{number} {written} is not a whole number of {unit}; {}", self.expected())
        })?;
        // A number beyond 64 bits is beyond every limit too.
        let whole: u64 = whole.parse().unwrap_or(u64::MAX);
        let count = whole.saturating_mul(spelling.factor).saturating_add(parts);
        if self.limits.contains(&count) {
            return Ok(count);
        }
        Err(format!("{number} {} is out of limits; {}", spelling.words, self.expected()))
    }

    fn expected(&self) -> String {
        let (least, greatest) = (self.limits.start(), self.limits.end());
        format!("expected {} of {least} to {greatest} {}", self.name, self.unit.words())
    }

    fn wrong_unit(&self, word: &str) -> String {
        let choice = self.unit.choice();
        format!("\"{word}\" is not the unit here; expected {} in {choice}", self.name)
    }
}

/// Reads a plain count, such as a number of weeks.
pub fn read_count(
    words: &mut Words,
    name: &str,
    limits: RangeInclusive<u64>,
) -> Result<usize, String> {
    let word = words.word()?;
    let count = word.parse().ok().filter(|count| is_digits(word) && limits.contains(count));
    count.and_then(|count| usize::try_from(count).ok()).ok_or_else(|| {
        let (least, greatest) = (limits.start(), limits.end());
        format!("\"{word}\" is not {name}; expected {least} to {greatest}")
    })
}

/// How many parts the decimals are, `factor` parts to one; nothing if that is
/// not a whole number.
fn parts_of_one(decimals: &str, factor: u64) -> Option<u64> {
    let mut parts = 0;
    let mut weight = factor;
    for digit in decimals.bytes() {
        if !weight.is_multiple_of(10) {
            return None;
        }
        weight /= 10;
        parts += weight * u64::from(digit - b'0');
    }
    Some(parts)
}

fn is_digits(word: &str) -> bool {
    !word.is_empty() && word.bytes().all(|byte| byte.is_ascii_digit())
}
