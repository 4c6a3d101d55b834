//! The lines of a text as words, and faults with their line numbers.

use std::borrow::Borrow;
use std::collections::BTreeMap;

/// What is wrong on a line, and what is expected.
#[derive(Clone, Debug, PartialEq, Eq)]
pub struct Fault {
    /// Counted from 1.
    pub line: usize,
    pub message: String,
}

/// A line with at least one word, its comment left out.
#[derive(Clone, Debug, PartialEq, Eq)]
pub struct Line<'text> {
    /// Counted from 1.
    pub number: usize,
    pub words: Vec<&'text str>,
}

/// A text in lines.
#[derive(Clone, Debug, PartialEq, Eq)]
pub struct Lines<'text> {
    pub lines: Vec<Line<'text>>,
    /// The number of the last line, where a fault of the whole text is told.
    pub last: usize,
}

/// Takes a text apart, or tells the first line that is not text.
pub fn split(text: &[u8]) -> Result<Lines<'_>, Vec<Fault>> {
    // Some editors begin a text with a byte order mark.
    let text = text.strip_prefix("\u{feff}".as_bytes()).unwrap_or(text);
    let text = text.strip_suffix(b"\n").unwrap_or(text);
    let mut lines = Vec::new();
    let mut last = 0;
    for (number, bytes) in (1..).zip(text.split(|&byte| byte == b'\n')) {
        last = number;
        let line = std::str::from_utf8(bytes).ok().filter(|line| is_text(line));
        let Some(line) = line else {
            let message = "the line is not text; expected UTF-8 without control characters";
            return Err(vec![Fault { line: number, message: message.to_string() }]);
        };
        let facts = line.split('#').next().unwrap_or_default();
        let words: Vec<&str> = facts.split_whitespace().collect();
        if !words.is_empty() {
            lines.push(Line { number, words });
        }
    }
    Ok(Lines { lines, last })
}

/// Tabs and the carriage returns of some editors are white space.
fn is_text(line: &str) -> bool {
    !line.contains(|character: char| character.is_control() && !"\t\r".contains(character))
}

/// The words of a line, read from left to right.
pub struct Words<'line> {
    words: &'line [&'line str],
    next: usize,
    /// How the whole line is written.
    form: &'static str,
}

impl<'line> Words<'line> {
    /// The words after the first, which says what the line is about.
    pub fn after_first(line: &'line Line<'line>, form: &'static str) -> Self {
        Words { words: &line.words, next: 1, form }
    }

    pub fn word(&mut self) -> Result<&'line str, String> {
        let Some(&word) = self.words.get(self.next) else {
            let written = self.words.join(" ");
            return Err(format!("the line ends after \"{written}\"; expected: {}", self.form));
        };
        self.next += 1;
        Ok(word)
    }

    /// The word that is read next, if the line goes on.
    pub fn peek(&self) -> Option<&'line str> {
        self.words.get(self.next).copied()
    }

    /// Reads these words if they come next.
    pub fn take(&mut self, phrase: &str) -> bool {
        let count = phrase.split(' ').count();
        let found = self.words[self.next..].iter().copied().take(count).eq(phrase.split(' '));
        if found {
            self.next += count;
        }
        found
    }

    pub fn fixed(&mut self, fixed: &str) -> Result<(), String> {
        let word = self.word()?;
        if word == fixed {
            return Ok(());
        }
        Err(format!("\"{word}\" stands in place of \"{fixed}\"; expected: {}", self.form))
    }

    pub fn end(&self) -> Result<(), String> {
        match self.peek() {
            None => Ok(()),
            Some(word) => Err(format!("\"{word}\" is too much; expected: {}", self.form)),
        }
    }
}

/// The form of the line that begins with `word`, out of `forms`, each of which
/// begins with its own word.
pub fn form_of(word: &str, forms: &[&'static str]) -> Result<&'static str, String> {
    let first = |form: &&'static str| form.split(' ').next().unwrap_or_default();
    forms.iter().copied().find(|form| first(form) == word).ok_or_else(|| {
        let known: Vec<&str> = forms.iter().map(first).collect();
        format!("unknown word \"{word}\"; expected one of {}", known.join(", "))
    })
}

/// Where a name stands among the names of its kind, such as "product".
pub fn find_name(kind: &str, name: &str, names: &[impl Borrow<str>]) -> Result<usize, String> {
    names
        .iter()
        .position(|known| known.borrow() == name)
        .ok_or_else(|| format!("unknown {kind} \"{name}\"; expected one of {}", names.join(", ")))
}

/// Facts by their place, each with the line that gives it.
#[derive(Default)]
pub struct Facts<Value> {
    given: BTreeMap<usize, Given<Value>>,
}

#[derive(Clone, Copy)]
pub struct Given<Value> {
    pub line: usize,
    /// Nothing if the line has a fault: the fact is not missing then.
    pub value: Option<Value>,
}

impl<Value: Copy> Facts<Value> {
    /// Notes a fact unless it was given before.
    pub fn give(
        &mut self,
        place: usize,
        line: usize,
        value: Result<Value, String>,
        name: impl FnOnce() -> String,
    ) -> Result<(), String> {
        if let Some(first) = self.given.get(&place) {
            let name = name();
            return Err(format!("{name} is given twice; expected once, as on line {}", first.line));
        }
        self.given.insert(place, Given { line, value: value.as_ref().ok().copied() });
        value.map(|_| ())
    }

    pub fn get(&self, place: usize) -> Option<Given<Value>> {
        self.given.get(&place).copied()
    }

    pub fn value(&self, place: usize) -> Option<Value> {
        self.get(place).and_then(|given| given.value)
    }
}
