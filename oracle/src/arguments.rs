//! Words and options of the command line.

use std::collections::BTreeMap;
use std::ffi::OsString;

/// Options that take a value, and options that don't.
const VALUED: [&str; 7] = [
    "--seed",
    "--count",
    "--out",
    "--profile",
    "--queue",
    "--branch",
    "--lent",
];
const BARE: [&str; 3] = ["--examples", "--force", "--hex"];

pub struct Arguments {
    words: Vec<String>,
    options: BTreeMap<String, String>,
}

impl Arguments {
    /// Sorts arguments into words and options. `-` is a word.
    pub fn sort(raw: impl Iterator<Item = OsString>) -> Result<Self, String> {
        let mut sorted = Self {
            words: Vec::new(),
            options: BTreeMap::new(),
        };
        let mut raw = raw.map(|word| {
            word.into_string()
                .map_err(|word| format!("not UTF-8: {word:?}"))
        });
        while let Some(word) = raw.next().transpose()? {
            let value = if VALUED.contains(&word.as_str()) {
                raw.next().ok_or(format!("{word} needs a value"))??
            } else if BARE.contains(&word.as_str()) {
                String::new()
            } else if word.starts_with("--") {
                return Err(format!("unknown option {word}"));
            } else {
                sorted.words.push(word);
                continue;
            };
            if sorted.options.insert(word.clone(), value).is_some() {
                return Err(format!("{word} is given twice"));
            }
        }
        Ok(sorted)
    }

    /// The next word; an error says what was expected.
    pub fn word(&mut self, expected: &str) -> Result<String, String> {
        self.optional_word()
            .ok_or_else(|| format!("{expected} is missing; see `oracle help`"))
    }

    pub fn optional_word(&mut self) -> Option<String> {
        (!self.words.is_empty()).then(|| self.words.remove(0))
    }

    pub fn option(&mut self, name: &str) -> Option<String> {
        self.options.remove(name)
    }

    pub fn needed(&mut self, name: &str) -> Result<String, String> {
        self.option(name)
            .ok_or_else(|| format!("{name} is missing; see `oracle help`"))
    }

    pub fn flag(&mut self, name: &str) -> bool {
        self.option(name).is_some()
    }

    /// An error if a word or option was not used: it belongs to no such command.
    pub fn done(&self) -> Result<(), String> {
        match self.words.first().or(self.options.keys().next()) {
            Some(left) => Err(format!("{left} has no place here; see `oracle help`")),
            None => Ok(()),
        }
    }
}
