//! The words that the setters of a build say to the command, in the order of the calls.

use crate::error::{Error, ErrorKind};
use std::ffi::{OsStr, OsString};

/// A word `key=value`.
#[derive(Clone, Debug, PartialEq, Eq)]
struct Word {
    key: &'static str,
    value: OsString,
}

/// The words of a build, in the order of the calls.
#[derive(Clone, Debug, Default, PartialEq, Eq)]
pub(crate) struct Words(Vec<Word>);

impl Words {
    /// Says a word more.
    pub(crate) fn say(&mut self, key: &'static str, value: impl AsRef<OsStr>) {
        let value = value.as_ref().to_owned();
        self.0.push(Word { key, value });
    }

    /// Says a word of true or false more.
    pub(crate) fn switch(&mut self, key: &'static str, on: bool) {
        self.say(key, if on { "true" } else { "false" });
    }

    /// These words with a further one behind them.
    pub(crate) fn and(mut self, key: &'static str, value: impl AsRef<OsStr>) -> Words {
        self.say(key, value);
        self
    }

    /// These words with those of another build behind them.
    pub(crate) fn and_all(mut self, others: &Words) -> Words {
        self.0.extend_from_slice(&others.0);
        self
    }

    /// The words with one of these keys alone.
    pub(crate) fn only(&self, keys: &[&str]) -> Words {
        self.chosen(|key| keys.contains(&key))
    }

    /// The words with none of these keys.
    pub(crate) fn without(&self, keys: &[&str]) -> Words {
        self.chosen(|key| !keys.contains(&key))
    }

    fn chosen(&self, choice: impl Fn(&str) -> bool) -> Words {
        Words(
            self.0
                .iter()
                .filter(|word| choice(word.key))
                .cloned()
                .collect(),
        )
    }

    /// The values of a key, in order.
    pub(crate) fn values(&self, key: &'static str) -> impl Iterator<Item = &OsStr> {
        self.0
            .iter()
            .filter(move |word| word.key == key)
            .map(|word| word.value.as_os_str())
    }

    /// The value that counts of a key whose last word does.
    pub(crate) fn last(&self, key: &'static str) -> Option<&OsStr> {
        self.values(key).last()
    }

    /// Whether a switch is on that is on by default.
    pub(crate) fn is_on(&self, key: &'static str) -> bool {
        self.last(key) != Some(OsStr::new("false"))
    }

    /// The words as the command is given them.
    ///
    /// Refused (`InvalidArgument`) at the first that isn't UTF-8, which the command doesn't read.
    pub(crate) fn arguments(&self) -> Result<Vec<String>, Error> {
        self.0.iter().map(argument).collect()
    }
}

fn argument(word: &Word) -> Result<String, Error> {
    match word.value.to_str() {
        Some(value) => Ok(format!("{}={value}", word.key)),
        None => Err(Error::new(
            ErrorKind::InvalidArgument,
            format!(
                "`{}` was given {:?}, which is not UTF-8",
                word.key, word.value
            ),
        )),
    }
}
