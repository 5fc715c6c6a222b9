//! What `cc_main show` prints: the family of the compiler, and the commands of compiler, archiver and ranlib.

use crate::environment::Environment;
use crate::error::{Error, ErrorKind};
use crate::lines::rerun_name;
use crate::words::Words;
use std::sync::{Mutex, PoisonError};

/// The family of a compiler.
#[derive(Clone, Copy, Debug, PartialEq, Eq)]
pub(crate) enum ToolFamily {
    Gnu,
    Clang,
    Msvc,
}

/// The tools of a build. Each command has its program first.
#[derive(Clone, Debug)]
pub(crate) struct Shown {
    pub(crate) family: ToolFamily,
    pub(crate) compiler: Vec<String>,
    pub(crate) archiver: Vec<String>,
    pub(crate) ranlib: Vec<String>,
    /// The lines that were printed before.
    pub(crate) before: Vec<Vec<u8>>,
}

impl Shown {
    /// Reads the lines that the command printed, of which the last four show the tools.
    ///
    /// Refused (`ToolExecError`) where they aren't such lines.
    pub(crate) fn read(mut lines: Vec<Vec<u8>>) -> Result<Shown, Error> {
        let tools = lines.split_off(lines.len().saturating_sub(4));
        let tools: Option<Vec<&str>> = tools
            .iter()
            .map(|line| std::str::from_utf8(line).ok()?.strip_suffix('\n'))
            .collect();
        match tools.as_deref() {
            Some([family, compiler, archiver, ranlib]) => {
                let shown = || {
                    Some(Shown {
                        family: family_of(family.strip_prefix("family ")?)?,
                        compiler: words_of(compiler.strip_prefix("compiler ")?)?,
                        archiver: words_of(archiver.strip_prefix("archiver ")?)?,
                        ranlib: words_of(ranlib.strip_prefix("ranlib ")?)?,
                        before: lines,
                    })
                };
                shown().ok_or_else(unreadable)
            }
            _ => Err(unreadable()),
        }
    }
}

/// What the command showed a build and its clones, for which words and variables.
#[derive(Debug, Default)]
pub(crate) struct Answers(Mutex<Vec<(Words, Environment, Shown)>>);

impl Answers {
    /// What was shown for these words and variables. Of what was printed before it has the names of variables alone.
    pub(crate) fn find(&self, words: &Words, environment: &Environment) -> Option<Shown> {
        let answers = self.0.lock().unwrap_or_else(PoisonError::into_inner);
        let found = answers
            .iter()
            .find(|(said, variables, _)| said == words && variables == environment);
        found.map(|(_, _, shown)| shown.clone())
    }

    /// Keeps what was shown.
    pub(crate) fn keep(&self, words: &Words, environment: &Environment, shown: &Shown) {
        let mut shown = shown.clone();
        shown.before.retain(|line| rerun_name(line).is_some());
        let mut answers = self.0.lock().unwrap_or_else(PoisonError::into_inner);
        answers.push((words.clone(), environment.clone(), shown));
    }
}

fn unreadable() -> Error {
    Error::new(
        ErrorKind::ToolExecError,
        "what cc_main shows of the tools can't be read",
    )
}

fn family_of(name: &str) -> Option<ToolFamily> {
    match name {
        "Gnu" => Some(ToolFamily::Gnu),
        "Clang" => Some(ToolFamily::Clang),
        "Msvc" => Some(ToolFamily::Msvc),
        _ => None,
    }
}

// The words of a command, each in quotes with one space between: a program at least.
fn words_of(line: &str) -> Option<Vec<String>> {
    let mut words = Vec::new();
    let mut rest = line;
    loop {
        let (word, behind) = unquoted(rest)?;
        words.push(word);
        match behind.strip_prefix(' ') {
            Some(behind) => rest = behind,
            None if behind.is_empty() => return Some(words),
            None => return None,
        }
    }
}

// The text in quotes that the line begins with, and what stands behind it.
fn unquoted(line: &str) -> Option<(String, &str)> {
    let mut chars = line.strip_prefix('"')?.chars();
    let mut text = String::new();
    loop {
        match chars.next()? {
            '"' => return Some((text, chars.as_str())),
            '\\' => match chars.next()? {
                'n' => text.push('\n'),
                'r' => text.push('\r'),
                't' => text.push('\t'),
                '0' => text.push('\0'),
                'u' => {
                    let (code, behind) = chars.as_str().strip_prefix('{')?.split_once('}')?;
                    text.push(char::from_u32(u32::from_str_radix(code, 16).ok()?)?);
                    chars = behind.chars();
                }
                plain => text.push(plain),
            },
            plain => text.push(plain),
        }
    }
}

#[cfg(test)]
mod tests {
    use super::*;

    fn lines(text: &str) -> Vec<Vec<u8>> {
        text.split_inclusive('\n')
            .map(|line| line.as_bytes().to_vec())
            .collect()
    }

    #[test]
    fn quoted_words_come_back() {
        let shown = Shown::read(lines(
            "cargo:warning=w\nfamily Gnu\ncompiler \"c c\" \"a\\\"b\\\\c\\n\\u{1f}é\"\narchiver \"ar\"\nranlib \"r\" \"\"\n",
        ))
        .unwrap();
        assert_eq!(shown.compiler, ["c c", "a\"b\\c\n\u{1f}é"]);
        assert_eq!(shown.ranlib, ["r", ""]);
        assert_eq!(shown.before, lines("cargo:warning=w\n"));
    }

    #[test]
    fn other_lines_are_refused() {
        for text in [
            "",
            "family Gnu\n",
            "family Other\ncompiler \"cc\"\narchiver \"ar\"\nranlib \"r\"\n",
            "family Gnu\ncompiler \"cc\narchiver \"ar\"\nranlib \"r\"\n",
            "family Gnu\ncompiler \"cc\"x\narchiver \"ar\"\nranlib \"r\"\n",
            "family Gnu\ncompiler \"cc\"\narchiver \"ar\"\nranlib \"r\"",
        ] {
            assert_eq!(
                Shown::read(lines(text)).unwrap_err().kind,
                ErrorKind::ToolExecError,
                "{text}"
            );
        }
    }
}
