//! The compilation database that the command writes (Clang's "JSON Compilation Database Format Specification"), of which the objects are
//! wanted.

use crate::error::{Error, ErrorKind};
use std::path::PathBuf;

/// What an entry tells of its object: the folder that it counts from, and its path, which has that folder where the plan's is relative.
pub(crate) struct Entry {
    pub(crate) directory: PathBuf,
    pub(crate) output: PathBuf,
}

/// The entries of a database, in order.
///
/// Refused (`IOError`) where the text is none.
pub(crate) fn entries(text: &str) -> Result<Vec<Entry>, Error> {
    let mut reader = Reader { rest: text };
    let read = reader
        .database()
        .filter(|_| reader.rest.trim_start().is_empty());
    read.ok_or_else(|| {
        Error::new(
            ErrorKind::IOError,
            "the compilation database of cc_main can't be read",
        )
    })
}

struct Reader<'a> {
    rest: &'a str,
}

impl Reader<'_> {
    // Takes this character, behind blanks, if it is next.
    fn takes(&mut self, c: char) -> bool {
        match self.rest.trim_start().strip_prefix(c) {
            Some(rest) => {
                self.rest = rest;
                true
            }
            None => false,
        }
    }

    // Items between two brackets, with a comma between.
    fn items(
        &mut self,
        open: char,
        close: char,
        item: &mut dyn FnMut(&mut Self) -> Option<()>,
    ) -> Option<()> {
        if !self.takes(open) {
            return None;
        }
        if self.takes(close) {
            return Some(());
        }
        loop {
            item(self)?;
            if self.takes(close) {
                return Some(());
            }
            if !self.takes(',') {
                return None;
            }
        }
    }

    fn database(&mut self) -> Option<Vec<Entry>> {
        let mut entries = Vec::new();
        self.items('[', ']', &mut |reader| {
            entries.push(reader.entry()?);
            Some(())
        })?;
        Some(entries)
    }

    fn entry(&mut self) -> Option<Entry> {
        let (mut directory, mut output) = (None, None);
        self.items('{', '}', &mut |reader| {
            let name = reader.text()?;
            if !reader.takes(':') {
                return None;
            }
            match name.as_str() {
                "directory" => directory = Some(reader.text()?),
                "output" => output = Some(reader.text()?),
                _ => reader.skip()?,
            }
            Some(())
        })?;
        Some(Entry {
            directory: directory?.into(),
            output: output?.into(),
        })
    }

    // A text, or a list of texts.
    fn skip(&mut self) -> Option<()> {
        match self.text() {
            Some(_) => Some(()),
            None => self.items('[', ']', &mut |reader| reader.text().map(drop)),
        }
    }

    fn text(&mut self) -> Option<String> {
        let mut chars = self.rest.trim_start().strip_prefix('"')?.chars();
        let mut text = String::new();
        loop {
            match chars.next()? {
                '"' => break,
                '\\' => text.push(escaped(&mut chars)?),
                plain => text.push(plain),
            }
        }
        self.rest = chars.as_str();
        Some(text)
    }
}

// The character behind a backslash. A number is of one character, since the command writes such numbers for control characters alone.
fn escaped(chars: &mut std::str::Chars<'_>) -> Option<char> {
    match chars.next()? {
        'n' => Some('\n'),
        'r' => Some('\r'),
        't' => Some('\t'),
        'b' => Some('\u{8}'),
        'f' => Some('\u{c}'),
        'u' => {
            let rest = chars.as_str();
            let code = rest.get(..4)?;
            *chars = rest[4..].chars();
            char::from_u32(u32::from_str_radix(code, 16).ok()?)
        }
        plain @ ('"' | '\\' | '/') => Some(plain),
        _ => None,
    }
}

#[cfg(test)]
mod tests {
    use super::*;

    #[test]
    fn outputs_come_back() {
        let text = r#"[ {"directory": "/a", "arguments": ["cc", "-c"], "file": "x", "output": "/a/q\"\\\u0009é"},
            {"output":"o","directory":"/b"} ]
        "#;
        let read = entries(text).unwrap();
        assert_eq!(read[0].output, PathBuf::from("/a/q\"\\\té"));
        assert_eq!(
            (&*read[1].directory, &*read[1].output),
            ("/b".as_ref(), "o".as_ref())
        );
        assert!(entries("[\n]\n").unwrap().is_empty());
    }

    #[test]
    fn another_text_is_refused() {
        for text in [
            "",
            "[",
            "[{}]",
            r#"[{"directory": "a", "output": "b"}"#,
            r#"[] x"#,
            r#"[{"directory": "a", "output": "b}]"#,
        ] {
            assert!(entries(text).is_err(), "{text}");
        }
    }
}
