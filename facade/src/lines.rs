//! The lines that the command prints: which are for Cargo's linker and which name a variable, and who was told of them.

use crate::error::{Error, ErrorKind};
use std::collections::BTreeSet;
use std::io::{self, Write};
use std::sync::{Mutex, PoisonError};

const RERUN: &[u8] = b"cargo:rerun-if-env-changed=";
const LIBRARY: &[u8] = b"cargo:rustc-link-lib=";
const SEARCH: &[u8] = b"cargo:rustc-link-search=";
const FLAGS: &[u8] = b"cargo:rustc-flags=";

/// Whether the line says how Cargo links something.
pub(crate) fn is_link(line: &[u8]) -> bool {
    [LIBRARY, SEARCH, FLAGS]
        .iter()
        .any(|beginning| line.starts_with(beginning))
}

/// The variable for which Cargo is to run the script again, where the line is of that sort.
pub(crate) fn rerun_name(line: &[u8]) -> Option<&str> {
    let name = line.strip_prefix(RERUN)?;
    std::str::from_utf8(name).ok().map(str::trim_end)
}

/// Refuses (`ToolExecError`) a part of a line for Cargo whose end is missing.
pub(crate) fn check_whole(piece: &[u8]) -> Result<(), Error> {
    let beginning = &b"cargo:"[..piece.len().min(6)];
    if piece.starts_with(beginning) && !piece.ends_with(b"\n") {
        let message = "the output of cc_main ends within a line";
        return Err(Error::new(ErrorKind::ToolExecError, message));
    }
    Ok(())
}

// The library of a line of which rustc takes no second: one with modifiers, as `static:-bundle=stdc++`.
fn sole_library(line: &[u8]) -> Option<&[u8]> {
    let library = line.strip_prefix(LIBRARY)?;
    library.contains(&b'=').then_some(library)
}

/// What a build and its clones told Cargo, which they tell once.
#[derive(Debug, Default)]
pub(crate) struct Told {
    names: Mutex<BTreeSet<String>>,
    libraries: Mutex<BTreeSet<Vec<u8>>>,
}

fn is_new<T: Ord>(told: &Mutex<BTreeSet<T>>, value: T) -> bool {
    told.lock()
        .unwrap_or_else(PoisonError::into_inner)
        .insert(value)
}

impl Told {
    /// Passes a line on as it is, but for a variable that was told of before.
    pub(crate) fn tell(&self, line: &[u8]) -> Result<(), Error> {
        match rerun_name(line) {
            Some(name) if !is_new(&self.names, name.to_owned()) => Ok(()),
            _ => Ok(print(line)?),
        }
    }

    /// Tells of a variable, once.
    pub(crate) fn tell_name(&self, name: &str) -> Result<(), Error> {
        self.tell(&[RERUN, name.as_bytes(), b"\n"].concat())
    }

    /// Passes link lines on, with what stands behind them. Behind the folder come the libraries that are linked too; those with modifiers
    /// are told once.
    pub(crate) fn tell_links(&self, lines: &[Vec<u8>]) -> Result<(), Error> {
        let mut beside = false;
        for line in lines {
            let told = beside
                && sole_library(line).is_some_and(|it| !is_new(&self.libraries, it.to_vec()));
            if !told {
                self.tell(line)?;
            }
            beside = beside || line.starts_with(SEARCH);
        }
        Ok(())
    }
}

// Prints bytes on standard output.
fn print(bytes: &[u8]) -> io::Result<()> {
    let mut out = io::stdout().lock();
    out.write_all(bytes)
}
