//! How Cargo links a library that was archived before: its lines were held back.

use crate::build::Build;
use crate::error::{fail, unsaid, Error};
use crate::words::Words;
use std::path::{Path, PathBuf};
use std::sync::PoisonError;

// What links nothing: settings of sources, objects and the archiver.
const ELSEWHERE: &[&str] = &[
    "file", "object", "archiver", "ranlib", "ar_flag", "asm_flag",
];

/// The link lines of a library that a build archived.
#[derive(Debug)]
pub(crate) struct Held {
    library: PathBuf,
    words: Words,
    lines: Vec<Vec<u8>>,
}

impl Held {
    pub(crate) fn new(library: PathBuf, words: &Words, lines: Vec<Vec<u8>>) -> Held {
        let words = words.without(ELSEWHERE);
        Held {
            library,
            words,
            lines,
        }
    }

    fn is_of(&self, library: &Path, words: &Words) -> bool {
        self.library == library && self.words == *words
    }
}

/// Tells Cargo how it links a library of [`Build::create_archive`].
///
/// # Panics
///
/// It ends the script (status 1) where [`try_emit_link_directives`] refuses.
pub fn emit_link_directives<P: AsRef<Path>>(build: &Build, library: P) {
    if let Err(error) = try_emit_link_directives(build, library) {
        fail(&error);
    }
}

/// Tells Cargo how it links a library of [`Build::create_archive`].
///
/// The command tells it together with the archive, so that the library must be one that this build or a clone archived, with the settings that
/// it has: another ends the script (status 101). Refused (`IOError`) where standard output takes nothing.
pub fn try_emit_link_directives<P: AsRef<Path>>(build: &Build, library: P) -> Result<(), Error> {
    let words = build.words.without(ELSEWHERE);
    let held = build.held.lock().unwrap_or_else(PoisonError::into_inner);
    let found = held
        .iter()
        .rev()
        .find(|held| held.is_of(library.as_ref(), &words));
    match found {
        Some(held) => build.told.tell_links(&held.lines),
        None => unsaid(
            "emit_link_directives",
            "this build, with these settings, didn't archive that library",
        ),
    }
}
