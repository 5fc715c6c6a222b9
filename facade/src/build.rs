//! A build: the words that its setters said, the variables it reads, and what it and its clones told Cargo.

use crate::environment::Environment;
use crate::lines::Told;
use crate::link::Held;
use crate::shown::Answers;
use crate::words::Words;
use std::ffi::OsStr;
use std::path::{Path, PathBuf};
use std::sync::{Arc, Mutex};

/// Settings of a static library, and the calls that build it.
///
/// Each setter says one word to the command `cc_main`, in the order of the calls; nothing runs before a call such as
/// [`compile`](Build::compile). A value that isn't UTF-8 is refused by that call (`InvalidArgument`). A clone tells Cargo of nothing that
/// the other told.
#[derive(Clone, Debug, Default)]
pub struct Build {
    pub(crate) words: Words,
    pub(crate) environment: Environment,
    pub(crate) told: Arc<Told>,
    pub(crate) answers: Arc<Answers>,
    pub(crate) held: Arc<Mutex<Vec<Held>>>,
}

impl Build {
    /// A build with no setting.
    pub fn new() -> Build {
        Build::default()
    }

    // Says a word, and answers the build for a chain.
    pub(crate) fn say(&mut self, key: &'static str, value: impl AsRef<OsStr>) -> &mut Build {
        self.words.say(key, value);
        self
    }

    pub(crate) fn switch(&mut self, key: &'static str, on: bool) -> &mut Build {
        self.words.switch(key, on);
        self
    }

    /// The sources, in the order added.
    pub fn get_files(&self) -> impl Iterator<Item = &Path> {
        self.words.values("file").map(Path::new)
    }

    /// Whether Cargo is told of the variables that were read.
    pub(crate) fn tells_names(&self) -> bool {
        self.words.is_on("emit_rerun_if_env_changed") && self.words.is_on("cargo_metadata")
    }

    /// The target, where a word or a variable names it.
    pub(crate) fn target_name(&self) -> Option<&str> {
        let target = self
            .words
            .last("target")
            .or_else(|| self.environment.get("TARGET"));
        target.and_then(OsStr::to_str)
    }

    /// The folder of objects and library, where a word or a variable names it.
    pub(crate) fn folder(&self) -> Option<PathBuf> {
        let folder = self
            .words
            .last("out_dir")
            .or_else(|| self.environment.get("OUT_DIR"));
        folder.map(PathBuf::from)
    }
}
