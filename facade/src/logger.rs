//! The types of messages. They are here so that scripts compile; a logger that is set ends the script.

use std::any::Any;
use std::ffi::{OsStr, OsString};
use std::fmt;
use std::path::{Path, PathBuf};
use std::process::ExitStatus;

/// Who hears the messages of builds.
pub trait BuildMessageLogger: Send + Sync + 'static {
    /// Hears one message.
    fn log(&self, kind: BuildMessageKind, msg: BuildMessage<'_>, extra: &dyn Any);
}

/// What a message is about.
#[derive(Clone, Copy, Debug, PartialEq, Eq)]
#[non_exhaustive]
pub enum BuildMessageKind {
    /// A warning of the build's own.
    GeneralWarning,
    /// A line that a command wrote on its standard error.
    StderrForwarding,
    /// A command that failed.
    #[non_exhaustive]
    CommandFailed {
        /// Whether it was a question.
        is_detection_cmd: bool,
        /// How it ended.
        exit_status: ExitStatus,
    },
    /// A compile command that is about to run.
    CompileCommand,
}

/// The text of a message.
#[derive(Clone, Copy, Debug)]
#[non_exhaustive]
pub enum BuildMessage<'a> {
    /// It as it is.
    Str(&'a str),
}

impl fmt::Display for BuildMessage<'_> {
    fn fmt(&self, f: &mut fmt::Formatter<'_>) -> fmt::Result {
        match self {
            Self::Str(text) => f.write_str(text),
        }
    }
}

/// A compile command, as a logger hears it. No build of this crate tells one.
#[derive(Clone, Debug, PartialEq, Eq)]
pub struct CompileCommand {
    pub(crate) directory: PathBuf,
    pub(crate) file: PathBuf,
    pub(crate) arguments: Vec<OsString>,
    pub(crate) output: PathBuf,
}

impl CompileCommand {
    /// The folder that it runs in.
    pub fn directory(&self) -> &Path {
        &self.directory
    }

    /// Its source, with its folder.
    pub fn file(&self) -> &Path {
        &self.file
    }

    /// Its program and the words behind it.
    pub fn arguments(&self) -> impl ExactSizeIterator<Item = &OsStr> + DoubleEndedIterator {
        self.arguments.iter().map(OsString::as_os_str)
    }

    /// Its object, with its folder.
    pub fn output(&self) -> &Path {
        &self.output
    }
}
