//! Why a call was refused, as the crate `cc` tells it: a kind that is printed, and a message.

use std::borrow::Cow;
use std::{fmt, io};

/// What sort of refusal it is. Private, as in the crate; its name is what `Display` prints first.
#[derive(Clone, Copy, Debug, PartialEq, Eq)]
pub(crate) enum ErrorKind {
    IOError,
    EnvVarNotFound,
    ToolExecError,
    ToolNotFound,
    InvalidArgument,
    InvalidTarget,
    UnknownTarget,
    InvalidFlag,
    Disabled,
}

/// Why a call was refused. `Display` prints its kind and its message, as `ToolNotFound: failed to find tool "cc"`.
#[derive(Clone, Debug)]
pub struct Error {
    pub(crate) kind: ErrorKind,
    pub(crate) message: Cow<'static, str>,
}

impl Error {
    pub(crate) fn new(kind: ErrorKind, message: impl Into<Cow<'static, str>>) -> Error {
        Error {
            kind,
            message: message.into(),
        }
    }

    /// The error that the command tells by this message on its standard error.
    pub(crate) fn told(message: String) -> Error {
        Error::new(kind_of(&message), message)
    }
}

/// How the command's messages of one kind begin. What stands in none of them names a call of the machine that failed.
const BEGINNINGS: &[(&str, ErrorKind)] = &[
    ("failed to find tool ", ErrorKind::ToolNotFound),
    (
        "command did not execute successfully",
        ErrorKind::ToolExecError,
    ),
    ("command \"", ErrorKind::ToolExecError),
    (
        "failed to wait for running commands",
        ErrorKind::ToolExecError,
    ),
    ("turns spent", ErrorKind::ToolExecError),
    ("environment variable ", ErrorKind::EnvVarNotFound),
    (
        "could not find environment variable ",
        ErrorKind::EnvVarNotFound,
    ),
    ("unknown target ", ErrorKind::UnknownTarget),
    (
        "Unknown architecture for Neutrino QNX: ",
        ErrorKind::InvalidTarget,
    ),
    (
        "cc has been disabled by CC_FORCE_DISABLE",
        ErrorKind::Disabled,
    ),
    (
        "argument must be a single normal path component",
        ErrorKind::InvalidArgument,
    ),
    ("out dir must not be empty", ErrorKind::InvalidArgument),
    (
        "No file_name for object file path!",
        ErrorKind::InvalidArgument,
    ),
    ("two sources have the object ", ErrorKind::InvalidArgument),
    ("the added object ", ErrorKind::InvalidArgument),
    (
        "libtool can't read the object path ",
        ErrorKind::InvalidArgument,
    ),
    (
        "expected the path of a library lib<name>.a",
        ErrorKind::InvalidArgument,
    ),
    (
        "Expand may only be called for a single file",
        ErrorKind::InvalidArgument,
    ),
];

fn kind_of(message: &str) -> ErrorKind {
    let known = BEGINNINGS
        .iter()
        .find(|(beginning, _)| message.starts_with(beginning));
    match known {
        Some((_, kind)) => *kind,
        None if message.ends_with(" must have a value") => ErrorKind::InvalidFlag,
        None => ErrorKind::IOError,
    }
}

impl From<io::Error> for Error {
    fn from(error: io::Error) -> Error {
        Error::new(ErrorKind::IOError, error.to_string())
    }
}

impl fmt::Display for Error {
    fn fmt(&self, f: &mut fmt::Formatter<'_>) -> fmt::Result {
        let Error { kind, message } = self;
        write!(f, "{kind:?}: {message}")
    }
}

impl std::error::Error for Error {}

/// Ends the script as the calls without `try_` do: the message stands on standard error, and the status is 1.
pub(crate) fn fail(error: &Error) -> ! {
    eprintln!("\n\nerror occurred in cc-rs: {}\n\n", error.message);
    std::process::exit(1)
}

/// Ends the script since a call can't be said in words of the command: one line names the call, and the status is 101.
pub(crate) fn unsaid(call: &str, why: &str) -> ! {
    eprintln!("`{call}` can't be said to cc_main: {why}; build this crate with the crate `cc`");
    std::process::exit(101)
}
