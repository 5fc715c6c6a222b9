//! The crate `cc` 1.11.1 for build scripts, said in words to the command `cc_main`.
//!
//! [`Build`] has the calls of that crate. Each setter says a word, and each call that builds or asks runs the command, once or twice, and reads
//! its lines. What is proved of the command holds of each run; this crate is trusted, and not proved. A call that can't be said in words ends
//! the script with status 101 and a line that names it. README.md says how a project uses it.
//!
//! ```no_run
//! cc::Build::new().file("src/a.c").define("FOO", "1").compile("foo");
//! ```
#![warn(missing_docs)]

mod asks;
mod build;
mod calls;
mod command;
mod database;
mod environment;
mod error;
mod lines;
mod link;
mod lists;
mod logger;
mod shown;
mod switches;
mod tool;
mod words;

#[cfg(feature = "compile-commands")]
pub mod compile_commands;
pub mod windows_registry;

pub use build::Build;
pub use error::Error;
pub use link::{emit_link_directives, try_emit_link_directives};
pub use logger::{BuildMessage, BuildMessageKind, BuildMessageLogger, CompileCommand};
pub use tool::Tool;
