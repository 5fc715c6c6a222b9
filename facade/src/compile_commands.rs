//! Collecting compile commands. It is here so that scripts compile: a collector is a logger, and a build that is given one ends the script.

use crate::logger::{BuildMessage, BuildMessageKind, BuildMessageLogger, CompileCommand};
use std::any::Any;
use std::fmt;
use std::path::Path;
use std::sync::mpsc::{self, Receiver, Sender};

/// A logger that sends each compile command that it hears to its [`CompileCommands`].
pub struct CompileCommandCollector {
    heard: Sender<CompileCommand>,
    next: Option<Box<dyn BuildMessageLogger>>,
}

impl CompileCommandCollector {
    /// A collector, and what it collects.
    pub fn new() -> (Self, CompileCommands) {
        let (heard, commands) = mpsc::channel();
        (Self { heard, next: None }, CompileCommands(commands))
    }

    /// The collector with a logger behind it, which hears each message too.
    pub fn forward_to(mut self, logger: Box<dyn BuildMessageLogger>) -> Self {
        self.next = Some(logger);
        self
    }
}

impl fmt::Debug for CompileCommandCollector {
    fn fmt(&self, f: &mut fmt::Formatter<'_>) -> fmt::Result {
        f.write_str("CompileCommandCollector(..)")
    }
}

impl BuildMessageLogger for CompileCommandCollector {
    fn log(&self, kind: BuildMessageKind, msg: BuildMessage<'_>, extra: &dyn Any) {
        if let Some(command) = extra.downcast_ref::<CompileCommand>() {
            // (nobody may want them any more)
            let _ = self.heard.send(command.clone());
        }
        if let Some(next) = &self.next {
            next.log(kind, msg, extra);
        }
    }
}

/// The compile commands that were collected so far; it waits for none.
#[derive(Debug)]
pub struct CompileCommands(Receiver<CompileCommand>);

impl Iterator for CompileCommands {
    type Item = CompileCommand;

    fn next(&mut self) -> Option<CompileCommand> {
        self.0.try_recv().ok()
    }
}

/// The text of a compilation database with an entry for each of these commands, in order.
#[must_use]
pub fn json_compilation_database(
    commands: impl IntoIterator<Item = CompileCommand>,
) -> impl fmt::Display {
    let entries: Vec<String> = commands
        .into_iter()
        .map(|command| entry(&command))
        .collect();
    match entries.is_empty() {
        true => "[\n]\n".to_owned(),
        false => format!("[\n{}\n]\n", entries.join(",\n")),
    }
}

fn entry(command: &CompileCommand) -> String {
    let words: Vec<String> = command
        .arguments()
        .map(|word| quoted(&word.to_string_lossy()))
        .collect();
    let path = |path: &Path| quoted(&path.to_string_lossy());
    format!(
        "  {{\n    \"directory\": {},\n    \"file\": {},\n    \"arguments\": [{}],\n    \"output\": {}\n  }}",
        path(command.directory()),
        path(command.file()),
        words.join(", "),
        path(command.output())
    )
}

fn quoted(text: &str) -> String {
    let mut line = String::from('"');
    for c in text.chars() {
        match c {
            '"' | '\\' => line.extend(['\\', c]),
            '\0'..='\u{1f}' => line.push_str(&format!("\\u{:04x}", u32::from(c))),
            _ => line.push(c),
        }
    }
    line.push('"');
    line
}
