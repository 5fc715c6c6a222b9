//! The calls that ask something of the tools: the command shows them, and nothing is built.

use crate::build::Build;
use crate::command::{run, Request};
use crate::environment::{names_of, Environment};
use crate::error::{fail, Error, ErrorKind};
use crate::lines::rerun_name;
use crate::shown::Shown;
use crate::tool::Tool;
use crate::words::Words;
use std::ffi::OsStr;
use std::process::Command;

// A flag that nobody gives: what stands between two of it is what the command added there.
const MARK: &str = "-Dcc_facade_mark";

// What a flag is tried with: what finds the compiler, and what is told of that.
const PROBED: &[&str] = &[
    "compiler",
    "target",
    "host",
    "cpp",
    "env",
    "out_dir",
    "prefer_clang_cl_over_msvc",
    "cargo_warnings",
    "cargo_debug",
];

impl Build {
    /// The compiler of this build, with the words that come first.
    ///
    /// # Panics
    ///
    /// It ends the script (status 1) where [`try_get_compiler`](Build::try_get_compiler) refuses.
    pub fn get_compiler(&self) -> Tool {
        self.try_get_compiler().unwrap_or_else(|error| fail(&error))
    }

    /// The compiler of this build, with the words that come first.
    ///
    /// Refused as the command refuses to show the tools: `EnvVarNotFound`, `UnknownTarget`, `InvalidFlag` and others.
    pub fn try_get_compiler(&self) -> Result<Tool, Error> {
        let shown = self.shown(&self.words, &self.environment)?;
        self.tell_shown(&shown, &compiler_names(self, &shown))?;
        Ok(Tool::of(self, &shown, &names_in(&shown)))
    }

    /// The archiver of this build, with the words that come first.
    ///
    /// # Panics
    ///
    /// It ends the script (status 1) where [`try_get_archiver`](Build::try_get_archiver) refuses.
    pub fn get_archiver(&self) -> Command {
        self.try_get_archiver().unwrap_or_else(|error| fail(&error))
    }

    /// The archiver of this build, with the words that come first.
    ///
    /// Refused as [`try_get_compiler`](Build::try_get_compiler), since the command shows the tools together.
    pub fn try_get_archiver(&self) -> Result<Command, Error> {
        let shown = self.shown(&self.words, &self.environment)?;
        self.tell_shown(&shown, &names_of_these(self, &["AR", "ARFLAGS"], &shown))?;
        Ok(self.command_of(&shown.archiver))
    }

    /// The tool of this build that writes the index of a library, with the words that come first.
    ///
    /// # Panics
    ///
    /// It ends the script (status 1) where [`try_get_ranlib`](Build::try_get_ranlib) refuses.
    pub fn get_ranlib(&self) -> Command {
        self.try_get_ranlib().unwrap_or_else(|error| fail(&error))
    }

    /// The tool of this build that writes the index of a library, with the words that come first.
    ///
    /// Refused as [`try_get_compiler`](Build::try_get_compiler), since the command shows the tools together.
    pub fn try_get_ranlib(&self) -> Result<Command, Error> {
        let shown = self.shown(&self.words, &self.environment)?;
        self.tell_shown(
            &shown,
            &names_of_these(self, &["RANLIB", "RANLIBFLAGS"], &shown),
        )?;
        Ok(self.command_of(&shown.ranlib))
    }

    /// Whether the compiler takes a flag. The other flags of this build aren't given with it. A compiler that is missing takes none.
    ///
    /// Refused as [`try_get_compiler`](Build::try_get_compiler), and for a flag that isn't UTF-8 (`InvalidArgument`).
    pub fn is_flag_supported(&self, flag: impl AsRef<OsStr>) -> Result<bool, Error> {
        let flag = flag.as_ref();
        let mut words = self.words.only(PROBED);
        words.say("opt_level", "0");
        words.switch("debug", false);
        words.switch("inherit_rustflags", false);
        words.switch("inherit_trim_paths", false);
        words.say("flag", MARK);
        words.say("flag_if_supported", flag);
        words.say("flag", MARK);
        let shown = self.shown(&words, &self.environment)?;
        self.tell_shown(&shown, &compiler_names(self, &shown))?;
        let is_mark = |word: &String| word == MARK;
        let first = shown.compiler.iter().position(is_mark);
        let last = shown.compiler.iter().rposition(is_mark);
        Ok(first
            .zip(last)
            .is_some_and(|(first, last)| first + 1 < last))
    }

    /// Adds the flags of a variable, and of those that name target or host, split as the variables of flags are.
    ///
    /// Refused (`EnvVarNotFound`) where none of them is set, and as [`try_get_compiler`](Build::try_get_compiler).
    pub fn try_flags_from_environment(&mut self, environ_key: &str) -> Result<&mut Build, Error> {
        let names = names_of(environ_key, self.target_name());
        let stand_ins = names_of("RANLIBFLAGS", self.target_name());
        let shown = self.split_by_the_command(&names, &stand_ins)?;
        let told = names_in(&shown);
        let read = names
            .iter()
            .zip(&stand_ins)
            .filter(|(_, stand_in)| told.contains(&stand_in.as_str()));
        let mut read: Vec<&str> = read.map(|(name, _)| name.as_str()).collect();
        let any = read.iter().any(|name| self.environment.get(name).is_some());
        read.extend(
            told.iter()
                .filter(|name| any && **name == "CC_SHELL_ESCAPED_FLAGS"),
        );
        self.tell_names(&read)?;
        if !any {
            let message = format!("could not find environment variable {environ_key}");
            return Err(Error::new(ErrorKind::EnvVarNotFound, message));
        }
        Ok(self.flags(&shown.ranlib[1..]))
    }

    // Has the command split flags as those of ranlib: the variables are given to it under these names.
    fn split_by_the_command(&self, names: &[String], stand_ins: &[String]) -> Result<Shown, Error> {
        let is_stand_in = |name: &OsStr| stand_ins.iter().any(|stand_in| name == stand_in.as_str());
        let kept = self
            .environment
            .variables()
            .iter()
            .filter(|(name, _)| !is_stand_in(name))
            .cloned();
        let given = names.iter().zip(stand_ins);
        let given = given.filter_map(|(name, stand_in)| {
            Some((stand_in.into(), self.environment.get(name)?.to_owned()))
        });
        let environment = Environment::of(kept.chain(given));
        let words = self.words.only(&[
            "compiler",
            "target",
            "host",
            "cpp",
            "out_dir",
            "shell_escaped_flags",
        ]);
        self.shown(
            &words.and("opt_level", "0").and("ranlib", "ranlib"),
            &environment,
        )
    }

    // What the command shows for these words, with the lines of all variables that it read. It isn't asked again what it showed before.
    fn shown(&self, words: &Words, environment: &Environment) -> Result<Shown, Error> {
        let words = words
            .clone()
            .and("cargo_metadata", "true")
            .and("emit_rerun_if_env_changed", "true");
        if let Some(shown) = self.answers.find(&words, environment) {
            return Ok(shown);
        }
        let request = Request {
            first: &["show"],
            words: &words,
            environment,
        };
        let mut lines = Vec::new();
        let ran = run(&request, &mut |line| {
            lines.push(line.to_vec());
            Ok(())
        });
        if ran.is_err() {
            self.tell_rest(&lines)?;
        }
        ran?;
        let shown = Shown::read(lines)?;
        self.answers.keep(&words, environment, &shown);
        Ok(shown)
    }

    // Passes on what was printed before the tools, and of the variables those names.
    fn tell_shown(&self, shown: &Shown, names: &[&str]) -> Result<(), Error> {
        self.tell_rest(&shown.before)?;
        self.tell_names(names)
    }

    fn tell_names(&self, names: &[&str]) -> Result<(), Error> {
        if self.tells_names() {
            for name in names {
                self.told.tell_name(name)?;
            }
        }
        Ok(())
    }

    fn tell_rest(&self, lines: &[Vec<u8>]) -> Result<(), Error> {
        for line in lines.iter().filter(|line| rerun_name(line).is_none()) {
            self.told.tell(line)?;
        }
        Ok(())
    }

    fn command_of(&self, words: &[String]) -> Command {
        let (program, words) = words
            .split_first()
            .expect("a command that is shown has a program");
        let mut command = Command::new(program);
        command.args(words);
        self.environment.apply(&mut command);
        for word in self.words.values("env") {
            let text = word.to_string_lossy();
            let (name, value) = text.split_once('=').unwrap_or((&text, ""));
            command.env(name, value);
        }
        command
    }
}

fn names_in(shown: &Shown) -> Vec<&str> {
    shown
        .before
        .iter()
        .filter_map(|line| rerun_name(line))
        .collect()
}

// The names that one of these settings is looked up by.
fn names_of_these<'a>(build: &Build, settings: &[&str], shown: &'a Shown) -> Vec<&'a str> {
    let known = all_names(build, settings);
    names_in(shown)
        .into_iter()
        .filter(|name| known.iter().any(|it| it == name))
        .collect()
}

// The names that were read for the compiler. It was asked what it is, which is told where that variable says so.
fn compiler_names<'a>(build: &Build, shown: &'a Shown) -> Vec<&'a str> {
    let others = all_names(build, &["AR", "ARFLAGS", "RANLIB", "RANLIBFLAGS"]);
    let names = names_in(shown)
        .into_iter()
        .filter(|name| !others.iter().any(|it| it == name));
    names.chain(["CC_ENABLE_DEBUG_OUTPUT"]).collect()
}

fn all_names(build: &Build, settings: &[&str]) -> Vec<String> {
    settings
        .iter()
        .flat_map(|setting| names_of(setting, build.target_name()))
        .collect()
}
