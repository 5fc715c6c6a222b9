//! A compiler, as the command shows it.

use crate::build::Build;
use crate::environment::{names_of, Environment};
use crate::error::unsaid;
use crate::shown::{Shown, ToolFamily};
use std::ffi::{OsStr, OsString};
use std::path::{Path, PathBuf};
use std::process::Command;

/// A compiler with the words that come first, and the variables that it gets.
///
/// A compiler in a wrapper, as `CC="ccache gcc"`, is run as it is; a call that would take the two apart ends the script (status 101).
#[derive(Clone, Debug)]
pub struct Tool {
    family: ToolFamily,
    program: PathBuf,
    words: Vec<OsString>,
    // How many of the words stand behind the compiler in the variable that names it; none where it may be in a wrapper.
    lead: Option<usize>,
    variables: Vec<(OsString, OsString)>,
    environment: Environment,
}

// The names of wrappers, behind which a variable names the compiler.
const WRAPPERS: &[&str] = &[
    "ccache",
    "distcc",
    "sccache",
    "icecc",
    "cachepot",
    "buildcache",
    "kache",
];

impl Tool {
    /// The compiler that is shown for a build, for which these variables were read.
    pub(crate) fn of(build: &Build, shown: &Shown, read: &[&str]) -> Tool {
        let (program, words) = shown
            .compiler
            .split_first()
            .expect("a command that is shown has a program");
        let mut variables = vec![("LC_ALL".into(), "C".into())];
        for word in build.words.values("env") {
            variables.push(cut(word));
        }
        Tool {
            family: shown.family,
            program: program.into(),
            words: words.iter().map(OsString::from).collect(),
            lead: lead_of(build, program, read),
            variables,
            environment: build.environment.clone(),
        }
    }

    /// The compiler as a command that is ready to run, with its words and its variables.
    ///
    /// Of one for Visual Studio the variables aren't shown: the call ends the script (status 101).
    pub fn to_command(&self) -> Command {
        let mut command = Command::new(&self.program);
        command.args(&self.words);
        self.environment.apply(&mut command);
        command.envs(
            self.variables("Tool::to_command")
                .iter()
                .map(|(name, value)| (name, value)),
        );
        command
    }

    /// The compiler's program, which may be looked for on the `PATH`. In a wrapper it ends the script (status 101).
    pub fn path(&self) -> &Path {
        self.bare("Tool::path");
        &self.program
    }

    /// The words that come first. Behind a wrapper the call ends the script (status 101).
    pub fn args(&self) -> &[OsString] {
        let lead = self.bare("Tool::args");
        &self.words[lead..]
    }

    /// The variables that it gets beside those of the script, in order: of one name the last counts.
    ///
    /// Of one for Visual Studio they aren't shown: the call ends the script (status 101).
    pub fn get_envs(
        &self,
    ) -> impl ExactSizeIterator<Item = (&OsStr, &OsStr)> + DoubleEndedIterator {
        self.variables("Tool::get_envs")
            .iter()
            .map(|(name, value)| (name.as_os_str(), value.as_os_str()))
    }

    /// As [`get_envs`](Tool::get_envs), which has its place.
    #[deprecated = "`get_envs` has its place"]
    pub fn env(&self) -> &[(OsString, OsString)] {
        self.variables("Tool::env")
    }

    /// The wrapper with the compiler, as the variable `CC` has them: the empty text, since there is no wrapper. Behind one the call ends the
    /// script (status 101).
    pub fn cc_env(&self) -> OsString {
        self.bare("Tool::cc_env");
        OsString::new()
    }

    /// The words that come first, with a blank between, as the variable `CFLAGS` has them. Behind a wrapper the call ends the script
    /// (status 101).
    pub fn cflags_env(&self) -> OsString {
        let lead = self.bare("Tool::cflags_env");
        self.words[lead..].join(OsStr::new(" "))
    }

    /// Whether it takes the words of GCC.
    pub fn is_like_gnu(&self) -> bool {
        self.family == ToolFamily::Gnu
    }

    /// Whether it takes the words of Clang.
    pub fn is_like_clang(&self) -> bool {
        self.family == ToolFamily::Clang
    }

    /// Whether it takes the words of `cl.exe`.
    pub fn is_like_msvc(&self) -> bool {
        self.family == ToolFamily::Msvc
    }

    /// Whether it is Clang that takes the words of `cl.exe`. Of one that takes them it isn't shown: the call ends the script (status 101).
    pub fn is_like_clang_cl(&self) -> bool {
        if self.is_like_msvc() {
            unsaid(
                "Tool::is_like_clang_cl",
                "it doesn't show which compiler for Visual Studio this is",
            );
        }
        false
    }

    fn variables(&self, call: &str) -> &[(OsString, OsString)] {
        if self.is_like_msvc() {
            unsaid(
                call,
                "it doesn't show the variables of a compiler for Visual Studio",
            );
        }
        &self.variables
    }

    fn bare(&self, call: &str) -> usize {
        match self.lead {
            Some(lead) => lead,
            None => unsaid(call, "it doesn't show a compiler apart from its wrapper"),
        }
    }
}

// A variable of `K=V`.
fn cut(word: &OsStr) -> (OsString, OsString) {
    let text = word.to_string_lossy();
    let (name, value) = text.split_once('=').unwrap_or((&text, ""));
    (name.into(), value.into())
}

// How many words the variable that names the compiler has behind it, where there is no wrapper.
fn lead_of(build: &Build, program: &str, read: &[&str]) -> Option<usize> {
    let environment = &build.environment;
    if build.words.last("compiler").is_some() {
        return Some(0);
    }
    let setting = if build.words.last("cpp") == Some(OsStr::new("true")) {
        "CXX"
    } else {
        "CC"
    };
    let names = names_of(setting, build.target_name());
    let read = names.iter().filter(|name| read.contains(&name.as_str()));
    let value = read
        .filter_map(|name| environment.get(name))
        .next()
        .map(OsStr::to_string_lossy)
        .unwrap_or_default();
    let value = value.trim();
    let words: Vec<&str> = if value == program {
        vec![value]
    } else {
        value.split_whitespace().collect()
    };
    let in_wrapper = environment
        .get("RUSTC_WRAPPER")
        .is_some_and(|wrapper| wrapper == program);
    match words.as_slice() {
        [] => (!in_wrapper).then_some(0),
        [first, behind @ ..] => {
            let fits = *first == program && !in_wrapper && !is_wrapper(environment, first);
            fits.then_some(behind.len())
        }
    }
}

fn is_wrapper(environment: &Environment, program: &str) -> bool {
    let stem = Path::new(program)
        .file_stem()
        .and_then(OsStr::to_str)
        .unwrap_or("");
    let own = environment
        .get("CC_KNOWN_WRAPPER_CUSTOM")
        .and_then(OsStr::to_str);
    WRAPPERS
        .iter()
        .copied()
        .chain(own)
        .any(|name| name.eq_ignore_ascii_case(stem))
}
