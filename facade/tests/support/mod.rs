//! What the tests share: a room for files, the command, and the stand-in for compiler and archiver.
#![allow(dead_code)]

use std::path::{Path, PathBuf};
use std::process::{Command, Output};
use std::sync::atomic::{AtomicU32, Ordering};
use std::{env, fs};

pub const TRIPLE: &str = "x86_64-unknown-linux-gnu";

/// A folder of a test's own, which goes with it.
pub struct Room(PathBuf);

impl Room {
    pub fn new() -> Room {
        static COUNT: AtomicU32 = AtomicU32::new(0);
        let name = format!(
            "cc facade {} {}",
            std::process::id(),
            COUNT.fetch_add(1, Ordering::Relaxed)
        );
        let folder = env::temp_dir().join(name);
        fs::create_dir_all(&folder).unwrap();
        Room(folder)
    }

    pub fn path(&self, name: &str) -> PathBuf {
        self.0.join(name)
    }

    pub fn write(&self, name: &str, text: &str) -> PathBuf {
        let path = self.path(name);
        fs::create_dir_all(path.parent().unwrap()).unwrap();
        fs::write(&path, text).unwrap();
        path
    }

    pub fn read(&self, name: &str) -> String {
        fs::read_to_string(self.path(name)).unwrap_or_default()
    }

    /// A program of these lines of shell.
    pub fn program(&self, name: &str, lines: &str) -> PathBuf {
        use std::os::unix::fs::PermissionsExt;
        let path = self.write(name, &format!("#!/bin/sh\n{lines}\n"));
        fs::set_permissions(&path, fs::Permissions::from_mode(0o755)).unwrap();
        path
    }

    /// A command of the right version that else does these lines.
    pub fn command(&self, lines: &str) -> PathBuf {
        let version = concat!("cc_main 0.1.0, a port of cc ", env!("CARGO_PKG_VERSION"));
        self.program(
            "command",
            &format!("if test \"$1\" = --version; then echo '{version}'; exit 0; fi\n{lines}"),
        )
    }
}

impl Drop for Room {
    fn drop(&mut self) {
        let _ = fs::remove_dir_all(&self.0);
    }
}

fn named(variable: &str) -> PathBuf {
    env::var_os(variable)
        .unwrap_or_else(|| panic!("set {variable}, as tests/facade does"))
        .into()
}

/// The built command.
pub fn cc_main() -> PathBuf {
    named("CC_MAIN_BUILT")
}

/// The built stand-in for a compiler and an archiver.
pub fn shim() -> PathBuf {
    named("CC_SHIM_BUILT")
}

/// Runs a case of `examples/script.rs`, as Cargo runs a build script, in a room with two sources. The stand-in is compiler and archiver.
pub fn script(room: &Room, case: &str, variables: &[(&str, &Path)]) -> Output {
    room.write("src/a.c", "int a;\n");
    room.write("src/b b.c", "int b;\n");
    let mut folder = env::current_exe().unwrap();
    folder.pop();
    folder.set_file_name("examples");
    let mut command = Command::new(folder.join("script"));
    command.arg(case).current_dir(room.path(".")).env_clear();
    for name in ["PATH", "HOME", "TMPDIR"] {
        command.envs(env::var_os(name).map(|value| (name, value)));
    }
    command.envs([
        ("TARGET", TRIPLE),
        ("HOST", TRIPLE),
        ("OPT_LEVEL", "0"),
        ("DEBUG", "false"),
        ("NUM_JOBS", "2"),
    ]);
    command
        .env("OUT_DIR", room.path("out"))
        .env("CC_MAIN", cc_main());
    command
        .env("CC", shim())
        .env("CXX", shim())
        .env("AR", shim());
    command.envs(variables.iter().map(|(name, value)| (name, value)));
    command.output().unwrap()
}

/// The lines for Cargo of a script, but for those of variables.
pub fn cargo_lines(output: &Output) -> Vec<String> {
    let text = String::from_utf8(output.stdout.clone()).unwrap();
    let lines = text.lines().filter(|line| {
        line.starts_with("cargo:") && !line.starts_with("cargo:rerun-if-env-changed=")
    });
    lines.map(str::to_owned).collect()
}

pub fn heard(output: &Output) -> String {
    String::from_utf8_lossy(&output.stderr).into_owned()
}

/// The out dir of a room.
pub fn out(room: &Room) -> String {
    room.path("out").display().to_string()
}

/// The link lines of a library in a folder.
pub fn links(name: &str, folder: &str) -> Vec<String> {
    vec![
        format!("cargo:rustc-link-lib=static={name}"),
        format!("cargo:rustc-link-search=native={folder}"),
    ]
}

/// Asserts that a script ended with status 0.
#[track_caller]
pub fn done(output: &Output) {
    assert_eq!(output.status.code(), Some(0), "{}", heard(output));
}
