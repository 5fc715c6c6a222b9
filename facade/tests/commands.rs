//! The command itself: where it is found, and what a script is answered where it is another, is killed, or prints something else.
#![cfg(unix)]

mod support;

use std::path::Path;
use std::time::{Duration, Instant};
use support::{cargo_lines, cc_main, done, heard, links, out, script, Room};

#[test]
fn a_command_that_is_missing_is_told_in_one_line() {
    let room = Room::new();
    let nowhere = room.path("nowhere");
    let ran = script(
        &room,
        "try_compile",
        &[("CC_MAIN", Path::new("")), ("PATH", &nowhere)],
    );
    assert_eq!(
        heard(&ran),
        "ToolNotFound: the command cc_main is not on the PATH: put its folder there, or set CC_MAIN to its path\n"
    );
    let ran = script(&room, "try_compile", &[("CC_MAIN", &nowhere)]);
    assert!(
        heard(&ran).starts_with("ToolNotFound: the command "),
        "{}",
        heard(&ran)
    );
    assert_eq!(heard(&ran).lines().count(), 1);
}

#[test]
fn the_command_is_found_on_the_path() {
    let room = Room::new();
    std::os::unix::fs::symlink(cc_main(), room.path("cc_main")).unwrap();
    let path = format!("{}:/usr/bin:/bin", room.path(".").display());
    let ran = script(
        &room,
        "compile",
        &[("CC_MAIN", Path::new("")), ("PATH", Path::new(&path))],
    );
    done(&ran);
    assert_eq!(cargo_lines(&ran), links("foo", &out(&room)));
}

// Runs `try_compile` by a command that does these lines of shell: no link line is told, and this is heard.
fn refused(lines: &str, beginning: &str) {
    let room = Room::new();
    let command = room.command(lines);
    let ran = script(&room, "try_compile", &[("CC_MAIN", &command)]);
    done(&ran);
    let heard = heard(&ran);
    assert!(
        heard.starts_with(beginning) && heard.lines().count() == 1,
        "{heard}"
    );
    assert!(
        !cargo_lines(&ran)
            .iter()
            .any(|line| line.contains("rustc-link")),
        "{:?}",
        cargo_lines(&ran)
    );
}

#[test]
fn a_command_of_another_version_is_refused() {
    for answer in [
        "echo 'cc_main 0.1.0, a port of cc 1.11.0'",
        "printf 'cc_main 0.1.0, a port of cc 1.11.1'",
        "exit 3",
        "echo 'cc_main 0.1.0, a port of cc 1.11.1'; exit 3",
        "kill -9 $$",
    ] {
        let room = Room::new();
        let command = room.program(
            "other",
            &format!("echo ran >>ran\n{answer}\necho cargo:rustc-link-lib=static=foo"),
        );
        let ran = script(&room, "try_twice", &[("CC_MAIN", &command)]);
        done(&ran);
        let heard = heard(&ran);
        assert!(
            heard.starts_with("ToolExecError: ")
                && heard.contains("is not the command of cc 1.11.1"),
            "{heard}"
        );
        assert!(
            cargo_lines(&ran).is_empty() && heard.lines().count() == 2,
            "{heard}"
        );
        assert_eq!(room.read("ran"), "ran\n", "the version is asked once");
    }
}

#[test]
fn the_version_is_asked_once() {
    let room = Room::new();
    let version = "cc_main 0.1.0, a port of cc 1.11.1";
    let command = room.program(
        "noted",
        &format!("echo \"$1\" >>ran\nif test \"$1\" = --version; then echo '{version}'; fi"),
    );
    done(&script(&room, "try_twice", &[("CC_MAIN", &command)]));
    assert_eq!(room.read("ran"), "--version\ncompile\ncompile\n");
}

#[test]
fn a_flag_is_asked_about_by_one_command() {
    let room = Room::new();
    let command = room.program(
        "noted",
        &format!("echo \"$1\" >>ran\nexec {:?} \"$@\"", cc_main()),
    );
    done(&script(&room, "supported", &[("CC_MAIN", &command)]));
    assert_eq!(room.read("ran"), "--version\nshow\nshow\nshow\nshow\n");
}

const LINES: &str =
    "echo cargo:rustc-link-lib=static=foo; echo cargo:rustc-link-search=native=out;";

#[test]
fn a_command_that_is_killed_tells_no_link_line() {
    refused(
        &format!("{LINES} kill -9 $$"),
        "ToolExecError: cc_main ended with signal: 9",
    );
}

#[test]
fn half_a_line_tells_no_link_line() {
    let cause = "ToolExecError: the output of cc_main ends within a line";
    refused(&format!("{LINES} printf cargo:rerun-if-env-cha"), cause);
    refused("printf cargo:rustc-link-lib=static=f", cause);
    refused("echo cargo:rustc-link-lib=static=foo; printf car", cause);
}

#[test]
fn another_end_is_an_error_with_its_cause() {
    refused(
        &format!("{LINES} exit 7"),
        "ToolExecError: cc_main ended with exit status: 7",
    );
    refused(
        &format!("{LINES} exit 1"),
        "ToolExecError: cc_main ended with exit status: 1",
    );
    refused(&format!("{LINES} exit 3"), "IOError: cc_main wants memory");
    refused(
        "echo 'word 2: no value' >&2; exit 2",
        "InvalidArgument: cc_main doesn't take its words: word 2: no value\n",
    );
    refused(
        &format!("{LINES} exit 2"),
        "ToolExecError: cc_main ended with exit status: 2",
    );
    refused(
        &format!("{LINES} echo 'error occurred in cc-rs: print failed: other' >&2; exit 1"),
        "IOError: print failed: other\n",
    );
}

// What a compiler's own tools print stays what it is, also where it ends within a line.
#[test]
fn other_output_is_passed_on_as_it_comes() {
    let room = Room::new();
    let command = room.command("printf 'one\\n\\000two'; printf 'three\\nca' >&2");
    let ran = script(&room, "compile", &[("CC_MAIN", &command)]);
    done(&ran);
    assert_eq!(
        (ran.stdout.as_slice(), heard(&ran).as_str()),
        (&b"one\n\0two"[..], "three\nca")
    );
}

#[test]
fn a_process_that_is_left_behind_is_not_waited_for() {
    let room = Room::new();
    let command = room.command(&format!("sleep 20 & {LINES}"));
    let began = Instant::now();
    let ran = script(&room, "compile", &[("CC_MAIN", &command)]);
    done(&ran);
    assert!(
        began.elapsed() < Duration::from_secs(10),
        "it was waited for"
    );
    assert_eq!(cargo_lines(&ran), links("foo", "out"));
}

#[test]
fn much_output_goes_through() {
    let room = Room::new();
    let command = room.command("yes cargo:warning=xxxxxxxxxxxxxxxx | head -n 50000; yes zzzzzzzzzzzzzz | head -n 50000 >&2");
    let ran = script(&room, "compile", &[("CC_MAIN", &command)]);
    done(&ran);
    assert_eq!(
        (cargo_lines(&ran).len(), heard(&ran).lines().count()),
        (50_000, 50_000)
    );
}
