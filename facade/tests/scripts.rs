//! Whole build scripts by the built command, with the stand-in as compiler and archiver.
#![cfg(unix)]

mod support;

use std::fs;
use std::path::Path;
use support::{cargo_lines, done, heard, links, out, script, shim, Room};

// The members of a library, without the digits of their folders.
fn members(room: &Room, library: &str) -> Vec<String> {
    let text = room.read(library);
    text.lines()
        .map(|line| {
            line.rsplit_once('-')
                .map_or(line, |(_, name)| name)
                .to_owned()
        })
        .collect()
}

#[test]
fn a_library_is_built_and_linked() {
    let room = Room::new();
    let ran = script(&room, "compile", &[]);
    done(&ran);
    assert_eq!(cargo_lines(&ran), links("foo", &out(&room)));
    assert_eq!(members(&room, "out/libfoo.a"), ["a.o", "b b.o"]);
    let text = String::from_utf8(ran.stdout).unwrap();
    assert_eq!(
        text.matches("cargo:rerun-if-env-changed=CFLAGS\n").count(),
        1,
        "{text}"
    );
}

#[test]
fn a_name_is_that_of_the_file_too() {
    let room = Room::new();
    let ran = script(&room, "whole_name", &[]);
    done(&ran);
    assert_eq!(cargo_lines(&ran), links("foo", &out(&room)));
    assert_eq!(members(&room, "out/libfoo.a"), ["a.o", "b b.o"]);
}

#[test]
fn a_script_has_two_builds() {
    let room = Room::new();
    let ran = script(&room, "two_builds", &[]);
    done(&ran);
    assert_eq!(
        cargo_lines(&ran),
        [links("one", &out(&room)), links("two", "other")].concat()
    );
    assert_eq!(members(&room, "other/libtwo.a"), ["a.o"]);
}

#[test]
fn a_library_of_cpp_links_its_own() {
    let room = Room::new();
    let ran = script(&room, "cpp", &[]);
    done(&ran);
    let mut wanted = links("foo", &out(&room));
    wanted.push("cargo:rustc-link-lib=stdc++".into());
    assert_eq!(cargo_lines(&ran), wanted);
}

// A second mention of a library with modifiers is refused by rustc.
#[test]
fn a_static_library_of_cpp_and_a_variable_are_told_once() {
    let room = Room::new();
    let ran = script(&room, "once", &[]);
    done(&ran);
    let lines = cargo_lines(&ran);
    let beside = "cargo:rustc-link-lib=static:-bundle=stdc++";
    assert_eq!(
        lines.iter().filter(|line| *line == beside).count(),
        1,
        "{lines:?}"
    );
    assert_eq!(lines.len(), 5, "{lines:?}");
    let text = String::from_utf8(ran.stdout).unwrap();
    assert_eq!(
        text.matches("cargo:rerun-if-env-changed=CXXFLAGS\n")
            .count(),
        1,
        "{text}"
    );
}

#[test]
fn a_failing_compile_is_an_error_of_its_kind() {
    let room = Room::new();
    let ran = script(&room, "try_failing", &[]);
    done(&ran);
    let heard = heard(&ran);
    assert!(
        heard.starts_with(
            "ToolExecError: command did not execute successfully (status code exit status: 3): \""
        ),
        "{heard}"
    );
    assert_eq!(heard.lines().count(), 1, "{heard}");
    assert!(
        !cargo_lines(&ran)
            .iter()
            .any(|line| line.contains("rustc-link")),
        "{:?}",
        cargo_lines(&ran)
    );
    assert!(!room.path("out/libfoo.a").exists());
}

#[test]
fn a_call_that_ends_the_script_does_so_with_the_text_of_the_crate() {
    let room = Room::new();
    let ran = script(&room, "failing", &[]);
    assert_eq!(ran.status.code(), Some(1));
    let heard = heard(&ran);
    assert!(
        heard.starts_with(
            "\n\nerror occurred in cc-rs: command did not execute successfully (status code"
        ),
        "{heard:?}"
    );
    assert!(heard.ends_with("\n\n\n"), "{heard:?}");
    assert!(
        cargo_lines(&ran).contains(&"cargo:warning=it is wrong".to_owned()),
        "{:?}",
        cargo_lines(&ran)
    );
}

#[test]
fn errors_have_their_kinds() {
    let room = Room::new();
    for (case, beginning) in [
        (
            "missing_compiler",
            "ToolNotFound: failed to find tool \"no-such-compiler\"\n",
        ),
        (
            "bad_name",
            "InvalidArgument: argument must be a single normal path component\n",
        ),
        ("bad_word", "UnknownTarget: unknown target none-such\n"),
        (
            "expand_two",
            "InvalidArgument: Expand may only be called for a single file\n",
        ),
    ] {
        let ran = script(&room, case, &[]);
        done(&ran);
        assert_eq!(heard(&ran), beginning, "{case}");
    }
    let off = Path::new("1");
    assert!(
        heard(&script(&room, "try_compile", &[("CC_FORCE_DISABLE", off)]))
            .starts_with("Disabled: ")
    );
}

// The archive has the objects in the order given, and its lines stand behind what was printed in between.
#[test]
fn link_lines_of_an_archive_wait_until_they_are_asked_for() {
    let room = Room::new();
    let ran = script(&room, "steps", &[]);
    done(&ran);
    let mut wanted = vec!["cargo:warning=archived".to_owned()];
    wanted.extend(links("foo", &out(&room)));
    assert_eq!(cargo_lines(&ran), wanted);
    assert_eq!(members(&room, "out/libfoo.a"), ["b b.o", "a.o"]);
    let heard = heard(&ran);
    assert!(
        heard.contains(&format!("{}/libfoo.a\n", out(&room))),
        "{heard}"
    );
    let left: Vec<_> = fs::read_dir(room.path("out"))
        .unwrap()
        .map(|entry| entry.unwrap().file_name())
        .collect();
    assert_eq!(left.len(), 3, "two objects and the library: {left:?}");
}

#[test]
fn objects_are_told_as_the_out_dir_is() {
    let room = Room::new();
    let ran = script(&room, "relative", &[]);
    done(&ran);
    let heard = heard(&ran);
    assert!(
        heard.starts_with("[\"rel/") && heard.contains(", \"rel/"),
        "{heard}"
    );
    assert!(cargo_lines(&ran).is_empty());
}

#[test]
fn no_source_has_no_object() {
    let room = Room::new();
    let ran = script(&room, "no_source", &[]);
    done(&ran);
    assert_eq!(heard(&ran), "[]\n");
}

#[test]
fn a_source_is_expanded() {
    let room = Room::new();
    let ran = script(&room, "expand", &[]);
    done(&ran);
    assert_eq!(heard(&ran), "int a;\n");
    let text = String::from_utf8(ran.stdout).unwrap();
    assert!(
        text.contains("cargo:rerun-if-env-changed=CFLAGS\n") && !text.contains("int a;"),
        "{text}"
    );
}

#[test]
fn a_source_is_expanded_that_ends_within_a_line() {
    let room = Room::new();
    let command = room.command("echo cargo:rerun-if-env-changed=A; printf 'int a;\\ncar'");
    let ran = script(&room, "expand", &[("CC_MAIN", &command)]);
    done(&ran);
    assert_eq!(heard(&ran), "int a;\ncar");
}

// A flag that the target gives anyway is one that is taken.
#[test]
fn a_flag_is_supported_where_the_compiler_is_silent_and_done() {
    let room = Room::new();
    let ran = script(&room, "supported", &[]);
    done(&ran);
    let wanted =
        "-ffine true\n--shim-err=no false\n--shim-status=1 false\n-ffunction-sections true\n";
    assert_eq!(heard(&ran), wanted);
    // (one that a variable gives is not supported for that)
    let ran = script(
        &room,
        "supported",
        &[("CFLAGS", Path::new("--shim-status=1"))],
    );
    done(&ran);
    assert!(!heard(&ran).contains("true"), "{}", heard(&ran));
}

#[test]
fn flags_come_from_a_variable_and_those_of_target_and_host() {
    let room = Room::new();
    let variables = [
        ("MY_FLAGS", Path::new("-DA  -DB")),
        ("MY_FLAGS_x86_64_unknown_linux_gnu", Path::new("-DD")),
        ("HOST_MY_FLAGS", Path::new("-DC")),
        ("OTHER_FLAGS_x86_64-unknown-linux-gnu", Path::new("-DE")),
        ("RANLIBFLAGS", Path::new("-DNONE")),
    ];
    let ran = script(&room, "from_variable", &variables);
    done(&ran);
    let wanted = "EnvVarNotFound: could not find environment variable NONE_SUCH\ndone\ndone\n[\"-Wall\", \"-Wextra\", \"-DA\", \"-DB\", \"-DC\", \"-DD\", \"-DE\"]\n";
    assert_eq!(heard(&ran), wanted);
    let text = String::from_utf8(ran.stdout).unwrap();
    for name in ["NONE_SUCH", "MY_FLAGS", "HOST_MY_FLAGS"] {
        assert!(
            text.contains(&format!("cargo:rerun-if-env-changed={name}\n")),
            "{text}"
        );
    }
    assert!(!text.contains("RANLIBFLAGS"), "{text}");
}

#[test]
fn tools_are_shown() {
    let room = Room::new();
    let worded = format!("{} -m64", shim().display());
    let ran = script(
        &room,
        "tools",
        &[("CC", Path::new(&worded)), ("ARFLAGS", Path::new("-v"))],
    );
    done(&ran);
    let words = r#""-Wall", "-Wextra", "-DTEXT=\"a b\\n\"""#;
    let wanted = [
        format!(
            "{:?} [{words}] [(\"LC_ALL\", \"C\"), (\"X\", \"1=2\")]",
            shim()
        ),
        "gnu true clang false cl false".into(),
        format!("cc \"\" cflags {:?}", "-Wall -Wextra -DTEXT=\"a b\\n\""),
        format!("{:?}", shim()),
        "\"an index\"".into(),
    ];
    // (the stand-in says of no family that it is one, so that it counts as GNU's)
    let said: Vec<String> = heard(&ran).lines().map(str::to_owned).collect();
    assert_eq!(said, wanted);
}

#[test]
fn a_call_that_can_not_be_said_ends_the_script_and_is_named() {
    let room = Room::new();
    let custom = [
        ("CC_KNOWN_WRAPPER_CUSTOM", Path::new("wrap")),
        ("CC", Path::new("wrap cc -m64")),
    ];
    room.program("wrap", "exec \"$@\"");
    for case in [
        "cuda",
        "cudart",
        "ccbin",
        "message_logger",
        "env",
        "cpp_set_stdlib",
        "cpp_link_stdlib",
        "emit_link_directives",
        "changed",
    ] {
        let ran = script(&room, case, &[]);
        let heard = heard(&ran);
        assert_eq!(ran.status.code(), Some(101), "{case}: {heard}");
        let call = if case == "changed" {
            "emit_link_directives"
        } else {
            case
        };
        assert!(
            heard.lines().count() == 1 && heard.contains(call) && heard.contains("can't be said"),
            "{case}: {heard}"
        );
        assert!(
            !cargo_lines(&ran)
                .iter()
                .any(|line| line.contains("rustc-link")),
            "{case}"
        );
    }
    let ran = script(&room, "wrapped", &custom);
    assert_eq!(ran.status.code(), Some(101), "{}", heard(&ran));
    assert!(
        heard(&ran).starts_with("\"wrap\"\n`Tool::args` can't be said"),
        "{}",
        heard(&ran)
    );
}
