//! The words that the setters say, as a command in front of the built one notes them.
#![cfg(unix)]

mod support;

use cc::Build;
use std::ffi::OsStr;
use std::os::unix::ffi::OsStrExt;
use std::path::Path;
use std::sync::OnceLock;
use std::{env, fs};
use support::{cc_main, shim, Room, TRIPLE};

// Notes each word behind a NUL in the file that the variable `NOTED` names, and runs the built command.
fn note_words() {
    static NOTER: OnceLock<Room> = OnceLock::new();
    NOTER.get_or_init(|| {
        let room = Room::new();
        let lines =
            "test -z \"$NOTED\" || { printf '%s\\0' \"$@\" >>\"$NOTED\"; env >\"$NOTED.env\"; }\nexec \"$BUILT\" \"$@\"";
        env::set_var("CC_MAIN", room.command(lines));
        room
    });
}

const SET: [&str; 8] = [
    "target=x86_64-unknown-linux-gnu",
    "host=x86_64-unknown-linux-gnu",
    "opt_level=0",
    "cargo_metadata=false",
    "compiler=",
    "archiver=",
    "out_dir=",
    "file=",
];

// A build of one source by the stand-in, with eight words.
fn build(room: &Room) -> Build {
    note_words();
    let source = room.write("a.c", "int a;\n");
    let mut build = Build::new();
    let path = env::var_os("PATH").unwrap();
    build.set_envs_snapshot([
        ("PATH", path.as_os_str()),
        ("NOTED", room.path("noted").as_os_str()),
        ("BUILT", cc_main().as_os_str()),
    ]);
    build
        .target(TRIPLE)
        .host(TRIPLE)
        .opt_level(0)
        .cargo_metadata(false);
    build
        .compiler(shim())
        .archiver(shim())
        .out_dir(room.path("out"))
        .file(source);
    build
}

// The words of the last run behind the eight.
fn noted(room: &Room) -> Vec<String> {
    let text = room.read("noted");
    let words: Vec<&str> = text.split_terminator('\0').collect();
    let from = words
        .iter()
        .rposition(|word| *word == "compile")
        .expect("a run");
    let words = &words[from + 2..];
    for (word, set) in words.iter().zip(SET) {
        assert!(word.starts_with(set), "{words:?}");
    }
    words[SET.len()..]
        .iter()
        .map(|word| word.to_string())
        .collect()
}

type Setter = fn(&mut Build) -> &mut Build;

#[allow(deprecated)]
const SETTERS: &[(Setter, &str)] = &[
    (|it| it.object("a/o.o"), "object=a/o.o"),
    (|it| it.include("in clude"), "include=in clude"),
    (|it| it.define("A", None), "define=A"),
    (|it| it.define("A", ""), "define=A="),
    (|it| it.define("A", "b=c"), "define=A=b=c"),
    (|it| it.flag("-DX"), "flag=-DX"),
    (|it| it.flag_if_supported("-fa"), "flag_if_supported=-fa"),
    (|it| it.remove_flag("-DX"), "remove_flag=-DX"),
    (|it| it.asm_flag("-a"), "asm_flag=-a"),
    (|it| it.ar_flag("-v"), "ar_flag=-v"),
    (
        |it| it.link_lib_modifier("-bundle"),
        "link_lib_modifier=-bundle",
    ),
    (|it| it.env("A", "1=2"), "env=A=1=2"),
    (|it| it.__set_env("A", ""), "env=A="),
    (
        |it| it.remap_source_path("/a", "/b=c"),
        "remap_source_path=/a=/b=c",
    ),
    (|it| it.source_root("/a"), "source_root=/a"),
    (
        |it| it.target("x86_64-unknown-linux-musl"),
        "target=x86_64-unknown-linux-musl",
    ),
    (
        |it| it.host("aarch64-unknown-linux-gnu"),
        "host=aarch64-unknown-linux-gnu",
    ),
    (|it| it.ranlib("ran lib"), "ranlib=ran lib"),
    (|it| it.opt_level(3), "opt_level=3"),
    (|it| it.opt_level_str("z"), "opt_level_str=z"),
    (|it| it.debug(true), "debug=true"),
    (
        |it| it.debug_str("line-tables-only"),
        "debug_str=line-tables-only",
    ),
    (|it| it.std("c11"), "std=c11"),
    (|it| it.cpp_set_stdlib("c++"), "cpp_set_stdlib=c++"),
    (|it| it.cpp_set_stdlib(None), "cpp_set_stdlib="),
    (|it| it.cpp_link_stdlib("c++"), "cpp_link_stdlib=c++"),
    (|it| it.cpp_link_stdlib(None), "cpp_link_stdlib="),
    (|it| it.cpp(true), "cpp=true"),
    (
        |it| it.cpp_link_stdlib_static(true),
        "cpp_link_stdlib_static=true",
    ),
    (|it| it.pic(false), "pic=false"),
    (|it| it.use_plt(false), "use_plt=false"),
    (|it| it.static_crt(true), "static_crt=true"),
    (|it| it.shared_flag(true), "shared_flag=true"),
    (|it| it.static_flag(true), "static_flag=true"),
    (|it| it.warnings(false), "warnings=false"),
    (|it| it.extra_warnings(true), "extra_warnings=true"),
    (
        |it| it.warnings_into_errors(true),
        "warnings_into_errors=true",
    ),
    (|it| it.no_default_flags(true), "no_default_flags=true"),
    (
        |it| it.reproducible_codeview(true),
        "reproducible_codeview=true",
    ),
    (
        |it| it.shell_escaped_flags(true),
        "shell_escaped_flags=true",
    ),
    (
        |it| it.force_frame_pointer(true),
        "force_frame_pointer=true",
    ),
    (|it| it.inherit_rustflags(false), "inherit_rustflags=false"),
    (
        |it| it.inherit_trim_paths(false),
        "inherit_trim_paths=false",
    ),
    (
        |it| it.prefer_clang_cl_over_msvc(true),
        "prefer_clang_cl_over_msvc=true",
    ),
    (|it| it.cargo_metadata(false), "cargo_metadata=false"),
    (|it| it.cargo_warnings(false), "cargo_warnings=false"),
    (|it| it.cargo_debug(false), "cargo_debug=false"),
    (|it| it.cargo_output(false), "cargo_output=false"),
    (
        |it| it.emit_rerun_if_env_changed(false),
        "emit_rerun_if_env_changed=false",
    ),
];

// The command takes each of them, too.
#[test]
fn each_setter_says_its_word() {
    let room = Room::new();
    room.write("a/o.o", "");
    for (set, word) in SETTERS {
        let mut build = build(&room);
        set(&mut build)
            .try_compile("foo")
            .unwrap_or_else(|error| panic!("{word}: {error}"));
        assert_eq!(noted(&room), [*word]);
    }
}

#[test]
fn setters_of_several_say_a_word_for_each() {
    let room = Room::new();
    let sources = [room.write("b.c", ""), room.write("c.c", "")];
    let mut build = build(&room);
    build
        .files(&sources)
        .objects(["1.o", "2.o"])
        .includes([Path::new("i"), Path::new("j")])
        .flags(["-DA", "-DB"]);
    build.try_compile("foo").unwrap();
    let words = noted(&room);
    assert_eq!(
        words[2..],
        [
            "object=1.o",
            "object=2.o",
            "include=i",
            "include=j",
            "flag=-DA",
            "flag=-DB"
        ]
    );
    assert!(
        words[0].ends_with("b.c") && words[1].ends_with("c.c"),
        "{words:?}"
    );
    let files: Vec<&Path> = build.get_files().collect();
    assert_eq!(
        files[1..],
        sources.iter().map(|it| it.as_path()).collect::<Vec<_>>()
    );
}

#[test]
fn words_stand_in_the_order_of_the_calls() {
    let room = Room::new();
    let mut build = build(&room);
    build
        .flag("-DA")
        .flag("-DB")
        .remove_flag("-DA")
        .opt_level_str("s")
        .flag("-DA")
        .opt_level(1);
    build.try_compile("foo").unwrap();
    assert_eq!(
        noted(&room),
        [
            "flag=-DA",
            "flag=-DB",
            "remove_flag=-DA",
            "opt_level_str=s",
            "flag=-DA",
            "opt_level=1"
        ]
    );
}

// The words of the compile command, as the stand-in notes them in the object.
fn compiled(room: &Room) -> String {
    let entries = fs::read_dir(room.path("out"))
        .unwrap()
        .map(|entry| entry.unwrap().path());
    let object = entries
        .into_iter()
        .find(|path| path.extension() == Some(OsStr::new("o")))
        .expect("an object");
    fs::read_to_string(object).unwrap()
}

#[test]
fn texts_reach_the_compiler_as_they_are() {
    let room = Room::new();
    for text in [
        "a=b=c",
        " two  blanks ",
        "\"quoted\" 'twice' \\",
        "line\nfeed\n",
        "é ö 漢",
        "$HOME `x` *",
        "",
    ] {
        let mut build = build(&room);
        build
            .flag(text)
            .define("TEXT", text)
            .try_compile("foo")
            .unwrap();
        assert_eq!(
            noted(&room),
            [format!("flag={text}"), format!("define=TEXT={text}")]
        );
        let words = compiled(&room);
        assert!(
            words.contains(&format!("\n{text}\n-DTEXT={text}\n")),
            "{text:?}: {words}"
        );
    }
}

#[test]
fn a_text_that_is_not_utf8_is_refused_by_the_call_that_builds() {
    let room = Room::new();
    let odd = OsStr::from_bytes(b"-D\xff");
    let mut build = build(&room);
    let error = build.flag(odd).try_compile("foo").unwrap_err().to_string();
    assert_eq!(
        error,
        r#"InvalidArgument: `flag` was given "-D\xFF", which is not UTF-8"#
    );
    assert_eq!(room.read("noted"), "", "the command ran");
    assert!(
        build.try_get_compiler().is_err()
            && build.try_expand().is_err()
            && build.is_flag_supported(odd).is_err()
    );
    assert!(
        build.try_compile_intermediates().is_err()
            && build.try_create_archive("foo", ["a"]).is_err()
    );
}

#[test]
fn a_nul_is_refused_by_the_call_that_builds() {
    let room = Room::new();
    let error = build(&room)
        .flag("a\0b")
        .try_compile("foo")
        .unwrap_err()
        .to_string();
    assert!(error.contains("nul byte"), "{error}");
}

#[test]
fn a_clone_goes_its_own_way() {
    let room = Room::new();
    let mut first = build(&room);
    first.flag("-DA");
    let mut second = first.clone();
    second.flag("-DB");
    first.flag("-DC").try_compile("foo").unwrap();
    assert_eq!(noted(&room), ["flag=-DA", "flag=-DC"]);
    second.try_compile("foo").unwrap();
    assert_eq!(noted(&room), ["flag=-DA", "flag=-DB"]);
}

// Those of the call come first, and behind them those of the build.
#[test]
fn an_archive_has_the_objects_of_the_call_and_then_the_added_ones() {
    let room = Room::new();
    let mut build = build(&room);
    let library = room.path("out/libfoo.a");
    assert_eq!(build.try_compile_intermediates().unwrap().len(), 1);
    build.object("added.o");
    for name in ["foo", "libfoo.a"] {
        let made = build.try_create_archive(name, ["1.o", "2.o"]).unwrap();
        assert_eq!(made, library);
        assert_eq!(fs::read_to_string(&library).unwrap(), "1.o\n2.o\nadded.o\n");
        fs::remove_file(&library).unwrap();
    }
}

#[test]
fn a_snapshot_stands_in_place_of_the_variables_of_the_script() {
    let room = Room::new();
    let mut build = build(&room);
    env::set_var("LEFT_OUT", "1");
    let noted = room.path("noted");
    let variables = [("PATH", "/bin"), ("PATH", "/usr/bin:/bin"), ("A", "1=2")];
    let ours = [("NOTED", noted.to_str().unwrap()), ("BUILT", "/bin/true")];
    build.set_envs_snapshot(variables.into_iter().chain(ours));
    build.try_compile("foo").unwrap();
    let text = room.read("noted.env");
    let names = text
        .lines()
        .filter_map(|line| line.split_once('='))
        .map(|(name, _)| name);
    let mut names: Vec<&str> = names
        .filter(|name| !["PWD", "OLDPWD", "SHLVL", "_"].contains(name))
        .collect();
    names.sort_unstable();
    assert_eq!(names, ["A", "BUILT", "NOTED", "PATH"]);
    assert!(
        text.contains("PATH=/usr/bin:/bin\n") && text.contains("A=1=2\n"),
        "{text}"
    );
}

#[test]
#[should_panic(expected = "the first path has a '='")]
fn a_path_with_an_equals_sign_is_remapped_by_none() {
    Build::new().remap_source_path("a=b", "c");
}

#[test]
fn builds_go_to_other_threads() {
    fn takes<
        T: Send
            + Sync
            + Clone
            + std::fmt::Debug
            + Default
            + std::panic::UnwindSafe
            + std::panic::RefUnwindSafe,
    >() {
    }
    takes::<Build>();
    fn error<T: Send + Sync + Clone + std::error::Error + 'static>() {}
    error::<cc::Error>();
}
