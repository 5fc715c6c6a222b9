//! Build scripts that the tests run, one a case: each prints what it was answered on standard error.

use cc::Build;
use std::env;
use std::sync::Arc;

struct Deaf;

impl cc::BuildMessageLogger for Deaf {
    fn log(&self, _: cc::BuildMessageKind, _: cc::BuildMessage<'_>, _: &dyn std::any::Any) {}
}

fn two() -> Build {
    let mut build = Build::new();
    build.file("src/a.c").file("src/b b.c");
    build
}

fn told<T>(answer: Result<T, cc::Error>) {
    match answer {
        Ok(_) => eprintln!("done"),
        Err(error) => eprintln!("{error}"),
    }
}

fn main() {
    let case = env::args().nth(1).expect("a case");
    match case.as_str() {
        "compile" => two().compile("foo"),
        "try_compile" => told(two().try_compile("foo")),
        "try_twice" => {
            told(two().try_compile("foo"));
            told(two().try_compile("foo"));
        }
        "whole_name" => two().compile("libfoo.a"),
        "two_builds" => {
            two().compile("one");
            Build::new().file("src/a.c").out_dir("other").compile("two");
        }
        "cpp" => two().cpp(true).compile("foo"),
        "failing" => two()
            .flag("--shim-err=it is wrong")
            .flag("--shim-status=3")
            .compile("foo"),
        "try_failing" => told(two().flag("--shim-status=3").try_compile("foo")),
        "missing_compiler" => told(two().compiler("no-such-compiler").try_compile("foo")),
        "bad_name" => told(two().try_compile("a/b")),
        "bad_word" => told(
            Build::new()
                .target("none-such")
                .file("src/a.c")
                .try_compile("foo"),
        ),
        "steps" => {
            let build = two();
            let objects = build.compile_intermediates();
            eprintln!("{objects:?}");
            let library = build.create_archive("foo", objects.iter().rev());
            eprintln!("{}", library.display());
            println!("cargo:warning=archived");
            cc::emit_link_directives(&build, &library);
        }
        "no_source" => eprintln!("{:?}", Build::new().compile_intermediates()),
        "relative" => eprintln!("{:?}", two().out_dir("rel").compile_intermediates()),
        "once" => {
            let mut build = two();
            build.cpp(true).cpp_link_stdlib_static(true).compile("one");
            build.clone().compile("two");
        }
        "expand" => {
            let source = Build::new().file("src/a.c").expand();
            eprint!("{}", String::from_utf8(source).unwrap());
        }
        "expand_two" => told(two().try_expand()),
        "supported" => {
            let build = two();
            for flag in [
                "-ffine",
                "--shim-err=no",
                "--shim-status=1",
                "-ffunction-sections",
            ] {
                eprintln!("{flag} {}", build.is_flag_supported(flag).unwrap());
            }
        }
        "from_variable" => {
            let mut build = two();
            told(build.try_flags_from_environment("NONE_SUCH").map(drop));
            told(build.try_flags_from_environment("MY_FLAGS").map(drop));
            told(build.try_flags_from_environment("OTHER_FLAGS").map(drop));
            build.no_default_flags(true);
            eprintln!("{:?}", build.get_compiler().args());
        }
        "tools" => {
            let mut build = two();
            build
                .define("TEXT", "\"a b\\n\"")
                .env("X", "1=2")
                .no_default_flags(true);
            let tool = build.get_compiler();
            eprintln!(
                "{:?} {:?} {:?}",
                tool.path(),
                tool.args(),
                tool.get_envs().collect::<Vec<_>>()
            );
            eprintln!(
                "gnu {} clang {} cl {}",
                tool.is_like_gnu(),
                tool.is_like_clang(),
                tool.is_like_msvc()
            );
            eprintln!("cc {:?} cflags {:?}", tool.cc_env(), tool.cflags_env());
            eprintln!("{:?}", build.get_archiver().get_program());
            eprintln!("{:?}", build.ranlib("an index").get_ranlib().get_program());
        }
        "wrapped" => {
            let tool = two().get_compiler();
            eprintln!("{:?}", tool.to_command().get_program());
            tool.args();
        }
        "cuda" => drop(two().cuda(false).cuda(true)),
        "cudart" => drop(two().cudart("shared")),
        "ccbin" => drop(two().ccbin(false)),
        "message_logger" => drop(
            two()
                .message_logger(None)
                .message_logger(Some(Arc::new(Deaf))),
        ),
        "env" => drop(two().env("A=B", "c")),
        "cpp_set_stdlib" => drop(two().cpp_set_stdlib(None).cpp_set_stdlib("")),
        "cpp_link_stdlib" => drop(two().cpp_link_stdlib("")),
        "emit_link_directives" => cc::emit_link_directives(&two(), "out/libother.a"),
        "changed" => {
            let mut build = two();
            let objects = build.compile_intermediates();
            let library = build.create_archive("foo", objects);
            build.link_lib_modifier("+whole-archive");
            cc::emit_link_directives(&build, &library);
        }
        _ => panic!("no such case"),
    }
}
