//! The setters of which the last call counts.

use crate::build::Build;
use crate::error::unsaid;
use crate::logger::BuildMessageLogger;
use std::path::Path;
use std::sync::Arc;

impl Build {
    /// The target, as rustc names it; else the variable `TARGET` is it.
    pub fn target(&mut self, target: &str) -> &mut Build {
        self.say("target", target)
    }

    /// The machine that compiles, as rustc names it; else the variable `HOST` is it.
    pub fn host(&mut self, host: &str) -> &mut Build {
        self.say("host", host)
    }

    /// The folder of objects and library; else the variable `OUT_DIR` is it. The empty path is refused (`InvalidArgument`).
    pub fn out_dir<P: AsRef<Path>>(&mut self, folder: P) -> &mut Build {
        self.say("out_dir", folder.as_ref())
    }

    /// The folder that folders of sources count from in the names of objects.
    pub fn source_root<P: AsRef<Path>>(&mut self, folder: P) -> &mut Build {
        self.say("source_root", folder.as_ref())
    }

    /// The compiler's program; else variables and the target tell it.
    pub fn compiler<P: AsRef<Path>>(&mut self, program: P) -> &mut Build {
        self.say("compiler", program.as_ref())
    }

    /// The archiver's program; else variables and the target tell it.
    pub fn archiver<P: AsRef<Path>>(&mut self, program: P) -> &mut Build {
        self.say("archiver", program.as_ref())
    }

    /// The program that writes the index of a library; else variables and the target tell it.
    pub fn ranlib<P: AsRef<Path>>(&mut self, program: P) -> &mut Build {
        self.say("ranlib", program.as_ref())
    }

    /// The optimisation level as a number; else the variable `OPT_LEVEL` is it.
    pub fn opt_level(&mut self, level: u32) -> &mut Build {
        self.say("opt_level", level.to_string())
    }

    /// The optimisation level as a text, as `z`.
    pub fn opt_level_str(&mut self, level: &str) -> &mut Build {
        self.say("opt_level_str", level)
    }

    /// Whether there is debug information; else the variable `DEBUG` says it.
    pub fn debug(&mut self, on: bool) -> &mut Build {
        self.switch("debug", on)
    }

    /// How much debug information there is, as Cargo's profiles name it.
    pub fn debug_str(&mut self, level: &str) -> &mut Build {
        self.say("debug_str", level)
    }

    /// The standard of the language, as `c11`.
    pub fn std(&mut self, standard: &str) -> &mut Build {
        self.say("std", standard)
    }

    /// Whether the sources are C++, so that the C++ compiler compiles them and its library is linked.
    pub fn cpp(&mut self, on: bool) -> &mut Build {
        self.switch("cpp", on)
    }

    /// The C++ library that the compiler is told of, and that Cargo links; none by `None`.
    ///
    /// The empty name can't be said and ends the script (status 101).
    pub fn cpp_set_stdlib<'a, V: Into<Option<&'a str>>>(&mut self, name: V) -> &mut Build {
        self.say_library("cpp_set_stdlib", "Build::cpp_set_stdlib", name.into())
    }

    /// The C++ library that Cargo links alone; none by `None`.
    ///
    /// The empty name can't be said and ends the script (status 101).
    pub fn cpp_link_stdlib<'a, V: Into<Option<&'a str>>>(&mut self, name: V) -> &mut Build {
        self.say_library("cpp_link_stdlib", "Build::cpp_link_stdlib", name.into())
    }

    fn say_library(&mut self, key: &'static str, call: &str, name: Option<&str>) -> &mut Build {
        if name == Some("") {
            unsaid(call, "the name is empty");
        }
        self.say(key, name.unwrap_or(""))
    }

    /// Whether the C++ library is linked as a static one.
    pub fn cpp_link_stdlib_static(&mut self, on: bool) -> &mut Build {
        self.switch("cpp_link_stdlib_static", on)
    }

    /// Whether the objects are independent of their place; else the target says it.
    pub fn pic(&mut self, on: bool) -> &mut Build {
        self.switch("pic", on)
    }

    /// Whether calls go through the table of procedures.
    pub fn use_plt(&mut self, on: bool) -> &mut Build {
        self.switch("use_plt", on)
    }

    /// Whether the C runtime is linked as a static one, for targets of Visual Studio.
    pub fn static_crt(&mut self, on: bool) -> &mut Build {
        self.switch("static_crt", on)
    }

    /// Whether the compiler gets its flag for a shared library.
    #[deprecated = "the library is a static one, so that this does nothing of use"]
    pub fn shared_flag(&mut self, on: bool) -> &mut Build {
        self.switch("shared_flag", on)
    }

    /// Whether the compiler gets its flag for a static program.
    #[deprecated = "the library is a static one, so that this does nothing of use"]
    pub fn static_flag(&mut self, on: bool) -> &mut Build {
        self.switch("static_flag", on)
    }

    /// Whether the compiler warns, of the extra things too.
    pub fn warnings(&mut self, on: bool) -> &mut Build {
        self.switch("warnings", on)
    }

    /// Whether the compiler warns of the extra things.
    pub fn extra_warnings(&mut self, on: bool) -> &mut Build {
        self.switch("extra_warnings", on)
    }

    /// Whether a warning fails the compile.
    pub fn warnings_into_errors(&mut self, on: bool) -> &mut Build {
        self.switch("warnings_into_errors", on)
    }

    /// Whether the compiler gets none of the flags that target and level give.
    pub fn no_default_flags(&mut self, on: bool) -> &mut Build {
        self.switch("no_default_flags", on)
    }

    /// Whether objects of Clang for Visual Studio are the same in each folder.
    pub fn reproducible_codeview(&mut self, on: bool) -> &mut Build {
        self.switch("reproducible_codeview", on)
    }

    /// Whether variables of flags are split as a shell does.
    pub fn shell_escaped_flags(&mut self, on: bool) -> &mut Build {
        self.switch("shell_escaped_flags", on)
    }

    /// Whether frame pointers are kept.
    pub fn force_frame_pointer(&mut self, on: bool) -> &mut Build {
        self.switch("force_frame_pointer", on)
    }

    /// Whether the flags of Rust code are said to the compiler too, as far as it takes them.
    pub fn inherit_rustflags(&mut self, on: bool) -> &mut Build {
        self.switch("inherit_rustflags", on)
    }

    /// Whether paths are told as Cargo's profile asks for.
    pub fn inherit_trim_paths(&mut self, on: bool) -> &mut Build {
        self.switch("inherit_trim_paths", on)
    }

    /// Whether Clang compiles for Visual Studio.
    pub fn prefer_clang_cl_over_msvc(&mut self, on: bool) -> &mut Build {
        self.switch("prefer_clang_cl_over_msvc", on)
    }

    /// Whether Cargo is told how to link the library, and of the variables that were read.
    pub fn cargo_metadata(&mut self, on: bool) -> &mut Build {
        self.switch("cargo_metadata", on)
    }

    /// Whether what compilers say on standard error is told as warnings.
    pub fn cargo_warnings(&mut self, on: bool) -> &mut Build {
        self.switch("cargo_warnings", on)
    }

    /// Whether each command is told before it runs, and how it ended.
    pub fn cargo_debug(&mut self, on: bool) -> &mut Build {
        self.switch("cargo_debug", on)
    }

    /// Whether what tools print on standard output is passed on.
    pub fn cargo_output(&mut self, on: bool) -> &mut Build {
        self.switch("cargo_output", on)
    }

    /// Whether Cargo is told of the variables that were read, so that it runs the script again where one changes.
    pub fn emit_rerun_if_env_changed(&mut self, on: bool) -> &mut Build {
        self.switch("emit_rerun_if_env_changed", on)
    }

    /// CUDA, which can't be said: `true` ends the script (status 101).
    pub fn cuda(&mut self, on: bool) -> &mut Build {
        if on {
            unsaid("Build::cuda", "it has no CUDA");
        }
        self
    }

    /// The runtime of CUDA, which can't be said: the call ends the script (status 101).
    pub fn cudart(&mut self, _name: &str) -> &mut Build {
        unsaid("Build::cudart", "it has no CUDA")
    }

    /// The compiler behind that of CUDA, which can't be said: the call ends the script (status 101).
    pub fn ccbin(&mut self, _on: bool) -> &mut Build {
        unsaid("Build::ccbin", "it has no CUDA")
    }

    /// A logger, which can't be said: one that is set ends the script (status 101).
    pub fn message_logger(&mut self, logger: Option<Arc<dyn BuildMessageLogger>>) -> &mut Build {
        if logger.is_some() {
            unsaid("Build::message_logger", "its messages reach no logger");
        }
        self
    }
}
