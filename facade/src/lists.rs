//! The setters that add something to a list, each with a form for several.

use crate::build::Build;
use crate::error::unsaid;
use std::ffi::OsStr;
use std::path::Path;

impl Build {
    /// Adds a source, which is compiled by its extension as C, C++ or assembly.
    pub fn file<P: AsRef<Path>>(&mut self, path: P) -> &mut Build {
        self.say("file", path.as_ref())
    }

    /// Adds these sources, in order.
    pub fn files<P>(&mut self, paths: P) -> &mut Build
    where
        P: IntoIterator,
        P::Item: AsRef<Path>,
    {
        for path in paths {
            self.file(path);
        }
        self
    }

    /// Adds an object that was made elsewhere, which the library gets behind those of the sources.
    pub fn object<P: AsRef<Path>>(&mut self, path: P) -> &mut Build {
        self.say("object", path.as_ref())
    }

    /// Adds these objects, in order.
    pub fn objects<P>(&mut self, paths: P) -> &mut Build
    where
        P: IntoIterator,
        P::Item: AsRef<Path>,
    {
        for path in paths {
            self.object(path);
        }
        self
    }

    /// Adds a folder in which headers are looked for.
    pub fn include<P: AsRef<Path>>(&mut self, folder: P) -> &mut Build {
        self.say("include", folder.as_ref())
    }

    /// Adds these folders, in order.
    pub fn includes<P>(&mut self, folders: P) -> &mut Build
    where
        P: IntoIterator,
        P::Item: AsRef<Path>,
    {
        for folder in folders {
            self.include(folder);
        }
        self
    }

    /// Defines a macro, with a value or, by `None`, without.
    pub fn define<'a, V: Into<Option<&'a str>>>(&mut self, name: &str, value: V) -> &mut Build {
        match value.into() {
            Some(value) => self.say("define", format!("{name}={value}")),
            None => self.say("define", name),
        }
    }

    /// Adds a flag of the compiler.
    pub fn flag(&mut self, flag: impl AsRef<OsStr>) -> &mut Build {
        self.say("flag", flag)
    }

    /// Adds these flags, in order.
    pub fn flags<Iter>(&mut self, flags: Iter) -> &mut Build
    where
        Iter: IntoIterator,
        Iter::Item: AsRef<OsStr>,
    {
        for flag in flags {
            self.flag(flag);
        }
        self
    }

    /// Takes out every flag that [`flag`](Build::flag) added before and that is this one.
    pub fn remove_flag(&mut self, flag: &str) -> &mut Build {
        self.say("remove_flag", flag)
    }

    /// Adds a flag that is left out where the compiler doesn't take it.
    pub fn flag_if_supported(&mut self, flag: impl AsRef<OsStr>) -> &mut Build {
        self.say("flag_if_supported", flag)
    }

    /// Adds a flag of sources in assembly alone.
    pub fn asm_flag(&mut self, flag: impl AsRef<OsStr>) -> &mut Build {
        self.say("asm_flag", flag)
    }

    /// Adds a flag of the archiver.
    pub fn ar_flag(&mut self, flag: impl AsRef<OsStr>) -> &mut Build {
        self.say("ar_flag", flag)
    }

    /// Adds a modifier of the library's link line, as `+whole-archive`.
    pub fn link_lib_modifier(&mut self, modifier: impl AsRef<OsStr>) -> &mut Build {
        self.say("link_lib_modifier", modifier)
    }

    /// Tells paths below the first folder as paths below the second, in objects and macros. The last that fits a path counts.
    ///
    /// # Panics
    ///
    /// Where the first has a `=`.
    pub fn remap_source_path<P: AsRef<Path>, Q: AsRef<Path>>(
        &mut self,
        from: P,
        to: Q,
    ) -> &mut Build {
        let from = from.as_ref();
        let shown = from.to_string_lossy();
        assert!(
            !shown.contains('='),
            "remap_source_path: the first path has a '=': {shown}"
        );
        let mut value = from.as_os_str().to_owned();
        value.push("=");
        value.push(to.as_ref());
        self.say("remap_source_path", value)
    }

    /// Sets a variable of the commands that are run.
    ///
    /// A name with a `=` can't be said and ends the script (status 101).
    pub fn env<K, V>(&mut self, name: K, value: V) -> &mut Build
    where
        K: AsRef<OsStr>,
        V: AsRef<OsStr>,
    {
        let mut word = name.as_ref().to_owned();
        if word.as_encoded_bytes().contains(&b'=') {
            unsaid("Build::env", "the name has a `=`");
        }
        word.push("=");
        word.push(value);
        self.say("env", word)
    }

    /// As [`env`](Build::env), which has its place.
    #[doc(hidden)]
    #[deprecated = "`env` has its place"]
    pub fn __set_env<K, V>(&mut self, name: K, value: V) -> &mut Build
    where
        K: AsRef<OsStr>,
        V: AsRef<OsStr>,
    {
        self.env(name, value)
    }

    /// Puts these variables in place of the script's own, for this build alone. Of a name that comes again the last value counts.
    #[doc(hidden)]
    pub fn set_envs_snapshot<I, K, V>(&mut self, variables: I) -> &mut Build
    where
        I: IntoIterator<Item = (K, V)>,
        K: AsRef<OsStr>,
        V: AsRef<OsStr>,
    {
        let variables = variables.into_iter();
        let owned =
            variables.map(|(name, value)| (name.as_ref().to_owned(), value.as_ref().to_owned()));
        self.environment = crate::environment::Environment::of(owned);
        self
    }
}
