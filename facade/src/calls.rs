//! The calls that build something.

use crate::build::Build;
use crate::command::{run, Hearing, Request};
use crate::database;
use crate::environment::names_of;
use crate::error::{fail, Error, ErrorKind};
use crate::lines::{check_whole, is_link, rerun_name};
use crate::link::Held;
use crate::words::Words;
use std::path::{Path, PathBuf};
use std::sync::atomic::{AtomicU32, Ordering};
use std::sync::PoisonError;
use std::{env, fs, process};

// The library of a run of which the objects alone are wanted.
const OBJECTS_ALONE: &str = "cc_objects_alone";

impl Build {
    /// Compiles the sources, archives them into the library of this name, and tells Cargo how it is linked. The name is `foo` or `libfoo.a`.
    ///
    /// # Panics
    ///
    /// It ends the script (status 1) where [`try_compile`](Build::try_compile) refuses.
    pub fn compile(&self, output: &str) {
        if let Err(error) = self.try_compile(output) {
            fail(&error);
        }
    }

    /// Compiles the sources, archives them into the library of this name, and tells Cargo how it is linked.
    ///
    /// Refused as the command refuses: `ToolNotFound` and `ToolExecError` of a tool, `EnvVarNotFound`, `UnknownTarget`, `InvalidArgument`,
    /// `Disabled`, `IOError` and others. No link line is told then.
    pub fn try_compile(&self, output: &str) -> Result<(), Error> {
        let links = self.run_to_links(&["compile", output], &self.words, &mut |_| true)?;
        self.told.tell_links(&links)
    }

    /// Compiles the sources, and answers their objects, in the order of the sources.
    ///
    /// # Panics
    ///
    /// It ends the script (status 1) where [`try_compile_intermediates`](Build::try_compile_intermediates) refuses.
    pub fn compile_intermediates(&self) -> Vec<PathBuf> {
        self.try_compile_intermediates()
            .unwrap_or_else(|error| fail(&error))
    }

    /// Compiles the sources, and answers their objects, in the order of the sources.
    ///
    /// The command is asked for a library with a compilation database, from which the objects are read; `true` stands for its archiver, and for
    /// Visual Studio the library is removed. Refused as [`try_compile`](Build::try_compile), and where the database can't be read (`IOError`).
    pub fn try_compile_intermediates(&self) -> Result<Vec<PathBuf>, Error> {
        let database = self.scratch();
        let mut words = self
            .words
            .without(&["object", "archiver"])
            .and("cpp_link_stdlib", "")
            .and("database", &database);
        let for_msvc = self
            .target_name()
            .is_some_and(|target| target.ends_with("msvc"));
        if !for_msvc {
            words.say("archiver", "true");
        }
        let others: Vec<String> = ["AR", "ARFLAGS"]
            .iter()
            .flat_map(|it| names_of(it, self.target_name()))
            .collect();
        let ran =
            self.run_to_links(
                &["compile", OBJECTS_ALONE],
                &words,
                &mut |line| match rerun_name(line) {
                    Some(name) => !others.iter().any(|other| other == name),
                    None => true,
                },
            );
        let text = ran.and_then(|links| {
            for line in links.iter().filter(|line| !is_link(line)) {
                self.told.tell(line)?;
            }
            Ok(fs::read_to_string(&database)?)
        });
        let _ = fs::remove_file(&database);
        if for_msvc {
            self.remove_library(OBJECTS_ALONE);
        }
        let entries = database::entries(&text?)?;
        let relative = self.folder().is_some_and(|folder| folder.is_relative());
        let object = |entry: database::Entry| match entry.output.strip_prefix(&entry.directory) {
            Ok(below) if relative => below.to_owned(),
            _ => entry.output,
        };
        Ok(entries.into_iter().map(object).collect())
    }

    /// Archives these objects, and behind them the added ones, into the library of this name, and answers its path. Cargo is told how it is
    /// linked by [`emit_link_directives`](crate::emit_link_directives).
    ///
    /// # Panics
    ///
    /// It ends the script (status 1) where [`try_create_archive`](Build::try_create_archive) refuses.
    pub fn create_archive<P>(&self, output: &str, objects: P) -> PathBuf
    where
        P: IntoIterator,
        P::Item: AsRef<Path>,
    {
        self.try_create_archive(output, objects)
            .unwrap_or_else(|error| fail(&error))
    }

    /// Archives these objects, and behind them the added ones, into the library of this name, and answers its path.
    ///
    /// Refused as [`try_compile`](Build::try_compile).
    pub fn try_create_archive<P>(&self, output: &str, objects: P) -> Result<PathBuf, Error>
    where
        P: IntoIterator,
        P::Item: AsRef<Path>,
    {
        let mut words = Words::default();
        for object in objects {
            words.say("object", object.as_ref());
        }
        let words = words.and_all(&self.words);
        let lines = self.run_to_links(&["archive", output], &words, &mut |_| true)?;
        let library = self.library(output)?;
        let held = Held::new(library.clone(), &self.words, lines);
        self.held
            .lock()
            .unwrap_or_else(PoisonError::into_inner)
            .push(held);
        Ok(library)
    }

    /// What the preprocessor makes of the one source.
    ///
    /// # Panics
    ///
    /// It ends the script (status 1) where [`try_expand`](Build::try_expand) refuses.
    pub fn expand(&self) -> Vec<u8> {
        self.try_expand().unwrap_or_else(|error| fail(&error))
    }

    /// What the preprocessor makes of the one source.
    ///
    /// Refused as [`try_compile`](Build::try_compile), and for another number of sources than one (`InvalidArgument`).
    pub fn try_expand(&self) -> Result<Vec<u8>, Error> {
        // (the lines of the variables are what stands right before the source)
        let words = self
            .words
            .clone()
            .and("cargo_metadata", "true")
            .and("emit_rerun_if_env_changed", "true");
        let mut source: Vec<u8> = Vec::new();
        let mut last: Option<String> = None;
        let mut began = false;
        self.run(&["expand"], &words, &mut |line| {
            let name = rerun_name(line).filter(|name| last.as_deref() < Some(*name));
            match name {
                Some(name) if !began => {
                    last = Some(name.to_owned());
                    self.tell_if_told(line)
                }
                None if last.is_none() => self.told.tell(line),
                _ => {
                    began = true;
                    source.extend_from_slice(line);
                    Ok(())
                }
            }
        })?;
        Ok(source)
    }

    fn tell_if_told(&self, line: &[u8]) -> Result<(), Error> {
        match self.tells_names() {
            true => self.told.tell(line),
            false => Ok(()),
        }
    }

    fn run(&self, first: &[&str], words: &Words, hear: &mut Hearing<'_>) -> Result<(), Error> {
        let environment = &self.environment;
        run(
            &Request {
                first,
                words,
                environment,
            },
            hear,
        )
    }

    // Runs the command, and passes on those of its lines that are chosen, up to the first link line: it is answered, and what stands behind it.
    fn run_to_links(
        &self,
        first: &[&str],
        words: &Words,
        choice: &mut dyn FnMut(&[u8]) -> bool,
    ) -> Result<Vec<Vec<u8>>, Error> {
        let mut links: Vec<Vec<u8>> = Vec::new();
        self.run(first, words, &mut |line| {
            check_whole(line)?;
            if !choice(line) {
                return Ok(());
            }
            if links.is_empty() && !is_link(line) {
                return self.told.tell(line);
            }
            links.push(line.to_vec());
            Ok(())
        })?;
        Ok(links)
    }

    // The path of the library of a name that the command took.
    fn library(&self, output: &str) -> Result<PathBuf, Error> {
        let folder = self.folder().ok_or_else(|| {
            let message = "environment variable OUT_DIR not defined";
            Error::new(ErrorKind::EnvVarNotFound, message)
        })?;
        let whole = output.starts_with("lib") && output.ends_with(".a");
        let name = if whole {
            output.to_owned()
        } else {
            format!("lib{output}.a")
        };
        Ok(folder.join(name))
    }

    fn remove_library(&self, name: &str) {
        if let Ok(library) = self.library(name) {
            let _ = fs::remove_file(library.with_file_name(format!("{name}.lib")));
            let _ = fs::remove_file(library);
        }
    }

    // The path of a database, which no other call has. (where there is no source, the command makes no folder)
    fn scratch(&self) -> PathBuf {
        static COUNT: AtomicU32 = AtomicU32::new(0);
        let count = COUNT.fetch_add(1, Ordering::Relaxed);
        let folder = self.folder().filter(|folder| folder.is_dir());
        let folder = folder.unwrap_or_else(env::temp_dir);
        folder.join(format!("cc_database_{}_{count}.json", process::id()))
    }
}
