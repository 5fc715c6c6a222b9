//! The command `cc_main`: where it is, of which version, and a run of it.

use crate::environment::Environment;
use crate::error::{Error, ErrorKind};
use crate::words::Words;
use std::io::{self, BufRead, BufReader, PipeReader, PipeWriter, Write};
use std::path::{Path, PathBuf};
use std::process::{Command, ExitStatus, Stdio};
use std::sync::atomic::{AtomicU32, Ordering};
use std::sync::OnceLock;
use std::{env, process, thread};

const NAME: &str = "cc_main";
// How the lines begin that tell of a refusal, by the build and by the reader of words.
const CAUSE: &str = "error occurred in cc-rs: ";
const WORD: &str = "word ";

/// The command, which is looked for, and asked for its version, once in a script.
fn command() -> Result<&'static Path, Error> {
    static COMMAND: OnceLock<Result<PathBuf, Error>> = OnceLock::new();
    let found = COMMAND.get_or_init(|| {
        let path = find()?;
        check_version(&path)?;
        Ok(path)
    });
    match found {
        Ok(path) => Ok(path),
        Err(error) => Err(error.clone()),
    }
}

// The command that `CC_MAIN` names, else the first of its name in a folder of the `PATH`.
fn find() -> Result<PathBuf, Error> {
    if let Some(path) = env::var_os("CC_MAIN").filter(|path| !path.is_empty()) {
        return Ok(path.into());
    }
    let name = format!("{NAME}{}", env::consts::EXE_SUFFIX);
    let folders = env::var_os("PATH").unwrap_or_default();
    let found = env::split_paths(&folders)
        .map(|folder| folder.join(&name))
        .find(|path| path.is_file());
    found.ok_or_else(|| {
        let message = "the command cc_main is not on the PATH: put its folder there, or set CC_MAIN to its path";
        Error::new(ErrorKind::ToolNotFound, message)
    })
}

fn check_version(path: &Path) -> Result<(), Error> {
    let asked = Command::new(path)
        .arg("--version")
        .stdin(Stdio::null())
        .output();
    let answer = asked.map_err(|error| unstarted(path, &error))?;
    let said = String::from_utf8_lossy(&answer.stdout);
    let wanted = concat!(", a port of cc ", env!("CARGO_PKG_VERSION"), "\n");
    if answer.status.success() && said.starts_with("cc_main ") && said.ends_with(wanted) {
        return Ok(());
    }
    Err(Error::new(
        ErrorKind::ToolExecError,
        format!(
            "{} is not the command of cc {}: asked for its version it says {said:?} ({})",
            path.display(),
            env!("CARGO_PKG_VERSION"),
            answer.status
        ),
    ))
}

fn unstarted(path: &Path, error: &io::Error) -> Error {
    let kind = match error.kind() {
        io::ErrorKind::NotFound => ErrorKind::ToolNotFound,
        _ => ErrorKind::ToolExecError,
    };
    let message = format!(
        "the command {} can't be started ({error}): set CC_MAIN to the path of cc_main",
        path.display()
    );
    Error::new(kind, message)
}

/// What is done with each line of an output. Once it is refused, no further line is heard.
pub(crate) type Hearing<'a> = dyn FnMut(&[u8]) -> Result<(), Error> + 'a;

/// What the command is asked for: its first words, and those of a build.
pub(crate) struct Request<'a> {
    pub(crate) first: &'a [&'a str],
    pub(crate) words: &'a Words,
    pub(crate) environment: &'a Environment,
}

/// Runs the command. Each line of its standard output is heard as it comes, with its line feed, and so are the bytes behind the last one.
/// What it says on standard error is passed on, but for the line of its refusal, which is the error.
///
/// Refused as the command refuses, where it ends in another way, and else as hearing was. A process that its tools left behind isn't waited
/// for.
pub(crate) fn run(request: &Request<'_>, hear: &mut Hearing<'_>) -> Result<(), Error> {
    let path = command()?;
    let words = request.words.arguments()?;
    let (out, mut out_end) = io::pipe()?;
    let (err, mut err_end) = io::pipe()?;
    let mut command = Command::new(path);
    command.args(request.first).args(words);
    request.environment.apply(&mut command);
    command
        .stdout(out_end.try_clone()?)
        .stderr(err_end.try_clone()?);
    let mut child = command.spawn().map_err(|error| unstarted(path, &error))?;
    // (the ends that it holds for the child go)
    drop(command);

    let mark = end_mark();
    let (heard, cause, status) = thread::scope(|scope| {
        let mark = mark.as_bytes();
        let cause = scope.spawn(move || cause_of(err, mark));
        let status = scope.spawn(move || {
            let status = child.wait();
            let marked = end(&mut out_end, mark).and(end(&mut err_end, mark));
            marked.and(status)
        });
        let heard = each_line(out, mark, hear);
        (heard, join(cause), join(status))
    });
    ended(status?, &cause?)?;
    heard
}

fn join<T>(thread: thread::ScopedJoinHandle<'_, T>) -> T {
    thread
        .join()
        .unwrap_or_else(|panic| std::panic::resume_unwind(panic))
}

// What a pipe ends with once the command has ended: a process that it left behind may hold the pipe open.
fn end_mark() -> String {
    static COUNT: AtomicU32 = AtomicU32::new(0);
    let count = COUNT.fetch_add(1, Ordering::Relaxed);
    format!(
        "\0 end of cc_main {} {count} {:?}\n",
        process::id(),
        std::time::SystemTime::now()
    )
}

fn end(pipe: &mut PipeWriter, mark: &[u8]) -> io::Result<()> {
    pipe.write_all(mark)
}

// Hears each line, up to the mark. Once that is refused the rest is read all the same, so that the command isn't held up.
fn each_line(pipe: PipeReader, mark: &[u8], hear: &mut Hearing<'_>) -> Result<(), Error> {
    let mut pipe = BufReader::new(pipe);
    let mut line = Vec::new();
    let mut answer = Ok(());
    loop {
        line.clear();
        let count = pipe.read_until(b'\n', &mut line)?;
        let rest = line.strip_suffix(mark);
        let piece = rest.unwrap_or(&line);
        if answer.is_ok() && !piece.is_empty() {
            answer = hear(piece);
        }
        if count == 0 || rest.is_some() {
            return answer;
        }
    }
}

// What the command told of its refusal, from the last line that may begin that to the end. All else is passed on.
fn cause_of(pipe: PipeReader, mark: &[u8]) -> Result<Vec<u8>, Error> {
    let mut held = Vec::new();
    each_line(pipe, mark, &mut |line| {
        let begins = [CAUSE, WORD]
            .iter()
            .any(|beginning| line.starts_with(beginning.as_bytes()));
        if begins {
            pass_on(&held);
            held.clear();
        }
        match begins || !held.is_empty() {
            true => held.extend_from_slice(line),
            false => pass_on(line),
        }
        Ok(())
    })?;
    Ok(held)
}

// (where standard error takes nothing, nobody can be told)
fn pass_on(bytes: &[u8]) {
    let _ = io::stderr().lock().write_all(bytes);
}

// How the command ended: done, or why not.
fn ended(status: ExitStatus, cause: &[u8]) -> Result<(), Error> {
    let text = String::from_utf8_lossy(cause);
    let text = text.strip_suffix('\n').unwrap_or(&text);
    match (status.code(), text.strip_prefix(CAUSE)) {
        (Some(1), Some(message)) => return Err(Error::told(message.to_owned())),
        (Some(2), None) if text.starts_with(WORD) => {
            let message = format!("cc_main doesn't take its words: {text}");
            return Err(Error::new(ErrorKind::InvalidArgument, message));
        }
        _ => pass_on(cause),
    }
    match status.code() {
        Some(0) => Ok(()),
        Some(3) => Err(Error::new(ErrorKind::IOError, "cc_main wants memory")),
        _ => Err(Error::new(
            ErrorKind::ToolExecError,
            format!("cc_main ended with {status}"),
        )),
    }
}
