//! What the command reads and writes, with no failure passed over.
//!
//! The library's own start opens an empty input in the place of a closed one, and its handles take a closed output for one that was
//! written to. So the command has a `main` of its own, and reads and writes through files. A file is closed before the next one is
//! opened or a message is said: where a stream is closed, a file that is opened stands in its place.
use std::ffi::OsStr;
use std::fmt::Display;
use std::fs::{self, File, Permissions};
use std::io::{self, ErrorKind, Read, Write};
use std::os::fd::AsFd;
use std::os::unix::fs::{fchown, MetadataExt, OpenOptionsExt, PermissionsExt};
use std::path::{Path, PathBuf};

/// How a run ends, by its exit status: what comes later goes before what comes earlier.
#[derive(Clone, Copy, PartialEq, Eq, PartialOrd, Ord, Debug)]
pub enum Status {
    Done = 0,
    /// the core has refused something
    Refused = 1,
    /// it could not be run
    Failed = 2,
}

/// Why it could not be run.
#[derive(PartialEq, Eq, Debug)]
pub enum Failure {
    Because(String),
    /// nobody reads the output any more, and nobody has to be told
    Unread,
}

impl From<String> for Failure {
    fn from(reason: String) -> Failure {
        Failure::Because(reason)
    }
}

/// Says a line on standard error. Where that cannot be written either, the exit status has to do.
pub fn say(line: impl Display) {
    let _ = writeln!(io::stderr(), "{line}");
}

/// The system's reason, without its number.
fn reason(wrong: &io::Error) -> String {
    let text = wrong.to_string();
    text.split(" (os error").next().unwrap_or(&text).into()
}

/// A name as it is shown: nothing in it breaks a line or turns it round.
pub fn shown(name: &OsStr) -> String {
    if is_standard(name) {
        return "standard input".into();
    }
    if name.is_empty() {
        return "''".into();
    }
    let plain = |c: char| if matches!(c, '\'' | '"' | '\\') { c.to_string() } else { c.escape_debug().to_string() };
    name.to_string_lossy().chars().map(plain).collect()
}

/// `-` is standard input, or standard output.
pub fn is_standard(name: &OsStr) -> bool {
    name == "-"
}

// ---- input

/// An input that is read as far as somebody wants it: a file, a pipe, or standard input.
pub struct Input {
    name: String,
    file: File,
    pub bytes: Vec<u8>,
    ended: bool,
}

impl Input {
    pub fn open(name: &OsStr) -> Result<Input, String> {
        let open = || if is_standard(name) { Ok(File::from(io::stdin().as_fd().try_clone_to_owned()?)) } else { File::open(name) };
        let unread = |wrong| format!("{} cannot be read: {}", shown(name), reason(&wrong));
        Ok(Input { name: shown(name), file: open().map_err(unread)?, bytes: vec![], ended: false })
    }

    /// Reads on until there are so many bytes, or all there are. Nothing is read after the end, so that at a terminal it is given once.
    pub fn read_to(&mut self, most: usize) -> Result<(), String> {
        if !self.ended {
            let more = most.saturating_sub(self.bytes.len()) as u64;
            let read = (&self.file).take(more).read_to_end(&mut self.bytes);
            read.map_err(|wrong| format!("{} cannot be read: {}", self.name, reason(&wrong)))?;
            self.ended = self.bytes.len() < most;
        }
        Ok(())
    }
}

// ---- output

/// Writes to standard output.
pub fn print(text: &[u8]) -> Result<(), Failure> {
    let write = || File::from(io::stdout().as_fd().try_clone_to_owned()?).write_all(text);
    write().map_err(|wrong| unwritten("the output", &wrong))
}

fn unwritten(name: &str, wrong: &io::Error) -> Failure {
    match wrong.kind() {
        ErrorKind::BrokenPipe => Failure::Unread,
        _ => Failure::Because(format!("{name} cannot be written: {}", reason(wrong))),
    }
}

/// Writes all of an output: to the file that is named, otherwise to standard output.
pub fn write(name: Option<&OsStr>, bytes: &[u8]) -> Result<(), Failure> {
    match name {
        Some(name) if !is_standard(name) && !OUTPUTS.contains(&name.to_str().unwrap_or("")) => {
            write_file(Path::new(name), bytes).map_err(|wrong| unwritten(&shown(name), &wrong))
        }
        _ => print(bytes),
    }
}

/// Other names of standard output, which goes on where it stands.
const OUTPUTS: [&str; 3] = ["/dev/stdout", "/dev/fd/1", "/proc/self/fd/1"];

/// A name of the system's own for a stream that is open.
pub fn is_stream(name: &Path) -> bool {
    ["/dev/stdin", "/dev/stdout", "/dev/stderr"].iter().any(|stream| name == Path::new(stream))
        || name.starts_with("/dev/fd")
        || name.starts_with("/proc")
}

/// A file is written beside its name and then takes it, so that a failed run leaves the old one; a device or a pipe is written straight.
fn write_file(name: &Path, bytes: &[u8]) -> io::Result<()> {
    let name = followed(name)?;
    if is_stream(&name) {
        return File::options().append(true).open(&name)?.write_all(bytes);
    }
    let old = match fs::metadata(&name) {
        Ok(old) => Some(old),
        Err(wrong) if wrong.kind() == ErrorKind::NotFound && name.file_name().is_some() => None,
        Err(wrong) => return Err(wrong),
    };
    if let Some(old) = &old {
        // what may not be written is not replaced either, and no folder can be opened so
        let mut straight = File::options().append(true).open(&name)?;
        if !old.is_file() {
            return straight.write_all(bytes);
        }
    }
    let (beside, mut file) = new_beside(&name, old.is_none())?;
    let written = file.write_all(bytes).and_then(|()| like(&file, old)).and_then(|()| file.sync_all());
    let placed = written.and_then(|()| fs::rename(&beside, &name));
    if placed.is_err() {
        let _ = fs::remove_file(&beside);
    }
    placed
}

/// Where links lead, also to a file that is not there yet; what a stream's name leads to is for the system to say.
fn followed(name: &Path) -> io::Result<PathBuf> {
    let mut name = name.to_path_buf();
    for _ in 0..40 {
        match fs::read_link(&name) {
            Ok(to) if !is_stream(&name) => name = name.parent().unwrap_or(Path::new("")).join(to),
            _ => return Ok(name),
        }
    }
    Err(io::Error::other("too many links"))
}

/// A new file in the same folder, under a name that nothing has. Where it is to replace another one, nobody else may read it yet.
fn new_beside(name: &Path, open: bool) -> io::Result<(PathBuf, File)> {
    let mode = if open { 0o666 } else { 0o600 };
    for number in 0..1000 {
        let beside = name.with_file_name(format!(".rbu-{}-{number}", std::process::id()));
        match File::options().write(true).create_new(true).mode(mode).open(&beside) {
            Ok(file) => return Ok((beside, file)),
            Err(wrong) if wrong.kind() == ErrorKind::AlreadyExists => (),
            Err(wrong) if wrong.kind() == ErrorKind::PermissionDenied => {
                return Err(io::Error::new(wrong.kind(), format!("no file can be made beside it: {}", reason(&wrong))))
            }
            Err(wrong) => return Err(wrong),
        }
    }
    Err(io::Error::other("no name beside it is free"))
}

/// Gives a file the permissions of the one that it is to replace, and its owner where that is allowed.
fn like(file: &File, old: Option<fs::Metadata>) -> io::Result<()> {
    let Some(old) = old else { return Ok(()) };
    let _ = fchown(file, Some(old.uid()), Some(old.gid()));
    file.set_permissions(Permissions::from_mode(old.mode() & 0o777))
}
