//! Files that are written: all of them whole, or none. Each is written to a temporary file beside its target first; when all of these are on the disk, they take their
//! places; and then standard output is written. Where a step fails, what was done is undone: files that are new go, and files that were replaced come back.
use crate::failure::Failure;
use crate::interrupts::{self, Listed};
use std::collections::hash_map::RandomState;
use std::ffi::OsStr;
use std::fs::{self, File, OpenOptions};
use std::hash::{BuildHasher, Hasher};
use std::io::{self, ErrorKind, Write};
use std::os::unix::ffi::OsStrExt;
use std::os::unix::fs::{MetadataExt, OpenOptionsExt};
use std::path::{Path, PathBuf};

/// What is to be written, and where: a path, or `-`.
pub struct Output<'a> {
    pub path: &'a OsStr,
    pub secret: bool,
    pub bytes: Vec<u8>,
}

/// A name beside a target that goes away with this value, or when the run is interrupted.
struct Temporary {
    at: PathBuf,
    _listed: Listed,
}

impl Temporary {
    /// Makes a file under a name that nothing has, by trying names until one is free; one that an earlier run left behind is left alone.
    fn made<T>(folder: &Path, make: impl Fn(&Path) -> io::Result<T>) -> io::Result<(Self, T)> {
        let names = (0..100).map(|_| format!(".frodo.{:016x}.tmp", RandomState::new().build_hasher().finish()));
        Self::made_under(folder, names, make)
    }

    fn made_under<T>(folder: &Path, names: impl Iterator<Item = String>, make: impl Fn(&Path) -> io::Result<T>) -> io::Result<(Self, T)> {
        let mut last = io::Error::from(ErrorKind::AlreadyExists);
        for name in names {
            let at = folder.join(name);
            match interrupts::held(|| make(&at).map(|made| (Self { _listed: Listed::new(&at), at }, made)), drop) {
                Ok(made) => return Ok(made),
                Err(error) if error.kind() == ErrorKind::AlreadyExists => last = error,
                Err(error) => return Err(error),
            }
        }
        Err(last)
    }
}

impl Drop for Temporary {
    fn drop(&mut self) {
        let _ = fs::remove_file(&self.at);
    }
}

/// An output that is on the disk and waits for its place.
struct Waiting {
    temporary: Temporary,
    folder: PathBuf,
    target: PathBuf,
}

/// What stood in an output's place before.
enum Before {
    Nothing,
    /// A second name of it.
    Kept(Temporary),
    /// The file system gives no second name: it cannot be put back.
    Lost,
}

/// Outputs that have taken their places, in order.
#[derive(Default)]
pub struct Placed(Vec<(PathBuf, Option<Identity>, Before)>);

/// Device and number of an ordinary file: the same for all its names.
type Identity = (u64, u64);

fn identity(path: &Path) -> Option<Identity> {
    fs::metadata(path).ok().filter(fs::Metadata::is_file).map(|found| (found.dev(), found.ino()))
}

fn failed(path: &Path, error: &io::Error) -> Failure {
    Failure::refused(format!("{} cannot be written: {error}", path.display()))
}

/// The folder of a path, and the path with that folder spelled out. A path that can only be a folder's is refused: `k/`, `k/.`, `..`.
fn located(path: &Path) -> Result<(PathBuf, PathBuf), Failure> {
    let last = path.as_os_str().as_bytes().rsplit(|&b| b == b'/').next().unwrap_or_default();
    let name = match path.file_name() {
        Some(name) if name.as_bytes() == last => name,
        _ => return Err(Failure::refused(format!("{} is the name of a folder, expected the name of a file", path.display()))),
    };
    let folder = path.parent().filter(|p| !p.as_os_str().is_empty()).unwrap_or(Path::new("."));
    let folder = folder.canonicalize().map_err(|error| Failure::refused(format!("{}: its folder cannot be reached: {error}", path.display())))?;
    let whole = folder.join(name);
    Ok((folder, whole))
}

/// Refuses a target that is there and may not be replaced.
fn free(path: &Path, force: bool) -> Result<(), Failure> {
    match fs::symlink_metadata(path) {
        Err(error) if error.kind() == ErrorKind::NotFound => Ok(()),
        Err(error) => Err(failed(path, &error)),
        Ok(found) if found.is_dir() => Err(Failure::refused(format!("{} is a folder, expected the name of a file", path.display()))),
        Ok(found) if !found.is_file() => Err(Failure::refused(format!("{} is there and is no ordinary file: it is not written over", path.display()))),
        Ok(_) if !force => Err(Failure::refused(format!("{} is there already: --force writes over it", path.display()))),
        Ok(_) => Ok(()),
    }
}

/// Refuses, before any work is done, targets that cannot be written: one path twice, standard output twice, a file that is there, or one that is also read.
pub fn check<'a>(inputs: impl Iterator<Item = (&'static str, &'a OsStr)>, targets: impl Iterator<Item = (&'a str, &'a OsStr)>, force: bool) -> Result<(), Failure> {
    let stream = |path: &'a OsStr, own: &'static str| if path == "-" { Path::new(own) } else { Path::new(path) };
    let read: Vec<(&str, Identity)> = inputs.filter_map(|(flag, path)| Some((flag, identity(stream(path, "/proc/self/fd/0"))?))).collect();
    let mut seen: Vec<(&str, PathBuf)> = Vec::new();
    for (flag, path) in targets {
        let whole = if path == "-" { PathBuf::from("-") } else { located(Path::new(path))?.1 };
        let what = if path == "-" { "standard output".into() } else { path.to_string_lossy() };
        if let Some((other, _)) = seen.iter().find(|(_, p)| *p == whole) {
            return Err(Failure::usage(format!("{other} and {flag} both name {what}")));
        }
        let found = identity(stream(path, "/proc/self/fd/1"));
        if let Some((other, _)) = read.iter().find(|(_, input)| Some(*input) == found) {
            return Err(Failure::refused(format!("{flag}: {what} is the file that {other} reads, by this or another name: it is not written over, with --force or without")));
        }
        if path != "-" {
            free(Path::new(path), force)?;
        }
        seen.push((flag, whole));
    }
    Ok(())
}

/// Writes all files, or none. They are at their places when this returns, and can still be taken back.
pub fn place(outputs: &[Output<'_>], force: bool) -> Result<Placed, Failure> {
    let waiting = outputs.iter().filter(|o| o.path != "-").map(wait).collect::<Result<Vec<_>, _>>()?;
    let (placed, done) = interrupts::held(|| name_all(&waiting, force), |(placed, _)| drop(placed.undo()));
    let placed = placed.or_undo(done)?;
    for file in &waiting {
        // the names, too, are to outlive a fall of the machine; not every file system knows how
        let _ = File::open(&file.folder).and_then(|folder| folder.sync_all());
    }
    Ok(placed)
}

/// Writes to standard output, all of it.
pub fn to_stdout(bytes: &[u8]) -> Result<(), Failure> {
    let mut out = io::stdout().lock();
    out.write_all(bytes).and_then(|()| out.flush()).map_err(|error| Failure::refused(format!("standard output cannot be written: {error}")))
}

/// Writes an output to a temporary file, down to the disk.
fn wait(output: &Output<'_>) -> Result<Waiting, Failure> {
    let path = Path::new(output.path);
    let (folder, target) = located(path)?;
    let mode = if output.secret { 0o600 } else { 0o666 };
    let make = |at: &Path| OpenOptions::new().write(true).create_new(true).mode(mode).open(at);
    let (temporary, mut file) = Temporary::made(&folder, make).map_err(|error| failed(path, &error))?;
    file.write_all(&output.bytes).and_then(|()| file.sync_all()).map_err(|error| failed(path, &error))?;
    Ok(Waiting { temporary, folder, target })
}

/// Gives all their names, up to the first that cannot have it.
fn name_all(waiting: &[Waiting], force: bool) -> (Placed, Result<(), Failure>) {
    let mut placed = Placed::default();
    for file in waiting {
        match name(file, force) {
            Ok(before) => placed.0.push((file.target.clone(), identity(&file.target), before)),
            Err(error) => return (placed, Err(failed(&file.target, &error))),
        }
    }
    (placed, Ok(()))
}

/// Gives a temporary file its name. Without `force` a file that has appeared there since the check is left alone.
fn name(file: &Waiting, force: bool) -> io::Result<Before> {
    let (from, target) = (&file.temporary.at, &file.target);
    if force {
        let before = match Temporary::made(&file.folder, |at| fs::hard_link(target, at)) {
            Ok((kept, ())) => Before::Kept(kept),
            Err(error) if error.kind() == ErrorKind::NotFound => Before::Nothing,
            Err(_) => Before::Lost,
        };
        return fs::rename(from, target).map(|()| before);
    }
    let linked = fs::hard_link(from, target).or_else(|error| match error.kind() {
        ErrorKind::AlreadyExists => Err(error),
        // a file system without links
        _ => free(target, false).map_err(|_| error).and_then(|()| fs::rename(from, target)),
    });
    linked.map(|()| Before::Nothing)
}

impl Placed {
    /// Where all has gone well, nothing; else everything is taken back, and the failure says what could not be.
    pub fn or_undo(self, done: Result<(), Failure>) -> Result<Self, Failure> {
        let Err(mut failure) = done else { return Ok(self) };
        let left = self.undo();
        if !left.is_empty() {
            failure.text += &format!("; written all the same, and not to be taken back: {}", left.join(", "));
        }
        Err(failure)
    }

    /// Takes everything back, the last first. Answers what could not be.
    fn undo(self) -> Vec<String> {
        let mut left = Vec::new();
        for (target, own, before) in self.0.into_iter().rev() {
            let done = match before {
                Before::Kept(old) => fs::rename(&old.at, &target).is_ok(),
                // only what this run has put there
                Before::Nothing => own.is_some() && identity(&target) == own && fs::remove_file(&target).is_ok(),
                Before::Lost => false,
            };
            if !done {
                left.push(target.display().to_string());
            }
        }
        left
    }
}

#[cfg(test)]
mod tests {
    use super::*;
    use std::os::unix::fs::PermissionsExt;
    use std::process;

    fn write(outputs: &[Output<'_>], force: bool) -> Result<(), Failure> {
        place(outputs, force).map(drop)
    }

    fn folder(name: &str) -> PathBuf {
        let at = std::env::temp_dir().join(format!("frodo-outputs-{}-{name}", process::id()));
        fs::create_dir_all(&at).unwrap();
        at
    }

    fn names_of(at: &Path) -> Vec<String> {
        let mut names: Vec<String> = fs::read_dir(at).unwrap().map(|e| e.unwrap().file_name().into_string().unwrap()).collect();
        names.sort();
        names
    }

    fn output(path: &Path, secret: bool) -> Output<'_> {
        Output { path: path.as_os_str(), secret, bytes: vec![1, 2, 3] }
    }

    #[test]
    fn all_are_written_and_secrets_are_private() {
        let at = folder("all");
        let (a, b) = (at.join("a"), at.join("b"));
        write(&[output(&a, true), output(&b, false)], false).unwrap();
        assert_eq!(names_of(&at), ["a", "b"]);
        assert_eq!(fs::metadata(&a).unwrap().permissions().mode() & 0o777, 0o600);
        fs::remove_dir_all(at).unwrap();
    }

    #[test]
    fn none_is_written_where_one_cannot_be() {
        let at = folder("none");
        let (a, b, far) = (at.join("a"), at.join("b"), at.join("no/such"));
        assert!(write(&[output(&a, false), output(&far, false)], false).is_err());
        assert!(names_of(&at).is_empty());
        fs::write(&b, "old").unwrap();
        assert!(write(&[output(&a, false), output(&b, false)], false).is_err());
        assert_eq!(names_of(&at), ["b"]);
        assert_eq!(fs::read(&b).unwrap(), b"old");
        write(&[output(&a, false), output(&b, false)], true).unwrap();
        assert_eq!(fs::read(&b).unwrap(), [1, 2, 3]);
        fs::remove_dir_all(at).unwrap();
    }

    #[test]
    fn targets_are_checked_first() {
        let at = folder("check");
        let (a, same) = (at.join("a"), at.join("./a"));
        let none = || [].into_iter();
        let text = |targets: &[(&'static str, &Path)], force| check(none(), targets.iter().map(|(f, p)| (*f, p.as_os_str())), force).unwrap_err().text;
        assert_eq!(text(&[("--x", &a), ("--y", &same)], false), format!("--x and --y both name {}", same.display()));
        assert_eq!(text(&[("--x", Path::new("-")), ("--y", Path::new("-"))], false), "--x and --y both name standard output");
        assert!(text(&[("--x", &at)], true).contains("is a folder, expected the name of a file"));
        for end in ["a/", "a/.", "..", "./", "a//"] {
            assert!(text(&[("--x", &at.join(end))], true).contains("is the name of a folder, expected the name of a file"), "{end}");
        }
        fs::write(&a, "").unwrap();
        assert!(text(&[("--x", &a)], false).contains("is there already: --force"));
        assert!(check(none(), [("--x", a.as_os_str())].into_iter(), true).is_ok());
        fs::remove_dir_all(at).unwrap();
    }

    #[test]
    fn what_is_read_is_not_written() {
        let at = folder("read");
        let (a, hard, soft, other) = (at.join("a"), at.join("hard"), at.join("soft"), at.join("other"));
        fs::write(&a, "old").unwrap();
        fs::write(&other, "old").unwrap();
        fs::hard_link(&a, &hard).unwrap();
        std::os::unix::fs::symlink(&a, &soft).unwrap();
        let checked = |target: &Path| check([("--in", a.as_os_str())].into_iter(), [("--out", target.as_os_str())].into_iter(), true);
        for target in [&a, &hard, &soft] {
            assert!(checked(target).unwrap_err().text.contains("is the file that --in reads"), "{target:?}");
        }
        assert!(checked(&other).is_ok());
        fs::remove_dir_all(at).unwrap();
    }

    #[test]
    fn names_that_are_taken_are_passed_over() {
        let at = folder("stale");
        fs::write(at.join("stale"), "old").unwrap();
        let make = |at: &Path| OpenOptions::new().write(true).create_new(true).open(at);
        let names = || ["stale", "stale", "new"].map(String::from).into_iter();
        let (made, _) = Temporary::made_under(&at, names(), make).unwrap();
        assert_eq!(names_of(&at), ["new", "stale"]);
        drop(made);
        assert_eq!(names_of(&at), ["stale"]);
        assert!(Temporary::made_under(&at, names().take(2), make).is_err());
        fs::remove_dir_all(at).unwrap();
    }

    #[test]
    fn what_was_replaced_comes_back() {
        let at = folder("undo");
        let (a, b, new) = (at.join("a"), at.join("b"), at.join("new"));
        fs::write(&a, "old").unwrap();
        fs::create_dir(&b).unwrap();
        // the check would have refused the folder: it has come since
        let failure = write(&[output(&new, false), output(&a, false), output(&b, false)], true).unwrap_err();
        assert!(failure.text.contains("b cannot be written") && !failure.text.contains("all the same"), "{}", failure.text);
        assert_eq!((names_of(&at), fs::read(&a).unwrap()), (vec!["a".to_string(), "b".to_string()], b"old".to_vec()));
        // and what fails after all have their names
        let placed = place(&[output(&new, false), output(&a, false)], true).unwrap();
        assert_eq!(fs::read(&a).unwrap(), [1, 2, 3]);
        assert!(placed.or_undo(Err(Failure::refused("no"))).is_err_and(|failure| failure.text == "no"));
        assert_eq!((names_of(&at), fs::read(&a).unwrap()), (vec!["a".to_string(), "b".to_string()], b"old".to_vec()));
        fs::remove_dir_all(at).unwrap();
    }

    #[test]
    fn what_is_not_ours_is_not_taken_back() {
        let at = folder("theirs");
        let a = at.join("a");
        let placed = place(&[output(&a, false)], false).unwrap();
        fs::write(at.join("b"), "theirs").unwrap();
        fs::rename(at.join("b"), &a).unwrap();
        let text = placed.or_undo(Err(Failure::refused("no"))).map(drop).unwrap_err().text;
        assert_eq!(text, format!("no; written all the same, and not to be taken back: {}", a.canonicalize().unwrap().display()));
        assert_eq!(fs::read(&a).unwrap(), b"theirs");
        fs::remove_dir_all(at).unwrap();
    }
}
