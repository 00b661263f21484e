//! Files that are read: whole, up to a limit that no file of a set comes near.
use crate::failure::Failure;
use std::ffi::OsStr;
use std::fs;
use std::io::{self, Read};

/// More than any file of a set, and little enough to read from a device without an end.
const LIMIT: u64 = 1 << 20;

/// A file's name, as messages have it, and its bytes.
#[derive(Debug)]
pub struct File {
    pub name: String,
    pub bytes: Vec<u8>,
}

/// A path as messages have it.
pub fn shown(path: &OsStr) -> String {
    if path == "-" {
        "standard input".to_string()
    } else {
        path.to_string_lossy().into_owned()
    }
}

/// Reads a file, or standard input for `-`.
pub fn read(path: &OsStr) -> Result<File, Failure> {
    let name = shown(path);
    let mut bytes = Vec::new();
    let done = if path == "-" {
        io::stdin().lock().take(LIMIT + 1).read_to_end(&mut bytes)
    } else {
        fs::File::open(path).and_then(|file| file.take(LIMIT + 1).read_to_end(&mut bytes))
    };
    match done {
        Err(error) => Err(Failure::refused(format!("{name} cannot be read: {error}"))),
        Ok(_) if bytes.len() as u64 > LIMIT => Err(Failure::refused(format!("{name} has more than {LIMIT} bytes: no file of a set has"))),
        Ok(_) => Ok(File { name, bytes }),
    }
}

/// Bytes from the system's generator.
pub fn random(count: usize) -> Result<Vec<u8>, Failure> {
    let mut bytes = vec![0; count];
    fs::File::open("/dev/urandom")
        .and_then(|mut source| source.read_exact(&mut bytes))
        .map_err(|error| Failure::refused(format!("the system gives no random bytes: /dev/urandom: {error}")))?;
    Ok(bytes)
}
