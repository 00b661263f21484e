//! How a run ends: the statuses that scripts can use, and an error with its text.
use std::fmt;

/// The exit statuses.
#[derive(Clone, Copy, Debug, PartialEq, Eq)]
pub enum Status {
    Done = 0,
    Refused = 1,
    Usage = 2,
    Damaged = 3,
    Spoiled = 4,
    Undecided = 5,
    KeyDamaged = 6,
}

/// What `--help` says of each status.
pub const STATUSES: [(Status, &str); 7] = [
    (Status::Done, "done; margin: kept; check: the secret key file is whole; explain: the report is intact"),
    (Status::Refused, "a file is missing, has a wrong length, would be overwritten or cannot be written: nothing was written"),
    (Status::Usage, "the command line is wrong: nothing was written"),
    (Status::Damaged, "explain: the report is damaged (also where it was repaired)"),
    (Status::Spoiled, "margin: lost; explain: the noise spoiled the message"),
    (Status::Undecided, "explain: cannot be decided from what was given"),
    (Status::KeyDamaged, "explain: the report is intact, but the secret key file is not, or is of another key; check: it is not whole, or not the seed's"),
];

/// Why a run was refused: nothing has been written.
#[derive(Debug)]
pub struct Failure {
    pub status: Status,
    pub text: String,
}

impl Failure {
    /// Something that was read, or would be written, is not as it should be.
    pub fn refused(text: impl Into<String>) -> Self {
        Self { status: Status::Refused, text: text.into() }
    }

    /// The command line cannot be understood.
    pub fn usage(text: impl Into<String>) -> Self {
        Self { status: Status::Usage, text: text.into() }
    }
}

impl fmt::Display for Failure {
    fn fmt(&self, f: &mut fmt::Formatter<'_>) -> fmt::Result {
        f.write_str(&self.text)
    }
}

impl From<stroupadal::Refusal> for Failure {
    fn from(refusal: stroupadal::Refusal) -> Self {
        Self::refused(refusal.to_string())
    }
}
