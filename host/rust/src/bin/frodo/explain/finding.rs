//! A verdict and its reasons: what was seen, what is proved, what is only likely, what stays open, and what to do next.
use crate::failure::Status;
use crate::theorems::Theorem;

/// The answer to "was the report damaged, or did the noise spoil it?".
#[derive(Clone, Copy, Debug, PartialEq, Eq)]
pub enum Verdict {
    Intact,
    Damaged,
    Spoiled,
    Undecided,
}

impl Verdict {
    pub fn name(self) -> &'static str {
        match self {
            Self::Intact => "intact",
            Self::Damaged => "damaged",
            Self::Spoiled => "spoiled by noise",
            Self::Undecided => "undecided",
        }
    }
}

/// How a statement is known.
#[derive(Clone, Copy, Debug, PartialEq, Eq)]
pub enum Weight {
    /// Computed in this run.
    Seen,
    Proved(Theorem),
    /// Overwhelmingly so, and not proved.
    Likely,
    /// Not known.
    Open,
    /// What to do.
    Next,
}

impl Weight {
    pub fn name(self) -> &'static str {
        match self {
            Self::Seen => "seen",
            Self::Proved(_) => "proved",
            Self::Likely => "likely",
            Self::Open => "open",
            Self::Next => "next",
        }
    }
}

#[derive(Clone, Debug)]
pub struct Finding {
    pub verdict: Verdict,
    pub status: Status,
    pub headline: String,
    pub reasons: Vec<(Weight, String)>,
    /// The sealed report and its secret are known.
    pub known: bool,
}

impl Finding {
    pub fn new(verdict: Verdict, headline: impl Into<String>) -> Self {
        let status = match verdict {
            Verdict::Intact => Status::Done,
            Verdict::Damaged => Status::Damaged,
            Verdict::Spoiled => Status::Spoiled,
            Verdict::Undecided => Status::Undecided,
        };
        Self { verdict, status, headline: headline.into(), reasons: Vec::new(), known: false }
    }

    /// With one more reason.
    pub fn because(mut self, weight: Weight, text: impl Into<String>) -> Self {
        self.reasons.push((weight, text.into()));
        self
    }

    /// With one more reason, before all others.
    pub fn first(mut self, weight: Weight, text: impl Into<String>) -> Self {
        self.reasons.insert(0, (weight, text.into()));
        self
    }

    /// The same as `because`, where a condition holds.
    pub fn because_if(self, holds: bool, weight: Weight, text: impl Into<String>) -> Self {
        if holds {
            self.because(weight, text)
        } else {
            self
        }
    }
}
