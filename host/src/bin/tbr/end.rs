//! How a command ends: its exit status, what it prints, and why a file was not taken.

use tbr::form::{FieldFault, TextError};
use tbr::{Refusal, YardRefusal};

/// The exit status, the worst last.
#[derive(Clone, Copy, Debug, PartialEq, Eq, PartialOrd, Ord)]
#[repr(u8)]
pub enum Status {
    /// Done, or the bridge passes.
    Pass = 0,
    /// The bridge is refused.
    Refuse = 1,
    /// A file or a text form is refused.
    RefusedFile = 2,
    /// Wrong use, or something cannot be read or written.
    Wrong = 3,
    /// The program's own answers do not fit together.
    Internal = 4,
}

impl Status {
    pub fn number(self) -> u8 {
        self as u8
    }
}

/// What a command prints, and its status.
pub struct End {
    pub status: Status,
    pub out: Vec<u8>,
    pub errors: String,
}

impl End {
    /// A command that is done.
    pub fn done(out: impl Into<Vec<u8>>) -> End {
        End { status: Status::Pass, out: out.into(), errors: String::new() }
    }
}

impl From<Failure> for End {
    fn from(failure: Failure) -> End {
        End { status: failure.status(), out: Vec::new(), errors: failure.lines() }
    }
}

/// Why a file was not taken or written.
pub struct Failure {
    /// The file as it was named.
    pub file: String,
    pub cause: Cause,
    /// What may have been meant.
    pub hint: Option<String>,
}

/// A refusal of the library, in numbers and in words.
pub struct Refused {
    pub number: u64,
    pub place: u64,
    /// The vehicle at fault in a yard, from 1.
    pub vehicle: Option<u64>,
    /// What is refused, the number and the record.
    pub heading: String,
    /// What the number means.
    pub meaning: String,
}

impl From<Refusal> for Refused {
    fn from(refusal: Refusal) -> Refused {
        let (heading, meaning) = (refusal.heading(), refusal.meaning());
        let Refusal { number, place, .. } = refusal;
        Refused { number, place, vehicle: None, heading, meaning }
    }
}

impl From<YardRefusal> for Refused {
    fn from(refusal: YardRefusal) -> Refused {
        let (heading, meaning) = (refusal.heading(), refusal.meaning());
        let vehicle = match refusal {
            YardRefusal::Vehicle { vehicle, .. } => u64::try_from(vehicle).ok(),
            YardRefusal::Survey(_) | YardRefusal::Yard { .. } => None,
        };
        Refused { number: refusal.number(), place: refusal.place(), vehicle, heading, meaning }
    }
}

/// What was wrong.
pub enum Cause {
    /// The library refuses the file; the fields at fault, and the numbers of the record.
    Refused { refusal: Box<Refused>, faults: Vec<FieldFault>, record: Vec<(&'static str, u32)> },
    /// The text form has these faults.
    Text(Vec<TextError>),
    /// Something else.
    Other(Status, String),
}

impl Failure {
    /// A failure of another cause.
    pub fn other(status: Status, file: &str, words: impl Into<String>) -> Failure {
        Failure { file: file.to_string(), cause: Cause::Other(status, words.into()), hint: None }
    }

    /// The same, with what may have been meant.
    pub fn hint(self, hint: impl Into<String>) -> Failure {
        Failure { hint: Some(hint.into()), ..self }
    }

    /// The vehicle at fault in a yard.
    pub fn vehicle(&self) -> Option<u64> {
        match &self.cause {
            Cause::Refused { refusal, .. } => refusal.vehicle,
            Cause::Text(_) | Cause::Other(..) => None,
        }
    }

    pub fn status(&self) -> Status {
        match &self.cause {
            Cause::Other(status, _) => *status,
            Cause::Refused { .. } | Cause::Text(_) => Status::RefusedFile,
        }
    }

    /// What was wrong, each fault in words.
    pub fn messages(&self) -> Vec<String> {
        match &self.cause {
            Cause::Refused { refusal, faults, .. } if faults.is_empty() => {
                vec![format!("{}: {}", refusal.heading, refusal.meaning)]
            }
            Cause::Refused { refusal, faults, .. } => {
                let faults: Vec<String> = faults.iter().map(FieldFault::to_string).collect();
                vec![format!("{}: {}", refusal.heading, faults.join("; "))]
            }
            Cause::Text(faults) => faults.iter().map(TextError::to_string).collect(),
            Cause::Other(_, words) => vec![words.clone()],
        }
    }

    /// The lines for standard error.
    pub fn lines(&self) -> String {
        let mut lines = String::new();
        for message in self.messages() {
            lines += &format!("tbr: {}: {message}\n", self.file);
        }
        if let Cause::Refused { record, .. } = &self.cause {
            let number = |(name, number): &(&str, u32)| format!("{name} {number}");
            let numbers: Vec<String> = record.iter().map(number).collect();
            if !numbers.is_empty() {
                lines += &format!("tbr: its numbers: {}\n", numbers.join(", "));
            }
        }
        if let Some(hint) = &self.hint {
            lines += &format!("tbr: hint: {hint}\n");
        }
        lines
    }
}
