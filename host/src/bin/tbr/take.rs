//! From what was read to a file that the library takes.

use crate::end::{Cause, Failure, Status};
use crate::input::Input;
use tbr::file::{self, Contents};
use tbr::form::{self, look, Look};
use tbr::{check_survey, check_vehicle, check_yard, Refusal, Which, YardRefusal};

/// A file that the library takes.
pub struct Taken {
    pub bytes: Vec<u8>,
    pub contents: Contents,
}

fn check(bytes: &[u8], which: Which) -> Result<(), Refusal> {
    match which {
        Which::Survey => check_survey(bytes),
        Which::Vehicle => check_vehicle(bytes),
    }
}

/// The refusal of these bytes, with the fields at fault.
fn refused(name: &str, bytes: &[u8], refusal: Refusal) -> Failure {
    let (faults, record) = (form::explain(bytes, &refusal), form::numbers(bytes, &refusal));
    let cause = Cause::Refused { refusal: Box::new(refusal.into()), faults, record };
    Failure { file: name.to_string(), cause, hint: None }
}

/// The refusal of a yard, with the fields at fault of a vehicle.
pub fn refused_yard(input: &Input, yard_refusal: YardRefusal) -> Failure {
    let at_fault = match yard_refusal {
        YardRefusal::Vehicle { vehicle, refusal } => {
            let files = file::split_yard(&input.bytes).unwrap_or_default();
            let place = vehicle.checked_sub(1);
            place.and_then(|i| files.get(i)).map(|bytes| (*bytes, refusal))
        }
        YardRefusal::Survey(_) | YardRefusal::Yard { .. } => None,
    };
    let explained = at_fault.map(|(bytes, r)| (form::explain(bytes, &r), form::numbers(bytes, &r)));
    let (faults, record) = explained.unwrap_or_default();
    let cause = Cause::Refused { refusal: Box::new(yard_refusal.into()), faults, record };
    Failure { file: input.name.clone(), cause, hint: None }
}

/// The file of these bytes.
fn from_file(input: &Input, which: Which) -> Result<Taken, Failure> {
    let Input { name, bytes, .. } = input;
    check(bytes, which).map_err(|refusal| refused(name, bytes, refusal))?;
    let contents = match which {
        Which::Survey => file::survey(bytes).map(Contents::Survey),
        Which::Vehicle => file::vehicle(bytes).map(Contents::Vehicle),
    };
    match contents {
        Some(contents) => Ok(Taken { bytes: bytes.clone(), contents }),
        None => Err(internal(name, "the library takes a file without a header")),
    }
}

/// Answers that do not fit together.
pub fn internal(name: &str, words: impl std::fmt::Display) -> Failure {
    Failure::other(Status::Internal, name, format!("internal error: {words}"))
}

fn from_text(input: &Input) -> Result<Taken, Failure> {
    let Input { name, bytes, .. } = input;
    let contents = form::read(bytes).map_err(|faults| {
        let (file, cause) = (name.clone(), Cause::Text(faults));
        Failure { file, cause, hint: None }
    })?;
    let made = contents.bytes().ok_or_else(|| internal(name, "the text form makes no file"))?;
    match check(&made, contents.which()) {
        Ok(()) => Ok(Taken { bytes: made, contents }),
        Err(refusal) => Err(internal(name, format!("the text form is taken, but: {refusal}"))),
    }
}

/// For what is judged or joined: the file wanted, or its text form. The hint says how the command
/// is used.
pub fn either(input: &Input, wanted: Which, usage: &str) -> Result<Taken, Failure> {
    let order = |which| format!("{} is a {which}; the order is: {usage}", input.name);
    match look(&input.bytes) {
        Look::File(which) if which != wanted => {
            from_file(input, wanted).map_err(|failure| failure.hint(order(which)))
        }
        Look::Text(which) if which != wanted => {
            let words = format!("the text form of a {which}, not of a {wanted}");
            Err(Failure::other(Status::RefusedFile, &input.name, words).hint(order(which)))
        }
        Look::Text(_) | Look::OtherText => from_text(input),
        Look::Yard => from_file(input, wanted).map_err(|failure| {
            failure.hint(format!("{} is a yard; 'tbr yard SURVEY YARD' judges it", input.name))
        }),
        Look::File(_) | Look::Other => from_file(input, wanted),
    }
}

/// The vehicles of a yard.
pub fn yard(input: &Input) -> Result<Vec<Contents>, Failure> {
    check_yard(&input.bytes).map_err(|refusal| refused_yard(input, refusal))?;
    let vehicles = |files: Vec<&[u8]>| -> Option<Vec<Contents>> {
        files.into_iter().map(|bytes| file::vehicle(bytes).map(Contents::Vehicle)).collect()
    };
    file::split_yard(&input.bytes)
        .and_then(vehicles)
        .ok_or_else(|| internal(&input.name, "the library takes a yard without vehicles"))
}

/// For `show` and `make --back`: a file of either sort, but no text form.
pub fn file(input: &Input) -> Result<Taken, Failure> {
    let refused = |words| Failure::other(Status::RefusedFile, &input.name, words);
    match look(&input.bytes) {
        Look::File(which) => from_file(input, which),
        Look::Text(which) => Err(refused(format!("the text form of a {which}, not a file"))
            .hint(format!("'tbr make {} FILE' makes the file of it", input.name))),
        Look::Yard => Err(refused("a yard, which has no text form".to_string())
            .hint(format!("'tbr show {}' shows its vehicles", input.name))),
        Look::OtherText | Look::Other => Err(refused(
            "neither a survey (TBR), a vehicle (TBV) nor a yard of vehicles".to_string(),
        )),
    }
}

/// For `make`: a text form of either sort, but no file.
pub fn text(input: &Input) -> Result<Taken, Failure> {
    match look(&input.bytes) {
        Look::File(which) => {
            let words = format!("a {which} file, not a text form");
            let hint = format!("'tbr make --back {} TEXT' writes its text form", input.name);
            Err(Failure::other(Status::RefusedFile, &input.name, words).hint(hint))
        }
        Look::Yard => {
            Err(Failure::other(Status::RefusedFile, &input.name, "a yard, not a text form"))
        }
        Look::Text(_) | Look::OtherText | Look::Other => from_text(input),
    }
}

/// So many of these, in words.
fn counted(count: usize, what: &str) -> String {
    format!("{count} {what}{}", if count == 1 { "" } else { "s" })
}

/// In a few words.
pub fn summary(contents: &Contents) -> String {
    let (which, version) = (contents.which(), contents.version());
    format!("{which} of {}, version {version}", counted(contents.count(), which.layout().record))
}

/// The same of a yard of so many vehicles.
pub fn yard_summary(vehicles: usize) -> String {
    format!("yard of {}", counted(vehicles, "vehicle"))
}
