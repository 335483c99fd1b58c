//! `tbr make`: text form to file and back, and vehicles to a yard. What is made is held to the
//! proved library first.

use crate::arguments::Arguments;
use crate::end::{End, Failure, Status};
use crate::input::{read, Input, STANDARD};
use crate::output::{Output, Sort};
use crate::take::{self, internal, summary, yard_summary};
use std::ffi::{OsStr, OsString};
use tbr::file::{join_yard, MOST_VEHICLES};
use tbr::{check_yard, form, Which};

fn make(text: &OsStr, name: &OsStr, force: bool) -> Result<End, Failure> {
    let input = read(text)?;
    let made = take::text(&input)?;
    let output = Output { name, holds: Sort::One(made.contents.which()), force };
    Ok(match output.write(made.bytes, &[input])? {
        Some(bytes) => End::done(bytes),
        None => End::done(format!("{}: {}\n", output.shown(), summary(&made.contents))),
    })
}

fn back(file: &OsStr, name: &OsStr, force: bool) -> Result<End, Failure> {
    let input = read(file)?;
    let contents = take::file(&input)?.contents;
    let text = form::write(&contents)
        .ok_or_else(|| internal(&input.name, "the library takes a number without a word"))?;
    let output = Output { name, holds: Sort::One(contents.which()), force };
    Ok(match output.write(text.into_bytes(), &[input])? {
        Some(bytes) => End::done(bytes),
        None => End::done(format!("{}: written\n", output.shown())),
    })
}

/// A vehicle for a yard: what was read, and its file.
fn vehicle(name: &OsStr) -> Result<(Input, Vec<u8>), Failure> {
    let input = read(name)?;
    let taken = take::either(&input, Which::Vehicle, "tbr make --yard VEHICLE.. YARD")?;
    Ok((input, taken.bytes))
}

/// Every vehicle that cannot be taken is reported.
fn vehicles(names: &[OsString]) -> Result<(Vec<Input>, Vec<Vec<u8>>), End> {
    let mut taken = Vec::new();
    let mut end = End { status: Status::Pass, out: Vec::new(), errors: String::new() };
    for name in names {
        match vehicle(name) {
            Ok(one) => taken.push(one),
            Err(failure) => {
                end.status = end.status.max(failure.status());
                end.errors += &failure.lines();
            }
        }
    }
    match end.status {
        Status::Pass => Ok(taken.into_iter().unzip()),
        _ => Err(end),
    }
}

fn join(names: &[OsString], name: &OsStr, force: bool) -> Result<End, End> {
    let (inputs, files) = vehicles(names)?;
    let output = Output { name, holds: Sort::Yard, force };
    // Each file was taken before, by itself.
    let wrong = |words: String| End::from(internal(&output.shown(), words));
    let yard = join_yard(&files).ok_or_else(|| wrong("the vehicles make no yard".to_string()))?;
    check_yard(&yard).map_err(|refusal| wrong(refusal.to_string()))?;
    Ok(match output.write(yard, &inputs)? {
        Some(bytes) => End::done(bytes),
        None => End::done(format!("{}: {}\n", output.shown(), yard_summary(files.len()))),
    })
}

/// `make --yard`, or what is wrong with its arguments.
fn run_yard(arguments: &Arguments) -> Result<End, String> {
    let force = arguments.has("--force");
    match &arguments.operands[..] {
        _ if arguments.has("--back") => Err("--yard and --back do not go together".to_string()),
        [] | [_] => Err("a vehicle or several are needed, and the yard to make".to_string()),
        names if names.len() > 1 + usize::from(MOST_VEHICLES) => {
            Err(format!("a yard holds at most {MOST_VEHICLES} vehicles"))
        }
        [vehicles @ .., _] if vehicles.iter().filter(|name| *name == STANDARD).count() > 1 => {
            Err("standard input can be read but once".to_string())
        }
        [vehicles @ .., yard] => Ok(join(vehicles, yard, force).unwrap_or_else(|end| end)),
    }
}

/// The command, or what is wrong with its arguments.
pub fn run(arguments: &Arguments) -> Result<End, String> {
    if arguments.has("--yard") {
        return run_yard(arguments);
    }
    let force = arguments.has("--force");
    let done = match (arguments.has("--back"), &arguments.operands[..]) {
        (false, [text, file]) => make(text, file, force),
        (true, [file]) => back(file, OsStr::new(STANDARD), force),
        (true, [file, text]) => back(file, text, force),
        (false, _) => return Err("a text form and the file to make of it are needed".to_string()),
        (true, _) => return Err("a file is needed, and at most one text form".to_string()),
    };
    Ok(done.unwrap_or_else(End::from))
}
