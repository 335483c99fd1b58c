//! `tbr yard`: a bridge under every vehicle of a yard, by the proved code's one call.

use crate::arguments::Arguments;
use crate::end::{End, Failure, Status};
use crate::input::{read, shown, Input, STANDARD};
use crate::judge::{self, with_loads, Judged, Report};
use crate::take::{either, internal, refused_yard, Taken};
use crate::{check, csv, json, table};
use std::ffi::OsStr;
use tbr::file::split_yard;
use tbr::form::{look, Look};
use tbr::{Which, YardRefusal};

const USAGE: &str = "tbr yard SURVEY YARD";

/// What came of a yard.
pub struct YardReport {
    pub yard: String,
    /// So many vehicles pass; None where anything was refused.
    pub passes: Option<u64>,
    /// The vehicle at fault, from 1, where the yard was refused for one.
    pub faulty: Option<u64>,
    /// The vehicles by number; where anything was refused the one at fault, or an empty name.
    pub report: Report,
}

/// What may have been meant by this file.
fn hint(name: &str, which: Which) -> String {
    match which {
        Which::Survey => format!("{name} is a survey; the order is: {USAGE}"),
        Which::Vehicle => {
            format!("{name} is a vehicle; 'tbr judge' judges it, 'tbr make --yard' makes a yard")
        }
    }
}

/// The failure of what is no yard, with what may have been meant.
fn hinted(input: &Input, failure: Failure) -> Failure {
    let name = &input.name;
    match look(&input.bytes) {
        Look::File(which) => failure.hint(hint(name, which)),
        Look::Text(which) => {
            let words = format!("the text form of a {which}, not a yard");
            Failure::other(Status::RefusedFile, name, words).hint(hint(name, which))
        }
        Look::Yard | Look::OtherText | Look::Other => failure,
    }
}

/// The judgements of a yard's vehicles, and how many pass.
fn judged(survey: &Taken, input: &Input) -> Result<(Vec<Judged>, u64), Failure> {
    let wrong = |words: String| internal(&input.name, words);
    let yard = tbr::judge_yard(&survey.bytes, &input.bytes).map_err(|refusal| match refusal {
        // The survey was taken before, by itself.
        YardRefusal::Survey(refusal) => wrong(refusal.to_string()),
        other => hinted(input, refused_yard(input, other)),
    })?;
    let files = split_yard(&input.bytes).unwrap_or_default();
    check::fit_yard(files.len(), &yard).map_err(wrong)?;
    let answers = yard.judgements.iter().zip(files);
    let answers = answers.map(|(judgement, file)| with_loads(survey, *judgement, file));
    Ok((answers.collect::<Result<_, _>>().map_err(wrong)?, yard.passes))
}

fn read_and_judged(survey: &OsStr, yard: &OsStr) -> Result<(Vec<Judged>, u64), Failure> {
    let survey = either(&read(survey)?, Which::Survey, USAGE)?;
    judged(&survey, &read(yard)?)
}

fn report(survey: &OsStr, yard: &OsStr) -> YardReport {
    let (vehicles, answers, passes, faulty) = match read_and_judged(survey, yard) {
        Ok((judged, passes)) => {
            let numbers = (1..=judged.len()).map(|number| number.to_string()).collect();
            (numbers, Ok(judged.into_iter().map(Ok).collect()), Some(passes), None)
        }
        Err(failure) => {
            let faulty = failure.vehicle();
            let number = faulty.map_or(String::new(), |number| number.to_string());
            (vec![number], Err(failure), None, faulty)
        }
    };
    let report = Report { survey: shown(survey), vehicles, answers };
    YardReport { yard: shown(yard), passes, faulty, report }
}

/// How a report is written: for standard output, and for standard error.
type Style = fn(&YardReport) -> (String, String);

fn style(arguments: &Arguments) -> Result<Style, String> {
    match (arguments.has("--csv"), arguments.has("--json")) {
        (true, true) => Err("--csv and --json do not go together".to_string()),
        (true, false) => Ok(|yard| (csv::lines(&yard.report), String::new())),
        (false, true) => Ok(|yard| (json::yard_line(yard), String::new())),
        (false, false) => Ok(table::yard),
    }
}

/// The command, or what is wrong with its arguments.
pub fn run(arguments: &Arguments) -> Result<End, String> {
    let [survey, yard] = &arguments.operands[..] else {
        return Err("a survey and a yard are needed".to_string());
    };
    if survey == STANDARD && yard == STANDARD {
        return Err("standard input can be read but once".to_string());
    }
    let style = style(arguments)?;
    let yard = report(survey, yard);
    let (out, errors) = style(&yard);
    Ok(End { status: judge::status(&yard.report), out: out.into_bytes(), errors })
}
