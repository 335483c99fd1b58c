//! The judgement as comma separated values: a line for each vehicle. 'tbr judge --help' and
//! 'tbr yard --help' have the columns.

use crate::end::{Cause, Failure};
use crate::judge::{verdict, Judged, Report};

const COLUMNS: [&str; 11] = [
    "survey",
    "vehicle",
    "verdict",
    "figure",
    "governing",
    "member",
    "refusing",
    "file",
    "number",
    "place",
    "message",
];

/// A value, in quotes where it would not stand by itself.
fn value(text: &str) -> String {
    match text.contains([',', '"', '\n', '\r']) {
        true => format!("\"{}\"", text.replace('"', "\"\"")),
        false => text.to_string(),
    }
}

fn line(values: &[String]) -> String {
    let values: Vec<String> = values.iter().map(|text| value(text)).collect();
    values.join(",") + "\n"
}

/// The columns from the verdict on, of a vehicle that was judged.
fn of_judged(judged: &Judged) -> [String; 9] {
    let judgement = &judged.judgement;
    let refusing: Vec<String> = judged.refusing().iter().map(u64::to_string).collect();
    let [file, number, place, message] = [const { String::new() }; 4];
    [
        verdict(judgement.passes).to_string(),
        judgement.figure.to_string(),
        judgement.governing.to_string(),
        judged.governing_kind().to_string(),
        refusing.join(" "),
        file,
        number,
        place,
        message,
    ]
}

/// The same where a file was not taken.
fn of_failure(failure: &Failure) -> [String; 9] {
    let (number, place) = match &failure.cause {
        Cause::Refused { refusal, .. } => (refusal.number.to_string(), refusal.place.to_string()),
        Cause::Text(_) | Cause::Other(..) => (String::new(), String::new()),
    };
    let [figure, governing, member, refusing] = [const { String::new() }; 4];
    let (file, message) = (failure.file.clone(), failure.messages().join("; "));
    ["error".to_string(), figure, governing, member, refusing, file, number, place, message]
}

/// The heading and a line for each vehicle.
pub fn lines(report: &Report) -> String {
    let mut lines = line(&COLUMNS.map(str::to_string));
    for (i, vehicle) in report.vehicles.iter().enumerate() {
        let columns = match &report.answers {
            Ok(answers) => match answers.get(i) {
                Some(Ok(judged)) => of_judged(judged),
                Some(Err(failure)) => of_failure(failure),
                None => continue,
            },
            Err(failure) => of_failure(failure),
        };
        let names = [report.survey.clone(), vehicle.clone()];
        lines += &line(&[&names[..], &columns[..]].concat());
    }
    lines
}
