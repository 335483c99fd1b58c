//! The judgement as JSON, for programs. 'tbr judge --help' and 'tbr yard --help' have the fields.

use crate::end::{Cause, Failure};
use crate::judge::{verdict, Judged, Report, Row};
use crate::value::Json;
use crate::yard::YardReport;
use tbr::MemberLoads;

fn member(row: &Row) -> Json {
    let MemberLoads { place, permitted, vehicle, passes } = row.loads;
    Json::Object(vec![
        ("place", place.into()),
        ("kind", row.kind.into()),
        ("permitted", permitted.into()),
        ("vehicle", vehicle.into()),
        ("used", row.share_used().into()),
        ("verdict", verdict(passes).into()),
    ])
}

/// A fault: the line only in a text form.
fn fault(line: Option<usize>, field: &str, problem: String) -> Json {
    let line = line.and_then(|line| u64::try_from(line).ok());
    Json::Object(vec![
        ("line", line.into()),
        ("field", field.into()),
        ("problem", problem.as_str().into()),
    ])
}

fn error(failure: &Failure) -> Json {
    let (refusal, faults) = match &failure.cause {
        Cause::Refused { refusal, faults, .. } => {
            let faults = faults.iter().map(|f| fault(None, &f.field, f.problem.to_string()));
            (Some(refusal), faults.collect())
        }
        Cause::Text(faults) => {
            let of_text = faults.iter();
            let of_text = of_text.map(|f| fault(Some(f.line), &f.field, f.problem.to_string()));
            (None, of_text.collect())
        }
        Cause::Other(..) => (None, Vec::new()),
    };
    Json::Object(vec![
        ("file", failure.file.as_str().into()),
        ("status", u64::from(failure.status().number()).into()),
        ("number", refusal.map(|refusal| refusal.number).into()),
        ("place", refusal.map(|refusal| refusal.place).into()),
        ("faults", Json::List(faults)),
        ("message", failure.messages().join("; ").as_str().into()),
        ("hint", failure.hint.as_deref().into()),
    ])
}

fn judgement(vehicle: Json, answer: &Result<Judged, Failure>) -> Json {
    let judged = answer.as_ref().ok();
    let judgement = judged.map(|judged| judged.judgement);
    let refusing = judged.map(Judged::refusing).unwrap_or_default();
    let rows = judged.map(|judged| &judged.rows[..]).unwrap_or_default();
    Json::Object(vec![
        ("vehicle", vehicle),
        ("verdict", judgement.map(|judgement| verdict(judgement.passes)).into()),
        ("figure", judgement.map(|judgement| judgement.figure).into()),
        ("governing", judgement.map(|judgement| judgement.governing).into()),
        ("refusing", Json::List(refusing.into_iter().map(Json::from).collect())),
        ("members", Json::List(rows.iter().map(member).collect())),
        ("error", answer.as_ref().err().map_or(Json::Null, error)),
    ])
}

/// The judgements, each under its vehicle, or why there are none.
fn answers(report: &Report, vehicles: impl Iterator<Item = Json>) -> (Json, Json) {
    let (answers, failure) = match &report.answers {
        Ok(answers) => (&answers[..], Json::Null),
        Err(failure) => (&[][..], error(failure)),
    };
    let judgements = vehicles.zip(answers).map(|(vehicle, answer)| judgement(vehicle, answer));
    (Json::List(judgements.collect()), failure)
}

/// One object on one line.
pub fn line(report: &Report) -> String {
    let vehicles = report.vehicles.iter().map(|name| name.as_str().into());
    let (judgements, failure) = answers(report, vehicles);
    let object = Json::Object(vec![
        ("survey", report.survey.as_str().into()),
        ("error", failure),
        ("judgements", judgements),
    ]);
    format!("{object}\n")
}

/// The same of a yard, whose vehicles have numbers.
pub fn yard_line(yard: &YardReport) -> String {
    let (judgements, failure) = answers(&yard.report, (1..).map(Json::Number));
    let object = Json::Object(vec![
        ("survey", yard.report.survey.as_str().into()),
        ("yard", yard.yard.as_str().into()),
        ("error", failure),
        ("faulty", yard.faulty.into()),
        ("passes", yard.passes.into()),
        ("judgements", judgements),
    ]);
    format!("{object}\n")
}
