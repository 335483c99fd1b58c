//! `tbr judge`: a bridge under one vehicle or several. Every load, figure and verdict is the proved
//! code's; only the share used is worked out here, and a margin by [`MemberLoads::margin`].

use crate::arguments::Arguments;
use crate::end::{End, Failure, Status};
use crate::input::{read, shown, STANDARD};
use crate::take::{either, internal, Taken};
use crate::{check, csv, json, table};
use std::ffi::{OsStr, OsString};
use tbr::file::{Contents, Survey};
use tbr::form::kind_of;
use tbr::{Judgement, MemberLoads, Refusal, Which};

const USAGE: &str = "tbr judge SURVEY VEHICLE..";

/// A member: its kind's term and its loads.
pub struct Row {
    pub kind: &'static str,
    pub loads: MemberLoads,
}

impl Row {
    /// Whole percent of the permitted load that the vehicle takes, rounded up: above 100 just
    /// where the member is refused. None where it may bear nothing.
    pub fn share_used(&self) -> Option<u64> {
        let MemberLoads { permitted, vehicle, .. } = self.loads;
        let share = |permitted| (100 * u128::from(vehicle)).div_ceil(permitted);
        (permitted != 0).then(|| u64::try_from(share(permitted.into())).ok()).flatten()
    }
}

/// A bridge under a vehicle.
pub struct Judged {
    pub judgement: Judgement,
    pub rows: Vec<Row>,
}

impl Judged {
    /// The governing member's kind.
    pub fn governing_kind(&self) -> &'static str {
        let governs = |row: &&Row| row.loads.place == self.judgement.governing;
        self.rows.iter().find(governs).map_or("", |row| row.kind)
    }

    /// The places of the members that refuse.
    pub fn refusing(&self) -> Vec<u64> {
        let refusing = self.rows.iter().filter(|row| !row.loads.passes);
        refusing.map(|row| row.loads.place).collect()
    }
}

/// What came of each vehicle, by its name; of none where the survey was not taken.
pub struct Report {
    pub survey: String,
    pub vehicles: Vec<String>,
    pub answers: Result<Vec<Result<Judged, Failure>>, Failure>,
}

pub fn verdict(passes: bool) -> &'static str {
    if passes {
        "pass"
    } else {
        "refuse"
    }
}

/// The kinds of a survey's members, by name.
fn kinds(survey: &Taken) -> Option<Vec<&'static str>> {
    let Contents::Survey(Survey { members, .. }) = &survey.contents else { return None };
    members.iter().map(|words| kind_of(words).map(|kind| kind.name)).collect()
}

/// A judgement with the loads of every member, to which it is held; or how they do not fit.
pub fn with_loads(survey: &Taken, judgement: Judgement, vehicle: &[u8]) -> Result<Judged, String> {
    let loads = tbr::member_loads(&survey.bytes, vehicle).map_err(|refusal| refusal.to_string())?;
    let kinds = kinds(survey).ok_or("a kind without a name")?;
    check::fit(kinds.len(), &judgement, &loads)?;
    let rows = kinds.into_iter().zip(loads).map(|(kind, loads)| Row { kind, loads }).collect();
    Ok(Judged { judgement, rows })
}

fn judged(survey: &Taken, name: &OsStr) -> Result<Judged, Failure> {
    let input = read(name)?;
    let wrong = |words: String| internal(&input.name, words);
    let vehicle = either(&input, Which::Vehicle, USAGE)?;
    // Both files were taken before, each by itself.
    let refused = |refusal: Refusal| wrong(refusal.to_string());
    let judgement = tbr::judge(&survey.bytes, &vehicle.bytes).map_err(refused)?;
    with_loads(survey, judgement, &vehicle.bytes).map_err(wrong)
}

fn report(survey: &OsStr, vehicles: &[OsString]) -> Report {
    let taken = read(survey).and_then(|input| either(&input, Which::Survey, USAGE));
    Report {
        survey: shown(survey),
        vehicles: vehicles.iter().map(|name| shown(name)).collect(),
        answers: taken.map(|survey| vehicles.iter().map(|name| judged(&survey, name)).collect()),
    }
}

/// The worst that came of any file.
pub fn status(report: &Report) -> Status {
    let of_answer = |answer: &Result<Judged, Failure>| match answer {
        Ok(judged) if judged.judgement.passes => Status::Pass,
        Ok(_) => Status::Refuse,
        Err(failure) => failure.status(),
    };
    match &report.answers {
        Ok(answers) => answers.iter().map(of_answer).max().unwrap_or(Status::Pass),
        Err(failure) => failure.status(),
    }
}

/// How a report is written: for standard output, and for standard error.
type Style = fn(&Report) -> (String, String);

fn style(arguments: &Arguments) -> Result<Style, String> {
    match (arguments.has("--csv"), arguments.has("--json")) {
        (true, true) => Err("--csv and --json do not go together".to_string()),
        (true, false) => Ok(|report| (csv::lines(report), String::new())),
        (false, true) => Ok(|report| (json::line(report), String::new())),
        (false, false) => Ok(table::tables),
    }
}

/// The command, or what is wrong with its arguments.
pub fn run(arguments: &Arguments) -> Result<End, String> {
    let [survey, vehicles @ ..] = &arguments.operands[..] else {
        return Err("a survey and a vehicle are needed".to_string());
    };
    if vehicles.is_empty() {
        return Err("a vehicle is needed, behind the survey".to_string());
    }
    if arguments.operands.iter().filter(|name| *name == STANDARD).count() > 1 {
        return Err("standard input can be read but once".to_string());
    }
    let style = style(arguments)?;
    let report = report(survey, vehicles);
    let (out, errors) = style(&report);
    Ok(End { status: status(&report), out: out.into_bytes(), errors })
}
