//! The judgement as people read it: a table for each vehicle, and what was refused.

use crate::judge::{verdict, Judged, Report, Row};
use crate::yard::YardReport;
use tbr::MemberLoads;

const HEADING: [&str; 7] =
    ["place", "member", "permitted kgf/m", "vehicle kgf/m", "margin kgf/m", "used", "verdict"];

fn line([place, member, permitted, vehicle, margin, used, verdict]: [&str; 7]) -> String {
    let loads = format!("{permitted:>15}  {vehicle:>13}  {margin:>14}");
    format!("{place:>5}  {member:<14}  {loads}  {used:>8}  {verdict}\n")
}

fn row(row: &Row) -> String {
    let MemberLoads { place, permitted, vehicle, passes } = row.loads;
    let used = row.share_used().map_or("-".to_string(), |share| format!("{share} %"));
    let [place, permitted, vehicle] = [place, permitted, vehicle].map(|n| n.to_string());
    let margin = row.loads.margin().to_string();
    line([&place, row.kind, &permitted, &vehicle, &margin, &used, verdict(passes)])
}

/// The members that refuse, by place; nothing where none does.
fn by_whom(refusing: &[u64]) -> String {
    let places: Vec<String> = refusing.iter().map(u64::to_string).collect();
    match &places[..] {
        [] => String::new(),
        [place] => format!(": member {place}"),
        [places @ .., last] => format!(": members {} and {last}", places.join(", ")),
    }
}

fn table(judged: &Judged) -> String {
    let rows: String = judged.rows.iter().map(row).collect();
    let (judgement, kind) = (&judged.judgement, judged.governing_kind());
    let (word, whom) = (verdict(judgement.passes), by_whom(&judged.refusing()));
    format!(
        "{}{rows}\nfigure     {} kgf/m\ngoverning  member {}, {kind}\nverdict    {word}{whom}\n",
        line(HEADING),
        judgement.figure,
        judgement.governing,
    )
}

/// The tables, each under its vehicle's name where there are several, and the lines for standard
/// error.
pub fn tables(report: &Report) -> (String, String) {
    let answers = match &report.answers {
        Ok(answers) => answers,
        Err(failure) => return (String::new(), failure.lines()),
    };
    let (mut tables, mut errors) = (Vec::new(), String::new());
    for (answer, vehicle) in answers.iter().zip(&report.vehicles) {
        match answer {
            Ok(judged) if answers.len() == 1 => tables.push(table(judged)),
            Ok(judged) => tables.push(format!("{vehicle}\n{}", table(judged))),
            Err(failure) => errors += &failure.lines(),
        }
    }
    (tables.join("\n"), errors)
}

fn yard_line([vehicle, figure, governing, verdict]: [&str; 4]) -> String {
    format!("{vehicle:>7}  {figure:>12}  {governing:<18}  {verdict}\n")
}

fn yard_row(vehicle: &str, judged: &Judged) -> String {
    let judgement = &judged.judgement;
    let governing = format!("{}, {}", judgement.governing, judged.governing_kind());
    let verdict = format!("{}{}", verdict(judgement.passes), by_whom(&judged.refusing()));
    yard_line([vehicle, &judgement.figure.to_string(), &governing, &verdict])
}

/// A row for each vehicle of a yard and how many pass, and the lines for standard error.
pub fn yard(yard: &YardReport) -> (String, String) {
    let answers = match &yard.report.answers {
        Ok(answers) => answers,
        Err(failure) => return (String::new(), failure.lines()),
    };
    let judged = yard.report.vehicles.iter().zip(answers.iter().flatten());
    let rows: String = judged.map(|(vehicle, judged)| yard_row(vehicle, judged)).collect();
    let heading = yard_line(["vehicle", "figure kgf/m", "governing member", "verdict"]);
    let (passes, count) = (yard.passes.unwrap_or(0), answers.len());
    (format!("{heading}{rows}\n{passes} of {count} vehicles pass\n"), String::new())
}
