//! `include/tbr.h` as C sees it: a small program is compiled against it, linked with the libraries
//! and run on files, and gives what the Rust functions give.

mod cli;

use cli::{sample, Folder};
use reference::generate::{full_survey, survey_bytes, Random, Spread};
use std::path::{Path, PathBuf};
use std::process::Command;

const HOST: &str = env!("CARGO_MANIFEST_DIR");

/// The C program, or nothing where this machine has no C compiler.
fn compiled(folder: &Folder) -> Option<PathBuf> {
    let program = folder.folder().join("loads");
    let mut cc = Command::new("cc");
    cc.args(["-std=c99", "-Wall", "-Wextra", "-Wpedantic", "-Werror", "-I"])
        .arg(Path::new(HOST).join("include"))
        .arg(Path::new(HOST).join("tests/c/loads.c"))
        .args(["-L", env!("OUT_DIR"), "-ljudgement", "-lexports", "-o"])
        .arg(&program);
    match cc.status() {
        Ok(status) => assert!(status.success(), "cc failed: {status}"),
        Err(error) => {
            println!("not run, as there is no C compiler: {error}");
            return None;
        }
    }
    Some(program)
}

/// A list of so many entries with these in front, as the program prints it.
fn list(entries: usize, written: impl Iterator<Item = u64>) -> String {
    let mut list: Vec<u64> = (1_000_000..).take(entries).collect();
    list.iter_mut().zip(written).for_each(|(entry, number)| *entry = number);
    let list: String = list.iter().map(|entry| format!(" {entry}")).collect();
    format!("list{list}\n")
}

/// What the program must print of both files, by the Rust functions.
fn of_files(survey: &[u8], vehicle: &[u8], entries: usize) -> String {
    let numbers = match tbr::judge(survey, vehicle) {
        Ok(j) => format!("0 0 {} {} {}", j.figure, j.governing, u8::from(j.passes)),
        Err(refusal) => format!("{} {} 0 0 0", refusal.number, refusal.place),
    };
    let members = tbr::member_loads(survey, vehicle).unwrap_or_default();
    let (loads, members) = match entries < 2 * members.len() {
        true => ("14 0 0 0 0", &[][..]),
        false => (&numbers[..], &members[..]),
    };
    let pairs = members.iter().flat_map(|member| [member.permitted, member.vehicle]);
    let list = list(entries, pairs);
    format!("judge {numbers}\nloads {loads}\nmembers {}\n{list}", members.len())
}

/// The same of survey and yard.
fn of_yard(survey: &[u8], yard: &[u8], entries: usize) -> String {
    let (numbers, judgements) = match tbr::judge_yard(survey, yard) {
        Ok(judged) if entries < 3 * judged.judgements.len() => ("14 0 0 0".to_string(), Vec::new()),
        Ok(judged) => {
            (format!("0 0 {} {}", judged.judgements.len(), judged.passes), judged.judgements)
        }
        Err(refusal) => (format!("{} {} 0 0", refusal.number(), refusal.place()), Vec::new()),
    };
    let answers = judgements.iter().flat_map(|j| [j.figure, j.governing, u64::from(j.passes)]);
    format!("yard {numbers}\n{}", list(entries, answers))
}

#[test]
fn a_c_program_gets_the_same() {
    let folder = Folder::new("c");
    let Some(program) = compiled(&folder) else { return };
    let (survey, vehicle) = (sample("forest-road.tbr"), sample("lorry.tbv"));
    let fits = 2 * usize::from(survey[5]);
    let mut marked = vehicle.clone();
    marked[0] = b'?';
    let mut out_of_order = survey.clone();
    out_of_order[3] = 2;
    let joined = |files: &[&Vec<u8>]| tbr::file::join_yard(files).unwrap();
    let yard = joined(&[&vehicle, &sample("case-l.tbv"), &vehicle, &vehicle, &vehicle]);
    let damaged = joined(&[&vehicle, &marked]);
    let trailer = sample("transformer-trailer.tbv");
    let both_versions = joined(&[&trailer, &vehicle, &trailer]);
    let cut = both_versions[..both_versions.len() - 1].to_vec();
    let longest = survey_bytes(&full_survey(&mut Random::new(12), Spread::Usual));
    let all = [
        (&survey, &vehicle, &yard),
        (&vehicle, &vehicle, &yard),
        (&survey, &marked, &damaged),
        (&survey, &survey, &survey),
        (&sample("ordered.tbr"), &vehicle, &yard),
        (&out_of_order, &vehicle, &yard),
        (&survey, &trailer, &both_versions),
        (&survey, &cut, &cut),
        (&longest, &vehicle, &yard),
    ];
    for (survey, vehicle, yard) in all {
        for entries in [0, fits - 1, fits, fits + 1, fits + 3, 509, 510] {
            let files = [("survey", survey), ("vehicle", vehicle), ("yard", yard)];
            let paths = files.map(|(name, bytes)| folder.file(name, bytes));
            let run = Command::new(&program).args(paths).arg(entries.to_string()).output().unwrap();
            assert!(run.status.success(), "{run:?}");
            let printed = String::from_utf8(run.stdout).unwrap();
            let expected = of_files(survey, vehicle, entries) + &of_yard(survey, yard, entries);
            assert_eq!(printed, expected, "{entries} entries");
        }
    }
}
