//! The check that stands before everything `tbr judge` shows: answers that do not fit together.

#[path = "../src/bin/tbr/check.rs"]
mod check;

use check::{fit, fit_yard};
use tbr::{Judgement, MemberLoads, YardJudgement};

/// Permitted and vehicle load of a member.
fn loads(place: u64, permitted: u64, vehicle: u64) -> MemberLoads {
    MemberLoads { place, permitted, vehicle, passes: vehicle <= permitted }
}

/// Three members: the first has the figure, the second governs, the third has as small a margin;
/// both refuse.
fn right() -> (Judgement, Vec<MemberLoads>) {
    let judgement = Judgement { figure: 900, governing: 2, passes: false };
    (judgement, vec![loads(1, 900, 900), loads(2, 1720, 1721), loads(3, 950, 951)])
}

/// What is said of the right answers with one thing changed.
fn said(change: impl Fn(&mut Judgement, &mut Vec<MemberLoads>)) -> String {
    let (mut judgement, mut members) = right();
    change(&mut judgement, &mut members);
    fit(3, &judgement, &members).unwrap_err()
}

#[test]
fn right_answers_fit() {
    let (judgement, members) = right();
    assert_eq!(fit(3, &judgement, &members), Ok(()));
    let passing = Judgement { figure: 900, governing: 1, passes: true };
    assert_eq!(fit(1, &passing, &members[..1]), Ok(()));
}

#[test]
fn the_number_of_members() {
    assert!(said(|_, members| members.truncate(2)).ends_with("the number of members"));
    assert!(said(|_, members| members.push(members[0])).ends_with("the number of members"));
    let nothing = Judgement { figure: 0, governing: 0, passes: true };
    assert!(fit(0, &nothing, &[]).is_err(), "a bridge without members has no figure");
}

#[test]
fn the_places() {
    assert!(said(|_, members| members.swap(0, 1)).ends_with("the members' places"));
    assert!(said(|_, members| members[2].place = 2).ends_with("the members' places"));
    assert!(said(|_, members| members[0].place = 0).ends_with("the members' places"));
}

#[test]
fn the_members_verdicts() {
    for place in 0..3 {
        let words = said(|_, members| members[place].passes = !members[place].passes);
        assert!(words.ends_with("a member's verdict"), "{words}");
    }
    // At the limit a member passes, one above it does not.
    assert!(said(|_, members| members[0].vehicle += 1).ends_with("a member's verdict"));
}

#[test]
fn the_figure() {
    for figure in [0, 899, 901, 1720] {
        assert!(said(|judgement, _| judgement.figure = figure).ends_with("the figure"));
    }
    assert!(said(|_, members| members[2].permitted = 850).ends_with("the figure"));
}

/// The first that has the least margin, and no other: not the one with the figure.
#[test]
fn the_governing_member() {
    for governing in [0, 1, 3, 4] {
        let words = said(|judgement, _| judgement.governing = governing);
        assert!(words.ends_with("the governing member"), "{words}");
    }
    // Margins 520 and 439: the second governs, and the first has the figure.
    let members = [loads(1, 1720, 1200), loads(2, 1939, 1500)];
    let judgement = |governing| Judgement { figure: 1720, governing, passes: true };
    assert_eq!(fit(2, &judgement(2), &members), Ok(()));
    let words = fit(2, &judgement(1), &members).unwrap_err();
    assert!(words.ends_with("the governing member"), "{words}");
}

/// Of margins below 0 the one farthest from it.
#[test]
fn the_governing_member_of_those_that_refuse() {
    let members = [loads(1, 1720, 3600), loads(2, 1939, 4500), loads(3, 1455, 1800)];
    for governing in 1..=3 {
        let judgement = Judgement { figure: 1455, governing, passes: false };
        assert_eq!(fit(3, &judgement, &members).is_ok(), governing == 2, "member {governing}");
    }
}

#[test]
fn margins() {
    for (permitted, vehicle, margin) in [(1720, 1200, 520), (900, 900, 0), (0, 17, -17)] {
        assert_eq!(loads(1, permitted, vehicle).margin(), margin);
    }
    let far = 1 << 63;
    assert_eq!(loads(1, far - 1, 0).margin(), i64::MAX);
    assert_eq!(loads(1, 0, far).margin(), i64::MIN);
    for (permitted, vehicle) in [(far, 0), (0, far + 1)] {
        let judgement = Judgement { figure: permitted, governing: 1, passes: vehicle == 0 };
        let words = fit(1, &judgement, &[loads(1, permitted, vehicle)]).unwrap_err();
        assert!(words.ends_with("a member's margin"), "{words}");
    }
}

#[test]
fn the_verdict() {
    assert!(said(|judgement, _| judgement.passes = true).ends_with("the verdict"));
    let refused = Judgement { figure: 900, governing: 1, passes: false };
    let words = fit(1, &refused, &[loads(1, 900, 900)]).unwrap_err();
    assert!(words.ends_with("the verdict"), "{words}");
}

/// Three vehicles of which two pass.
#[test]
fn the_numbers_of_a_yard() {
    let judgement = |passes| Judgement { figure: 900, governing: 2, passes };
    let yard =
        |passes| YardJudgement { judgements: [true, false, true].map(judgement).into(), passes };
    assert_eq!(fit_yard(3, &yard(2)), Ok(()));
    for count in [0, 2, 4] {
        let words = fit_yard(count, &yard(2)).unwrap_err();
        assert!(words.ends_with("the number of vehicles"), "{words}");
    }
    for passes in [0, 1, 3, u64::MAX] {
        let words = fit_yard(3, &yard(passes)).unwrap_err();
        assert!(words.ends_with("the number of passes"), "{words}");
    }
}
