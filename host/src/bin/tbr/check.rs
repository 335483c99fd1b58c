//! Do the answers fit together? What does not is never shown.

use tbr::Judgement;
use tbr::MemberLoads;
use tbr::YardJudgement;

/// Holds the judgement of a bridge to the loads of its members, of which there are `count`. Both
/// are the proved code's, from two calls: a difference is a fault of the program, in words.
pub fn fit(count: usize, judgement: &Judgement, members: &[MemberLoads]) -> Result<(), String> {
    let Judgement { figure, governing, passes } = *judgement;
    let differ = |what: &str| Err(format!("the judgement and the members' loads differ in {what}"));
    if members.len() != count {
        return differ("the number of members");
    }
    if !members.iter().zip(1..).all(|(member, place)| member.place == place) {
        return differ("the members' places");
    }
    if members.iter().any(|member| member.passes != (member.vehicle <= member.permitted)) {
        return differ("a member's verdict");
    }
    let least = members.iter().map(|member| member.permitted).min();
    if least != Some(figure) {
        return differ("the figure");
    }
    // No files have loads so far apart that their difference is not a margin.
    if members.iter().any(|member| member.checked_margin().is_none()) {
        return differ("a member's margin");
    }
    // The least margin, and of equal ones the first, as `min_by_key` has it.
    let worst = members.iter().min_by_key(|member| member.checked_margin());
    if worst.map(|member| member.place) != Some(governing) {
        return differ("the governing member");
    }
    if passes != members.iter().all(|member| member.passes) {
        return differ("the verdict");
    }
    Ok(())
}

/// Holds the judgements of a yard, which has `count` vehicles, to each other.
pub fn fit_yard(count: usize, yard: &YardJudgement) -> Result<(), String> {
    let differ = |what: &str| Err(format!("the yard and its judgements differ in {what}"));
    if yard.judgements.len() != count {
        return differ("the number of vehicles");
    }
    let passing = yard.judgements.iter().filter(|judgement| judgement.passes).count();
    if u64::try_from(passing) != Ok(yard.passes) {
        return differ("the number of passes");
    }
    Ok(())
}
