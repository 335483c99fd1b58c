//! What the tests share: seeds, and the comparison with the reference.
#![allow(dead_code, unused_imports)]

pub mod programs;
pub mod scripts;

use reference::{File, Judged, Rated, Refused};
use tbr::{Judgement, MemberLoads, Refusal, Which};

/// The seed of a test run: TBR_SEED (decimal) where that is set.
pub fn seed(usual: u64) -> u64 {
    match std::env::var("TBR_SEED") {
        Ok(text) => text.parse().expect("TBR_SEED is a decimal number"),
        Err(_) => usual,
    }
}

/// A refusal in the reference's terms.
fn refused(Refusal { file, number, place }: Refusal) -> Refused {
    let file = match file {
        Which::Survey => File::Survey,
        Which::Vehicle => File::Vehicle,
    };
    Refused { file, number, place }
}

/// A member's loads in the reference's terms; its place and its verdict are looked at here.
fn rated(loads: &MemberLoads, place: u64) -> Rated {
    let &MemberLoads { permitted, vehicle, .. } = loads;
    let rated = Rated { permitted, vehicle };
    assert_eq!((loads.place, loads.passes), (place, rated.passes()), "{loads:?}");
    assert_eq!(loads.margin(), rated.margin(), "{loads:?}");
    rated
}

/// The answers of both of the library's functions, in the reference's terms. They have no margin:
/// it is that of the loads at the governing place.
pub fn library(survey: &[u8], vehicle: &[u8]) -> Result<Judged, Refused> {
    let judged = tbr::judge(survey, vehicle).map_err(refused);
    let loads = tbr::member_loads(survey, vehicle).map_err(refused);
    match (judged, loads) {
        (Ok(Judgement { figure, governing, passes }), Ok(loads)) => {
            let at_place = |loads: &&MemberLoads| loads.place == governing;
            let margin = loads.iter().find(at_place).expect("a member of the bridge").margin();
            let members = loads.iter().zip(1..).map(|(loads, place)| rated(loads, place)).collect();
            Ok(Judged { figure, governing, passes, margin, members })
        }
        (Err(refused), Err(other)) if refused == other => Err(refused),
        (judged, loads) => panic!("one function refuses, the other not: {judged:?}, {loads:?}"),
    }
}

/// The reference's answer.
pub use reference::judge as expected;
