//! A refused file, and every refusal number in words.

use crate::file::MOST_VEHICLES;
use crate::form::{
    AxleLayout, Layout, Limits, ALL_SPECIES, FIRST_VERSION, KINDS, ORDER, ORDERED_FROM,
};
use std::fmt;

/// Which of the two files.
#[derive(Clone, Copy, Debug, PartialEq, Eq)]
pub enum Which {
    /// The survey of the bridge.
    Survey,
    /// The vehicle.
    Vehicle,
}

impl fmt::Display for Which {
    fn fmt(&self, f: &mut fmt::Formatter) -> fmt::Result {
        f.write_str(match self {
            Which::Survey => "survey",
            Which::Vehicle => "vehicle",
        })
    }
}

/// Why a file was not taken.
#[derive(Clone, Copy, PartialEq, Eq)]
pub struct Refusal {
    /// The file at fault.
    pub file: Which,
    /// The number: 1 length, 2 mark or version, 3 count, 4 kind, 5 species, 6 section code,
    /// 7 a number outside its range, 8 an unused field that is not 0; 15 the second of two surveys
    /// that is not the first worn as much or more; 16 a member that stands before its predecessor
    /// in the order of version 2. Of what no call of this crate does: 17 a weight that version 1
    /// cannot hold, of a vehicle that is to be written in that version; 18 and 19 the second of two
    /// surveys that cannot be joined with the first, as what must agree does not, or as sizes are
    /// too far apart; 14 an output that is too short for either.
    pub number: u64,
    /// The member or axle at fault, from 1; 0 where the fault is in none of them.
    pub place: u64,
}

/// An output that is too short for what is to be written.
pub(crate) const TOO_SHORT: u64 = 14;
/// A weight that the first version of a vehicle cannot hold.
pub(crate) const TOO_HEAVY: u64 = 17;

/// The greatest weight of an axle in the first version of a vehicle.
fn light_weight() -> String {
    let Limits { greatest, unit, .. } = AxleLayout::of(FIRST_VERSION).weight;
    format!("{greatest} {unit}")
}

const NO_WORDS: &str = "a refusal number that has no words here";

/// A refusal as an error is its heading and its meaning. So it is debugged too: a `main` that
/// returns a refusal prints it in words.
macro_rules! told_in_words {
    ($($refusal:ty),*) => {$(
        impl fmt::Display for $refusal {
            fn fmt(&self, f: &mut fmt::Formatter) -> fmt::Result {
                write!(f, "{}: {}", self.heading(), self.meaning())
            }
        }

        impl fmt::Debug for $refusal {
            fn fmt(&self, f: &mut fmt::Formatter) -> fmt::Result {
                fmt::Display::fmt(self, f)
            }
        }

        impl std::error::Error for $refusal {}
    )*};
}

told_in_words!(Refusal, GaugeRefusal, CouplingRefusal, YardRefusal);

impl Refusal {
    /// The file, the number and the record, without what the number means.
    pub fn heading(&self) -> String {
        self.heading_of(&self.file.to_string())
    }

    /// The same of a file that is called so.
    fn heading_of(&self, name: &str) -> String {
        let heading = format!("{name} refused, number {}", self.number);
        match self.place {
            0 => heading,
            place => format!("{heading} at {} {place}", self.file.layout().record),
        }
    }

    /// What the number means for this file, in words.
    pub fn meaning(&self) -> String {
        let Layout { mark, last_version, record, most } = self.file.layout();
        match (self.number, self.file) {
            (2, _) => {
                let mark = String::from_utf8_lossy(*mark);
                let versions = FIRST_VERSION..=*last_version;
                let versions: Vec<String> = versions.map(|version| version.to_string()).collect();
                let versions = versions.join(" or ");
                format!("it does not begin with the letters {mark} and version {versions}")
            }
            (3, _) => format!("its count of {record}s is not 1 to {most}"),
            (4, _) => format!("the kind is not 1 to {}", KINDS.len()),
            (5, _) => {
                let last = ALL_SPECIES.iter().map(|(_, number)| number).max().unwrap_or(&0);
                format!("the species is not 1 to {last}")
            }
            (16, Which::Survey) => format!(
                "it stands behind a member that it must come before; from version {ORDERED_FROM} \
                 members stand {ORDER}"
            ),
            (TOO_HEAVY, Which::Vehicle) => format!(
                "the weight is above {}, and version {FIRST_VERSION} holds no greater",
                light_weight()
            ),
            _ => self.fixed_meaning().to_string(),
        }
    }

    /// The same of the numbers whose words name nothing of the tables.
    fn fixed_meaning(&self) -> &'static str {
        match (self.number, self.file) {
            (1, Which::Survey) => {
                "its length is not what its count says, or it is too short to hold a count"
            }
            (1, Which::Vehicle) => {
                "its length is not what its version and count say, or it is too short to hold them"
            }
            (6, _) => "the section code does not suit the kind",
            (7, Which::Survey) => "a number is outside its range, or A of a joint is above B",
            (7, Which::Vehicle) if self.place == 0 => "the class or the track is outside its range",
            (7, Which::Vehicle) => {
                "the weight or the distance is outside its range; the first axle's distance is 0"
            }
            (8, _) => {
                "a field that the kind or the section does not use is not 0, \
                 or a beam in bending has lost area"
            }
            (TOO_SHORT, Which::Vehicle) => {
                "the output is too short for the file in the other version"
            }
            (TOO_SHORT, Which::Survey) => "the output is too short for the joined survey",
            (_, Which::Survey) => self.meaning_of_two(),
            _ => NO_WORDS,
        }
    }

    /// The same of two surveys of one bridge.
    fn meaning_of_two(&self) -> &'static str {
        match (self.number, self.place) {
            (15 | 18, 0) => "the two surveys have different counts of members",
            (15, _) => {
                "the record is not the first survey's with rot, losses and dead load as great or \
                 greater and all else equal; of closely spaced stringers only the dead load may \
                 grow"
            }
            (18, _) => {
                "the two records differ in what must agree: kind, species, section code, panel \
                 length, distance from the support, tiers, pieces, cuts, dowel type and diameter, \
                 joint part, chord whole, a deck's boards and its rot"
            }
            (19, _) => {
                "the two records are too far apart: a span, or a cross beam's truss spacing, may \
                 differ by 5 cm, and spacing, section sizes, truss height and rot by 1"
            }
            _ => NO_WORDS,
        }
    }
}

/// Why a gauge's readings under a test load were refused. No call of this crate takes readings yet.
#[derive(Clone, Copy, PartialEq, Eq)]
pub struct GaugeRefusal {
    /// The number: 11 no survey, 12 no vehicle, 13 no such member, 20 the readings.
    pub number: u64,
    /// The first bad reading, from 1: empty, loaded, after; 0 where none of them is bad.
    pub place: u64,
}

impl GaugeRefusal {
    /// The number and the reading, without what the number means.
    pub fn heading(&self) -> String {
        let heading = format!("gauge refused, number {}", self.number);
        match self.place {
            0 => heading,
            place => format!("{heading} at reading {place}"),
        }
    }

    /// What the number means, in words.
    pub fn meaning(&self) -> String {
        let reading = match (self.number, self.place) {
            (11, 0) => return "no survey is loaded".to_string(),
            (12, 0) => return "no vehicle is loaded".to_string(),
            (13, 0) => return "the survey has no member at that place".to_string(),
            (20, 0) => return "the reading after the load is above that under it".to_string(),
            (20, 1) => "before the load",
            (20, 2) => "under the load",
            (20, 3) => "after the load",
            _ => return NO_WORDS.to_string(),
        };
        format!(
            "the reading {reading} is not a whole number of 64ths of a mm from 0 to below 512 mm \
             with its sign bit clear"
        )
    }
}

/// Why two vehicles were not coupled. No call of this crate couples vehicles yet.
#[derive(Clone, Copy, PartialEq, Eq)]
pub struct CouplingRefusal {
    /// The number: 1, 2, 3 and 7 of a vehicle, the first file's before the second's; 7 also where
    /// the two differ in class or track, and of the gap; 3 also of their axles together.
    pub number: u64,
    /// The axle at fault in its own file, from 1; 0 where the fault is in none of them.
    pub place: u64,
}

/// The greatest gap between two vehicles, cm.
const GREATEST_GAP: u16 = 2000;

impl CouplingRefusal {
    /// The same of one of the two files.
    fn of_vehicle(&self) -> Refusal {
        Refusal { file: Which::Vehicle, number: self.number, place: self.place }
    }

    /// The number and the axle, without what the number means.
    pub fn heading(&self) -> String {
        self.of_vehicle().heading_of("coupling")
    }

    /// What the number means, in words. A number and a place do not tell which file is at fault, nor
    /// whether one of them is.
    pub fn meaning(&self) -> String {
        let most = Which::Vehicle.layout().most;
        match (self.number, self.place) {
            (3, 0) => format!(
                "a file's count of axles is not 1 to {most}, or the two have more than {most} \
                 axles together"
            ),
            (7, 0) => format!(
                "a file's class or track is outside its range, the two files differ in class or \
                 track, or the gap is not 1 to {GREATEST_GAP} cm"
            ),
            (1 | 2, 0) | (7, _) => {
                format!("in the first or the second file: {}", self.of_vehicle().meaning())
            }
            _ => NO_WORDS.to_string(),
        }
    }
}

/// Why a yard was not judged.
#[derive(Clone, Copy, PartialEq, Eq)]
pub enum YardRefusal {
    /// The survey is refused.
    Survey(Refusal),
    /// A vehicle is: the first that is at fault.
    Vehicle {
        /// Its place in the yard, from 1.
        vehicle: usize,
        /// Its own refusal.
        refusal: Refusal,
    },
    /// The yard is, and none of its vehicles.
    Yard {
        /// The number: 1 no vehicles' count, or bytes left over; 3 the count.
        number: u64,
        /// The place, which is 0.
        place: u64,
    },
}

impl YardRefusal {
    /// The number of the refusal.
    pub fn number(&self) -> u64 {
        match self {
            YardRefusal::Survey(refusal) | YardRefusal::Vehicle { refusal, .. } => refusal.number,
            YardRefusal::Yard { number, .. } => *number,
        }
    }

    /// The member or axle at fault, from 1; 0 where the fault is in none of them.
    pub fn place(&self) -> u64 {
        match self {
            YardRefusal::Survey(refusal) | YardRefusal::Vehicle { refusal, .. } => refusal.place,
            YardRefusal::Yard { place, .. } => *place,
        }
    }

    /// What is refused, the number and the record, without what the number means.
    pub fn heading(&self) -> String {
        match self {
            YardRefusal::Survey(refusal) => refusal.heading(),
            YardRefusal::Vehicle { vehicle, refusal } => {
                refusal.heading_of(&format!("{} {vehicle}", refusal.file))
            }
            YardRefusal::Yard { number, .. } => format!("yard refused, number {number}"),
        }
    }

    /// What the number means, in words.
    pub fn meaning(&self) -> String {
        match self {
            YardRefusal::Survey(refusal) | YardRefusal::Vehicle { refusal, .. } => {
                refusal.meaning()
            }
            YardRefusal::Yard { number: 1, .. } => {
                "it is empty, or bytes are left over behind its last vehicle".to_string()
            }
            YardRefusal::Yard { number: 3, .. } => {
                format!("its count of vehicles is not 1 to {MOST_VEHICLES}")
            }
            YardRefusal::Yard { .. } => NO_WORDS.to_string(),
        }
    }
}
