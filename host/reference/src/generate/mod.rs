//! A deterministic generator of files: the same seed gives the same files on every machine.

mod between;
mod border;
mod brink;
mod corners;
mod couple;
mod damage;
mod disagree;
mod disorder;
mod gauge;
mod heavier;
mod join;
mod measured;
mod order;
mod places;
mod random;
mod readings;
mod survey;
mod tie;
mod vehicle;
mod worse;
mod yard;

pub use crate::layout::survey_bytes_of;
pub use between::{
    bearing_survey, damaged_pairs, file_as_they_stand, ordered_pair, some_entries,
    some_pair_damage, survey_between, vehicle_near, worn, DamagedPair,
};
pub use border::at_seven_stringers;
pub use brink::at_the_limit;
pub use corners::corners;
pub use couple::{
    damaged_couplings, in_one_vehicle, some_coupling, sound_coupling, two_halves, unfit_coupling,
    Coupling, DamagedCoupling, Unfit, NO_GAPS,
};
pub use damage::{any_bytes, some_damage};
pub use disagree::{disagree, Disagreement};
pub use disorder::{disorder, Disorder};
pub use gauge::{
    damaged_gauges, good_readings, most_within, some_gauge, some_gauge_call, sound_gauge_call,
    tested_member, tested_survey, DamagedGauge, Gauge, GaugeCall,
};
pub use heavier::{
    damaged_conversions, length, other_version, some_conversion, sound_conversion, wrong_lengths,
    wrong_weights, Conversion, DamagedConversion, LONGEST_OUTPUT,
};
pub use join::{damaged_joins, some_join, sound_join, survey_length, DamagedJoin, Join};
pub use measured::{apart_in_one, crossing, measured, Apart};
pub use order::{
    alike_survey, any_survey, full_survey_file, in_order, misplace, misplaced_surveys, one_before,
    some_version, survey_file, with_version, wrong_versions, Misplaced, NO_VERSIONS,
};
pub use places::{damaged_surveys, damaged_vehicles, Damaged};
pub use random::Random;
pub use readings::{deflected, edge_readings, reading_bits, risen, NoReading, LAST_READING};
pub use survey::{full_survey, kinds_in_turn, of_each_kind, survey, survey_bytes, Spread};
pub use tie::at_a_tie;
pub use vehicle::{
    fitting_vehicle, vehicle, vehicle_bytes, vehicle_of, AxleWords, VehicleWords, HEAVY_EDGES,
    NO_WEIGHTS, VERSIONS,
};
pub use worse::{matched_survey, two_heavy_vehicles, two_vehicles, worse_survey, Matched, Wear};
pub use yard::{damaged_yards, joined, some_yard_damage, yard, yard_bytes, DamagedYard};
