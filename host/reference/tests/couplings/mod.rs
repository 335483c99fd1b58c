//! A coupling, and what is said of it.

use reference::generate::Coupling;
use reference::{couple, Vehicle};

/// The vehicle that is loaded, or number and place of the refusal.
pub type Said = Result<Vehicle, (u64, u64)>;

pub fn said(Coupling { first, second, gap }: &Coupling) -> Said {
    couple(first, second, *gap).map_err(|refused| (refused.number, refused.place))
}
