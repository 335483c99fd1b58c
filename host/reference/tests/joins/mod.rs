//! A join, and what is said of it.

use reference::generate::Join;
use reference::join;

/// The bytes that are written, or number and place of the refusal.
pub type Said = Result<Vec<u8>, (u64, u64)>;

pub fn said(call: &Join) -> Said {
    let answer = join(&call.first, &call.second, call.room);
    answer.map_err(|refused| (refused.number, refused.place))
}
