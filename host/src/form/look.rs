//! What bytes look like, before anything of them is checked: a survey, a vehicle, a yard, or a text
//! form.

use super::read::text_of;
use crate::refusal::Which;

/// What bytes look like.
#[derive(Clone, Copy, Debug, PartialEq, Eq)]
pub enum Look {
    /// They open with the mark of this file.
    File(Which),
    /// A byte stands before the mark of a vehicle: they are vehicles joined to a yard.
    Yard,
    /// They are the text form of this file.
    Text(Which),
    /// They are text, but neither a survey's nor a vehicle's.
    OtherText,
    /// They are something else, or nothing.
    Other,
}

/// No text has control characters beside tabs and ends of lines.
fn is_text(bytes: &[u8]) -> bool {
    let of_text = |byte: &u8| !byte.is_ascii_control() || b"\t\r\n\x0c".contains(byte);
    !bytes.is_empty() && bytes.iter().all(of_text)
}

/// Is the first vehicle of a yard where it stands?
fn marked_behind(bytes: &[u8]) -> bool {
    bytes.get(1..).is_some_and(|behind| behind.starts_with(Which::Vehicle.layout().mark))
}

/// What these bytes look like.
pub fn look(bytes: &[u8]) -> Look {
    let marked = |which: &Which| bytes.starts_with(which.layout().mark);
    if let Some(which) = [Which::Survey, Which::Vehicle].into_iter().find(marked) {
        return Look::File(which);
    }
    match is_text(bytes) {
        true => text_of(bytes).map_or(Look::OtherText, Look::Text),
        false if marked_behind(bytes) => Look::Yard,
        false => Look::Other,
    }
}
