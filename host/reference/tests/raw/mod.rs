//! A file without its reader.

use reference::layout::Words;

/// The words of a file as they stand, whether it is acceptable or not.
pub fn raw(bytes: &[u8]) -> Vec<Words> {
    let records = bytes.get(6..).unwrap_or(&[]).chunks_exact(32);
    let word = |record: &[u8], i: usize| u16::from_le_bytes([record[2 * i], record[2 * i + 1]]);
    records.map(|record| std::array::from_fn(|i| word(record, i))).collect()
}
