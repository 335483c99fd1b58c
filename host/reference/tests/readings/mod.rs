//! Wrong readings of a request beside the right one.

use std::fmt::Debug;

/// How often each wrong reading differs from the right one, which agrees with the reference.
pub fn hold<T, A: PartialEq + Debug, W: Copy + Debug>(
    all: &[T],
    wrongs: &[W],
    reference: impl Fn(&T) -> A,
    reading: impl Fn(Option<W>, &T) -> A,
) {
    let mut seen = vec![0; wrongs.len()];
    for (i, one) in all.iter().enumerate() {
        let answer = reference(one);
        assert_eq!(reading(None, one), answer, "number {i}");
        for (seen, &wrong) in seen.iter_mut().zip(wrongs) {
            *seen += u32::from(reading(Some(wrong), one) != answer);
        }
    }
    println!("{seen:?}");
    for (seen, wrong) in seen.iter().zip(wrongs) {
        assert!(*seen > 15, "{wrong:?} is seen {seen} times of {}", all.len());
    }
}
