//! The longest survey takes 8 KB, and the library hands it on by value: how often a call copies it.
//! The library calls `memcpy` for so large a copy, and this program has a `memcpy` of its own,
//! which counts.

use reference::generate::*;
use reference::layout::{Words, MOST_MEMBERS};
use std::arch::asm;
use std::cell::Cell;
use std::ffi::c_void;
use std::hint::black_box;
use std::mem::size_of;

/// A copy of the longest survey has at least its records.
const SURVEY: usize = MOST_MEMBERS * size_of::<Words>();

thread_local! {
    static COPIES: Cell<u32> = const { Cell::new(0) };
}

/// C's own, in place of it: what is copied is counted where it is as large as a survey.
///
/// # Safety
/// As C has it: both pointers are of so many bytes, which do not overlap.
#[no_mangle]
pub unsafe extern "C" fn memcpy(to: *mut c_void, from: *const c_void, bytes: usize) -> *mut c_void {
    if bytes >= SURVEY {
        COPIES.with(|copies| copies.set(copies.get() + 1));
    }
    // SAFETY: as asked of the caller. A loop in Rust may be compiled to a call of this very
    // function.
    unsafe {
        asm!(
            "rep movsb",
            inout("rcx") bytes => _,
            inout("rdi") to => _,
            inout("rsi") from => _,
            options(nostack, preserves_flags),
        );
    }
    to
}

/// How often something as large as a survey is copied in a call.
fn copies<T>(call: impl FnOnce() -> T) -> u32 {
    let before = COPIES.with(Cell::get);
    black_box(call());
    COPIES.with(Cell::get) - before
}

/// The longest survey, and a yard of so many vehicles.
fn files(vehicles: usize) -> (Vec<u8>, Vec<u8>) {
    let mut random = Random::new(0x0c12_2001);
    let survey = survey_bytes(&bearing_survey(&mut random, MOST_MEMBERS));
    (survey, yard_bytes(&yard(&mut random, Spread::Usual, vehicles, 4)))
}

#[test]
fn copies_are_counted() {
    let bytes = vec![1u8; SURVEY];
    assert_eq!(copies(|| black_box(&bytes).clone()), 1);
    assert_eq!(copies(|| black_box(&bytes[1..]).to_vec()), 0);
}

/// The survey goes once to the function that judges one vehicle, and no vehicle costs more.
#[test]
fn a_vehicle_of_a_yard_costs_one_copy() {
    let counts = [1, 2, 32].map(|vehicles| {
        let (survey, yard) = files(vehicles);
        copies(|| tbr::judge_yard(&survey, &yard).expect("a sound yard"))
    });
    let [one, two, all] = counts;
    assert!(two <= one + 1 && all <= one + 31, "{counts:?} copies");
    assert!((1..=5).contains(&one), "{one} copies");
}

#[test]
fn a_judgement_copies_seldom() {
    let (survey, yard) = files(1);
    let vehicle = &yard[1..];
    let judge = copies(|| tbr::judge(&survey, vehicle).expect("sound files"));
    let loads = copies(|| tbr::member_loads(&survey, vehicle).expect("sound files"));
    assert!((1..=3).contains(&judge), "{judge} copies");
    assert!((1..=5).contains(&loads), "{loads} copies");
}
