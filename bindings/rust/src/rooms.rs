//! Every function that fills a buffer, tried with each room from 0 up to what it writes and a little more, between guards: too little room
//! is refused 8 with nothing written, and enough room is filled from place 0 up.

extern crate std;
use crate::sys::{self, Status};
use std::vec::Vec;

const GUARD: usize = 3;

fn try_rooms<T: Copy + PartialEq + core::fmt::Debug + From<u32>>(wanted: &[T], call: impl Fn(&mut [T], &mut u64) -> Status) {
    for room in 0..=wanted.len() + 2 {
        let before: Vec<T> = (0..room + 2 * GUARD).map(|i| T::from(0xa5a5_0000 + i as u32)).collect();
        let (mut places, mut written) = (before.clone(), 99);
        let Status { number, at } = call(&mut places[GUARD..GUARD + room], &mut written);
        let (mut after, filled) = (before, room >= wanted.len());
        if filled {
            after[GUARD..GUARD + wanted.len()].copy_from_slice(wanted);
        }
        assert_eq!((number, at), (if filled { 0 } else { 8 }, 0), "room {room}");
        assert_eq!(written, if filled { wanted.len() as u64 } else { 99 }, "room {room}");
        assert_eq!(places, after, "room {room}");
    }
}

#[test]
fn words() {
    try_rooms(&[0, 2, 2], |word, written| sys::gudrenoss_unpack(true, 3, 25, word, written));
    try_rooms(&[0, 3, 4], |word, written| sys::gudrenoss_unpack(false, 5, 25, word, written));
    try_rooms(&[0; 64], |word, written| {
        sys::gudrenoss_unpack(true, 1, u64::MAX, word, written)
    });
    try_rooms(&[0, 2], |word, written| sys::gudrenoss_unrank(true, 3, 2, 3, word, written));
    try_rooms(&[7; 9], |word, written| {
        sys::gudrenoss_unrank(true, 8, 9, 11439, word, written)
    });
}

#[test]
fn lexicographic_words() {
    try_rooms(&[1, 1], |word, written| sys::gudrenoss_lex_unrank(true, 3, 2, 3, word, written));
    try_rooms(&[1, 1], |next, written| sys::gudrenoss_lex_successor(true, 3, &[0, 2], next, written));
    try_rooms(&[0, 2, 3], |next, written| {
        sys::gudrenoss_lex_successor(false, 4, &[0, 1, 3], next, written)
    });
}

#[test]
fn wide_words() {
    try_rooms(&[0, 64], |word, written| {
        sys::gudrenoss_wide_unrank(false, 128, 2, 2016, word, written)
    });
    try_rooms(&[0; 128], |word, written| {
        sys::gudrenoss_wide_unrank(true, 1, 128, 0, word, written)
    });
}

#[test]
fn shapes() {
    let radices = [2, 3, 4, 5, 6, 7, 8, 9, 1, 1, 1, 1, 1, 1, 1, 2];
    let strides = [
        1, 2, 6, 24, 120, 720, 5040, 40320, 362880, 362880, 362880, 362880, 362880, 362880, 362880, 362880,
    ];
    try_rooms(&strides, |strides, written| {
        sys::gudrenoss_shape_strides(&radices, strides, written)
    });
    try_rooms(&[1, 2, 3], |digits, written| {
        sys::gudrenoss_shape_delinearize(&[2, 3, 4], 23, digits, written)
    });
    try_rooms(&[], |digits, written| {
        sys::gudrenoss_shape_delinearize(&[], 0, digits, written)
    });
}

#[test]
fn digit_words() {
    try_rooms(&[2, 0, 1], |symbols, written| {
        sys::gudrenoss_digits_symbols(3, 3, 11, symbols, written)
    });
    try_rooms(&[0; 64], |symbols, written| {
        sys::gudrenoss_digits_symbols(1, 64, 0, symbols, written)
    });
}

#[test]
fn exponents() {
    try_rooms(&[0, 2, 2], |word, written| {
        sys::gudrenoss_exponents_word(&[1, 0, 2], word, written)
    });
    try_rooms(&[0; 64], |word, written| sys::gudrenoss_exponents_word(&[64], word, written));
    try_rooms(&[1, 0, 2], |entries, written| {
        sys::gudrenoss_exponents_from_word(3, &[2, 0, 2], entries, written)
    });
    try_rooms(&[1, 0, 1], |entries, written| {
        sys::gudrenoss_exponents_from_rank(3, 2, 3, entries, written)
    });
    try_rooms(&[0; 64], |entries, written| {
        sys::gudrenoss_exponents_from_rank(64, 0, 0, entries, written)
    });
    try_rooms(&[1, 3, 3], |entries, written| {
        sys::gudrenoss_exponents_add(&[1, 0, 2], &[0, 3, 1], entries, written)
    });
}

#[test]
fn derivatives() {
    try_rooms(&[10, 6], |entries, written| {
        sys::gudrenoss_derivative(2, 2, 0, &[5, 6, 7], entries, written)
    });
    try_rooms(&[-3], |entries, written| {
        sys::gudrenoss_derivative(1, 1, 0, &[-3], entries, written)
    });
    try_rooms(&[i64::MIN], |entries, written| {
        sys::gudrenoss_derivative(1, 64, 0, &[i64::MIN / 64], entries, written)
    });
}
