//! The functions of `include/gudrenoss.h`, and all the unsafe code there is.
//!
//! A reference is a pointer that C may write through, so the functions without a slice are safe as they stand. A slice crosses as a
//! pointer and a length, which only the functions at the end take apart. Rust's own rule for references gives what the header asks:
//! places that are written overlap nothing else. The library keeps no pointer, has no state, and reads and writes no place outside
//! the lengths it is given (proved, see `docs/PROMISES.md`).

use crate::Refusal;

/// How many entries the record of a permutation has, and so its greatest length.
pub const CAPACITY: usize = 64;

/// What every function gives back, as C has it: the number of a refusal, 0 for an answer, and the place that it tells.
#[repr(C)]
#[derive(Clone, Copy)]
#[must_use]
pub struct Status {
    pub number: u64,
    pub at: u64,
}

/// What the functions on a frame give back, as C has it: the same, and the frame that a refusal names.
#[repr(C)]
#[derive(Clone, Copy)]
#[must_use]
pub struct FrameStatus {
    pub number: u64,
    pub at: u64,
    pub frame: u64,
}

/// The record of a permutation, as C has it. It is lent, and given, as its entries and its length.
#[repr(C)]
#[derive(Clone, Copy)]
pub struct Record {
    pub entries: [u64; CAPACITY],
    pub len: u64,
}

unsafe extern "C" {
    pub safe fn gudrenoss_version(major: &mut u64, minor: &mut u64, patch: &mut u64) -> Status;

    pub safe fn gudrenoss_count(allowed: bool, n: u64, k: u64, count: &mut u64) -> Status;
    pub safe fn gudrenoss_degree(allowed: bool, n: u64, bits: u64, degree: &mut u64) -> Status;
    pub safe fn gudrenoss_symbol(allowed: bool, n: u64, bits: u64, p: u64, symbol: &mut u64) -> Status;
    pub safe fn gudrenoss_rank_of(allowed: bool, n: u64, bits: u64, rank: &mut u64) -> Status;
    pub safe fn gudrenoss_unrank_over(allowed: bool, n: u64, k: u64, r: u64, alphabet: &mut u64, bits: &mut u64) -> Status;
    pub safe fn gudrenoss_unrank_any(allowed: bool, k: u64, r: u64, alphabet: &mut u64, bits: &mut u64) -> Status;
    pub safe fn gudrenoss_successor(allowed: bool, n: u64, bits: u64, next_alphabet: &mut u64, next_bits: &mut u64) -> Status;
    pub safe fn gudrenoss_walk_start(
        allowed: bool,
        n: u64,
        k: u64,
        standing: &mut bool,
        over: &mut u64,
        at: &mut u64,
        remaining: &mut u64,
    ) -> Status;
    pub safe fn gudrenoss_walk_step(
        allowed: bool,
        standing: &mut bool,
        over: &mut u64,
        at: &mut u64,
        remaining: &mut u64,
        alphabet: &mut u64,
        bits: &mut u64,
    ) -> Status;

    pub safe fn gudrenoss_merge(
        left_allowed: bool,
        left_n: u64,
        left_bits: u64,
        right_allowed: bool,
        right_n: u64,
        right_bits: u64,
        minus: &mut bool,
        alphabet: &mut u64,
        bits: &mut u64,
    ) -> Status;
    pub safe fn gudrenoss_delete(
        allowed: bool,
        n: u64,
        bits: u64,
        p: u64,
        minus: &mut bool,
        symbol: &mut u64,
        rest_alphabet: &mut u64,
        rest_bits: &mut u64,
    ) -> Status;
    pub safe fn gudrenoss_complement(
        allowed: bool,
        n: u64,
        bits: u64,
        m: u64,
        minus: &mut bool,
        rest_alphabet: &mut u64,
        rest_bits: &mut u64,
    ) -> Status;
    pub safe fn gudrenoss_stabilizer(allowed: bool, n: u64, bits: u64, stabilizer: &mut u64) -> Status;

    pub safe fn gudrenoss_set_insert(set: u64, s: u64, with: &mut u64) -> Status;
    pub safe fn gudrenoss_set_contains(set: u64, s: u64, contains: &mut bool) -> Status;
    pub safe fn gudrenoss_set_position(set: u64, s: u64, position: &mut u64) -> Status;
    pub safe fn gudrenoss_set_select(set: u64, positions: u64, selected: &mut u64) -> Status;

    pub safe fn gudrenoss_permutation_image(p: &[u64; CAPACITY], n: u64, i: u64, entry: &mut u64) -> Status;
    pub safe fn gudrenoss_permutation_inverse(
        p: &[u64; CAPACITY],
        n: u64,
        entries: &mut [u64; CAPACITY],
        len: &mut u64,
    ) -> Status;
    pub safe fn gudrenoss_permutation_compose(
        p: &[u64; CAPACITY],
        n: u64,
        q: &[u64; CAPACITY],
        m: u64,
        entries: &mut [u64; CAPACITY],
        len: &mut u64,
    ) -> Status;
    pub safe fn gudrenoss_permutation_sign(p: &[u64; CAPACITY], n: u64, minus: &mut bool) -> Status;
    pub safe fn gudrenoss_permutation_rank(p: &[u64; CAPACITY], n: u64, rank: &mut u64) -> Status;
    pub safe fn gudrenoss_permutation_unrank(n: u64, r: u64, entries: &mut [u64; CAPACITY], len: &mut u64) -> Status;
    pub safe fn gudrenoss_permutation_successor(
        p: &[u64; CAPACITY],
        n: u64,
        entries: &mut [u64; CAPACITY],
        len: &mut u64,
    ) -> Status;

    pub safe fn gudrenoss_digits_count(radix: u64, degree: u64, count: &mut u64) -> Status;
    pub safe fn gudrenoss_digits_symbol(radix: u64, degree: u64, rank: u64, p: u64, symbol: &mut u64) -> Status;
    pub safe fn gudrenoss_digits_multiplicity(radix: u64, degree: u64, rank: u64, s: u64, multiplicity: &mut u64) -> Status;
    pub safe fn gudrenoss_digits_stabilizer(radix: u64, degree: u64, rank: u64, stabilizer: &mut u64) -> Status;
    pub safe fn gudrenoss_digits_concat(
        left_radix: u64,
        left_degree: u64,
        left_rank: u64,
        right_radix: u64,
        right_degree: u64,
        right_rank: u64,
        degree: &mut u64,
        rank: &mut u64,
    ) -> Status;
    pub safe fn gudrenoss_digits_delete(radix: u64, degree: u64, rank: u64, p: u64, symbol: &mut u64, rest: &mut u64) -> Status;

    pub safe fn gudrenoss_join(
        pressure_frame: u64,
        pressure: f64,
        temperature_frame: u64,
        temperature: f64,
        frame: &mut u64,
        sample_pressure: &mut f64,
        sample_temperature: &mut f64,
    ) -> FrameStatus;

    pub safe fn gudrenoss_pieces_start(bytes: &mut [u8; 772], seen: &mut u64, state: &mut u64, at: &mut u64) -> Status;
    pub safe fn gudrenoss_pieces_end(bytes: &mut [u8; 772], seen: &mut u64, state: &mut u64, at: &mut u64) -> Status;
    pub safe fn gudrenoss_pieces_verdict(state: u64, at: u64, still: &mut bool, tables: &mut u64) -> Status;

    pub safe fn gudrenoss_wide_count(allowed: bool, n: u64, k: u64, count: &mut u64) -> Status;
    pub safe fn gudrenoss_wide_rank_of(allowed: bool, low: u64, high: u64, rank: &mut u64) -> Status;
    pub safe fn gudrenoss_wide_unrank_over(allowed: bool, n: u64, k: u64, r: u64, low: &mut u64, high: &mut u64) -> Status;
    pub safe fn gudrenoss_wide_unrank_any(allowed: bool, k: u64, r: u64, low: &mut u64, high: &mut u64) -> Status;
    pub safe fn gudrenoss_wide_successor(allowed: bool, low: u64, high: u64, next_low: &mut u64, next_high: &mut u64) -> Status;
    pub safe fn gudrenoss_wide_merge(
        left_allowed: bool,
        left_low: u64,
        left_high: u64,
        right_allowed: bool,
        right_low: u64,
        right_high: u64,
        minus: &mut bool,
        low: &mut u64,
        high: &mut u64,
    ) -> Status;
    pub safe fn gudrenoss_wide_delete(
        allowed: bool,
        low: u64,
        high: u64,
        p: u64,
        minus: &mut bool,
        symbol: &mut u64,
        rest_low: &mut u64,
        rest_high: &mut u64,
    ) -> Status;
}

/// A function with slices: its declaration with the slices taken apart, and a safe function that does so. `[xs]` is a slice that is
/// read, `{xs}` one that is filled; `[xs: u8]` and `{xs: u8}` are of bytes, with i64 of signed numbers.
macro_rules! with_slices {
    ($(fn $name:ident($($parameter:tt $(: $kind:ty)?),*);)*) => {
        $(with_slices!(@munch $name () () () $($parameter $(: $kind)?,)*);)*
    };
    (@munch $name:ident ($($c:tt)*) ($($safe:tt)*) ($($passed:tt)*) [$xs:ident], $($rest:tt)*) => {
        with_slices!(@munch $name ($($c)* $xs: *const u64, _: usize,) ($($safe)* $xs: &[u64],)
            ($($passed)* $xs.as_ptr(), $xs.len(),) $($rest)*);
    };
    (@munch $name:ident ($($c:tt)*) ($($safe:tt)*) ($($passed:tt)*) {$xs:ident}, $($rest:tt)*) => {
        with_slices!(@munch $name ($($c)* $xs: *mut u64, _: usize,) ($($safe)* $xs: &mut [u64],)
            ($($passed)* $xs.as_mut_ptr(), $xs.len(),) $($rest)*);
    };
    (@munch $name:ident ($($c:tt)*) ($($safe:tt)*) ($($passed:tt)*) [$xs:ident: $of:ty], $($rest:tt)*) => {
        with_slices!(@munch $name ($($c)* $xs: *const $of, _: usize,) ($($safe)* $xs: &[$of],)
            ($($passed)* $xs.as_ptr(), $xs.len(),) $($rest)*);
    };
    (@munch $name:ident ($($c:tt)*) ($($safe:tt)*) ($($passed:tt)*) {$xs:ident: $of:ty}, $($rest:tt)*) => {
        with_slices!(@munch $name ($($c)* $xs: *mut $of, _: usize,) ($($safe)* $xs: &mut [$of],)
            ($($passed)* $xs.as_mut_ptr(), $xs.len(),) $($rest)*);
    };
    (@munch $name:ident ($($c:tt)*) ($($safe:tt)*) ($($passed:tt)*) $x:ident: $kind:ty, $($rest:tt)*) => {
        with_slices!(@munch $name ($($c)* $x: $kind,) ($($safe)* $x: $kind,) ($($passed)* $x,) $($rest)*);
    };
    (@munch $name:ident ($($c:tt)*) ($($safe:tt)*) ($($passed:tt)*)) => {
        pub fn $name($($safe)*) -> Status {
            unsafe extern "C" {
                fn $name($($c)*) -> Status;
            }
            // SAFETY: each pointer comes from a slice of the length that is passed with it.
            unsafe { $name($($passed)*) }
        }
    };
}

with_slices! {
    fn gudrenoss_pack(allowed: bool, n: u64, [word], alphabet: &mut u64, bits: &mut u64);
    fn gudrenoss_unpack(allowed: bool, n: u64, bits: u64, {word}, written: &mut u64);
    fn gudrenoss_rank(allowed: bool, [word], rank: &mut u64);
    fn gudrenoss_rank_all(allowed: bool, n: u64, [bits], {ranks}, written: &mut u64);
    fn gudrenoss_unrank(allowed: bool, n: u64, k: u64, r: u64, {word}, written: &mut u64);
    fn gudrenoss_canonicalise(allowed: bool, n: u64, [word], minus: &mut bool, alphabet: &mut u64, bits: &mut u64);
    fn gudrenoss_shape_count([radices], count: &mut u64);
    fn gudrenoss_shape_strides([radices], {strides}, written: &mut u64);
    fn gudrenoss_shape_linearize([radices], [digits], number: &mut u64);
    fn gudrenoss_shape_delinearize([radices], number: u64, {digits}, written: &mut u64);
    fn gudrenoss_shape_corner([radices], axes: u64, offset: &mut u64);
    fn gudrenoss_digits_from_symbols(radix: u64, [symbols], degree: &mut u64, rank: &mut u64);
    fn gudrenoss_digits_symbols(radix: u64, degree: u64, rank: u64, {symbols}, written: &mut u64);
    fn gudrenoss_exponents_word([entries], {word}, written: &mut u64);
    fn gudrenoss_exponents_from_word(n: u64, [word], {entries}, written: &mut u64);
    fn gudrenoss_exponents_rank([entries], rank: &mut u64);
    fn gudrenoss_exponents_from_rank(n: u64, k: u64, r: u64, {entries}, written: &mut u64);
    fn gudrenoss_exponents_add([left], [right], {entries}, written: &mut u64);
    fn gudrenoss_derivative(n: u64, k: u64, s: u64, [table: i64], {entries: i64}, written: &mut u64);
    fn gudrenoss_lex_rank(allowed: bool, n: u64, [word], rank: &mut u64);
    fn gudrenoss_lex_unrank(allowed: bool, n: u64, k: u64, r: u64, {word}, written: &mut u64);
    fn gudrenoss_lex_successor(allowed: bool, n: u64, [word], {next}, written: &mut u64);
    fn gudrenoss_lex_to_colex(allowed: bool, n: u64, k: u64, [from: u8], {to: u8}, written: &mut u64);
    fn gudrenoss_lex_from_colex(allowed: bool, n: u64, k: u64, [from: u8], {to: u8}, written: &mut u64);
    fn gudrenoss_image_check([image: u8], tables: &mut u64);
    fn gudrenoss_image_row([image: u8], allowed: bool, k: u64, alphabet: &mut u64, offset: &mut u64, entries: &mut u64);
    fn gudrenoss_image_lookup([image: u8], allowed: bool, n: u64, bits: u64, coefficient: &mut u64);
    fn gudrenoss_image_at([image: u8], alphabet: u64, offset: u64, entries: u64, allowed: bool, n: u64, bits: u64, coefficient: &mut u64);
    fn gudrenoss_image_write([contents: u8], [bodies: u8], {image: u8}, written: &mut u64);
    fn gudrenoss_pieces_feed(bytes: &mut [u8; 772], seen: &mut u64, state: &mut u64, at: &mut u64, [piece: u8]);
    fn gudrenoss_wide_rank(allowed: bool, [word], rank: &mut u64);
    fn gudrenoss_wide_unrank(allowed: bool, n: u64, k: u64, r: u64, {word}, written: &mut u64);
}

/// The one function with a slice that names a frame.
pub fn gudrenoss_mass(
    image: &[u8],
    pressure_frame: u64,
    pressure: f64,
    temperature_frame: u64,
    temperature: f64,
    mass: &mut f64,
) -> FrameStatus {
    unsafe extern "C" {
        fn gudrenoss_mass(
            image: *const u8,
            _: usize,
            pressure_frame: u64,
            pressure: f64,
            temperature_frame: u64,
            temperature: f64,
            mass: &mut f64,
        ) -> FrameStatus;
    }
    // SAFETY: the pointer comes from a slice of the length that is passed with it.
    unsafe { gudrenoss_mass(image.as_ptr(), image.len(), pressure_frame, pressure, temperature_frame, temperature, mass) }
}

/// The number that a call writes.
pub fn number(call: impl FnOnce(&mut u64) -> Status) -> Result<u64, Refusal> {
    let mut value = 0;
    Refusal::judge(call(&mut value))?;
    Ok(value)
}
