//! Gudrenoss: proved term numbering for tank gauging.
//!
//! Safe calls of the library behind `include/gudrenoss.h`, whose every function is proved to do what `docs/RULES.md` says, for all
//! inputs. Nothing here allocates. A call gives its answer or the [`Refusal`] that names why there is none; what is never refused
//! gives a plain value. Numbers are `u64` throughout, coefficients `i64`.
//!
//! | here | what it is |
//! |---|---|
//! | [`Repetition`] | the two families of words: subsets and multisets; counting, ranking and unranking of words, also in the lexicographic order of old tables, and the conversion of those |
//! | [`MonoIndex`], [`MonoIndices`] | a word of a family over its alphabet, as 64 bits; a walk through all words of a degree |
//! | [`WideIndex`] | a word whose shifted alphabet is up to 128, as 128 bits, with no alphabet |
//! | [`Combination`] | a set of symbols below 64 |
//! | [`Permutation`] | a permutation of up to 64 entries |
//! | [`Radix`], [`Word`] | shapes, and words of digits over one radix |
//! | [`Composition`] | a list of exponents |
//! | [`derivative`] | the derivative of a surface by one of its quantities |
//! | [`Image`], [`Pieces`] | an image of coefficient tables that is lent; the check of one that comes in pieces |
//! | [`Surface`], [`Reading`], [`join`] | the mass of one frame by a surface of pressure and temperature |
//!
//! The names are those of the Rust crate `multiindex` wherever the calls are the same.
//!
//! ```
//! use gudrenoss::{MonoIndex, Refusal, Repetition};
//!
//! // Over three quantities there are 6 terms of degree 2, and the product of quantity 0 and quantity 2 is number 3.
//! assert_eq!(Repetition::Allowed.count(3, 2)?, 6);
//! assert_eq!(Repetition::Allowed.rank(&[0, 2])?, 3);
//! assert_eq!(Repetition::Forbidden.rank(&[2, 2]), Err(Refusal::NotMonotone { at: 1 }));
//!
//! let words: Vec<Vec<u64>> = MonoIndex::all(Repetition::Allowed, 3, 2)?.map(|i| i.word().to_vec()).collect();
//! assert_eq!(words, [[0, 0], [0, 1], [1, 1], [0, 2], [1, 2], [2, 2]]);
//! # Ok::<(), Refusal>(())
//! ```
#![no_std]
#![deny(missing_docs)]
#![deny(unsafe_code)]

mod cartesian;
mod combination;
mod composition;
mod derivative;
mod image;
mod lexicographic;
mod mass;
mod monotone;
mod permutation;
mod refusal;
#[cfg(test)]
mod rooms;
mod sign;
mod symbols;
#[allow(unsafe_code)]
mod sys;
mod wide;

pub use cartesian::{Radix, Word};
pub use combination::{Combination, Members};
pub use composition::Composition;
pub use derivative::derivative;
pub use image::{Image, Pieces, Table, Tables};
pub use mass::{join, FrameRefusal, Reading, Sample, Surface};
pub use monotone::{MonoIndex, MonoIndices, Repetition};
pub use permutation::Permutation;
pub use refusal::{Refusal, RefusedAt};
pub use sign::Sign;
pub use symbols::Symbols;
pub use wide::WideIndex;

/// The version of the library that is linked: major, minor, patch.
///
/// ```
/// let (major, minor, patch) = gudrenoss::version();
/// assert_eq!(format!("{major}.{minor}.{patch}"), env!("CARGO_PKG_VERSION"));
/// ```
#[must_use]
pub fn version() -> (u64, u64, u64) {
    let (mut major, mut minor, mut patch) = (0, 0, 0);
    let _ = sys::gudrenoss_version(&mut major, &mut minor, &mut patch);
    (major, minor, patch)
}
