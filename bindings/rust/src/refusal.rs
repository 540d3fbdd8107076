use crate::sys::Status;
use core::fmt;

/// Why a call gives no answer. Nothing else is ever refused.
#[derive(Debug, Clone, Copy, PartialEq, Eq, Hash)]
pub enum Refusal {
    /// A limit on width is passed: more than 64 symbols, a shifted alphabet above 64, a shifted symbol above 63, a permutation
    /// longer than 64, or than 20 where it is numbered, more than 16 axes, more than 64 digits or exponents.
    TooWide,
    /// A word breaks its family's rule.
    NotMonotone {
        /// The first position whose symbol may not stand after its neighbour. As many symbols as it says keep the rule, and no more.
        at: u64,
    },
    /// A rank, or a number to be taken apart into digits, is not below the count.
    NoSuchRank,
    /// There is no next word, or the walk is finished.
    Last,
    /// A symbol of the family that forbids repetition occurs twice.
    Repeated,
    /// Two families meet, or the complement of a multiset is asked for.
    Family,
    /// A symbol, digit, axis or position is not below its bound, or the symbol is absent.
    Outside,
    /// Lengths or radices differ, or an output is too short.
    Shape,
    /// The number that the call is to state is 2^64 or more.
    TooBig,
    /// The entries are no bijection of 0 .. length - 1.
    NotAPermutation,
    /// A field of an image is wrong, or the image ends early or has bytes left over.
    BadImage {
        /// The offset of the first wrong field in reading order; for an image that ends early its own length, for bytes left over the
        /// first of them.
        at: u64,
    },
    /// The image is good, and has no table of that family and degree.
    NoSuchTable,
    /// The pressure and the temperature are of different frames.
    Frame,
    /// A reading, a coefficient or the mass is infinite or no number.
    NotFinite,
}

impl Refusal {
    /// The refusal with this number and this place, if there is one: a refusal that tells no place has the place 0.
    ///
    /// ```
    /// use gudrenoss::Refusal;
    /// assert_eq!(Refusal::from_parts(2, 1), Some(Refusal::NotMonotone { at: 1 }));
    /// assert_eq!(Refusal::from_parts(4, 0), Some(Refusal::Last));
    /// assert_eq!(Refusal::from_parts(4, 1), None);
    /// ```
    #[must_use]
    pub fn from_parts(number: u64, at: u64) -> Option<Refusal> {
        let refusal = match number {
            1 => Refusal::TooWide,
            2 => Refusal::NotMonotone { at },
            3 => Refusal::NoSuchRank,
            4 => Refusal::Last,
            5 => Refusal::Repeated,
            6 => Refusal::Family,
            7 => Refusal::Outside,
            8 => Refusal::Shape,
            9 => Refusal::TooBig,
            10 => Refusal::NotAPermutation,
            11 => Refusal::BadImage { at },
            12 => Refusal::NoSuchTable,
            13 => Refusal::Frame,
            14 => Refusal::NotFinite,
            _ => return None,
        };
        (refusal.at() == at).then_some(refusal)
    }

    /// Its number in `docs/RULES.md` and `include/gudrenoss.h`, from 1 to 14.
    #[must_use]
    pub fn number(self) -> u64 {
        match self {
            Refusal::TooWide => 1,
            Refusal::NotMonotone { .. } => 2,
            Refusal::NoSuchRank => 3,
            Refusal::Last => 4,
            Refusal::Repeated => 5,
            Refusal::Family => 6,
            Refusal::Outside => 7,
            Refusal::Shape => 8,
            Refusal::TooBig => 9,
            Refusal::NotAPermutation => 10,
            Refusal::BadImage { .. } => 11,
            Refusal::NoSuchTable => 12,
            Refusal::Frame => 13,
            Refusal::NotFinite => 14,
        }
    }

    /// The place that it tells, as `include/gudrenoss.h` gives it: 0 if it tells none.
    #[must_use]
    pub fn at(self) -> u64 {
        match self {
            Refusal::NotMonotone { at } | Refusal::BadImage { at } => at,
            _ => 0,
        }
    }

    /// What the library gave back: number 0 is an answer.
    pub(crate) fn judge(back: Status) -> Result<(), Refusal> {
        match back {
            Status { number: 0, at: 0 } => Ok(()),
            Status { number, at } => Err(Self::from_parts(number, at).expect("the library gives no other number and place")),
        }
    }
}

/// A refusal of one of many, with its position among them.
#[derive(Debug, Clone, Copy, PartialEq, Eq, Hash)]
pub struct RefusedAt {
    /// Why it is refused, as it would be alone.
    pub refusal: Refusal,
    /// Where it stands.
    pub position: u64,
}

impl RefusedAt {
    /// What the library gave back: number 0 is an answer.
    pub(crate) fn judge(number: u64, position: u64) -> Result<(), RefusedAt> {
        if number == 0 {
            return Ok(());
        }
        let refusal = Refusal::from_parts(number, 0).expect("the library gives no other number");
        Err(RefusedAt { refusal, position })
    }
}

impl fmt::Display for Refusal {
    fn fmt(&self, f: &mut fmt::Formatter<'_>) -> fmt::Result {
        let reason = match self {
            Refusal::TooWide => "a limit on width is passed",
            Refusal::NotMonotone { at } => {
                return write!(f, "refused {} at {at}: the word breaks its family's rule", self.number());
            }
            Refusal::NoSuchRank => "the rank is not below the count",
            Refusal::Last => "there is no next word",
            Refusal::Repeated => "a symbol occurs twice",
            Refusal::Family => "the families do not fit",
            Refusal::Outside => "a symbol, digit, axis or position is outside its bound",
            Refusal::Shape => "lengths or radices differ, or an output is too short",
            Refusal::TooBig => "the number is 2^64 or more",
            Refusal::NotAPermutation => "the entries are no permutation",
            Refusal::BadImage { at } => return write!(f, "refused {} at {at}: the image is bad", self.number()),
            Refusal::NoSuchTable => "the image has no such table",
            Refusal::Frame => "the readings are of different frames",
            Refusal::NotFinite => "a reading, a coefficient or the mass is not finite",
        };
        write!(f, "refused {}: {reason}", self.number())
    }
}

impl core::error::Error for Refusal {}

#[cfg(test)]
mod tests {
    extern crate std;
    use super::{Refusal, Status};
    use std::format;
    use std::string::ToString;

    #[test]
    fn parts_lead_back() {
        for number in 1..=14 {
            let tells = number == 2 || number == 11;
            for at in [0, 1, 63, u64::MAX] {
                let Some(refusal) = Refusal::from_parts(number, at) else {
                    assert!(!tells && at != 0);
                    continue;
                };
                assert!(tells || at == 0);
                assert_eq!((refusal.number(), refusal.at()), (number, at));
                assert_eq!(Refusal::judge(Status { number, at }), Err(refusal));
                let place = if tells { format!(" at {at}") } else { "".to_string() };
                assert!(refusal.to_string().starts_with(&format!("refused {number}{place}: ")));
            }
        }
        assert_eq!((Refusal::from_parts(0, 0), Refusal::from_parts(15, 0)), (None, None));
        assert_eq!(Refusal::judge(Status { number: 0, at: 0 }), Ok(()));
    }
}
