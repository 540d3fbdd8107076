use core::fmt;
use core::ops::{Mul, Neg};

/// The sign of a reordering: plus if its inversions are even in number.
#[derive(Debug, Clone, Copy, PartialEq, Eq, Hash, Default)]
#[must_use]
pub enum Sign {
    /// Plus.
    #[default]
    Pos = 1,
    /// Minus.
    Neg = -1,
}

impl Sign {
    pub(crate) fn from_minus(minus: bool) -> Self {
        if minus {
            Sign::Neg
        } else {
            Sign::Pos
        }
    }

    /// Whether it is plus.
    #[must_use]
    pub fn is_pos(self) -> bool {
        self == Sign::Pos
    }

    /// Whether it is minus.
    #[must_use]
    pub fn is_neg(self) -> bool {
        self == Sign::Neg
    }

    /// 1 or -1.
    #[must_use]
    pub fn as_i32(self) -> i32 {
        self as i32
    }
}

impl Neg for Sign {
    type Output = Sign;
    fn neg(self) -> Sign {
        Sign::from_minus(self.is_pos())
    }
}

impl Mul for Sign {
    type Output = Sign;
    fn mul(self, other: Sign) -> Sign {
        Sign::from_minus(self != other)
    }
}

impl fmt::Display for Sign {
    fn fmt(&self, f: &mut fmt::Formatter<'_>) -> fmt::Result {
        f.write_str(if self.is_pos() { "+" } else { "-" })
    }
}
