//! Stands in for the crate `rug`: the operations of its `Integer` that the original uses.
//!
//! An `i128` is wide enough for every number of a text within document 01's limits: numerals have eight digits, a product has two
//! factors, and a sum has no more terms than a text has nodes.

use std::fmt;
use std::ops::{Add, AddAssign, Div, Mul, MulAssign, Neg, Sub, SubAssign};

/// An integer. Division truncates toward zero, as rug's does.
#[derive(Clone, PartialEq, Eq, Hash, PartialOrd, Ord, Default)]
pub struct Integer(i128);

impl Integer {
    /// The value as a `usize`, if it is one.
    pub fn to_usize(&self) -> Option<usize> {
        self.0.try_into().ok()
    }

    /// The value as an `i64`, if it is one.
    pub fn to_i64(&self) -> Option<i64> {
        self.0.try_into().ok()
    }
}

impl From<i64> for Integer {
    fn from(value: i64) -> Self {
        Self(value.into())
    }
}

impl From<i32> for Integer {
    fn from(value: i32) -> Self {
        Self(value.into())
    }
}

impl PartialEq<i32> for Integer {
    fn eq(&self, other: &i32) -> bool {
        self.0 == i128::from(*other)
    }
}

impl PartialOrd<i32> for Integer {
    fn partial_cmp(&self, other: &i32) -> Option<std::cmp::Ordering> {
        self.0.partial_cmp(&i128::from(*other))
    }
}

impl fmt::Display for Integer {
    fn fmt(&self, f: &mut fmt::Formatter) -> fmt::Result {
        fmt::Display::fmt(&self.0, f)
    }
}

impl fmt::Debug for Integer {
    fn fmt(&self, f: &mut fmt::Formatter) -> fmt::Result {
        fmt::Debug::fmt(&self.0, f)
    }
}

impl Neg for Integer {
    type Output = Self;

    fn neg(self) -> Self {
        Self(-self.0)
    }
}

/// An operation on two integers of which either may be borrowed.
macro_rules! binary {
    ($trait:ident, $method:ident, $operator:tt) => {
        binary!($trait, $method, $operator, Integer, Integer);
        binary!($trait, $method, $operator, Integer, &Integer);
        binary!($trait, $method, $operator, &Integer, Integer);
        binary!($trait, $method, $operator, &Integer, &Integer);
    };
    ($trait:ident, $method:ident, $operator:tt, $left:ty, $right:ty) => {
        impl $trait<$right> for $left {
            type Output = Integer;

            fn $method(self, other: $right) -> Integer {
                Integer(self.0 $operator other.0)
            }
        }
    };
}

binary!(Add, add, +);
binary!(Sub, sub, -);
binary!(Mul, mul, *);
binary!(Div, div, /);

impl Sub<i32> for Integer {
    type Output = Self;

    fn sub(self, other: i32) -> Self {
        Self(self.0 - i128::from(other))
    }
}

impl Sub<Integer> for i32 {
    type Output = Integer;

    fn sub(self, other: Integer) -> Integer {
        Integer(i128::from(self) - other.0)
    }
}

/// An operation that changes an integer in place.
macro_rules! assigning {
    ($trait:ident, $method:ident, $operator:tt) => {
        impl $trait<Integer> for Integer {
            fn $method(&mut self, other: Integer) {
                self.0 $operator other.0;
            }
        }

        impl $trait<&Integer> for Integer {
            fn $method(&mut self, other: &Integer) {
                self.0 $operator other.0;
            }
        }

        impl $trait<i32> for Integer {
            fn $method(&mut self, other: i32) {
                self.0 $operator i128::from(other);
            }
        }
    };
}

assigning!(AddAssign, add_assign, +=);
assigning!(SubAssign, sub_assign, -=);
assigning!(MulAssign, mul_assign, *=);

#[cfg(test)]
mod tests {
    use super::Integer;

    #[test]
    fn division_truncates_toward_zero() {
        let quotient = |a: i32, d: i32| Integer::from(a) / Integer::from(d);
        assert_eq!(quotient(-5, 3), Integer::from(-1));
        assert_eq!(quotient(5, 3), Integer::from(1));
        assert_eq!(quotient(-1, 2), Integer::from(0));
    }
}
