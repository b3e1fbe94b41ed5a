//! A comparison: an operator and its constants.

use crate::Operator;

/// What an entry has to satisfy to be selected.
///
/// All comparing is of whole numbers: the constants may be any signed 64-bit numbers, also
/// negative ones and ones that no entry of the column can reach.
///
/// ```
/// use cahermisk::{Comparison, Operator};
///
/// let band = Comparison::between(230, 250);
/// assert_eq!(band, Comparison::new(Operator::Between, 230, 250));
/// ```
#[derive(Clone, Copy, Debug, PartialEq, Eq, Hash)]
#[must_use]
pub struct Comparison {
    /// How the entry is compared.
    pub operator: Operator,
    /// The first constant.
    pub a: i64,
    /// The second constant, ignored by all but [`Operator::Between`] and [`Operator::NotBetween`].
    pub b: i64,
}

impl Comparison {
    /// The comparison of an operator with two constants.
    pub const fn new(operator: Operator, a: i64, b: i64) -> Comparison {
        Comparison { operator, a, b }
    }

    /// Equal to a.
    pub const fn equal(a: i64) -> Comparison {
        Comparison::new(Operator::Equal, a, 0)
    }

    /// Not equal to a.
    pub const fn not_equal(a: i64) -> Comparison {
        Comparison::new(Operator::NotEqual, a, 0)
    }

    /// Less than a.
    pub const fn less(a: i64) -> Comparison {
        Comparison::new(Operator::Less, a, 0)
    }

    /// Less than or equal to a.
    pub const fn less_or_equal(a: i64) -> Comparison {
        Comparison::new(Operator::LessOrEqual, a, 0)
    }

    /// Greater than a.
    pub const fn greater(a: i64) -> Comparison {
        Comparison::new(Operator::Greater, a, 0)
    }

    /// Greater than or equal to a.
    pub const fn greater_or_equal(a: i64) -> Comparison {
        Comparison::new(Operator::GreaterOrEqual, a, 0)
    }

    /// From a to b, with both ends; nothing if a > b.
    pub const fn between(a: i64, b: i64) -> Comparison {
        Comparison::new(Operator::Between, a, b)
    }

    /// Not from a to b; everything if a > b.
    pub const fn not_between(a: i64, b: i64) -> Comparison {
        Comparison::new(Operator::NotBetween, a, b)
    }
}
