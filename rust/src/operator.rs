//! The eight operators of a comparison.

use crate::Refusal;

/// How an entry is compared with the constants a and b of a [`Comparison`](crate::Comparison).
#[derive(Clone, Copy, Debug, PartialEq, Eq, Hash)]
#[repr(u32)]
pub enum Operator {
    /// Equal to a.
    Equal = 0,
    /// Not equal to a.
    NotEqual = 1,
    /// Less than a.
    Less = 2,
    /// Less than or equal to a.
    LessOrEqual = 3,
    /// Greater than a.
    Greater = 4,
    /// Greater than or equal to a.
    GreaterOrEqual = 5,
    /// From a to b, with both ends; nothing if a > b.
    Between = 6,
    /// Not from a to b; everything if a > b.
    NotBetween = 7,
}

impl Operator {
    /// All operators, each at its own number.
    pub const ALL: [Operator; 8] = [
        Operator::Equal,
        Operator::NotEqual,
        Operator::Less,
        Operator::LessOrEqual,
        Operator::Greater,
        Operator::GreaterOrEqual,
        Operator::Between,
        Operator::NotBetween,
    ];

    /// The operator's number, 0 to 7.
    #[must_use]
    pub const fn number(self) -> u32 {
        self as u32
    }
}

impl TryFrom<u32> for Operator {
    type Error = Refusal;

    /// The operator of a number from 0 to 7.
    ///
    /// ```
    /// use cahermisk::{Operator, Refusal};
    ///
    /// assert_eq!(Operator::try_from(6), Ok(Operator::Between));
    /// assert_eq!(Operator::try_from(8), Err(Refusal::OperatorAbove7));
    /// ```
    fn try_from(number: u32) -> Result<Operator, Refusal> {
        Operator::ALL
            .into_iter()
            .find(|operator| operator.number() == number)
            .ok_or(Refusal::OperatorAbove7)
    }
}
