//! Operators, by name and by number.

use cahermisk::{Operator, Refusal};

#[test]
fn operators_have_the_numbers_of_document_01() {
    for (number, operator) in (0..).zip(Operator::ALL) {
        assert_eq!(operator.number(), number);
        assert_eq!(Operator::try_from(number), Ok(operator));
    }
    for number in [8, 9, 256 + 5, u32::MAX] {
        assert_eq!(Operator::try_from(number), Err(Refusal::OperatorAbove7));
    }
}
