//! What the tests of all layouts share: numbers at random, places to lend, rows of examples, and the calls
//! themselves.

pub mod calls;
pub mod fenced;
pub mod ground;
pub mod lent;
pub mod random;
pub mod row;
pub mod spelling;
mod units;
pub mod vectors;

/// Tests that a folder has over any layout, each over this one.
macro_rules! tests_over {
    ($folder:ident, $layout:ident: $($module:ident { $($test:ident)* })*) => {
        $(mod $module {
            $(#[test]
            fn $test() {
                $crate::$folder::$module::$test::<super::$layout>();
            })*
        })*
    };
}
pub(crate) use tests_over;
