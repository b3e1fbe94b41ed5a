//! The tests of columns of signed entries, written once over delta pages and dictionary columns.

mod calls;
pub mod changes;
pub mod comparisons;
pub mod fences;
pub mod layout;
pub mod limits;
pub mod order;
pub mod vectors;

/// All tests of this folder, over one layout.
macro_rules! tests_of_signed {
    ($layout:ident) => {
        $crate::support::tests_over! { signed, $layout:
            changes {
                every_truncation_and_some_bytes_more
                every_change_of_one_byte
                every_byte_missing_and_doubled
            }
            comparisons {
                small_columns_under_every_comparison
                entries_at_the_ends
                large_columns
                operators_0_to_5_ignore_b
                scans_at_random
            }
            fences {
                nothing_is_read_outside_the_places
                a_page_cut_short
            }
            limits {
                huge_arguments
                outputs_short_exact_and_long
            }
            vectors {
                every_row
            }
        }
    };
}
pub(crate) use tests_of_signed;
