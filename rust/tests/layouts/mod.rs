//! The tests of all layouts, written once over any of them.

mod calls;
pub mod comparisons;
pub mod fences;
pub mod layout;
pub mod lengths;
pub mod limits;
pub mod order;
pub mod packing;
pub mod pages;
pub mod vectors;

/// All tests of this folder, over one layout.
macro_rules! tests_of {
    ($layout:ident) => {
        $crate::support::tests_over! { layouts, $layout:
            comparisons {
                small_pages_under_every_comparison
                large_pages
                operators_0_to_5_ignore_b
                scans_at_random
            }
            fences {
                nothing_is_read_outside_the_places
                a_page_cut_short
            }
            lengths {
                every_truncation_and_some_units_more
                outputs_short_exact_and_long
                unpacks_at_random
            }
            limits {
                scans_and_unpacks
                packs
            }
            order {
                packs_with_any_set_of_faults
                no_entries
            }
            packing {
                packs_with_every_room
                an_entry_too_large
                packs_at_random
                round_trips
            }
            vectors {
                every_row
                malformed_lines
            }
        }
    };
}
pub(crate) use tests_of;
