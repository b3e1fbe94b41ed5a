//! The functions that tell how many places to lend give what the header's macros give.

use super::printed_by;

/// Every width to one above the limit and every count to one above the limit, and what is far beyond them.
const PROGRAM: &str = "\
#include <cahermisk.h>
#include <stdio.h>
static unsigned long compared, different;
static void compare(size_t given, size_t macro, int within) {
    compared++;
    different += given != (within ? macro : 0);
}
static void of_count(size_t n) {
    int within = n <= CAHERMISK_MAX_ENTRIES;
    compare(cahermisk_bitmap_bytes(n), CAHERMISK_BITMAP_BYTES(n), within);
    compare(cahermisk_delta_bytes(n), CAHERMISK_DELTA_BYTES(n), within);
    compare(cahermisk_spans_places(n), CAHERMISK_SPANS_PLACES(n), within);
}
static void of_both(uint32_t width, size_t n) {
    int within = width <= CAHERMISK_MAX_WIDTH && n <= CAHERMISK_MAX_ENTRIES;
    compare(cahermisk_horizontal_bytes(width, n), CAHERMISK_HORIZONTAL_BYTES(width, n), within);
    compare(cahermisk_vertical_words(width, n), CAHERMISK_VERTICAL_WORDS(width, n), within);
    compare(cahermisk_runs_bytes(width, n), CAHERMISK_RUNS_BYTES(width, n), within);
}
int main(void) {
    const size_t counts[] = {(size_t)1 << 32, ((size_t)1 << 32) + 5, SIZE_MAX - 6, SIZE_MAX};
    const uint32_t widths[] = {256 + 3, UINT32_MAX};
    for (size_t n = 0; n <= CAHERMISK_MAX_ENTRIES + 1; n++) {
        of_count(n);
        for (uint32_t width = 0; width <= CAHERMISK_MAX_WIDTH + 1; width++) of_both(width, n);
        for (size_t i = 0; i < 2; i++) of_both(widths[i], n);
    }
    for (size_t i = 0; i < 4; i++) {
        of_count(counts[i]);
        for (uint32_t width = 0; width <= CAHERMISK_MAX_WIDTH + 1; width++) of_both(width, counts[i]);
    }
    printf(\"%lu compared, %lu different\\n\", compared, different);
    return 0;
}
";

#[test]
fn functions_give_what_macros_give() {
    let (counts, widths) = (16_386, 34);
    let compared = counts * (3 + 3 * (widths + 2)) + 4 * (3 + 3 * widths);
    let printed = printed_by("rooms", PROGRAM);
    assert_eq!(printed, format!("{compared} compared, 0 different\n"));
}
