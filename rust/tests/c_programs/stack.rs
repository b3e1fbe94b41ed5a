//! What a call takes of the stack is within what the header says.

use super::printed_by;

/// Makes each call on a painted stack of its own, and prints how deep the paint is gone, beyond what it takes to get
/// there; then the call's code.
const PROGRAM: &str = "\
#define _XOPEN_SOURCE 700
#include <cahermisk.h>
#include <stdio.h>
#include <string.h>
#include <ucontext.h>
enum { N = CAHERMISK_MAX_ENTRIES, WIDTH = 10, VALUES = 1 << WIDTH };
static unsigned char painted[1 << 16];
static ucontext_t here, there;
static size_t taken(void (*call)(void)) {
    size_t kept = 0;
    memset(painted, 0xA5, sizeof painted);
    getcontext(&there);
    there.uc_stack.ss_sp = painted;
    there.uc_stack.ss_size = sizeof painted;
    there.uc_link = &here;
    makecontext(&there, call, 0);
    swapcontext(&here, &there);
    while (painted[kept] == 0xA5) kept++;
    return sizeof painted - kept;
}
static uint32_t entries[N];
static int32_t numbers[N];
static uint8_t bitmap[CAHERMISK_BITMAP_BYTES(N)], page[CAHERMISK_HORIZONTAL_BYTES(WIDTH, N)];
static uint8_t stream[CAHERMISK_RUNS_BYTES(WIDTH, N)], steps[CAHERMISK_DELTA_BYTES(N)];
static uint8_t dict[4 * VALUES], column[1 + sizeof stream];
static uint64_t words[CAHERMISK_VERTICAL_WORDS(WIDTH, N)];
static size_t streamed, stepped, spanned;
static uint32_t code;
#define BAND CAHERMISK_BETWEEN, 100, 300, bitmap, sizeof bitmap
static void nothing(void) { code = 0; }
static void horizontal_pack(void) {
    code = cahermisk_horizontal_pack(entries, N, WIDTH, page, sizeof page).code;
}
static void horizontal_scan(void) {
    code = cahermisk_horizontal_scan(page, sizeof page, WIDTH, N, BAND).code;
}
static void horizontal_unpack(void) {
    code = cahermisk_horizontal_unpack(page, sizeof page, WIDTH, N, entries, N).code;
}
static void vertical_pack(void) {
    code = cahermisk_vertical_pack(entries, N, WIDTH, words, sizeof words / 8).code;
}
static void vertical_scan(void) {
    code = cahermisk_vertical_scan(words, sizeof words / 8, WIDTH, N, BAND).code;
}
static void vertical_unpack(void) {
    code = cahermisk_vertical_unpack(words, sizeof words / 8, WIDTH, N, entries, N).code;
}
static void runs_pack(void) {
    cahermisk_answer answer = cahermisk_runs_pack(entries, N, WIDTH, stream, sizeof stream);
    code = answer.code;
    streamed = answer.number;
}
static void runs_scan(void) { code = cahermisk_runs_scan(stream, streamed, WIDTH, N, BAND).code; }
static void runs_unpack(void) {
    code = cahermisk_runs_unpack(stream, streamed, WIDTH, N, entries, N).code;
}
static void runs_next(void) { code = cahermisk_runs_next(stream, streamed, WIDTH, N, 0, 0).code; }
static void delta_pack(void) {
    cahermisk_answer answer = cahermisk_delta_pack(numbers, N, steps, sizeof steps);
    code = answer.code;
    stepped = answer.number;
}
static void delta_scan(void) { code = cahermisk_delta_scan(steps, stepped, N, BAND).code; }
static void delta_unpack(void) {
    code = cahermisk_delta_unpack(steps, stepped, N, numbers, N).code;
}
static void dictionary_scan(void) {
    code = cahermisk_dictionary_scan(dict, sizeof dict, column, 1 + streamed, N, BAND).code;
}
static void dictionary_unpack(void) {
    code = cahermisk_dictionary_unpack(dict, sizeof dict, column, 1 + streamed, N, numbers, N).code;
}
static void spans_from_bitmap(void) {
    cahermisk_answer answer = cahermisk_spans_from_bitmap(bitmap, sizeof bitmap, N, entries, N);
    code = answer.code;
    spanned = 2 * answer.number;
}
static void spans_to_bitmap(void) {
    code = cahermisk_spans_to_bitmap(entries, spanned, N, bitmap, sizeof bitmap).code;
}
#define CALL(name) \\
    printf(\"%s %zu %u\\n\", #name, taken(name) - before, (unsigned)code)
int main(void) {
    size_t before = taken(nothing);
    for (uint32_t i = 0; i < N; i++) {
        uint32_t mixed = i * 2654435761u;
        entries[i] = i % 100 < 30 ? 7 : mixed >> (32 - WIDTH);
        numbers[i] = (int32_t)(mixed ^ mixed << 7);
    }
    for (size_t i = 0; i < sizeof dict; i++)
        dict[i] = (uint8_t)(i % 4 == 0 ? i / 4 : i % 4 == 1 ? i / 4 / 256 : 0);
    CALL(horizontal_pack); CALL(horizontal_scan); CALL(horizontal_unpack);
    CALL(vertical_pack); CALL(vertical_scan); CALL(vertical_unpack);
    CALL(runs_pack); CALL(runs_scan); CALL(runs_unpack); CALL(runs_next);
    CALL(delta_pack); CALL(delta_scan); CALL(delta_unpack);
    column[0] = WIDTH;
    memcpy(column + 1, stream, streamed);
    CALL(dictionary_scan); CALL(dictionary_unpack);
    CALL(spans_from_bitmap); CALL(spans_to_bitmap);
    printf(\"%d\\n\", CAHERMISK_STACK_BYTES);
    return 0;
}
";

#[test]
fn each_call_takes_no_more_than_the_header_says() {
    let printed = printed_by("stack", PROGRAM);
    let mut lines: Vec<&str> = printed.lines().collect();
    let most = lines.pop().expect("the header's number");
    let most: usize = most.parse().expect("a number");
    assert_eq!(lines.len(), 17, "functions that were called");
    for line in lines {
        let cells: Vec<&str> = line.split(' ').collect();
        let [name, taken, code] = cells[..] else {
            panic!("not three cells: {line}");
        };
        assert_eq!(code, "0", "the code of {name}");
        let taken: usize = taken.parse().expect("a number");
        assert!(taken > 0 && taken <= most, "{name} took {taken} of {most}");
        println!("{name}: {taken} bytes of stack");
    }
}
