//! What a caller in C or C++ is given: the header by itself, the example of README.md, one run as a struct, and what
//! programs over the library show.

use std::fs;
use std::process::Command;

use c_programs::printed_by;
use cahermisk::{delta, horizontal, runs, spans, vertical, Bitmap};
use commands::{room, run, top, NEEDS_CC};

mod c_programs;
mod code_table;
mod commands;

const NEEDS_CXX: &str = "this test needs a C++ compiler, c++, on PATH";

/// The header's names with the documents' numbers, but for the codes, which data/codes.txt has.
const NUMBERS: [(&str, u32); 29] = [
    ("CAHERMISK_EQUAL", 0),
    ("CAHERMISK_NOT_EQUAL", 1),
    ("CAHERMISK_LESS", 2),
    ("CAHERMISK_LESS_OR_EQUAL", 3),
    ("CAHERMISK_GREATER", 4),
    ("CAHERMISK_GREATER_OR_EQUAL", 5),
    ("CAHERMISK_BETWEEN", 6),
    ("CAHERMISK_NOT_BETWEEN", 7),
    ("CAHERMISK_MAX_WIDTH", 32),
    ("CAHERMISK_MAX_ENTRIES", 16_384),
    ("CAHERMISK_MAX_DICTIONARY_BYTES", 65_536),
    ("sizeof(cahermisk_answer)", 8),
    ("CAHERMISK_BITMAP_BYTES(9)", 2),
    ("CAHERMISK_HORIZONTAL_BYTES(3, 9)", 4),
    ("CAHERMISK_HORIZONTAL_BYTES(32, 16384)", 65_536),
    ("CAHERMISK_VERTICAL_WORDS(2, 3)", 2),
    ("CAHERMISK_VERTICAL_WORDS(3, 65)", 6),
    ("CAHERMISK_VERTICAL_WORDS(32, 16384)", 8_192),
    ("CAHERMISK_REPEATED", 0),
    ("CAHERMISK_PACKED", 1),
    ("sizeof(cahermisk_run)", 48),
    ("CAHERMISK_RUNS_BYTES(3, 9)", 8),
    ("CAHERMISK_RUNS_BYTES(32, 16384)", 67_584),
    ("CAHERMISK_DELTA_BYTES(1)", 11),
    ("CAHERMISK_DELTA_BYTES(129)", 532),
    ("CAHERMISK_DELTA_BYTES(16384)", 66_699),
    ("CAHERMISK_SPANS_PLACES(0)", 0),
    ("CAHERMISK_SPANS_PLACES(7)", 8),
    ("CAHERMISK_SPANS_PLACES(16384)", 16_384),
];

/// The header's macros of room with the package's numbers, at every width and at counts about each step.
fn rooms() -> Vec<(String, String)> {
    let mut rooms = Vec::new();
    let mut put =
        |of: String, room: usize| rooms.push((format!("CAHERMISK_{of}"), room.to_string()));
    for n in [0, 1, 7, 8, 9, 63, 64, 65, 128, 129, 130, 16_383, 16_384] {
        for width in 0..=32 {
            let arguments = format!("{width}, {n}");
            let bytes = horizontal::page_bytes(width, n);
            put(format!("HORIZONTAL_BYTES({arguments})"), bytes);
            let words = vertical::page_words(width, n);
            put(format!("VERTICAL_WORDS({arguments})"), words);
            let bytes = runs::page_bytes(width, n);
            put(format!("RUNS_BYTES({arguments})"), bytes);
        }
        put(format!("DELTA_BYTES({n})"), delta::page_bytes(n));
        put(format!("BITMAP_BYTES({n})"), Bitmap::bytes_for(n));
        put(format!("SPANS_PLACES({n})"), spans::places(n));
    }
    rooms
}

/// Compiles a file that includes the header alone, twice, calls its functions and holds its numbers to ours.
fn compile_header(compiler: &str, needs: &str, standard: &str, file: &str) {
    let mut text = HEADER_USER.to_string();
    let others = NUMBERS.map(|(name, number)| (name.to_owned(), number.to_string()));
    let code = |[number, name, ..]: [&str; 5]| (format!("CAHERMISK_{name}"), number.to_owned());
    let codes = code_table::rows().into_iter().map(code);
    for (i, (name, number)) in codes.chain(others).chain(rooms()).enumerate() {
        text += &format!("typedef char number_{i}[{name} == {number} ? 1 : -1];\n");
    }
    let source = room(file).join(file);
    fs::write(&source, text).expect("a source file can be written");
    run(
        Command::new(compiler)
            .args([standard, "-Wall", "-Wextra", "-Wpedantic", "-Werror"])
            .args(["-fsyntax-only", "-I"])
            .arg(top().join("include"))
            .arg(&source),
        needs,
    );
}

const HEADER_USER: &str = "\
#include <cahermisk.h>
#include <cahermisk.h>
static uint8_t page[CAHERMISK_HORIZONTAL_BYTES(3, 8)];
static uint64_t words[CAHERMISK_VERTICAL_WORDS(3, 8)];
static uint8_t stream[CAHERMISK_RUNS_BYTES(3, 8)];
static uint8_t steps[CAHERMISK_DELTA_BYTES(8)];
static uint8_t values[CAHERMISK_MAX_DICTIONARY_BYTES];
static const uint8_t indexes[] = {0x00, 0x10};
static uint8_t bitmap[CAHERMISK_BITMAP_BYTES(8)];
static int32_t numbers[CAHERMISK_MAX_ENTRIES];
static uint32_t entries[CAHERMISK_MAX_ENTRIES];
static uint32_t spans[CAHERMISK_SPANS_PLACES(8)];
int all_ends_well(void);
int all_ends_well(void) {
    cahermisk_answer packed = cahermisk_horizontal_pack(entries, 8, 3, page, sizeof page);
    cahermisk_answer unpacked = cahermisk_horizontal_unpack(page, sizeof page, 3, 8, entries, 8);
    cahermisk_answer scanned = cahermisk_horizontal_scan(page, sizeof page, CAHERMISK_MAX_WIDTH, 8,
        CAHERMISK_NOT_BETWEEN, INT64_MIN, INT64_MAX, bitmap, sizeof bitmap);
    cahermisk_answer planes = cahermisk_vertical_pack(entries, 8, 3, words, 3);
    cahermisk_answer read = cahermisk_vertical_unpack(words, 3, 3, 8, entries, 8);
    cahermisk_answer found = cahermisk_vertical_scan(words, 3, 3, 8,
        CAHERMISK_LESS, 3, 0, bitmap, sizeof bitmap);
    cahermisk_answer cut = cahermisk_runs_pack(entries, 8, 3, stream, sizeof stream);
    cahermisk_answer laid = cahermisk_runs_unpack(stream, cut.number, 3, 8, entries, 8);
    cahermisk_answer marked = cahermisk_runs_scan(stream, cut.number, 3, 8,
        CAHERMISK_EQUAL, 3, 0, bitmap, sizeof bitmap);
    cahermisk_run run = cahermisk_runs_next(stream, cut.number, 3, 8, 0, 0);
    cahermisk_answer written = cahermisk_delta_pack(numbers, 8, steps, sizeof steps);
    cahermisk_answer stepped = cahermisk_delta_unpack(steps, written.number, 8, numbers, 8);
    cahermisk_answer passed = cahermisk_delta_scan(steps, written.number, 8,
        CAHERMISK_LESS, -1, 0, bitmap, sizeof bitmap);
    cahermisk_answer looked_up = cahermisk_dictionary_unpack(values, 4, indexes, sizeof indexes, 8,
        numbers, 8);
    cahermisk_answer compared = cahermisk_dictionary_scan(values, sizeof values,
        indexes, sizeof indexes, 8, CAHERMISK_LESS, -1, 0, bitmap, sizeof bitmap);
    cahermisk_answer listed = cahermisk_spans_from_bitmap(bitmap, sizeof bitmap, 8, spans, 8);
    cahermisk_answer filled = cahermisk_spans_to_bitmap(spans, 2 * listed.number, 8,
        bitmap, sizeof bitmap);
    return packed.code == CAHERMISK_ACCEPTED && unpacked.number == 8
        && cahermisk_version() == CAHERMISK_VERSION && sizeof CAHERMISK_VERSION_TEXT > 5
        && *cahermisk_code_text(packed.code) == 'a'
        && cahermisk_bitmap_bytes(8) == sizeof bitmap
        && cahermisk_horizontal_bytes(3, 8) == sizeof page
        && cahermisk_vertical_words(3, 8) == 3
        && cahermisk_runs_bytes(3, 8) == sizeof stream
        && cahermisk_delta_bytes(8) == sizeof steps
        && cahermisk_spans_places(8) == sizeof spans / 4
        && listed.number < 5 && filled.code != CAHERMISK_SPANS_MISPLACED
        && scanned.code != CAHERMISK_VALUE_TOO_LARGE
        && planes.number == 3 && read.number == 8 && found.code == CAHERMISK_ACCEPTED
        && laid.number == 8 && marked.code != CAHERMISK_RUN_PAST_N
        && run.kind == CAHERMISK_REPEATED && run.length == 8 && run.body_len == 0
        && stepped.number == 8 && passed.code != CAHERMISK_DELTA_SHAPE
        && looked_up.number == 8 && compared.code == CAHERMISK_MALFORMED_DICTIONARY;
}
";

#[test]
fn the_header_is_c99() {
    compile_header("cc", NEEDS_CC, "-std=c99", "header.c");
}

#[test]
fn the_header_is_cxx() {
    compile_header("c++", NEEDS_CXX, "-std=c++11", "header.cc");
}

/// The fenced blocks of a Markdown text: the language of each and what it holds.
fn blocks(text: &str) -> Vec<(String, String)> {
    let mut blocks = Vec::new();
    let mut open: Option<(String, String)> = None;
    for line in text.lines() {
        match (line.strip_prefix("```"), &mut open) {
            (Some(language), None) => open = Some((language.to_string(), String::new())),
            (Some(_), Some(_)) => blocks.extend(open.take()),
            (None, Some((_, content))) => {
                content.push_str(line);
                content.push('\n');
            }
            (None, None) => {}
        }
    }
    assert!(open.is_none(), "a block of README.md is not closed");
    blocks
}

/// README.md's C program, the commands that compile and run it, and what it prints.
fn readme_example() -> [String; 3] {
    let text = fs::read_to_string(top().join("README.md")).expect("README.md can be read");
    let blocks = blocks(&text);
    let at = blocks.iter().position(|(language, _)| language == "c");
    let at = at.expect("README.md has a block of C");
    let block = |i: usize, language: &str| {
        let found = blocks.get(i).filter(|(l, _)| l == language);
        let (_, content) =
            found.unwrap_or_else(|| panic!("README.md: a block of {language} follows the C one"));
        content.clone()
    };
    [block(at, "c"), block(at + 1, "sh"), block(at + 2, "text")]
}

#[test]
fn the_c_example_of_the_readme_prints_what_the_readme_says() {
    let [program, commands, printed] = readme_example();
    // The commands are for the top of the repository: a folder like it.
    let room = room("readme");
    fs::create_dir_all(room.join("include")).expect("a folder can be made");
    fs::create_dir_all(room.join("target/staticlib")).expect("a folder can be made");
    let header = top().join("include/cahermisk.h");
    fs::copy(header, room.join("include/cahermisk.h")).expect("the header can be copied");
    let archive = room.join("target/staticlib/libcahermisk.a");
    fs::copy(env!("CAHERMISK_ARCHIVE"), archive).expect("the archive can be copied");
    fs::write(room.join("example.c"), program).expect("a source file can be written");

    run(Command::new("cc").arg("--version"), NEEDS_CC);
    let shell = "this test needs a shell, sh, on PATH";
    let output = run(
        Command::new("sh")
            .args(["-e", "-c", &commands])
            .current_dir(&room),
        shell,
    );
    assert_eq!(String::from_utf8_lossy(&output.stdout), printed);
}

/// Reads a stream run by run, and a run that is refused; all fields of the struct are printed.
const RUN_BY_RUN: &str = "\
#include <cahermisk.h>
#include <stdio.h>
static void print(cahermisk_run run) {
    printf(\"%u %u %zu %u %zu %zu %zu\\n\", (unsigned)run.code, (unsigned)run.kind, run.length,
        (unsigned)run.value, run.next, run.body_at, run.body_len);
}
int main(void) {
    const uint8_t page[] = {0x06, 0x04, 0x03, 0x88, 0xC6, 0xFA};
    const size_t n = 11;
    size_t at = 0, covered = 0;
    while (covered < n) {
        cahermisk_run run = cahermisk_runs_next(page, sizeof page, 3, n, at, covered);
        print(run);
        if (run.code != CAHERMISK_ACCEPTED) return 1;
        at = run.next;
        covered += run.length;
    }
    print(cahermisk_runs_next(page, sizeof page, 3, n, at, covered));
    return 0;
}
";

#[test]
fn a_run_is_a_struct_by_value() {
    let printed = printed_by("run_by_run", RUN_BY_RUN);
    assert_eq!(printed, "0 0 3 4 2 0 0\n0 1 8 0 6 3 3\n11 0 0 0 0 0 0\n");
}
