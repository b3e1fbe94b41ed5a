//! How both programs take their words, say numbers, and end.

use std::io::{stdout, Write};
use std::process::ExitCode;
use std::{env, io};

/// Prints what the words of the command ask for, or on standard error the sentence that says why not.
pub fn told(program: &str, answer: impl Fn(&[String]) -> Result<String, String>) -> ExitCode {
    let words: Result<Vec<String>, _> = env::args_os().skip(1).map(|w| w.into_string()).collect();
    let answered = match words {
        Ok(words) => answer(&words),
        Err(word) => Err(format!("{} is not in UTF-8", word.to_string_lossy())),
    };
    match answered.and_then(|text| print(&text).map_err(|error| error.to_string())) {
        Ok(()) => ExitCode::SUCCESS,
        Err(sentence) => {
            eprintln!("{program}: {sentence}");
            ExitCode::FAILURE
        }
    }
}

fn print(text: &str) -> io::Result<()> {
    let mut out = stdout();
    out.write_all(text.as_bytes())?;
    out.flush()
}

/// Whether the words ask how the program is used.
pub fn ask_for_help(words: &[String]) -> bool {
    matches!(words, [word] if ["-h", "--help", "help"].contains(&word.as_str()))
}

/// A number of things: 1 page, 6 pages.
pub fn counted(number: usize, one: &str, many: &str) -> String {
    format!("{number} {}", if number == 1 { one } else { many })
}
