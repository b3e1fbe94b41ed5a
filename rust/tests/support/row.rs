//! A row of data/vectors: labels, each with its numbers, a space between any two.

use std::fmt::Display;
use std::iter::Peekable;
use std::str::{FromStr, Split};

use crate::reader::Unit;

/// The text between the call and what it gives.
const ARROW: &str = "->";

/// What is not yet read of a row. Whatever is not as it should be is told as an error.
pub struct Row<'a>(Peekable<Split<'a, char>>);

impl<'a> Row<'a> {
    pub fn new(line: &'a str) -> Row<'a> {
        Row(line.split(' ').peekable())
    }

    pub fn word(&mut self) -> Result<&'a str, String> {
        self.0.next().ok_or("the row ends too early".to_string())
    }

    pub fn label(&mut self, label: &str) -> Result<(), String> {
        match self.word()? {
            word if word == label => Ok(()),
            word => Err(format!("'{word}' in the place of '{label}'")),
        }
    }

    pub fn arrow(&mut self) -> Result<(), String> {
        self.label(ARROW)
    }

    pub fn end(&mut self) -> Result<(), String> {
        match self.0.next() {
            None => Ok(()),
            Some(word) => Err(format!("'{word}' after the row's end")),
        }
    }

    /// One decimal number behind its label.
    pub fn number<T: FromStr + Display>(&mut self, label: &str) -> Result<T, String> {
        self.label(label)?;
        decimal(self.word()?)
    }

    /// All elements up to the arrow or the row's end, behind their label.
    pub fn list<T>(
        &mut self,
        label: &str,
        element: fn(&str) -> Result<T, String>,
    ) -> Result<Vec<T>, String> {
        self.list_up_to(ARROW, label, element)
    }

    /// All elements up to another label or the row's end, behind their own.
    pub fn list_up_to<T>(
        &mut self,
        end: &str,
        label: &str,
        element: fn(&str) -> Result<T, String>,
    ) -> Result<Vec<T>, String> {
        self.label(label)?;
        let mut list = Vec::new();
        while let Some(word) = self.0.next_if(|&word| word != end) {
            let (word, times) = repeated(word)?;
            for _ in 0..times {
                list.push(element(word)?);
            }
        }
        Ok(list)
    }

    /// As `list`; a dot is an element that keeps what it held.
    pub fn list_with_dots<T>(
        &mut self,
        label: &str,
        element: fn(&str) -> Result<T, String>,
    ) -> Result<Vec<Option<T>>, String> {
        self.label(label)?;
        let mut list = Vec::new();
        for word in self.0.by_ref() {
            let (word, times) = repeated(word)?;
            for _ in 0..times {
                list.push(match word {
                    "." => None,
                    word => Some(element(word)?),
                });
            }
        }
        Ok(list)
    }
}

/// An element and how often it stands there: 5*3 is 5 5 5.
fn repeated(word: &str) -> Result<(&str, usize), String> {
    let Some((element, times)) = word.split_once('*') else {
        return Ok((word, 1));
    };
    match decimal(times)? {
        0 => Err(format!("'{word}' is nothing")),
        times => Ok((element, times)),
    }
}

/// A decimal number in its one spelling: no sign but a minus, no 0 in front.
pub fn decimal<T: FromStr + Display>(word: &str) -> Result<T, String> {
    let number = word.parse().ok();
    let number = number.filter(|number: &T| number.to_string() == word);
    number.ok_or(format!("'{word}' is no such decimal number"))
}

/// A byte or word in capital hexadecimal digits, all of them.
pub fn hexadecimal<U: Unit>(word: &str) -> Result<U, String> {
    let unit = u64::from_str_radix(word, 16).ok().map(U::of);
    let digits = |unit: &U| format!("{:0digits$X}", unit.number(), digits = U::BITS / 4);
    let unit = unit.filter(|unit| digits(unit) == word);
    unit.ok_or(format!("'{word}' is no such hexadecimal number"))
}
