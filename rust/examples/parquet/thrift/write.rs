//! Writes a structure field by field.

use super::{BINARY, I32, I64, LIST, LONG_LIST, STOP, STRUCT, TRUE};

/// A structure that is being written: its bytes, and the last field's number. Fields come in ascending order.
#[derive(Default)]
pub struct Struct {
    bytes: Vec<u8>,
    last: i16,
}

impl Struct {
    fn field(mut self, number: i16, kind: u8) -> Struct {
        match u8::try_from(number - self.last) {
            Ok(step @ 1..=15) => self.bytes.push(step << 4 | kind),
            _ => {
                self.bytes.push(kind);
                self.bytes.extend(zigzag(i64::from(number)));
            }
        }
        self.last = number;
        self
    }

    fn with(mut self, bytes: impl IntoIterator<Item = u8>) -> Struct {
        self.bytes.extend(bytes);
        self
    }

    /// A field that is true; one that is false is left out.
    pub fn holds(self, number: i16) -> Struct {
        self.field(number, TRUE)
    }

    pub fn i32(self, number: i16, value: i64) -> Struct {
        self.field(number, I32).with(zigzag(value))
    }

    pub fn i64(self, number: i16, value: usize) -> Struct {
        self.field(number, I64).with(zigzag(value as i64))
    }

    pub fn text(self, number: i16, text: &str) -> Struct {
        self.field(number, BINARY).with(binary(text))
    }

    pub fn inner(self, number: i16, inner: Struct) -> Struct {
        self.field(number, STRUCT).with(inner.end())
    }

    pub fn structs(self, number: i16, list: Vec<Struct>) -> Struct {
        let list = list.into_iter().map(Struct::end).collect();
        self.list(number, STRUCT, list)
    }

    pub fn i32s(self, number: i16, list: &[i64]) -> Struct {
        let list = list.iter().copied().map(zigzag).collect();
        self.list(number, I32, list)
    }

    pub fn texts(self, number: i16, list: &[&str]) -> Struct {
        let list = list.iter().copied().map(binary).collect();
        self.list(number, BINARY, list)
    }

    fn list(self, number: i16, kind: u8, elements: Vec<Vec<u8>>) -> Struct {
        let head = match elements.len() {
            length @ 0..LONG_LIST => vec![(length as u8) << 4 | kind],
            length => [
                vec![(LONG_LIST as u8) << 4 | kind],
                number_of(length as u64),
            ]
            .concat(),
        };
        self.field(number, LIST).with(head).with(elements.concat())
    }

    /// The bytes of the whole structure.
    pub fn end(mut self) -> Vec<u8> {
        self.bytes.push(STOP);
        self.bytes
    }
}

fn number_of(mut number: u64) -> Vec<u8> {
    let mut bytes = Vec::new();
    while number > 0x7F {
        bytes.push(number as u8 | 0x80);
        number >>= 7;
    }
    bytes.push(number as u8);
    bytes
}

fn zigzag(number: i64) -> Vec<u8> {
    number_of((number << 1 ^ number >> 63) as u64)
}

fn binary(text: &str) -> Vec<u8> {
    [number_of(text.len() as u64), text.as_bytes().to_vec()].concat()
}
