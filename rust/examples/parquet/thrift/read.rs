//! Reads a structure whole. Bytes that are none, or end within it, give `None`: nothing in them is relied on.

use super::{
    BINARY, BYTE, DOUBLE, FALSE, I16, I32, I64, LIST, LONG_LIST, MAP, SET, STOP, STRUCT, TRUE,
};

/// Structures and lists within each other: Parquet's own are at most seven deep.
const MAX_DEPTH: usize = 32;

/// A value; those of kinds that Parquet's footer and page headers do not use are passed over.
pub enum Value {
    Bool(bool),
    Int(i64),
    Bytes(Vec<u8>),
    List(Vec<Value>),
    Struct(Struct),
    PassedOver,
}

/// The fields of a structure, by their numbers.
pub struct Struct(Vec<(i16, Value)>);

impl Struct {
    /// The structure at the front of bytes, and how many of them it takes.
    pub fn read(bytes: &[u8]) -> Option<(Struct, usize)> {
        let mut reader = Reader { bytes, at: 0 };
        let read = reader.structure(0)?;
        Some((read, reader.at))
    }

    fn field(&self, number: i16) -> Option<&Value> {
        let has_number = |(field, _): &&(i16, Value)| *field == number;
        self.0.iter().find(has_number).map(|(_, value)| value)
    }

    pub fn has(&self, number: i16) -> bool {
        self.field(number).is_some()
    }

    pub fn int(&self, number: i16) -> Option<i64> {
        match self.field(number)? {
            Value::Int(int) => Some(*int),
            _ => None,
        }
    }

    /// A number that counts something, and so is not negative.
    pub fn count(&self, number: i16) -> Option<usize> {
        usize::try_from(self.int(number)?).ok()
    }

    pub fn text(&self, number: i16) -> Option<String> {
        self.field(number)?.text()
    }

    pub fn list(&self, number: i16) -> Option<&[Value]> {
        match self.field(number)? {
            Value::List(list) => Some(list),
            _ => None,
        }
    }

    pub fn inner(&self, number: i16) -> Option<&Struct> {
        self.field(number)?.structure()
    }
}

impl Value {
    pub fn text(&self) -> Option<String> {
        match self {
            Value::Bytes(bytes) => Some(String::from_utf8_lossy(bytes).into_owned()),
            _ => None,
        }
    }

    pub fn int(&self) -> Option<i64> {
        match self {
            Value::Int(int) => Some(*int),
            _ => None,
        }
    }

    pub fn structure(&self) -> Option<&Struct> {
        match self {
            Value::Struct(structure) => Some(structure),
            _ => None,
        }
    }
}

/// Bytes, and how far they are read.
struct Reader<'a> {
    bytes: &'a [u8],
    at: usize,
}

impl Reader<'_> {
    fn byte(&mut self) -> Option<u8> {
        let byte = *self.bytes.get(self.at)?;
        self.at += 1;
        Some(byte)
    }

    fn bytes(&mut self, length: usize) -> Option<Vec<u8>> {
        let end = self.at.checked_add(length)?;
        let bytes = self.bytes.get(self.at..end)?;
        self.at = end;
        Some(bytes.to_vec())
    }

    fn number(&mut self) -> Option<u64> {
        let mut number = 0;
        for shift in (0..64).step_by(7) {
            let byte = self.byte()?;
            number |= u64::from(byte & 0x7F) << shift;
            if byte < 0x80 {
                return Some(number);
            }
        }
        None
    }

    fn zigzag(&mut self) -> Option<i64> {
        let number = self.number()?;
        Some((number >> 1) as i64 ^ -((number & 1) as i64))
    }

    /// A length: of bytes, or of elements that take a byte each at least; no more than there are bytes.
    fn length(&mut self) -> Option<usize> {
        let length = usize::try_from(self.number()?).ok()?;
        (length <= self.bytes.len() - self.at).then_some(length)
    }

    fn value(&mut self, kind: u8, depth: usize) -> Option<Value> {
        if depth > MAX_DEPTH {
            return None;
        }
        Some(match kind {
            TRUE | FALSE => Value::Bool(kind == TRUE),
            BYTE => Value::Int(i64::from(self.byte()? as i8)),
            I16 | I32 | I64 => Value::Int(self.zigzag()?),
            DOUBLE => self.bytes(8).map(|_| Value::PassedOver)?,
            BINARY => {
                let length = self.length()?;
                Value::Bytes(self.bytes(length)?)
            }
            LIST | SET => Value::List(self.list(depth)?),
            MAP => self.map(depth)?,
            STRUCT => Value::Struct(self.structure(depth)?),
            _ => return None,
        })
    }

    /// An element of a list or a map: of a bool, unlike in a field, a byte follows.
    fn element(&mut self, kind: u8, depth: usize) -> Option<Value> {
        match kind {
            TRUE | FALSE => Some(Value::Bool(self.byte()? == TRUE)),
            _ => self.value(kind, depth + 1),
        }
    }

    fn list(&mut self, depth: usize) -> Option<Vec<Value>> {
        let head = self.byte()?;
        let length = match usize::from(head >> 4) {
            LONG_LIST => self.length()?,
            length => length,
        };
        (0..length)
            .map(|_| self.element(head & 0x0F, depth))
            .collect()
    }

    fn map(&mut self, depth: usize) -> Option<Value> {
        let length = self.length()?;
        if length > 0 {
            let kinds = self.byte()?;
            for _ in 0..length {
                self.element(kinds >> 4, depth)?;
                self.element(kinds & 0x0F, depth)?;
            }
        }
        Some(Value::PassedOver)
    }

    fn structure(&mut self, depth: usize) -> Option<Struct> {
        let mut fields = Vec::new();
        let mut number: i16 = 0;
        loop {
            let head = self.byte()?;
            if head == STOP {
                return Some(Struct(fields));
            }
            number = match head >> 4 {
                0 => i16::try_from(self.zigzag()?).ok()?,
                step => number.checked_add(i16::from(step))?,
            };
            fields.push((number, self.value(head & 0x0F, depth + 1)?));
        }
    }
}
