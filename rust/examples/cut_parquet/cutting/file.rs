//! A file by its parts, so that no more of it is read than is asked for.

use std::io::{Read, Seek, SeekFrom};

use crate::parquet::format::{ENCRYPTED, MAGIC, TAIL};
use crate::parquet::thrift::read::Struct;

pub const DAMAGED_FOOTER: &str = "its footer is damaged";

pub struct File<R> {
    bytes: R,
    length: u64,
}

impl<R: Read + Seek> File<R> {
    pub fn open(mut bytes: R) -> Result<File<R>, String> {
        let length = bytes
            .seek(SeekFrom::End(0))
            .map_err(|error| error.to_string())?;
        Ok(File { bytes, length })
    }

    /// So many bytes from a place on, or `None` where the file has no such part.
    pub fn part(&mut self, at: u64, length: usize) -> Result<Option<Vec<u8>>, String> {
        let end = at.checked_add(length as u64);
        if end.is_none_or(|end| end > self.length) {
            return Ok(None);
        }
        let mut part = vec![0; length];
        let read = self
            .bytes
            .seek(SeekFrom::Start(at))
            .and_then(|_| self.bytes.read_exact(&mut part));
        read.map(|()| Some(part)).map_err(|error| error.to_string())
    }

    /// The footer: what stands before its own length and the file's last four bytes.
    pub fn footer(&mut self) -> Result<Struct, String> {
        let begun = self.part(0, MAGIC.len())?.unwrap_or_default();
        if begun != MAGIC && begun != ENCRYPTED {
            return Err("this is no Parquet file: it does not begin with PAR1".to_owned());
        }
        let tail_at = self.length.saturating_sub(TAIL as u64);
        let tail = self.part(tail_at, TAIL)?.unwrap_or_default();
        let [a, b, c, d, magic @ ..] = tail.as_slice() else {
            return Err("it is cut off behind its first bytes".to_owned());
        };
        if magic == ENCRYPTED {
            return Err("its footer is encrypted".to_owned());
        } else if magic != MAGIC {
            return Err("it is cut off: it does not end with PAR1, as it begins".to_owned());
        }
        let length = u32::from_le_bytes([*a, *b, *c, *d]);
        let at = tail_at
            .checked_sub(u64::from(length))
            .ok_or(DAMAGED_FOOTER)?;
        let footer = self.part(at, length as usize)?.unwrap_or_default();
        let (footer, _) = Struct::read(&footer).ok_or(DAMAGED_FOOTER)?;
        Ok(footer)
    }
}
