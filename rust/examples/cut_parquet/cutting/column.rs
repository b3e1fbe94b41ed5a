//! A column as the footer tells of it.

use crate::parquet::fields::{column_chunk, column_meta_data, schema_element};
use crate::parquet::format::REQUIRED;
use crate::parquet::thrift::read::{Struct, Value};

/// Groups within each other: more than any schema has.
const MAX_DEPTH: usize = 32;

pub struct Column {
    /// With the names of the groups that it lies in.
    pub name: String,
    pub kind: i64,
    /// Required only if its groups are, too.
    pub repetition: i64,
    /// One for each row group; or why there is none to read.
    pub chunks: Vec<Result<Chunk, String>>,
}

/// The part of a column that belongs to a row group.
pub struct Chunk {
    pub at: u64,
    pub length: usize,
    pub codec: i64,
    pub encodings: Vec<i64>,
    pub rows: usize,
}

impl Column {
    pub fn of((name, kind, repetition): Leaf) -> Column {
        Column {
            name,
            kind,
            repetition,
            chunks: Vec::new(),
        }
    }
}

impl Chunk {
    pub fn of(chunk: &Struct) -> Result<Chunk, String> {
        if chunk.has(column_chunk::CRYPTO_METADATA) {
            return Err("it is encrypted".to_owned());
        } else if chunk.has(column_chunk::FILE_PATH) {
            return Err("its pages are in another file".to_owned());
        }
        let meta_data = chunk.inner(column_chunk::META_DATA);
        let read = meta_data.and_then(Chunk::of_meta_data);
        read.ok_or("the footer does not say where its pages are".to_owned())
    }

    fn of_meta_data(meta_data: &Struct) -> Option<Chunk> {
        let data_at = meta_data.int(column_meta_data::DATA_PAGE_OFFSET)?;
        let dictionary_at = meta_data.int(column_meta_data::DICTIONARY_PAGE_OFFSET);
        // Some writers say 0 where there is no dictionary.
        let at = dictionary_at
            .filter(|&at| at > 0)
            .map_or(data_at, |at| at.min(data_at));
        let encodings = meta_data.list(column_meta_data::ENCODINGS)?;
        Some(Chunk {
            at: u64::try_from(at).ok()?,
            length: meta_data.count(column_meta_data::TOTAL_COMPRESSED_SIZE)?,
            codec: meta_data.int(column_meta_data::CODEC)?,
            encodings: encodings.iter().map(Value::int).collect::<Option<_>>()?,
            rows: meta_data.count(column_meta_data::NUM_VALUES)?,
        })
    }
}

/// A column's name, type and repetition.
type Leaf = (String, i64, i64);

/// A group whose elements are still to come.
struct Group {
    path: String,
    repetition: i64,
    left: usize,
}

/// The columns of a schema, which is a list of groups and columns, each group before what lies in it.
pub fn leaves(schema: &[Value]) -> Option<Vec<Leaf>> {
    let (root, elements) = schema.split_first()?;
    let mut open = vec![Group {
        path: String::new(),
        repetition: REQUIRED,
        left: root.structure()?.count(schema_element::NUM_CHILDREN)?,
    }];
    let mut leaves = Vec::new();
    for element in elements {
        let element = element.structure()?;
        while open.last()?.left == 0 {
            open.pop();
        }
        let group = open.last_mut()?;
        group.left -= 1;
        let path = group.path.clone() + &element.text(schema_element::NAME)?;
        let repetition = element
            .int(schema_element::REPETITION_TYPE)
            .unwrap_or(REQUIRED);
        let repetition = repetition.max(group.repetition);
        match element.int(schema_element::TYPE) {
            Some(kind) => leaves.push((path, kind, repetition)),
            None if open.len() > MAX_DEPTH => return None,
            None => open.push(Group {
                path: path + ".",
                repetition,
                left: element.count(schema_element::NUM_CHILDREN)?,
            }),
        }
    }
    Some(leaves)
}
