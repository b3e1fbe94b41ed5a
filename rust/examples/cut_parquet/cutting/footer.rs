//! What the footer tells of the file and its columns.

use super::column::{leaves, Chunk, Column};
use crate::parquet::fields::{file_meta_data, row_group};
use crate::parquet::thrift::read::Struct;

pub struct Footer {
    pub rows: usize,
    pub row_groups: usize,
    pub created_by: String,
    pub columns: Vec<Column>,
}

impl Footer {
    /// `None` where the structure is no footer.
    pub fn of(footer: &Struct) -> Option<Footer> {
        let leaves = leaves(footer.list(file_meta_data::SCHEMA)?)?;
        let mut columns: Vec<Column> = leaves.into_iter().map(Column::of).collect();
        let groups = footer.list(file_meta_data::ROW_GROUPS)?;
        for group in groups {
            let chunks = group.structure()?.list(row_group::COLUMNS)?;
            if chunks.len() != columns.len() {
                return None;
            }
            for (column, chunk) in columns.iter_mut().zip(chunks) {
                column.chunks.push(Chunk::of(chunk.structure()?));
            }
        }
        Some(Footer {
            rows: footer.count(file_meta_data::NUM_ROWS)?,
            row_groups: groups.len(),
            created_by: footer
                .text(file_meta_data::CREATED_BY)
                .unwrap_or("an unnamed writer".to_owned()),
            columns,
        })
    }

    pub fn column(&self, name: &str) -> Result<&Column, String> {
        let found = self.columns.iter().find(|column| column.name == name);
        found.ok_or_else(|| {
            let names: Vec<&str> = self
                .columns
                .iter()
                .map(|column| column.name.as_str())
                .collect();
            format!(
                "it has no column {name}; its columns are {}",
                names.join(", ")
            )
        })
    }
}
