//! Columns without rows, and columns under another name.
use super::column::Column;
use super::error::Error;
use super::held::renamed;
use super::layout::{Kind, Layout};
use super::node::Node;
use super::parts::Field;
use super::stream::Stream;

/// How deep types may be nested, dictionaries counted, as in the C library.
const LEVELS: usize = 64;

fn field_of(schema: Node<'_>) -> Field {
    Field {
        format: schema.format().into(),
        name: schema.name().into_owned(),
        flags: schema.flags(),
        metadata: schema.metadata().map(<[u8]>::to_vec),
    }
}

fn empty_of(schema: Node<'_>, level: usize) -> Result<Column, Error> {
    if level > LEVELS {
        return Err(Error::Depth(format!(
            "expected at most {LEVELS} levels, got more"
        )));
    }
    let kind = Layout::of(schema.format())?.kind;
    let count = kind.slots().len() + usize::from(kind == Kind::Views);
    let buffers = (0..count).map(|_| None).collect();
    let below = |schema: Node<'_>| empty_of(schema, level + 1);
    let children = schema
        .schemas()
        .into_iter()
        .map(below)
        .collect::<Result<_, _>>()?;
    let inner = schema.dictionary_schema().map(below).transpose()?;
    Column::from_parts(field_of(schema), 0, 0, 0, buffers, children, inner)
}

impl Stream {
    /// Returns a column of the type of the batches, without rows.
    pub fn empty(&mut self) -> Result<Column, Error> {
        empty_of(Node::of_schema(&self.schema()?), 1)
    }
}

impl Column {
    /// Returns the column under another name and with other flags.
    pub fn described(self, name: &str, flags: i64) -> Result<Column, Error> {
        if name.contains('\0') {
            return Err(Error::Shape("name: expected no byte 0, got one".into()));
        }
        let mut schema = renamed(self.schema, name);
        schema.0.flags = flags;
        Ok(Column {
            schema,
            array: self.array,
        })
    }
}
