//! The field that a page begins with, where a file is named.

use std::path::Path;

use crate::files::{self, named, Failure};
use crate::json::Value;

use super::saved;

/// The field of a file, as `/read` answers it, with its name.
pub fn read(file: &str) -> Result<Value, Failure> {
    let text = files::read_text(file)?;
    let lines = |lines: Vec<String>| Failure::Cant(lines.join("\n")).of(named(file));
    let field = saved::read(&text).map_err(lines)?;
    let stem = Path::new(file).file_stem().map_or("field".to_string(), |stem| stem.to_string_lossy().into_owned());
    Ok(field.value(&stem))
}
