//! A whole field as a file: points, names, eye, size, title, and the digest of its mesh.

use crate::csv::{self, Field};
use crate::identity;
use crate::json::{self, Value};
use crate::mesh_json::{self, loops_value};
use crate::svg::Eye;

use super::asked::LONGEST_TEXT;

const FORMAT: &str = "sitjorbe-field-1";
/// The formats whose field is read: a mesh that `pave` wrote has all of a field too.
const FORMATS: [&str; 2] = [FORMAT, "sitjorbe-mesh-1"];

/// A field that was opened, with what its file says of it.
#[derive(Debug, PartialEq)]
pub struct Opened {
    pub field: Field,
    pub size: Option<f64>,
    pub eye: Option<Eye>,
    pub title: Option<String>,
    pub digest: Option<String>,
}

/// The field of a text, points or JSON; or what is wrong, by line.
pub fn read(text: &str) -> Result<Opened, Vec<String>> {
    if !text.trim_start().starts_with('{') {
        let field = csv::parse(text)?;
        return Ok(Opened { field, size: None, eye: None, title: None, digest: None });
    }
    json::parse(text).and_then(|value| of_value(&value)).map_err(|words| vec![words])
}

fn of_value(value: &Value) -> Result<Opened, String> {
    let format = value.get("format").and_then(Value::as_text).unwrap_or("");
    if !FORMATS.contains(&format) {
        return Err(format!("it isn't a field that was saved: its format is none of {}", FORMATS.join(", ")));
    }
    let mut field = mesh_json::field_of(value.get("loops").ok_or("it has no loops")?)?;
    field.names = csv::names(field.names.into_iter().map(|name| Some(shortened(&name))).collect());
    let text = |name: &str| value.get(name).and_then(Value::as_text);
    Ok(Opened {
        field,
        size: value.get("size").and_then(Value::as_number),
        eye: text("eye").and_then(Eye::of_name),
        title: text("title").map(shortened),
        digest: text("digest").map(shortened),
    })
}

/// No more of a name than the page takes.
fn shortened(name: &str) -> String {
    name.chars().filter(|c| !c.is_control()).take(LONGEST_TEXT).collect()
}

impl Opened {
    /// As it is answered to a page, with a title of its own or this one.
    pub fn value(&self, title: &str) -> Value {
        let words = |lines: &[String]| Value::list(lines.iter().map(|line| Value::text(line)));
        let text = |text: &Option<String>| text.as_deref().map_or(Value::Null, Value::text);
        let title = self.title.clone().filter(|title| !title.is_empty()).unwrap_or(shortened(title));
        Value::map([
            ("loops", loops_value(&self.field)),
            ("size", Value::maybe(self.size)),
            ("eye", self.eye.map_or(Value::Null, |eye| Value::text(eye.name()))),
            ("title", Value::text(&title)),
            ("digest", text(&self.digest)),
            ("notes", words(&self.field.notes)),
        ])
    }
}

/// A field as a text that is read back bit by bit, with the digest of its mesh where it has one.
pub fn write(field: &Field, size: f64, eye: Option<Eye>, title: &str, digest: Option<&str>) -> String {
    let parts = [
        ("format", Value::text(FORMAT)),
        ("version", Value::text(identity::VERSION)),
        ("title", Value::text(title)),
        ("eye", eye.map_or(Value::Null, |eye| Value::text(eye.name()))),
        ("size", Value::Number(size)),
        ("digest", digest.map_or(Value::Null, Value::text)),
        ("loops", loops_value(field)),
    ];
    let lines: Vec<String> = parts.iter().map(|(name, value)| format!("\"{name}\":{value}")).collect();
    format!("{{{}}}\n", lines.join(",\n"))
}

#[cfg(test)]
mod tests {
    use super::{read, write, Opened};
    use crate::csv;
    use crate::svg::Eye;

    #[test]
    fn a_field_is_read_as_it_was_written() {
        let mut field = csv::parse("# outline\n0.1,0\n3,-0\n1e-3,2.7\n\n# spot \"2\"\n1,1\n1,2\n2,1\n").unwrap();
        field.notes.clear();
        let text = write(&field, 1.3, Some(Eye::Left), "Anna's", Some("0123456789abcdef"));
        let opened = read(&text).unwrap();
        let place = |field: &csv::Field| {
            field.loops.iter().flatten().map(|p| [p.x.to_bits(), p.y.to_bits()]).collect::<Vec<_>>()
        };
        assert_eq!(place(&opened.field), place(&field));
        assert_eq!(opened.field.names, field.names);
        let Opened { size, eye, title, digest, .. } = opened;
        assert_eq!((size, eye, title.as_deref()), (Some(1.3), Some(Eye::Left), Some("Anna's")));
        assert_eq!(digest.as_deref(), Some("0123456789abcdef"));
    }

    #[test]
    fn what_is_no_field_is_said() {
        for (text, words) in [
            ("{", "line 1: "),
            ("{\"format\":\"x\"}", "it isn't a field that was saved"),
            ("{\"format\":\"sitjorbe-field-1\"}", "it has no loops"),
            ("1,2\n3,four\n", "line 2, column 3: y isn't a number"),
        ] {
            let wrong = read(text).unwrap_err().join("\n");
            assert!(wrong.starts_with(words), "{wrong}");
        }
    }
}
