//! What the requests of this crate have in them (docs/SHELL.md, "Requests"): it is written here, and none is read.
use crate::value::Value;
use std::fmt::Write;

/// A text as a JSON string.
pub(crate) fn text(text: &str) -> String {
    let mut json = String::with_capacity(text.len() + 2);
    json.push('"');
    for character in text.chars() {
        match character {
            '"' | '\\' => json.extend(['\\', character]),
            // A control character has no other form.
            '\0'..='\u{1f}' => {
                let _ = write!(json, "\\u{:04x}", u32::from(character));
            }
            _ => json.push(character),
        }
    }
    json.push('"');
    json
}

/// A value, as it stands in a scene text.
pub(crate) fn value(value: &Value) -> String {
    match value {
        Value::Tag => "true".to_owned(),
        Value::Int(number) => number.to_string(),
        Value::Vec3([x, y, z]) => format!("[{x},{y},{z}]"),
        Value::Text(words) => text(words),
        Value::Link(entity) => format!("\"{entity}\""),
    }
}

/// A list.
pub(crate) fn list(items: impl IntoIterator<Item = String>) -> String {
    format!("[{}]", items.into_iter().collect::<Vec<_>>().join(","))
}

/// An object.
pub(crate) fn object(entries: impl IntoIterator<Item = (String, String)>) -> String {
    let entries = entries.into_iter().map(|(key, value)| format!("{}:{value}", text(&key)));
    format!("{{{}}}", entries.collect::<Vec<_>>().join(","))
}
