//! JSON by serde_json, so that every member is seen, repeated ones too, and every number as written.

use serde::de::{Deserialize, Deserializer, MapAccess, Visitor};
use serde_json::{from_str, value::RawValue};
use std::fmt;

#[derive(Clone, Debug, PartialEq, Eq)]
pub enum Value {
    Object(Vec<(String, Value)>),
    Array(Vec<Value>),
    String(String),
    Number(String),
    /// `true`, `false` or `null`.
    Word,
}

/// The value; nothing where the bytes are unreadable.
pub fn read(bytes: &[u8]) -> Option<Value> {
    // Valid UTF-8 in the RFC 8259 grammar, nested at most 16 deep (arrays and objects open together).
    value(from_str(std::str::from_utf8(bytes).ok()?).ok()?, 16)
}

/// The value of this text, in which so many arrays and objects may be open together.
fn value(raw: &RawValue, depth: usize) -> Option<Value> {
    let text = raw.get();
    Some(match text.as_bytes()[0] {
        b'{' => {
            let inside = depth.checked_sub(1)?;
            let members = from_str::<Members>(text).ok()?.0;
            let read = |(name, raw)| Some((name, value(raw, inside)?));
            Value::Object(members.into_iter().map(read).collect::<Option<_>>()?)
        }
        b'[' => {
            let inside = depth.checked_sub(1)?;
            let elements: Vec<&RawValue> = from_str(text).ok()?;
            Value::Array(elements.into_iter().map(|raw| value(raw, inside)).collect::<Option<_>>()?)
        }
        b'"' => Value::String(from_str(text).ok()?),
        b't' | b'f' | b'n' => Value::Word,
        _ => Value::Number(text.to_owned()),
    })
}

/// The members of an object, one after the other.
struct Members<'a>(Vec<(String, &'a RawValue)>);

impl<'a> Deserialize<'a> for Members<'a> {
    fn deserialize<D: Deserializer<'a>>(deserializer: D) -> Result<Self, D::Error> {
        struct Each;
        impl<'a> Visitor<'a> for Each {
            type Value = Members<'a>;

            fn expecting(&self, f: &mut fmt::Formatter) -> fmt::Result {
                f.write_str("an object")
            }

            fn visit_map<A: MapAccess<'a>>(self, mut map: A) -> Result<Self::Value, A::Error> {
                let mut members = Vec::new();
                while let Some(member) = map.next_entry()? {
                    members.push(member);
                }
                Ok(Members(members))
            }
        }
        deserializer.deserialize_map(Each)
    }
}
