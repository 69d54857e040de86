//! A body by serde_json, as serde's derived readers do it: each asked member once, others skipped.

use serde::de::{Deserialize, Deserializer, Error, IgnoredAny, MapAccess, Visitor};
use std::fmt;

/// A member's name, in no memory of its own: its place among those asked for.
struct Name(Option<usize>);

const NAMES: [&str; 5] = ["trustedFacets", "version", "ids", "major", "minor"];

impl<'de> Deserialize<'de> for Name {
    fn deserialize<D: Deserializer<'de>>(deserializer: D) -> Result<Self, D::Error> {
        struct Text;
        impl Visitor<'_> for Text {
            type Value = Name;

            fn expecting(&self, f: &mut fmt::Formatter) -> fmt::Result {
                f.write_str("a name")
            }

            fn visit_str<E: Error>(self, text: &str) -> Result<Name, E> {
                Ok(Name(NAMES.iter().position(|&name| name == text)))
            }
        }
        deserializer.deserialize_identifier(Text)
    }
}

/// A struct read from the members of these places in `NAMES`.
macro_rules! object {
    ($object:ident { $($field:ident: $type:ty = $place:literal),+ }) => {
        struct $object {
            $($field: $type),+
        }

        impl<'de> Deserialize<'de> for $object {
            fn deserialize<D: Deserializer<'de>>(deserializer: D) -> Result<Self, D::Error> {
                struct Members;
                impl<'de> Visitor<'de> for Members {
                    type Value = $object;

                    fn expecting(&self, f: &mut fmt::Formatter) -> fmt::Result {
                        f.write_str("an object")
                    }

                    fn visit_map<A: MapAccess<'de>>(self, mut map: A) -> Result<$object, A::Error> {
                        $(let mut $field: Option<$type> = None;)+
                        while let Some(Name(place)) = map.next_key()? {
                            match place {
                                $(Some($place) if $field.is_some() => {
                                    return Err(A::Error::duplicate_field(NAMES[$place]));
                                }
                                Some($place) => $field = Some(map.next_value()?),)+
                                _ => drop(map.next_value::<IgnoredAny>()?),
                            }
                        }
                        Ok($object {
                            $($field: $field.ok_or_else(|| A::Error::missing_field(NAMES[$place]))?),+
                        })
                    }
                }
                deserializer.deserialize_map(Members)
            }
        }
    };
}

object!(Body { objects: Vec<Object> = 0 });
object!(Object { version: Version = 1, ids: Vec<String> = 2 });
object!(Version { major: u16 = 3, minor: u16 = 4 });

/// The entries of the first object with this version.
pub fn entries(body: &[u8], wanted: (u16, u16)) -> Option<Vec<String>> {
    if body.len() > 65_536 {
        return None;
    }
    let body: Body = serde_json::from_slice(body).ok()?;
    let selected = body.objects.into_iter().find(|o| (o.version.major, o.version.minor) == wanted);
    Some(selected?.ids)
}
