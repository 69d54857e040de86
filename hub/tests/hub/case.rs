//! Inputs that own their bytes.

use crate::model::cleaning;
use facets_hub::Inputs;
use std::fmt;

/// Bytes for a message, the first of them at least.
pub fn shown(bytes: &[u8]) -> String {
    let start = &bytes[..bytes.len().min(1000)];
    format!("{} bytes \"{}\"", bytes.len(), start.escape_ascii())
}

#[derive(Clone, Default)]
pub struct Case {
    pub caller: Vec<u8>,
    pub appid: Vec<u8>,
    pub major: u16,
    pub minor: u16,
    pub record: Vec<u8>,
    pub text: Vec<u8>,
    pub body: Vec<u8>,
    pub table: Vec<u8>,
}

impl Case {
    pub fn decision(&self) -> Inputs<'_> {
        Inputs {
            caller: &self.caller,
            appid: &self.appid,
            major: self.major,
            minor: self.minor,
            record: &self.record,
            text: &self.text,
            body: &self.body,
            table: &self.table,
        }
    }

    pub fn cleaning(&self) -> cleaning::Inputs<'_> {
        cleaning::Inputs {
            appid: &self.appid,
            major: self.major,
            minor: self.minor,
            body: &self.body,
            table: &self.table,
        }
    }
}

impl fmt::Debug for Case {
    fn fmt(&self, f: &mut fmt::Formatter) -> fmt::Result {
        writeln!(f, "version {}.{}", self.major, self.minor)?;
        let parts = [
            ("caller", &self.caller),
            ("AppID", &self.appid),
            ("record", &self.record),
            ("text", &self.text),
            ("body", &self.body),
            ("table", &self.table),
        ];
        for (name, bytes) in parts {
            writeln!(f, "{name} {}", shown(bytes))?;
        }
        Ok(())
    }
}
