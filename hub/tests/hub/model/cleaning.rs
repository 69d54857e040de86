//! Cleaning and tally: the document's sentences stand above the lines that say the same.

use super::{
    decision::bad_appid,
    identifier::begins_https,
    list::{self, Judge},
    suffix, Refused,
};

/// What cleaning and tally are given, the output aside.
#[derive(Clone, Copy, Debug)]
pub struct Inputs<'a> {
    pub appid: &'a [u8],
    pub major: u16,
    pub minor: u16,
    pub body: &'a [u8],
    pub table: &'a [u8],
}

impl Inputs<'_> {
    pub fn judge(&self) -> Judge<'_> {
        Judge { appid: self.appid, table: self.table }
    }

    /// Cleaning and tally refuse in the order 2, 3, 9 to 13; the empty AppID gives 3.
    fn entries(&self) -> Result<Vec<Vec<u8>>, Refused> {
        if bad_appid(self.appid) {
            return Err(2);
        }
        if !begins_https(self.appid) {
            return Err(3);
        }
        let entries = list::selected(self.body, self.major, self.minor)?;
        suffix::table(self.table).ok_or(13u16)?;
        Ok(entries)
    }

    /// The cleaned list: the normal forms, without blanks, members as in the print, `[]` where nothing is kept.
    pub fn list(&self) -> Result<Vec<u8>, Refused> {
        let kept = self.judge().kept(&self.entries()?);
        let quoted = |form: Vec<u8>| [b"\"", &form[..], b"\""].concat();
        let ids: Vec<Vec<u8>> = kept.iter().map(|facet| quoted(facet.normal_form())).collect();
        let (major, minor) = (self.major, self.minor);
        let start = format!(r#"{{"trustedFacets":[{{"version":{{"major":{major},"minor":{minor}}},"ids":["#);
        Ok([start.as_bytes(), &ids.join(&b','), b"]}]}"].concat())
    }

    /// The list and its length, written over the beginning of the output.
    pub fn clean(&self, out: &mut [u8]) -> Result<usize, Refused> {
        let list = self.list()?;
        // Cleaning 15 after them: output shorter than the list.
        if out.len() < list.len() {
            return Err(15);
        }
        // Bytes beyond that length remain.
        out[..list.len()].copy_from_slice(&list);
        Ok(list.len())
    }

    /// The tally counts kept entries, at 0, and each of the four causes.
    pub fn tally(&self) -> Result<[u32; 5], Refused> {
        let mut counts = [0; 5];
        for entry in self.entries()? {
            counts[self.judge().judge(&entry).err().unwrap_or(0)] += 1;
        }
        Ok(counts)
    }
}
