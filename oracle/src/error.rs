//! The crate's errors, as far as gc.rs names them, and two more: the ways an address table fails.

use std::fmt;

#[derive(Debug)]
#[allow(dead_code)]
pub(crate) enum Error {
    ParseUnitHeader(gimli::Error),
    ParseUnitAbbreviations(gimli::Error),
    ParseUnit(gimli::Error),
    MalformedDebugInfo,
    UnexpectedSectionAbsoluteReference,
    UnsupportedForm(u16),
    UnsupportedLocListsEntry(u8),
    /// What `?` makes of a reading error.
    Read(gimli::Error),
    /// What `?` makes of a writing error.
    Write(gimli::write::Error),
    /// The address table holds neither 0 nor 1 at the index that was asked for.
    Address,
    /// The index that was asked for is past the end of an address table that is not empty.
    AddressPastEnd,
}

pub(crate) type Result<T> = std::result::Result<T, Error>;

impl From<gimli::Error> for Error {
    fn from(e: gimli::Error) -> Self {
        Error::Read(e)
    }
}

impl From<gimli::write::Error> for Error {
    fn from(e: gimli::write::Error) -> Self {
        Error::Write(e)
    }
}

/// The variant's name, and the name of gimli's error without its numbers (one of them is a machine address).
impl fmt::Display for Error {
    fn fmt(&self, f: &mut fmt::Formatter<'_>) -> fmt::Result {
        let shown = format!("{self:?}");
        let names: Vec<&str> = shown
            .split(|c: char| !c.is_alphanumeric() && c != '_')
            .filter(|w| w.starts_with(|c: char| c.is_alphabetic()) && *w != "ReaderOffsetId")
            .take(2)
            .collect();
        f.write_str(&names.join(" "))
    }
}
