//! Texts of tables.

use crate::{Error, Note, filled};
use hyssop_acpi_sys as sys;

// The library writes UTF-8.
pub(crate) fn text_of(bytes: Vec<u8>) -> String {
    String::from_utf8_lossy(&bytes).into_owned()
}

/// Returns the text of a table, an RSDP, a FACS, a CDAT or an S3PT: a line for each field, by its
/// name. The place of an error is an offset.
pub fn show(bytes: &[u8]) -> Result<String, Error> {
    let text = filled(|out, room, size, place| unsafe {
        sys::hyssop_show(bytes.as_ptr(), bytes.len(), out, room, size, place)
    })?;
    Ok(text_of(text))
}

/// Returns the rules of the standard that a table, an RSDP, a FACS, a CDAT or an S3PT breaks: a
/// line for each, and no line if it breaks none.
/// The place of an error is an offset.
pub fn findings(bytes: &[u8]) -> Result<String, Error> {
    let text = filled(|out, room, size, place| unsafe {
        sys::hyssop_findings(bytes.as_ptr(), bytes.len(), out, room, size, place)
    })?;
    Ok(text_of(text))
}

/// Returns the table of a text that `show` returned, or one like it. What the text leaves out is worked out, such as its length
/// and checksum. The place of an error is a line.
pub fn make(text: &str) -> Result<Vec<u8>, Error> {
    filled(|out, room, size, place| unsafe {
        sys::hyssop_make(text.as_ptr(), text.len(), out, room, size, place)
    })
}

/// Returns the lengths, counts and checksums that such a text states wrongly; `make` writes them as they are stated. The place of
/// an error is a line.
pub fn notes(text: &str) -> Result<Vec<Note>, Error> {
    filled(|out, room, count, place| unsafe {
        sys::hyssop_make_notes(text.as_ptr(), text.len(), out, room, count, place)
    })
}

/// Returns a text of the table of a signature, to begin with.
pub fn template(signature: &str) -> Result<String, Error> {
    let text = filled(|out, room, size, _| unsafe {
        sys::hyssop_template(signature.as_ptr(), signature.len(), out, room, size)
    })?;
    Ok(text_of(text))
}
