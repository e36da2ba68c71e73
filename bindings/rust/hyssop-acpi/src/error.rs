//! What is wrong.

use std::ffi::CStr;
use std::fmt;

/// What is wrong, and where. `docs/C.md` has what the place of each fault is: an offset, an address, a line or an index.
#[derive(Clone, Copy, Debug, PartialEq, Eq)]
pub struct Error {
    /// The number of the fault: a constant of `fault`.
    pub fault: u32,
    /// Where it is, or 0 if it has no place.
    pub place: u64,
}

impl Error {
    pub(crate) fn of(fault: u32, place: u64) -> Result<(), Error> {
        match fault {
            hyssop_acpi_sys::FINE => Ok(()),
            fault => Err(Error { fault, place }),
        }
    }

    /// The words of the fault.
    pub fn words(&self) -> &'static str {
        // The library returns a text of ASCII with a zero at its end, which is constant.
        let words = unsafe { CStr::from_ptr(hyssop_acpi_sys::hyssop_fault_words(self.fault)) };
        words.to_str().unwrap_or("a fault without words")
    }
}

impl fmt::Display for Error {
    fn fmt(&self, f: &mut fmt::Formatter<'_>) -> fmt::Result {
        write!(f, "at {}: {}", self.place, self.words())
    }
}

impl std::error::Error for Error {}
