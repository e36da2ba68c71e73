//! Tables and AML.

use crate::{Error, Structure, filled};
use hyssop_acpi_sys as sys;

/// Checks a table: its header, its length and its sum (ACPI 6.5, 5.2.6). The place of an error is an offset.
pub fn check_table(bytes: &[u8]) -> Result<(), Error> {
    let mut place = 0;
    let number = unsafe { sys::hyssop_check_table(bytes.as_ptr(), bytes.len(), &mut place) };
    Error::of(number, place)
}

/// Sets the length and the checksum of a table. The place of an error is an offset.
pub fn seal(bytes: &mut [u8]) -> Result<(), Error> {
    let mut place = 0;
    let number = unsafe { sys::hyssop_seal(bytes.as_mut_ptr(), bytes.len(), &mut place) };
    Error::of(number, place)
}

/// Returns the structures of a table, in order. The place of an error is an offset.
pub fn structures(bytes: &[u8]) -> Result<Vec<Structure>, Error> {
    filled(|out, room, count, place| unsafe {
        sys::hyssop_table_structures(bytes.as_ptr(), bytes.len(), out, room, count, place)
    })
}

/// Checks terms of AML, without a table's header (ACPI 6.5, 20.2). `arities` has words `NAME=N` with a space between two: how
/// many arguments a call of this method has. The place of an error is an offset. It needs 512 KiB of stack.
pub fn check_aml(bytes: &[u8], arities: &str) -> Result<(), Error> {
    let mut place = 0;
    let number = unsafe {
        sys::hyssop_check_aml(
            bytes.as_ptr(),
            bytes.len(),
            arities.as_ptr(),
            arities.len(),
            &mut place,
        )
    };
    Error::of(number, place)
}

/// Returns the ASL of a definition block (ACPI 6.5, 19). `arities` is that of `check_aml`; a name that isn't there has the number
/// of arguments that the block itself states. The place of an error is an offset. It needs 2 MiB of stack.
pub fn disassemble(bytes: &[u8], arities: &str) -> Result<String, Error> {
    let text = filled(|out, room, size, place| unsafe {
        sys::hyssop_disassemble(
            bytes.as_ptr(),
            bytes.len(),
            arities.as_ptr(),
            arities.len(),
            out,
            room,
            size,
            place,
        )
    })?;
    Ok(crate::text::text_of(text))
}

/// Returns the objects that a definition block makes when it is loaded (ACPI 6.5, 5.3), as a tree of names. All else is as for
/// `disassemble`.
/// It needs 2 MiB of stack.
pub fn names(bytes: &[u8], arities: &str) -> Result<String, Error> {
    let text = filled(|out, room, size, place| unsafe {
        sys::hyssop_names(
            bytes.as_ptr(),
            bytes.len(),
            arities.as_ptr(),
            arities.len(),
            out,
            room,
            size,
            place,
        )
    })?;
    Ok(crate::text::text_of(text))
}

/// Returns the definition block of a text that `disassemble` returned, or one like it (ACPI 6.5, 19). Lengths and the checksum
/// are worked out. The place of an error is a line. It needs 2 MiB of stack.
pub fn compile(text: &str) -> Result<Vec<u8>, Error> {
    filled(|out, room, size, place| unsafe {
        sys::hyssop_compile(text.as_ptr(), text.len(), out, room, size, place)
    })
}

/// The text of a definition block that is read among others.
#[derive(Clone, Debug, PartialEq, Eq)]
pub struct AmongText {
    /// The text. What can't be read is a comment in it.
    pub text: String,
    /// The offset at which a term can't be read, if not all can be.
    pub unread: Option<usize>,
}

/// Returns the ASL of a definition block as `disassemble`, but among further blocks, which have the same namespace (ACPI 6.5,
/// 5.3): calls have the numbers of arguments that they state, too. A block of which not all terms can be read has a text, too.
/// The place of an error is an offset. With `FURTHER_BLOCK` it is one in the further blocks, counted through all of them. It
/// needs 2 MiB of stack.
pub fn disassemble_among(
    bytes: &[u8],
    further: &[&[u8]],
    arities: &str,
) -> Result<AmongText, Error> {
    among(sys::hyssop_disassemble_among, bytes, further, arities)
}

/// Returns the objects that a definition block makes when it is loaded, as a tree of names. All else is as for
/// `disassemble_among`. It needs 2 MiB of stack.
pub fn names_among(bytes: &[u8], further: &[&[u8]], arities: &str) -> Result<AmongText, Error> {
    among(sys::hyssop_names_among, bytes, further, arities)
}

type Among = unsafe extern "C" fn(
    *const u8,
    usize,
    *const u8,
    usize,
    *const u8,
    usize,
    *mut u8,
    usize,
    *mut usize,
    *mut usize,
    *mut u64,
) -> u32;

fn among(call: Among, bytes: &[u8], further: &[&[u8]], arities: &str) -> Result<AmongText, Error> {
    let further = further.concat();
    let mut unread = 0;
    let text = filled(|out, room, size, place| unsafe {
        call(
            bytes.as_ptr(),
            bytes.len(),
            further.as_ptr(),
            further.len(),
            arities.as_ptr(),
            arities.len(),
            out,
            room,
            size,
            &mut unread,
            place,
        )
    })?;
    Ok(AmongText {
        text: crate::text::text_of(text),
        unread: (unread != 0).then_some(unread),
    })
}
