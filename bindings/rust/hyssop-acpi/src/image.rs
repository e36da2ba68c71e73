//! Images of tables.

use crate::{Error, ImageTable, filled};
use hyssop_acpi_sys as sys;

/// An image of tables.
#[derive(Clone, Debug, PartialEq, Eq)]
pub struct Image {
    /// Its bytes.
    pub bytes: Vec<u8>,
    /// The physical address of its RSDP.
    pub rsdp: u64,
}

/// Checks the tables in a guest's memory from the RSDP on (ACPI 6.5, 5.2.5 to 5.2.10). The bytes begin at the physical address
/// `base`, and the RSDP is at the address `rsdp`. The place of an error is an address.
pub fn check_image(bytes: &[u8], base: u64, rsdp: u64) -> Result<(), Error> {
    let mut place = 0;
    let number =
        unsafe { sys::hyssop_check_image(bytes.as_ptr(), bytes.len(), base, rsdp, &mut place) };
    Error::of(number, place)
}

/// Returns the tables of such an image: the RSDP, the XSDT, its entries in order, the FACS if there is one, and the DSDT. The
/// place of an error is an address.
pub fn image_tables(bytes: &[u8], base: u64, rsdp: u64) -> Result<Vec<ImageTable>, Error> {
    filled(|out, room, count, place| unsafe {
        sys::hyssop_image_tables(
            bytes.as_ptr(),
            bytes.len(),
            base,
            rsdp,
            out,
            room,
            count,
            place,
        )
    })
}

/// A range of a guest's memory.
#[derive(Clone, Copy, Debug, PartialEq, Eq)]
pub struct Range<'a> {
    /// The physical address of its first byte.
    pub address: u64,
    /// Its bytes.
    pub bytes: &'a [u8],
}

/// Checks the tables in a guest's memory as `check_image`, where this is several ranges that don't overlap. The RSDP is at the
/// address `rsdp`. Each table lies in one range with its whole length. The place of an error is an address.
pub fn check_memory(ranges: &[Range<'_>], rsdp: u64) -> Result<(), Error> {
    let ranges = in_c(ranges);
    let mut place = 0;
    let number =
        unsafe { sys::hyssop_check_memory(ranges.as_ptr(), ranges.len(), rsdp, &mut place) };
    Error::of(number, place)
}

/// Returns the tables in such memory, as `image_tables`. The place of an error is an address.
pub fn memory_tables(ranges: &[Range<'_>], rsdp: u64) -> Result<Vec<ImageTable>, Error> {
    let ranges = in_c(ranges);
    filled(|out, room, count, place| unsafe {
        sys::hyssop_memory_tables(ranges.as_ptr(), ranges.len(), rsdp, out, room, count, place)
    })
}

fn in_c(ranges: &[Range<'_>]) -> Vec<sys::Range> {
    let one = |range: &Range<'_>| sys::Range {
        address: range.address,
        bytes: range.bytes.as_ptr(),
        size: range.bytes.len(),
    };
    ranges.iter().map(one).collect()
}

/// Finds the RSDP in memory (ACPI 6.5, 5.2.5.1), at a multiple of 16 bytes, and returns its offset.
pub fn find_rsdp(bytes: &[u8]) -> Result<usize, Error> {
    let mut offset = 0;
    let number = unsafe { sys::hyssop_find_rsdp(bytes.as_ptr(), bytes.len(), &mut offset) };
    Error::of(number, 0).map(|()| offset)
}

/// Lays tables into an image for the physical address `base`, a multiple of 64: the FADT, the DSDT, the FACS, and others. The
/// image gets an XSDT and an RSDP. The place of an error is which table is wrong, counted from 0.
pub fn lay(tables: &[&[u8]], base: u64) -> Result<Image, Error> {
    let tables = tables.concat();
    let mut rsdp = 0;
    let bytes = filled(|out, room, size, place| unsafe {
        sys::hyssop_lay(
            tables.as_ptr(),
            tables.len(),
            base,
            out,
            room,
            size,
            &mut rsdp,
            place,
        )
    })?;
    Ok(Image { bytes, rsdp })
}
