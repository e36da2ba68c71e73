//! ACPI tables and AML by a library that is proved: checks of tables, AML and images, texts of tables, and a writer of AML and of
//! tables. The work is done by `libhyssop.a`. This crate grows the buffers, and ends texts with a zero. The modules of
//! `acpi_tables` also work out flags, offsets, counts and matrices.
//!
//! ```
//! use hyssop_acpi::{Writer, check_table};
//!
//! let mut dsdt = Writer::table("DSDT", 2, "FOOBAR", "CAFEDEAD", 1);
//! dsdt.device("\\_SB_.COM1", |port| {
//!     port.name("_HID").eisa_id("PNP0501");
//!     port.name("_CRS").resources(|list| {
//!         list.interrupt(true, true, false, false, 4).io(0x3f8, 0x3f8, 1, 8);
//!     });
//! });
//! let dsdt = dsdt.finish()?;
//! check_table(&dsdt)?;
//! # Ok::<(), hyssop_acpi::Error>(())
//! ```

pub mod aml;
pub mod bert;
pub mod cedt;
mod error;
pub mod facs;
pub mod fadt;
pub mod gas;
pub mod hest;
pub mod hmat;
mod image;
pub mod madt;
pub mod mcfg;
mod object;
pub mod pptt;
pub mod rhct;
pub mod rimt;
pub mod rqsc;
pub mod rsdp;
pub mod sdt;
pub mod slit;
pub mod spcr;
pub mod srat;
mod structure;
mod table;
mod text;
pub mod tpm2;
pub mod viot;
mod writer;
pub mod xsdt;

pub use error::Error;
pub use hyssop_acpi_sys::{ImageTable, NO_KIND, Note, Structure, fault};
pub use image::{
    Image, Range, check_image, check_memory, find_rsdp, image_tables, lay, memory_tables,
};
pub use object::{Aml, AmlSink, CREATOR_ID, CREATOR_REVISION, Checksum, u8sum};
pub use table::{
    AmongText, check_aml, check_table, compile, disassemble, disassemble_among, names, names_among,
    seal, structures,
};
pub use text::{findings, make, notes, show, template};
pub use writer::{Access, MemoryType, Op, RegionSpace, Update, Writer};

// Calls a function that fills a buffer, with a larger one as long as there are more values than it has space for.
fn filled<T: Clone + Default>(
    mut call: impl FnMut(*mut T, usize, &mut usize, &mut u64) -> u32,
) -> Result<Vec<T>, Error> {
    let mut found = Vec::new();
    loop {
        let (mut count, mut place) = (0, 0);
        let number = call(found.as_mut_ptr(), found.len(), &mut count, &mut place);
        if number != fault::BUFFER {
            found.truncate(count);
            return Error::of(number, place).map(|()| found);
        }
        found.resize(count, T::default());
    }
}
