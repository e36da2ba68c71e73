//! Tables that are begun, and structures that are made, by names of fields.

use crate::Writer;
use crate::object::written;

// Begins a table with its own fields, which are zero. An id may have any bytes.
pub(crate) fn begin(
    signature: &str,
    revision: u8,
    oem_id: [u8; 6],
    oem_table_id: [u8; 8],
    oem_revision: u32,
) -> Writer {
    let mut table = Writer::table(signature, revision, "      ", "        ", oem_revision);
    table.overwrite(10, &oem_id).overwrite(16, &oem_table_id);
    table.add_fields();
    table
}

// The bytes of a table.
pub(crate) fn finished(table: &Writer) -> Vec<u8> {
    written(table.clone().finish())
}

fn from<const N: usize>(table: &Writer, at: usize) -> [u8; N] {
    finished(table)[at..]
        .try_into()
        .expect("the structure has this size")
}

// A structure of a type, with fields that are set.
pub(crate) fn made<const N: usize>(
    signature: &str,
    kind: u32,
    write: impl FnOnce(&mut Writer, usize),
) -> [u8; N] {
    let mut table = begin(signature, 1, [0; 6], [0; 8], 0);
    let at = table.add_structure(kind);
    write(&mut table, at);
    from(&table, at)
}

// A structure with these bytes, in which fields are set.
pub(crate) fn changed<const N: usize>(
    signature: &str,
    bytes: [u8; N],
    write: impl FnOnce(&mut Writer, usize),
) -> [u8; N] {
    let mut table = begin(signature, 1, [0; 6], [0; 8], 0);
    let at = table.len();
    table.bytes(&bytes);
    write(&mut table, at);
    from(&table, at)
}

// The bytes of a structure of a type, of any size: fields that are set, and what is written after them.
pub(crate) fn piece(signature: &str, kind: u32, write: impl FnOnce(&mut Writer, usize)) -> Vec<u8> {
    let mut table = begin(signature, 1, [0; 6], [0; 8], 0);
    let at = table.add_structure(kind);
    write(&mut table, at);
    table.end_structure(at);
    finished(&table).split_off(at)
}

// A structure, which has its bytes.
macro_rules! structure {
    ($(#[$meta:meta])* $name:ident, $size:literal) => {
        $(#[$meta])*
        #[derive(Clone, Copy, Debug, PartialEq, Eq)]
        pub struct $name {
            bytes: [u8; $size],
        }

        impl $name {
            /// How many bytes it has.
            pub const fn len() -> usize {
                $size
            }
        }

        impl $crate::Aml for $name {
            fn to_aml_bytes(&self, sink: &mut dyn $crate::AmlSink) {
                sink.vec(&self.bytes);
            }
        }
    };
}
pub(crate) use structure;

// A table that a writer writes.
macro_rules! table {
    ($(#[$meta:meta])* $name:ident) => {
        $(#[$meta])*
        #[derive(Clone, Debug)]
        pub struct $name {
            table: $crate::Writer,
        }

        impl $crate::Aml for $name {
            fn to_aml_bytes(&self, sink: &mut dyn $crate::AmlSink) {
                sink.vec(&$crate::structure::finished(&self.table));
            }
        }
    };
}
pub(crate) use table;
