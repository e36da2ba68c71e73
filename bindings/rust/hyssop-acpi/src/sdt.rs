//! Tables of bytes (ACPI 6.5, 5.2.6).

use crate::object::{emit, written};
use crate::{Aml, AmlSink, Writer, seal};

/// A value that stands in a table: a number, lowest byte first, or bytes.
pub trait IntoBytes {
    fn to_table_bytes(&self) -> Vec<u8>;
}

macro_rules! numbers {
    ($($number:ty)*) => {$(
        impl IntoBytes for $number {
            fn to_table_bytes(&self) -> Vec<u8> {
                self.to_le_bytes().to_vec()
            }
        }
    )*};
}

numbers!(u8 u16 u32 u64);

impl<const N: usize> IntoBytes for [u8; N] {
    fn to_table_bytes(&self) -> Vec<u8> {
        self.to_vec()
    }
}

/// The address of a register (ACPI 6.5, 5.2.3.2), by its numbers.
#[derive(Clone, Copy, Debug, PartialEq, Eq)]
pub struct GenericAddress {
    pub address_space_id: u8,
    pub register_bit_width: u8,
    pub register_bit_offset: u8,
    pub access_size: u8,
    pub address: u64,
}

impl GenericAddress {
    // A register as wide as a type of 1, 2, 4 or 8 bytes, which is accessed as a whole.
    fn of<T>(address_space_id: u8, address: u64) -> Self {
        let access_size = match size_of::<T>() {
            1 => 1,
            2 => 2,
            4 => 3,
            8 => 4,
            _ => panic!("a register has 1, 2, 4 or 8 bytes"),
        };
        GenericAddress {
            address_space_id,
            register_bit_width: 8 * size_of::<T>() as u8,
            register_bit_offset: 0,
            access_size,
            address,
        }
    }

    /// A register at a port.
    pub fn io_port_address<T>(address: u16) -> Self {
        GenericAddress::of::<T>(1, address.into())
    }

    /// A register in memory.
    pub fn mmio_address<T>(address: u64) -> Self {
        GenericAddress::of::<T>(0, address)
    }
}

impl IntoBytes for GenericAddress {
    fn to_table_bytes(&self) -> Vec<u8> {
        let mut bytes = Vec::new();
        emit(&mut bytes, |writer| {
            writer.add_number(1, self.address_space_id.into());
            writer.add_number(1, self.register_bit_width.into());
            writer.add_number(1, self.register_bit_offset.into());
            writer.add_number(1, self.access_size.into());
            writer.add_number(8, self.address);
        });
        bytes
    }
}

/// A table of bytes, whose length and checksum are right after each change.
#[derive(Clone, Debug, PartialEq, Eq)]
pub struct Sdt {
    data: Vec<u8>,
}

impl Sdt {
    /// A table of a length, at least 36 bytes, which are zero after the header.
    pub fn new(
        signature: [u8; 4],
        length: u32,
        revision: u8,
        oem_id: [u8; 6],
        oem_table: [u8; 8],
        oem_revision: u32,
    ) -> Self {
        assert!(
            length >= 36,
            "a table has at least the 36 bytes of its header"
        );
        let mut table = Writer::table("SSDT", revision, "      ", "        ", oem_revision);
        table.overwrite(0, &signature).overwrite(10, &oem_id);
        table.overwrite(16, &oem_table);
        table.bytes(&vec![0; length as usize - 36]);
        Sdt {
            data: written(table.finish()),
        }
    }

    /// Sets the length and the checksum.
    pub fn update_checksum(&mut self) {
        seal(&mut self.data).unwrap_or_else(|error| panic!("{}", error.words()));
    }

    pub fn as_slice(&self) -> &[u8] {
        &self.data
    }

    /// Adds a value at the end.
    pub fn append<T: IntoBytes>(&mut self, value: T) {
        self.append_slice(&value.to_table_bytes());
    }

    /// Adds bytes at the end.
    pub fn append_slice(&mut self, data: &[u8]) {
        self.data.extend_from_slice(data);
        self.update_checksum();
    }

    /// Writes bytes over those at an offset. It panics if there are fewer.
    pub fn write_bytes(&mut self, offset: usize, data: &[u8]) {
        assert!(
            offset + data.len() <= self.data.len(),
            "the table ends before"
        );
        self.data[offset..offset + data.len()].copy_from_slice(data);
        self.update_checksum();
    }

    /// Writes a value over the bytes at an offset. It panics if there are fewer.
    pub fn write<T: IntoBytes>(&mut self, offset: usize, value: T) {
        self.write_bytes(offset, &value.to_table_bytes());
    }

    pub fn write_u8(&mut self, offset: usize, val: u8) {
        self.write(offset, val);
    }

    pub fn write_u16(&mut self, offset: usize, val: u16) {
        self.write(offset, val);
    }

    pub fn write_u32(&mut self, offset: usize, val: u32) {
        self.write(offset, val);
    }

    pub fn write_u64(&mut self, offset: usize, val: u64) {
        self.write(offset, val);
    }

    pub fn len(&self) -> usize {
        self.data.len()
    }

    pub fn is_empty(&self) -> bool {
        self.data.is_empty()
    }
}

impl AmlSink for Sdt {
    fn byte(&mut self, byte: u8) {
        self.append_slice(&[byte]);
    }

    fn vec(&mut self, v: &[u8]) {
        self.append_slice(v);
    }
}

impl Aml for Sdt {
    fn to_aml_bytes(&self, sink: &mut dyn AmlSink) {
        sink.vec(&self.data);
    }
}
