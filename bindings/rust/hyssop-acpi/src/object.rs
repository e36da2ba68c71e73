//! Objects that write themselves into a sink, as in the Rust crate `acpi_tables`.

use crate::{Error, Writer};

/// The creator in the header of a table that the library writes.
pub const CREATOR_ID: [u8; 4] = *b"RVAT";

/// The revision of this creator.
pub const CREATOR_REVISION: [u8; 4] = [0, 0, 0, 1];

/// What takes bytes.
pub trait AmlSink {
    /// Takes a byte.
    fn byte(&mut self, byte: u8);

    /// Takes a number of two bytes, lowest byte first.
    fn word(&mut self, word: u16) {
        self.vec(&word.to_le_bytes());
    }

    /// Takes a number of four bytes, lowest byte first.
    fn dword(&mut self, dword: u32) {
        self.vec(&dword.to_le_bytes());
    }

    /// Takes a number of eight bytes, lowest byte first.
    fn qword(&mut self, qword: u64) {
        self.vec(&qword.to_le_bytes());
    }

    /// Takes bytes.
    fn vec(&mut self, v: &[u8]) {
        for byte in v {
            self.byte(*byte);
        }
    }
}

impl AmlSink for Vec<u8> {
    fn byte(&mut self, byte: u8) {
        self.push(byte);
    }

    fn vec(&mut self, v: &[u8]) {
        self.extend_from_slice(v);
    }
}

/// An object of AML, a table or a structure, which writes its bytes.
pub trait Aml {
    /// Writes the bytes. It panics if the object has no bytes by the standard: a path with a part that hasn't four characters, an
    /// argument past 6, or a length that doesn't fit.
    fn to_aml_bytes(&self, sink: &mut dyn AmlSink);
}

/// The sum of bytes, modulo 256.
#[derive(Clone, Copy, Debug, Default, PartialEq, Eq)]
pub struct Checksum {
    sum: u8,
}

impl Checksum {
    /// Adds bytes.
    pub fn append(&mut self, data: &[u8]) {
        for byte in data {
            self.add(*byte);
        }
    }

    /// Subtracts bytes.
    pub fn delete(&mut self, data: &[u8]) {
        for byte in data {
            self.sub(*byte);
        }
    }

    /// Adds a byte.
    pub fn add(&mut self, data: u8) {
        self.sum = self.sum.wrapping_add(data);
    }

    /// Subtracts a byte.
    pub fn sub(&mut self, data: u8) {
        self.sum = self.sum.wrapping_sub(data);
    }

    /// The sum.
    pub fn raw_value(&self) -> u8 {
        self.sum
    }

    /// The byte with which the sum is zero.
    pub fn value(&self) -> u8 {
        self.sum.wrapping_neg()
    }
}

impl AmlSink for Checksum {
    fn byte(&mut self, byte: u8) {
        self.add(byte);
    }
}

/// The sum of an object's bytes, modulo 256.
pub fn u8sum(aml: &dyn Aml) -> u8 {
    let mut sum = Checksum::default();
    aml.to_aml_bytes(&mut sum);
    sum.raw_value()
}

pub(crate) fn bytes_of(object: &dyn Aml) -> Vec<u8> {
    let mut bytes = Vec::new();
    object.to_aml_bytes(&mut bytes);
    bytes
}

// The bytes that were written. As in `acpi_tables`, an object that can't be written panics.
pub(crate) fn written(result: Result<Vec<u8>, Error>) -> Vec<u8> {
    result.unwrap_or_else(|error| panic!("{}", error.words()))
}

// Writes what a writer writes.
pub(crate) fn emit(sink: &mut dyn AmlSink, write: impl FnOnce(&mut Writer)) {
    let mut writer = Writer::new();
    write(&mut writer);
    sink.vec(&written(writer.finish()));
}

impl Writer {
    /// An object, or whatever writes itself into a sink.
    pub fn add(&mut self, object: &dyn Aml) -> &mut Writer {
        self.bytes(&bytes_of(object))
    }

    /// Adds an object that is one structure to the table, and returns its offset, as `add_structure_bytes`.
    pub fn add_object(&mut self, object: &dyn Aml) -> usize {
        self.add_structure_bytes(&bytes_of(object))
    }

    // Objects, one after another.
    pub(crate) fn add_all(&mut self, objects: &[&dyn Aml]) -> &mut Writer {
        for object in objects {
            self.add(*object);
        }
        self
    }
}
