//! Numbers, texts, buffers and packages (ACPI 6.5, 20.2.3 and 20.2.5.4).

use crate::object::{bytes_of, emit};
use crate::{Aml, AmlSink, Writer};

/// The number 0.
pub const ZERO: Zero = Zero {};

/// The number 0.
pub struct Zero {}

impl Aml for Zero {
    fn to_aml_bytes(&self, sink: &mut dyn AmlSink) {
        0u64.to_aml_bytes(sink);
    }
}

/// The number 1.
pub const ONE: One = One {};

/// The number 1.
pub struct One {}

impl Aml for One {
    fn to_aml_bytes(&self, sink: &mut dyn AmlSink) {
        1u64.to_aml_bytes(sink);
    }
}

/// The number whose bits are all one.
pub const ONES: Ones = Ones {};

/// The number whose bits are all one (ACPI 6.5, 20.2.6.3, OnesOp).
pub struct Ones {}

impl Aml for Ones {
    fn to_aml_bytes(&self, sink: &mut dyn AmlSink) {
        emit(sink, |writer| {
            writer.bytes(&[0xff]);
        });
    }
}

/// A number of a byte.
pub type Byte = u8;

/// A number of two bytes.
pub type Word = u16;

/// A number of four bytes.
pub type DWord = u32;

/// A number of eight bytes.
pub type QWord = u64;

/// A number of the machine's width.
pub type Usize = usize;

// A number is written in its shortest form, whatever its type.
macro_rules! numbers {
    ($($number:ty)*) => {$(
        impl Aml for $number {
            fn to_aml_bytes(&self, sink: &mut dyn AmlSink) {
                emit(sink, |writer| {
                    writer.integer(*self as u64);
                });
            }
        }
    )*};
}

numbers!(u8 u16 u32 u64 usize);

/// A string of ASCII.
pub type AmlStr = &'static str;

impl Aml for AmlStr {
    fn to_aml_bytes(&self, sink: &mut dyn AmlSink) {
        emit(sink, |writer| {
            writer.string(self);
        });
    }
}

/// A string of ASCII.
pub type AmlString = String;

impl Aml for AmlString {
    fn to_aml_bytes(&self, sink: &mut dyn AmlSink) {
        emit(sink, |writer| {
            writer.string(self);
        });
    }
}

/// An EISA id as a number (ACPI 6.5, 19.3.4).
#[derive(Clone, Debug)]
pub struct EISAName {
    bytes: Vec<u8>,
}

impl EISAName {
    /// The number of an id, such as "PNP0A08". It panics if the id isn't three letters and four hexadecimal digits.
    pub fn new(name: &str) -> Self {
        let mut bytes = Vec::new();
        emit(&mut bytes, |writer| {
            writer.eisa_id(name);
        });
        EISAName { bytes }
    }
}

impl Aml for EISAName {
    fn to_aml_bytes(&self, sink: &mut dyn AmlSink) {
        sink.vec(&self.bytes);
    }
}

/// A UUID as a buffer (ACPI 6.5, 19.6.142).
#[derive(Clone, Debug)]
pub struct Uuid {
    bytes: Vec<u8>,
}

impl Uuid {
    /// The buffer of a UUID of 36 characters. It panics if it has other ones.
    pub fn new(name: &str) -> Self {
        let mut bytes = Vec::new();
        emit(&mut bytes, |writer| {
            writer.uuid(name);
        });
        Uuid { bytes }
    }
}

impl Aml for Uuid {
    fn to_aml_bytes(&self, sink: &mut dyn AmlSink) {
        sink.vec(&self.bytes);
    }
}

/// A buffer of bytes.
#[derive(Clone, Debug)]
pub struct BufferData {
    data: Vec<u8>,
}

impl BufferData {
    pub fn new(data: Vec<u8>) -> Self {
        BufferData { data }
    }
}

impl Aml for BufferData {
    fn to_aml_bytes(&self, sink: &mut dyn AmlSink) {
        emit(sink, |writer| {
            writer.buffer(|buffer| {
                buffer.bytes(&self.data);
            });
        });
    }
}

/// A buffer whose size and bytes an object writes.
pub struct BufferTerm<'a> {
    data: &'a dyn Aml,
}

impl<'a> BufferTerm<'a> {
    pub fn new(data: &'a dyn Aml) -> Self {
        BufferTerm { data }
    }
}

impl Aml for BufferTerm<'_> {
    fn to_aml_bytes(&self, sink: &mut dyn AmlSink) {
        emit(sink, |writer| {
            writer.sized_buffer(|buffer| {
                buffer.add(self.data);
            });
        });
    }
}

/// A package whose number of elements and elements an object writes.
pub struct VarPackageTerm<'a> {
    data: &'a dyn Aml,
}

impl<'a> VarPackageTerm<'a> {
    pub fn new(data: &'a dyn Aml) -> Self {
        VarPackageTerm { data }
    }
}

impl Aml for VarPackageTerm<'_> {
    fn to_aml_bytes(&self, sink: &mut dyn AmlSink) {
        emit(sink, |writer| {
            writer.var_package(|package| {
                package.add(self.data);
            });
        });
    }
}

// The number of a package's elements, which has a byte.
fn elements(count: usize) -> u8 {
    u8::try_from(count).expect("a package has at most 255 elements")
}

/// A package of at most 255 elements.
pub struct Package<'a> {
    children: Vec<&'a dyn Aml>,
}

impl<'a> Package<'a> {
    pub fn new(children: Vec<&'a dyn Aml>) -> Self {
        Package { children }
    }
}

impl Aml for Package<'_> {
    fn to_aml_bytes(&self, sink: &mut dyn AmlSink) {
        emit(sink, |writer| {
            writer.package(elements(self.children.len()), |package| {
                package.add_all(&self.children);
            });
        });
    }
}

/// A package whose elements are added one by one.
#[derive(Clone, Debug, Default)]
pub struct PackageBuilder {
    data: Vec<u8>,
    elements: usize,
}

impl PackageBuilder {
    pub fn new() -> Self {
        Self::default()
    }

    /// Adds an element.
    pub fn add_element(&mut self, aml: &dyn Aml) {
        self.data.extend(bytes_of(aml));
        self.elements += 1;
    }

    fn write(&self, writer: &mut Writer) {
        writer.package(elements(self.elements), |package| {
            package.bytes(&self.data);
        });
    }
}

impl AmlSink for PackageBuilder {
    fn byte(&mut self, byte: u8) {
        self.data.push(byte);
    }

    fn vec(&mut self, v: &[u8]) {
        self.data.extend_from_slice(v);
    }
}

impl Aml for PackageBuilder {
    fn to_aml_bytes(&self, sink: &mut dyn AmlSink) {
        emit(sink, |writer| self.write(writer));
    }
}
