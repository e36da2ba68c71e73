//! Resource descriptors (ACPI 6.5, 6.4).

use crate::gas::GAS;
use crate::object::emit;
use crate::{Aml, AmlSink, MemoryType};

/// A buffer of resource descriptors, with the end tag.
pub struct ResourceTemplate<'a> {
    children: Vec<&'a dyn Aml>,
}

impl<'a> ResourceTemplate<'a> {
    pub fn new(children: Vec<&'a dyn Aml>) -> Self {
        ResourceTemplate { children }
    }
}

impl Aml for ResourceTemplate<'_> {
    fn to_aml_bytes(&self, sink: &mut dyn AmlSink) {
        emit(sink, |writer| {
            writer.resources(|list| {
                list.add_all(&self.children);
            });
        });
    }
}

/// A range of memory at a fixed address.
#[derive(Clone, Copy, Debug)]
pub struct Memory32Fixed {
    read_write: bool,
    base: u32,
    length: u32,
}

impl Memory32Fixed {
    pub fn new(read_write: bool, base: u32, length: u32) -> Self {
        Memory32Fixed {
            read_write,
            base,
            length,
        }
    }
}

impl Aml for Memory32Fixed {
    fn to_aml_bytes(&self, sink: &mut dyn AmlSink) {
        emit(sink, |writer| {
            writer.memory32_fixed(self.read_write, self.base, self.length);
        });
    }
}

/// A range of ports.
#[derive(Clone, Copy, Debug)]
pub struct IO {
    min: u16,
    max: u16,
    alignment: u8,
    length: u8,
}

impl IO {
    pub fn new(min: u16, max: u16, alignment: u8, length: u8) -> Self {
        IO {
            min,
            max,
            alignment,
            length,
        }
    }
}

impl Aml for IO {
    fn to_aml_bytes(&self, sink: &mut dyn AmlSink) {
        emit(sink, |writer| {
            writer.io(self.min, self.max, self.alignment, self.length);
        });
    }
}

/// An interrupt.
#[derive(Clone, Copy, Debug)]
pub struct Interrupt {
    consumer: bool,
    edge_triggered: bool,
    active_low: bool,
    shared: bool,
    number: u32,
}

impl Interrupt {
    pub fn new(
        consumer: bool,
        edge_triggered: bool,
        active_low: bool,
        shared: bool,
        number: u32,
    ) -> Self {
        Interrupt {
            consumer,
            edge_triggered,
            active_low,
            shared,
            number,
        }
    }
}

impl Aml for Interrupt {
    fn to_aml_bytes(&self, sink: &mut dyn AmlSink) {
        emit(sink, |writer| {
            writer.interrupt(
                self.consumer,
                self.edge_triggered,
                self.active_low,
                self.shared,
                self.number,
            );
        });
    }
}

/// A register.
#[derive(Clone, Copy, Debug)]
pub struct Register {
    reg: GAS,
}

impl Register {
    pub fn new(reg: GAS) -> Self {
        Register { reg }
    }
}

impl Aml for Register {
    fn to_aml_bytes(&self, sink: &mut dyn AmlSink) {
        emit(sink, |writer| {
            writer.register(&self.reg);
        });
    }
}

/// How memory may be cached.
#[derive(Clone, Copy, Debug, PartialEq)]
pub enum AddressSpaceCacheable {
    NotCacheable,
    Cacheable,
    WriteCombining,
    PreFetchable,
}

/// `AddressSpaceCacheable` under the name that it had before.
#[deprecated = "it is AddressSpaceCacheable"]
pub type AddressSpaceCachable = AddressSpaceCacheable;

impl AddressSpaceCacheable {
    fn memory_type(self) -> MemoryType {
        match self {
            AddressSpaceCacheable::NotCacheable => MemoryType::NotCacheable,
            AddressSpaceCacheable::Cacheable => MemoryType::Cacheable,
            AddressSpaceCacheable::WriteCombining => MemoryType::WriteCombining,
            AddressSpaceCacheable::PreFetchable => MemoryType::Prefetchable,
        }
    }
}

#[derive(Clone, Copy, Debug)]
enum Kind {
    Memory(AddressSpaceCacheable, bool),
    Io,
    BusNumber,
}

/// A range that a bridge passes on, from its first to its last address, port or bus, with 16, 32 or 64 bits.
#[derive(Clone, Copy, Debug)]
pub struct AddressSpace<T> {
    kind: Kind,
    min: T,
    max: T,
    translation: T,
}

impl<T: Default> AddressSpace<T> {
    pub fn new_memory(
        cacheable: AddressSpaceCacheable,
        read_write: bool,
        min: T,
        max: T,
        translation: Option<T>,
    ) -> Self {
        AddressSpace {
            kind: Kind::Memory(cacheable, read_write),
            min,
            max,
            translation: translation.unwrap_or_default(),
        }
    }

    pub fn new_io(min: T, max: T, translation: Option<T>) -> Self {
        AddressSpace {
            kind: Kind::Io,
            min,
            max,
            translation: translation.unwrap_or_default(),
        }
    }

    pub fn new_bus_number(min: T, max: T) -> Self {
        AddressSpace {
            kind: Kind::BusNumber,
            min,
            max,
            translation: T::default(),
        }
    }
}

// A range of a number of bits, and the calls that write it: those of memory, of ports and of bus numbers.
macro_rules! written {
    ($($number:ty, $memory:ident $io:ident $bus:ident;)*) => {$(
        impl Aml for AddressSpace<$number> {
            fn to_aml_bytes(&self, sink: &mut dyn AmlSink) {
                let (min, max, translation) = (self.min, self.max, self.translation);
                emit(sink, |writer| {
                    match self.kind {
                        Kind::Memory(cacheable, read_write) => {
                            let memory = cacheable.memory_type();
                            writer.$memory(memory, read_write, min, max, translation)
                        }
                        Kind::Io => writer.$io(min, max, translation),
                        Kind::BusNumber => writer.$bus(min, max),
                    };
                });
            }
        }
    )*};
}

written! {
    u16, memory_range16 io_range bus_numbers;
    u32, memory_range32 io_range32 bus_numbers32;
    u64, memory_range64 io_range64 bus_numbers64;
}
