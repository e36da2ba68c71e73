//! The Processor Properties Topology Table (ACPI 6.5, 5.2.30).

use crate::structure::{begin, made, piece, structure, table};
use crate::{Aml, AmlSink};

const TABLE: &str = "PPTT";

table!(/** PPTT: packages of processors, and their caches. */ PPTT);

/// A processor or a package of a table.
#[derive(Clone, Copy, Debug)]
pub struct ProcessorHandle(usize);

/// A cache of a table.
#[derive(Clone, Copy, Debug)]
pub struct CacheHandle(usize);

impl PPTT {
    pub fn new(oem_id: [u8; 6], oem_table_id: [u8; 8], oem_revision: u32) -> Self {
        PPTT {
            table: begin(TABLE, 3, oem_id, oem_table_id, oem_revision),
        }
    }

    /// Adds a processor or a package.
    pub fn add_processor(&mut self, node: ProcessorNode) -> ProcessorHandle {
        ProcessorHandle(self.table.add_object(&node))
    }

    /// Adds a cache.
    pub fn add_cache(&mut self, node: CacheNode) -> CacheHandle {
        CacheHandle(self.table.add_object(&node))
    }
}

/// A processor or a package.
#[derive(Clone, Debug)]
pub struct ProcessorNode {
    pub flags: u32,
    pub parent: u32,
    pub acpi_processor_id: u32,
    caches: Vec<CacheHandle>,
}

impl ProcessorNode {
    pub fn new(parent: Option<&ProcessorHandle>, acpi_processor_id: u32) -> Self {
        ProcessorNode {
            flags: 0,
            parent: parent.map_or(0, |parent| parent.0 as u32),
            acpi_processor_id,
            caches: Vec::new(),
        }
    }

    /// Adds a cache of its own.
    pub fn add_cache(mut self, c: &CacheHandle) -> Self {
        self.caches.push(*c);
        self
    }

    fn flag(mut self, flag: u32) -> Self {
        self.flags |= flag;
        self
    }

    /// It is a package.
    pub fn physical(self) -> Self {
        self.flag(1)
    }

    /// Its id is that of a processor.
    pub fn valid(self) -> Self {
        self.flag(2)
    }

    /// It is a thread.
    pub fn thread(self) -> Self {
        self.flag(4)
    }

    /// It has no nodes below it.
    pub fn leaf(self) -> Self {
        self.flag(8)
    }

    /// All below it are alike.
    pub fn identical(self) -> Self {
        self.flag(16)
    }
}

impl Aml for ProcessorNode {
    fn to_aml_bytes(&self, sink: &mut dyn AmlSink) {
        sink.vec(&piece(TABLE, 0, |table, at| {
            table
                .set_number(at, "Flags", self.flags.into())
                .set_number(at, "Parent", self.parent.into())
                .set_number(at, "ACPI Processor ID", self.acpi_processor_id.into())
                .set_number(at, "Number of private resources", self.caches.len() as u64);
            for cache in &self.caches {
                table.add_number(4, cache.0 as u64);
            }
        }));
    }
}

/// The fields of a cache. Those that are set have a flag.
#[derive(Clone, Copy, Debug, Default)]
pub struct CacheNodeBuilder {
    next_level: usize,
    size: u32,
    set_count: u32,
    associativity: u8,
    attributes: u8,
    line_size: u16,
    id: u32,
    flags: u32,
}

/// What a cache allocates for.
#[repr(u8)]
#[derive(Clone, Copy, Debug, PartialEq)]
pub enum AllocationType {
    Read = 0,
    Write = 1,
    Both = 2,
}

/// What a cache is for.
#[repr(u8)]
#[derive(Clone, Copy, Debug, PartialEq)]
pub enum CacheType {
    Data = 0,
    Instruction = 4,
    Unified = 8,
}

/// When a cache writes.
#[repr(u8)]
#[derive(Clone, Copy, Debug, PartialEq)]
pub enum WritePolicy {
    Writeback = 0,
    Writethrough = 16,
}

impl CacheNodeBuilder {
    /// The cache after it.
    pub fn next_level(mut self, c: &CacheHandle) -> Self {
        self.next_level = c.0;
        self
    }

    /// Its size in bytes.
    pub fn size(mut self, size: u32) -> Self {
        self.size = size;
        self.flag(1)
    }

    pub fn sets(mut self, set_count: u32) -> Self {
        self.set_count = set_count;
        self.flag(2)
    }

    pub fn associativity(mut self, associativity: u8) -> Self {
        self.associativity = associativity;
        self.flag(4)
    }

    pub fn allocation_type(self, a: AllocationType) -> Self {
        self.attribute(a as u8).flag(8)
    }

    pub fn cache_type(self, c: CacheType) -> Self {
        self.attribute(c as u8).flag(16)
    }

    pub fn write_policy(self, w: WritePolicy) -> Self {
        self.attribute(w as u8).flag(32)
    }

    /// The bytes of a line.
    pub fn line_size(mut self, line_size: u16) -> Self {
        self.line_size = line_size;
        self.flag(64)
    }

    pub fn id(mut self, id: u32) -> Self {
        self.id = id;
        self.flag(128)
    }

    fn attribute(mut self, bits: u8) -> Self {
        self.attributes |= bits;
        self
    }

    fn flag(mut self, flag: u32) -> Self {
        self.flags |= flag;
        self
    }

    /// The cache.
    pub fn to_node(self) -> CacheNode {
        CacheNode {
            bytes: made(TABLE, 1, |table, at| {
                table
                    .set_number(at, "Flags", self.flags.into())
                    .set_number(at, "Next Level of Cache", self.next_level as u64)
                    .set_number(at, "Size", self.size.into())
                    .set_number(at, "Number of sets", self.set_count.into())
                    .set_number(at, "Associativity", self.associativity.into())
                    .set_number(at, "Attributes", self.attributes.into())
                    .set_number(at, "Line size", self.line_size.into())
                    .set_number(at, "Cache ID", self.id.into());
            }),
        }
    }
}

structure!(/** A cache. */ CacheNode, 28);
