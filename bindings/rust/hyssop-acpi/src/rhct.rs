//! The RISC-V Hart Capabilities Table (ACPI 6.5, 5.2.36).

use crate::structure::{begin, piece, table};
use crate::{Aml, AmlSink};

const TABLE: &str = "RHCT";

table!(/** RHCT: what harts can do. */ RHCT);

/// An ISA string of a table.
#[derive(Clone, Copy, Debug)]
pub struct IsaStringHandle(usize);

/// The sizes of cache blocks of a table.
#[derive(Clone, Copy, Debug)]
pub struct CmoHandle(usize);

impl RHCT {
    pub fn new(
        oem_id: [u8; 6],
        oem_table_id: [u8; 8],
        oem_revision: u32,
        timebase_frequency: u64,
    ) -> Self {
        let mut table = begin(TABLE, 1, oem_id, oem_table_id, oem_revision);
        table
            .set_number(0, "Time Base Frequency", timebase_frequency)
            .set_number(0, "Offset of RHCT Nodes", 56);
        RHCT { table }
    }

    pub fn add_isa_string(&mut self, string: &'static str) -> IsaStringHandle {
        IsaStringHandle(self.table.add_object(&IsaStringNode::new(string)))
    }

    pub fn add_mmu_node(&mut self, scheme: VirtualAddressScheme) {
        self.table.add_object(&MmuNode::new(scheme));
    }

    pub fn add_cmo(&mut self, cmo: CmoNode) -> CmoHandle {
        CmoHandle(self.table.add_object(&cmo))
    }

    pub fn add_hart_info(&mut self, hi: HartInfoNode) {
        self.table.add_object(&hi);
    }
}

/// An ISA string, with a zero at its end, and another one if the length would be odd.
#[derive(Clone, Copy, Debug)]
pub struct IsaStringNode {
    string: &'static str,
}

impl IsaStringNode {
    pub fn new(string: &'static str) -> Self {
        IsaStringNode { string }
    }
}

impl Aml for IsaStringNode {
    fn to_aml_bytes(&self, sink: &mut dyn AmlSink) {
        let length = self.string.len() as u64 + 1;
        sink.vec(&piece(TABLE, 0, |table, at| {
            table
                .set_number(at, "Revision", 1)
                .set_number(at, "ISA string length", length)
                .bytes(self.string.as_bytes())
                .bytes(&[0]);
            if length % 2 == 1 {
                table.bytes(&[0]);
            }
        }));
    }
}

/// A hart, and the offsets of what it can do.
#[derive(Clone, Debug)]
pub struct HartInfoNode {
    uid: u32,
    offsets: Vec<usize>,
}

impl HartInfoNode {
    pub fn new(processor_uid: u32, handle: &IsaStringHandle) -> Self {
        HartInfoNode {
            uid: processor_uid,
            offsets: vec![handle.0],
        }
    }

    pub fn with_cmo(mut self, cmo: &CmoHandle) -> Self {
        self.offsets.push(cmo.0);
        self
    }
}

impl Aml for HartInfoNode {
    fn to_aml_bytes(&self, sink: &mut dyn AmlSink) {
        sink.vec(&piece(TABLE, 0xffff, |table, at| {
            table
                .set_number(at, "Revision", 1)
                .set_number(at, "Number of offsets", self.offsets.len() as u64)
                .set_number(at, "ACPI Processor UID", self.uid.into());
            for offset in &self.offsets {
                table.add_number(4, *offset as u64);
            }
        }));
    }
}

/// The sizes of the blocks that the operations on caches work on, as powers of two.
#[derive(Clone, Copy, Debug)]
pub struct CmoNode {
    cbom: u8,
    cbop: u8,
    cboz: u8,
}

impl CmoNode {
    pub fn new(
        cbom_block_size_pow2: u8,
        cbop_block_size_pow2: u8,
        cboz_block_size_pow2: u8,
    ) -> Self {
        CmoNode {
            cbom: cbom_block_size_pow2,
            cbop: cbop_block_size_pow2,
            cboz: cboz_block_size_pow2,
        }
    }
}

impl Aml for CmoNode {
    fn to_aml_bytes(&self, sink: &mut dyn AmlSink) {
        sink.vec(&piece(TABLE, 1, |table, at| {
            table
                .set_number(at, "Revision", 1)
                .set_number(at, "CBOM Block Size", self.cbom.into())
                .set_number(at, "CBOP Block Size", self.cbop.into())
                .set_number(at, "CBOZ Block Size", self.cboz.into());
        }));
    }
}

/// How many bits virtual addresses have.
#[repr(u8)]
#[derive(Clone, Copy, Debug, PartialEq)]
pub enum VirtualAddressScheme {
    Sv39 = 0,
    Sv48 = 1,
    Sv57 = 2,
}

/// The greatest scheme of virtual addresses.
#[derive(Clone, Copy, Debug)]
pub struct MmuNode {
    scheme: VirtualAddressScheme,
}

impl MmuNode {
    pub fn new(scheme: VirtualAddressScheme) -> Self {
        MmuNode { scheme }
    }
}

impl Aml for MmuNode {
    fn to_aml_bytes(&self, sink: &mut dyn AmlSink) {
        sink.vec(&piece(TABLE, 2, |table, at| {
            table
                .set_number(at, "Revision", 1)
                .set_number(at, "MMU Type", self.scheme as u64);
        }));
    }
}
