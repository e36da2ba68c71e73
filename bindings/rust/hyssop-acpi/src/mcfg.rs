//! The PCI Express memory mapped configuration table (PCI Firmware 3.3, 4.1.2).

use crate::structure::{begin, table};

table!(/** MCFG: configuration spaces. */ MCFG);

impl MCFG {
    pub fn new(oem_id: [u8; 6], oem_table_id: [u8; 8], oem_revision: u32) -> Self {
        MCFG {
            table: begin("MCFG", 1, oem_id, oem_table_id, oem_revision),
        }
    }

    /// Adds the configuration space of buses of a segment.
    pub fn add_ecam(&mut self, base_addr: u64, segment: u16, start_bus: u8, end_bus: u8) {
        let at = self.table.add_structure(0);
        self.table
            .set_number(at, "Base Address", base_addr)
            .set_number(at, "PCI Segment Group Number", segment.into())
            .set_number(at, "Start Bus Number", start_bus.into())
            .set_number(at, "End Bus Number", end_bus.into());
    }
}
