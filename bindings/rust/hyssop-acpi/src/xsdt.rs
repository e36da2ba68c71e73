//! The Extended System Description Table (ACPI 6.5, 5.2.8).

use crate::structure::{begin, table};

table!(/** XSDT: the addresses of tables. */ XSDT);

impl XSDT {
    pub fn new(oem_id: [u8; 6], oem_table_id: [u8; 8], oem_revision: u32) -> Self {
        XSDT {
            table: begin("XSDT", 1, oem_id, oem_table_id, oem_revision),
        }
    }

    /// Adds the address of a table.
    pub fn add_entry(&mut self, entry: u64) {
        self.table.add_number(8, entry);
    }
}
