//! The Serial Port Console Redirection Table (Microsoft, revision 4).

use crate::structure::{begin, table};

table!(/** SPCR: the console. */ SPCR);

impl SPCR {
    /// The console of a RISC-V supervisor binary interface.
    pub fn sbi(oem_id: [u8; 6], oem_table_id: [u8; 8], oem_revision: u32) -> Self {
        let mut table = begin("SPCR", 4, oem_id, oem_table_id, oem_revision);
        table
            .set_number(0, "Interface Type", 0x15)
            // There is no device of PCI, and no name in the namespace.
            .set_number(0, "PCI Device ID", 0xffff)
            .set_number(0, "PCI Vendor ID", 0xffff)
            .set_number(0, "NamespaceStringLength", 2)
            .set_number(0, "NamespaceStringOffset", 88)
            .bytes(b".\0");
        SPCR { table }
    }
}
