//! The Boot Error Record Table (ACPI 6.5, 18.3.1).

use crate::structure::{begin, table};

table!(/** BERT: where firmware writes the errors of the boot before. */ BERT);

impl BERT {
    pub fn new(
        oem_id: [u8; 6],
        oem_table_id: [u8; 8],
        oem_revision: u32,
        error_region_length: u32,
        error_region_base: u64,
    ) -> Self {
        let mut table = begin("BERT", 1, oem_id, oem_table_id, oem_revision);
        table
            .set_number(0, "Boot Error Region Length", error_region_length.into())
            .set_number(0, "Boot Error Region", error_region_base);
        BERT { table }
    }
}
