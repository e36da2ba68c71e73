//! The System Locality Information Table (ACPI 6.5, 5.2.17).

use crate::structure::{begin, table};

/// The distance of a locality that can't be reached.
pub const UNREACHABLE_LOCALITY: u8 = 0xff;

table!(/** SLIT: distances between localities. */ SLIT);

impl SLIT {
    /// All distances are 10 at first.
    pub fn new(oem_id: [u8; 6], oem_table_id: [u8; 8], oem_revision: u32, localities: u32) -> Self {
        let mut table = begin("SLIT", 1, oem_id, oem_table_id, oem_revision);
        table.set_number(0, "Number of System Localities", localities.into());
        let count = localities as usize;
        table.bytes(&vec![10; count * count]);
        SLIT { table }
    }

    /// Sets the distance of two localities, in both directions.
    pub fn set_distance(&mut self, domain_a: usize, domain_b: usize, locality_value: u8) {
        let count = (self.table.len() - 44).isqrt();
        assert!(
            domain_a < count && domain_b < count,
            "there is no such locality"
        );
        let value = [locality_value];
        self.table
            .overwrite(44 + domain_a + count * domain_b, &value);
        self.table
            .overwrite(44 + domain_b + count * domain_a, &value);
    }
}
