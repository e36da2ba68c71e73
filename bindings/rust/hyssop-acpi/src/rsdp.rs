//! The Root System Description Pointer (ACPI 6.5, 5.2.5.3).

use crate::object::written;
use crate::{Aml, AmlSink, make};

/// RSDP: the address of the XSDT.
#[derive(Clone, Copy, Debug, PartialEq, Eq)]
pub struct Rsdp {
    pub oem_id: [u8; 6],
    pub xsdt_addr: u64,
}

impl Rsdp {
    /// A pointer of revision 2.
    pub fn new(oem_id: [u8; 6], xsdt_addr: u64) -> Self {
        Rsdp { oem_id, xsdt_addr }
    }

    /// How many bytes it has.
    pub const fn len() -> usize {
        36
    }
}

impl Aml for Rsdp {
    fn to_aml_bytes(&self, sink: &mut dyn AmlSink) {
        let oem_id: String = self
            .oem_id
            .iter()
            .map(|byte| format!(" {byte:02x}"))
            .collect();
        let text = format!(
            "RSDP\n Signature: \"RSD PTR \"\n Checksum: ??\n OEMID:{oem_id}\n Revision: #2\n \
             RsdtAddress: #0\n Length: ????????\n XsdtAddress: 0x{:x}\n Extended Checksum: ??\n \
             Reserved: 00 00 00\n",
            self.xsdt_addr,
        );
        sink.vec(&written(make(&text)));
    }
}
