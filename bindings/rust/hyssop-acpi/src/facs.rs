//! The Firmware ACPI Control Structure (ACPI 6.5, 5.2.10).

use crate::object::written;
use crate::{Aml, AmlSink, make};

/// FACS: what the operating system and firmware share.
#[derive(Clone, Copy, Debug, Default, PartialEq, Eq)]
pub struct FACS {
    pub hardware_signature: u32,
    pub waking: u32,
    pub lock: u32,
    pub flags: u32,
    pub x_waking: u64,
    pub version: u8,
    pub ospm_flags: u32,
}

impl FACS {
    /// A structure of version 1, whose other fields are zero.
    pub fn new() -> Self {
        FACS {
            version: 1,
            ..Default::default()
        }
    }

    /// How many bytes it has.
    pub const fn len() -> usize {
        64
    }
}

impl Aml for FACS {
    fn to_aml_bytes(&self, sink: &mut dyn AmlSink) {
        let text = format!(
            "FACS\n Signature: \"FACS\"\n Length: ????????\n Hardware Signature: #{}\n \
             Firmware Waking Vector: #{}\n Global Lock: #{}\n Flags: #{}\n \
             X Firmware Waking Vector: 0x{:x}\n Version: #{}\n Reserved:{}\n OSPM Flags: #{}\n \
             Reserved:{}\n",
            self.hardware_signature,
            self.waking,
            self.lock,
            self.flags,
            self.x_waking,
            self.version,
            " 00".repeat(3),
            self.ospm_flags,
            " 00".repeat(24),
        );
        sink.vec(&written(make(&text)));
    }
}
