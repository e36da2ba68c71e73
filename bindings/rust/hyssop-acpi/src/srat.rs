//! The System Resource Affinity Table (ACPI 6.5, 5.2.16).

use crate::object::emit;
use crate::structure::{begin, changed, made, structure, table};
use crate::{Aml, AmlSink};

const TABLE: &str = "SRAT";

table!(/** SRAT: the domains of memory and devices. */ SRAT);

impl SRAT {
    pub fn new(oem_id: [u8; 6], oem_table_id: [u8; 8], oem_revision: u32) -> Self {
        let mut table = begin(TABLE, 1, oem_id, oem_table_id, oem_revision);
        // The first reserved field is 1.
        table.overwrite(36, &[1]);
        SRAT { table }
    }

    pub fn add_memory_affinity(&mut self, st: MemoryAffinity) {
        self.table.add(&st);
    }

    pub fn add_generic_initiator(&mut self, st: GenericInitiator) {
        self.table.add(&st);
    }

    pub fn add_rintc_affinity(&mut self, ra: RintcAffinity) {
        self.table.add(&ra);
    }
}

// Sets a bit of a structure's flags, which begin at this offset.
fn with_flag<const N: usize>(bytes: [u8; N], at: usize, flag: u8) -> [u8; N] {
    changed(TABLE, bytes, |table, structure| {
        table.set_number(structure, "Flags", (bytes[at] | flag).into());
    })
}

structure!(/** The domain of a range of memory. */ MemoryAffinity, 40);

impl MemoryAffinity {
    pub fn new(proximity_domain: u32, base_address: u64, length: u64) -> Self {
        MemoryAffinity {
            bytes: made(TABLE, 1, |table, at| {
                table
                    .set_number(at, "Proximity Domain", proximity_domain.into())
                    .set_number(at, "Base Address", base_address)
                    // The length of the memory, after that of the structure.
                    .overwrite(at + 16, &length.to_le_bytes());
            }),
        }
    }

    pub fn enabled(self) -> Self {
        MemoryAffinity {
            bytes: with_flag(self.bytes, 28, 1),
        }
    }

    pub fn hotpluggable(self) -> Self {
        MemoryAffinity {
            bytes: with_flag(self.bytes, 28, 2),
        }
    }

    pub fn nonvolatile(self) -> Self {
        MemoryAffinity {
            bytes: with_flag(self.bytes, 28, 4),
        }
    }
}

/// A device.
#[derive(Clone, Copy, Debug, PartialEq)]
pub enum Handle {
    Acpi {
        hid: [u8; 8],
        uid: [u8; 4],
    },
    Pci {
        segment: u16,
        bus: u8,
        device: u8,
        function: u8,
    },
}

impl Handle {
    pub fn new_acpi(hid: [u8; 8], uid: [u8; 4]) -> Self {
        Handle::Acpi { hid, uid }
    }

    /// A device below 32 and a function below 8. Others panic.
    pub fn new_pci(segment: u16, bus: u8, device: u8, function: u8) -> Self {
        assert!(device < 32 && function < 8, "there is no such function");
        Handle::Pci {
            segment,
            bus,
            device,
            function,
        }
    }
}

impl Aml for Handle {
    fn to_aml_bytes(&self, sink: &mut dyn AmlSink) {
        emit(sink, |writer| {
            match *self {
                Handle::Acpi { hid, uid } => writer.bytes(&hid).bytes(&uid).add_number(4, 0),
                Handle::Pci {
                    segment,
                    bus,
                    device,
                    function,
                } => writer
                    .add_number(2, segment.into())
                    .add_number(1, bus.into())
                    .add_number(1, (device << 3 | function).into())
                    .bytes(&[0; 12]),
            };
        });
    }
}

structure!(/** The domain of a device that begins accesses. */ GenericInitiator, 32);

impl GenericInitiator {
    pub fn new(proximity_domain: u32, handle: Handle) -> Self {
        GenericInitiator {
            bytes: made(TABLE, 5, |table, at| {
                table.set_number(at, "Proximity Domain", proximity_domain.into());
                match handle {
                    Handle::Acpi { hid, uid } => {
                        table
                            .set_bytes(at, "ACPI _HID", &hid)
                            .set_bytes(at, "ACPI _UID", &uid)
                    }
                    Handle::Pci {
                        segment,
                        bus,
                        device,
                        function,
                    } => table
                        .set_number(at, "Device Handle Type", 1)
                        .set_number(at, "PCI Segment", segment.into())
                        .set_number(at, "PCI Bus Number", bus.into())
                        .set_number(
                            at,
                            "PCI Device and Function Number",
                            (device << 3 | function).into(),
                        ),
                };
            }),
        }
    }

    pub fn enabled(self) -> Self {
        GenericInitiator {
            bytes: with_flag(self.bytes, 24, 1),
        }
    }

    pub fn architectural(self) -> Self {
        GenericInitiator {
            bytes: with_flag(self.bytes, 24, 2),
        }
    }
}

structure!(/** The domain of a RISC-V interrupt controller. */ RintcAffinity, 20);

impl RintcAffinity {
    pub fn new(acpi_processor_uid: [u8; 4], clock_domain: u32) -> Self {
        RintcAffinity {
            bytes: made(TABLE, 7, |table, at| {
                table
                    .set_bytes(at, "ACPI Processor UID", &acpi_processor_uid)
                    .set_number(at, "Clock Domain", clock_domain.into());
            }),
        }
    }

    pub fn enabled(self) -> Self {
        RintcAffinity {
            bytes: with_flag(self.bytes, 12, 1),
        }
    }
}
