//! The Multiple APIC Description Table (ACPI 6.5, 5.2.12).

use crate::structure::{begin, changed, made, structure, table};
use crate::{Aml, Writer};

const TABLE: &str = "APIC";

/// The address of the local interrupt controllers. On RISC-V they aren't in memory.
#[derive(Clone, Copy, Debug, PartialEq)]
pub enum LocalInterruptController {
    Riscv,
    Address(u32),
}

table!(/** MADT: interrupt controllers. */ MADT);

impl MADT {
    pub fn new(
        oem_id: [u8; 6],
        oem_table_id: [u8; 8],
        oem_revision: u32,
        int: LocalInterruptController,
    ) -> Self {
        let mut table = begin(TABLE, 1, oem_id, oem_table_id, oem_revision);
        if let LocalInterruptController::Address(address) = int {
            table.set_number(0, "Local Interrupt Controller Address", address.into());
        }
        MADT { table }
    }

    /// Adds a structure, also one of the caller.
    pub fn add_structure<T: Aml>(&mut self, t: T) {
        self.table.add(&t);
    }

    /// Adds the IMSIC. A second one panics.
    pub fn add_imsic(&mut self, imsic: IMSIC) {
        let bytes = crate::structure::finished(&self.table);
        let structures = crate::structures(&bytes).unwrap_or_default();
        let is_second = structures.iter().any(|structure| structure.kind == 0x19);
        assert!(!is_second, "a MADT has one IMSIC");
        self.add_structure(imsic);
    }
}

/// Whether a processor is enabled.
#[repr(u32)]
#[derive(Clone, Copy, Debug, PartialEq)]
pub enum EnabledStatus {
    Disabled = 0,
    Enabled = 1,
    DisabledOnlineCapable = 2,
}

structure!(/** The local APIC of a processor. */ ProcessorLocalApic, 8);

impl ProcessorLocalApic {
    pub fn new(uid: u8, apic_id: u8, enabled: EnabledStatus) -> Self {
        ProcessorLocalApic {
            bytes: made(TABLE, 0, |table, at| {
                table
                    .set_number(at, "ACPI Processor UID", uid.into())
                    .set_number(at, "APIC ID", apic_id.into())
                    .set_number(at, "Flags", enabled as u64);
            }),
        }
    }
}

structure!(/** An I/O APIC. */ IoApic, 12);

impl IoApic {
    pub fn new(io_apic_id: u8, io_apic_addr: u32, gsi_base: u32) -> Self {
        IoApic {
            bytes: made(TABLE, 1, |table, at| {
                table
                    .set_number(at, "I/O APIC ID", io_apic_id.into())
                    .set_number(at, "I/O APIC Address", io_apic_addr.into())
                    .set_number(at, "Global System Interrupt Base", gsi_base.into());
            }),
        }
    }
}

/// When an interrupt is triggered.
#[derive(Clone, Copy, Debug, PartialEq, Eq)]
pub enum Trigger {
    Edge,
    Level,
}

structure!(/** The GIC's interface of a processor. */ Gicc, 82);

// Setters of fields by their names.
macro_rules! setters {
    ($($method:ident $type:ty, $field:literal;)*) => {$(
        pub fn $method(self, $method: $type) -> Self {
            self.with(|table, at| {
                table.set_number(at, $field, $method.into());
            })
        }
    )*};
}

impl Gicc {
    pub fn new(status: EnabledStatus) -> Self {
        let flags = match status {
            EnabledStatus::Enabled => 1,
            EnabledStatus::Disabled => 0,
            EnabledStatus::DisabledOnlineCapable => 8,
        };
        Gicc {
            bytes: made(TABLE, 11, |table, at| {
                table.set_number(at, "Flags", flags);
            }),
        }
    }

    fn with(self, write: impl FnOnce(&mut Writer, usize)) -> Self {
        Gicc {
            bytes: changed(TABLE, self.bytes, write),
        }
    }

    // Sets an interrupt, and the flag that it is triggered by an edge.
    fn with_interrupt(self, name: &str, gsi: u32, trigger: Trigger, flag: u8) -> Self {
        let edge = if trigger == Trigger::Edge { flag } else { 0 };
        self.with(|table, at| {
            table.set_number(at, name, gsi.into()).set_number(
                at,
                "Flags",
                (self.bytes[12] | edge).into(),
            );
        })
    }

    pub fn performance_interrupt(self, gsi: u32, trigger: Trigger) -> Self {
        self.with_interrupt("Performance Interrupt GSIV", gsi, trigger, 2)
    }

    pub fn maintenance_interrupt(self, gsi: u32, trigger: Trigger) -> Self {
        self.with_interrupt("VGIC Maintenance Interrupt", gsi, trigger, 4)
    }

    setters! {
        cpu_interface_number u32, "CPU Interface Number";
        acpi_processor_uid u32, "ACPI Processor UID";
        parking_protocol_version u32, "Parking Protocol Version";
        parked_address u64, "Parked Address";
        base_address u64, "Physical Base Address";
        virtual_registers u64, "GICV";
        control_block_registers u64, "GICH";
        redistributor_base u64, "GICR Base Address";
        mpidr u64, "MPIDR";
        power_efficiency_class u8, "Processor Power Efficiency Class";
        overflow_interrupt u16, "SPE Overflow Interrupt";
        trbe_interrupt u16, "TRBE Interrupt";
    }
}

/// The version of a GIC.
#[repr(u8)]
#[derive(Clone, Copy, Debug, PartialEq)]
pub enum GicVersion {
    Unspecified = 0,
    GICv1 = 1,
    GICv2 = 2,
    GICv3 = 3,
    GICv4 = 4,
}

structure!(/** The distributor of a GIC. */ Gicd, 24);

impl Gicd {
    pub fn new(gic_id: u32, base_addr: u64, version: GicVersion) -> Self {
        Gicd {
            bytes: made(TABLE, 12, |table, at| {
                table
                    .set_number(at, "GIC ID", gic_id.into())
                    .set_number(at, "Physical Base Address", base_addr)
                    .set_number(at, "GIC Version", version as u64);
            }),
        }
    }
}

structure!(/** A frame of a GIC for message signaled interrupts. */ GicMsi, 24);

impl Default for GicMsi {
    fn default() -> Self {
        GicMsi::new()
    }
}

impl GicMsi {
    /// A frame whose count and base of interrupts aren't set.
    pub fn new() -> Self {
        GicMsi {
            bytes: made(TABLE, 13, |_, _| {}),
        }
    }

    fn with(self, write: impl FnOnce(&mut Writer, usize)) -> Self {
        GicMsi {
            bytes: changed(TABLE, self.bytes, write),
        }
    }

    setters! {
        gic_msi_frame_id u32, "GIC MSI Frame ID";
        base_addr u64, "Physical Base Address";
    }

    /// Sets the count and the base of interrupts, and the flag that they are used.
    pub fn spi_count_and_base(self, spi_count: u16, spi_base: u16) -> Self {
        self.with(|table, at| {
            table
                .set_number(at, "SPI Count", spi_count.into())
                .set_number(at, "SPI Base", spi_base.into())
                .set_number(at, "Flags", 1);
        })
    }
}

structure!(/** Redistributors of a GIC. */ Gicr, 16);

impl Gicr {
    pub fn new(discovery_range_base: u64, discovery_range_length: u32) -> Self {
        Gicr {
            bytes: made(TABLE, 14, |table, at| {
                table
                    .set_number(at, "Discovery Range Base Address", discovery_range_base)
                    .set_number(at, "Discovery Range Length", discovery_range_length.into());
            }),
        }
    }
}

structure!(/** An interrupt translation service of a GIC. */ GicIts, 20);

impl GicIts {
    pub fn new(gic_its_id: u32, base_addr: u64) -> Self {
        GicIts {
            bytes: made(TABLE, 15, |table, at| {
                table
                    .set_number(at, "GIC ITS ID", gic_its_id.into())
                    .set_number(at, "Physical Base Address", base_addr);
            }),
        }
    }
}

/// Whether a hart is enabled.
#[repr(u32)]
#[derive(Clone, Copy, Debug, PartialEq)]
pub enum HartStatus {
    Disabled = 0,
    Enabled = 1,
    OnlineCapable = 2,
}

structure!(/** The interrupt controller of a hart. */ RINTC, 36);

impl RINTC {
    pub fn new(
        hart_status: HartStatus,
        mhartid: u64,
        acpi_processor_uid: u32,
        ext_int_ctrl_id: u32,
        imsic_base_addr: u64,
        imsic_size: u32,
    ) -> Self {
        RINTC {
            bytes: made(TABLE, 0x18, |table, at| {
                table
                    .set_number(at, "Version", 1)
                    .set_number(at, "Flags", hart_status as u64)
                    .set_number(at, "Hart ID", mhartid)
                    .set_number(at, "ACPI Processor UID", acpi_processor_uid.into())
                    .set_number(
                        at,
                        "External Interrupt Controller ID",
                        ext_int_ctrl_id.into(),
                    )
                    .set_number(at, "IMSIC Base Address", imsic_base_addr)
                    .set_number(at, "IMSIC Size", imsic_size.into());
            }),
        }
    }
}

structure!(/** The controllers of incoming messages. */ IMSIC, 16);

impl IMSIC {
    pub fn new(
        num_supervisor_interrupt_identities: u16,
        num_guest_interrupt_identities: u16,
        guest_index_bits: u8,
        hart_index_bits: u8,
        group_index_bits: u8,
        group_index_shift: u8,
    ) -> Self {
        let supervisor = "Number of Supervisor Mode Interrupt Identities";
        let guest = "Number of Guest Mode Interrupt Identities";
        IMSIC {
            bytes: made(TABLE, 0x19, |table, at| {
                table
                    .set_number(at, "Version", 1)
                    .set_number(at, supervisor, num_supervisor_interrupt_identities.into())
                    .set_number(at, guest, num_guest_interrupt_identities.into())
                    .set_number(at, "Guest Index Bits", guest_index_bits.into())
                    .set_number(at, "Hart Index Bits", hart_index_bits.into())
                    .set_number(at, "Group Index Bits", group_index_bits.into())
                    .set_number(at, "Group Index Shift", group_index_shift.into());
            }),
        }
    }
}

structure!(/** An advanced platform-level interrupt controller. */ APLIC, 36);

impl APLIC {
    pub fn new(
        aplic_id: u8,
        hardware_id: [u8; 8],
        number_of_idcs: u16,
        global_system_interrupt_base: u32,
        aplic_address: u64,
        aplic_size: u32,
        total_external_interrupt_sources: u16,
    ) -> Self {
        let sources = "Total External Interrupt Sources Supported";
        let base = "Global System Interrupt Base";
        APLIC {
            bytes: made(TABLE, 0x1a, |table, at| {
                table
                    .set_number(at, "Version", 1)
                    .set_number(at, "APLIC ID", aplic_id.into())
                    .set_bytes(at, "Hardware ID", &hardware_id)
                    .set_number(at, "Number of IDCs", number_of_idcs.into())
                    .set_number(at, sources, total_external_interrupt_sources.into())
                    .set_number(at, base, global_system_interrupt_base.into())
                    .set_number(at, "APLIC Address", aplic_address)
                    .set_number(at, "APLIC Size", aplic_size.into());
            }),
        }
    }
}

structure!(/** A platform-level interrupt controller. */ PLIC, 36);

impl PLIC {
    pub fn new(
        plic_id: u8,
        hardware_id: [u8; 8],
        total_external_interrupt_sources: u16,
        max_priority: u16,
        plic_size: u32,
        plic_address: u64,
        global_system_interrupt_base: u32,
    ) -> Self {
        let sources = "Total External Interrupt Sources Supported";
        let base = "Global System Interrupt Base";
        PLIC {
            bytes: made(TABLE, 0x1b, |table, at| {
                table
                    .set_number(at, "Version", 1)
                    .set_number(at, "PLIC ID", plic_id.into())
                    .set_bytes(at, "Hardware ID", &hardware_id)
                    .set_number(at, sources, total_external_interrupt_sources.into())
                    .set_number(at, "Max Priority", max_priority.into())
                    .set_number(at, "PLIC Size", plic_size.into())
                    .set_number(at, "PLIC Address", plic_address)
                    .set_number(at, base, global_system_interrupt_base.into());
            }),
        }
    }
}
