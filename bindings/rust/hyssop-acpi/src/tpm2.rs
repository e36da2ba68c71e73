//! TPM 1.2 and TPM 2.0 (TCG ACPI Specification, 1.4).

use crate::gas::GAS;
use crate::object::written;
use crate::structure::{begin, table};
use crate::{Aml, AmlSink, Writer};

/// What kind of platform it is.
#[repr(u16)]
#[derive(Clone, Copy, Debug, Default, PartialEq)]
pub enum PlatformClass {
    #[default]
    Client = 0,
    Server = 1,
}

table!(/** TCPA of a client: where the log of a TPM 1.2 is. */ TpmClient1_2);

impl TpmClient1_2 {
    pub fn new(
        oem_id: [u8; 6],
        oem_table_id: [u8; 8],
        oem_revision: u32,
        log_area_min_len: u32,
        log_area_start_addr: u64,
    ) -> Self {
        let mut table = begin("TCPA", 2, oem_id, oem_table_id, oem_revision);
        table
            .set_number(0, "Log Area Minimum Length", log_area_min_len.into())
            .set_number(0, "Log Area Start Address", log_area_start_addr);
        TpmClient1_2 { table }
    }
}

/// TCPA of a server: a TPM 1.2 and where its log is.
#[derive(Clone, Debug)]
pub struct TpmServer1_2 {
    table: Writer,
    device_flags: u8,
    interrupt_flags: u8,
}

impl TpmServer1_2 {
    pub fn new(oem_id: [u8; 6], oem_table_id: [u8; 8], oem_revision: u32) -> Self {
        let mut table = Writer::table("TCPA", 2, "      ", "        ", oem_revision);
        table.overwrite(10, &oem_id).overwrite(16, &oem_table_id);
        // The class says which fields follow.
        table
            .add_number(2, PlatformClass::Server as u64)
            .add_fields()
            .set_bytes(0, "Specification Revision", &[1, 2]);
        TpmServer1_2 {
            table,
            device_flags: 0,
            interrupt_flags: 0,
        }
    }

    fn device_flag(mut self, flag: u8) -> Self {
        self.device_flags |= flag;
        let flags = self.device_flags.into();
        self.table.set_number(0, "Device Flags", flags);
        self
    }

    fn interrupt_flag(mut self, flag: u8) -> Self {
        self.interrupt_flags |= flag;
        let flags = self.interrupt_flags.into();
        self.table.set_number(0, "Interrupt Flags", flags);
        self
    }

    pub fn log_area(mut self, log_area_min_len: u64, log_area_start_addr: u64) -> Self {
        self.table
            .set_number(0, "Log Area Minimum Length", log_area_min_len)
            .set_number(0, "Log Area Start Address", log_area_start_addr);
        self
    }

    pub fn active_low(self) -> Self {
        self.interrupt_flag(2)
    }

    pub fn edge_triggered(self) -> Self {
        self.interrupt_flag(1)
    }

    pub fn sci_gpe(mut self, sci_gpe_bit: u8) -> Self {
        self.table.set_number(0, "GPE", sci_gpe_bit.into());
        self.interrupt_flag(4)
    }

    pub fn gsi(mut self, gsi: u32) -> Self {
        self.table
            .set_number(0, "Global System Interrupt", gsi.into());
        self.interrupt_flag(8)
    }

    pub fn bus_is_pnp(self) -> Self {
        self.device_flag(2)
    }

    /// A device below 32 and a function below 8. Others panic.
    pub fn pci_sbdf(mut self, segment: u8, bus: u8, device: u8, function: u8) -> Self {
        assert!(device < 32 && function < 8, "there is no such function");
        self.table
            .set_number(0, "PCI Segment Group Number", segment.into())
            .set_number(0, "PCI Bus Number", bus.into())
            .set_number(0, "PCI Device Number", device.into())
            .set_number(0, "PCI Function Number", function.into());
        self.device_flag(1)
    }

    pub fn base_addr(mut self, addr: GAS) -> Self {
        self.table.set_register(0, "Base Address", &addr);
        self
    }

    pub fn config_addr(mut self, addr: GAS) -> Self {
        self.table.set_register(0, "Configuration Address", &addr);
        self.device_flag(4)
    }

    /// How many bytes it has.
    pub fn len() -> usize {
        100
    }
}

impl Aml for TpmServer1_2 {
    fn to_aml_bytes(&self, sink: &mut dyn AmlSink) {
        sink.vec(&written(self.table.clone().finish()));
    }
}

/// How a command to a TPM 2.0 is started.
#[repr(u32)]
#[derive(Clone, Copy, Debug, Default, PartialEq)]
pub enum StartMethod {
    #[default]
    LegacyUse = 1,
    AcpiStart = 2,
    Mmio = 6,
    Crb = 7,
    CrbAndAcpiStart = 8,
    CrbAndSmcHvc = 11,
    I2cFifo = 12,
}

table!(/** TPM2: a TPM 2.0. */ Tpm2);

impl Tpm2 {
    /// A table that ends after the start method.
    pub fn new(
        oem_id: [u8; 6],
        oem_table_id: [u8; 8],
        oem_revision: u32,
        platform_class: PlatformClass,
        crb_or_fifo_base: u64,
        start_method: StartMethod,
    ) -> Self {
        let mut table = Writer::table("TPM2", 1, "      ", "        ", oem_revision);
        table.overwrite(10, &oem_id).overwrite(16, &oem_table_id);
        table
            .add_number(2, platform_class as u64)
            .add_number(2, 0)
            .add_number(8, crb_or_fifo_base)
            .add_number(4, start_method as u64);
        Tpm2 { table }
    }

    /// Adds 12 zeros for the start method, and where the log is. A second call panics.
    pub fn set_log_area(&mut self, min_len: u32, base_addr: u64) {
        assert!(self.table.len() == 52, "the log area is set once");
        self.table
            .bytes(&[0; 12])
            .add_number(4, min_len.into())
            .add_number(8, base_addr);
    }
}
