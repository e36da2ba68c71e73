//! The Hardware Error Source Table (ACPI 6.5, 18.3.2).

use crate::gas::GAS;
use crate::object::{bytes_of, emit};
use crate::structure::{begin, changed, made, structure, table};
use crate::{Aml, AmlSink, Writer};

const TABLE: &str = "HEST";

table!(/** HEST: sources of hardware errors. */ HEST);

impl HEST {
    pub fn new(oem_id: [u8; 6], oem_table_id: [u8; 8], oem_revision: u32) -> Self {
        HEST {
            table: begin(TABLE, 1, oem_id, oem_table_id, oem_revision),
        }
    }

    /// Adds an error source. One that isn't as long as its type says panics when the table is written.
    pub fn add_structure<T: Aml>(&mut self, t: T) {
        self.table.add_object(&t);
    }
}

/// Whether firmware handles errors first.
#[repr(u8)]
#[derive(Clone, Copy, Debug, PartialEq)]
pub enum FirmwareFirst {
    Disabled = 0,
    Enabled = 1,
}

/// A function of a device of PCI.
#[derive(Clone, Copy, Debug, PartialEq, Eq)]
pub struct PciDevice {
    bus: u8,
    device: u8,
    function: u8,
}

impl PciDevice {
    /// A device below 32 and a function below 8. Others panic.
    pub fn new(bus: u8, device: u8, function: u8) -> Self {
        assert!(device < 32 && function < 8, "there is no such function");
        PciDevice {
            bus,
            device,
            function,
        }
    }
}

// A source for all devices of a type.
fn global<const N: usize>(kind: u32) -> [u8; N] {
    made(TABLE, kind, |table, at| {
        table.set_number(at, "Flags", 2);
    })
}

// A source for one device.
fn of_device<const N: usize>(kind: u32, ff: FirmwareFirst, device: PciDevice) -> [u8; N] {
    made(TABLE, kind, |table, at| {
        table
            .set_number(at, "Flags", ff as u64)
            .set_number(at, "Bus", device.bus.into())
            .set_number(at, "Device", device.device.into())
            .set_number(at, "Function", device.function.into());
    })
}

// Setters of fields by their names.
macro_rules! setters {
    ($($method:ident $type:ty, $field:literal;)*) => {$(
        pub fn $method(self, $method: $type) -> Self {
            Self {
                bytes: changed(TABLE, self.bytes, |table, at| {
                    table.set_number(at, $field, $method.into());
                }),
            }
        }
    )*};
}

structure!(/** The errors of a root port of PCI Express. */ PcieAerRootPort, 48);

impl PcieAerRootPort {
    pub fn new_global() -> Self {
        PcieAerRootPort { bytes: global(6) }
    }

    pub fn new_root_port(ff: FirmwareFirst, device: PciDevice) -> Self {
        PcieAerRootPort {
            bytes: of_device(6, ff, device),
        }
    }

    setters! {
        num_records u32, "Number of Records to Pre-allocate";
        max_sections u32, "Max Sections Per Record";
        device_control u16, "Device Control";
        uncorrectable_error_mask u32, "Uncorrectable Error Mask";
        uncorrectable_error_severity u32, "Uncorrectable Error Severity";
        correctable_error_mask u32, "Correctable Error Mask";
        aer_cap_ctrl u32, "Advanced Error Capabilities and Control";
        root_error_command u32, "Root Error Command";
    }
}

structure!(/** The errors of a device of PCI Express. */ PcieAerDevice, 44);

impl PcieAerDevice {
    pub fn new_global() -> Self {
        PcieAerDevice { bytes: global(7) }
    }

    pub fn new_root_port(ff: FirmwareFirst, device: PciDevice) -> Self {
        PcieAerDevice {
            bytes: of_device(7, ff, device),
        }
    }

    setters! {
        num_records u32, "Number of Records to Pre-allocate";
        max_sections u32, "Max Sections Per Record";
        device_control u16, "Device Control";
        uncorrectable_error_mask u32, "Uncorrectable Error Mask";
        uncorrectable_error_severity u32, "Uncorrectable Error Severity";
        correctable_error_mask u32, "Correctable Error Mask";
        aer_cap_ctrl u32, "Advanced Error Capabilities and Control";
    }
}

structure!(/** The errors of a bridge of PCI Express or PCI-X. */ PcieAerBridge, 56);

impl PcieAerBridge {
    pub fn new_global() -> Self {
        PcieAerBridge { bytes: global(8) }
    }

    pub fn new_bridge(ff: FirmwareFirst, device: PciDevice) -> Self {
        PcieAerBridge {
            bytes: of_device(8, ff, device),
        }
    }

    setters! {
        num_records u32, "Number of Records to Pre-allocate";
        max_sections u32, "Max Sections Per Record";
        device_control u16, "Device Control";
        uncorrectable_error_mask u32, "Uncorrectable Error Mask";
        uncorrectable_error_severity u32, "Uncorrectable Error Severity";
        correctable_error_mask u32, "Correctable Error Mask";
        aer_cap_ctrl u32, "Advanced Error Capabilities and Control";
        secondary_uncorrectable_error_mask u32, "Secondary Uncorrectable Error Mask";
        secondary_uncorrectable_error_severity u32, "Secondary Uncorrectable Error Severity";
        secondary_aer_cap_ctrl u32, "Secondary Advanced Error Capabilities and Control";
    }
}

/// Whether a source is enabled.
#[repr(u8)]
#[derive(Clone, Copy, Debug, PartialEq)]
pub enum EnabledStatus {
    Disabled = 0,
    Enabled = 1,
}

// A generic source, which is related to no other.
fn generic<const N: usize>(kind: u32, source_id: u16, enabled: EnabledStatus) -> [u8; N] {
    made(TABLE, kind, |table, at| {
        table
            .set_number(at, "Source Id", source_id.into())
            .set_number(at, "Related Source Id", 0xffff)
            .set_number(at, "Enabled", enabled as u64);
    })
}

// Setters of fields that are registers.
macro_rules! register_setters {
    ($($method:ident $field:literal;)*) => {$(
        pub fn $method(self, $method: GAS) -> Self {
            Self {
                bytes: changed(TABLE, self.bytes, |table, at| {
                    table.set_register(at, $field, &$method);
                }),
            }
        }
    )*};
}

// The setter of the notification, which has the bytes from 32 to 60.
macro_rules! notification_setter {
    () => {
        pub fn notification(self, notification: NotificationStructure) -> Self {
            Self {
                bytes: changed(TABLE, self.bytes, |table, at| {
                    table.overwrite(at + 32, &bytes_of(&notification));
                }),
            }
        }
    };
}

structure!(/** A generic source of errors. */ GenericHardwareSource, 64);

impl GenericHardwareSource {
    pub fn new(source_id: u16, enabled: EnabledStatus) -> Self {
        GenericHardwareSource {
            bytes: generic(9, source_id, enabled),
        }
    }

    setters! {
        num_records u32, "Number of Records to Pre-allocate";
        max_sections u32, "Max Sections Per Record";
        max_raw_length u32, "Max Raw Data Length";
        error_status_block_len u32, "Error Status Block Length";
    }

    register_setters! {
        error_status_address "Error Status Address";
    }

    notification_setter!();
}

structure!(/** A generic source of errors that are acknowledged. */ GenericHardwareSourceV2, 92);

impl GenericHardwareSourceV2 {
    pub fn new(source_id: u16, enabled: EnabledStatus) -> Self {
        GenericHardwareSourceV2 {
            bytes: generic(10, source_id, enabled),
        }
    }

    setters! {
        num_records u32, "Number of Records to Pre-allocate";
        max_sections u32, "Max Sections Per Record";
        max_raw_length u32, "Max Raw Data Length";
        error_status_block_len u32, "Error Status Block Length";
        read_ack_preserve u64, "Read Ack Preserve";
        read_ack_write u64, "Read Ack Write";
    }

    register_setters! {
        error_status_address "Error Status Address";
        read_ack_register "Read Ack Register";
    }

    notification_setter!();
}

/// How the operating system hears of an error (ACPI 6.5, 18.3.2.9).
#[derive(Clone, Copy, Debug, Default)]
pub struct NotificationStructure {
    kind: NotificationType,
    conf_write_en: u16,
    poll_interval_ms: u32,
    vector: u32,
    polling_threshold_value: u32,
    polling_threshold_window_ms: u32,
    error_threshold_value: u32,
    error_threshold_window_ms: u32,
}

// Setters of fields of Rust.
macro_rules! field_setters {
    ($($field:ident $type:ty;)*) => {$(
        pub fn $field(mut self, $field: $type) -> Self {
            self.$field = $field;
            self
        }
    )*};
}

impl NotificationStructure {
    pub fn new(r#type: NotificationType) -> Self {
        NotificationStructure {
            kind: r#type,
            ..Default::default()
        }
    }

    /// How many bytes it has.
    pub const fn len() -> usize {
        28
    }

    field_setters! {
        conf_write_en u16;
        poll_interval_ms u32;
        vector u32;
        polling_threshold_value u32;
        polling_threshold_window_ms u32;
        error_threshold_value u32;
        error_threshold_window_ms u32;
    }
}

impl Aml for NotificationStructure {
    fn to_aml_bytes(&self, sink: &mut dyn AmlSink) {
        emit(sink, |writer| {
            writer
                .add_number(1, self.kind as u64)
                .add_number(1, 28)
                .add_number(2, self.conf_write_en.into())
                .add_number(4, self.poll_interval_ms.into())
                .add_number(4, self.vector.into())
                .add_number(4, self.polling_threshold_value.into())
                .add_number(4, self.polling_threshold_window_ms.into())
                .add_number(4, self.error_threshold_value.into())
                .add_number(4, self.error_threshold_window_ms.into());
        });
    }
}

/// Ways to hear of an error.
#[repr(u8)]
#[derive(Clone, Copy, Debug, Default, PartialEq)]
pub enum NotificationType {
    #[default]
    Polled = 0,
    ExternalIrq = 1,
    LocalIrq = 2,
    Sci = 3,
    Nmi = 4,
    Cmci = 5,
    Mce = 6,
    GpioSignal = 7,
    Armv8Sea = 8,
    Armv8Sei = 9,
    ExternalGsiv = 10,
    SoftwareException = 11,
    RiscvSupervisorSoftwareEvent = 12,
    RiscvLowPriorityRasInterrupt = 13,
    RiscvHighPriorityRasInterrupt = 14,
    RiscvHardwareErrorException = 15,
}

/// How severe an error is.
#[repr(u32)]
#[derive(Clone, Copy, Debug, Default, PartialEq)]
pub enum ErrorSeverity {
    Recoverable = 0,
    Fatal = 1,
    Correctable = 2,
    #[default]
    None = 3,
}

/// The status of a source, without entries (ACPI 6.5, 18.3.2.7.1).
#[derive(Clone, Copy, Debug)]
pub struct GenericErrorStatus {
    status: u32,
    severity: ErrorSeverity,
}

impl GenericErrorStatus {
    pub fn new(correctable_count: u32, uncorrectable_count: u32, severity: ErrorSeverity) -> Self {
        // One error has another bit than several.
        let bit = |count, one, several| match count {
            0 => 0,
            1 => one,
            _ => several,
        };
        GenericErrorStatus {
            status: bit(uncorrectable_count, 1, 4) | bit(correctable_count, 2, 8),
            severity,
        }
    }
}

impl Aml for GenericErrorStatus {
    fn to_aml_bytes(&self, sink: &mut dyn AmlSink) {
        emit(sink, |writer| {
            // There are no raw data and no entries, which have three fields.
            writer
                .add_number(4, self.status.into())
                .add_number(8, 0)
                .add_number(4, 0)
                .add_number(4, self.severity as u64);
        });
    }
}

/// An error, as `acpi_tables` writes it: its section type has two bytes and not the 16 of the standard (ACPI 6.5, 18.3.2.7.1).
#[derive(Default)]
pub struct GenericErrorData {
    pub section_type: u16,
    pub severity: ErrorSeverity,
    pub revision: u16,
    pub validation: u8,
    pub flags: u8,
    pub error_data_length: u32,
    pub fru_id: [u8; 16],
    pub fru_text: [u8; 20],
    pub timestamp: [u8; 8],
    data: Vec<Box<dyn Aml>>,
}

impl GenericErrorData {
    pub fn new(severity: ErrorSeverity) -> Self {
        GenericErrorData {
            severity,
            ..Default::default()
        }
    }

    /// Adds what follows the fields.
    pub fn add_data(&mut self, data: Box<dyn Aml>) {
        self.data.push(data);
    }

    fn write(&self, writer: &mut Writer) {
        writer
            .add_number(2, self.section_type.into())
            .add_number(4, self.severity as u64)
            .add_number(2, self.revision.into())
            .add_number(1, self.validation.into())
            .add_number(1, self.flags.into())
            .add_number(4, self.error_data_length.into())
            .bytes(&self.fru_id)
            .bytes(&self.fru_text)
            .bytes(&self.timestamp);
        for data in &self.data {
            writer.add(data.as_ref());
        }
    }
}

impl Aml for GenericErrorData {
    fn to_aml_bytes(&self, sink: &mut dyn AmlSink) {
        emit(sink, |writer| self.write(writer));
    }
}
