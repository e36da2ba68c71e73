//! The Virtual I/O Translation Table (ACPI 6.5, 5.2.31).

use crate::structure::{begin, piece, table};
use crate::{Aml, AmlSink};

const TABLE: &str = "VIOT";

table!(/** VIOT: which IOMMU translates the addresses of a device. */ VIOT);

/// An IOMMU of a table.
#[derive(Clone, Copy, Debug)]
pub struct TranslationHandle(usize);

impl VIOT {
    pub fn new(oem_id: [u8; 6], oem_table_id: [u8; 8], oem_revision: u32) -> Self {
        let mut table = begin(TABLE, 1, oem_id, oem_table_id, oem_revision);
        table.set_number(0, "Node Offset", 48);
        VIOT { table }
    }

    /// Adds devices of PCI.
    pub fn add_pci_range(&mut self, range: PciRange) {
        self.table.add_object(&range);
    }

    /// Adds a device in memory.
    pub fn add_mmio_endpoint(&mut self, ep: MmioEndpoint) {
        self.table.add_object(&ep);
    }

    /// Adds an IOMMU that is a device of PCI.
    pub fn add_virtio_pci_iommu(&mut self, iommu: VirtIoPciIommu) -> TranslationHandle {
        TranslationHandle(self.table.add_object(&iommu))
    }

    /// Adds an IOMMU in memory.
    pub fn add_virtio_mmio_iommu(&mut self, iommu: VirtIoMmioIommu) -> TranslationHandle {
        TranslationHandle(self.table.add_object(&iommu))
    }
}

/// A function of a device of PCI.
#[derive(Clone, Copy, Debug, PartialEq, Eq)]
pub struct PciDevice {
    segment: u16,
    bus: u8,
    device: u8,
    function: u8,
}

impl PciDevice {
    /// A device below 32 and a function below 8. Others panic.
    pub fn new(segment: u16, bus: u8, device: u8, function: u8) -> Self {
        assert!(device < 32 && function < 8, "there is no such function");
        PciDevice {
            segment,
            bus,
            device,
            function,
        }
    }

    pub(crate) fn segment(self) -> u16 {
        self.segment
    }

    pub(crate) fn bdf(self) -> u64 {
        u64::from(self.bus) << 8 | u64::from(self.device) << 3 | u64::from(self.function)
    }
}

/// Devices of PCI, from the first to the last.
#[derive(Clone, Copy, Debug)]
pub struct PciRange {
    first: PciDevice,
    last: PciDevice,
    translation: usize,
}

impl PciRange {
    pub fn new(first: PciDevice, last: PciDevice, translation_handle: &TranslationHandle) -> Self {
        PciRange {
            first,
            last,
            translation: translation_handle.0,
        }
    }
}

impl Aml for PciRange {
    fn to_aml_bytes(&self, sink: &mut dyn AmlSink) {
        let (first, last) = (self.first, self.last);
        sink.vec(&piece(TABLE, 1, |table, at| {
            table
                .set_number(at, "Endpoint Start", first.bdf())
                .set_number(at, "PCI Segment Start", first.segment.into())
                .set_number(at, "PCI Segment End", last.segment.into())
                .set_number(at, "PCI BDF Start", first.bdf())
                .set_number(at, "PCI BDF End", last.bdf())
                .set_number(at, "Output Node", self.translation as u64);
        }));
    }
}

/// A device in memory.
#[derive(Clone, Copy, Debug)]
pub struct MmioEndpoint {
    endpoint_id: u32,
    base_addr: u64,
    translation: usize,
}

impl MmioEndpoint {
    pub fn new(endpoint_id: u32, base_addr: u64, translation_handle: &TranslationHandle) -> Self {
        MmioEndpoint {
            endpoint_id,
            base_addr,
            translation: translation_handle.0,
        }
    }
}

impl Aml for MmioEndpoint {
    fn to_aml_bytes(&self, sink: &mut dyn AmlSink) {
        sink.vec(&piece(TABLE, 2, |table, at| {
            table
                .set_number(at, "Endpoint ID", self.endpoint_id.into())
                .set_number(at, "Base Address", self.base_addr)
                .set_number(at, "Output Node", self.translation as u64);
        }));
    }
}

/// An IOMMU that is a device of PCI.
#[derive(Clone, Copy, Debug)]
pub struct VirtIoPciIommu {
    device: PciDevice,
}

impl VirtIoPciIommu {
    pub fn new(device: PciDevice) -> Self {
        VirtIoPciIommu { device }
    }
}

impl Aml for VirtIoPciIommu {
    fn to_aml_bytes(&self, sink: &mut dyn AmlSink) {
        sink.vec(&piece(TABLE, 3, |table, at| {
            table
                .set_number(at, "PCI Segment", self.device.segment.into())
                .set_number(at, "PCI BDF Number", self.device.bdf());
        }));
    }
}

/// An IOMMU in memory.
#[derive(Clone, Copy, Debug)]
pub struct VirtIoMmioIommu {
    base_addr: u64,
}

impl VirtIoMmioIommu {
    pub fn new(base_addr: u64) -> Self {
        VirtIoMmioIommu { base_addr }
    }
}

impl Aml for VirtIoMmioIommu {
    fn to_aml_bytes(&self, sink: &mut dyn AmlSink) {
        sink.vec(&piece(TABLE, 4, |table, at| {
            table.set_number(at, "Base Address", self.base_addr);
        }));
    }
}
