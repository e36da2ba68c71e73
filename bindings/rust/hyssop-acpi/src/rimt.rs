//! The RISC-V IO Mapping Table (RISC-V IO Mapping Table, version 1.0), as `docs/FIELDS.md` has it.

pub use crate::viot::PciDevice;

use crate::structure::{begin, piece, table};
use crate::{Aml, AmlSink, Writer};

const TABLE: &str = "RIMT";

table!(/** RIMT: which IOMMU translates the addresses of a device. */ RIMT);

/// An IOMMU of a table.
#[derive(Clone, Copy, Debug)]
pub struct IommuOffset(usize);

impl RIMT {
    pub fn new(oem_id: [u8; 6], oem_table_id: [u8; 8], oem_revision: u32) -> Self {
        let mut table = begin(TABLE, 1, oem_id, oem_table_id, oem_revision);
        table.set_number(0, "Offset of RIMT Nodes", 48);
        RIMT { table }
    }

    pub fn add_iommu(&mut self, iommu: Iommu) -> IommuOffset {
        IommuOffset(self.table.add_object(&iommu))
    }

    pub fn add_pcie_root_complex(&mut self, pcie_rc: PcieRootComplex) {
        self.table.add_object(&pcie_rc);
    }

    pub fn add_platform(&mut self, platform: Platform) {
        self.table.add_object(&platform);
    }
}

/// An interrupt of an IOMMU.
#[derive(Clone, Copy, Debug)]
pub struct InterruptWire {
    num: u32,
    level_trig: bool,
    polarity_high: bool,
    aplic_id: u16,
}

impl InterruptWire {
    pub fn new(num: u32, level_trig: bool, polarity_high: bool, aplic_id: u16) -> Self {
        InterruptWire {
            num,
            level_trig,
            polarity_high,
            aplic_id,
        }
    }

    fn write(&self, writer: &mut Writer) {
        let flags = u64::from(self.level_trig) | u64::from(self.polarity_high) << 1;
        writer
            .add_number(4, self.num.into())
            .add_number(2, flags)
            .add_number(2, self.aplic_id.into());
    }
}

impl Aml for InterruptWire {
    fn to_aml_bytes(&self, sink: &mut dyn AmlSink) {
        crate::object::emit(sink, |writer| self.write(writer));
    }
}

/// An IOMMU: in memory, or a device of PCI.
#[derive(Clone, Debug)]
pub struct Iommu {
    id: u16,
    base_addr: Option<u64>,
    pci_device: Option<PciDevice>,
    proximity_domain: Option<u32>,
    wires: Vec<InterruptWire>,
}

impl Iommu {
    pub fn new(
        id: u16,
        base_addr: Option<u64>,
        pci_device: Option<PciDevice>,
        proximity_domain: Option<u32>,
        int_wires: Option<Vec<InterruptWire>>,
    ) -> Self {
        Iommu {
            id,
            base_addr,
            pci_device,
            proximity_domain,
            wires: int_wires.unwrap_or_default(),
        }
    }
}

impl Aml for Iommu {
    fn to_aml_bytes(&self, sink: &mut dyn AmlSink) {
        let is_pci = u64::from(self.pci_device.is_some());
        let has_domain = u64::from(self.proximity_domain.is_some());
        let domain = self.proximity_domain.unwrap_or(0);
        sink.vec(&piece(TABLE, 0, |table, at| {
            table
                .set_number(at, "Revision", 1)
                .set_number(at, "ID", self.id.into())
                .set_number(at, "Base Address", self.base_addr.unwrap_or(0))
                .set_number(at, "Flags", is_pci | has_domain << 1)
                .set_number(at, "Proximity Domain", domain.into())
                .set_number(at, "Number of Interrupt Wires", self.wires.len() as u64)
                .set_number(at, "Offset of Interrupt Wires", 32);
            if let Some(device) = self.pci_device {
                table
                    .set_number(at, "PCI Segment", device.segment().into())
                    .set_number(at, "PCI BDF", device.bdf());
            }
            for wire in &self.wires {
                wire.write(table);
            }
        }));
    }
}

/// Ids of devices that an IOMMU translates.
#[derive(Clone, Copy, Debug)]
pub struct IdMapping {
    src_id: u32,
    dst_id: u32,
    num_ids: u32,
    iommu: IommuOffset,
    ats: bool,
    pri: bool,
    rciep: bool,
}

impl IdMapping {
    pub fn new(
        src_id: u32,
        dst_id: u32,
        num_ids: u32,
        dst_iommu_offset: IommuOffset,
        ats: bool,
        pri: bool,
        rciep: bool,
    ) -> Self {
        IdMapping {
            src_id,
            dst_id,
            num_ids,
            iommu: dst_iommu_offset,
            ats,
            pri,
            rciep,
        }
    }

    fn write(&self, writer: &mut Writer) {
        let flags = u64::from(self.ats) | u64::from(self.pri) << 1 | u64::from(self.rciep) << 2;
        writer
            .add_number(4, self.src_id.into())
            .add_number(4, self.dst_id.into())
            .add_number(4, self.num_ids.into())
            .add_number(4, self.iommu.0 as u64)
            .add_number(4, flags);
    }
}

impl Aml for IdMapping {
    fn to_aml_bytes(&self, sink: &mut dyn AmlSink) {
        crate::object::emit(sink, |writer| self.write(writer));
    }
}

/// A root complex of PCI Express.
#[derive(Clone, Debug)]
pub struct PcieRootComplex {
    id: u16,
    segment: u16,
    ats: bool,
    pri: bool,
    mappings: Vec<IdMapping>,
}

impl PcieRootComplex {
    pub fn new(
        id: u16,
        pci_segment: u16,
        ats: bool,
        pri: bool,
        id_mappings: Option<Vec<IdMapping>>,
    ) -> Self {
        PcieRootComplex {
            id,
            segment: pci_segment,
            ats,
            pri,
            mappings: id_mappings.unwrap_or_default(),
        }
    }
}

impl Aml for PcieRootComplex {
    fn to_aml_bytes(&self, sink: &mut dyn AmlSink) {
        let flags = u64::from(self.ats) | u64::from(self.pri) << 1;
        sink.vec(&piece(TABLE, 1, |table, at| {
            table
                .set_number(at, "Revision", 1)
                .set_number(at, "ID", self.id.into())
                .set_number(at, "PCI Segment", self.segment.into())
                .set_number(at, "Flags", flags)
                .set_number(at, "Offset of Mappings", 16)
                .set_number(at, "Number of Mappings", self.mappings.len() as u64);
            for mapping in &self.mappings {
                mapping.write(table);
            }
        }));
    }
}

/// A device of the namespace, by its path.
#[derive(Clone, Debug)]
pub struct Platform {
    id: u16,
    name: String,
    mappings: Vec<IdMapping>,
}

impl Platform {
    pub fn new(id: u16, name: String, id_mappings: Option<Vec<IdMapping>>) -> Self {
        Platform {
            id,
            name,
            mappings: id_mappings.unwrap_or_default(),
        }
    }
}

impl Aml for Platform {
    fn to_aml_bytes(&self, sink: &mut dyn AmlSink) {
        // The name and its zero are before the mappings.
        let offset = 12 + self.name.len() as u64 + 1;
        sink.vec(&piece(TABLE, 2, |table, at| {
            table
                .set_number(at, "Revision", 1)
                .set_number(at, "ID", self.id.into())
                .set_number(at, "Offset of Mappings", offset)
                .set_number(at, "Number of Mappings", self.mappings.len() as u64)
                .bytes(self.name.as_bytes())
                .bytes(&[0]);
            for mapping in &self.mappings {
                mapping.write(table);
            }
        }));
    }
}
