//! The RISC-V Quality of Service Controllers Table (RQSC), as `docs/FIELDS.md` has it.

use crate::gas::GAS;
use crate::object::{bytes_of, emit};
use crate::structure::{begin, piece, table};
use crate::{Aml, AmlSink};

const TABLE: &str = "RQSC";

table!(/** RQSC: controllers of capacity and bandwidth. */ RQSC);

impl RQSC {
    pub fn new(oem_id: [u8; 6], oem_table_id: [u8; 8], oem_revision: u32) -> Self {
        RQSC {
            table: begin(TABLE, 1, oem_id, oem_table_id, oem_revision),
        }
    }

    pub fn add_controller(&mut self, q: QoSController) {
        self.table.add_object(&q);
    }
}

/// What a controller controls.
#[repr(u8)]
#[derive(Clone, Copy, Debug, PartialEq)]
pub enum ControllerType {
    Capacity = 0,
    Bandwidth = 1,
}

/// What a resource is.
#[repr(u8)]
#[derive(Clone, Copy, Debug, PartialEq)]
pub enum ResourceType {
    Cache = 0,
    Memory = 1,
}

/// A controller and its resources.
#[derive(Clone, Debug)]
pub struct QoSController {
    kind: ControllerType,
    register: GAS,
    rcid_count: u32,
    mcid_count: u32,
    flags: u16,
    resources: Vec<ResourceStructure>,
}

impl QoSController {
    pub fn new(
        controller_type: ControllerType,
        register_interface_address: GAS,
        rcid_count: u32,
        mcid_count: u32,
        controller_flags: u16,
    ) -> Self {
        QoSController {
            kind: controller_type,
            register: register_interface_address,
            rcid_count,
            mcid_count,
            flags: controller_flags,
            resources: Vec::new(),
        }
    }

    /// How many bytes it has.
    #[allow(clippy::len_without_is_empty)]
    pub fn len(&self) -> usize {
        bytes_of(self).len()
    }

    pub fn add_resource(&mut self, resource: ResourceStructure) {
        self.resources.push(resource);
    }
}

impl Aml for QoSController {
    fn to_aml_bytes(&self, sink: &mut dyn AmlSink) {
        sink.vec(&piece(TABLE, self.kind as u32, |table, at| {
            table
                .set_register(at, "Register Interface Address", &self.register)
                .set_number(at, "RCID Count", self.rcid_count.into())
                .set_number(at, "MCID Count", self.mcid_count.into())
                .set_number(at, "Controller Flags", self.flags.into())
                .set_number(at, "Number of Resources", self.resources.len() as u64);
            for resource in &self.resources {
                table.add(resource);
            }
        }));
    }
}

/// A resource of a controller.
#[derive(Clone, Debug)]
pub struct ResourceStructure {
    kind: ResourceType,
    flags: u16,
    id: ResourceID,
}

impl ResourceStructure {
    pub fn new(resource_type: ResourceType, resource_flags: u16, resource_id: ResourceID) -> Self {
        ResourceStructure {
            kind: resource_type,
            flags: resource_flags,
            id: resource_id,
        }
    }

    /// How many bytes it has.
    #[allow(clippy::len_without_is_empty)]
    pub fn len(&self) -> usize {
        7 + self.id.len()
    }
}

impl Aml for ResourceStructure {
    fn to_aml_bytes(&self, sink: &mut dyn AmlSink) {
        emit(sink, |writer| {
            writer
                .add_number(1, self.kind as u64)
                .add_number(1, 0)
                .add_number(2, self.len() as u64)
                .add_number(2, self.flags.into())
                .add_number(1, 0)
                .add(&self.id);
        });
    }
}

/// What identifies a resource, and what is specific to it.
#[derive(Clone, Debug)]
pub enum ResourceID {
    Cache(CacheResource),
    MemoryAffinityStructure(MemoryAffinityStructureResource),
    ACPIDevice(ACPIDeviceResource),
    PCIDevice(PCIDeviceResource),
    /// The type of the id, and the bytes after it.
    VendorSpecific(u8, Vec<u8>),
}

impl ResourceID {
    pub fn resource_id_type(&self) -> u8 {
        match self {
            ResourceID::Cache(_) => 0,
            ResourceID::MemoryAffinityStructure(_) => 1,
            ResourceID::ACPIDevice(_) => 2,
            ResourceID::PCIDevice(_) => 3,
            ResourceID::VendorSpecific(kind, _) => *kind,
        }
    }

    /// How many bytes it has.
    #[allow(clippy::len_without_is_empty)]
    pub fn len(&self) -> usize {
        bytes_of(self).len()
    }
}

impl Aml for ResourceID {
    fn to_aml_bytes(&self, sink: &mut dyn AmlSink) {
        emit(sink, |writer| {
            writer.add_number(1, self.resource_id_type().into());
            match self {
                ResourceID::Cache(resource) => writer.add(resource),
                ResourceID::MemoryAffinityStructure(resource) => writer.add(resource),
                ResourceID::ACPIDevice(resource) => writer.add(resource),
                ResourceID::PCIDevice(resource) => writer.add(resource),
                ResourceID::VendorSpecific(_, bytes) => writer.bytes(bytes),
            };
        });
    }
}

/// A cache of a PPTT, by its id.
#[derive(Clone, Copy, Debug, Default)]
pub struct CacheResource {
    cache_id: u32,
}

impl CacheResource {
    pub fn new(cache_id: u32) -> Self {
        CacheResource { cache_id }
    }
}

impl Aml for CacheResource {
    fn to_aml_bytes(&self, sink: &mut dyn AmlSink) {
        emit(sink, |writer| {
            writer.add_number(4, self.cache_id.into()).add_number(8, 0);
        });
    }
}

/// The memory of a domain of an SRAT, and the bandwidth of a block.
#[derive(Clone, Copy, Debug, Default)]
pub struct MemoryAffinityStructureResource {
    proximity_domain: u32,
    bandwidth: u64,
}

impl MemoryAffinityStructureResource {
    pub fn new(proximity_domain: u32, raw_bandwidth_per_block: u64) -> Self {
        MemoryAffinityStructureResource {
            proximity_domain,
            bandwidth: raw_bandwidth_per_block,
        }
    }
}

impl Aml for MemoryAffinityStructureResource {
    fn to_aml_bytes(&self, sink: &mut dyn AmlSink) {
        emit(sink, |writer| {
            writer
                .add_number(4, self.proximity_domain.into())
                .add_number(8, 0)
                .add_number(8, self.bandwidth);
        });
    }
}

/// A device of the namespace, by its _HID and its _UID.
#[derive(Clone, Copy, Debug, Default)]
pub struct ACPIDeviceResource {
    hardware_id: u64,
    unique_id: u32,
}

impl ACPIDeviceResource {
    pub fn new(acpi_hardware_id: u64, acpi_unique_id: u32) -> Self {
        ACPIDeviceResource {
            hardware_id: acpi_hardware_id,
            unique_id: acpi_unique_id,
        }
    }
}

impl Aml for ACPIDeviceResource {
    fn to_aml_bytes(&self, sink: &mut dyn AmlSink) {
        emit(sink, |writer| {
            writer
                .add_number(8, self.hardware_id)
                .add_number(4, self.unique_id.into());
        });
    }
}

/// A device of PCI, by its segment, bus, device and function.
#[derive(Clone, Copy, Debug, Default)]
pub struct PCIDeviceResource {
    bdf: u32,
}

impl PCIDeviceResource {
    pub fn new(bdf: u32) -> Self {
        PCIDeviceResource { bdf }
    }
}

impl Aml for PCIDeviceResource {
    fn to_aml_bytes(&self, sink: &mut dyn AmlSink) {
        emit(sink, |writer| {
            writer.add_number(4, self.bdf.into()).add_number(8, 0);
        });
    }
}
