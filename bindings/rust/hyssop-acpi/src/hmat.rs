//! The Heterogeneous Memory Attribute Table (ACPI 6.5, 5.2.28).

use crate::structure::{begin, made, piece, structure, table};
use crate::{Aml, AmlSink};

const TABLE: &str = "HMAT";

table!(/** HMAT: how fast the memory of domains is. */ HMAT);

impl HMAT {
    pub fn new(oem_id: [u8; 6], oem_table_id: [u8; 8], oem_revision: u32) -> Self {
        HMAT {
            table: begin(TABLE, 1, oem_id, oem_table_id, oem_revision),
        }
    }

    pub fn add_memory_proximity(&mut self, m: MemoryProximityDomain) {
        self.table.add(&m);
    }

    pub fn add_system_locality(&mut self, s: SystemLocality) {
        self.table.add_object(&s);
    }

    pub fn add_memory_side_cache(&mut self, c: MemorySideCache) {
        self.table.add_object(&c);
    }
}

structure!(/** The domain whose processors are nearest to a domain's memory. */ MemoryProximityDomain, 40);

impl MemoryProximityDomain {
    pub fn new(proximity_domain_initiator: u32, proximity_domain_memory: u32) -> Self {
        let initiator = "Proximity Domain for the Attached Initiator";
        let memory = "Proximity Domain for the Memory";
        MemoryProximityDomain {
            bytes: made(TABLE, 0, |table, at| {
                table
                    .set_number(at, "Flags", 1)
                    .set_number(at, initiator, proximity_domain_initiator.into())
                    .set_number(at, memory, proximity_domain_memory.into());
            }),
        }
    }
}

/// What the entries of a matrix are.
#[repr(u8)]
#[derive(Clone, Copy, Debug)]
pub enum DataType {
    AccessLatency = 0,
    ReadLatency = 1,
    WriteLatency = 2,
    AccessBandwidth = 3,
    ReadBandwidth = 4,
    WriteBandwidth = 5,
}

/// The least size of a transfer.
#[repr(u8)]
#[derive(Clone, Copy, Debug)]
pub enum MinTransferSize {
    SizeByteAligned = 0,
    Size64b = 1,
    Size128b = 2,
    Size256b = 3,
    Size512b = 4,
    Size1k = 5,
    Size2k = 6,
    Size4k = 7,
    Size8k = 8,
    Size16k = 9,
    Size32k = 10,
    Size64k = 11,
}

/// Whose latencies or bandwidths a matrix has.
#[repr(u8)]
#[derive(Clone, Copy, Debug)]
pub enum LocalityType {
    Memory = 0,
    FirstLevelCache = 1,
    SecondLevelCache = 2,
    ThirdLevelCache = 3,
}

/// Latencies or bandwidths between domains.
#[derive(Clone, Debug)]
pub struct SystemLocality {
    flags: u8,
    data_type: DataType,
    min_transfer_size: MinTransferSize,
    entry_base_unit: u64,
    initiators: Vec<u32>,
    targets: Vec<u32>,
    entries: Vec<u16>,
}

impl SystemLocality {
    /// A matrix whose entries say that no domain is reached.
    pub fn new(
        loc_type: LocalityType,
        data_type: DataType,
        min_transfer_size: MinTransferSize,
        entry_base_unit: u64,
        num_initiators: usize,
        num_targets: usize,
    ) -> Self {
        SystemLocality {
            flags: loc_type as u8,
            data_type,
            min_transfer_size,
            entry_base_unit,
            initiators: vec![0; num_initiators],
            targets: vec![0; num_targets],
            entries: vec![0xffff; num_initiators * num_targets],
        }
    }

    pub fn non_sequential_transfers(&mut self) {
        self.flags |= 0x20;
    }

    pub fn minimum_transfer_size_required(&mut self) {
        self.flags |= 0x10;
    }

    pub fn set_initiator_value(&mut self, idx: usize, value: u32) {
        self.initiators[idx] = value;
    }

    pub fn set_target_value(&mut self, idx: usize, value: u32) {
        self.targets[idx] = value;
    }

    pub fn set_entry_value(&mut self, initiator_idx: usize, target_idx: usize, value: u16) {
        self.entries[initiator_idx * self.targets.len() + target_idx] = value;
    }
}

impl Aml for SystemLocality {
    fn to_aml_bytes(&self, sink: &mut dyn AmlSink) {
        let initiators = "Number of Initiator Proximity Domains";
        let targets = "Number of Target Proximity Domains";
        sink.vec(&piece(TABLE, 1, |table, at| {
            table
                .set_number(at, "Flags", self.flags.into())
                .set_number(at, "Data Type", self.data_type as u64)
                .set_number(at, "MinTransferSize", self.min_transfer_size as u64)
                .set_number(at, initiators, self.initiators.len() as u64)
                .set_number(at, targets, self.targets.len() as u64)
                .set_number(at, "Entry Base Unit", self.entry_base_unit);
            for domain in self.initiators.iter().chain(&self.targets) {
                table.add_number(4, (*domain).into());
            }
            for entry in &self.entries {
                table.add_number(2, (*entry).into());
            }
        }));
    }
}

/// The level of a cache.
#[repr(u32)]
#[derive(Clone, Copy, Debug)]
pub enum CacheLevel {
    None = 0,
    One = 1,
    Two = 2,
    Three = 3,
}

/// Where a cache may have a line.
#[repr(u32)]
#[derive(Clone, Copy, Debug)]
pub enum Associativity {
    None = 0,
    DirectMapped = 1,
    Complex = 2,
}

/// When a cache writes.
#[repr(u32)]
#[derive(Clone, Copy, Debug)]
pub enum WritePolicy {
    None = 0,
    Writeback = 1,
    Writethrough = 2,
}

/// A cache of memory.
#[derive(Clone, Debug)]
pub struct MemorySideCache {
    proximity_domain: u32,
    cache_size: u64,
    attributes: u32,
    smbios_handles: Vec<u16>,
}

impl MemorySideCache {
    pub fn new(
        proximity_domain: u32,
        cache_size: u64,
        total_cache_levels: CacheLevel,
        this_cache_level: CacheLevel,
        associativity: Associativity,
        write_policy: WritePolicy,
        cacheline_size: u16,
    ) -> Self {
        let levels = total_cache_levels as u32 | (this_cache_level as u32) << 4;
        let ways = (associativity as u32) << 8 | (write_policy as u32) << 12;
        MemorySideCache {
            proximity_domain,
            cache_size,
            attributes: levels | ways | u32::from(cacheline_size) << 16,
            smbios_handles: Vec::new(),
        }
    }

    pub fn add_smbios_handle(&mut self, handle: u16) {
        self.smbios_handles.push(handle);
    }
}

impl Aml for MemorySideCache {
    fn to_aml_bytes(&self, sink: &mut dyn AmlSink) {
        let (domain, handles) = (self.proximity_domain, self.smbios_handles.len());
        sink.vec(&piece(TABLE, 2, |table, at| {
            table
                .set_number(at, "Proximity Domain for the Memory", domain.into())
                .set_number(at, "Memory Side Cache Size", self.cache_size)
                .set_number(at, "Cache Attributes", self.attributes.into())
                .set_number(at, "Number of SMBIOS Handles", handles as u64);
            for handle in &self.smbios_handles {
                table.add_number(2, (*handle).into());
            }
        }));
    }
}
