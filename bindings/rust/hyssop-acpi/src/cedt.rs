//! The CXL Early Discovery Table (CXL 3.1, 9.18.1).

use crate::structure::{begin, piece, table};
use crate::{Aml, AmlSink};

const TABLE: &str = "CEDT";

table!(/** CEDT: host bridges of CXL, and the memory that they pass on. */ CEDT);

impl CEDT {
    pub fn new(oem_id: [u8; 6], oem_table_id: [u8; 8], oem_revision: u32) -> Self {
        CEDT {
            table: begin(TABLE, 1, oem_id, oem_table_id, oem_revision),
        }
    }

    pub fn add_host_bridge(&mut self, chbs: CxlHostBridge) {
        self.table.add_object(&chbs);
    }

    pub fn add_fixed_memory(&mut self, cfmws: CxlFixedMemory) {
        self.table.add_object(&cfmws);
    }

    pub fn add_xor_interleave_math(&mut self, xorm: XorInterleaveMath) {
        self.table.add_object(&xorm);
    }

    pub fn add_port_association(&mut self, pa: PortAssociation) {
        self.table.add_object(&pa);
    }
}

/// The version of CXL of a host bridge.
#[repr(u8)]
#[derive(Clone, Copy, Debug, PartialEq)]
pub enum CxlVersion {
    Cxl1_1 = 0,
    Cxl2 = 1,
}

/// A host bridge.
#[derive(Clone, Copy, Debug)]
pub struct CxlHostBridge {
    uid: u32,
    version: CxlVersion,
    base: u64,
}

impl CxlHostBridge {
    pub fn new(host_bridge_uid: u32, cxl_version: CxlVersion, port_base: u64) -> Self {
        CxlHostBridge {
            uid: host_bridge_uid,
            version: cxl_version,
            base: port_base,
        }
    }
}

impl Aml for CxlHostBridge {
    fn to_aml_bytes(&self, sink: &mut dyn AmlSink) {
        // The registers of version 1.1 have 8 KiB, those of version 2 have 64 KiB.
        let length: u64 = match self.version {
            CxlVersion::Cxl1_1 => 0x2000,
            CxlVersion::Cxl2 => 0x1_0000,
        };
        sink.vec(&piece(TABLE, 0, |table, at| {
            table
                .set_number(at, "UID", self.uid.into())
                .set_number(at, "CXL Version", self.version as u64)
                .set_number(at, "Base", self.base)
                .set_number(at, "Length", length);
        }));
    }
}

/// How an address leads to a target.
#[repr(u8)]
#[derive(Clone, Copy, Debug, PartialEq)]
pub enum InterleaveArithmetic {
    Modulo = 0,
    ModuloXor = 1,
}

/// How many bytes go to a target before the next one.
#[repr(u8)]
#[derive(Clone, Copy, Debug, PartialEq)]
pub enum InterleaveGranularity {
    Granularity256b = 0,
    Granularity512b = 1,
    Granularity1kb = 2,
    Granularity2kb = 3,
    Granularity4kb = 4,
    Granularity8kb = 5,
    Granularity16kb = 6,
}

/// How many targets there are.
#[repr(u8)]
#[derive(Clone, Copy, Debug, PartialEq)]
pub enum InterleaveWays {
    Ways1 = 0,
    Ways2 = 1,
    Ways4 = 2,
    Ways8 = 3,
    Ways16 = 4,
    Ways3 = 8,
    Ways6 = 9,
    Ways12 = 10,
}

impl InterleaveWays {
    fn count(self) -> usize {
        match self {
            InterleaveWays::Ways1 => 1,
            InterleaveWays::Ways2 => 2,
            InterleaveWays::Ways4 => 4,
            InterleaveWays::Ways8 => 8,
            InterleaveWays::Ways16 => 16,
            InterleaveWays::Ways3 => 3,
            InterleaveWays::Ways6 => 6,
            InterleaveWays::Ways12 => 12,
        }
    }
}

/// What the memory of a window is for.
#[repr(u16)]
#[derive(Clone, Copy, Debug, PartialEq)]
pub enum WindowRestrictions {
    CxlType2Memory = 1 << 0,
    CxlType3Memory = 1 << 1,
    Volatile = 1 << 2,
    Persistent = 1 << 3,
    FixedConfiguration = 1 << 4,
}

/// A window of memory and its targets. One whose number of targets isn't that of its ways panics when it is written.
#[derive(Clone, Debug)]
pub struct CxlFixedMemory {
    base: u64,
    size: u64,
    arithmetic: InterleaveArithmetic,
    granularity: InterleaveGranularity,
    ways: InterleaveWays,
    restrictions: u16,
    qtg_id: u16,
    targets: Vec<[u8; 4]>,
}

impl CxlFixedMemory {
    pub fn new(
        base_addr: u64,
        size: u64,
        arithmetic: InterleaveArithmetic,
        granularity: InterleaveGranularity,
        ways: InterleaveWays,
        qtg_id: u16,
    ) -> Self {
        CxlFixedMemory {
            base: base_addr,
            size,
            arithmetic,
            granularity,
            ways,
            restrictions: 0,
            qtg_id,
            targets: Vec::new(),
        }
    }

    fn restricted(mut self, restriction: WindowRestrictions) -> Self {
        self.restrictions |= restriction as u16;
        self
    }

    pub fn cxl_type_2_memory(self) -> Self {
        self.restricted(WindowRestrictions::CxlType2Memory)
    }

    pub fn cxl_type_3_memory(self) -> Self {
        self.restricted(WindowRestrictions::CxlType3Memory)
    }

    pub fn volatile(self) -> Self {
        self.restricted(WindowRestrictions::Volatile)
    }

    pub fn persistent(self) -> Self {
        self.restricted(WindowRestrictions::Persistent)
    }

    pub fn fixed_configuration(self) -> Self {
        self.restricted(WindowRestrictions::FixedConfiguration)
    }

    /// Adds a target: the UID of a host bridge.
    pub fn add_target(&mut self, uid: [u8; 4]) {
        self.targets.push(uid);
    }
}

impl Aml for CxlFixedMemory {
    fn to_aml_bytes(&self, sink: &mut dyn AmlSink) {
        assert!(
            self.targets.len() == self.ways.count(),
            "a window has as many targets as ways"
        );
        sink.vec(&piece(TABLE, 1, |table, at| {
            let ways = "Encoded Number of Interleave Ways";
            let granularity = "Host Bridge Interleave Granularity";
            table
                .set_number(at, "Base HPA", self.base)
                .set_number(at, "Window Size", self.size)
                .set_number(at, ways, self.ways as u64)
                .set_number(at, "Interleave Arithmetic", self.arithmetic as u64)
                .set_number(at, granularity, self.granularity as u64)
                .set_number(at, "Window Restrictions", self.restrictions.into())
                .set_number(at, "QTG ID", self.qtg_id.into())
                .bytes(&self.targets.concat());
        }));
    }
}

/// The maps of bits by which addresses lead to targets, for a granularity.
#[derive(Clone, Debug)]
pub struct XorInterleaveMath {
    granularity: InterleaveGranularity,
    maps: Vec<u64>,
}

impl XorInterleaveMath {
    pub fn new(granularity: InterleaveGranularity) -> Self {
        XorInterleaveMath {
            granularity,
            maps: Vec::new(),
        }
    }

    pub fn add_xormap(&mut self, xormap: u64) {
        self.maps.push(xormap);
    }
}

impl Aml for XorInterleaveMath {
    fn to_aml_bytes(&self, sink: &mut dyn AmlSink) {
        sink.vec(&piece(TABLE, 2, |table, at| {
            let granularity = "Host Bridge Interleave Granularity";
            table
                .set_number(at, granularity, self.granularity as u64)
                .set_number(at, "Number of Bitmap Entries", self.maps.len() as u64);
            for map in &self.maps {
                table.add_number(8, *map);
            }
        }));
    }
}

/// The ports that report errors to a collector of events.
#[derive(Clone, Copy, Debug)]
pub struct PortAssociation {
    segment: u16,
    bdf: u16,
    protocol: ProtocolType,
    base: u64,
}

/// The protocol of a port.
#[repr(u8)]
#[derive(Clone, Copy, Debug, PartialEq)]
pub enum ProtocolType {
    CxlIo = 0,
    CxlMem = 1,
}

impl PortAssociation {
    /// A device below 32 and a function below 8. Others panic.
    pub fn new(
        segment: u16,
        bus: u8,
        device: u8,
        function: u8,
        protocol: ProtocolType,
        base_addr: u64,
    ) -> Self {
        assert!(device < 32 && function < 8, "there is no such function");
        PortAssociation {
            segment,
            bdf: u16::from(bus) << 8 | u16::from(device << 3 | function),
            protocol,
            base: base_addr,
        }
    }
}

impl Aml for PortAssociation {
    fn to_aml_bytes(&self, sink: &mut dyn AmlSink) {
        sink.vec(&piece(TABLE, 3, |table, at| {
            table
                .set_number(at, "RCEC Segment Number", self.segment.into())
                .set_number(at, "RCEC BDF", self.bdf.into())
                .set_number(at, "Protocol Type", self.protocol as u64)
                .set_number(at, "Base Address", self.base);
        }));
    }
}
