//! Regions, and their fields (ACPI 6.5, 20.2.5.2).

use super::Path;
use crate::object::emit;
use crate::{Access, Aml, AmlSink, RegionSpace, Update};

/// The width of the accesses to a field.
#[derive(Clone, Copy, Debug, PartialEq)]
pub enum FieldAccessType {
    Any,
    Byte,
    Word,
    DWord,
    QWord,
    Buffer,
}

impl FieldAccessType {
    fn access(self) -> Access {
        match self {
            FieldAccessType::Any => Access::Any,
            FieldAccessType::Byte => Access::Byte,
            FieldAccessType::Word => Access::Word,
            FieldAccessType::DWord => Access::DWord,
            FieldAccessType::QWord => Access::QWord,
            FieldAccessType::Buffer => Access::Buffer,
        }
    }
}

/// Whether an access takes the global lock.
#[derive(Clone, Copy, Debug, PartialEq)]
pub enum FieldLockRule {
    NoLock = 0,
    Lock = 1,
}

/// What an access writes to the bits that don't belong to the field.
#[derive(Clone, Copy, Debug, PartialEq)]
pub enum FieldUpdateRule {
    Preserve = 0,
    WriteAsOnes = 1,
    WriteAsZeroes = 2,
}

impl FieldUpdateRule {
    fn update(self) -> Update {
        match self {
            FieldUpdateRule::Preserve => Update::Preserve,
            FieldUpdateRule::WriteAsOnes => Update::WriteAsOnes,
            FieldUpdateRule::WriteAsZeroes => Update::WriteAsZeroes,
        }
    }
}

/// The next bits of a field: with a name, or without one.
#[derive(Clone, Copy, Debug, PartialEq)]
pub enum FieldEntry {
    Named([u8; 4], usize),
    Reserved(usize),
}

// The number of bits of an entry.
fn bits(length: usize) -> u32 {
    u32::try_from(length).expect("a PkgLength is less than 2^28")
}

/// A field of a region.
#[derive(Clone, Debug)]
pub struct Field {
    path: Path,
    access_type: FieldAccessType,
    lock_rule: FieldLockRule,
    update_rule: FieldUpdateRule,
    fields: Vec<FieldEntry>,
}

impl Field {
    pub fn new(
        path: Path,
        access_type: FieldAccessType,
        lock_rule: FieldLockRule,
        update_rule: FieldUpdateRule,
        fields: Vec<FieldEntry>,
    ) -> Self {
        Field {
            path,
            access_type,
            lock_rule,
            update_rule,
            fields,
        }
    }
}

impl Aml for Field {
    fn to_aml_bytes(&self, sink: &mut dyn AmlSink) {
        let access = self.access_type.access();
        let lock = self.lock_rule == FieldLockRule::Lock;
        let update = self.update_rule.update();
        emit(sink, |writer| {
            writer.field(self.path.text(), access, lock, update, |field| {
                for entry in &self.fields {
                    match entry {
                        FieldEntry::Named(name, length) => {
                            field.unit(&String::from_utf8_lossy(name), bits(*length));
                        }
                        FieldEntry::Reserved(length) => {
                            field.gap(bits(*length));
                        }
                    }
                }
            });
        });
    }
}

/// The address spaces of regions.
#[derive(Clone, Copy, Debug, PartialEq)]
pub enum OpRegionSpace {
    SystemMemory,
    SystemIO,
    PCIConfig,
    EmbeddedControl,
    SMBus,
    SystemCMOS,
    PciBarTarget,
    IPMI,
    GeneralPurposeIO,
    GenericSerialBus,
}

impl OpRegionSpace {
    fn space(self) -> RegionSpace {
        match self {
            OpRegionSpace::SystemMemory => RegionSpace::SystemMemory,
            OpRegionSpace::SystemIO => RegionSpace::SystemIo,
            OpRegionSpace::PCIConfig => RegionSpace::PciConfig,
            OpRegionSpace::EmbeddedControl => RegionSpace::EmbeddedControl,
            OpRegionSpace::SMBus => RegionSpace::SmBus,
            OpRegionSpace::SystemCMOS => RegionSpace::SystemCmos,
            OpRegionSpace::PciBarTarget => RegionSpace::PciBarTarget,
            OpRegionSpace::IPMI => RegionSpace::Ipmi,
            OpRegionSpace::GeneralPurposeIO => RegionSpace::GeneralPurposeIo,
            OpRegionSpace::GenericSerialBus => RegionSpace::GenericSerialBus,
        }
    }
}

/// A region of an address space.
pub struct OpRegion<'a> {
    path: Path,
    space: OpRegionSpace,
    offset: &'a dyn Aml,
    length: &'a dyn Aml,
}

impl<'a> OpRegion<'a> {
    pub fn new(path: Path, space: OpRegionSpace, offset: &'a dyn Aml, length: &'a dyn Aml) -> Self {
        OpRegion {
            path,
            space,
            offset,
            length,
        }
    }
}

impl Aml for OpRegion<'_> {
    fn to_aml_bytes(&self, sink: &mut dyn AmlSink) {
        emit(sink, |writer| {
            let region = writer.region(self.path.text(), self.space.space());
            region.add(self.offset).add(self.length);
        });
    }
}
