//! The address of a register (ACPI 6.5, 5.2.3.2).

use crate::object::emit;
use crate::{Aml, AmlSink};

/// The space of an address.
#[repr(u8)]
#[derive(Clone, Copy, Debug, Default, PartialEq, Eq)]
pub enum AddressSpace {
    #[default]
    SystemMemory = 0,
    SystemIo = 1,
    PciConfigSpace = 2,
    EmbeddedController = 3,
    Smbus = 4,
    SystemCmos = 5,
    PciBarTarget = 6,
    Ipmi = 7,
    GeneralPursposeIo = 8,
    GenericSerialBus = 9,
    PlatformCommunicationsChannel = 0xa,
    PlatformRuntimeMechanism = 0xb,
    FunctionalFixedHardware = 0x7f,
}

/// The size of an access.
#[repr(u8)]
#[derive(Clone, Copy, Debug, Default, PartialEq, Eq)]
pub enum AccessSize {
    #[default]
    Undefined = 0,
    ByteAccess = 1,
    WordAccess = 2,
    DwordAccess = 3,
    QwordAccess = 4,
}

/// The address of a register: 12 bytes.
#[derive(Clone, Copy, Debug, Default, PartialEq, Eq)]
pub struct GAS {
    pub address_space_id: AddressSpace,
    pub register_bit_width: u8,
    pub register_bit_offset: u8,
    pub access_size: AccessSize,
    pub address: u64,
}

impl GAS {
    /// How many bytes it has.
    pub const fn len() -> usize {
        12
    }

    pub fn new(
        address_space_id: AddressSpace,
        register_bit_width: u8,
        register_bit_offset: u8,
        access_size: AccessSize,
        address: u64,
    ) -> Self {
        Self {
            address_space_id,
            register_bit_width,
            register_bit_offset,
            access_size,
            address,
        }
    }

    /// The address of a register in the configuration space of a device on bus 0 of segment 0.
    pub fn new_pci_config(
        register_bit_width: u8,
        access_size: AccessSize,
        device: u8,
        function: u8,
        register: u16,
    ) -> Self {
        let address = u64::from(device) << 32 | u64::from(function) << 16 | u64::from(register);
        let space = AddressSpace::PciConfigSpace;
        Self::new(space, register_bit_width, 0, access_size, address)
    }
}

impl Aml for GAS {
    fn to_aml_bytes(&self, sink: &mut dyn AmlSink) {
        emit(sink, |writer| {
            writer.add_number(1, self.address_space_id as u64);
            writer.add_number(1, self.register_bit_width.into());
            writer.add_number(1, self.register_bit_offset.into());
            writer.add_number(1, self.access_size as u64);
            writer.add_number(8, self.address);
        });
    }
}
