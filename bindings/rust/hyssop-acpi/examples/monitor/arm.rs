//! An Arm machine: QEMU's virt with a GIC of version 3, an interrupt translation service and an SMMU of version 3.

use crate::{PROCESSORS, Table, add_dwords, add_processors, begin, mcfg};
use hyssop_acpi::gas::AccessSize::DwordAccess;
use hyssop_acpi::gas::AddressSpace::SystemMemory;
use hyssop_acpi::gas::GAS;
use hyssop_acpi::{Error, MemoryType, Writer};

fn bridge(block: &mut Writer) {
    block.name("_HID").eisa_id("PNP0A08");
    block.name("_CID").eisa_id("PNP0A03");
    block.name("_SEG").integer(0);
    block.name("_UID").integer(0);
    block.name("_CCA").integer(1);
    block.name("_CRS").resources(|list| {
        list.bus_numbers(0, 0xff);
        list.memory_range32(MemoryType::NotCacheable, true, 0x1000_0000, 0x3efe_ffff, 0);
        list.io_range32(0, 0xffff, 0x3eff_0000);
    });
}

fn serial_port(block: &mut Writer) {
    block.name("_HID").string("ARMH0011");
    block.name("_UID").integer(0);
    block.name("_CRS").resources(|list| {
        list.memory32_fixed(true, 0x900_0000, 0x1000);
        list.interrupt(true, false, false, false, 33);
    });
}

fn namespace() -> Result<Vec<u8>, Error> {
    let mut block = begin("DSDT", 2);
    block.device("_SB_.PCI0", bridge);
    block.device("_SB_.COM0", serial_port);
    add_processors(&mut block);
    block.finish()
}

// The GIC (ACPI 6.5, 5.2.12.14 to 5.2.12.18).
fn madt() -> Result<Vec<u8>, Error> {
    let mut table = begin("APIC", 1);
    let at = table.add_structure(12);
    table.set_number(at, "Physical Base Address", 0x800_0000);
    table.set_number(at, "GIC Version", 3);
    for number in 0..PROCESSORS {
        let at = table.add_structure(11);
        table.set_number(at, "CPU Interface Number", number);
        table.set_number(at, "ACPI Processor UID", number);
        table.set_number(at, "Flags", 1);
        table.set_number(at, "Performance Interrupt GSIV", 23);
        table.set_number(at, "VGIC Maintenance Interrupt", 25);
        table.set_number(at, "MPIDR", number);
    }
    let at = table.add_structure(14);
    table.set_number(at, "Discovery Range Base Address", 0x80a_0000);
    table.set_number(at, "Discovery Range Length", 0xf6_0000);
    let at = table.add_structure(15);
    table.set_number(at, "Physical Base Address", 0x808_0000);
    table.finish()
}

// The timers of a processor (ACPI 6.5, 5.2.25), by level. The non-secure one of EL1 is always on.
fn gtdt() -> Result<Vec<u8>, Error> {
    let mut table = begin("GTDT", 3);
    table.set_number(0, "CntControlBase Physical Address", u64::MAX);
    table.set_number(0, "Secure EL1 Timer GSIV", 29);
    table.set_number(0, "Non-Secure EL1 Timer GSIV", 30);
    table.set_number(0, "Non-Secure EL1 Timer Flags", 4);
    table.set_number(0, "Virtual EL1 Timer GSIV", 27);
    table.set_number(0, "EL2 Timer GSIV", 26);
    table.set_number(0, "CntReadBase Physical Address", u64::MAX);
    table.set_number(0, "Platform Timer Offset", 104);
    table.finish()
}

// The console (Microsoft, SPCR revision 4): the PL011. It has no name in the namespace, which is written as a dot.
fn spcr() -> Result<Vec<u8>, Error> {
    let mut table = begin("SPCR", 4);
    table.set_number(0, "Interface Type", 3);
    let register = GAS::new(SystemMemory, 32, 0, DwordAccess, 0x900_0000);
    table.set_register(0, "Base Address", &register);
    table.set_number(0, "Interrupt Type", 8);
    table.set_number(0, "Global System Interrupt", 33);
    table.set_number(0, "Configured Baud Rate", 7);
    table.set_number(0, "Stop Bits", 1);
    table.set_number(0, "PCI Device ID", 0xffff);
    table.set_number(0, "PCI Vendor ID", 0xffff);
    table.set_number(0, "NamespaceStringLength", 2);
    table.set_number(0, "NamespaceStringOffset", 88);
    table.bytes(b".\0");
    table.finish()
}

// The port for debuggers (Microsoft, DBG2): the PL011, by its full name.
fn dbg2() -> Result<Vec<u8>, Error> {
    let mut table = begin("DBG2", 0);
    let at = table.add_structure(0);
    table.set_number(at, "NumberofGenericAddressRegisters", 1);
    table.set_number(at, "NamespaceStringLength", 10);
    table.set_number(at, "NamespaceStringOffset", 38);
    table.set_number(at, "Port Type", 0x8000);
    table.set_number(at, "Port Subtype", 3);
    table.set_number(at, "BaseAddressRegisterOffset", 22);
    table.set_number(at, "AddressSizeOffset", 34);
    table.bytes(&[0, 32, 0, 3, 0, 0, 0, 9, 0, 0, 0, 0, 0, 0x10, 0, 0]);
    table.bytes(b"\\_SB.COM0\0");
    table.end_structure(at);
    table.finish()
}

fn add_node(table: &mut Writer, kind: u32, revision: u64, id: u64) -> usize {
    let at = table.add_structure(kind);
    table.set_number(at, "Revision", revision);
    table.set_number(at, "Identifier", id);
    at
}

// Ends a node with a mapping of all 65,536 ids, which stay the same.
fn add_mapping(table: &mut Writer, at: usize, start: u64, to: usize) {
    table.set_number(at, "Number of ID Mappings", 1);
    table.set_number(at, "Reference to ID Array", start);
    add_dwords(table, &[0, 0xffff, 0, to as u64, 0]);
    table.end_structure(at);
}

// The way of a device's accesses (Arm DEN0049): from the root complex through the SMMU to the interrupt translation service.
fn iort() -> Result<Vec<u8>, Error> {
    let mut table = begin("IORT", 5);
    let service = add_node(&mut table, 0, 1, 0);
    table.set_number(service, "Number of ITSs", 1);
    table.add_number(4, 0);
    table.end_structure(service);

    let smmu = add_node(&mut table, 4, 4, 1);
    table.set_number(smmu, "Base Address", 0x905_0000);
    // COHACC Override
    table.set_number(smmu, "Flags", 1);
    table.set_number(smmu, "Event GSIV", 106);
    table.set_number(smmu, "PRI GSIV", 107);
    table.set_number(smmu, "Sync GSIV", 108);
    table.set_number(smmu, "GERR GSIV", 109);
    add_mapping(&mut table, smmu, 68, service);

    let complex = add_node(&mut table, 2, 4, 2);
    table.set_number(complex, "Cache Coherent Attribute", 1);
    table.set_number(complex, "Memory Access Flags", 3);
    table.set_number(complex, "Memory Address Size Limit", 64);
    // no PASID
    table.bytes(&[0; 7]);
    add_mapping(&mut table, complex, 40, smmu);
    table.finish()
}

/// The fixed hardware (ACPI 6.5, 5.2.9), of which there is none: HW_REDUCED_ACPI, and PSCI by HVC.
pub fn fadt() -> Result<Vec<u8>, Error> {
    let mut table = begin("FACP", 6);
    table.set_number(0, "FADT Minor Version", 5);
    table.set_number(0, "Flags", 0x10_0000);
    table.set_number(0, "ARM_BOOT_ARCH", 3);
    table.finish()
}

/// The tables of the machine, without the FADT.
pub fn tables() -> Result<Vec<Table>, Error> {
    Ok(vec![
        ("namespace", namespace()?),
        ("madt", madt()?),
        ("gtdt", gtdt()?),
        ("spcr", spcr()?),
        ("dbg2", dbg2()?),
        ("mcfg", mcfg(0x40_1000_0000)?),
        ("iort", iort()?),
    ])
}
