//! A PC: QEMU's q35 with 512 MiB, and two packages of one processor each.

use crate::{PROCESSORS, Table, add_dwords, add_processors, begin, mcfg};
use hyssop_acpi::gas::AccessSize::{ByteAccess, DwordAccess, QwordAccess, WordAccess};
use hyssop_acpi::gas::AddressSpace::{SystemIo, SystemMemory};
use hyssop_acpi::gas::GAS;
use hyssop_acpi::{Error, MemoryType, Op, Writer};

fn bridge(block: &mut Writer) {
    block.name("_HID").eisa_id("PNP0A08");
    block.name("_CID").eisa_id("PNP0A03");
    block.name("_SEG").integer(0);
    block.name("_UID").integer(0);
    block.name("_CRS").resources(|list| {
        list.bus_numbers(0, 0xff).io(0xcf8, 0xcf8, 1, 8);
        list.io_range(0, 0xcf7, 0).io_range(0xd00, 0xffff, 0);
        list.memory_range32(MemoryType::NotCacheable, true, 0xc000_0000, 0xfebf_ffff, 0);
    });
}

fn serial_port(block: &mut Writer) {
    block.name("_HID").eisa_id("PNP0501");
    block.name("_CRS").resources(|list| {
        list.interrupt(true, true, false, false, 4)
            .io(0x3f8, 0x3f8, 0, 8);
    });
    block.method("_STA", 0, false, |body| {
        body.operator(Op::Return).integer(15);
    });
}

fn namespace() -> Result<Vec<u8>, Error> {
    let mut block = begin("DSDT", 2);
    block.device("_SB_.PCI0", bridge);
    block.device("_SB_.COM1", serial_port);
    add_processors(&mut block);
    block.name("\\_S5_").package(4, |list| {
        list.integer(0).integer(0).integer(0).integer(0);
    });
    block.finish()
}

// The fixed hardware (ACPI 6.5, 5.2.9). Its pointers are set when the tables are laid.
fn fadt() -> Result<Vec<u8>, Error> {
    let mut table = begin("FACP", 6);
    table.set_number(0, "FADT Minor Version", 5);
    table.set_number(0, "SCI_INT", 9);
    table.set_number(0, "PM1a_EVT_BLK", 0x600);
    table.set_number(0, "PM1_EVT_LEN", 4);
    let register = GAS::new(SystemIo, 32, 0, WordAccess, 0x600);
    table.set_register(0, "X_PM1a_EVT_BLK", &register);
    table.set_number(0, "PM1a_CNT_BLK", 0x604);
    table.set_number(0, "PM1_CNT_LEN", 2);
    let register = GAS::new(SystemIo, 16, 0, WordAccess, 0x604);
    table.set_register(0, "X_PM1a_CNT_BLK", &register);
    table.set_number(0, "PM_TMR_BLK", 0x608);
    table.set_number(0, "PM_TMR_LEN", 4);
    let register = GAS::new(SystemIo, 32, 0, DwordAccess, 0x608);
    table.set_register(0, "X_PM_TMR_BLK", &register);
    table.set_number(0, "GPE0_BLK", 0x620);
    table.set_number(0, "GPE0_BLK_LEN", 16);
    let register = GAS::new(SystemIo, 128, 0, ByteAccess, 0x620);
    table.set_register(0, "X_GPE0_BLK", &register);
    // WBINVD, PROC_C1, PWR_BUTTON, SLP_BUTTON, TMR_VAL_EXT
    table.set_number(0, "Flags", 0x135);
    table.finish()
}

// Interrupts (ACPI 6.5, 5.2.12): local APICs, an I/O APIC, the timer, which comes to its input 2, and ACPI's own.
fn madt() -> Result<Vec<u8>, Error> {
    let mut table = begin("APIC", 1);
    table.set_number(0, "Local Interrupt Controller Address", 0xfee0_0000);
    for number in 0..PROCESSORS {
        let at = table.add_structure(0);
        table.set_number(at, "ACPI Processor UID", number);
        table.set_number(at, "APIC ID", number);
        table.set_number(at, "Flags", 1);
    }
    let at = table.add_structure(1);
    table.set_number(at, "I/O APIC Address", 0xfec0_0000);
    let at = table.add_structure(2);
    table.set_number(at, "Global System Interrupt", 2);
    let at = table.add_structure(2);
    table.set_number(at, "Source", 9);
    table.set_number(at, "Global System Interrupt", 9);
    // active high, by level
    table.set_number(at, "Flags", 0xd);
    table.finish()
}

// A cache of these sets and ways, with lines of 64 bytes (ACPI 6.5, 5.2.30.2).
fn add_cache(
    table: &mut Writer,
    id: u64,
    attributes: u64,
    sets: u64,
    ways: u64,
    next: usize,
) -> usize {
    let at = table.add_structure(1);
    table.set_number(at, "Flags", 0xff);
    table.set_number(at, "Next Level of Cache", next as u64);
    table.set_number(at, "Size", 64 * sets * ways);
    table.set_number(at, "Number of sets", sets);
    table.set_number(at, "Associativity", ways);
    table.set_number(at, "Attributes", attributes);
    table.set_number(at, "Line size", 64);
    table.set_number(at, "Cache ID", id);
    at
}

// A node of a processor or of a package, with its own caches (ACPI 6.5, 5.2.30.1).
fn add_node(table: &mut Writer, flags: u64, parent: usize, id: u64, caches: &[u64]) -> usize {
    let at = table.add_structure(0);
    table.set_number(at, "Flags", flags);
    table.set_number(at, "Parent", parent as u64);
    table.set_number(at, "ACPI Processor ID", id);
    table.set_number(at, "Number of private resources", caches.len() as u64);
    add_dwords(table, caches);
    table.end_structure(at);
    at
}

// Packages of one core each (ACPI 6.5, 5.2.30). The attributes of a cache: both allocate, and unified, data or instructions.
fn pptt() -> Result<Vec<u8>, Error> {
    let mut table = begin("PPTT", 3);
    for number in 0..PROCESSORS {
        let id = 1 + 4 * number;
        let shared = add_cache(&mut table, id, 0xa, 8192, 16, 0);
        let package = add_node(&mut table, 0x11, 0, 0, &[shared as u64]);
        let second = add_cache(&mut table, id + 1, 0xa, 2048, 8, 0);
        let data = add_cache(&mut table, id + 2, 0x2, 64, 8, second);
        let instructions = add_cache(&mut table, id + 3, 0x6, 64, 8, second);
        let own = [data as u64, instructions as u64];
        add_node(&mut table, 0xa, package, number, &own);
    }
    table.finish()
}

// Two domains, each with a processor and 256 MiB (ACPI 6.5, 5.2.16). A memory range has its length at offset 16, after another
// field with this name.
fn srat() -> Result<Vec<u8>, Error> {
    let mut table = begin("SRAT", 1);
    table.overwrite(36, &[1]);
    for number in 0..PROCESSORS {
        let at = table.add_structure(0);
        table.set_number(at, "Proximity Domain [7-0]", number);
        table.set_number(at, "APIC ID", number);
        table.set_number(at, "Flags", 1);
    }
    for domain in 0..2u64 {
        let at = table.add_structure(1);
        table.set_number(at, "Proximity Domain", domain);
        table.set_number(at, "Base Address", 0x1000_0000 * domain);
        table.overwrite(at + 16, &0x1000_0000u64.to_le_bytes());
        table.set_number(at, "Flags", 1);
    }
    table.finish()
}

// Distances: 10 to a domain's own memory, and 20 to the other's (ACPI 6.5, 5.2.17).
fn slit() -> Result<Vec<u8>, Error> {
    let mut table = begin("SLIT", 1);
    table.set_number(0, "Number of System Localities", 2);
    table.bytes(&[10, 20, 20, 10]);
    table.finish()
}

// A matrix of the two domains (ACPI 6.5, 5.2.28.4): the entry for a processor's own domain, and the one for the other domain.
fn add_matrix(table: &mut Writer, data: u64, near: u64, far: u64) {
    let at = table.add_structure(1);
    table.set_number(at, "Data Type", data);
    table.set_number(at, "Number of Initiator Proximity Domains", 2);
    table.set_number(at, "Number of Target Proximity Domains", 2);
    table.set_number(at, "Entry Base Unit", 1000);
    add_dwords(table, &[0, 1, 0, 1]);
    for entry in [near, far, far, near] {
        table.add_number(2, entry);
    }
    table.end_structure(at);
}

// Latencies in nanoseconds, and bandwidths in 1,000 megabytes a second.
fn hmat() -> Result<Vec<u8>, Error> {
    let mut table = begin("HMAT", 1);
    for domain in 0..2u64 {
        let at = table.add_structure(0);
        table.set_number(at, "Flags", 1);
        table.set_number(at, "Proximity Domain for the Attached Initiator", domain);
        table.set_number(at, "Proximity Domain for the Memory", domain);
    }
    add_matrix(&mut table, 0, 80, 160);
    add_matrix(&mut table, 3, 40, 20);
    table.finish()
}

// Sources of errors (ACPI 6.5, 18.3.2): root ports of PCI Express, and firmware, which writes to a page that is polled each 1,000
// milliseconds. A generic source has its notification at offset 32.
fn hest(base: u64) -> Result<Vec<u8>, Error> {
    let mut table = begin("HEST", 1);
    let at = table.add_structure(6);
    // GLOBAL
    table.set_number(at, "Flags", 2);
    table.set_number(at, "Enabled", 1);
    let at = table.add_structure(9);
    table.set_number(at, "Source Id", 1);
    table.set_number(at, "Related Source Id", 0xffff);
    table.set_number(at, "Enabled", 1);
    table.set_number(at, "Number of Records to Pre-allocate", 1);
    table.set_number(at, "Max Sections Per Record", 1);
    table.set_number(at, "Max Raw Data Length", 0x1000);
    let register = GAS::new(SystemMemory, 64, 0, QwordAccess, base + 0x10_0000);
    table.set_register(at, "Error Status Address", &register);
    table.overwrite(at + 32, &[0, 28, 0, 0, 0xe8, 3, 0, 0]);
    table.set_number(at, "Error Status Block Length", 0x1000);
    table.finish()
}

fn bert(base: u64) -> Result<Vec<u8>, Error> {
    let mut table = begin("BERT", 1);
    table.set_number(0, "Boot Error Region Length", 0x1000);
    table.set_number(0, "Boot Error Region", base + 0x11_0000);
    table.finish()
}

/// The tables of the machine, without a FACS. The two pages for errors are in the 0x111000 bytes from the base on.
pub fn tables(base: u64) -> Result<Vec<Table>, Error> {
    Ok(vec![
        ("namespace", namespace()?),
        ("madt", madt()?),
        ("mcfg", mcfg(0xb000_0000)?),
        ("srat", srat()?),
        ("slit", slit()?),
        ("hmat", hmat()?),
        ("pptt", pptt()?),
        ("hest", hest(base)?),
        ("bert", bert(base)?),
        ("fadt", fadt()?),
    ])
}
