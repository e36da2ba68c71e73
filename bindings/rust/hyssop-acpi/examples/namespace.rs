//! Writes the definition block of a PC, as `acpi_example` does: `namespace FILE`.

use hyssop_acpi::{Error, MemoryType, Op, Writer};
use std::{env, fs, io, process};

const PROCESSORS: u8 = 2;

// The bridge passes on bus numbers, all ports but its own eight, and the memory for devices.
fn root_bridge(block: &mut Writer) {
    block.name("_HID").eisa_id("PNP0A08");
    block.name("_CID").eisa_id("PNP0A03");
    block.name("_SEG").integer(0);
    block.name("_UID").integer(0);
    block.name("_CRS").resources(|list| {
        list.bus_numbers(0, 0xff).io(0xcf8, 0xcf8, 1, 8);
        list.io_range(0, 0xcf7, 0).io_range(0xd00, 0xffff, 0);
        list.memory_range32(MemoryType::NotCacheable, true, 0xc000_0000, 0xfebf_ffff, 0);
    });
}

fn serial_port(block: &mut Writer) {
    block.name("_HID").eisa_id("PNP0501");
    block.name("_CRS").resources(|list| {
        list.interrupt(true, true, false, false, 4)
            .io(0x3f8, 0x3f8, 0, 8);
    });
    block.method("_STA", 0, false, |body| {
        body.operator(Op::Return).integer(15);
    });
}

fn namespace() -> Result<Vec<u8>, Error> {
    let mut block = Writer::table("DSDT", 2, "FOOBAR", "CAFEDEAD", 0xdead_beef);
    block.device("_SB_.PCI0", root_bridge);
    block.device("_SB_.COM1", serial_port);
    for number in 0..PROCESSORS {
        block.device(&format!("_SB_.C{number:03}"), |device| {
            device.name("_HID").string("ACPI0007");
            device.name("_UID").integer(number.into());
        });
    }
    block.name("\\_S5_").package(4, |list| {
        list.integer(0).integer(0).integer(0).integer(0);
    });
    block.finish()
}

fn main() -> io::Result<()> {
    let Some(file) = env::args().nth(1) else {
        process::exit(2);
    };
    let bytes = namespace().map_err(io::Error::other)?;
    fs::write(file, bytes)
}
