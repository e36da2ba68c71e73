//! Builds the tables of a guest, as a monitor does, and lays them into an image. The machines are those of `acpi_example`, whose
//! tables have the same bytes.
//!
//! `monitor FOLDER BASE` and `monitor arm FOLDER BASE` write each table to a file of the folder, and the image to `image`. BASE
//! is the physical address of the image's first byte in hexadecimal, a multiple of 64.

mod arm;
mod q35;

use hyssop_acpi::{Error, Writer, check_image, lay, make};
use std::{env, fs, io, process};

/// Processors have the ids 0, 1 and so on.
const PROCESSORS: u64 = 2;

/// A table, and the name of its file.
type Table = (&'static str, Vec<u8>);

// Begins a table: its header, and its own fields before any structures.
fn begin(signature: &str, revision: u8) -> Writer {
    let mut table = Writer::table(signature, revision, "FOOBAR", "CAFEDEAD", 0xdead_beef);
    table.add_fields();
    table
}

// Numbers of 4 bytes, one after another.
fn add_dwords(table: &mut Writer, numbers: &[u64]) {
    for number in numbers {
        table.add_number(4, *number);
    }
}

fn add_processors(block: &mut Writer) {
    for number in 0..PROCESSORS {
        block.device(&format!("_SB_.C{number:03}"), |device| {
            device.name("_HID").string("ACPI0007");
            device.name("_UID").integer(number);
        });
    }
}

// The configuration space of all buses (PCI Firmware 3.3, 4.1.2).
fn mcfg(address: u64) -> Result<Vec<u8>, Error> {
    let mut table = begin("MCFG", 1);
    let at = table.add_structure(0);
    table.set_number(at, "Base Address", address);
    table.set_number(at, "End Bus Number", 0xff);
    table.finish()
}

// A FACS (ACPI 6.5, 5.2.10), which has no header like that of the others.
fn facs() -> Result<Vec<u8>, Error> {
    make(concat!(
        "FACS\n  Signature: \"FACS\"\n  Length: ????????\n  Hardware Signature: #0\n  Firmware Waking Vector: #0\n",
        "  Global Lock: #0\n  Flags: #0\n  X Firmware Waking Vector: #0\n  Version: #1\n  Reserved: 00 00 00\n",
        "  OSPM Flags: #0\n",
        "  Reserved: 00 00 00 00 00 00 00 00 00 00 00 00 00 00 00 00 00 00 00 00 00 00 00 00\n",
    ))
}

fn run(arm: bool, folder: &str, base: u64) -> Result<(), Box<dyn std::error::Error>> {
    let tables = if arm {
        arm::tables()?
    } else {
        q35::tables(base)?
    };
    for (name, bytes) in &tables {
        fs::write(format!("{folder}/{name}"), bytes)?;
    }
    let mut all: Vec<&[u8]> = tables.iter().map(|table| table.1.as_slice()).collect();
    let fixed = if arm { arm::fadt()? } else { facs()? };
    all.push(&fixed);
    let image = lay(&all, base)?;
    check_image(&image.bytes, base, image.rsdp)?;
    fs::write(format!("{folder}/image"), &image.bytes)?;
    println!("base {base:#x} RSDP {:#x}", image.rsdp);
    Ok(())
}

fn main() -> io::Result<()> {
    let mut words: Vec<String> = env::args().skip(1).collect();
    let arm = words.first().is_some_and(|word| word == "arm");
    if arm {
        words.remove(0);
    }
    let [folder, base] = words.as_slice() else {
        process::exit(2);
    };
    let base = u64::from_str_radix(base, 16).map_err(io::Error::other)?;
    run(arm, folder, base).map_err(|error| io::Error::other(error.to_string()))
}
