//! Checks the tables in a folder and an image of tables, and makes a MADT from a text, as `examples/check.c` does.
//! acpi_check FOLDER IMAGE BASE RSDP, with the physical addresses of the image's first byte and of its RSDP in hexadecimal.

#[path = "../../../hyssop.rs"]
mod hyssop;

use std::ffi::CStr;
use std::{env, fs, io, process};

/// A MADT (ACPI 6.5, 5.2.12) of one processor, without its length, its checksum and the length of its structure.
const TEXT: &str = "Signature: \"APIC\"
  Signature: \"APIC\"
  Length: ????????
  Revision: 05
  Checksum: ??
  OEM ID: \"FOOBAR\"
  OEM Table ID: \"CAFEDEAD\"
  OEM Revision: 00000001
  Creator ID: \"RVAT\"
  Creator Revision: 00000001
  Local Interrupt Controller Address: fee00000
  Flags: 00000001
Processor Local APIC Structure
  Type: 00
  Length: ??
  ACPI Processor UID: 00
  APIC ID: 00
  Flags: 00000001
";

/// The number of a fault, and where it is.
struct Fault(u32, u64);

fn outcome<T>(number: u32, place: u64, fine: T) -> Result<T, Fault> {
    if number == 0 { Ok(fine) } else { Err(Fault(number, place)) }
}

/// The words of the number of a fault.
fn words(number: u32) -> String {
    let text = unsafe { CStr::from_ptr(hyssop::hyssop_fault_words(number)) };
    text.to_string_lossy().into_owned()
}

fn check_table(bytes: &[u8]) -> Result<(), Fault> {
    let mut place = 0;
    let number = unsafe { hyssop::hyssop_check_table(bytes.as_ptr(), bytes.len(), &mut place) };
    outcome(number, place, ())
}

fn check_image(bytes: &[u8], base: u64, rsdp: u64) -> Result<(), Fault> {
    let mut place = 0;
    let number = unsafe { hyssop::hyssop_check_image(bytes.as_ptr(), bytes.len(), base, rsdp, &mut place) };
    outcome(number, place, ())
}

/// The table of a text: the first call asks for its size.
fn make(text: &str) -> Result<Vec<u8>, Fault> {
    let mut table = Vec::new();
    loop {
        let (mut size, mut place) = (0, 0);
        let (out, room) = (table.as_mut_ptr(), table.len());
        let number = unsafe { hyssop::hyssop_make(text.as_ptr(), text.len(), out, room, &mut size, &mut place) };
        if number != hyssop::fault::BUFFER {
            table.truncate(size);
            return outcome(number, place, table);
        }
        table.resize(size, 0);
    }
}

/// Prints an outcome, and returns whether it is a fault.
fn tell(name: &str, outcome: Result<(), Fault>, at: &str) -> bool {
    match outcome {
        Ok(()) => println!("{name}: {}", words(0)),
        Err(Fault(number, place)) => {
            println!("{name}: {}{at}{place:x}", words(number));
            return true;
        }
    }
    false
}

fn main() -> io::Result<()> {
    let given: Vec<String> = env::args().skip(1).collect();
    let [folder, image, base, rsdp] = &given[..] else {
        process::exit(2);
    };
    if unsafe { hyssop::hyssop_version() } != hyssop::VERSION {
        process::exit(2);
    }
    let address = |text: &str| u64::from_str_radix(text, 16).map_err(io::Error::other);
    let mut has_fault = false;
    for entry in fs::read_dir(folder)? {
        let path = entry?.path();
        let name = path.file_name().unwrap_or_default().to_string_lossy().into_owned();
        has_fault |= tell(&name, check_table(&fs::read(path)?), ", offset 0x");
    }
    let checked = check_image(&fs::read(image)?, address(base)?, address(rsdp)?);
    has_fault |= tell(image, checked, ", address 0x");
    match make(TEXT) {
        Ok(table) => {
            tell("a MADT of a text", check_table(&table), ", offset 0x");
            println!("its length is {}, its checksum 0x{:02x}", table.len(), table[9]);
        }
        Err(fault) => has_fault |= tell("a MADT of a text", Err(fault), ", line 0x"),
    }
    process::exit(i32::from(has_fault));
}
