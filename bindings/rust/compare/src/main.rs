//! Makes random calls of the crate `acpi_tables` and of `hyssop-acpi`, and compares the bytes of both.
//!
//!     compare [CASES [SEED]]
//!
//! It makes CASES calls of each kind, 1000 if no number is given, with seeds from SEED on, or from 1. It prints a line for each
//! kind: how many have the same bytes, how many both refuse, and how many differ in the way that `docs/DIFFERENCES.md` says. If
//! others differ, it prints their seeds, and its status is 1.

mod random;

use random::Random;
use std::panic::catch_unwind;
use std::process::ExitCode;

// The same calls over both crates.
mod theirs {
    pub mod aml {
        use acpi_tables as tables;
        include!("aml.rs");
    }

    pub mod tables {
        use acpi_tables as tables;
        include!("tables.rs");
    }
}

mod ours {
    pub mod aml {
        use hyssop_acpi as tables;
        include!("aml.rs");
    }

    pub mod tables {
        use hyssop_acpi as tables;
        include!("tables.rs");
    }
}

/// What is known of the bytes of both.
enum Known {
    /// They are the same, or both refuse the call.
    Same,
    /// Those of `acpi_tables` become those of `hyssop-acpi` by a change, for a reason.
    Changed(fn(&[u8]) -> Vec<u8>, &'static str),
    /// Only `hyssop-acpi` refuses the call, for a reason, if `acpi_tables` doesn't.
    Refused(&'static str),
}

struct Kind {
    name: &'static str,
    theirs: fn(&mut Random) -> Vec<u8>,
    ours: fn(&mut Random) -> Vec<u8>,
    known: Known,
}

// ---- changes

// The bytes of a table, whose sum is made zero.
fn summed(bytes: &[u8]) -> Vec<u8> {
    let mut table = bytes.to_vec();
    let sum = table.iter().fold(0u8, |sum, byte| sum.wrapping_add(*byte));
    table[9] = table[9].wrapping_sub(sum);
    table
}

// The same with a number of two bytes at an offset, and with the length of the table.
fn with_word(bytes: &[u8], at: usize, word: u16) -> Vec<u8> {
    let mut table = bytes.to_vec();
    let size = table.len() as u32;
    table[4..8].copy_from_slice(&size.to_le_bytes());
    table[at..at + 2].copy_from_slice(&word.to_le_bytes());
    summed(&table)
}

// The same with other bytes at an offset.
fn with(bytes: &[u8], at: usize, others: &[u8]) -> Vec<u8> {
    let mut bytes = bytes.to_vec();
    bytes[at..at + others.len()].copy_from_slice(others);
    bytes
}

// Zeros before an offset.
fn zeros_at(bytes: &[u8], at: usize, count: usize) -> Vec<u8> {
    [&bytes[..at], &vec![0; count], &bytes[at..]].concat()
}

macro_rules! kinds {
    ($($name:literal $module:ident $call:ident $known:expr;)*) => {
        [$(Kind {
            name: $name,
            theirs: theirs::$module::$call,
            ours: ours::$module::$call,
            known: $known,
        },)*]
    };
}

fn kinds() -> impl IntoIterator<Item = Kind> {
    use Known::{Changed, Refused, Same};
    kinds! {
        "trees of AML" aml aml_tree Same;
        "scopes of bytes" aml raw_scope Same;
        "resource descriptors" aml descriptors Same;
        "register addresses" tables registers Same;
        "BERT" tables bert_table Same;
        "CEDT" tables cedt_table Same;
        "FACS" tables facs_table Same;
        "FADT" tables fadt_table Same;
        "HEST" tables hest_table Same;
        "errors of HEST" tables error_status Same;
        "HMAT" tables hmat_table Same;
        "MADT" tables madt_table Same;
        "MCFG" tables mcfg_table Same;
        "RHCT" tables rhct_table Same;
        "RIMT" tables rimt_table Same;
        "RSDP" tables rsdp_table Same;
        "tables of bytes" tables sdt_table Same;
        "SRAT" tables srat_table Same;
        "handles of SRAT" tables handles Same;
        "TCPA of a client" tables tpm_client Same;
        "TPM2" tables tpm2_table Same;
        "VIOT" tables viot_table Same;
        "XSDT" tables xsdt_table Same;
        "arguments and local variables that there aren't" aml wrong_argument Same;
        "names with parts of other lengths" aml wrong_path Same;
        "ids of other lengths" aml wrong_id Same;
        "address ranges that are empty, or all of their type" aml empty_range Refused("their length isn't right there");
        "second IMSICs" tables second_imsic Same;
        "tables of bytes without a header" tables short_sdt Same;
        "windows with other targets" tables other_targets Same;
        "functions that PCI doesn't have" tables no_function Same;
        "power resources" aml power_resource Changed(|it| with(it, 0, &[0x5b, 0x84]), "the opcode is 84 5b there");
        "descriptors of registers" tables register_descriptor Changed(|it| with(it, 1, &[12]), "the length is 18 there");
        "SPCR" tables spcr_table Changed(|it| with_word(it, 86, 88), "the length is 36 there, and the offset of the string 52");
        "RQSC" tables rqsc_table Changed(|it| with_word(it, 6, 0), "the length is 4 too small there");
        "PPTT" tables pptt_table Changed(summed, "the sum leaves bytes out there");
        "SLIT" tables slit_table Changed(summed, "the sum leaves out a distance to itself there");
        "TCPA of a server" tables tpm_server Changed(summed, "the sum of a new one leaves bytes out there");
        "HEST of 256 sources" tables many_sources Changed(summed, "the sum leaves out the number there");
        "VIOT of 256 nodes" tables many_nodes Changed(summed, "the sum leaves out the number there");
        "host bridges of CXL" tables host_bridge Changed(
            |it| zeros_at(&zeros_at(it, 3, 1), 12, 4),
            "they have 27 bytes there",
        );
        "ports of CXL" tables port_association Changed(|it| with(it, 2, &[17]), "the length is 16 there");
        "windows of type 3" tables type_3_memory Changed(|it| with(it, 32, &[2]), "the flag is that of type 2 there");
        "frames of a GIC" tables msi_frame Changed(
            |it| with(it, 16, &[it[16] ^ 1]),
            "the flag of the count and the base is inverted there",
        );
        "RINTC affinities" tables rintc_affinity Changed(|it| zeros_at(it, 4, 4), "they have 16 bytes there, and no domain");
        "EISA ids of other letters" aml other_letters Refused("an EISA id has letters from A to Z");
        "methods of more than 7 arguments" aml many_arguments Refused("the low bits of the number are written there");
        "packages of more than 255 elements" aml many_elements Refused("the low bits of the number are written there");
        "names of more than 255 parts" aml many_parts Refused("the low bits of the number are written there");
        "entries of fields from 2^28 bits on" aml wide_entries Refused("the low bits of the number are written there");
        "maps of CXL from 256 on" tables many_maps Refused("the low bits of the number are written there");
        "processors of more than 58 caches" tables many_caches Refused("the low bits of the length are written there");
        "strings that aren't ASCII" aml no_ascii Refused("a string is of ASCII");
    }
}

// The bytes of a call, or none if it panics.
fn made(call: fn(&mut Random) -> Vec<u8>, seed: u64) -> Option<Vec<u8>> {
    catch_unwind(|| call(&mut Random::new(seed))).ok()
}

/// What the bytes of a call are.
enum Found {
    Same,
    BothRefuse,
    Known,
    Other,
}

fn compare(kind: &Kind, seed: u64) -> Found {
    let (theirs, ours) = (made(kind.theirs, seed), made(kind.ours, seed));
    match (theirs, ours, &kind.known) {
        (None, None, _) => Found::BothRefuse,
        (Some(theirs), Some(ours), _) if theirs == ours => Found::Same,
        (Some(theirs), Some(ours), Known::Changed(change, _)) if change(&theirs) == ours => {
            Found::Known
        }
        (Some(_), None, Known::Refused(_)) => Found::Known,
        _ => Found::Other,
    }
}

fn number(word: Option<String>, default: u64) -> u64 {
    word.map_or(default, |word| word.parse().expect("the words are numbers"))
}

fn main() -> ExitCode {
    let mut words = std::env::args().skip(1);
    let cases = number(words.next(), 1000);
    let start = number(words.next(), 1);
    // A refused call panics.
    std::panic::set_hook(Box::new(|_| {}));
    let mut status = ExitCode::SUCCESS;
    for kind in kinds() {
        let (mut same, mut refused, mut known) = (0, 0, 0);
        for seed in start..start + cases {
            match compare(&kind, seed) {
                Found::Same => same += 1,
                Found::BothRefuse => refused += 1,
                Found::Known => known += 1,
                Found::Other => {
                    println!("{}: seed {seed} differs", kind.name);
                    status = ExitCode::FAILURE;
                }
            }
        }
        print!("{}: {same} the same", kind.name);
        if refused > 0 {
            print!(", {refused} refused by both");
        }
        match kind.known {
            Known::Changed(_, why) if known > 0 => println!(", {known} differ: {why}"),
            Known::Refused(why) if known > 0 => println!(", {known} refused by hyssop-acpi: {why}"),
            _ => println!(),
        }
    }
    status
}
