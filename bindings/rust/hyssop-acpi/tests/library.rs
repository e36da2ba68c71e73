//! The safe functions over `libhyssop.a`. The expected bytes were worked out by hand from ACPI 6.5.

use hyssop_acpi::*;

const OEM: (&str, &str) = ("FOOBAR", "CAFEDEAD");

fn aml(write: impl FnOnce(&mut Writer)) -> Result<Vec<u8>, Error> {
    let mut writer = Writer::new();
    write(&mut writer);
    writer.finish()
}

#[test]
fn nested_objects() {
    let bytes = aml(|w| {
        w.scope("_SB_", |w| {
            w.device("COM1", |w| {
                w.name("_HID").eisa_id("PNP0501").name("_UID").integer(1);
                w.method("_STA", 0, false, |w| {
                    w.operator(Op::Return).integer(15);
                });
            });
        });
    });
    let wanted = b"\x10\x26_SB_\x5b\x82\x1fCOM1\x08_HID\x0c\x41\xd0\x05\x01\x08_UID\x01\x14\x09_STA\0\xa4\x0a\x0f";
    assert_eq!(bytes.as_deref(), Ok(&wanted[..]));
}

#[test]
fn statements_and_packages() {
    let bytes = aml(|w| {
        w.if_true(|w| {
            w.operator(Op::LEqual).argument(0).local(1);
            w.operator(Op::Store).path("X___").path("Y___");
        });
        w.otherwise(|_| {});
        w.while_true(|w| {
            w.integer(1).operator(Op::Break);
        });
        w.package(2, |w| {
            w.string("AB").buffer(|w| {
                w.bytes(&[7, 8]);
            });
        });
    });
    let wanted = b"\xa0\x0d\x93\x68\x61\x70X___Y___\xa1\x01\xa2\x03\x01\xa5\x12\x0c\x02\x0dAB\0\x11\x05\x0a\x02\x07\x08";
    assert_eq!(bytes.as_deref(), Ok(&wanted[..]));
}

#[test]
fn resources() {
    let bytes = aml(|w| {
        w.resources(|w| {
            w.io(0x3f8, 0x3f8, 1, 8)
                .interrupt(true, true, false, false, 4)
                .memory32_fixed(true, 0x1000, 0x20);
        });
    });
    let wanted = b"\x11\x22\x0a\x1f\x47\x01\xf8\x03\xf8\x03\x01\x08\x89\x06\0\x03\x01\x04\0\0\0\x86\x09\0\x01\0\x10\0\0\x20\0\0\0\x79\0";
    assert_eq!(bytes.as_deref(), Ok(&wanted[..]));
}

#[test]
fn regions_and_fields() {
    let bytes = aml(|w| {
        w.region("GPIO", RegionSpace::SystemIo)
            .integer(0x600)
            .integer(8);
        w.field("GPIO", Access::Byte, false, Update::Preserve, |w| {
            w.gap(4).unit("BIT4", 1);
        });
        w.index_field(
            "IDX_",
            "DAT_",
            Access::Word,
            true,
            Update::WriteAsOnes,
            |w| {
                w.unit("WIDE", 64);
            },
        );
    });
    let wanted = b"\x5b\x80GPIO\x01\x0b\0\x06\x0a\x08\x5b\x81\x0dGPIO\x01\0\x04BIT4\x01\x5b\x86\x10IDX_DAT_\x32WIDE\x40\x04";
    assert_eq!(bytes.as_deref(), Ok(&wanted[..]));
}

#[test]
fn other_named_objects() {
    let bytes = aml(|w| {
        w.external("FUNC", 8, 2).alias("FUNC", "CALL").event("EVT_");
        w.mutex("MTX_", 1).acquire("MTX_", 0xffff).release("MTX_");
        w.processor("CPU0", 1, 0x810, 6, |_| {});
    });
    let wanted =
        b"\x15FUNC\x08\x02\x06FUNCCALL\x5b\x02EVT_\x5b\x01MTX_\x01\x5b\x23MTX_\xff\xff\x5b\x27MTX_\
        \x5b\x83\x0bCPU0\x01\x10\x08\0\0\x06";
    assert_eq!(bytes.as_deref(), Ok(&wanted[..]));
}

// Longer than any first buffer: a text of 65,536 bytes in a PkgLength of three bytes.
#[test]
fn long_contents() {
    let text = "A".repeat(65_536);
    let bytes = aml(|w| {
        w.scope("_SB_", |w| {
            w.string(&text);
        });
    })
    .unwrap();
    assert_eq!(bytes.len(), 65_536 + 10);
    assert_eq!(&bytes[..9], b"\x10\x89\x00\x10_SB_\x0d");
}

#[test]
fn errors_of_a_writer() {
    let fault_of = |write: fn(&mut Writer)| aml(write).map_err(|error| error.fault);
    assert_eq!(
        fault_of(|w| {
            w.name("ABC");
        }),
        Err(fault::NAME_PART)
    );
    assert_eq!(
        fault_of(|w| {
            w.eisa_id("PNP");
        }),
        Err(fault::EISA_TEXT)
    );
    assert_eq!(
        fault_of(|w| {
            w.method("MTHD", 8, false, |_| {});
        }),
        Err(fault::METHOD_ARGS)
    );
    assert_eq!(
        fault_of(|w| {
            w.string("A\0B");
        }),
        Err(fault::TEXT)
    );
    assert_eq!(
        fault_of(|w| {
            w.argument(7).local(8);
        }),
        Err(fault::ARG_NUMBER)
    );
    assert_eq!(
        fault_of(|w| {
            w.unit("ABC", 1);
        }),
        Err(fault::NAME_PART)
    );
    assert_eq!(
        fault_of(|w| {
            w.gap(1 << 28);
        }),
        Err(fault::OBJECT_LENGTH)
    );
}

fn madt() -> Vec<u8> {
    let mut madt = Writer::table("APIC", 5, OEM.0, OEM.1, 1);
    madt.bytes(&0xfee0_0000u32.to_le_bytes())
        .bytes(&[1, 0, 0, 0]);
    madt.bytes(&[0, 8, 0, 0, 1, 0, 0, 0]);
    madt.finish().unwrap()
}

#[test]
fn tables() {
    let table = madt();
    assert_eq!(table.len(), 52);
    assert_eq!(check_table(&table), Ok(()));
    assert_eq!(
        structures(&table),
        Ok(vec![Structure {
            offset: 44,
            kind: 0,
            size: 8
        }])
    );
    let text = show(&table).unwrap();
    assert!(text.contains("Processor Local APIC"));
    assert_eq!(make(&text), Ok(table.clone()));
    assert_eq!(notes(&text), Ok(vec![]));
    assert_eq!(findings(&table).as_deref(), Ok(""));
    let mut cut = table[..51].to_vec();
    let error = check_table(&cut).unwrap_err();
    assert_eq!(
        error.to_string(),
        "at 4: the length of a table isn't the number of its bytes"
    );
    assert_eq!(seal(&mut cut), Ok(()));
    assert_eq!(check_table(&cut), Ok(()));
    assert!(template("APIC").unwrap().contains("Flags"));
}

#[test]
fn definition_blocks() {
    let mut dsdt = Writer::table("DSDT", 2, OEM.0, OEM.1, 1);
    dsdt.device("\\_SB_.COM1", |w| {
        w.name("_UID").integer(3);
    });
    let dsdt = dsdt.finish().unwrap();
    assert_eq!(check_aml(&dsdt[36..], ""), Ok(()));
    assert!(
        disassemble(&dsdt, "")
            .unwrap()
            .contains("Name (_UID, 0x03)")
    );
    assert!(names(&dsdt, "").unwrap().contains("COM1"));
}

#[test]
fn blocks_of_asl() {
    let text = "/*= Creator \"RVAT\", 0x01000000 */\n\
        DefinitionBlock (\"\", \"DSDT\", 2, \"FOOBAR\", \"CAFEDEAD\", 0x00000001)\n{\n    \
        Device (\\_SB.COM1)\n    {\n        Name (_UID, 0x03)\n    }\n}\n";
    let mut dsdt = Writer::table("DSDT", 2, OEM.0, OEM.1, 1);
    dsdt.device("\\_SB_.COM1", |w| {
        w.name("_UID").integer(3);
    });
    let dsdt = dsdt.finish().unwrap();
    assert_eq!(disassemble(&dsdt, "").as_deref(), Ok(text));
    assert_eq!(compile(text), Ok(dsdt));
    let error = compile(&text.replace("0x03", "3")).unwrap_err();
    assert_eq!((error.fault, error.place), (fault::NOT_ASL, 6));
    assert_eq!(
        error.to_string(),
        "at 6: the text isn't the ASL of a definition block"
    );
}

/// A block that calls a method of another one (ACPI 6.5, 5.3).
#[test]
fn further_blocks() {
    let block = |signature, body: &[u8]| {
        let mut block = Writer::table(signature, 2, OEM.0, OEM.1, 1);
        block.bytes(body);
        block.finish().unwrap()
    };
    let caller = block("SSDT", b"\x70MTHD\x01\x60");
    let owner = block("DSDT", b"\x14\x08MTHD\x01\xa4\x68");
    let shown = disassemble_among(&caller, &[&caller, &owner], "").unwrap();
    assert!(shown.text.contains("Store (MTHD (One), Local0)"));
    assert_eq!(shown.unread, None);
    let tree = names_among(&owner, &[&caller], "").unwrap();
    assert_eq!(tree.text, "MTHD Method, arguments: 1\n");
    let cut = disassemble_among(&block("SSDT", &[1, 0xfe]), &[], "").unwrap();
    assert_eq!(cut.unread, Some(37));
    let error = names_among(&caller, &[&caller, &owner[..40]], "").unwrap_err();
    assert_eq!(
        (error.fault, error.place),
        (fault::FURTHER_BLOCK, caller.len() as u64)
    );
}

#[test]
fn images() {
    let fadt = {
        let mut fadt = Writer::table("FACP", 6, OEM.0, OEM.1, 1);
        let mut body = [0; 240];
        body[112 - 36 + 2] = 0x10; // HW_REDUCED_ACPI, bit 20 of the flags at offset 112
        fadt.bytes(&body);
        fadt.finish().unwrap()
    };
    let dsdt = Writer::table("DSDT", 2, OEM.0, OEM.1, 1).finish().unwrap();
    let image = lay(&[&fadt, &dsdt, &madt()], 0x4_0000).unwrap();
    assert_eq!(check_image(&image.bytes, 0x4_0000, image.rsdp), Ok(()));
    let tables = image_tables(&image.bytes, 0x4_0000, image.rsdp).unwrap();
    let signatures: Vec<_> = tables.iter().map(|table| &table.signature).collect();
    assert_eq!(signatures, [b"RSD ", b"XSDT", b"FACP", b"APIC", b"DSDT"]);
    assert!(lay(&[&fadt], 0x4_0000).is_err());
    let at = (image.rsdp - 0x4_0000) as usize;
    let ranges = [
        Range {
            address: 0xe_0000,
            bytes: &image.bytes[at..at + 36],
        },
        Range {
            address: 0x4_0000,
            bytes: &image.bytes[..at],
        },
    ];
    assert_eq!(check_memory(&ranges, 0xe_0000), Ok(()));
    let found = memory_tables(&ranges, 0xe_0000).unwrap();
    assert_eq!((found[0].address, &found[1..]), (0xe_0000, &tables[1..]));
    assert!(check_memory(&ranges[..1], 0xe_0000).is_err());
}
