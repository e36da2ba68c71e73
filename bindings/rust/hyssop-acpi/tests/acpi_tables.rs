//! The names of the crate `acpi_tables`. The expected bytes were worked out by hand from ACPI 6.5.

use hyssop_acpi::aml::*;
use hyssop_acpi::fadt::{FADT, FADTBuilder, Flags, PmProfile};
use hyssop_acpi::gas::{self, AccessSize, GAS};
use hyssop_acpi::madt::*;
use hyssop_acpi::pptt::*;
use hyssop_acpi::srat::{GenericInitiator, Handle, MemoryAffinity, RintcAffinity, SRAT};
use hyssop_acpi::viot::{MmioEndpoint, PciDevice, PciRange, VIOT, VirtIoMmioIommu, VirtIoPciIommu};
use hyssop_acpi::{Aml, AmlSink, check_table, sdt::Sdt, u8sum};
use hyssop_acpi::{
    bert::BERT, facs::FACS, mcfg::MCFG, rsdp::Rsdp, slit::SLIT, spcr::SPCR, xsdt::XSDT,
};

fn bytes(object: &dyn Aml) -> Vec<u8> {
    let mut bytes = Vec::new();
    object.to_aml_bytes(&mut bytes);
    bytes
}

// The bytes of a table after its header, which is correct.
fn body(table: &dyn Aml) -> Vec<u8> {
    let all = bytes(table);
    assert_eq!(check_table(&all), Ok(()));
    assert_eq!(&all[10..28], b"FOOBARCAFEDEAD\x04\x03\x02\x01");
    assert_eq!(u8sum(table), 0);
    all[36..].to_vec()
}

const OEM: ([u8; 6], [u8; 8], u32) = (*b"FOOBAR", *b"CAFEDEAD", 0x0102_0304);

#[test]
fn numbers_and_texts() {
    let objects: &[(&dyn Aml, &[u8])] = &[
        (&ZERO, b"\0"),
        (&ONE, b"\x01"),
        (&ONES, b"\xff"),
        (&0u8, b"\0"),
        (&1u64, b"\x01"),
        (&0xffu16, b"\x0a\xff"),
        (&0x1234u32, b"\x0b\x34\x12"),
        (&0x1234_5678u64, b"\x0c\x78\x56\x34\x12"),
        (
            &0x1234_5678_9abc_def0usize,
            b"\x0e\xf0\xde\xbc\x9a\x78\x56\x34\x12",
        ),
        (&"ACPI", b"\x0dACPI\0"),
        (&String::from("A"), b"\x0dA\0"),
        (&EISAName::new("PNP0501"), b"\x0c\x41\xd0\x05\x01"),
        (
            &Uuid::new("33221100-5544-7766-8899-aabbccddeeff"),
            b"\x11\x13\x0a\x10\0\x11\x22\x33\x44\x55\x66\x77\x88\x99\xaa\xbb\xcc\xdd\xee\xff",
        ),
        (&BufferData::new(vec![7, 8]), b"\x11\x05\x0a\x02\x07\x08"),
        (&Package::new(vec![&ZERO, &"A"]), b"\x12\x06\x02\0\x0dA\0"),
        (&Path::new("\\_SB_.PCI0"), b"\\\x2e_SB_PCI0"),
        (&Path::from("A___.B___.C___"), b"\x2f\x03A___B___C___"),
        (&Arg(6), b"\x6e"),
        (&Local(7), b"\x67"),
    ];
    for (object, wanted) in objects {
        assert_eq!(bytes(*object), *wanted);
    }
    let mut package = PackageBuilder::new();
    package.add_element(&5u8);
    assert_eq!(bytes(&package), b"\x12\x04\x01\x0a\x05");
}

#[test]
fn named_objects() {
    let hid = Name::new("_HID".into(), &EISAName::new("PNP0501"));
    let uid = Name::new("_UID".into(), &ONE);
    let value = 15u8;
    let status = Return::new(&value);
    let method = Method::new("_STA".into(), 0, false, vec![&status]);
    let device = Device::new("COM1".into(), vec![&hid, &uid, &method]);
    let scope = Scope::new("_SB_".into(), vec![&device]);
    let wanted = b"\x10\x26_SB_\x5b\x82\x1fCOM1\x08_HID\x0c\x41\xd0\x05\x01\x08_UID\x01\x14\x09_STA\0\xa4\x0a\x0f";
    assert_eq!(bytes(&scope), wanted);
    assert_eq!(Scope::raw("_SB_".into(), bytes(&device)), wanted);
    assert_eq!(bytes(&Mutex::new("MTX_".into(), 15)), b"\x5b\x01MTX_\x0f");
    let power = PowerResource::new("PWR0".into(), 5, 0x1234, vec![&ZERO]);
    assert_eq!(bytes(&power), b"\x5b\x84\x09PWR0\x05\x34\x12\0");
    assert_eq!(bytes(&Name::new_field_name("ABCD")), b"ABCD");
}

#[test]
fn regions_and_fields() {
    let (offset, length) = (0x620u16, 4u8);
    let region = OpRegion::new("REGS".into(), OpRegionSpace::SystemIO, &offset, &length);
    assert_eq!(bytes(&region), b"\x5b\x80REGS\x01\x0b\x20\x06\x0a\x04");
    let entries = vec![FieldEntry::Reserved(7), FieldEntry::Named(*b"MASK", 64)];
    let (access, lock) = (FieldAccessType::DWord, FieldLockRule::Lock);
    let field = Field::new(
        "REGS".into(),
        access,
        lock,
        FieldUpdateRule::WriteAsZeroes,
        entries,
    );
    assert_eq!(bytes(&field), b"\x5b\x81\x0eREGS\x53\0\x07MASK\x40\x04");
}

#[test]
fn statements_and_operators() {
    let (x, y) = (Path::new("X___"), Path::new("Y___"));
    let equal = Equal::new(&Arg(0), &Local(1));
    let store = Store::new(&y, &x);
    assert_eq!(
        bytes(&If::new(&equal, vec![&store])),
        b"\xa0\x0d\x93\x68\x61\x70X___Y___"
    );
    assert_eq!(bytes(&Else::new(vec![])), b"\xa1\x01");
    assert_eq!(bytes(&While::new(&ONE, vec![&ZERO])), b"\xa2\x03\x01\0");
    let objects: &[(&dyn Aml, &[u8])] = &[
        (&LessThan::new(&ZERO, &ONE), b"\x95\0\x01"),
        (&GreaterThan::new(&ZERO, &ONE), b"\x94\0\x01"),
        (&NotEqual::new(&ZERO, &ONE), b"\x92\x93\0\x01"),
        (&GreaterEqual::new(&ZERO, &ONE), b"\x92\x95\0\x01"),
        (&LessEqual::new(&ZERO, &ONE), b"\x92\x94\0\x01"),
        (&Add::new(&Local(0), &ZERO, &ONE), b"\x72\0\x01\x60"),
        (&ToInteger::new(&Local(0), &ONE), b"\x99\x01\x60"),
        (
            &CreateDWordField::new(&x, &Local(0), &ONE),
            b"\x8a\x60\x01X___",
        ),
        (
            &CreateField::new(&x, &Local(0), &ZERO, &ONE),
            b"\x5b\x13\x60\0\x01X___",
        ),
        (
            &Mid::new(&Local(0), &ZERO, &ONE, &Local(1)),
            b"\x9e\x60\0\x01\x61",
        ),
        (&SizeOf::new(&x), b"\x87X___"),
        (&DeRefOf::new(&x), b"\x83X___"),
        (&Notify::new(&x, &ONE), b"\x86X___\x01"),
        (
            &Acquire::new("MTX_".into(), 0x1234),
            b"\x5b\x23MTX_\x34\x12",
        ),
        (&Release::new("MTX_".into()), b"\x5b\x27MTX_"),
        (
            &MethodCall::new("MTHD".into(), vec![&ZERO, &ONE]),
            b"MTHD\0\x01",
        ),
    ];
    for (object, wanted) in objects {
        assert_eq!(bytes(*object), *wanted);
    }
}

#[test]
fn resources() {
    let io = IO::new(0x3f8, 0x3f8, 1, 8);
    let interrupt = Interrupt::new(true, true, false, false, 4);
    let memory = Memory32Fixed::new(true, 0x1000, 0x20);
    let template = ResourceTemplate::new(vec![&io, &interrupt, &memory]);
    let wanted = b"\x11\x22\x0a\x1f\x47\x01\xf8\x03\xf8\x03\x01\x08\x89\x06\0\x03\x01\x04\0\0\0\x86\x09\0\x01\0\x10\0\0\x20\0\0\0\x79\0";
    assert_eq!(bytes(&template), wanted);
    let buses = AddressSpace::new_bus_number(0u16, 0xff);
    assert_eq!(
        bytes(&buses),
        b"\x88\x0d\0\x02\x0c\0\0\0\0\0\xff\0\0\0\0\x01"
    );
    let ports = AddressSpace::new_io(0xd00u16, 0xffff, Some(2));
    assert_eq!(
        bytes(&ports),
        b"\x88\x0d\0\x01\x0c\x03\0\0\0\x0d\xff\xff\x02\0\0\xf3"
    );
    let ports = AddressSpace::new_io(0u32, 0xffff, Some(0x3eff_0000));
    let wanted = b"\x87\x17\0\x01\x0c\x03\0\0\0\0\0\0\0\0\xff\xff\0\0\0\0\xff\x3e\0\0\x01\0";
    assert_eq!(bytes(&ports), wanted);
    let cached = AddressSpaceCacheable::PreFetchable;
    let memory = AddressSpace::new_memory(cached, false, 0xc000_0000u32, 0xfebf_ffff, None);
    let wanted = b"\x87\x17\0\0\x0c\x06\0\0\0\0\0\0\0\xc0\xff\xff\xbf\xfe\0\0\0\0\0\0\xc0\x3e";
    assert_eq!(bytes(&memory), wanted);
}

#[test]
fn bytes_of_a_table() {
    let mut table = Sdt::new(*b"OEM1", 40, 7, OEM.0, OEM.1, OEM.2);
    table.write_u16(38, 0x1234);
    table.append(0x5678u16);
    table.append_slice(&[9]);
    table.byte(8);
    assert_eq!((table.len(), &table.as_slice()[..4]), (44, &b"OEM1"[..]));
    assert_eq!(body(&table), b"\0\0\x34\x12\x78\x56\x09\x08");
}

#[test]
fn interrupt_controllers() {
    let address = LocalInterruptController::Address(0xfee0_0000);
    let mut table = MADT::new(OEM.0, OEM.1, OEM.2, address);
    table.add_structure(ProcessorLocalApic::new(5, 3, EnabledStatus::Enabled));
    table.add_structure(IoApic::new(9, 0x0102_0304, 0x10));
    let wanted =
        b"\0\0\xe0\xfe\0\0\0\0\0\x08\x05\x03\x01\0\0\0\x01\x0c\x09\0\x04\x03\x02\x01\x10\0\0\0";
    assert_eq!(body(&table), wanted);
    let gicc = Gicc::new(EnabledStatus::DisabledOnlineCapable)
        .cpu_interface_number(1)
        .acpi_processor_uid(2)
        .performance_interrupt(23, Trigger::Edge)
        .maintenance_interrupt(25, Trigger::Level)
        .mpidr(0x0807_0605_0403_0201)
        .trbe_interrupt(0x0a09);
    let gicc = bytes(&gicc);
    assert_eq!(
        gicc[..24],
        *b"\x0b\x52\0\0\x01\0\0\0\x02\0\0\0\x0a\0\0\0\0\0\0\0\x17\0\0\0"
    );
    assert_eq!(gicc[24..56], [0; 32]);
    assert_eq!(
        gicc[56..],
        *b"\x19\0\0\0\0\0\0\0\0\0\0\0\x01\x02\x03\x04\x05\x06\x07\x08\0\0\0\0\x09\x0a"
    );
    let gicd = Gicd::new(1, 0x800_0000, GicVersion::GICv3);
    assert_eq!(
        bytes(&gicd),
        b"\x0c\x18\0\0\x01\0\0\0\0\0\0\x08\0\0\0\0\0\0\0\0\x03\0\0\0"
    );
    let frame = GicMsi::new().gic_msi_frame_id(2).base_addr(0x10);
    assert_eq!(
        bytes(&frame),
        b"\x0d\x18\0\0\x02\0\0\0\x10\0\0\0\0\0\0\0\0\0\0\0\0\0\0\0"
    );
    let frame = frame.spi_count_and_base(3, 4);
    assert_eq!(bytes(&frame)[16..], *b"\x01\0\0\0\x03\0\x04\0");
    assert_eq!(
        bytes(&Gicr::new(0x10, 0x20)),
        b"\x0e\x10\0\0\x10\0\0\0\0\0\0\0\x20\0\0\0"
    );
    assert_eq!(
        bytes(&GicIts::new(1, 2)),
        b"\x0f\x14\0\0\x01\0\0\0\x02\0\0\0\0\0\0\0\0\0\0\0"
    );
}

#[test]
fn interrupt_controllers_of_risc_v() {
    let mut table = MADT::new(OEM.0, OEM.1, OEM.2, LocalInterruptController::Riscv);
    table.add_structure(RINTC::new(
        HartStatus::Enabled,
        0x11,
        0x22,
        0x33,
        0x44,
        0x55,
    ));
    table.add_imsic(IMSIC::new(0x101, 0x202, 3, 4, 5, 6));
    let wanted = b"\0\0\0\0\0\0\0\0\
        \x18\x24\x01\0\x01\0\0\0\x11\0\0\0\0\0\0\0\x22\0\0\0\x33\0\0\0\x44\0\0\0\0\0\0\0\x55\0\0\0\
        \x19\x10\x01\0\0\0\0\0\x01\x01\x02\x02\x03\x04\x05\x06";
    assert_eq!(body(&table), wanted);
    let aplic = APLIC::new(1, *b"HARDWARE", 2, 3, 4, 5, 6);
    let wanted =
        b"\x1a\x24\x01\x01\0\0\0\0HARDWARE\x02\0\x06\0\x03\0\0\0\x04\0\0\0\0\0\0\0\x05\0\0\0";
    assert_eq!(bytes(&aplic), wanted);
    let plic = PLIC::new(1, *b"HARDWARE", 2, 3, 4, 5, 6);
    let wanted =
        b"\x1b\x24\x01\x01HARDWARE\x02\0\x03\0\0\0\0\0\x04\0\0\0\x05\0\0\0\0\0\0\0\x06\0\0\0";
    assert_eq!(bytes(&plic), wanted);
}

#[test]
#[should_panic(expected = "a MADT has one IMSIC")]
fn a_second_imsic() {
    let mut table = MADT::new(OEM.0, OEM.1, OEM.2, LocalInterruptController::Riscv);
    table.add_imsic(IMSIC::new(1, 1, 0, 0, 0, 0));
    table.add_imsic(IMSIC::new(1, 1, 0, 0, 0, 0));
}

#[test]
fn domains() {
    let mut table = SRAT::new(OEM.0, OEM.1, OEM.2);
    table.add_memory_affinity(MemoryAffinity::new(1, 0x10, 0x20).enabled().nonvolatile());
    table.add_generic_initiator(GenericInitiator::new(2, Handle::new_pci(1, 2, 3, 4)).enabled());
    let acpi = Handle::new_acpi(*b"ACPI0007", [1, 2, 3, 4]);
    table.add_generic_initiator(GenericInitiator::new(3, acpi).architectural());
    table.add_rintc_affinity(RintcAffinity::new([1, 2, 3, 4], 5).enabled());
    let wanted = b"\x01\0\0\0\0\0\0\0\0\0\0\0\
        \x01\x28\x01\0\0\0\0\0\x10\0\0\0\0\0\0\0\x20\0\0\0\0\0\0\0\0\0\0\0\x05\0\0\0\0\0\0\0\0\0\0\0\
        \x05\x20\0\x01\x02\0\0\0\x01\0\x02\x1c\0\0\0\0\0\0\0\0\0\0\0\0\x01\0\0\0\0\0\0\0\
        \x05\x20\0\0\x03\0\0\0ACPI0007\x01\x02\x03\x04\0\0\0\0\x02\0\0\0\0\0\0\0\
        \x07\x14\0\0\0\0\0\0\x01\x02\x03\x04\x01\0\0\0\x05\0\0\0";
    assert_eq!(body(&table), wanted);
    let mut table = SLIT::new(OEM.0, OEM.1, OEM.2, 2);
    table.set_distance(0, 1, 20);
    assert_eq!(body(&table), b"\x02\0\0\0\0\0\0\0\x0a\x14\x14\x0a");
}

#[test]
fn processors_and_caches() {
    let mut table = PPTT::new(OEM.0, OEM.1, OEM.2);
    let cache = CacheNodeBuilder::default()
        .size(0x8000)
        .sets(64)
        .associativity(8)
        .allocation_type(AllocationType::Both)
        .cache_type(CacheType::Unified)
        .write_policy(WritePolicy::Writethrough)
        .line_size(64)
        .id(1);
    let second = table.add_cache(cache.to_node());
    let first = CacheNodeBuilder::default()
        .next_level(&second)
        .cache_type(CacheType::Instruction);
    let first = table.add_cache(first.to_node());
    let package = ProcessorNode::new(None, 0)
        .physical()
        .identical()
        .add_cache(&second);
    let package = table.add_processor(package);
    let core = ProcessorNode::new(Some(&package), 5)
        .valid()
        .leaf()
        .add_cache(&first);
    table.add_processor(core);
    let wanted = b"\x01\x1c\0\0\xff\0\0\0\0\0\0\0\0\x80\0\0\x40\0\0\0\x08\x1a\x40\0\x01\0\0\0\
        \x01\x1c\0\0\x10\0\0\0\x24\0\0\0\0\0\0\0\0\0\0\0\0\x04\0\0\0\0\0\0\
        \0\x18\0\0\x11\0\0\0\0\0\0\0\0\0\0\0\x01\0\0\0\x24\0\0\0\
        \0\x18\0\0\x0a\0\0\0\x5c\0\0\0\x05\0\0\0\x01\0\0\0\x40\0\0\0";
    assert_eq!(body(&table), wanted);
}

#[test]
fn attributes_of_memory() {
    use hyssop_acpi::hmat::*;
    let mut table = HMAT::new(OEM.0, OEM.1, OEM.2);
    table.add_memory_proximity(MemoryProximityDomain::new(1, 2));
    let size = MinTransferSize::Size64b;
    let mut matrix = SystemLocality::new(
        LocalityType::FirstLevelCache,
        DataType::AccessBandwidth,
        size,
        1000,
        1,
        2,
    );
    matrix.non_sequential_transfers();
    matrix.set_initiator_value(0, 5);
    matrix.set_target_value(1, 6);
    matrix.set_entry_value(0, 1, 40);
    table.add_system_locality(matrix);
    let (level, ways) = (CacheLevel::One, Associativity::DirectMapped);
    let mut cache = MemorySideCache::new(
        7,
        0x10,
        CacheLevel::Two,
        level,
        ways,
        WritePolicy::Writethrough,
        64,
    );
    cache.add_smbios_handle(0x1234);
    table.add_memory_side_cache(cache);
    let wanted = b"\0\0\0\0\
        \0\0\0\0\x28\0\0\0\x01\0\0\0\x01\0\0\0\x02\0\0\0\0\0\0\0\0\0\0\0\0\0\0\0\0\0\0\0\0\0\0\0\
        \x01\0\0\0\x30\0\0\0\x21\x03\x01\0\x01\0\0\0\x02\0\0\0\0\0\0\0\xe8\x03\0\0\0\0\0\0\
        \x05\0\0\0\0\0\0\0\x06\0\0\0\xff\xff\x28\0\
        \x02\0\0\0\x22\0\0\0\x07\0\0\0\0\0\0\0\x10\0\0\0\0\0\0\0\x12\x21\x40\0\0\0\x01\0\x34\x12";
    assert_eq!(body(&table), wanted);
}

#[test]
fn translations() {
    let mut table = VIOT::new(OEM.0, OEM.1, OEM.2);
    let pci = table.add_virtio_pci_iommu(VirtIoPciIommu::new(PciDevice::new(1, 2, 3, 4)));
    let memory = table.add_virtio_mmio_iommu(VirtIoMmioIommu::new(0x10));
    let last = PciDevice::new(1, 0xff, 31, 7);
    table.add_pci_range(PciRange::new(PciDevice::new(1, 0, 0, 0), last, &pci));
    table.add_mmio_endpoint(MmioEndpoint::new(5, 0x20, &memory));
    let wanted = b"\x04\0\x30\0\0\0\0\0\0\0\0\0\
        \x03\0\x10\0\x01\0\x1c\x02\0\0\0\0\0\0\0\0\
        \x04\0\x10\0\0\0\0\0\x10\0\0\0\0\0\0\0\
        \x01\0\x18\0\0\0\0\0\x01\0\x01\0\0\0\xff\xff\x30\0\0\0\0\0\0\0\
        \x02\0\x18\0\x05\0\0\0\x20\0\0\0\0\0\0\0\x40\0\0\0\0\0\0\0";
    assert_eq!(body(&table), wanted);
    assert_eq!(
        body(&VIOT::new(OEM.0, OEM.1, OEM.2)),
        b"\0\0\x30\0\0\0\0\0\0\0\0\0"
    );
}

#[test]
fn other_tables() {
    let mut table = MCFG::new(OEM.0, OEM.1, OEM.2);
    table.add_ecam(0xb000_0000, 1, 2, 0xff);
    assert_eq!(
        body(&table),
        b"\0\0\0\0\0\0\0\0\0\0\0\xb0\0\0\0\0\x01\0\x02\xff\0\0\0\0"
    );
    let mut table = XSDT::new(OEM.0, OEM.1, OEM.2);
    table.add_entry(0x0102_0304_0506_0708);
    assert_eq!(body(&table), b"\x08\x07\x06\x05\x04\x03\x02\x01");
    let table = BERT::new(OEM.0, OEM.1, OEM.2, 0x1000, 0x1c11_0000);
    assert_eq!(body(&table), b"\0\x10\0\0\0\0\x11\x1c\0\0\0\0");
    let table = bytes(&SPCR::sbi(OEM.0, OEM.1, OEM.2));
    assert_eq!(body(&SPCR::sbi(OEM.0, OEM.1, OEM.2)), table[36..]);
    assert_eq!((table.len(), table[8], table[36]), (90, 4, 0x15));
    assert_eq!(table[37..64], [0; 27]);
    assert_eq!(
        table[64..],
        *b"\xff\xff\xff\xff\0\0\0\0\0\0\0\0\0\0\0\0\0\0\0\0\x02\0\x58\0.\0"
    );
    let register = GAS::new_pci_config(8, AccessSize::ByteAccess, 3, 2, 0x44);
    assert_eq!(bytes(&register), b"\x02\x08\0\x01\x44\0\x02\0\x03\0\0\0");
}

#[test]
fn fixed_hardware() {
    let mut fields = FADTBuilder::new(OEM.0, OEM.1, OEM.2)
        .dsdt_64(0x0807_0605_0403_0201)
        .firmware_ctrl_32(0x1000)
        .acpi_enable()
        .flag(Flags::HwReducedAcpi)
        .flag(Flags::Wbinvd)
        .gpe_info(0x620, 0, 16, 0, 0)
        .preferred_pm_profile(PmProfile::EnterpriseServer);
    fields.sci_int = 9;
    fields.reset_reg = GAS::new(
        gas::AddressSpace::SystemIo,
        8,
        0,
        AccessSize::ByteAccess,
        0xcf9,
    );
    fields.hypervisor_vendor_identity = 0x4142;
    let table = fields.finalize();
    let all = bytes(&table);
    assert_eq!((all.len(), FADT::len(), all[8], all[131]), (276, 276, 6, 5));
    body(&table);
    assert_eq!(
        all[36..54],
        *b"\0\x10\0\0\0\0\0\0\0\x04\x09\0\0\0\0\0\x01\0"
    );
    assert_eq!(all[80..84], *b"\x20\x06\0\0");
    assert_eq!(all[92], 16);
    assert_eq!(
        all[112..128],
        *b"\x01\0\x10\0\x01\x08\0\x01\xf9\x0c\0\0\0\0\0\0"
    );
    assert_eq!(
        all[132..148],
        *b"\0\0\0\0\0\0\0\0\x01\x02\x03\x04\x05\x06\x07\x08"
    );
    assert_eq!(all[268..], *b"\x42\x41\0\0\0\0\0\0");
}

#[test]
fn structures_without_a_header() {
    let mut facs = FACS::new();
    facs.hardware_signature = 0x0102_0304;
    facs.x_waking = 0x10;
    let wanted =
        b"FACS\x40\0\0\0\x04\x03\x02\x01\0\0\0\0\0\0\0\0\0\0\0\0\x10\0\0\0\0\0\0\0\x01\0\0\0";
    assert_eq!(bytes(&facs)[..36], *wanted);
    assert_eq!(bytes(&facs)[36..], [0; 28]);
    let rsdp = bytes(&Rsdp::new(OEM.0, 0x0102_0304_0506_0708));
    assert_eq!(rsdp[..8], *b"RSD PTR ");
    assert_eq!(rsdp[9..16], *b"FOOBAR\x02");
    assert_eq!(
        rsdp[16..32],
        *b"\0\0\0\0\x24\0\0\0\x08\x07\x06\x05\x04\x03\x02\x01"
    );
    let sum = |bytes: &[u8]| bytes.iter().fold(0u8, |sum, byte| sum.wrapping_add(*byte));
    assert_eq!((sum(&rsdp[..20]), sum(&rsdp), rsdp.len()), (0, 0, 36));
}
