//! Tables and objects by the names of `acpi_tables`. The expected bytes were worked out by hand from ACPI 6.5 and from the
//! documents that the modules name.

use hyssop_acpi::aml::*;
use hyssop_acpi::gas::{AccessSize, AddressSpace as Space, GAS};
use hyssop_acpi::*;

const OEM: ([u8; 6], [u8; 8], u32) = (*b"FOOBAR", *b"CAFEDEAD", 1);

fn bytes(object: &dyn Aml) -> Vec<u8> {
    let mut bytes = Vec::new();
    object.to_aml_bytes(&mut bytes);
    bytes
}

// What is after the header of a table, whose length and sum are right.
fn body(table: &dyn Aml) -> Vec<u8> {
    let table = bytes(table);
    assert_eq!(check_table(&table), Ok(()));
    table[36..].to_vec()
}

fn register() -> GAS {
    GAS::new(Space::SystemIo, 8, 1, AccessSize::ByteAccess, 0x0102)
}

const REGISTER: &[u8] = b"\x01\x08\x01\x01\x02\x01\0\0\0\0\0\0";

#[test]
fn objects_whose_size_is_a_term() {
    assert_eq!(bytes(&VarPackageTerm::new(&Arg(0))), b"\x13\x02\x68");
    assert_eq!(bytes(&BufferTerm::new(&Local(1))), b"\x11\x02\x61");
}

#[test]
fn descriptors() {
    let wanted = [b"\x82\x0c\0", REGISTER].concat();
    assert_eq!(bytes(&Register::new(register())), wanted);
    let memory = AddressSpace::new_memory(
        AddressSpaceCacheable::WriteCombining,
        true,
        0x100u16,
        0x1ff,
        Some(2),
    );
    assert_eq!(
        bytes(&memory),
        b"\x88\x0d\0\0\x0c\x05\0\0\0\x01\xff\x01\x02\0\0\x01"
    );
    assert_eq!(
        bytes(&AddressSpace::new_bus_number(0x10000u32, 0x10001)),
        b"\x87\x17\0\x02\x0c\0\0\0\0\0\0\0\x01\0\x01\0\x01\0\0\0\0\0\x02\0\0\0"
    );
    let ports = bytes(&AddressSpace::new_io(1u64, 2, None));
    assert_eq!(ports[..14], *b"\x8a\x2b\0\x01\x0c\x03\0\0\0\0\0\0\0\0");
    let buses = bytes(&AddressSpace::new_bus_number(4u64, 6));
    assert_eq!(buses[..6], *b"\x8a\x2b\0\x02\x0c\0");
    assert_eq!(buses[38..], *b"\x03\0\0\0\0\0\0\0");
}

#[test]
fn sums() {
    let mut sum = Checksum::default();
    sum.append(&[1, 255, 3]);
    sum.delete(&[3, 1]);
    assert_eq!((sum.raw_value(), sum.value()), (255, 1));
    sum.byte(1);
    assert_eq!((sum.raw_value(), sum.value()), (0, 0));
    assert_eq!(u8sum(&0x1234u16), 0x51);
}

#[test]
fn memory_of_cxl() {
    use hyssop_acpi::cedt::*;
    let mut table = CEDT::new(OEM.0, OEM.1, OEM.2);
    table.add_host_bridge(CxlHostBridge::new(7, CxlVersion::Cxl2, 0x1000));
    let (arithmetic, granularity) = (
        InterleaveArithmetic::ModuloXor,
        InterleaveGranularity::Granularity1kb,
    );
    let mut window = CxlFixedMemory::new(
        0x10,
        0x20,
        arithmetic,
        granularity,
        InterleaveWays::Ways3,
        9,
    )
    .cxl_type_3_memory()
    .persistent();
    for target in 1..4 {
        window.add_target([target, 0, 0, 0]);
    }
    table.add_fixed_memory(window);
    let mut maps = XorInterleaveMath::new(granularity);
    maps.add_xormap(0x0102);
    table.add_xor_interleave_math(maps);
    table.add_port_association(PortAssociation::new(1, 2, 3, 4, ProtocolType::CxlMem, 0x30));
    let wanted = b"\0\0\x20\0\x07\0\0\0\x01\0\0\0\0\0\0\0\0\x10\0\0\0\0\0\0\0\0\x01\0\0\0\0\0\
        \x01\0\x30\0\0\0\0\0\x10\0\0\0\0\0\0\0\x20\0\0\0\0\0\0\0\x08\x01\0\0\x02\0\0\0\x0a\0\x09\0\
        \x01\0\0\0\x02\0\0\0\x03\0\0\0\
        \x02\0\x10\0\0\0\x02\x01\x02\x01\0\0\0\0\0\0\
        \x03\0\x11\0\x01\0\x1c\x02\x01\x30\0\0\0\0\0\0\0";
    assert_eq!(body(&table), wanted);
}

#[test]
#[should_panic(expected = "a window has as many targets as ways")]
fn a_window_without_targets() {
    use hyssop_acpi::cedt::*;
    bytes(&CxlFixedMemory::new(
        0,
        0,
        InterleaveArithmetic::Modulo,
        InterleaveGranularity::Granularity256b,
        InterleaveWays::Ways1,
        0,
    ));
}

#[test]
fn sources_of_errors() {
    use hyssop_acpi::hest::*;
    let mut table = HEST::new(OEM.0, OEM.1, OEM.2);
    let device = PciDevice::new(1, 2, 3);
    table.add_structure(
        PcieAerRootPort::new_root_port(FirmwareFirst::Enabled, device)
            .num_records(4)
            .root_error_command(5),
    );
    table.add_structure(PcieAerDevice::new_global().device_control(6));
    let wanted = b"\x02\0\0\0\
        \x06\0\0\0\0\0\x01\0\x04\0\0\0\0\0\0\0\x01\0\0\0\x02\0\x03\0\0\0\0\0\0\0\0\0\0\0\0\0\0\0\0\0\0\0\0\0\x05\0\0\0\
        \x07\0\0\0\0\0\x02\0\0\0\0\0\0\0\0\0\0\0\0\0\0\0\0\0\x06\0\0\0\0\0\0\0\0\0\0\0\0\0\0\0\0\0\0\0";
    assert_eq!(body(&table), wanted);
    let bridge = PcieAerBridge::new_bridge(FirmwareFirst::Disabled, device);
    let bridge = bytes(&bridge.secondary_aer_cap_ctrl(7));
    assert_eq!(bridge[..8], *b"\x08\0\0\0\0\0\0\0");
    assert_eq!(bridge[44..], *b"\0\0\0\0\0\0\0\0\x07\0\0\0");
    let notification = NotificationStructure::new(NotificationType::ExternalGsiv)
        .conf_write_en(1)
        .vector(2)
        .error_threshold_window_ms(3);
    let source = GenericHardwareSourceV2::new(8, EnabledStatus::Enabled)
        .error_status_address(register())
        .notification(notification)
        .error_status_block_len(9)
        .read_ack_register(register())
        .read_ack_write(10);
    let wanted = [
        b"\x0a\0\x08\0\xff\xff\0\x01\0\0\0\0\0\0\0\0\0\0\0\0",
        REGISTER,
        b"\x0a\x1c\x01\0\0\0\0\0\x02\0\0\0\0\0\0\0\0\0\0\0\0\0\0\0\x03\0\0\0\x09\0\0\0",
        REGISTER,
        b"\0\0\0\0\0\0\0\0\x0a\0\0\0\0\0\0\0",
    ]
    .concat();
    assert_eq!(bytes(&source), wanted);
    let source = bytes(&GenericHardwareSource::new(8, EnabledStatus::Disabled));
    assert_eq!((source.len(), source[0], source[7]), (64, 9, 0));
    let status = GenericErrorStatus::new(1, 2, ErrorSeverity::Fatal);
    assert_eq!(
        bytes(&status),
        b"\x06\0\0\0\0\0\0\0\0\0\0\0\0\0\0\0\x01\0\0\0"
    );
}

#[test]
fn harts() {
    use hyssop_acpi::rhct::*;
    let mut table = RHCT::new(OEM.0, OEM.1, OEM.2, 0x0102);
    let string = table.add_isa_string("rv64");
    let blocks = table.add_cmo(CmoNode::new(6, 7, 8));
    table.add_mmu_node(VirtualAddressScheme::Sv48);
    table.add_hart_info(HartInfoNode::new(3, &string).with_cmo(&blocks));
    let wanted = b"\0\0\0\0\x02\x01\0\0\0\0\0\0\x04\0\0\0\x38\0\0\0\
        \0\0\x0e\0\x01\0\x05\0rv64\0\0\
        \x01\0\x0a\0\x01\0\0\x06\x07\x08\
        \x02\0\x08\0\x01\0\0\x01\
        \xff\xff\x14\0\x01\0\x02\0\x03\0\0\0\x38\0\0\0\x46\0\0\0";
    assert_eq!(body(&table), wanted);
}

#[test]
fn mappings() {
    use hyssop_acpi::rimt::*;
    let mut table = RIMT::new(OEM.0, OEM.1, OEM.2);
    let wires = vec![InterruptWire::new(5, true, false, 6)];
    let device = PciDevice::new(1, 2, 3, 4);
    let iommu = table.add_iommu(Iommu::new(7, None, Some(device), Some(8), Some(wires)));
    let mapping = IdMapping::new(1, 2, 3, iommu, true, false, true);
    table.add_pcie_root_complex(PcieRootComplex::new(9, 1, false, true, Some(vec![mapping])));
    table.add_platform(Platform::new(10, "DEV0".into(), None));
    let wanted = b"\x03\0\0\0\x30\0\0\0\0\0\0\0\
        \0\x01\x28\0\x07\0\0\0\0\0\0\0\0\0\0\0\x03\0\0\0\x01\0\x1c\x02\x08\0\0\0\x01\0\x20\0\x05\0\0\0\x01\0\x06\0\
        \x01\x01\x24\0\x09\0\x01\0\x02\0\0\0\x10\0\x01\0\x01\0\0\0\x02\0\0\0\x03\0\0\0\x30\0\0\0\x05\0\0\0\
        \x02\x01\x11\0\x0a\0\0\0\x11\0\0\0DEV0\0";
    assert_eq!(body(&table), wanted);
}

#[test]
fn controllers() {
    use hyssop_acpi::rqsc::*;
    let mut table = RQSC::new(OEM.0, OEM.1, OEM.2);
    let mut controller = QoSController::new(ControllerType::Bandwidth, register(), 1, 2, 3);
    controller.add_resource(ResourceStructure::new(
        ResourceType::Memory,
        4,
        ResourceID::MemoryAffinityStructure(MemoryAffinityStructureResource::new(5, 6)),
    ));
    controller.add_resource(ResourceStructure::new(
        ResourceType::Cache,
        0,
        ResourceID::VendorSpecific(0x80, vec![7]),
    ));
    assert_eq!(controller.len(), 28 + 28 + 9);
    table.add_controller(controller);
    let wanted = [
        b"\x01\0\0\0\x01\0\x41\0",
        REGISTER,
        b"\x01\0\0\0\x02\0\0\0\x03\0\x02\0\
        \x01\0\x1c\0\x04\0\0\x01\x05\0\0\0\0\0\0\0\0\0\0\0\x06\0\0\0\0\0\0\0\
        \0\0\x09\0\0\0\0\x80\x07",
    ]
    .concat();
    assert_eq!(body(&table), wanted);
}

#[test]
fn trusted_platforms() {
    use hyssop_acpi::tpm2::*;
    let client = TpmClient1_2::new(OEM.0, OEM.1, OEM.2, 1, 2);
    assert_eq!(body(&client), b"\0\0\x01\0\0\0\x02\0\0\0\0\0\0\0");
    let server = TpmServer1_2::new(OEM.0, OEM.1, OEM.2)
        .log_area(1, 2)
        .edge_triggered()
        .gsi(3)
        .bus_is_pnp()
        .pci_sbdf(4, 5, 6, 7)
        .config_addr(register());
    let wanted = [
        b"\x01\0\0\0\x01\0\0\0\0\0\0\0\x02\0\0\0\0\0\0\0\x01\x02\x07\x09\0\0\0\0\x03\0\0\0",
        &[0; 16][..],
        REGISTER,
        b"\x04\x05\x06\x07",
    ]
    .concat();
    assert_eq!(body(&server), wanted);
    let (class, method) = (PlatformClass::Server, StartMethod::Crb);
    let mut table = Tpm2::new(OEM.0, OEM.1, OEM.2, class, 0x10, method);
    let front = b"\x01\0\0\0\x10\0\0\0\0\0\0\0\x07\0\0\0";
    assert_eq!(body(&table), front);
    table.set_log_area(1, 2);
    let log = b"\0\0\0\0\0\0\0\0\0\0\0\0\x01\0\0\0\x02\0\0\0\0\0\0\0";
    assert_eq!(body(&table), [&front[..], log].concat());
}
