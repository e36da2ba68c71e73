// Random calls for tables. This file is a part of two modules: in each, `tables` is one of both crates.

use crate::random::Random;
use tables::gas::GAS;
use tables::{
    Aml, bert, cedt, facs, fadt, gas, hest, hmat, madt, mcfg, pptt, rhct, rimt, rqsc, rsdp, sdt,
    slit, spcr, srat, tpm2,
};
use tables::{viot, xsdt};

fn bytes_of(object: &dyn Aml) -> Vec<u8> {
    let mut bytes = Vec::new();
    object.to_aml_bytes(&mut bytes);
    bytes
}

fn register(r: &mut Random) -> GAS {
    let space = r.one_of(&[
        gas::AddressSpace::SystemMemory,
        gas::AddressSpace::SystemIo,
        gas::AddressSpace::PciConfigSpace,
        gas::AddressSpace::EmbeddedController,
        gas::AddressSpace::Smbus,
        gas::AddressSpace::SystemCmos,
        gas::AddressSpace::PciBarTarget,
        gas::AddressSpace::Ipmi,
        gas::AddressSpace::GeneralPursposeIo,
        gas::AddressSpace::GenericSerialBus,
        gas::AddressSpace::PlatformCommunicationsChannel,
        gas::AddressSpace::PlatformRuntimeMechanism,
        gas::AddressSpace::FunctionalFixedHardware,
    ]);
    let size = r.one_of(&[
        gas::AccessSize::Undefined,
        gas::AccessSize::ByteAccess,
        gas::AccessSize::WordAccess,
        gas::AccessSize::DwordAccess,
        gas::AccessSize::QwordAccess,
    ]);
    GAS::new(space, r.u8(), r.u8(), size, r.u64())
}

pub fn registers(r: &mut Random) -> Vec<u8> {
    bytes_of(&register(r))
}

pub fn register_descriptor(r: &mut Random) -> Vec<u8> {
    bytes_of(&tables::aml::Register::new(register(r)))
}

pub fn bert_table(r: &mut Random) -> Vec<u8> {
    bytes_of(&bert::BERT::new(
        r.array(),
        r.array(),
        r.u32(),
        r.u32(),
        r.u64(),
    ))
}

pub fn rsdp_table(r: &mut Random) -> Vec<u8> {
    bytes_of(&rsdp::Rsdp::new(r.array(), r.u64()))
}

pub fn facs_table(r: &mut Random) -> Vec<u8> {
    let mut table = facs::FACS::new();
    table.hardware_signature = r.u32().into();
    table.waking = r.u32().into();
    table.lock = r.u32().into();
    table.flags = r.u32().into();
    table.x_waking = r.u64().into();
    table.version = r.u8();
    table.ospm_flags = r.u32().into();
    bytes_of(&table)
}

macro_rules! set_fields {
    ($table:ident, $r:ident: $($call:ident: $($field:ident)*;)*) => { $($($table.$field = $r.$call().into();)*)* };
}

pub fn fadt_table(r: &mut Random) -> Vec<u8> {
    let mut fields = fadt::FADTBuilder::new(r.array(), r.array(), r.u32());
    set_fields! { fields, r:
        u8: s4bios_req pstate_cnt pm1_evt_len pm1_cnt_len pm2_cnt_len pm_tmr_len gpe0_blk_len gpe1_blk_len gpe1_base cst_cnt
            duty_offset duty_width day_alrm mon_alrm century reset_value fadt_minor_version major_version acpi_enable
            acpi_disable;
        u16: sci_int p_lvl2_lat p_lvl3_lat flush_size flush_stride iapc_boot_arch arm_boot_arch;
        u32: firmware_ctrl dsdt smi_cmd pm1a_evt_blk pm1b_evt_blk pm1a_cnt_blk pm1b_cnt_blk pm2_cnt_blk pm_tmr_blk gpe0_blk
            gpe1_blk flags;
        u64: x_firmware_ctrl x_dsdt hypervisor_vendor_identity;
    }
    for place in [
        &mut fields.reset_reg,
        &mut fields.x_pm1a_evt_blk,
        &mut fields.x_pm1b_evt_blk,
        &mut fields.x_pm1a_cnt_blk,
        &mut fields.x_pm1b_cnt_blk,
        &mut fields.x_pm2_cnt_blk,
        &mut fields.x_pm_tmr_blk,
        &mut fields.x_gpe0_blk,
        &mut fields.x_gpe1_blk,
        &mut fields.sleep_control_reg,
        &mut fields.sleep_status_reg,
    ] {
        *place = register(r);
    }
    for _ in 0..r.below(5) {
        fields = match r.below(8) {
            0 => fields.dsdt_32(r.u32()),
            1 => fields.dsdt_64(r.u64()),
            2 => fields.firmware_ctrl_32(r.u32()),
            3 => fields.firmware_ctrl_64(r.u64()),
            4 => fields.acpi_enable(),
            5 => fields.acpi_disable(),
            6 => fields.flag(r.one_of(&[
                fadt::Flags::Wbinvd,
                fadt::Flags::Headless,
                fadt::Flags::HwReducedAcpi,
            ])),
            _ => fields.preferred_pm_profile(
                r.one_of(&[fadt::PmProfile::Mobile, fadt::PmProfile::Tablet]),
            ),
        };
    }
    if r.bool() {
        fields = fields.gpe_info(r.u32(), r.u32(), r.u8(), r.u8(), r.u8());
    }
    bytes_of(&fields.finalize())
}

pub fn mcfg_table(r: &mut Random) -> Vec<u8> {
    let mut table = mcfg::MCFG::new(r.array(), r.array(), r.u32());
    for _ in 0..r.below(40) {
        table.add_ecam(r.u64(), r.u16(), r.u8(), r.u8());
    }
    bytes_of(&table)
}

pub fn xsdt_table(r: &mut Random) -> Vec<u8> {
    let mut table = xsdt::XSDT::new(r.array(), r.array(), r.u32());
    for _ in 0..r.below(40) {
        table.add_entry(r.u64());
    }
    bytes_of(&table)
}

pub fn sdt_table(r: &mut Random) -> Vec<u8> {
    let size = 36 + r.below(80);
    let mut table = sdt::Sdt::new(
        r.array(),
        size as u32,
        r.u8(),
        r.array(),
        r.array(),
        r.u32(),
    );
    for _ in 0..r.below(10) {
        let at = 36 + r.below(size - 35);
        let address = match r.below(3) {
            0 => sdt::GenericAddress::io_port_address::<u8>(r.u16()),
            1 => sdt::GenericAddress::io_port_address::<u32>(r.u16()),
            _ => sdt::GenericAddress::mmio_address::<u64>(r.u64()),
        };
        match r.below(9) {
            0 => table.append(r.u8()),
            1 => table.append(r.u32()),
            2 => table.append(address),
            3 => table.append_slice(&r.bytes(40)),
            4 if at + 8 <= size => table.write_u64(at, r.u64()),
            5 if at + 2 <= size => table.write_u16(at, r.u16()),
            6 if at + 12 <= size => table.write(at, address),
            7 => {
                let bytes = r.bytes(size - at);
                table.write_bytes(at, &bytes);
            }
            _ => tables::AmlSink::vec(&mut table, &r.array::<5>()),
        }
    }
    table.as_slice().to_vec()
}

pub fn short_sdt(r: &mut Random) -> Vec<u8> {
    let size = r.below(36) as u32;
    let table = sdt::Sdt::new(r.array(), size, r.u8(), r.array(), r.array(), r.u32());
    table.as_slice().to_vec()
}

pub fn slit_table(r: &mut Random) -> Vec<u8> {
    let count = r.below(20);
    let mut table = slit::SLIT::new(r.array(), r.array(), r.u32(), count as u32);
    if count > 0 {
        for _ in 0..r.below(40) {
            table.set_distance(r.below(count), r.below(count), r.u8());
        }
    }
    bytes_of(&table)
}

pub fn spcr_table(r: &mut Random) -> Vec<u8> {
    bytes_of(&spcr::SPCR::sbi(r.array(), r.array(), r.u32()))
}

fn enabled(r: &mut Random) -> madt::EnabledStatus {
    r.one_of(&[
        madt::EnabledStatus::Disabled,
        madt::EnabledStatus::Enabled,
        madt::EnabledStatus::DisabledOnlineCapable,
    ])
}

fn trigger(r: &mut Random) -> madt::Trigger {
    r.one_of(&[madt::Trigger::Edge, madt::Trigger::Level])
}

fn gicc(r: &mut Random) -> madt::Gicc {
    let mut gicc = madt::Gicc::new(enabled(r));
    for _ in 0..r.below(14) {
        gicc = match r.below(14) {
            0 => gicc.cpu_interface_number(r.u32()),
            1 => gicc.acpi_processor_uid(r.u32()),
            2 => gicc.parking_protocol_version(r.u32()),
            3 => gicc.performance_interrupt(r.u32(), trigger(r)),
            4 => gicc.parked_address(r.u64()),
            5 => gicc.base_address(r.u64()),
            6 => gicc.virtual_registers(r.u64()),
            7 => gicc.control_block_registers(r.u64()),
            8 => gicc.maintenance_interrupt(r.u32(), trigger(r)),
            9 => gicc.redistributor_base(r.u64()),
            10 => gicc.mpidr(r.u64()),
            11 => gicc.power_efficiency_class(r.u8()),
            12 => gicc.overflow_interrupt(r.u16()),
            _ => gicc.trbe_interrupt(r.u16()),
        };
    }
    gicc
}

pub fn madt_table(r: &mut Random) -> Vec<u8> {
    let controller = match r.below(2) {
        0 => madt::LocalInterruptController::Riscv,
        _ => madt::LocalInterruptController::Address(r.u32()),
    };
    let mut table = madt::MADT::new(r.array(), r.array(), r.u32(), controller);
    if r.bool() {
        table.add_imsic(madt::IMSIC::new(
            r.u16(),
            r.u16(),
            r.u8(),
            r.u8(),
            r.u8(),
            r.u8(),
        ));
    }
    for _ in 0..r.below(12) {
        match r.below(9) {
            0 => table.add_structure(madt::ProcessorLocalApic::new(r.u8(), r.u8(), enabled(r))),
            1 => table.add_structure(madt::IoApic::new(r.u8(), r.u32(), r.u32())),
            2 => table.add_structure(gicc(r)),
            3 => {
                let version = r.one_of(&[
                    madt::GicVersion::Unspecified,
                    madt::GicVersion::GICv3,
                    madt::GicVersion::GICv4,
                ]);
                table.add_structure(madt::Gicd::new(r.u32(), r.u64(), version));
            }
            4 => table.add_structure(madt::Gicr::new(r.u64(), r.u32())),
            5 => table.add_structure(madt::GicIts::new(r.u32(), r.u64())),
            6 => {
                let status = r.one_of(&[
                    madt::HartStatus::Disabled,
                    madt::HartStatus::Enabled,
                    madt::HartStatus::OnlineCapable,
                ]);
                table.add_structure(madt::RINTC::new(
                    status,
                    r.u64(),
                    r.u32(),
                    r.u32(),
                    r.u64(),
                    r.u32(),
                ));
            }
            7 => table.add_structure(madt::APLIC::new(
                r.u8(),
                r.array(),
                r.u16(),
                r.u32(),
                r.u64(),
                r.u32(),
                r.u16(),
            )),
            _ => table.add_structure(madt::PLIC::new(
                r.u8(),
                r.array(),
                r.u16(),
                r.u16(),
                r.u32(),
                r.u64(),
                r.u32(),
            )),
        }
    }
    bytes_of(&table)
}

pub fn msi_frame(r: &mut Random) -> Vec<u8> {
    let frame = madt::GicMsi::new()
        .gic_msi_frame_id(r.u32())
        .base_addr(r.u64());
    bytes_of(&if r.bool() {
        frame.spi_count_and_base(r.u16(), r.u16())
    } else {
        frame
    })
}

pub fn second_imsic(r: &mut Random) -> Vec<u8> {
    let mut table = madt::MADT::new(
        r.array(),
        r.array(),
        r.u32(),
        madt::LocalInterruptController::Riscv,
    );
    for _ in 0..2 {
        table.add_imsic(madt::IMSIC::new(
            r.u16(),
            r.u16(),
            r.u8(),
            r.u8(),
            r.u8(),
            r.u8(),
        ));
    }
    bytes_of(&table)
}

fn handle(r: &mut Random) -> srat::Handle {
    match r.below(2) {
        0 => srat::Handle::new_acpi(r.array(), r.array()),
        _ => srat::Handle::new_pci(r.u16(), r.u8(), r.below(32) as u8, r.below(8) as u8),
    }
}

pub fn handles(r: &mut Random) -> Vec<u8> {
    bytes_of(&handle(r))
}

pub fn srat_table(r: &mut Random) -> Vec<u8> {
    let mut table = srat::SRAT::new(r.array(), r.array(), r.u32());
    for _ in 0..r.below(20) {
        if r.bool() {
            let mut memory = srat::MemoryAffinity::new(r.u32(), r.u64(), r.u64());
            for _ in 0..r.below(4) {
                memory = match r.below(3) {
                    0 => memory.enabled(),
                    1 => memory.hotpluggable(),
                    _ => memory.nonvolatile(),
                };
            }
            table.add_memory_affinity(memory);
        } else {
            let mut initiator = srat::GenericInitiator::new(r.u32(), handle(r));
            for _ in 0..r.below(3) {
                initiator = if r.bool() {
                    initiator.enabled()
                } else {
                    initiator.architectural()
                };
            }
            table.add_generic_initiator(initiator);
        }
    }
    bytes_of(&table)
}

pub fn rintc_affinity(r: &mut Random) -> Vec<u8> {
    let affinity = srat::RintcAffinity::new(r.array(), r.u32());
    bytes_of(&if r.bool() {
        affinity.enabled()
    } else {
        affinity
    })
}

pub fn pptt_table(r: &mut Random) -> Vec<u8> {
    let mut table = pptt::PPTT::new(r.array(), r.array(), r.u32());
    let mut caches = Vec::new();
    let mut processors = Vec::new();
    for _ in 0..r.below(15) {
        if r.bool() {
            let mut cache = pptt::CacheNodeBuilder::default();
            if let Some(last) = caches.last() {
                cache = cache.next_level(last);
            }
            for _ in 0..r.below(8) {
                cache = match r.below(5) {
                    0 => cache.size(r.u32()),
                    1 => cache.sets(r.u32()),
                    2 => cache.associativity(r.u8()),
                    3 => cache.line_size(r.u16()),
                    _ => cache.id(r.u32()),
                };
            }
            if r.bool() {
                cache = cache
                    .allocation_type(
                        r.one_of(&[pptt::AllocationType::Read, pptt::AllocationType::Both]),
                    )
                    .cache_type(r.one_of(&[pptt::CacheType::Data, pptt::CacheType::Unified]))
                    .write_policy(r.one_of(&[
                        pptt::WritePolicy::Writeback,
                        pptt::WritePolicy::Writethrough,
                    ]));
            }
            caches.push(table.add_cache(cache.to_node()));
        } else {
            let mut node = pptt::ProcessorNode::new(processors.last(), r.u32());
            for _ in 0..r.below(4) {
                node = match r.below(5) {
                    0 => node.physical(),
                    1 => node.valid(),
                    2 => node.thread(),
                    3 => node.leaf(),
                    _ => node.identical(),
                };
            }
            for cache in &caches {
                if r.bool() {
                    node = node.add_cache(cache);
                }
            }
            processors.push(table.add_processor(node));
        }
    }
    bytes_of(&table)
}

// As many initiators as targets: the crates take rows of other lengths otherwise.
fn locality(r: &mut Random) -> hmat::SystemLocality {
    let count = 1 + r.below(8);
    let kind = if r.bool() {
        hmat::LocalityType::Memory
    } else {
        hmat::LocalityType::ThirdLevelCache
    };
    let data = r.one_of(&[
        hmat::DataType::AccessLatency,
        hmat::DataType::WriteBandwidth,
    ]);
    let size = r.one_of(&[
        hmat::MinTransferSize::SizeByteAligned,
        hmat::MinTransferSize::Size64k,
    ]);
    let mut matrix = hmat::SystemLocality::new(kind, data, size, r.u64(), count, count);
    for _ in 0..r.below(20) {
        match r.below(5) {
            0 => matrix.set_initiator_value(r.below(count), r.u32()),
            1 => matrix.set_target_value(r.below(count), r.u32()),
            2 => matrix.set_entry_value(r.below(count), r.below(count), r.u16()),
            3 => matrix.non_sequential_transfers(),
            _ => matrix.minimum_transfer_size_required(),
        }
    }
    matrix
}

fn side_cache(r: &mut Random) -> hmat::MemorySideCache {
    let (all, this) = (r.below(4), r.below(4));
    let (domain, size) = (r.u32(), r.u64());
    let level = |at: usize| match at {
        0 => hmat::CacheLevel::None,
        1 => hmat::CacheLevel::One,
        2 => hmat::CacheLevel::Two,
        _ => hmat::CacheLevel::Three,
    };
    let ways = match r.below(3) {
        0 => hmat::Associativity::None,
        1 => hmat::Associativity::DirectMapped,
        _ => hmat::Associativity::Complex,
    };
    let policy = match r.below(3) {
        0 => hmat::WritePolicy::None,
        1 => hmat::WritePolicy::Writeback,
        _ => hmat::WritePolicy::Writethrough,
    };
    let mut cache =
        hmat::MemorySideCache::new(domain, size, level(all), level(this), ways, policy, r.u16());
    for _ in 0..r.below(6) {
        cache.add_smbios_handle(r.u16());
    }
    cache
}

pub fn many_caches(r: &mut Random) -> Vec<u8> {
    let mut table = pptt::PPTT::new(r.array(), r.array(), r.u32());
    let cache = table.add_cache(pptt::CacheNodeBuilder::default().to_node());
    let mut node = pptt::ProcessorNode::new(None, r.u32());
    for _ in 0..59 + r.below(100) {
        node = node.add_cache(&cache);
    }
    bytes_of(&node)
}

pub fn hmat_table(r: &mut Random) -> Vec<u8> {
    let mut table = hmat::HMAT::new(r.array(), r.array(), r.u32());
    for _ in 0..r.below(8) {
        match r.below(3) {
            0 => table.add_memory_proximity(hmat::MemoryProximityDomain::new(r.u32(), r.u32())),
            1 => table.add_system_locality(locality(r)),
            _ => table.add_memory_side_cache(side_cache(r)),
        }
    }
    bytes_of(&table)
}

fn device(r: &mut Random) -> viot::PciDevice {
    viot::PciDevice::new(r.u16(), r.u8(), r.below(32) as u8, r.below(8) as u8)
}

fn viot_of(r: &mut Random, nodes: usize) -> Vec<u8> {
    let mut table = viot::VIOT::new(r.array(), r.array(), r.u32());
    let mut last = table.add_virtio_mmio_iommu(viot::VirtIoMmioIommu::new(r.u64()));
    for _ in 1..nodes {
        match r.below(4) {
            0 => last = table.add_virtio_pci_iommu(viot::VirtIoPciIommu::new(device(r))),
            1 => last = table.add_virtio_mmio_iommu(viot::VirtIoMmioIommu::new(r.u64())),
            2 => table.add_pci_range(viot::PciRange::new(device(r), device(r), &last)),
            _ => table.add_mmio_endpoint(viot::MmioEndpoint::new(r.u32(), r.u64(), &last)),
        }
    }
    bytes_of(&table)
}

pub fn viot_table(r: &mut Random) -> Vec<u8> {
    let nodes = 1 + r.below(20);
    viot_of(r, nodes)
}

pub fn many_nodes(r: &mut Random) -> Vec<u8> {
    viot_of(r, 256)
}

fn isa_string(r: &mut Random) -> &'static str {
    let count = r.below(90);
    Box::leak(r.text("rv64imafdch_zicbomz", count).into_boxed_str())
}

pub fn rhct_table(r: &mut Random) -> Vec<u8> {
    let mut table = rhct::RHCT::new(r.array(), r.array(), r.u32(), r.u64());
    let mut string = table.add_isa_string(isa_string(r));
    let mut blocks = None;
    for _ in 0..r.below(12) {
        match r.below(4) {
            0 => string = table.add_isa_string(isa_string(r)),
            1 => blocks = Some(table.add_cmo(rhct::CmoNode::new(r.u8(), r.u8(), r.u8()))),
            2 => table.add_mmu_node(match r.below(3) {
                0 => rhct::VirtualAddressScheme::Sv39,
                1 => rhct::VirtualAddressScheme::Sv48,
                _ => rhct::VirtualAddressScheme::Sv57,
            }),
            _ => {
                let mut hart = rhct::HartInfoNode::new(r.u32(), &string);
                if let Some(blocks) = &blocks {
                    hart = hart.with_cmo(blocks);
                }
                table.add_hart_info(hart);
            }
        }
    }
    bytes_of(&table)
}

fn iommu(r: &mut Random) -> rimt::Iommu {
    let base = r.bool().then(|| r.u64());
    let device = r
        .bool()
        .then(|| rimt::PciDevice::new(r.u16(), r.u8(), r.below(32) as u8, r.below(8) as u8));
    let domain = r.bool().then(|| r.u32());
    let count = r.below(6);
    let wires = (0..count)
        .map(|_| rimt::InterruptWire::new(r.u32(), r.bool(), r.bool(), r.u16()))
        .collect();
    let wires = r.bool().then_some(wires);
    rimt::Iommu::new(r.u16(), base, device, domain, wires)
}

fn mappings(r: &mut Random, iommu: rimt::IommuOffset) -> Option<Vec<rimt::IdMapping>> {
    let count = r.below(5);
    let all = (0..count)
        .map(|_| {
            rimt::IdMapping::new(
                r.u32(),
                r.u32(),
                r.u32(),
                iommu,
                r.bool(),
                r.bool(),
                r.bool(),
            )
        })
        .collect();
    r.bool().then_some(all)
}

pub fn rimt_table(r: &mut Random) -> Vec<u8> {
    let mut table = rimt::RIMT::new(r.array(), r.array(), r.u32());
    let mut last = table.add_iommu(iommu(r));
    for _ in 0..r.below(12) {
        match r.below(3) {
            0 => last = table.add_iommu(iommu(r)),
            1 => {
                let mappings = mappings(r, last);
                table.add_pcie_root_complex(rimt::PcieRootComplex::new(
                    r.u16(),
                    r.u16(),
                    r.bool(),
                    r.bool(),
                    mappings,
                ));
            }
            _ => {
                let mappings = mappings(r, last);
                let count = r.below(60);
                let name = r.text("\\_SB.PCI0ABC", count);
                table.add_platform(rimt::Platform::new(r.u16(), name, mappings));
            }
        }
    }
    bytes_of(&table)
}

fn resource(r: &mut Random) -> rqsc::ResourceStructure {
    let kind = r.one_of(&[rqsc::ResourceType::Cache, rqsc::ResourceType::Memory]);
    let id = match r.below(5) {
        0 => rqsc::ResourceID::Cache(rqsc::CacheResource::new(r.u32())),
        1 => rqsc::ResourceID::MemoryAffinityStructure(rqsc::MemoryAffinityStructureResource::new(
            r.u32(),
            r.u64(),
        )),
        2 => rqsc::ResourceID::ACPIDevice(rqsc::ACPIDeviceResource::new(r.u64(), r.u32())),
        3 => rqsc::ResourceID::PCIDevice(rqsc::PCIDeviceResource::new(r.u32())),
        _ => rqsc::ResourceID::VendorSpecific(r.u8(), r.bytes(40)),
    };
    rqsc::ResourceStructure::new(kind, r.u16(), id)
}

pub fn rqsc_table(r: &mut Random) -> Vec<u8> {
    let mut table = rqsc::RQSC::new(r.array(), r.array(), r.u32());
    for _ in 0..r.below(8) {
        let kind = match r.below(2) {
            0 => rqsc::ControllerType::Capacity,
            _ => rqsc::ControllerType::Bandwidth,
        };
        let mut controller = rqsc::QoSController::new(kind, register(r), r.u32(), r.u32(), r.u16());
        for _ in 0..r.below(5) {
            controller.add_resource(resource(r));
        }
        table.add_controller(controller);
    }
    bytes_of(&table)
}

fn ways(r: &mut Random) -> (cedt::InterleaveWays, usize) {
    r.one_of(&[
        (cedt::InterleaveWays::Ways1, 1),
        (cedt::InterleaveWays::Ways2, 2),
        (cedt::InterleaveWays::Ways4, 4),
        (cedt::InterleaveWays::Ways8, 8),
        (cedt::InterleaveWays::Ways16, 16),
        (cedt::InterleaveWays::Ways3, 3),
        (cedt::InterleaveWays::Ways6, 6),
        (cedt::InterleaveWays::Ways12, 12),
    ])
}

fn granularity(r: &mut Random) -> cedt::InterleaveGranularity {
    r.one_of(&[
        cedt::InterleaveGranularity::Granularity256b,
        cedt::InterleaveGranularity::Granularity1kb,
        cedt::InterleaveGranularity::Granularity16kb,
    ])
}

fn window(r: &mut Random) -> (cedt::CxlFixedMemory, usize) {
    let (ways, count) = ways(r);
    let arithmetic = r.one_of(&[
        cedt::InterleaveArithmetic::Modulo,
        cedt::InterleaveArithmetic::ModuloXor,
    ]);
    let window =
        cedt::CxlFixedMemory::new(r.u64(), r.u64(), arithmetic, granularity(r), ways, r.u16());
    (window, count)
}

pub fn cedt_table(r: &mut Random) -> Vec<u8> {
    let mut table = cedt::CEDT::new(r.array(), r.array(), r.u32());
    for _ in 0..r.below(8) {
        if r.bool() {
            let (mut window, count) = window(r);
            for _ in 0..r.below(5) {
                window = match r.below(4) {
                    0 => window.cxl_type_2_memory(),
                    1 => window.volatile(),
                    2 => window.persistent(),
                    _ => window.fixed_configuration(),
                };
            }
            for _ in 0..count {
                window.add_target(r.array());
            }
            table.add_fixed_memory(window);
        } else {
            let mut maps = cedt::XorInterleaveMath::new(granularity(r));
            for _ in 0..r.below(10) {
                maps.add_xormap(r.u64());
            }
            table.add_xor_interleave_math(maps);
        }
    }
    bytes_of(&table)
}

pub fn many_maps(r: &mut Random) -> Vec<u8> {
    let mut maps = cedt::XorInterleaveMath::new(granularity(r));
    for _ in 0..256 + r.below(100) {
        maps.add_xormap(r.u64());
    }
    bytes_of(&maps)
}

pub fn type_3_memory(r: &mut Random) -> Vec<u8> {
    let (window, count) = window(r);
    let mut window = window.cxl_type_3_memory();
    for _ in 0..count {
        window.add_target(r.array());
    }
    bytes_of(&window)
}

pub fn other_targets(r: &mut Random) -> Vec<u8> {
    let (mut window, count) = window(r);
    for _ in 0..count + 1 {
        window.add_target(r.array());
    }
    bytes_of(&window)
}

pub fn host_bridge(r: &mut Random) -> Vec<u8> {
    let version = r.one_of(&[cedt::CxlVersion::Cxl1_1, cedt::CxlVersion::Cxl2]);
    bytes_of(&cedt::CxlHostBridge::new(r.u32(), version, r.u64()))
}

pub fn port_association(r: &mut Random) -> Vec<u8> {
    let protocol = r.one_of(&[cedt::ProtocolType::CxlIo, cedt::ProtocolType::CxlMem]);
    let (device, function) = (r.below(32) as u8, r.below(8) as u8);
    bytes_of(&cedt::PortAssociation::new(
        r.u16(),
        r.u8(),
        device,
        function,
        protocol,
        r.u64(),
    ))
}

fn notification(r: &mut Random) -> hest::NotificationStructure {
    let kind = r.one_of(&[
        hest::NotificationType::Polled,
        hest::NotificationType::GpioSignal,
        hest::NotificationType::ExternalGsiv,
    ]);
    let mut notification = hest::NotificationStructure::new(kind);
    for _ in 0..r.below(8) {
        notification = match r.below(7) {
            0 => notification.conf_write_en(r.u16()),
            1 => notification.poll_interval_ms(r.u32()),
            2 => notification.vector(r.u32()),
            3 => notification.polling_threshold_value(r.u32()),
            4 => notification.polling_threshold_window_ms(r.u32()),
            5 => notification.error_threshold_value(r.u32()),
            _ => notification.error_threshold_window_ms(r.u32()),
        };
    }
    notification
}

macro_rules! aer {
    ($r:ident, $source:expr; $($more:ident)*) => {{
        let mut source = $source;
        for _ in 0..$r.below(8) {
            source = match $r.below(7) {
                0 => source.num_records($r.u32()),
                1 => source.max_sections($r.u32()),
                2 => source.device_control($r.u16()),
                3 => source.uncorrectable_error_mask($r.u32()),
                4 => source.uncorrectable_error_severity($r.u32()),
                5 => source.correctable_error_mask($r.u32()),
                _ => source.aer_cap_ctrl($r.u32()),
            };
        }
        $(if $r.bool() {
            source = source.$more($r.u32());
        })*
        source
    }};
}

macro_rules! generic {
    ($r:ident, $source:expr) => {{
        let mut source = $source;
        for _ in 0..$r.below(8) {
            source = match $r.below(6) {
                0 => source.num_records($r.u32()),
                1 => source.max_sections($r.u32()),
                2 => source.max_raw_length($r.u32()),
                3 => source.error_status_address(register($r)),
                4 => source.notification(notification($r)),
                _ => source.error_status_block_len($r.u32()),
            };
        }
        source
    }};
}

fn pci(r: &mut Random) -> hest::PciDevice {
    hest::PciDevice::new(r.u8(), r.below(32) as u8, r.below(8) as u8)
}

fn first(r: &mut Random) -> hest::FirmwareFirst {
    r.one_of(&[hest::FirmwareFirst::Disabled, hest::FirmwareFirst::Enabled])
}

fn status(r: &mut Random) -> hest::EnabledStatus {
    r.one_of(&[hest::EnabledStatus::Disabled, hest::EnabledStatus::Enabled])
}

fn add_source(r: &mut Random, table: &mut hest::HEST) {
    match r.below(8) {
        0 => table.add_structure(aer!(r, hest::PcieAerRootPort::new_global(); root_error_command)),
        1 => table.add_structure(aer!(r, hest::PcieAerRootPort::new_root_port(first(r), pci(r)); root_error_command)),
        2 => table.add_structure(aer!(r, hest::PcieAerDevice::new_global();)),
        3 => table.add_structure(aer!(r, hest::PcieAerDevice::new_root_port(first(r), pci(r));)),
        4 => table.add_structure(aer!(r, hest::PcieAerBridge::new_global(); secondary_aer_cap_ctrl)),
        5 => table.add_structure(aer!(r, hest::PcieAerBridge::new_bridge(first(r), pci(r));
            secondary_uncorrectable_error_mask secondary_uncorrectable_error_severity secondary_aer_cap_ctrl)),
        6 => table.add_structure(generic!(r, hest::GenericHardwareSource::new(r.u16(), status(r)))),
        _ => {
            let source = generic!(r, hest::GenericHardwareSourceV2::new(r.u16(), status(r)));
            table.add_structure(source.read_ack_register(register(r)).read_ack_preserve(r.u64()).read_ack_write(r.u64()));
        }
    }
}

pub fn hest_table(r: &mut Random) -> Vec<u8> {
    let mut table = hest::HEST::new(r.array(), r.array(), r.u32());
    for _ in 0..r.below(8) {
        add_source(r, &mut table);
    }
    bytes_of(&table)
}

pub fn many_sources(r: &mut Random) -> Vec<u8> {
    let mut table = hest::HEST::new(r.array(), r.array(), r.u32());
    for _ in 0..256 {
        add_source(r, &mut table);
    }
    bytes_of(&table)
}

pub fn error_status(r: &mut Random) -> Vec<u8> {
    let severity = r.one_of(&[
        hest::ErrorSeverity::Recoverable,
        hest::ErrorSeverity::Fatal,
        hest::ErrorSeverity::None,
    ]);
    if r.bool() {
        return bytes_of(&hest::GenericErrorStatus::new(r.u32(), r.u32(), severity));
    }
    let mut data = hest::GenericErrorData::new(severity);
    data.section_type = r.u16();
    data.revision = r.u16();
    data.validation = r.u8();
    data.flags = r.u8();
    data.error_data_length = r.u32();
    data.fru_id = r.array();
    data.fru_text = r.array();
    data.timestamp = r.array();
    data.add_data(Box::new(register(r)));
    bytes_of(&data)
}

pub fn tpm_client(r: &mut Random) -> Vec<u8> {
    bytes_of(&tpm2::TpmClient1_2::new(
        r.array(),
        r.array(),
        r.u32(),
        r.u32(),
        r.u64(),
    ))
}

pub fn tpm_server(r: &mut Random) -> Vec<u8> {
    let mut server = tpm2::TpmServer1_2::new(r.array(), r.array(), r.u32());
    for _ in 0..r.below(10) {
        server = match r.below(9) {
            0 => server.log_area(r.u64(), r.u64()),
            1 => server.active_low(),
            2 => server.edge_triggered(),
            3 => server.sci_gpe(r.u8()),
            4 => server.gsi(r.u32()),
            5 => server.bus_is_pnp(),
            6 => server.pci_sbdf(r.u8(), r.u8(), r.below(32) as u8, r.below(8) as u8),
            7 => server.base_addr(register(r)),
            _ => server.config_addr(register(r)),
        };
    }
    bytes_of(&server)
}

pub fn tpm2_table(r: &mut Random) -> Vec<u8> {
    let class = r.one_of(&[tpm2::PlatformClass::Client, tpm2::PlatformClass::Server]);
    let method = r.one_of(&[
        tpm2::StartMethod::LegacyUse,
        tpm2::StartMethod::Crb,
        tpm2::StartMethod::I2cFifo,
    ]);
    let mut table = tpm2::Tpm2::new(r.array(), r.array(), r.u32(), class, r.u64(), method);
    for _ in 0..r.one_of(&[0, 1, 1, 1, 2]) {
        table.set_log_area(r.u32(), r.u64());
    }
    bytes_of(&table)
}

pub fn no_function(r: &mut Random) -> Vec<u8> {
    let (device, function) = if r.bool() {
        (32 + r.below(200) as u8, 0)
    } else {
        (0, 8 + r.below(200) as u8)
    };
    match r.below(5) {
        0 => bytes_of(&srat::Handle::new_pci(1, 2, device, function)),
        1 => bytes_of(&viot::VirtIoPciIommu::new(viot::PciDevice::new(
            1, 2, device, function,
        ))),
        2 => {
            let _ = hest::PciDevice::new(1, device, function);
            Vec::new()
        }
        3 => {
            let _ = rimt::PciDevice::new(1, 2, device, function);
            Vec::new()
        }
        _ => bytes_of(&tpm2::TpmServer1_2::new([0; 6], [0; 8], 0).pci_sbdf(1, 2, device, function)),
    }
}
