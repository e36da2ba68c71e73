//! The Fixed ACPI Description Table (ACPI 6.5, 5.2.9).

use crate::gas::GAS;
use crate::structure::{begin, table};

/// The flags of a machine (offset 112).
#[repr(u32)]
#[derive(Clone, Copy, Debug, PartialEq)]
pub enum Flags {
    Wbinvd = 1 << 0,
    WbinvdFlush = 1 << 1,
    ProcC1 = 1 << 2,
    PLvl2Up = 1 << 3,
    PwrButton = 1 << 4,
    SlpButton = 1 << 5,
    FixRtc = 1 << 6,
    RtcS4 = 1 << 7,
    TmrValExt = 1 << 8,
    DckCap = 1 << 9,
    ResetRegSup = 1 << 10,
    SealedCase = 1 << 11,
    Headless = 1 << 12,
    CpuSwSlp = 1 << 13,
    PciExpWak = 1 << 14,
    UsePlatformClock = 1 << 15,
    S4RtcStsValid = 1 << 16,
    RemotePowerOnCapable = 1 << 17,
    ForceApicClusterModel = 1 << 18,
    ForceApicPhysicalDestinationMode = 1 << 19,
    HwReducedAcpi = 1 << 20,
    LowPowerS0IdleCapable = 1 << 21,
    PersistentCpuCachesNotReported = 0,
    PersistentCpuCachesNotPersistent = 1 << 22,
    PersistentCpuCachesArePersistent = 2 << 22,
}

/// What kind of machine it is (offset 45).
#[repr(u8)]
#[derive(Clone, Copy, Debug, PartialEq)]
pub enum PmProfile {
    Unspecified = 0,
    Desktop = 1,
    Mobile = 2,
    Workstation = 3,
    EnterpriseServer = 4,
    SohoServer = 5,
    AppliancePc = 6,
    PerformanceServer = 7,
    Tablet = 8,
}

// The numbers and the registers of a FADT: the field in Rust, its type, and its name in the standard.
macro_rules! fields {
    ($($number:ident $type:ty, $name:literal;)* ; $($register:ident $address:literal;)*) => {
        /// The fields of a FADT. All but the version of the table are zero at first.
        #[derive(Clone, Copy, Debug, Default, PartialEq, Eq)]
        pub struct FADTBuilder {
            pub major_version: u8,
            pub oem_id: [u8; 6],
            pub oem_table_id: [u8; 8],
            pub oem_revision: u32,
            $(pub $number: $type,)*
            $(pub $register: GAS,)*
        }

        impl FADTBuilder {
            /// The table of these fields.
            pub fn finalize(self) -> FADT {
                let mut table = begin(
                    "FACP",
                    self.major_version,
                    self.oem_id,
                    self.oem_table_id,
                    self.oem_revision,
                );
                $(table.set_number(0, $name, self.$number.into());)*
                $(table.set_register(0, $address, &self.$register);)*
                FADT { table }
            }
        }
    };
}

fields! {
    firmware_ctrl u32, "FIRMWARE_CTRL";
    dsdt u32, "DSDT";
    preferred_pm_profile u8, "Preferred_PM_Profile";
    sci_int u16, "SCI_INT";
    smi_cmd u32, "SMI_CMD";
    acpi_enable u8, "ACPI_ENABLE";
    acpi_disable u8, "ACPI_DISABLE";
    s4bios_req u8, "S4BIOS_REQ";
    pstate_cnt u8, "PSTATE_CNT";
    pm1a_evt_blk u32, "PM1a_EVT_BLK";
    pm1b_evt_blk u32, "PM1b_EVT_BLK";
    pm1a_cnt_blk u32, "PM1a_CNT_BLK";
    pm1b_cnt_blk u32, "PM1b_CNT_BLK";
    pm2_cnt_blk u32, "PM2_CNT_BLK";
    pm_tmr_blk u32, "PM_TMR_BLK";
    gpe0_blk u32, "GPE0_BLK";
    gpe1_blk u32, "GPE1_BLK";
    pm1_evt_len u8, "PM1_EVT_LEN";
    pm1_cnt_len u8, "PM1_CNT_LEN";
    pm2_cnt_len u8, "PM2_CNT_LEN";
    pm_tmr_len u8, "PM_TMR_LEN";
    gpe0_blk_len u8, "GPE0_BLK_LEN";
    gpe1_blk_len u8, "GPE1_BLK_LEN";
    gpe1_base u8, "GPE1_BASE";
    cst_cnt u8, "CST_CNT";
    p_lvl2_lat u16, "P_LVL2_LAT";
    p_lvl3_lat u16, "P_LVL3_LAT";
    flush_size u16, "FLUSH_SIZE";
    flush_stride u16, "FLUSH_STRIDE";
    duty_offset u8, "DUTY_OFFSET";
    duty_width u8, "DUTY_WIDTH";
    day_alrm u8, "DAY_ALRM";
    mon_alrm u8, "MON_ALRM";
    century u8, "CENTURY";
    iapc_boot_arch u16, "IAPC_BOOT_ARCH";
    flags u32, "Flags";
    reset_value u8, "RESET_VALUE";
    arm_boot_arch u16, "ARM_BOOT_ARCH";
    fadt_minor_version u8, "FADT Minor Version";
    x_firmware_ctrl u64, "X_FIRMWARE_CTRL";
    x_dsdt u64, "X_DSDT";
    hypervisor_vendor_identity u64, "Hypervisor Vendor Identity";
    ;
    reset_reg "RESET_REG";
    x_pm1a_evt_blk "X_PM1a_EVT_BLK";
    x_pm1b_evt_blk "X_PM1b_EVT_BLK";
    x_pm1a_cnt_blk "X_PM1a_CNT_BLK";
    x_pm1b_cnt_blk "X_PM1b_CNT_BLK";
    x_pm2_cnt_blk "X_PM2_CNT_BLK";
    x_pm_tmr_blk "X_PM_TMR_BLK";
    x_gpe0_blk "X_GPE0_BLK";
    x_gpe1_blk "X_GPE1_BLK";
    sleep_control_reg "SLEEP_CONTROL_REG";
    sleep_status_reg "SLEEP_STATUS_REG";
}

table!(/** FADT: the fixed hardware. */ FADT);

impl FADT {
    /// How many bytes it has.
    pub const fn len() -> usize {
        276
    }
}

impl FADTBuilder {
    /// The fields of a table of version 6.5.
    pub fn new(oem_id: [u8; 6], oem_table_id: [u8; 8], oem_revision: u32) -> Self {
        FADTBuilder {
            major_version: 6,
            fadt_minor_version: 5,
            oem_id,
            oem_table_id,
            oem_revision,
            ..Default::default()
        }
    }

    /// Sets the DSDT's address of 32 bits. The one of 64 bits becomes zero.
    pub fn dsdt_32(mut self, dsdt_physical_addr: u32) -> Self {
        (self.dsdt, self.x_dsdt) = (dsdt_physical_addr, 0);
        self
    }

    /// Sets the DSDT's address of 64 bits. The one of 32 bits becomes zero.
    pub fn dsdt_64(mut self, dsdt_physical_addr: u64) -> Self {
        (self.dsdt, self.x_dsdt) = (0, dsdt_physical_addr);
        self
    }

    /// Sets the FACS's address of 32 bits. The one of 64 bits becomes zero.
    pub fn firmware_ctrl_32(mut self, facs_physical_addr: u32) -> Self {
        (self.firmware_ctrl, self.x_firmware_ctrl) = (facs_physical_addr, 0);
        self
    }

    /// Sets the FACS's address of 64 bits. The one of 32 bits becomes zero.
    pub fn firmware_ctrl_64(mut self, facs_physical_addr: u64) -> Self {
        (self.firmware_ctrl, self.x_firmware_ctrl) = (0, facs_physical_addr);
        self
    }

    /// The command that turns ACPI on is 1, and the one that turns it off 0.
    pub fn acpi_enable(mut self) -> Self {
        (self.acpi_enable, self.acpi_disable) = (1, 0);
        self
    }

    /// The command that turns ACPI on is 0, and the one that turns it off 1.
    pub fn acpi_disable(mut self) -> Self {
        (self.acpi_enable, self.acpi_disable) = (0, 1);
        self
    }

    /// Sets a flag.
    pub fn flag(mut self, flags: Flags) -> Self {
        self.flags |= flags as u32;
        self
    }

    /// Sets the general-purpose event registers.
    pub fn gpe_info(
        mut self,
        gpe0_blk: u32,
        gpe1_blk: u32,
        gpe0_blk_len: u8,
        gpe1_blk_len: u8,
        gpe1_base: u8,
    ) -> Self {
        (self.gpe0_blk, self.gpe1_blk) = (gpe0_blk, gpe1_blk);
        (self.gpe0_blk_len, self.gpe1_blk_len) = (gpe0_blk_len, gpe1_blk_len);
        self.gpe1_base = gpe1_base;
        self
    }

    /// Sets what kind of machine it is.
    pub fn preferred_pm_profile(mut self, profile: PmProfile) -> Self {
        self.preferred_pm_profile = profile as u8;
        self
    }
}
