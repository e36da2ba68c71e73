//! A writer of AML and of tables.

use crate::Error;
use crate::gas::GAS;
use crate::object::bytes_of;
use hyssop_acpi_sys as sys;
use std::cell::Cell;
use std::ffi::{CString, c_char};
use sys::fault;

/// How a range of memory may be cached (ACPI 6.5, 6.4.3.5.5).
#[repr(u32)]
#[derive(Clone, Copy, Debug, PartialEq, Eq)]
pub enum MemoryType {
    NotCacheable = 0,
    Cacheable = 1,
    WriteCombining = 2,
    Prefetchable = 3,
}

/// The address spaces of regions (ACPI 6.5, 20.2.5.2, RegionSpace).
#[repr(u8)]
#[derive(Clone, Copy, Debug, PartialEq, Eq)]
pub enum RegionSpace {
    SystemMemory = 0,
    SystemIo = 1,
    PciConfig = 2,
    EmbeddedControl = 3,
    SmBus = 4,
    SystemCmos = 5,
    PciBarTarget = 6,
    Ipmi = 7,
    GeneralPurposeIo = 8,
    GenericSerialBus = 9,
    Pcc = 10,
    PlatformRtMechanism = 11,
}

/// The width of the accesses to a field (ACPI 6.5, 20.2.5.2, AccessType).
#[repr(u32)]
#[derive(Clone, Copy, Debug, PartialEq, Eq)]
pub enum Access {
    Any = 0,
    Byte = 1,
    Word = 2,
    DWord = 3,
    QWord = 4,
    Buffer = 5,
}

/// What an access to a field writes to the bits that don't belong to it (ACPI 6.5, 20.2.5.2, UpdateRule).
#[repr(u32)]
#[derive(Clone, Copy, Debug, PartialEq, Eq)]
pub enum Update {
    Preserve = 0,
    WriteAsOnes = 1,
    WriteAsZeroes = 2,
}

/// The operators (ACPI 6.5, 20.2.5), by their names in ASL, but for `DataRegion`, which is DataTableRegion there. The number is
/// the opcode (20.3). A MatchOpcode of `Match` is a byte, which `bytes` writes.
#[repr(u32)]
#[derive(Clone, Copy, Debug, PartialEq, Eq)]
pub enum Op {
    LNot = 0x92,
    LEqual = 0x93,
    LLess = 0x95,
    LGreater = 0x94,
    LAnd = 0x90,
    LOr = 0x91,
    Increment = 0x75,
    Decrement = 0x76,
    Break = 0xa5,
    ObjectType = 0x8e,
    SizeOf = 0x87,
    Return = 0xa4,
    DerefOf = 0x83,
    Add = 0x72,
    Concatenate = 0x73,
    Subtract = 0x74,
    Multiply = 0x77,
    ShiftLeft = 0x79,
    ShiftRight = 0x7a,
    And = 0x7b,
    Nand = 0x7c,
    Or = 0x7d,
    Nor = 0x7e,
    Xor = 0x7f,
    ConcatenateResTemplate = 0x84,
    Mod = 0x85,
    Index = 0x88,
    ToString = 0x9c,
    CreateDWordField = 0x8a,
    CreateQWordField = 0x8f,
    ToBuffer = 0x96,
    ToInteger = 0x99,
    Store = 0x70,
    Notify = 0x86,
    Mid = 0x9e,
    Alias = 0x06,
    RefOf = 0x71,
    Divide = 0x78,
    Not = 0x80,
    FindSetLeftBit = 0x81,
    FindSetRightBit = 0x82,
    Match = 0x89,
    CreateWordField = 0x8b,
    CreateByteField = 0x8c,
    CreateBitField = 0x8d,
    ToDecimalString = 0x97,
    ToHexString = 0x98,
    CopyObject = 0x9d,
    Continue = 0x9f,
    Noop = 0xa3,
    BreakPoint = 0xcc,
    CreateField = 0x5b13,
    Event = 0x5b02,
    CondRefOf = 0x5b12,
    LoadTable = 0x5b1f,
    Load = 0x5b20,
    Stall = 0x5b21,
    Sleep = 0x5b22,
    Signal = 0x5b24,
    Wait = 0x5b25,
    Reset = 0x5b26,
    FromBCD = 0x5b28,
    ToBCD = 0x5b29,
    Unload = 0x5b2a,
    Revision = 0x5b30,
    Debug = 0x5b31,
    Timer = 0x5b33,
    DataRegion = 0x5b88,
    /// Of an object that isn't a name, which the timeout follows as two bytes.
    Acquire = 0x5b23,
    /// Of an object that isn't a name.
    Release = 0x5b27,
}

/// A writer of AML (ACPI 6.5, 20), or of a table. Its bytes grow as far as they have to. No call returns a `Result`: the writer
/// keeps its first error, later calls do nothing, and `finish` returns it. A call that opens an object takes what is written
/// inside of it, so each object is closed. A text with a zero inside is the fault `TEXT`, whose words speak of another cause.
#[derive(Clone, Debug)]
pub struct Writer {
    bytes: Vec<u8>,
    state: sys::State,
    is_table: bool,
}

impl Default for Writer {
    fn default() -> Writer {
        Writer::new()
    }
}

impl Writer {
    /// A writer of terms of AML.
    pub fn new() -> Writer {
        Writer {
            bytes: Vec::new(),
            state: sys::State::default(),
            is_table: false,
        }
    }

    /// A writer that begins with the header of a table (ACPI 6.5, 5.2.6). The signature has 4 bytes, the OEM ID 6 and the OEM
    /// Table ID 8.
    pub fn table(
        signature: &str,
        revision: u8,
        oem_id: &str,
        oem_table_id: &str,
        oem_revision: u32,
    ) -> Writer {
        let mut writer = Writer::new();
        writer.is_table = true;
        writer.with_text(signature, |writer, signature| {
            writer.with_text(oem_id, |writer, oem_id| {
                writer.with_text(oem_table_id, |writer, oem_table_id| {
                    writer.call(|inner| unsafe {
                        sys::hyssop_table(
                            inner,
                            signature,
                            revision,
                            oem_id,
                            oem_table_id,
                            oem_revision,
                        )
                    });
                });
            });
        });
        writer
    }

    // How many bytes are written.
    pub(crate) fn len(&self) -> usize {
        self.state.size
    }

    // Makes a call, and makes it again with a larger buffer as long as there isn't space.
    fn call(&mut self, call: impl Fn(*mut sys::Writer) -> u32) -> &mut Writer {
        loop {
            let mut inner = sys::Writer {
                bytes: self.bytes.as_mut_ptr(),
                bytes_size: self.bytes.len(),
                state: self.state,
            };
            let number = call(&mut inner);
            if number != fault::BUFFER {
                self.state = inner.state;
                return self;
            }
            let size = (2 * self.bytes.len()).max(256);
            self.bytes.resize(size, 0);
        }
    }

    // Makes a call with a text that ends with a zero. A text with a zero inside is the fault `TEXT`.
    fn with_text(
        &mut self,
        text: &str,
        call: impl FnOnce(&mut Writer, *const c_char),
    ) -> &mut Writer {
        match CString::new(text) {
            Ok(text) => call(self, text.as_ptr()),
            Err(_) if self.state.fault == sys::FINE => self.state.fault = fault::TEXT,
            Err(_) => {}
        }
        self
    }

    // Opens an object, has its content written, and closes it.
    fn opened(&mut self, inside: impl FnOnce(&mut Writer)) -> &mut Writer {
        inside(self);
        self.call(|inner| unsafe { sys::hyssop_close(inner) })
    }

    /// A scope: objects below a name (ACPI 6.5, 20.2.5.1, DefScope).
    pub fn scope(&mut self, path: &str, inside: impl FnOnce(&mut Writer)) -> &mut Writer {
        self.with_text(path, |writer, path| {
            writer.call(|inner| unsafe { sys::hyssop_open_scope(inner, path) });
        });
        self.opened(inside)
    }

    /// A device (ACPI 6.5, 20.2.5.2, DefDevice).
    pub fn device(&mut self, path: &str, inside: impl FnOnce(&mut Writer)) -> &mut Writer {
        self.with_text(path, |writer, path| {
            writer.call(|inner| unsafe { sys::hyssop_open_device(inner, path) });
        });
        self.opened(inside)
    }

    /// A thermal zone (ACPI 6.5, 20.2.5.2, DefThermalZone).
    pub fn thermal_zone(&mut self, path: &str, inside: impl FnOnce(&mut Writer)) -> &mut Writer {
        self.with_text(path, |writer, path| {
            writer.call(|inner| unsafe { sys::hyssop_open_thermal_zone(inner, path) });
        });
        self.opened(inside)
    }

    /// A power resource (ACPI 6.5, 20.2.5.2, DefPowerRes), with the deepest sleep level in which it stays on, and its place in
    /// their order.
    pub fn power_resource(
        &mut self,
        path: &str,
        level: u8,
        order: u16,
        inside: impl FnOnce(&mut Writer),
    ) -> &mut Writer {
        self.with_text(path, |writer, path| {
            writer.call(|inner| unsafe {
                sys::hyssop_open_power_resource(inner, path, level, order)
            });
        });
        self.opened(inside)
    }

    /// A processor (ACPI 6.5, 20.2.5.2, DefProcessor): its id in the MADT, and the address and the length of its register block.
    /// The standard has a device with the id ACPI0007 in place of it.
    pub fn processor(
        &mut self,
        path: &str,
        id: u8,
        address: u32,
        size: u8,
        inside: impl FnOnce(&mut Writer),
    ) -> &mut Writer {
        self.with_text(path, |writer, path| {
            writer.call(|inner| unsafe {
                sys::hyssop_open_processor(inner, path, id, address, size)
            });
        });
        self.opened(inside)
    }

    /// A method of 0 to 7 arguments (ACPI 6.5, 20.2.5.2, DefMethod).
    pub fn method(
        &mut self,
        path: &str,
        arguments: u8,
        serialized: bool,
        inside: impl FnOnce(&mut Writer),
    ) -> &mut Writer {
        self.with_text(path, |writer, path| {
            writer.call(|inner| unsafe {
                sys::hyssop_open_method(inner, path, arguments, serialized.into())
            });
        });
        self.opened(inside)
    }

    /// A package, in which at most this many elements are written (ACPI 6.5, 20.2.5.4, DefPackage).
    pub fn package(&mut self, elements: u8, inside: impl FnOnce(&mut Writer)) -> &mut Writer {
        self.call(|inner| unsafe { sys::hyssop_open_package(inner, elements) });
        self.opened(inside)
    }

    /// A package whose number of elements is the first object, before the elements (ACPI 6.5, 20.2.5.4, DefVarPackage).
    pub fn var_package(&mut self, inside: impl FnOnce(&mut Writer)) -> &mut Writer {
        self.call(|inner| unsafe { sys::hyssop_open_var_package(inner) });
        self.opened(inside)
    }

    /// Statements after a predicate, which is the first object (ACPI 6.5, 20.2.5.3, DefIfElse).
    pub fn if_true(&mut self, inside: impl FnOnce(&mut Writer)) -> &mut Writer {
        self.call(|inner| unsafe { sys::hyssop_open_if(inner) });
        self.opened(inside)
    }

    /// The statements for the other case, after those of `if_true` (ACPI 6.5, 20.2.5.3, DefElse).
    pub fn otherwise(&mut self, inside: impl FnOnce(&mut Writer)) -> &mut Writer {
        self.call(|inner| unsafe { sys::hyssop_open_else(inner) });
        self.opened(inside)
    }

    /// A loop, whose predicate is the first object (ACPI 6.5, 20.2.5.3, DefWhile).
    pub fn while_true(&mut self, inside: impl FnOnce(&mut Writer)) -> &mut Writer {
        self.call(|inner| unsafe { sys::hyssop_open_while(inner) });
        self.opened(inside)
    }

    /// A buffer, whose bytes are written inside (ACPI 6.5, 20.2.5.4, DefBuffer).
    pub fn buffer(&mut self, inside: impl FnOnce(&mut Writer)) -> &mut Writer {
        self.call(|inner| unsafe { sys::hyssop_open_buffer(inner) });
        self.opened(inside)
    }

    /// A buffer whose size is the first object, before its bytes (ACPI 6.5, 20.2.5.4, DefBuffer).
    pub fn sized_buffer(&mut self, inside: impl FnOnce(&mut Writer)) -> &mut Writer {
        self.call(|inner| unsafe { sys::hyssop_open_sized_buffer(inner) });
        self.opened(inside)
    }

    /// A buffer of resource descriptors, which are written inside (ACPI 6.5, 6.4). It gets the end tag.
    pub fn resources(&mut self, inside: impl FnOnce(&mut Writer)) -> &mut Writer {
        self.call(|inner| unsafe { sys::hyssop_open_resources(inner) });
        self.opened(inside)
    }

    /// A field of a region, whose units and gaps are written inside (ACPI 6.5, 20.2.5.2, DefField). `lock` says whether an access
    /// takes the global lock.
    pub fn field(
        &mut self,
        region: &str,
        access: Access,
        lock: bool,
        update: Update,
        inside: impl FnOnce(&mut Writer),
    ) -> &mut Writer {
        self.with_text(region, |writer, region| {
            writer.call(|inner| unsafe {
                sys::hyssop_open_field(inner, region, access as u32, lock.into(), update as u32)
            });
        });
        self.opened(inside)
    }

    /// A field that is reached by an index (ACPI 6.5, 20.2.5.2, DefIndexField): the field to which an index is written, and that
    /// of the data. All else is as for `field`.
    pub fn index_field(
        &mut self,
        index: &str,
        data: &str,
        access: Access,
        lock: bool,
        update: Update,
        inside: impl FnOnce(&mut Writer),
    ) -> &mut Writer {
        self.with_text(index, |writer, index| {
            writer.with_text(data, |writer, data| {
                writer.call(|inner| unsafe {
                    sys::hyssop_open_index_field(
                        inner,
                        index,
                        data,
                        access as u32,
                        lock.into(),
                        update as u32,
                    )
                });
            });
        });
        self.opened(inside)
    }

    /// A name of four characters for the next bits of a field (ACPI 6.5, 20.2.5.2, NamedField).
    pub fn unit(&mut self, name: &str, bits: u32) -> &mut Writer {
        self.with_text(name, |writer, name| {
            writer.call(|inner| unsafe { sys::hyssop_field_unit(inner, name, bits) });
        })
    }

    /// Leaves out the next bits of a field (ACPI 6.5, 20.2.5.2, ReservedField).
    pub fn gap(&mut self, bits: u32) -> &mut Writer {
        self.call(|inner| unsafe { sys::hyssop_field_gap(inner, bits) })
    }

    /// The beginning of a region (ACPI 6.5, 20.2.5.2, DefOpRegion). Its offset and its length in bytes follow, which are two
    /// numbers or other terms.
    pub fn region(&mut self, path: &str, space: RegionSpace) -> &mut Writer {
        self.with_text(path, |writer, path| {
            writer.call(|inner| unsafe { sys::hyssop_region(inner, path, space as u8) });
        })
    }

    /// A mutex, with its sync level from 0 to 15 (ACPI 6.5, 20.2.5.2, DefMutex).
    pub fn mutex(&mut self, path: &str, sync_level: u8) -> &mut Writer {
        self.with_text(path, |writer, path| {
            writer.call(|inner| unsafe { sys::hyssop_mutex(inner, path, sync_level) });
        })
    }

    /// Acquires a mutex, within so many milliseconds; 0xffff has no limit (ACPI 6.5, 20.2.5.4, DefAcquire).
    pub fn acquire(&mut self, mutex: &str, timeout: u16) -> &mut Writer {
        self.with_text(mutex, |writer, mutex| {
            writer.call(|inner| unsafe { sys::hyssop_acquire(inner, mutex, timeout) });
        })
    }

    /// Releases a mutex (ACPI 6.5, 20.2.5.3, DefRelease).
    pub fn release(&mut self, mutex: &str) -> &mut Writer {
        self.with_text(mutex, |writer, mutex| {
            writer.call(|inner| unsafe { sys::hyssop_release(inner, mutex) });
        })
    }

    /// An event (ACPI 6.5, 20.2.5.2, DefEvent).
    pub fn event(&mut self, path: &str) -> &mut Writer {
        self.with_text(path, |writer, path| {
            writer.call(|inner| unsafe { sys::hyssop_event(inner, path) });
        })
    }

    /// A second name for the object `source` (ACPI 6.5, 20.2.5.1, DefAlias).
    pub fn alias(&mut self, source: &str, name: &str) -> &mut Writer {
        self.with_text(source, |writer, source| {
            writer.with_text(name, |writer, name| {
                writer.call(|inner| unsafe { sys::hyssop_alias(inner, source, name) });
            });
        })
    }

    /// Declares an object of another block (ACPI 6.5, 20.2.5.2, DefExternal): its type (19.6.45), and how many arguments it has
    /// as a method.
    pub fn external(&mut self, path: &str, kind: u8, arguments: u8) -> &mut Writer {
        self.with_text(path, |writer, path| {
            writer.call(|inner| unsafe { sys::hyssop_external(inner, path, kind, arguments) });
        })
    }

    /// A name for the object that follows (ACPI 6.5, 20.2.5.1, DefName).
    pub fn name(&mut self, path: &str) -> &mut Writer {
        self.with_text(path, |writer, path| {
            writer.call(|inner| unsafe { sys::hyssop_name(inner, path) });
        })
    }

    /// A name: an operand, or a call of a method, whose arguments follow (ACPI 6.5, 20.2.2, NameString).
    pub fn path(&mut self, path: &str) -> &mut Writer {
        self.with_text(path, |writer, path| {
            writer.call(|inner| unsafe { sys::hyssop_path(inner, path) });
        })
    }

    /// A number in its shortest form (ACPI 6.5, 20.2.3).
    pub fn integer(&mut self, value: u64) -> &mut Writer {
        self.call(|inner| unsafe { sys::hyssop_integer(inner, value) })
    }

    /// A string of ASCII (ACPI 6.5, 20.2.3).
    pub fn string(&mut self, text: &str) -> &mut Writer {
        self.with_text(text, |writer, text| {
            writer.call(|inner| unsafe { sys::hyssop_string(inner, text) });
        })
    }

    /// An EISA id, such as "PNP0A08", as a number (ACPI 6.5, 19.3.4).
    pub fn eisa_id(&mut self, id: &str) -> &mut Writer {
        self.with_text(id, |writer, id| {
            writer.call(|inner| unsafe { sys::hyssop_eisa_id(inner, id) });
        })
    }

    /// A UUID, of 36 characters, as a buffer (ACPI 6.5, 19.6.142).
    pub fn uuid(&mut self, uuid: &str) -> &mut Writer {
        self.with_text(uuid, |writer, uuid| {
            writer.call(|inner| unsafe { sys::hyssop_uuid(inner, uuid) });
        })
    }

    /// An argument of the method, from 0 to 6 (ACPI 6.5, 20.2.6.1).
    pub fn argument(&mut self, number: u8) -> &mut Writer {
        self.call(|inner| unsafe { sys::hyssop_argument(inner, number) })
    }

    /// A local variable of the method, from 0 to 7 (ACPI 6.5, 20.2.6.2).
    pub fn local(&mut self, number: u8) -> &mut Writer {
        self.call(|inner| unsafe { sys::hyssop_local(inner, number) })
    }

    /// An operator, whose operands follow, and its target after them (ACPI 6.5, 20.2.5). The integer 0 is no target.
    pub fn operator(&mut self, op: Op) -> &mut Writer {
        self.call(|inner| unsafe { sys::hyssop_operator(inner, op as u32) })
    }

    /// Bytes as they are.
    pub fn bytes(&mut self, bytes: &[u8]) -> &mut Writer {
        self.call(|inner| unsafe { sys::hyssop_bytes(inner, bytes.as_ptr(), bytes.len()) })
    }

    /// A range of ports: its least and its greatest base, their alignment, and the number of ports (ACPI 6.5, 6.4.2.5).
    pub fn io(&mut self, min: u16, max: u16, alignment: u8, length: u8) -> &mut Writer {
        self.call(|inner| unsafe { sys::hyssop_io(inner, min, max, alignment, length) })
    }

    /// An interrupt (ACPI 6.5, 6.4.3.6).
    pub fn interrupt(
        &mut self,
        consumer: bool,
        edge_triggered: bool,
        active_low: bool,
        shared: bool,
        number: u32,
    ) -> &mut Writer {
        self.call(|inner| unsafe {
            sys::hyssop_interrupt(
                inner,
                consumer.into(),
                edge_triggered.into(),
                active_low.into(),
                shared.into(),
                number,
            )
        })
    }

    /// A range of memory at a fixed address (ACPI 6.5, 6.4.3.4).
    pub fn memory32_fixed(&mut self, read_write: bool, base: u32, length: u32) -> &mut Writer {
        self.call(|inner| unsafe {
            sys::hyssop_memory32_fixed(inner, read_write.into(), base, length)
        })
    }

    /// A range of bus numbers, from its first to its last (ACPI 6.5, 6.4.3.5).
    pub fn bus_numbers(&mut self, min: u16, max: u16) -> &mut Writer {
        self.call(|inner| unsafe { sys::hyssop_bus_numbers(inner, min, max) })
    }

    /// A range of bus numbers of 32 bits, as `bus_numbers`.
    pub fn bus_numbers32(&mut self, min: u32, max: u32) -> &mut Writer {
        self.call(|inner| unsafe { sys::hyssop_bus_numbers32(inner, min, max) })
    }

    /// A range of bus numbers of 64 bits, as `bus_numbers`.
    pub fn bus_numbers64(&mut self, min: u64, max: u64) -> &mut Writer {
        self.call(|inner| unsafe { sys::hyssop_bus_numbers64(inner, min, max) })
    }

    /// A register (ACPI 6.5, 6.4.3.7).
    pub fn register(&mut self, register: &GAS) -> &mut Writer {
        self.call(|inner| unsafe {
            sys::hyssop_register(
                inner,
                register.address_space_id as u8,
                register.register_bit_width,
                register.register_bit_offset,
                register.access_size as u8,
                register.address,
            )
        })
    }

    /// A range of ports, from its first to its last, and what a bridge adds to them (ACPI 6.5, 6.4.3.5).
    pub fn io_range(&mut self, min: u16, max: u16, translation: u16) -> &mut Writer {
        self.call(|inner| unsafe { sys::hyssop_io_range(inner, min, max, translation) })
    }

    /// A range of ports as `io_range`, with a translation of 32 bits, as for ports that are in memory.
    pub fn io_range32(&mut self, min: u32, max: u32, translation: u32) -> &mut Writer {
        self.call(|inner| unsafe { sys::hyssop_io_range32(inner, min, max, translation) })
    }

    /// A range of ports with 64 bits, as `io_range`.
    pub fn io_range64(&mut self, min: u64, max: u64, translation: u64) -> &mut Writer {
        self.call(|inner| unsafe { sys::hyssop_io_range64(inner, min, max, translation) })
    }

    /// A range of memory with addresses of 16 bits, as `memory_range32`.
    pub fn memory_range16(
        &mut self,
        memory_type: MemoryType,
        read_write: bool,
        min: u16,
        max: u16,
        translation: u16,
    ) -> &mut Writer {
        self.call(|inner| unsafe {
            sys::hyssop_memory_range16(
                inner,
                memory_type as u32,
                read_write.into(),
                min,
                max,
                translation,
            )
        })
    }

    /// A range of memory below 2^32: how it is cached, its first and its last address, and what a bridge adds to them (ACPI 6.5,
    /// 6.4.3.5).
    pub fn memory_range32(
        &mut self,
        memory_type: MemoryType,
        read_write: bool,
        min: u32,
        max: u32,
        translation: u32,
    ) -> &mut Writer {
        self.call(|inner| unsafe {
            sys::hyssop_memory_range32(
                inner,
                memory_type as u32,
                read_write.into(),
                min,
                max,
                translation,
            )
        })
    }

    /// A range of memory with addresses of 64 bits, as `memory_range32`.
    pub fn memory_range64(
        &mut self,
        memory_type: MemoryType,
        read_write: bool,
        min: u64,
        max: u64,
        translation: u64,
    ) -> &mut Writer {
        self.call(|inner| unsafe {
            sys::hyssop_memory_range64(
                inner,
                memory_type as u32,
                read_write.into(),
                min,
                max,
                translation,
            )
        })
    }

    /// Adds the fields of the table that aren't written yet, up to its first list or its first structure. All are zero.
    pub fn add_fields(&mut self) -> &mut Writer {
        self.call(|inner| unsafe { sys::hyssop_add_fields(inner) })
    }

    /// Adds a structure of a type to the table, after the fields of the table, and returns its offset, or 0 with an error. All
    /// its fields up to its first list are zero, but its type and its length. The table gets the number of its structures and the
    /// offset of the first, if it has fields for them. A table whose structures have no types takes the type 0.
    pub fn add_structure(&mut self, kind: u32) -> usize {
        let offset = Cell::new(0);
        self.call(|inner| unsafe { sys::hyssop_add_structure(inner, kind, offset.as_ptr()) });
        offset.get()
    }

    /// Adds a structure as its bytes to the table, after the fields of the table, and returns its offset, or 0 with an error.
    /// They are as many as their length field or their type says. All else is as for `add_structure`.
    pub fn add_structure_bytes(&mut self, bytes: &[u8]) -> usize {
        let offset = Cell::new(0);
        self.call(|inner| unsafe {
            sys::hyssop_add_structure_bytes(inner, bytes.as_ptr(), bytes.len(), offset.as_ptr())
        });
        offset.get()
    }

    /// Ends the structure at an offset, to which bytes were added: its length is the number of the bytes from there on.
    pub fn end_structure(&mut self, offset: usize) -> &mut Writer {
        self.call(|inner| unsafe { sys::hyssop_end_structure(inner, offset) })
    }

    /// Sets a field to a number: the first with this name of the structure at an offset, or of the table itself at 0.
    /// `docs/FIELDS.md` has the names. Fields in a list, and those after the first list, aren't sought.
    pub fn set_number(&mut self, offset: usize, name: &str, value: u64) -> &mut Writer {
        self.with_text(name, |writer, name| {
            writer.call(|inner| unsafe { sys::hyssop_set_number(inner, offset, name, value) });
        })
    }

    /// Sets such a field to bytes, of which it takes as many as it has.
    pub fn set_bytes(&mut self, offset: usize, name: &str, bytes: &[u8]) -> &mut Writer {
        self.with_text(name, |writer, name| {
            writer.call(|inner| unsafe {
                sys::hyssop_set_bytes(inner, offset, name, bytes.as_ptr(), bytes.len())
            });
        })
    }

    /// Sets such a field to the address of a register.
    pub fn set_register(&mut self, offset: usize, name: &str, register: &GAS) -> &mut Writer {
        self.set_bytes(offset, name, &bytes_of(register))
    }

    /// Writes bytes over those that are written at an offset.
    pub fn overwrite(&mut self, offset: usize, bytes: &[u8]) -> &mut Writer {
        self.call(|inner| unsafe {
            sys::hyssop_overwrite(inner, offset, bytes.as_ptr(), bytes.len())
        })
    }

    /// A number of `width` bytes, at most 8, lowest byte first.
    pub fn add_number(&mut self, width: usize, value: u64) -> &mut Writer {
        self.call(|inner| unsafe { sys::hyssop_add_number(inner, width, value) })
    }

    /// The bytes that are written, or the first error, whose place is how many bytes were written before it. A table gets its
    /// length and its checksum.
    pub fn finish(mut self) -> Result<Vec<u8>, Error> {
        let (mut size, mut place) = (0, 0);
        let mut inner = sys::Writer {
            bytes: self.bytes.as_mut_ptr(),
            bytes_size: self.bytes.len(),
            state: self.state,
        };
        let number = if self.is_table {
            unsafe { sys::hyssop_finish_table(&mut inner, &mut size, &mut place) }
        } else {
            unsafe { sys::hyssop_finish(&inner, &mut size, &mut place) }
        };
        Error::of(number, place)?;
        self.bytes.truncate(size);
        Ok(self.bytes)
    }
}
