//! Declarations of `libhyssop.a` for Rust, of every edition from Rust 1.82 on. `include/hyssop.h` says what each function does,
//! and what its caller owes.
#![allow(dead_code)]

use std::ffi::{c_char, c_int};

/// `hyssop_version()` returns this, if the library fits these declarations.
pub const VERSION: u32 = 9;

/// The type of a structure, if the structures of its table have none.
pub const NO_KIND: usize = usize::MAX;

/// The result of a call that found no fault.
pub const FINE: u32 = 0;

/// The numbers of faults.
pub mod fault {
    pub const MEMORY: u32 = 1;
    pub const BUFFER: u32 = 2;
    pub const UNKNOWN_NUMBER: u32 = 3;
    pub const ARITIES: u32 = 4;
    pub const SIGNATURE: u32 = 5;
    pub const NULL: u32 = 6;
    pub const SHORT_HEADER: u32 = 16;
    pub const TABLE_LENGTH: u32 = 17;
    pub const SUM: u32 = 18;
    pub const STRUCTURE: u32 = 19;
    pub const COUNT: u32 = 20;
    pub const UNKNOWN_SOURCE: u32 = 21;
    pub const NO_BLOCK: u32 = 22;
    pub const FURTHER_BLOCK: u32 = 23;
    pub const TRUNCATED: u32 = 32;
    pub const OPCODE: u32 = 33;
    pub const PKG_LENGTH: u32 = 34;
    pub const NUMBER: u32 = 35;
    pub const FLAGS: u32 = 36;
    pub const TEXT: u32 = 37;
    pub const TOO_DEEP: u32 = 38;
    pub const IMAGE_OUTSIDE: u32 = 48;
    pub const IMAGE_SIGNATURE: u32 = 49;
    pub const IMAGE_LENGTH: u32 = 50;
    pub const IMAGE_REVISION: u32 = 51;
    pub const IMAGE_SUM: u32 = 52;
    pub const IMAGE_ENTRIES: u32 = 53;
    pub const IMAGE_NO_FADT: u32 = 54;
    pub const IMAGE_SECOND_FADT: u32 = 55;
    pub const IMAGE_OVERLAP: u32 = 56;
    pub const LAY_BASE: u32 = 57;
    pub const LAY_SECOND: u32 = 58;
    pub const LAY_NO_FADT: u32 = 59;
    pub const LAY_NO_DSDT: u32 = 60;
    pub const LAY_NO_FACS: u32 = 61;
    pub const LAY_SHORT_FADT: u32 = 62;
    pub const LAY_NO_SPACE: u32 = 63;
    pub const NO_POINTER: u32 = 64;
    pub const WANTS_PRINTING: u32 = 65;
    pub const WANTS_SPACE: u32 = 66;
    pub const WANTS_VALUE: u32 = 67;
    pub const WANTS_DIGIT: u32 = 68;
    pub const WANTS_SECOND_DIGIT: u32 = 69;
    pub const WANTS_QUOTATION_MARK: u32 = 70;
    pub const WANTS_QUESTION_MARK: u32 = 71;
    pub const WANTS_SLASH: u32 = 72;
    pub const WANTS_BRACE: u32 = 73;
    pub const WANTS_FIELD: u32 = 74;
    pub const WANTS_NAME: u32 = 75;
    pub const WANTS_NUMBER: u32 = 76;
    pub const WANTS_LABEL: u32 = 77;
    pub const WANTS_BYTES: u32 = 78;
    pub const WANTS_NEXT: u32 = 79;
    pub const WANTS_NAMELESS: u32 = 80;
    pub const WANTS_END: u32 = 81;
    pub const WANTS_STRUCTURE: u32 = 82;
    pub const WANTS_WIDTH: u32 = 83;
    pub const WANTS_WHOLE: u32 = 84;
    pub const WANTS_ONE_TABLE: u32 = 85;
    pub const WANTS_TABLE: u32 = 86;
    pub const WANTS_FIELD_OF: u32 = 87;
    pub const WANTS_ANOTHER_NUMBER: u32 = 88;
    pub const NOT_ASL: u32 = 89;
    pub const WANTS_INDENTED: u32 = 90;
    pub const WANTS_GROUPS: u32 = 91;
    pub const NAME_PART: u32 = 96;
    pub const PATH_PARTS: u32 = 97;
    pub const EISA_TEXT: u32 = 98;
    pub const UUID_TEXT: u32 = 99;
    pub const ARG_NUMBER: u32 = 100;
    pub const LOCAL_NUMBER: u32 = 101;
    pub const METHOD_ARGS: u32 = 102;
    pub const OBJECT_LENGTH: u32 = 103;
    pub const ADDRESS_RANGE: u32 = 104;
    pub const UNKNOWN_CHOICE: u32 = 105;
    pub const OEM_TEXT: u32 = 106;
    pub const NONE_OPEN: u32 = 107;
    pub const STILL_OPEN: u32 = 108;
    pub const TOO_MANY_OPEN: u32 = 109;
    pub const WRITER_STATE: u32 = 110;
    pub const NOT_EMPTY: u32 = 111;
    pub const OUTSIDE: u32 = 112;
}

/// The types of memory of address space descriptors (ACPI 6.5, 6.4.3.5).
pub mod memory {
    pub const NOT_CACHEABLE: u32 = 0;
    pub const CACHEABLE: u32 = 1;
    pub const WRITE_COMBINING: u32 = 2;
    pub const PREFETCHABLE: u32 = 3;
}

/// The address spaces of regions and registers (ACPI 6.5, 20.2.5.2, RegionSpace). Other numbers are allowed, too.
pub mod space {
    pub const SYSTEM_MEMORY: u8 = 0;
    pub const SYSTEM_IO: u8 = 1;
    pub const PCI_CONFIG: u8 = 2;
    pub const EMBEDDED_CONTROL: u8 = 3;
    pub const SMBUS: u8 = 4;
    pub const SYSTEM_CMOS: u8 = 5;
    pub const PCI_BAR_TARGET: u8 = 6;
    pub const IPMI: u8 = 7;
    pub const GENERAL_PURPOSE_IO: u8 = 8;
    pub const GENERIC_SERIAL_BUS: u8 = 9;
}

/// The widths of the accesses to a field (ACPI 6.5, 20.2.5.2, AccessType).
pub mod access {
    pub const ANY: u32 = 0;
    pub const BYTE: u32 = 1;
    pub const WORD: u32 = 2;
    pub const DWORD: u32 = 3;
    pub const QWORD: u32 = 4;
    pub const BUFFER: u32 = 5;
}

/// What a write does with the other bits of an access (ACPI 6.5, 20.2.5.2, UpdateRule).
pub mod update {
    pub const PRESERVE: u32 = 0;
    pub const WRITE_AS_ONES: u32 = 1;
    pub const WRITE_AS_ZEROES: u32 = 2;
}

/// The operators (ACPI 6.5, 20.2.5), by their opcodes (20.3). `hyssop.h` says how operands follow.
pub mod op {
    pub const LNOT: u32 = 0x92;
    pub const LEQUAL: u32 = 0x93;
    pub const LLESS: u32 = 0x95;
    pub const LGREATER: u32 = 0x94;
    pub const LAND: u32 = 0x90;
    pub const LOR: u32 = 0x91;
    pub const INCREMENT: u32 = 0x75;
    pub const DECREMENT: u32 = 0x76;
    pub const BREAK: u32 = 0xa5;
    pub const OBJECTTYPE: u32 = 0x8e;
    pub const SIZEOF: u32 = 0x87;
    pub const RETURN: u32 = 0xa4;
    pub const DEREFOF: u32 = 0x83;
    pub const ADD: u32 = 0x72;
    pub const CONCAT: u32 = 0x73;
    pub const SUBTRACT: u32 = 0x74;
    pub const MULTIPLY: u32 = 0x77;
    pub const SHIFTLEFT: u32 = 0x79;
    pub const SHIFTRIGHT: u32 = 0x7a;
    pub const AND: u32 = 0x7b;
    pub const NAND: u32 = 0x7c;
    pub const OR: u32 = 0x7d;
    pub const NOR: u32 = 0x7e;
    pub const XOR: u32 = 0x7f;
    pub const CONCATRES: u32 = 0x84;
    pub const MOD: u32 = 0x85;
    pub const INDEX: u32 = 0x88;
    pub const TOSTRING: u32 = 0x9c;
    pub const CREATEDWORDFIELD: u32 = 0x8a;
    pub const CREATEQWORDFIELD: u32 = 0x8f;
    pub const TOBUFFER: u32 = 0x96;
    pub const TOINTEGER: u32 = 0x99;
    pub const STORE: u32 = 0x70;
    pub const NOTIFY: u32 = 0x86;
    pub const MID: u32 = 0x9e;
    pub const ALIAS: u32 = 0x06;
    pub const REFOF: u32 = 0x71;
    pub const DIVIDE: u32 = 0x78;
    pub const NOT: u32 = 0x80;
    pub const FINDSETLEFTBIT: u32 = 0x81;
    pub const FINDSETRIGHTBIT: u32 = 0x82;
    pub const MATCH: u32 = 0x89;
    pub const CREATEWORDFIELD: u32 = 0x8b;
    pub const CREATEBYTEFIELD: u32 = 0x8c;
    pub const CREATEBITFIELD: u32 = 0x8d;
    pub const TODECIMALSTRING: u32 = 0x97;
    pub const TOHEXSTRING: u32 = 0x98;
    pub const COPYOBJECT: u32 = 0x9d;
    pub const CONTINUE: u32 = 0x9f;
    pub const NOOP: u32 = 0xa3;
    pub const BREAKPOINT: u32 = 0xcc;
    pub const CREATEFIELD: u32 = 0x5b13;
    pub const EVENT: u32 = 0x5b02;
    pub const CONDREFOF: u32 = 0x5b12;
    pub const LOADTABLE: u32 = 0x5b1f;
    pub const LOAD: u32 = 0x5b20;
    pub const STALL: u32 = 0x5b21;
    pub const SLEEP: u32 = 0x5b22;
    pub const SIGNAL: u32 = 0x5b24;
    pub const WAIT: u32 = 0x5b25;
    pub const RESET: u32 = 0x5b26;
    pub const FROMBCD: u32 = 0x5b28;
    pub const TOBCD: u32 = 0x5b29;
    pub const UNLOAD: u32 = 0x5b2a;
    pub const REVISION: u32 = 0x5b30;
    pub const DEBUG: u32 = 0x5b31;
    pub const TIMER: u32 = 0x5b33;
    pub const DATAREGION: u32 = 0x5b88;
    pub const ACQUIRE: u32 = 0x5b23;
    pub const RELEASE: u32 = 0x5b27;
}

/// A structure of a table: its offset in the table, its type or `NO_KIND`, and the number of its bytes.
#[repr(C)]
#[derive(Clone, Copy, Debug, Default, PartialEq, Eq)]
pub struct Structure {
    pub offset: usize,
    pub kind: usize,
    pub size: usize,
}

/// A number that a text states wrongly: the offset and the width of its field in bytes, and the number that would be right.
#[repr(C)]
#[derive(Clone, Copy, Debug, Default, PartialEq, Eq)]
pub struct Note {
    pub offset: usize,
    pub width: usize,
    pub value: usize,
}

/// A table of an image: the physical address of its first byte, the number of its bytes, and its first four bytes, which are its
/// signature, and `RSD ` of an RSDP.
#[repr(C)]
#[derive(Clone, Copy, Debug, Default, PartialEq, Eq)]
pub struct ImageTable {
    pub address: u64,
    pub length: u32,
    pub signature: [u8; 4],
}

/// A range of a guest's memory: the physical address of its first byte, its bytes, which aren't NULL, and their number.
#[repr(C)]
#[derive(Clone, Copy, Debug)]
pub struct Range {
    pub address: u64,
    pub bytes: *const u8,
    pub size: usize,
}

/// How many objects of a writer may be open at a time.
pub const DEPTH: usize = 32;

/// What a writer keeps: how many bytes are written, how many objects are open, where the PkgLength of each goes, what closing it
/// adds, and the first fault, or 0. Only calls change it.
#[repr(C)]
#[derive(Clone, Copy, Debug, Default, PartialEq, Eq)]
pub struct State {
    pub size: usize,
    pub depth: usize,
    pub marks: [usize; 32],
    pub kinds: [u32; 32],
    pub fault: u32,
}

/// A writer of AML and of tables: the caller's buffer, and what is written there.
#[repr(C)]
#[derive(Clone, Copy, Debug)]
pub struct Writer {
    pub bytes: *mut u8,
    pub bytes_size: usize,
    pub state: State,
}

unsafe extern "C" {
    pub fn hyssop_version() -> u32;
    pub fn hyssop_fault_words(number: u32) -> *const c_char;
    pub fn hyssop_check_table(bytes: *const u8, bytes_size: usize, place: *mut u64) -> u32;
    pub fn hyssop_seal(bytes: *mut u8, bytes_size: usize, place: *mut u64) -> u32;
    pub fn hyssop_table_structures(
        bytes: *const u8,
        bytes_size: usize,
        out: *mut Structure,
        out_count: usize,
        count: *mut usize,
        place: *mut u64,
    ) -> u32;
    pub fn hyssop_check_aml(
        bytes: *const u8,
        bytes_size: usize,
        arities: *const u8,
        arities_size: usize,
        place: *mut u64,
    ) -> u32;
    pub fn hyssop_disassemble(
        bytes: *const u8,
        bytes_size: usize,
        arities: *const u8,
        arities_size: usize,
        out: *mut u8,
        out_size: usize,
        size: *mut usize,
        place: *mut u64,
    ) -> u32;
    pub fn hyssop_names(
        bytes: *const u8,
        bytes_size: usize,
        arities: *const u8,
        arities_size: usize,
        out: *mut u8,
        out_size: usize,
        size: *mut usize,
        place: *mut u64,
    ) -> u32;
    pub fn hyssop_disassemble_among(
        bytes: *const u8,
        bytes_size: usize,
        further: *const u8,
        further_size: usize,
        arities: *const u8,
        arities_size: usize,
        out: *mut u8,
        out_size: usize,
        size: *mut usize,
        unread: *mut usize,
        place: *mut u64,
    ) -> u32;
    pub fn hyssop_names_among(
        bytes: *const u8,
        bytes_size: usize,
        further: *const u8,
        further_size: usize,
        arities: *const u8,
        arities_size: usize,
        out: *mut u8,
        out_size: usize,
        size: *mut usize,
        unread: *mut usize,
        place: *mut u64,
    ) -> u32;
    pub fn hyssop_compile(
        text: *const u8,
        text_size: usize,
        out: *mut u8,
        out_size: usize,
        size: *mut usize,
        place: *mut u64,
    ) -> u32;
    pub fn hyssop_check_image(
        bytes: *const u8,
        bytes_size: usize,
        base: u64,
        rsdp: u64,
        place: *mut u64,
    ) -> u32;
    pub fn hyssop_image_tables(
        bytes: *const u8,
        bytes_size: usize,
        base: u64,
        rsdp: u64,
        out: *mut ImageTable,
        out_count: usize,
        count: *mut usize,
        place: *mut u64,
    ) -> u32;
    pub fn hyssop_check_memory(
        ranges: *const Range,
        ranges_count: usize,
        rsdp: u64,
        place: *mut u64,
    ) -> u32;
    pub fn hyssop_memory_tables(
        ranges: *const Range,
        ranges_count: usize,
        rsdp: u64,
        out: *mut ImageTable,
        out_count: usize,
        count: *mut usize,
        place: *mut u64,
    ) -> u32;
    pub fn hyssop_find_rsdp(bytes: *const u8, bytes_size: usize, offset: *mut usize) -> u32;
    pub fn hyssop_show(
        bytes: *const u8,
        bytes_size: usize,
        out: *mut u8,
        out_size: usize,
        size: *mut usize,
        place: *mut u64,
    ) -> u32;
    pub fn hyssop_findings(
        bytes: *const u8,
        bytes_size: usize,
        out: *mut u8,
        out_size: usize,
        size: *mut usize,
        place: *mut u64,
    ) -> u32;
    pub fn hyssop_make(
        text: *const u8,
        text_size: usize,
        out: *mut u8,
        out_size: usize,
        size: *mut usize,
        place: *mut u64,
    ) -> u32;
    pub fn hyssop_make_notes(
        text: *const u8,
        text_size: usize,
        out: *mut Note,
        out_count: usize,
        count: *mut usize,
        place: *mut u64,
    ) -> u32;
    pub fn hyssop_template(
        signature: *const u8,
        signature_size: usize,
        out: *mut u8,
        out_size: usize,
        size: *mut usize,
    ) -> u32;
    pub fn hyssop_begin(writer: *mut Writer, bytes: *mut u8, bytes_size: usize) -> u32;
    pub fn hyssop_open_scope(writer: *mut Writer, path: *const c_char) -> u32;
    pub fn hyssop_open_device(writer: *mut Writer, path: *const c_char) -> u32;
    pub fn hyssop_open_thermal_zone(writer: *mut Writer, path: *const c_char) -> u32;
    pub fn hyssop_open_power_resource(
        writer: *mut Writer,
        path: *const c_char,
        level: u8,
        order: u16,
    ) -> u32;
    pub fn hyssop_open_processor(
        writer: *mut Writer,
        path: *const c_char,
        id: u8,
        address: u32,
        size: u8,
    ) -> u32;
    pub fn hyssop_open_method(
        writer: *mut Writer,
        path: *const c_char,
        arguments: u8,
        serialized: c_int,
    ) -> u32;
    pub fn hyssop_open_package(writer: *mut Writer, elements: u8) -> u32;
    pub fn hyssop_open_if(writer: *mut Writer) -> u32;
    pub fn hyssop_open_else(writer: *mut Writer) -> u32;
    pub fn hyssop_open_while(writer: *mut Writer) -> u32;
    pub fn hyssop_open_buffer(writer: *mut Writer) -> u32;
    pub fn hyssop_open_sized_buffer(writer: *mut Writer) -> u32;
    pub fn hyssop_open_var_package(writer: *mut Writer) -> u32;
    pub fn hyssop_open_resources(writer: *mut Writer) -> u32;
    pub fn hyssop_open_field(
        writer: *mut Writer,
        region: *const c_char,
        access: u32,
        lock: c_int,
        update: u32,
    ) -> u32;
    pub fn hyssop_open_index_field(
        writer: *mut Writer,
        index_name: *const c_char,
        data_name: *const c_char,
        access: u32,
        lock: c_int,
        update: u32,
    ) -> u32;
    pub fn hyssop_close(writer: *mut Writer) -> u32;
    pub fn hyssop_name(writer: *mut Writer, path: *const c_char) -> u32;
    pub fn hyssop_field_unit(writer: *mut Writer, name: *const c_char, bits: u32) -> u32;
    pub fn hyssop_field_gap(writer: *mut Writer, bits: u32) -> u32;
    pub fn hyssop_region(writer: *mut Writer, path: *const c_char, space: u8) -> u32;
    pub fn hyssop_mutex(writer: *mut Writer, path: *const c_char, sync_level: u8) -> u32;
    pub fn hyssop_acquire(writer: *mut Writer, mutex: *const c_char, timeout: u16) -> u32;
    pub fn hyssop_release(writer: *mut Writer, mutex: *const c_char) -> u32;
    pub fn hyssop_event(writer: *mut Writer, path: *const c_char) -> u32;
    pub fn hyssop_alias(writer: *mut Writer, source: *const c_char, name: *const c_char) -> u32;
    pub fn hyssop_external(
        writer: *mut Writer,
        path: *const c_char,
        kind: u8,
        arguments: u8,
    ) -> u32;
    pub fn hyssop_path(writer: *mut Writer, name: *const c_char) -> u32;
    pub fn hyssop_integer(writer: *mut Writer, value: u64) -> u32;
    pub fn hyssop_string(writer: *mut Writer, text: *const c_char) -> u32;
    pub fn hyssop_eisa_id(writer: *mut Writer, id: *const c_char) -> u32;
    pub fn hyssop_uuid(writer: *mut Writer, text: *const c_char) -> u32;
    pub fn hyssop_argument(writer: *mut Writer, number: u8) -> u32;
    pub fn hyssop_local(writer: *mut Writer, number: u8) -> u32;
    pub fn hyssop_operator(writer: *mut Writer, code: u32) -> u32;
    pub fn hyssop_bytes(writer: *mut Writer, content: *const u8, content_size: usize) -> u32;
    pub fn hyssop_io(writer: *mut Writer, min: u16, max: u16, alignment: u8, length: u8) -> u32;
    pub fn hyssop_interrupt(
        writer: *mut Writer,
        consumer: c_int,
        edge_triggered: c_int,
        active_low: c_int,
        shared: c_int,
        number: u32,
    ) -> u32;
    pub fn hyssop_memory32_fixed(
        writer: *mut Writer,
        read_write: c_int,
        base: u32,
        length: u32,
    ) -> u32;
    pub fn hyssop_bus_numbers(writer: *mut Writer, min: u16, max: u16) -> u32;
    pub fn hyssop_io_range(writer: *mut Writer, min: u16, max: u16, translation: u16) -> u32;
    pub fn hyssop_io_range32(writer: *mut Writer, min: u32, max: u32, translation: u32) -> u32;
    pub fn hyssop_memory_range32(
        writer: *mut Writer,
        memory_type: u32,
        read_write: c_int,
        min: u32,
        max: u32,
        translation: u32,
    ) -> u32;
    pub fn hyssop_memory_range64(
        writer: *mut Writer,
        memory_type: u32,
        read_write: c_int,
        min: u64,
        max: u64,
        translation: u64,
    ) -> u32;
    pub fn hyssop_memory_range16(
        writer: *mut Writer,
        memory_type: u32,
        read_write: c_int,
        min: u16,
        max: u16,
        translation: u16,
    ) -> u32;
    pub fn hyssop_io_range64(writer: *mut Writer, min: u64, max: u64, translation: u64) -> u32;
    pub fn hyssop_bus_numbers32(writer: *mut Writer, min: u32, max: u32) -> u32;
    pub fn hyssop_bus_numbers64(writer: *mut Writer, min: u64, max: u64) -> u32;
    pub fn hyssop_register(
        writer: *mut Writer,
        space: u8,
        width: u8,
        offset: u8,
        access: u8,
        address: u64,
    ) -> u32;
    pub fn hyssop_table(
        writer: *mut Writer,
        signature: *const c_char,
        revision: u8,
        oem_id: *const c_char,
        oem_table_id: *const c_char,
        oem_revision: u32,
    ) -> u32;
    pub fn hyssop_add_fields(writer: *mut Writer) -> u32;
    pub fn hyssop_add_structure(writer: *mut Writer, kind: u32, offset: *mut usize) -> u32;
    pub fn hyssop_add_structure_bytes(
        writer: *mut Writer,
        content: *const u8,
        content_size: usize,
        offset: *mut usize,
    ) -> u32;
    pub fn hyssop_end_structure(writer: *mut Writer, offset: usize) -> u32;
    pub fn hyssop_set_number(
        writer: *mut Writer,
        offset: usize,
        name: *const c_char,
        value: u64,
    ) -> u32;
    pub fn hyssop_set_bytes(
        writer: *mut Writer,
        offset: usize,
        name: *const c_char,
        content: *const u8,
        content_size: usize,
    ) -> u32;
    pub fn hyssop_overwrite(
        writer: *mut Writer,
        offset: usize,
        content: *const u8,
        content_size: usize,
    ) -> u32;
    pub fn hyssop_add_number(writer: *mut Writer, width: usize, value: u64) -> u32;
    pub fn hyssop_finish(writer: *const Writer, size: *mut usize, place: *mut u64) -> u32;
    pub fn hyssop_finish_table(writer: *mut Writer, size: *mut usize, place: *mut u64) -> u32;
    pub fn hyssop_lay(
        tables: *const u8,
        tables_size: usize,
        base: u64,
        out: *mut u8,
        out_size: usize,
        size: *mut usize,
        rsdp: *mut u64,
        place: *mut u64,
    ) -> u32;
}
