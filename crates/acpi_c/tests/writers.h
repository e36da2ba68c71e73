/* The part of boundary.c that calls the functions of writers, and hyssop_lay. */

/* Each call of a writer: the bytes that it writes, and if it opens an object, those of the object that is closed at once (ACPI
   6.5, 6.4 and chapters 19 and 20). */
#define CALLS(X) \
    X(scope, hyssop_open_scope(w, "\\_SB_"), "\x10\\_SB_", "\x10\x06\\_SB_") \
    X(device, hyssop_open_device(w, "PCI0.ISA_"), "\x5b\x82\x2ePCI0ISA_", "\x5b\x82\x0a\x2ePCI0ISA_") \
    X(zone, hyssop_open_thermal_zone(w, "\\A___.B___.C___"), "\x5b\x85\\\x2f\x03" "A___B___C___", \
      "\x5b\x85\x10\\\x2f\x03" "A___B___C___") \
    X(power, hyssop_open_power_resource(w, "PWR0", 5, 0x1234), "\x5b\x84PWR0\x05\x34\x12", "\x5b\x84\x08PWR0\x05\x34\x12") \
    X(processor, hyssop_open_processor(w, "CPU0", 1, 0x12345678, 6), "\x5b\x83" "CPU0\x01\x78\x56\x34\x12\x06", \
      "\x5b\x83\x0b" "CPU0\x01\x78\x56\x34\x12\x06") \
    X(method, hyssop_open_method(w, "MTHD", 7, 0), "\x14MTHD\x07", "\x14\x06MTHD\x07") \
    X(serialized, hyssop_open_method(w, "MTHD", 1, 2), "\x14MTHD\x09", "\x14\x06MTHD\x09") \
    X(package, hyssop_open_package(w, 255), "\x12\xff", "\x12\x02\xff") \
    X(var_package, hyssop_open_var_package(w), "\x13", "\x13\x01") \
    X(if, hyssop_open_if(w), "\xa0", "\xa0\x01") \
    X(else, hyssop_open_else(w), "\xa1", "\xa1\x01") \
    X(while, hyssop_open_while(w), "\xa2", "\xa2\x01") \
    X(buffer, hyssop_open_buffer(w), "\x11", "\x11\x02\0") \
    X(sized_buffer, hyssop_open_sized_buffer(w), "\x11", "\x11\x01") \
    X(resources, hyssop_open_resources(w), "\x11", "\x11\x05\x0a\x02\x79\0") \
    X(field, hyssop_open_field(w, "GPIO", HYSSOP_ACCESS_DWORD, 0, HYSSOP_UPDATE_PRESERVE), "\x5b\x81GPIO\x03", \
      "\x5b\x81\x06GPIO\x03") \
    X(locked, hyssop_open_field(w, "\\GPIO", HYSSOP_ACCESS_BUFFER, 2, HYSSOP_UPDATE_WRITE_AS_ZEROES), "\x5b\x81\\GPIO\x55", \
      "\x5b\x81\x07\\GPIO\x55") \
    X(index_field, hyssop_open_index_field(w, "IDX_", "\\DAT_", HYSSOP_ACCESS_BYTE, 1, HYSSOP_UPDATE_WRITE_AS_ONES), \
      "\x5b\x86IDX_\\DAT_\x31", "\x5b\x86\x0bIDX_\\DAT_\x31") \
    X(unit, hyssop_field_unit(w, "BIT0", 1), "BIT0\x01", "") \
    X(two_bytes, hyssop_field_unit(w, "DATA", 64), "DATA\x40\x04", "") \
    X(most_bits, hyssop_field_unit(w, "MOST", 0xfffffff), "MOST\xcf\xff\xff\xff", "") \
    X(gap, hyssop_field_gap(w, 7), "\0\x07", "") \
    X(three_bytes, hyssop_field_gap(w, 4096), "\0\x80\0\x01", "") \
    X(region, hyssop_region(w, "\\GPIO", HYSSOP_SPACE_SYSTEM_IO), "\x5b\x80\\GPIO\x01", "") \
    X(oem_region, hyssop_region(w, "A___.REG0", 0xff), "\x5b\x80\x2e" "A___REG0\xff", "") \
    X(mutex, hyssop_mutex(w, "MTX_", 15), "\x5b\x01MTX_\x0f", "") \
    X(acquire, hyssop_acquire(w, "MTX_", 0x1234), "\x5b\x23MTX_\x34\x12", "") \
    X(release, hyssop_release(w, "MTX_"), "\x5b\x27MTX_", "") \
    X(event, hyssop_event(w, "\\EVT_"), "\x5b\x02\\EVT_", "") \
    X(alias, hyssop_alias(w, "\\_SB_.PCI0", "PCI1"), "\x06\\\x2e_SB_PCI0PCI1", "") \
    X(external, hyssop_external(w, "\\_SB_.FUNC", 8, 2), "\x15\\\x2e_SB_FUNC\x08\x02", "") \
    X(name, hyssop_name(w, "_HID"), "\x08_HID", "") \
    X(path, hyssop_path(w, "\\_SB_.PCI0"), "\\\x2e_SB_PCI0", "") \
    X(zero, hyssop_integer(w, 0), "\0", "") \
    X(one, hyssop_integer(w, 1), "\x01", "") \
    X(byte, hyssop_integer(w, 0xff), "\x0a\xff", "") \
    X(word, hyssop_integer(w, 0x1234), "\x0b\x34\x12", "") \
    X(dword, hyssop_integer(w, 0x12345678), "\x0c\x78\x56\x34\x12", "") \
    X(qword, hyssop_integer(w, 0x123456789abcdef0), "\x0e\xf0\xde\xbc\x9a\x78\x56\x34\x12", "") \
    X(string, hyssop_string(w, "ACPI\x7f"), "\x0d" "ACPI\x7f\0", "") \
    X(empty, hyssop_string(w, ""), "\x0d\0", "") \
    X(eisa_id, hyssop_eisa_id(w, "PNP0A08"), "\x0c\x41\xd0\x0a\x08", "") \
    X(uuid, hyssop_uuid(w, "33221100-5544-7766-8899-aAbBcCdDeEfF"), \
      "\x11\x13\x0a\x10\x00\x11\x22\x33\x44\x55\x66\x77\x88\x99\xaa\xbb\xcc\xdd\xee\xff", "") \
    X(argument, hyssop_argument(w, 6), "\x6e", "") \
    X(local, hyssop_local(w, 7), "\x67", "") \
    X(store, hyssop_operator(w, HYSSOP_OP_STORE), "\x70", "") \
    X(sleep, hyssop_operator(w, HYSSOP_OP_SLEEP), "\x5b\x22", "") \
    X(bytes, hyssop_bytes(w, "\x01\x02\xff", 3), "\x01\x02\xff", "") \
    X(none, hyssop_bytes(w, NULL, 0), "", "") \
    X(io, hyssop_io(w, 0x3f8, 0x3f9, 1, 8), "\x47\x01\xf8\x03\xf9\x03\x01\x08", "") \
    X(interrupt, hyssop_interrupt(w, 1, 0, 0, 2, 0x01020304), "\x89\x06\0\x09\x01\x04\x03\x02\x01", "") \
    X(edge, hyssop_interrupt(w, 0, 1, 1, 0, 4), "\x89\x06\0\x06\x01\x04\0\0\0", "") \
    X(fixed, hyssop_memory32_fixed(w, 1, 0xfed00000, 0x400), "\x86\x09\0\x01\0\0\xd0\xfe\0\x04\0\0", "") \
    X(buses, hyssop_bus_numbers(w, 0, 0xff), "\x88\x0d\0\x02\x0c\0\0\0\0\0\xff\0\0\0\0\x01", "") \
    X(ports, hyssop_io_range(w, 0xd00, 0xffff, 2), "\x88\x0d\0\x01\x0c\x03\0\0\0\x0d\xff\xff\x02\0\0\xf3", "") \
    X(ports32, hyssop_io_range32(w, 0, 0xffff, 0x3eff0000), \
      "\x87\x17\0\x01\x0c\x03\0\0\0\0\0\0\0\0\xff\xff\0\0\0\0\xff\x3e\0\0\x01\0", "") \
    X(ports64, hyssop_io_range64(w, 1, 0x100000002, 3), \
      "\x8a\x2b\0\x01\x0c\x03\0\0\0\0\0\0\0\0\x01\0\0\0\0\0\0\0\x02\0\0\0\x01\0\0\0\x03\0\0\0\0\0\0\0\x02\0\0\0\x01\0\0\0", "") \
    X(buses32, hyssop_bus_numbers32(w, 0x10000, 0x10001), \
      "\x87\x17\0\x02\x0c\0\0\0\0\0\0\0\x01\0\x01\0\x01\0\0\0\0\0\x02\0\0\0", "") \
    X(buses64, hyssop_bus_numbers64(w, 4, 6), \
      "\x8a\x2b\0\x02\x0c\0\0\0\0\0\0\0\0\0\x04\0\0\0\0\0\0\0\x06\0\0\0\0\0\0\0\0\0\0\0\0\0\0\0\x03\0\0\0\0\0\0\0", "") \
    X(register, hyssop_register(w, 0x7f, 8, 1, 3, 0x0102030405060708), \
      "\x82\x0c\0\x7f\x08\x01\x03\x08\x07\x06\x05\x04\x03\x02\x01", "") \
    X(range16, hyssop_memory_range16(w, HYSSOP_MEMORY_WRITE_COMBINING, 1, 0x100, 0x1ff, 2), \
      "\x88\x0d\0\0\x0c\x05\0\0\0\x01\xff\x01\x02\0\0\x01", "") \
    X(one_byte, hyssop_add_number(w, 1, 0xfe), "\xfe", "") \
    X(no_byte, hyssop_add_number(w, 0, 0), "", "") \
    X(three, hyssop_add_number(w, 3, 0x010203), "\x03\x02\x01", "") \
    X(eight, hyssop_add_number(w, 8, 0x123456789abcdef0), "\xf0\xde\xbc\x9a\x78\x56\x34\x12", "") \
    X(range32, hyssop_memory_range32(w, HYSSOP_MEMORY_PREFETCHABLE, 0, 0xc0000000, 0xfebfffff, 1), \
      "\x87\x17\0\0\x0c\x06\0\0\0\0\0\0\0\xc0\xff\xff\xbf\xfe\x01\0\0\0\0\0\xc0\x3e", "") \
    X(range64, hyssop_memory_range64(w, HYSSOP_MEMORY_CACHEABLE, 1, 0x800000000, 0x8000000ff, 0x1000000000000002), \
      "\x8a\x2b\0\0\x0c\x03\0\0\0\0\0\0\0\0\0\0\0\0\x08\0\0\0\xff\0\0\0\x08\0\0\0\x02\0\0\0\0\0\0\x10\0\x01\0\0\0\0\0\0", "")

#define DEFINE(name, call, bytes, closed) \
    static enum hyssop_fault call_##name(struct hyssop_writer *w) { \
        return call; \
    }
CALLS(DEFINE)

static const struct call {
    enum hyssop_fault (*make)(struct hyssop_writer *w);
    const char *bytes, *closed;
    size_t size, closed_size;
} calls[] = {
#define ROW(name, call, bytes, closed) {call_##name, bytes, closed, sizeof bytes - 1, sizeof closed - 1},
    CALLS(ROW)
};

/* A writer with this much space, which ends where a page ends. */
static struct hyssop_writer begin(size_t space) {
    struct hyssop_writer writer;
    memset(&writer, UNTOUCHED, sizeof writer);
    want(hyssop_begin(&writer, blank(space), space) == HYSSOP_FINE);
    return writer;
}

static enum hyssop_fault finish(const struct hyssop_writer *writer) {
    place = UNTOLD;
    enum hyssop_fault number = hyssop_finish(writer, &size, &place);
    want(number == 0 ? place == 0 && size == writer->state.size : size == 0 && place == writer->state.size);
    return number;
}

/* A call that fails changes only the fault. */
static void try_failing(const struct call *call, struct hyssop_writer writer, enum hyssop_fault fault) {
    static uint8_t bytes[PLENTY];
    struct hyssop_writer before = writer;
    if (writer.bytes_size != 0)
        memcpy(bytes, writer.bytes, writer.bytes_size);
    want(call->make(&writer) == fault && writer.state.fault == fault);
    before.state.fault = fault;
    want(memcmp(&writer.state, &before.state, sizeof writer.state) == 0);
    want(writer.bytes_size == 0 || memcmp(bytes, writer.bytes, writer.bytes_size) == 0);
    want(finish(&writer) == fault);
}

static void try_call(const struct call *call) {
    /* After three other bytes, with more space than it takes. */
    struct hyssop_writer writer = begin(call->closed_size + call->size + 9);
    want(hyssop_bytes(&writer, "xyz", 3) == 0 && call->make(&writer) == 0 && writer.state.size == 3 + call->size);
    want(memcmp(writer.bytes, "xyz", 3) == 0 && memcmp(writer.bytes + 3, call->bytes, call->size) == 0);
    want(is_blank(writer.bytes + 3 + call->size, writer.bytes_size - 3 - call->size));
    if (call->closed_size == 0)
        want(writer.state.depth == 0 && finish(&writer) == 0 && size == 3 + call->size);
    else {
        want(writer.state.depth == 1 && finish(&writer) == HYSSOP_FAULT_STILL_OPEN);
        want(hyssop_close(&writer) == 0 && finish(&writer) == 0 && size == 3 + call->closed_size);
        want(memcmp(writer.bytes, "xyz", 3) == 0 && memcmp(writer.bytes + 3, call->closed, call->closed_size) == 0);
        want(is_blank(writer.bytes + size, writer.bytes_size - size));
    }
    /* With all smaller space, and with just enough. */
    for (size_t space = 0; space < call->size; space++)
        try_failing(call, begin(space), HYSSOP_FAULT_BUFFER);
    for (size_t space = call->size; space < call->closed_size; space++) {
        writer = begin(space);
        want(call->make(&writer) == 0 && hyssop_close(&writer) == HYSSOP_FAULT_BUFFER && writer.state.depth == 1);
        want(memcmp(writer.bytes, call->bytes, call->size) == 0 && is_blank(writer.bytes + call->size, space - call->size));
        want(finish(&writer) == HYSSOP_FAULT_BUFFER && place == call->size);
    }
    writer = begin(call->closed_size + call->size);
    want(call->make(&writer) == 0 && (call->closed_size == 0 || hyssop_close(&writer) == 0) && finish(&writer) == 0);
    /* After a fault, and where a pointer is NULL. */
    writer = begin(99);
    want(hyssop_close(&writer) == HYSSOP_FAULT_NONE_OPEN);
    try_failing(call, writer, HYSSOP_FAULT_NONE_OPEN);
    want(call->make(NULL) == HYSSOP_FAULT_NULL);
    writer = begin(99);
    writer.bytes = NULL;
    want(call->make(&writer) == HYSSOP_FAULT_NULL && writer.state.fault == HYSSOP_FAULT_NULL);
    want(finish(&writer) == HYSSOP_FAULT_NULL);
}

/* Each value that a call refuses, with the fault. */
static void try_refused(void) {
    static char many[256 * 5];
    for (size_t i = 0; i < 256; i++)
        memcpy(many + 5 * i, "A___.", 5);
    many[sizeof many - 1] = 0;
#define REFUSED(fault, call) \
    do { \
        struct hyssop_writer writer = begin(PLENTY), *w = &writer; \
        want((call) == (fault) && writer.state.size == 0 && writer.state.depth == 0 && is_blank(writer.bytes, PLENTY)); \
        want(finish(w) == (fault)); \
    } while (0)
    static const char *const parts[] = {"", "\\", "ABC", "ABCDE", "ABCD.", ".ABCD", "ABCD..", "ABCD.EFG", "AB.D"};
    for (size_t i = 0; i < sizeof parts / sizeof *parts; i++) {
        REFUSED(HYSSOP_FAULT_NAME_PART, hyssop_open_scope(w, parts[i]));
        REFUSED(HYSSOP_FAULT_NAME_PART, hyssop_open_device(w, parts[i]));
        REFUSED(HYSSOP_FAULT_NAME_PART, hyssop_open_thermal_zone(w, parts[i]));
        REFUSED(HYSSOP_FAULT_NAME_PART, hyssop_open_power_resource(w, parts[i], 0, 0));
        REFUSED(HYSSOP_FAULT_NAME_PART, hyssop_open_method(w, parts[i], 8, 0));
        REFUSED(HYSSOP_FAULT_NAME_PART, hyssop_open_processor(w, parts[i], 0, 0, 0));
        REFUSED(HYSSOP_FAULT_NAME_PART, hyssop_open_field(w, parts[i], 6, 0, 3));
        REFUSED(HYSSOP_FAULT_NAME_PART, hyssop_open_index_field(w, parts[i], "DATA", 6, 0, 3));
        REFUSED(HYSSOP_FAULT_NAME_PART, hyssop_open_index_field(w, "IDX_", parts[i], 6, 0, 3));
        REFUSED(HYSSOP_FAULT_NAME_PART, hyssop_region(w, parts[i], 0));
        REFUSED(HYSSOP_FAULT_NAME_PART, hyssop_mutex(w, parts[i], 0));
        REFUSED(HYSSOP_FAULT_NAME_PART, hyssop_acquire(w, parts[i], 0));
        REFUSED(HYSSOP_FAULT_NAME_PART, hyssop_release(w, parts[i]));
        REFUSED(HYSSOP_FAULT_NAME_PART, hyssop_event(w, parts[i]));
        REFUSED(HYSSOP_FAULT_NAME_PART, hyssop_alias(w, parts[i], "ABCD"));
        REFUSED(HYSSOP_FAULT_NAME_PART, hyssop_alias(w, "ABCD", parts[i]));
        REFUSED(HYSSOP_FAULT_NAME_PART, hyssop_external(w, parts[i], 0, 0));
        REFUSED(HYSSOP_FAULT_NAME_PART, hyssop_name(w, parts[i]));
        REFUSED(HYSSOP_FAULT_NAME_PART, hyssop_path(w, parts[i]));
    }
    REFUSED(HYSSOP_FAULT_PATH_PARTS, hyssop_path(w, many));
    REFUSED(HYSSOP_FAULT_PATH_PARTS, hyssop_open_index_field(w, many, "ABC", 0, 0, 0));
    REFUSED(HYSSOP_FAULT_PATH_PARTS, hyssop_open_index_field(w, "IDX_", many, 6, 0, 0));
    REFUSED(HYSSOP_FAULT_PATH_PARTS, hyssop_alias(w, many, "ABC"));
    REFUSED(HYSSOP_FAULT_PATH_PARTS, hyssop_alias(w, "ABCD", many));
    many[sizeof many - 2] = '.';
    REFUSED(HYSSOP_FAULT_NAME_PART, hyssop_path(w, many));
    struct hyssop_writer longest = begin(PLENTY);
    many[sizeof many - 6] = 0;
    want(hyssop_path(&longest, many) == 0 && longest.state.size == 2 + 4 * 255);
    want(memcmp(longest.bytes, "\x2f\xff" "A___A", 7) == 0);
    longest = begin(PLENTY);
    want(hyssop_open_index_field(&longest, many, many, 5, 1, 2) == 0 && longest.state.size == 2 + 2 * (2 + 4 * 255) + 1);
    want(memcmp(longest.bytes, "\x5b\x86\x2f\xff" "A___A", 9) == 0 && longest.bytes[longest.state.size - 1] == 0x55);
    want(memcmp(longest.bytes + 4 * 255, "A___\x2f\xff" "A___A", 11) == 0);
    REFUSED(HYSSOP_FAULT_FLAGS, hyssop_open_field(w, "ABCD", 6, 0, 0));
    REFUSED(HYSSOP_FAULT_FLAGS, hyssop_open_field(w, "ABCD", UINT32_MAX, 1, 2));
    REFUSED(HYSSOP_FAULT_FLAGS, hyssop_open_field(w, "ABCD", 5, 0, 3));
    REFUSED(HYSSOP_FAULT_FLAGS, hyssop_open_index_field(w, "ABCD", "ABCD", 256, 0, 0));
    REFUSED(HYSSOP_FAULT_FLAGS, hyssop_open_index_field(w, "ABCD", "ABCD", 0, 0, UINT32_MAX));
    static const char *const units[] = {"", "ABC", "ABCDE", "\\ABCD", "ABCD.EFGH"};
    for (size_t i = 0; i < sizeof units / sizeof *units; i++)
        REFUSED(HYSSOP_FAULT_NAME_PART, hyssop_field_unit(w, units[i], 1 << 28));
    REFUSED(HYSSOP_FAULT_OBJECT_LENGTH, hyssop_field_unit(w, "ABCD", 1 << 28));
    REFUSED(HYSSOP_FAULT_OBJECT_LENGTH, hyssop_field_unit(w, "ABCD", UINT32_MAX));
    REFUSED(HYSSOP_FAULT_OBJECT_LENGTH, hyssop_field_gap(w, 1 << 28));
    REFUSED(HYSSOP_FAULT_METHOD_ARGS, hyssop_open_method(w, "MTHD", 8, 0));
    REFUSED(HYSSOP_FAULT_METHOD_ARGS, hyssop_open_method(w, "MTHD", 255, 1));
    REFUSED(HYSSOP_FAULT_ARG_NUMBER, hyssop_argument(w, 7));
    REFUSED(HYSSOP_FAULT_LOCAL_NUMBER, hyssop_local(w, 8));
    REFUSED(HYSSOP_FAULT_TEXT, hyssop_string(w, "ab\x80"));
    static const char *const ids[] = {"",        "PNP0A0",           "PNP0A080", "pNP0A08",
                                      "PNP0A0G", "PN\xc3\xa9" "A08", "\xff\xff\xff\xff\xff\xff\xff"};
    for (size_t i = 0; i < sizeof ids / sizeof *ids; i++)
        REFUSED(HYSSOP_FAULT_EISA_TEXT, hyssop_eisa_id(w, ids[i]));
    static const char *const uuids[] = {"", "33221100-5544-7766-8899-aabbccddeef", "33221100-5544-7766-8899-aabbccddeeff0",
                                        "33221100+5544-7766-8899-aabbccddeeff", "3322110g-5544-7766-8899-aabbccddeeff",
                                        "\xff" "3221100-5544-7766-8899-aabbccddeeff"};
    for (size_t i = 0; i < sizeof uuids / sizeof *uuids; i++)
        REFUSED(HYSSOP_FAULT_UUID_TEXT, hyssop_uuid(w, uuids[i]));
    static const uint32_t codes[] = {0x00, 0x5b, 0x100, 0x5a13, 0x5b00, 0x5bff, 0x5c13, 0x15b13, UINT32_MAX};
    for (size_t i = 0; i < sizeof codes / sizeof *codes; i++)
        REFUSED(HYSSOP_FAULT_UNKNOWN_CHOICE, hyssop_operator(w, codes[i]));
    REFUSED(HYSSOP_FAULT_UNKNOWN_CHOICE, hyssop_memory_range32(w, 4, 0, 0, 1, 0));
    REFUSED(HYSSOP_FAULT_UNKNOWN_CHOICE, hyssop_memory_range16(w, 4, 0, 0, 1, 0));
    REFUSED(HYSSOP_FAULT_UNKNOWN_CHOICE, hyssop_memory_range64(w, UINT32_MAX, 0, 0, 1, 0));
    REFUSED(HYSSOP_FAULT_ADDRESS_RANGE, hyssop_bus_numbers(w, 1, 0));
    REFUSED(HYSSOP_FAULT_ADDRESS_RANGE, hyssop_bus_numbers(w, 0, UINT16_MAX));
    REFUSED(HYSSOP_FAULT_ADDRESS_RANGE, hyssop_bus_numbers32(w, 1, 0));
    REFUSED(HYSSOP_FAULT_ADDRESS_RANGE, hyssop_bus_numbers64(w, 0, UINT64_MAX));
    REFUSED(HYSSOP_FAULT_ADDRESS_RANGE, hyssop_io_range64(w, 0, UINT64_MAX, 0));
    REFUSED(HYSSOP_FAULT_ADDRESS_RANGE, hyssop_memory_range16(w, 0, 0, 0, UINT16_MAX, 0));
    REFUSED(HYSSOP_FAULT_ADDRESS_RANGE, hyssop_io_range(w, 0xd00, 0xcff, 0));
    REFUSED(HYSSOP_FAULT_ADDRESS_RANGE, hyssop_io_range32(w, 1, 0, 0));
    REFUSED(HYSSOP_FAULT_ADDRESS_RANGE, hyssop_io_range32(w, 0, UINT32_MAX, 0));
    REFUSED(HYSSOP_FAULT_ADDRESS_RANGE, hyssop_memory_range32(w, 0, 0, 0, UINT32_MAX, 0));
    REFUSED(HYSSOP_FAULT_ADDRESS_RANGE, hyssop_memory_range64(w, 0, 0, 0, UINT64_MAX, 0));
    REFUSED(HYSSOP_FAULT_ADDRESS_RANGE, hyssop_memory_range64(w, 0, 0, 2, 1, 0));
    REFUSED(HYSSOP_FAULT_NULL, hyssop_open_scope(w, NULL));
    REFUSED(HYSSOP_FAULT_NULL, hyssop_open_device(w, NULL));
    REFUSED(HYSSOP_FAULT_NULL, hyssop_open_thermal_zone(w, NULL));
    REFUSED(HYSSOP_FAULT_NULL, hyssop_open_power_resource(w, NULL, 0, 0));
    REFUSED(HYSSOP_FAULT_NULL, hyssop_open_method(w, NULL, 0, 0));
    REFUSED(HYSSOP_FAULT_NULL, hyssop_open_processor(w, NULL, 0, 0, 0));
    REFUSED(HYSSOP_FAULT_NULL, hyssop_open_field(w, NULL, 0, 0, 0));
    REFUSED(HYSSOP_FAULT_NULL, hyssop_open_index_field(w, NULL, "ABCD", 0, 0, 0));
    REFUSED(HYSSOP_FAULT_NULL, hyssop_open_index_field(w, "ABCD", NULL, 0, 0, 0));
    REFUSED(HYSSOP_FAULT_NULL, hyssop_field_unit(w, NULL, 0));
    REFUSED(HYSSOP_FAULT_NULL, hyssop_region(w, NULL, 0));
    REFUSED(HYSSOP_FAULT_NULL, hyssop_mutex(w, NULL, 0));
    REFUSED(HYSSOP_FAULT_NULL, hyssop_acquire(w, NULL, 0));
    REFUSED(HYSSOP_FAULT_NULL, hyssop_release(w, NULL));
    REFUSED(HYSSOP_FAULT_NULL, hyssop_event(w, NULL));
    REFUSED(HYSSOP_FAULT_NULL, hyssop_alias(w, NULL, "ABCD"));
    REFUSED(HYSSOP_FAULT_NULL, hyssop_alias(w, "ABCD", NULL));
    REFUSED(HYSSOP_FAULT_NULL, hyssop_external(w, NULL, 0, 0));
    REFUSED(HYSSOP_FAULT_NULL, hyssop_name(w, NULL));
    REFUSED(HYSSOP_FAULT_NULL, hyssop_path(w, NULL));
    REFUSED(HYSSOP_FAULT_NULL, hyssop_string(w, NULL));
    REFUSED(HYSSOP_FAULT_NULL, hyssop_eisa_id(w, NULL));
    REFUSED(HYSSOP_FAULT_NULL, hyssop_uuid(w, NULL));
    REFUSED(HYSSOP_FAULT_NULL, hyssop_bytes(w, NULL, 1));
    REFUSED(HYSSOP_FAULT_NULL, hyssop_table(w, NULL, 1, "FOOBAR", "CAFEDEAD", 1));
    REFUSED(HYSSOP_FAULT_NULL, hyssop_table(w, "OEM1", 1, NULL, "CAFEDEAD", 1));
    REFUSED(HYSSOP_FAULT_NULL, hyssop_table(w, "OEM1", 1, "FOOBAR", NULL, 1));
    REFUSED(HYSSOP_FAULT_SIGNATURE, hyssop_table(w, "OEM", 1, "FOOBAR", "CAFEDEAD", 1));
    REFUSED(HYSSOP_FAULT_SIGNATURE, hyssop_table(w, "OEM12", 1, "FOOBAR", "CAFEDEAD", 1));
    REFUSED(HYSSOP_FAULT_OEM_TEXT, hyssop_table(w, "OEM1", 1, "FOOBA", "CAFEDEAD", 1));
    REFUSED(HYSSOP_FAULT_OEM_TEXT, hyssop_table(w, "OEM1", 1, "FOOBARS", "CAFEDEAD", 1));
    REFUSED(HYSSOP_FAULT_OEM_TEXT, hyssop_table(w, "OEM1", 1, "FOOBAR", "CAFEDEA", 1));
    REFUSED(HYSSOP_FAULT_OEM_TEXT, hyssop_table(w, "OEM1", 1, "FOOBAR", "CAFEDEADS", 1));
}

/* Objects inside others: Device (PCI0) { Name (_HID, "A") Method (_CRS) { Return (Buffer () {1, 2}) } }, written twice, with each
   space; and as many as may be open. */
static void write_nested(struct hyssop_writer *w) {
    hyssop_open_device(w, "PCI0");
    hyssop_name(w, "_HID");
    hyssop_string(w, "A");
    hyssop_open_method(w, "_CRS", 0, 1);
    hyssop_operator(w, HYSSOP_OP_RETURN);
    hyssop_open_buffer(w);
    hyssop_bytes(w, "\x01\x02", 2);
    hyssop_close(w);
    hyssop_close(w);
    hyssop_close(w);
}

static void try_nested(void) {
    static const char wanted[] = "\x5b\x82\x1bPCI0\x08_HID\x0d" "A\0\x14\x0d_CRS\x08\xa4\x11\x05\x0a\x02\x01\x02";
    size_t one = sizeof wanted - 1;
    for (size_t space = 0; space <= 2 * one + 5; space++) {
        struct hyssop_writer writer = begin(space);
        write_nested(&writer);
        write_nested(&writer);
        enum hyssop_fault fault = finish(&writer);
        want(fault == (space < 2 * one ? HYSSOP_FAULT_BUFFER : HYSSOP_FINE));
        want(is_blank(writer.bytes + writer.state.size, space - writer.state.size));
        want(memcmp(writer.bytes, wanted, space < 6 ? 0 : space < one ? 2 : one) == 0);
        want(fault != 0 || (size == 2 * one && memcmp(writer.bytes + one, wanted, one) == 0));
    }
    struct hyssop_writer writer = begin(PLENTY);
    for (size_t i = 0; i < HYSSOP_DEPTH; i++)
        want(hyssop_open_else(&writer) == 0 && writer.state.depth == i + 1);
    struct hyssop_writer deep = writer;
    want(hyssop_open_else(&deep) == HYSSOP_FAULT_TOO_MANY_OPEN && deep.state.size == HYSSOP_DEPTH);
    want(hyssop_open_scope(&deep, "ABCD") == HYSSOP_FAULT_TOO_MANY_OPEN);
    for (size_t i = HYSSOP_DEPTH; i > 0; i--)
        want(hyssop_close(&writer) == 0 && writer.state.depth == i - 1);
    want(finish(&writer) == 0 && size == 2 * HYSSOP_DEPTH && hyssop_close(&writer) == HYSSOP_FAULT_NONE_OPEN);
}

/* OperationRegion (GPIO, SystemIO, 0x600, 8) Field (GPIO, ByteAcc, NoLock, Preserve) {, 4, BIT4, 1, , 3, WIDE, 16} and
   Mutex (MTX_, 0) (20.2.5.2). */
static void try_fields(void) {
    static const char wanted[] =
        "\x5b\x80GPIO\x01\x0b\0\x06\x0a\x08\x5b\x81\x14GPIO\x01\0\x04" "BIT4\x01\0\x03WIDE\x10\x5b\x01MTX_";
    struct hyssop_writer writer = begin(sizeof wanted);
    hyssop_region(&writer, "GPIO", HYSSOP_SPACE_SYSTEM_IO);
    hyssop_integer(&writer, 0x600);
    hyssop_integer(&writer, 8);
    hyssop_open_field(&writer, "GPIO", HYSSOP_ACCESS_BYTE, 0, HYSSOP_UPDATE_PRESERVE);
    hyssop_field_gap(&writer, 4);
    hyssop_field_unit(&writer, "BIT4", 1);
    hyssop_field_gap(&writer, 3);
    hyssop_field_unit(&writer, "WIDE", 16);
    hyssop_close(&writer);
    hyssop_mutex(&writer, "MTX_", 0);
    want(finish(&writer) == 0 && size == sizeof wanted && memcmp(writer.bytes, wanted, sizeof wanted) == 0);
    place = UNTOLD;
    want(hyssop_check_aml(writer.bytes, sizeof wanted, NULL, 0, &place) == 0 && place == 0);
}

/* The least and the greatest content of each width of a PkgLength, which counts itself (20.2.4). */
static void try_widths(void) {
    static const struct {
        size_t content;
        const char *length;
    } widths[] = {{0, "\x01"}, {62, "\x3f"}, {63, "\x41\x04"}, {4093, "\x4f\xff"}, {4094, "\x81\x00\x01"},
                  {65536, "\x83\x00\x10"}, {1048572, "\x8f\xff\xff"}, {1048573, "\xc1\x00\x00\x01"}};
    size_t most = 1 << 21;
    uint8_t *space = malloc(most), *content = malloc(most);
    want(space != NULL && content != NULL);
    for (size_t i = 0; i < most; i++)
        content[i] = (uint8_t)(i * 31 + (i >> 8));
    for (size_t i = 0; i < sizeof widths / sizeof *widths; i++) {
        struct hyssop_writer writer;
        size_t width = (size_t)((uint8_t)widths[i].length[0] >> 6) + 1;
        memset(space, UNTOUCHED, most);
        want(hyssop_begin(&writer, space, most) == 0 && hyssop_open_if(&writer) == 0);
        want(hyssop_bytes(&writer, content, widths[i].content) == 0 && hyssop_close(&writer) == 0);
        want(finish(&writer) == 0 && size == 1 + width + widths[i].content);
        want(space[0] == 0xa0 && memcmp(space + 1, widths[i].length, width) == 0);
        want(memcmp(space + 1 + width, content, widths[i].content) == 0 && space[size] == UNTOUCHED);
    }
    free(space);
    free(content);
}

/* States that no call leaves. */
static void try_states(void) {
    struct hyssop_writer writer = begin(64), wrong;
    want(hyssop_open_if(&writer) == 0);
    wrong = writer;
    wrong.state.size = 65;
    want(hyssop_integer(&wrong, 0) == HYSSOP_FAULT_BUFFER);
    wrong = writer;
    wrong.state.size = SIZE_MAX;
    want(hyssop_open_package(&wrong, 0) == HYSSOP_FAULT_BUFFER);
    wrong = writer;
    wrong.state.size = SIZE_MAX;
    want(hyssop_close(&wrong) == HYSSOP_FAULT_WRITER_STATE);
    wrong = writer;
    wrong.state.marks[0] = 2;
    want(hyssop_close(&wrong) == HYSSOP_FAULT_WRITER_STATE);
    wrong = writer;
    wrong.state.depth = HYSSOP_DEPTH + 1;
    want(hyssop_close(&wrong) == HYSSOP_FAULT_WRITER_STATE);
    wrong = writer;
    wrong.state.depth = SIZE_MAX;
    want(hyssop_open_if(&wrong) == HYSSOP_FAULT_TOO_MANY_OPEN);
    wrong = writer;
    wrong.state.depth = 0;
    wrong.state.size = 65;
    want(hyssop_finish_table(&wrong, &size, &place) == HYSSOP_FAULT_WRITER_STATE && size == 0 && place == 65);
    want(is_blank(writer.bytes + 1, 63));
    want(hyssop_begin(NULL, NULL, 0) == HYSSOP_FAULT_NULL && hyssop_begin(&writer, NULL, 1) == HYSSOP_FAULT_NULL);
    want(hyssop_integer(&writer, 0) == HYSSOP_FAULT_NULL && hyssop_begin(&writer, NULL, 0) == HYSSOP_FINE);
    want(hyssop_integer(&writer, 0) == HYSSOP_FAULT_BUFFER && hyssop_close(NULL) == HYSSOP_FAULT_NULL);
    want(hyssop_finish(NULL, &size, &place) == HYSSOP_FAULT_NULL && size == 0 && place == 0);
    want(hyssop_finish(NULL, NULL, NULL) == HYSSOP_FAULT_NULL && hyssop_finish_table(NULL, NULL, NULL) == HYSSOP_FAULT_NULL);
    want(hyssop_begin(&writer, NULL, 0) == 0 && hyssop_finish(&writer, NULL, NULL) == 0);
    want(hyssop_finish_table(&writer, NULL, NULL) == HYSSOP_FAULT_SHORT_HEADER);
    want(hyssop_table(NULL, "OEM1", 1, "FOOBAR", "CAFEDEAD", 1) == HYSSOP_FAULT_NULL);
}

/* Random calls: they stay inside the buffer, and bytes after those that are written are as before. */
static void try_random_calls(void) {
    for (int run = 0; run < RUNS; run++) {
        size_t space = any(200);
        struct hyssop_writer writer = begin(space);
        for (size_t i = any(40); i > 0; i--) {
            size_t which = any(sizeof calls / sizeof *calls + 20);
            if (which < sizeof calls / sizeof *calls)
                (void)calls[which].make(&writer);
            else
                (void)hyssop_close(&writer);
            want(writer.state.size <= space && is_blank(writer.bytes + writer.state.size, space - writer.state.size));
        }
        (void)finish(&writer);
    }
}

/* ---- tables and images that are built */

/* The header of a table (5.2.6), whose length and checksum are set at its end. */
static void try_built(void) {
    static const char wanted[] = "OEM1\x24\0\0\0\x07\0FOOBARCAFEDEAD\x04\x03\x02\x01RVAT\0\0\0\x01";
    for (size_t space = 0; space < 48; space++) {
        struct hyssop_writer writer = begin(space);
        enum hyssop_fault fault = hyssop_table(&writer, "OEM1", 7, "FOOBAR", "CAFEDEAD", 0x01020304);
        want(fault == (space < 36 ? HYSSOP_FAULT_BUFFER : HYSSOP_FINE));
        want(fault != 0 ? is_blank(writer.bytes, space) : memcmp(writer.bytes, wanted, 36) == 0);
        fault = hyssop_bytes(&writer, "\x01\x02\x03\xff", 4);
        want(fault == (space < 40 ? HYSSOP_FAULT_BUFFER : HYSSOP_FINE));
        place = UNTOLD;
        want(hyssop_finish_table(&writer, &size, &place) == fault);
        want(fault == 0 ? size == 40 && place == 0 : size == 0 && place == writer.state.size);
        want(is_blank(writer.bytes + writer.state.size, space - writer.state.size));
        if (fault != 0)
            continue;
        want(check_table(writer.bytes, 40) == 0 && writer.bytes[4] == 40);
        want(memcmp(writer.bytes + 36, "\x01\x02\x03\xff", 4) == 0);
        want(memcmp(writer.bytes + 10, wanted + 10, 26) == 0 && memcmp(writer.bytes, wanted, 4) == 0 && writer.bytes[8] == 7);
        want(hyssop_table(&writer, "OEM1", 7, "FOOBAR", "CAFEDEAD", 1) == HYSSOP_FAULT_NOT_EMPTY);
    }
    struct hyssop_writer writer = begin(99);
    want(hyssop_open_if(&writer) == 0 && hyssop_finish_table(&writer, &size, &place) == HYSSOP_FAULT_STILL_OPEN);
    writer = begin(99);
    want(hyssop_bytes(&writer, wanted, 35) == 0);
    want(hyssop_finish_table(&writer, &size, &place) == HYSSOP_FAULT_SHORT_HEADER && size == 0 && place == 35);
}

static uint32_t lay(const uint8_t *tables, size_t tables_size, uint64_t base, size_t out_size, uint64_t *rsdp) {
    uint8_t *out = blank(out_size);
    place = UNTOLD;
    *rsdp = UNTOLD;
    uint32_t number = hyssop_lay(put(input, tables, tables_size), tables_size, base, out, out_size, &size, rsdp, &place);
    want(*rsdp != UNTOLD && (number == 0 || number == HYSSOP_FAULT_BUFFER || *rsdp == 0));
    if (number == HYSSOP_FAULT_TABLE_LENGTH || number == HYSSOP_FAULT_LAY_SECOND) {
        want(size == 0 && is_blank(out, out_size));
        return number;
    }
    return kept(number, out, out_size, 1);
}

static const size_t fadt = 276, dsdt = 38, facs = 64, all_tables = 276 + 38 + 64;

/* A FADT (5.2.9), a DSDT, and a FACS (5.2.10). */
static void build_tables(uint8_t *tables) {
    static const uint8_t zeros[240];
    struct hyssop_writer writer;
    want(hyssop_begin(&writer, tables, fadt) == 0 && hyssop_table(&writer, "FACP", 6, "FOOBAR", "CAFEDEAD", 1) == 0);
    want(hyssop_bytes(&writer, zeros, fadt - 36) == 0 && hyssop_finish_table(&writer, &size, &place) == 0 && size == fadt);
    want(hyssop_begin(&writer, tables + fadt, dsdt) == 0 && hyssop_table(&writer, "DSDT", 2, "FOOBAR", "CAFEDEAD", 1) == 0);
    want(hyssop_integer(&writer, 5) == 0 && hyssop_finish_table(&writer, &size, &place) == 0 && size == dsdt);
    memset(tables + fadt + dsdt, 0, facs);
    memcpy(tables + fadt + dsdt, "FACS\x40\0\0\0", 8);
}

/* These tables, each alone, twice and cut. */
static void try_lay(void) {
    static uint8_t tables[1000], bytes[1000];
    size_t all = all_tables;
    uint64_t rsdp = 0;
    build_tables(tables);
    want(lay(tables, all, 0x40000, 0, &rsdp) == HYSSOP_FAULT_BUFFER);
    size_t length = size;
    want(lay(tables, all, 0x40000, length - 1, &rsdp) == HYSSOP_FAULT_BUFFER && size == length);
    want(lay(tables, all, 0x40000, length, &rsdp) == 0 && size == length);
    memcpy(bytes, output.end - length, length);
    want(check_image(bytes, length, 0x40000, rsdp) == 0);
    want(image_tables(bytes, length, 0x40000, rsdp, 9) == 0 && size == 5);
    want(lay(tables, all, 0x40020, PLENTY, &rsdp) == HYSSOP_FAULT_LAY_BASE);
    want(lay(tables, all, UINT64_MAX - 63, PLENTY, &rsdp) == HYSSOP_FAULT_LAY_NO_SPACE);
    want(lay(tables, 0, 0, PLENTY, &rsdp) == HYSSOP_FAULT_LAY_NO_DSDT);
    want(lay(tables, fadt, 0, PLENTY, &rsdp) == HYSSOP_FAULT_LAY_NO_DSDT);
    want(lay(tables + fadt, dsdt, 0, PLENTY, &rsdp) == HYSSOP_FAULT_LAY_NO_FADT);
    want(lay(tables, fadt + dsdt, 0, PLENTY, &rsdp) == HYSSOP_FAULT_LAY_NO_FACS);
    for (size_t cut = 0; cut < all; cut++) {
        if (cut == 0 || cut == fadt || cut == fadt + dsdt)
            continue;
        want(lay(tables, cut, 0, PLENTY, &rsdp) == HYSSOP_FAULT_TABLE_LENGTH);
        want(place == (cut < fadt ? 0u : cut < fadt + dsdt ? 1u : 2u));
    }
    memcpy(bytes, tables, all);
    memcpy(bytes + all, tables + fadt, dsdt);
    want(lay(bytes, all + dsdt, 0, PLENTY, &rsdp) == HYSSOP_FAULT_LAY_SECOND && place == 3);
    memcpy(bytes + all, "FACP\x08\0\0\0", 8);
    want(lay(bytes, all + 8, 0, PLENTY, &rsdp) == HYSSOP_FAULT_LAY_SECOND && place == 3);
    memcpy(bytes + all, "OEM1\x07\0\0\0", 8);
    want(lay(bytes, all + 8, 0, PLENTY, &rsdp) == HYSSOP_FAULT_TABLE_LENGTH && place == 3);
    memcpy(bytes, "FACP\x93\0\0\0", 8);
    memcpy(bytes + 147, tables + fadt, dsdt);
    want(lay(bytes, 147 + dsdt, 0, PLENTY, &rsdp) == HYSSOP_FAULT_LAY_SHORT_FADT);
    want(hyssop_lay(NULL, 0, 0, NULL, 0, NULL, NULL, NULL) == HYSSOP_FAULT_LAY_NO_DSDT);
    want(hyssop_lay(NULL, 1, 0, NULL, 0, &size, &rsdp, &place) == HYSSOP_FAULT_NULL && size == 0 && rsdp == 0 && place == 0);
    want(hyssop_lay("", 0, 0, NULL, 1, NULL, NULL, NULL) == HYSSOP_FAULT_NULL);
    for (int run = 0; run < RUNS; run++) {
        size_t some = vary(bytes, tables, all);
        (void)lay(bytes, some, any(2) == 0 ? 0 : any(1 << 20) * 32, any(1000), &rsdp);
    }
}

static void try_writers(void) {
    for (size_t i = 0; i < sizeof calls / sizeof *calls; i++)
        try_call(&calls[i]);
    try_refused();
    try_nested();
    try_fields();
    try_widths();
    try_states();
    try_random_calls();
    try_built();
    try_lay();
}
