/* The part of boundary.c that calls the functions of writers for tables and their structures, and hyssop_find_rsdp. */

static struct hyssop_writer begin_table(size_t space, const char *signature) {
    struct hyssop_writer writer = begin(space);
    (void)hyssop_table(&writer, signature, 1, "FOOBAR", "CAFEDEAD", 1);
    return writer;
}

/* A MADT (5.2.12) with a local APIC and an I/O APIC, after its header. */
static const char madt_wanted[] = "\0\0\xe0\xfe\x01\0\0\0" "\0\x08\x05\x03\x01\0\0\0" "\x01\x0c\x09\0\x04\x03\x02\x01\x10\0\0\0";

static void write_madt(struct hyssop_writer *w) {
    size_t at = 1;
    hyssop_add_fields(w);
    hyssop_set_number(w, 0, "Local Interrupt Controller Address", 0xfee00000);
    hyssop_set_number(w, 0, "Flags", 1);
    hyssop_add_structure(w, 0, &at);
    want(at == (w->state.fault == 0 ? 44u : 0u));
    hyssop_set_number(w, at, "ACPI Processor UID", 5);
    hyssop_set_number(w, at, "APIC ID", 3);
    hyssop_set_number(w, at, "Flags", 1);
    hyssop_add_structure(w, 1, &at);
    want(at == (w->state.fault == 0 ? 52u : 0u));
    hyssop_set_number(w, at, "I/O APIC ID", 9);
    hyssop_set_bytes(w, at, "I/O APIC Address", "\x04\x03\x02\x01", 4);
    hyssop_set_number(w, at, "Global System Interrupt Base", 0x10);
}

static void try_madt(void) {
    for (size_t space = 0; space < 70; space++) {
        struct hyssop_writer writer = begin_table(space, "APIC");
        write_madt(&writer);
        want(finish(&writer) == (space < 64 ? HYSSOP_FAULT_BUFFER : HYSSOP_FINE));
        want(is_blank(writer.bytes + writer.state.size, space - writer.state.size));
        if (space < 64)
            continue;
        want(size == 64 && memcmp(writer.bytes + 36, madt_wanted, sizeof madt_wanted - 1) == 0);
        want(hyssop_finish_table(&writer, &size, &place) == 0 && check_table(writer.bytes, 64) == 0);
    }
}

/* An IORT (DEN0049) with two ITS groups, whose number and offset are in the table, and a HEST (18.3.2) with two error sources, of
   which none contains its length. */
static void try_counted(void) {
    static const char iort[] = "\x02\0\0\0\x30\0\0\0\0\0\0\0"
                               "\0\x18\0\x01\0\0\0\0\0\0\0\0\0\0\0\0\x01\0\0\0\x04\x03\x02\x01"
                               "\0\x14\0\0\0\0\0\0\0\0\0\0\0\0\0\0\0\0\0\0";
    static uint8_t zeros[48];
    struct hyssop_writer writer = begin_table(PLENTY, "IORT");
    size_t at = 0;
    hyssop_add_fields(&writer);
    want(hyssop_add_structure(&writer, 0, &at) == 0 && at == 48 && writer.state.size == 68);
    hyssop_set_number(&writer, at, "Revision", 1);
    hyssop_set_number(&writer, at, "Number of ITSs", 1);
    hyssop_add_number(&writer, 4, 0x01020304);
    want(hyssop_end_structure(&writer, at) == 0 && hyssop_add_structure(&writer, 0, &at) == 0 && at == 72);
    want(finish(&writer) == 0 && size == 92 && memcmp(writer.bytes + 36, iort, sizeof iort - 1) == 0);
    writer = begin_table(PLENTY, "HEST");
    hyssop_add_fields(&writer);
    want(hyssop_add_structure(&writer, 7, NULL) == 0 && writer.state.size == 40 + 44 && writer.bytes[36] == 1);
    want(hyssop_add_structure(&writer, 6, &at) == 0 && at == 84 && writer.state.size == 84 + 48 && writer.bytes[36] == 2);
    want(hyssop_end_structure(&writer, at) == 0 && writer.bytes[84] == 6 && memcmp(writer.bytes + 85, zeros, 47) == 0);
    /* The number of nodes of a VIOT (5.2.31) has two bytes. */
    writer = begin_table(PLENTY, "VIOT");
    hyssop_add_fields(&writer);
    want(hyssop_overwrite(&writer, 36, "\xfe\xff", 2) == 0 && hyssop_add_structure(&writer, 3, NULL) == 0);
    want(memcmp(writer.bytes + 36, "\xff\xff\x30\0", 4) == 0);
    struct hyssop_writer before = writer;
    want(hyssop_add_structure(&writer, 3, &at) == HYSSOP_FAULT_COUNT && at == 0 && writer.state.size == before.state.size);
    want(memcmp(writer.bytes + 36, "\xff\xff\x30\0", 4) == 0 && is_blank(writer.bytes + writer.state.size, 99));
}

/* A call that has a fault changes nothing but the writer's fault. */
#define HAS_FAULT(wanted, call) \
    do { \
        static uint8_t kept_bytes[1000]; \
        struct hyssop_writer whole = writer, *w = &writer; \
        memcpy(kept_bytes, writer.bytes, writer.bytes_size); \
        want((call) == (wanted) && writer.state.fault == (wanted)); \
        want(memcmp(kept_bytes, writer.bytes, writer.bytes_size) == 0); \
        whole.state.fault = (wanted); \
        want(memcmp(&whole.state, &writer.state, sizeof whole.state) == 0); \
        writer.state.fault = 0; \
    } while (0)

/* Structures as their bytes: in a MADT, which doesn't count them, in an IORT, whose number and offset are in the table, and in a
   HEST, whose sources are as long as their types say. */
static void try_whole_structures(void) {
    static const uint8_t apic[] = "\0\x08\x05\x03\x01\0\0";
    static const uint8_t group[] = "\0\x14\0\0\0\0\0\0\0\0\0\0\0\0\0\0\0\0\0";
    uint8_t source[44] = {7};
    size_t at = 1;
    struct hyssop_writer writer = begin_table(1000, "APIC");
    HAS_FAULT(HYSSOP_FAULT_WANTS_WHOLE, hyssop_add_structure_bytes(w, apic, 8, &at));
    want(at == 0 && hyssop_add_fields(&writer) == 0);
    want(hyssop_add_structure_bytes(&writer, apic, 8, &at) == 0 && at == 44 && writer.state.size == 52);
    want(hyssop_add_structure_bytes(&writer, apic, 8, NULL) == 0 && memcmp(writer.bytes + 52, apic, 8) == 0);
    want(is_blank(writer.bytes + 60, 1000 - 60));
    HAS_FAULT(HYSSOP_FAULT_STRUCTURE, hyssop_add_structure_bytes(w, apic, 7, &at));
    HAS_FAULT(HYSSOP_FAULT_STRUCTURE, hyssop_add_structure_bytes(w, apic, 1, &at));
    HAS_FAULT(HYSSOP_FAULT_STRUCTURE, hyssop_add_structure_bytes(w, NULL, 0, &at));
    HAS_FAULT(HYSSOP_FAULT_NULL, hyssop_add_structure_bytes(w, NULL, 1, &at));
    want(at == 0);
    for (size_t space = 44; space < 52; space++) {
        writer = begin_table(space, "APIC");
        hyssop_add_fields(&writer);
        HAS_FAULT(HYSSOP_FAULT_BUFFER, hyssop_add_structure_bytes(w, apic, 8, &at));
    }
    writer = begin_table(1000, "IORT");
    hyssop_add_fields(&writer);
    want(hyssop_add_structure_bytes(&writer, group, 20, &at) == 0 && at == 48);
    want(hyssop_add_structure_bytes(&writer, group, 20, &at) == 0 && at == 68 && finish(&writer) == 0 && size == 88);
    want(memcmp(writer.bytes + 36, "\x02\0\0\0\x30\0\0\0", 8) == 0);
    writer = begin_table(1000, "HEST");
    hyssop_add_fields(&writer);
    HAS_FAULT(HYSSOP_FAULT_STRUCTURE, hyssop_add_structure_bytes(w, source, 43, &at));
    want(hyssop_add_structure_bytes(&writer, source, 44, &at) == 0 && at == 40 && writer.bytes[36] == 1);
    writer.bytes[36] = writer.bytes[37] = writer.bytes[38] = writer.bytes[39] = 0xff;
    HAS_FAULT(HYSSOP_FAULT_COUNT, hyssop_add_structure_bytes(w, source, 44, &at));
    source[0] = 5;
    HAS_FAULT(HYSSOP_FAULT_STRUCTURE, hyssop_add_structure_bytes(w, source, 44, &at));
    writer = begin_table(1000, "DSDT");
    HAS_FAULT(HYSSOP_FAULT_WANTS_STRUCTURE, hyssop_add_structure_bytes(w, apic, 8, &at));
    writer = begin(1000);
    HAS_FAULT(HYSSOP_FAULT_SHORT_HEADER, hyssop_add_structure_bytes(w, apic, 8, &at));
    at = 1;
    want(hyssop_add_structure_bytes(NULL, apic, 8, &at) == HYSSOP_FAULT_NULL && at == 0);
}

static void try_structure_faults(void) {
    static const uint8_t many[512];
    size_t at = 1;
    struct hyssop_writer writer = begin(1000);
    HAS_FAULT(HYSSOP_FAULT_SHORT_HEADER, hyssop_add_fields(w));
    HAS_FAULT(HYSSOP_FAULT_SHORT_HEADER, hyssop_add_structure(w, 0, &at));
    want(at == 0);
    HAS_FAULT(HYSSOP_FAULT_SHORT_HEADER, hyssop_end_structure(w, 0));
    HAS_FAULT(HYSSOP_FAULT_SHORT_HEADER, hyssop_set_number(w, 0, "Length", 0));
    HAS_FAULT(HYSSOP_FAULT_SHORT_HEADER, hyssop_set_bytes(w, 0, "Length", "", 0));
    HAS_FAULT(HYSSOP_FAULT_OUTSIDE, hyssop_overwrite(w, 0, "x", 1));
    HAS_FAULT(HYSSOP_FAULT_OUTSIDE, hyssop_overwrite(w, SIZE_MAX, "xy", 2));
    HAS_FAULT(HYSSOP_FAULT_WANTS_NUMBER, hyssop_add_number(w, 9, 0));
    HAS_FAULT(HYSSOP_FAULT_WANTS_NUMBER, hyssop_add_number(w, SIZE_MAX, 0));
    HAS_FAULT(HYSSOP_FAULT_WANTS_NUMBER, hyssop_add_number(w, 0, 1));
    HAS_FAULT(HYSSOP_FAULT_WANTS_NUMBER, hyssop_add_number(w, 7, (uint64_t)1 << 56));
    HAS_FAULT(HYSSOP_FAULT_NULL, hyssop_set_number(w, 0, NULL, 0));
    HAS_FAULT(HYSSOP_FAULT_NULL, hyssop_set_bytes(w, 0, NULL, "", 0));
    HAS_FAULT(HYSSOP_FAULT_NULL, hyssop_set_bytes(w, 0, "Length", NULL, 1));
    HAS_FAULT(HYSSOP_FAULT_NULL, hyssop_overwrite(w, 0, NULL, 1));
    want(hyssop_add_fields(NULL) == HYSSOP_FAULT_NULL && hyssop_end_structure(NULL, 0) == HYSSOP_FAULT_NULL);
    at = 1;
    want(hyssop_add_structure(NULL, 0, &at) == HYSSOP_FAULT_NULL && at == 0);
    want(hyssop_add_structure(NULL, 0, NULL) == HYSSOP_FAULT_NULL && hyssop_add_number(NULL, 1, 0) == HYSSOP_FAULT_NULL);
    writer = begin_table(1000, "APIC");
    HAS_FAULT(HYSSOP_FAULT_WANTS_WHOLE, hyssop_add_structure(w, 0, &at));
    want(hyssop_add_fields(&writer) == 0 && writer.state.size == 44);
    want(hyssop_add_fields(&writer) == 0 && writer.state.size == 44);
    HAS_FAULT(HYSSOP_FAULT_WANTS_STRUCTURE, hyssop_add_structure(w, 200, &at));
    HAS_FAULT(HYSSOP_FAULT_WANTS_STRUCTURE, hyssop_add_structure(w, UINT32_MAX, &at));
    want(hyssop_add_structure(&writer, 0, &at) == 0 && at == 44);
    HAS_FAULT(HYSSOP_FAULT_WANTS_NUMBER, hyssop_set_number(w, at, "APIC ID", 256));
    HAS_FAULT(HYSSOP_FAULT_WANTS_NUMBER, hyssop_set_number(w, at, "Flags", UINT64_MAX));
    HAS_FAULT(HYSSOP_FAULT_WANTS_FIELD_OF, hyssop_set_number(w, at, "APIC", 1));
    HAS_FAULT(HYSSOP_FAULT_WANTS_FIELD_OF, hyssop_set_number(w, at, "", 1));
    HAS_FAULT(HYSSOP_FAULT_WANTS_FIELD_OF, hyssop_set_number(w, 0, "APIC ID", 1));
    HAS_FAULT(HYSSOP_FAULT_WANTS_FIELD_OF, hyssop_set_bytes(w, at, "Apic ID", "\x01", 1));
    HAS_FAULT(HYSSOP_FAULT_WANTS_WIDTH, hyssop_set_bytes(w, at, "Flags", "\x01", 1));
    HAS_FAULT(HYSSOP_FAULT_WANTS_WIDTH, hyssop_set_bytes(w, at, "Flags", NULL, 0));
    HAS_FAULT(HYSSOP_FAULT_OUTSIDE, hyssop_set_number(w, 53, "APIC ID", 1));
    HAS_FAULT(HYSSOP_FAULT_OUTSIDE, hyssop_set_bytes(w, SIZE_MAX, "APIC ID", "\x01", 1));
    HAS_FAULT(HYSSOP_FAULT_OUTSIDE, hyssop_end_structure(w, 53));
    HAS_FAULT(HYSSOP_FAULT_OUTSIDE, hyssop_overwrite(w, 51, "\x01\x02", 2));
    want(hyssop_overwrite(&writer, 51, "\x7f", 1) == 0 && writer.bytes[51] == 0x7f);
    want(hyssop_overwrite(&writer, 52, NULL, 0) == 0);
    /* The length of a structure of a MADT has one byte. */
    want(hyssop_bytes(&writer, many, 247) == 0 && hyssop_end_structure(&writer, at) == 0 && writer.bytes[45] == 255);
    want(hyssop_bytes(&writer, many, 1) == 0);
    HAS_FAULT(HYSSOP_FAULT_STRUCTURE, hyssop_end_structure(w, at));
    writer = begin_table(1000, "DSDT");
    HAS_FAULT(HYSSOP_FAULT_WANTS_STRUCTURE, hyssop_add_structure(w, 0, &at));
    HAS_FAULT(HYSSOP_FAULT_WANTS_STRUCTURE, hyssop_end_structure(w, 36));
    HAS_FAULT(HYSSOP_FAULT_WANTS_FIELD_OF, hyssop_set_number(w, 36, "Length", 1));
    want(hyssop_set_number(&writer, 0, "Revision", 9) == 0 && writer.bytes[8] == 9);
    want(hyssop_set_bytes(&writer, 0, "OEM ID", "abcdef", 6) == 0 && memcmp(writer.bytes + 10, "abcdef", 6) == 0);
    writer.state.size = 1001;
    HAS_FAULT(HYSSOP_FAULT_SHORT_HEADER, hyssop_add_fields(w));
    HAS_FAULT(HYSSOP_FAULT_OUTSIDE, hyssop_overwrite(w, 0, "x", 1));
    writer.state.size = SIZE_MAX;
    HAS_FAULT(HYSSOP_FAULT_SHORT_HEADER, hyssop_set_number(w, 0, "Length", 1));
    HAS_FAULT(HYSSOP_FAULT_BUFFER, hyssop_add_number(w, 1, 0));
}

/* Random tables and states: a call stays inside the buffer. */
static void try_random_structures(void) {
    static const char *const signatures[] = {"APIC", "SRAT", "HEST", "IORT", "FACP", "TCPA", "SPCR", "DBG2", "HMAT", "OEM1"};
    static const char *const names[] = {"Type", "Length", "Flags", "Reserved", "Revision", "Address", "PCI Segment", "?"};
    static uint8_t bytes[300];
    for (int run = 0; run < RUNS; run++) {
        size_t space = any(300), at = any(400);
        struct hyssop_writer writer = begin_table(space, signatures[any(10)]);
        if (any(2) == 0)
            (void)hyssop_add_fields(&writer);
        for (size_t i = any(20); i > 0; i--) {
            writer.state.fault = 0;
            switch (any(9)) {
            case 0: (void)hyssop_add_structure(&writer, (uint32_t)any(16), &at); break;
            case 1: (void)hyssop_end_structure(&writer, at); break;
            case 2: (void)hyssop_set_number(&writer, at, names[any(8)], any(300)); break;
            case 3: (void)hyssop_set_bytes(&writer, at, names[any(8)], bytes, any(20)); break;
            case 4: (void)hyssop_overwrite(&writer, at + any(20), bytes, any(20)); break;
            case 5: (void)hyssop_add_number(&writer, any(10), any(70000)); break;
            case 6: (void)hyssop_add_fields(&writer); break;
            case 7: (void)hyssop_add_structure_bytes(&writer, bytes, any(20), &at); break;
            default: at = any(300); break;
            }
            want(writer.state.size <= space && is_blank(writer.bytes + writer.state.size, space - writer.state.size));
        }
    }
}

static void *write_one(void *unused) {
    struct hyssop_writer writer = begin_table(PLENTY, "APIC");
    write_madt(&writer);
    want(finish(&writer) == 0);
    return unused;
}

/* An RSDP (5.2.5.3) of revision 0, whose checksum is at offset 8, at each offset and cut. */
static void try_find(void) {
    static const uint8_t pointer[20] = "RSD PTR \x28" "FOOBAR\0\x78\x56\x34";
    uint8_t bytes[100], sum = 0;
    size_t at = 1;
    for (size_t i = 0; i < 20; i++)
        sum = (uint8_t)(sum + pointer[i]);
    for (size_t start = 0; start <= 80; start++) {
        memset(bytes, 0, sizeof bytes);
        memcpy(bytes + start, pointer, 20);
        bytes[start + 8] = (uint8_t)(bytes[start + 8] - sum);
        for (size_t end = 0; end <= sizeof bytes; end++) {
            int is = start % 16 == 0 && start + 20 <= end;
            want(hyssop_find_rsdp(put(input, bytes, end), end, &at) == (is ? HYSSOP_FINE : HYSSOP_FAULT_NO_POINTER));
            want(at == (is ? start : 0));
        }
        bytes[start + 19] ^= 1;
        want(hyssop_find_rsdp(bytes, sizeof bytes, &at) == HYSSOP_FAULT_NO_POINTER && at == 0);
        bytes[start + 19] ^= 1;
        bytes[start + 7] = 0x21;
        want(hyssop_find_rsdp(bytes, sizeof bytes, NULL) == HYSSOP_FAULT_NO_POINTER);
    }
    /* The first of two. */
    memset(bytes, 0, sizeof bytes);
    memcpy(bytes + 16, pointer, 20);
    bytes[16 + 8] = (uint8_t)(bytes[16 + 8] - sum);
    memcpy(bytes + 48, bytes + 16, 20);
    want(hyssop_find_rsdp(bytes, sizeof bytes, &at) == 0 && at == 16);
    want(hyssop_find_rsdp(bytes + 32, 68, &at) == 0 && at == 16);
    want(hyssop_find_rsdp(NULL, 0, &at) == HYSSOP_FAULT_NO_POINTER && at == 0);
    at = 1;
    want(hyssop_find_rsdp(NULL, 1, &at) == HYSSOP_FAULT_NULL && at == 0 && hyssop_find_rsdp(NULL, 1, NULL) == HYSSOP_FAULT_NULL);
}

static void try_added(void) {
    try_madt();
    try_counted();
    try_whole_structures();
    try_structure_faults();
    try_random_structures();
    with_stack(128 * 1024, write_one);
    try_find();
}
