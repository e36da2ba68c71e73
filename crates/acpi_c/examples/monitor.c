/* Builds the tables of a guest, as a monitor does, and lays them into an image. The machines are those of acpi_example, whose
   tables have the same bytes: QEMU's q35 with 512 MiB, and an Arm machine, each with two processors.

   monitor FOLDER BASE
   monitor arm FOLDER BASE
       Each table is written to a file of the folder, and the image to `image`. BASE is the physical address of the image's first
       byte in hexadecimal, a multiple of 64. */
#include "hyssop.h"
#include <stdio.h>
#include <stdlib.h>
#include <string.h>

#define PROCESSORS 2

static const char *folder;
static uint8_t tables[1 << 16], image[1 << 17];
static size_t tables_size;

/* Prints a fault and ends, if there is one. */
static void want(const char *what, enum hyssop_fault fault, uint64_t place) {
    if (fault == HYSSOP_FINE)
        return;
    fprintf(stderr, "%s: %s, at 0x%llx\n", what, hyssop_fault_words(fault), (unsigned long long)place);
    exit(1);
}

static void save(const char *name, const uint8_t *bytes, size_t size) {
    char path[4096];
    snprintf(path, sizeof path, "%s/%s", folder, name);
    FILE *file = fopen(path, "wb");
    if (file == NULL || fwrite(bytes, 1, size, file) != size || fclose(file) != 0) {
        perror(path);
        exit(1);
    }
}

/* ---- tables one after another */

/* Begins a table after those that are there: its header, and its own fields before any structures. */
static void begin(struct hyssop_writer *writer, const char *signature, uint8_t revision) {
    hyssop_begin(writer, tables + tables_size, sizeof tables - tables_size);
    hyssop_table(writer, signature, revision, "FOOBAR", "CAFEDEAD", 0xdeadbeef);
    hyssop_add_fields(writer);
}

/* Ends a table, and writes it to a file. This is where a fault of any call before shows. */
static void end(struct hyssop_writer *writer, const char *name) {
    size_t size = 0;
    uint64_t place = 0;
    want(name, hyssop_finish_table(writer, &size, &place), place);
    save(name, tables + tables_size, size);
    tables_size += size;
}

/* The address of a register (ACPI 6.5, 5.2.3.2) in the field with a name. */
static void set_register(struct hyssop_writer *writer, size_t offset, const char *name, uint8_t space, uint8_t bits,
                         uint8_t access, uint64_t address) {
    uint8_t bytes[12] = {space, bits, 0, access};
    for (int i = 0; i < 8; i++)
        bytes[4 + i] = (uint8_t)(address >> 8 * i);
    hyssop_set_bytes(writer, offset, name, bytes, sizeof bytes);
}

/* Numbers of 4 bytes, one after another. */
static void add_dwords(struct hyssop_writer *writer, const uint32_t *numbers, size_t count) {
    for (size_t i = 0; i < count; i++)
        hyssop_add_number(writer, 4, numbers[i]);
}

/* ---- AML */

static void name_id(struct hyssop_writer *writer, const char *name, const char *id) {
    hyssop_name(writer, name);
    hyssop_eisa_id(writer, id);
}

static void name_number(struct hyssop_writer *writer, const char *name, uint64_t number) {
    hyssop_name(writer, name);
    hyssop_integer(writer, number);
}

/* Processors with the ids 0, 1 and so on, as in the MADT. */
static void add_processors(struct hyssop_writer *writer) {
    for (unsigned i = 0; i < PROCESSORS; i++) {
        char path[16];
        snprintf(path, sizeof path, "_SB_.C%03u", i);
        hyssop_open_device(writer, path);
        hyssop_name(writer, "_HID");
        hyssop_string(writer, "ACPI0007");
        name_number(writer, "_UID", i);
        hyssop_close(writer);
    }
}

/* Reads what a definition block contains. */
static void check_block(const char *name, size_t start) {
    uint64_t place = 0;
    want(name, hyssop_check_aml(tables + start + 36, tables_size - start - 36, NULL, 0, &place), place);
}

/* The configuration space of all buses (PCI Firmware 3.3, 4.1.2). */
static void make_mcfg(uint64_t address) {
    struct hyssop_writer writer;
    size_t at = 0;
    begin(&writer, "MCFG", 1);
    hyssop_add_structure(&writer, 0, &at);
    hyssop_set_number(&writer, at, "Base Address", address);
    hyssop_set_number(&writer, at, "End Bus Number", 0xff);
    end(&writer, "mcfg");
}

/* ---- a PC */

static void make_q35_namespace(void) {
    struct hyssop_writer writer;
    size_t start = tables_size;
    begin(&writer, "DSDT", 2);
    hyssop_open_device(&writer, "_SB_.PCI0");
    name_id(&writer, "_HID", "PNP0A08");
    name_id(&writer, "_CID", "PNP0A03");
    name_number(&writer, "_SEG", 0);
    name_number(&writer, "_UID", 0);
    hyssop_name(&writer, "_CRS");
    hyssop_open_resources(&writer);
    hyssop_bus_numbers(&writer, 0, 0xff);
    hyssop_io(&writer, 0xcf8, 0xcf8, 1, 8);
    hyssop_io_range(&writer, 0, 0xcf7, 0);
    hyssop_io_range(&writer, 0xd00, 0xffff, 0);
    hyssop_memory_range32(&writer, HYSSOP_MEMORY_NOT_CACHEABLE, 1, 0xc0000000, 0xfebfffff, 0);
    hyssop_close(&writer);
    hyssop_close(&writer);

    hyssop_open_device(&writer, "_SB_.COM1");
    name_id(&writer, "_HID", "PNP0501");
    hyssop_name(&writer, "_CRS");
    hyssop_open_resources(&writer);
    hyssop_interrupt(&writer, 1, 1, 0, 0, 4);
    hyssop_io(&writer, 0x3f8, 0x3f8, 0, 8);
    hyssop_close(&writer);
    hyssop_open_method(&writer, "_STA", 0, 0);
    hyssop_operator(&writer, HYSSOP_OP_RETURN);
    hyssop_integer(&writer, 15);
    hyssop_close(&writer);
    hyssop_close(&writer);

    add_processors(&writer);
    hyssop_name(&writer, "\\_S5_");
    hyssop_open_package(&writer, 4);
    for (int i = 0; i < 4; i++)
        hyssop_integer(&writer, 0);
    hyssop_close(&writer);
    end(&writer, "namespace");
    check_block("namespace", start);
}

/* The fixed hardware (5.2.9). Its pointers are set when the tables are laid. */
static void make_q35_fadt(void) {
    struct hyssop_writer writer;
    begin(&writer, "FACP", 6);
    hyssop_set_number(&writer, 0, "FADT Minor Version", 5);
    hyssop_set_number(&writer, 0, "SCI_INT", 9);
    hyssop_set_number(&writer, 0, "PM1a_EVT_BLK", 0x600);
    hyssop_set_number(&writer, 0, "PM1_EVT_LEN", 4);
    set_register(&writer, 0, "X_PM1a_EVT_BLK", 1, 32, 2, 0x600);
    hyssop_set_number(&writer, 0, "PM1a_CNT_BLK", 0x604);
    hyssop_set_number(&writer, 0, "PM1_CNT_LEN", 2);
    set_register(&writer, 0, "X_PM1a_CNT_BLK", 1, 16, 2, 0x604);
    hyssop_set_number(&writer, 0, "PM_TMR_BLK", 0x608);
    hyssop_set_number(&writer, 0, "PM_TMR_LEN", 4);
    set_register(&writer, 0, "X_PM_TMR_BLK", 1, 32, 3, 0x608);
    hyssop_set_number(&writer, 0, "GPE0_BLK", 0x620);
    hyssop_set_number(&writer, 0, "GPE0_BLK_LEN", 16);
    set_register(&writer, 0, "X_GPE0_BLK", 1, 128, 1, 0x620);
    /* WBINVD, PROC_C1, PWR_BUTTON, SLP_BUTTON, TMR_VAL_EXT */
    hyssop_set_number(&writer, 0, "Flags", 0x135);
    end(&writer, "fadt");
}

/* Interrupts (5.2.12): local APICs, an I/O APIC, the timer, which comes to its input 2, and ACPI's own. */
static void make_q35_madt(void) {
    struct hyssop_writer writer;
    size_t at = 0;
    begin(&writer, "APIC", 1);
    hyssop_set_number(&writer, 0, "Local Interrupt Controller Address", 0xfee00000);
    for (unsigned i = 0; i < PROCESSORS; i++) {
        hyssop_add_structure(&writer, 0, &at);
        hyssop_set_number(&writer, at, "ACPI Processor UID", i);
        hyssop_set_number(&writer, at, "APIC ID", i);
        hyssop_set_number(&writer, at, "Flags", 1);
    }
    hyssop_add_structure(&writer, 1, &at);
    hyssop_set_number(&writer, at, "I/O APIC Address", 0xfec00000);
    hyssop_add_structure(&writer, 2, &at);
    hyssop_set_number(&writer, at, "Global System Interrupt", 2);
    hyssop_add_structure(&writer, 2, &at);
    hyssop_set_number(&writer, at, "Source", 9);
    hyssop_set_number(&writer, at, "Global System Interrupt", 9);
    hyssop_set_number(&writer, at, "Flags", 0xd); /* active high, by level */
    end(&writer, "madt");
}

/* A cache of these sets and ways, with lines of 64 bytes (5.2.30.2). */
static size_t add_cache(struct hyssop_writer *writer, uint32_t id, uint8_t attributes, uint16_t sets, uint8_t ways, size_t next) {
    size_t at = 0;
    hyssop_add_structure(writer, 1, &at);
    hyssop_set_number(writer, at, "Flags", 0xff);
    hyssop_set_number(writer, at, "Next Level of Cache", next);
    hyssop_set_number(writer, at, "Size", 64u * sets * ways);
    hyssop_set_number(writer, at, "Number of sets", sets);
    hyssop_set_number(writer, at, "Associativity", ways);
    hyssop_set_number(writer, at, "Attributes", attributes);
    hyssop_set_number(writer, at, "Line size", 64);
    hyssop_set_number(writer, at, "Cache ID", id);
    return at;
}

/* A node of a processor or of a package, with its own caches (5.2.30.1). */
static size_t add_node(struct hyssop_writer *writer, uint32_t flags, size_t parent, uint32_t id, const uint32_t *caches,
                       size_t count) {
    size_t at = 0;
    hyssop_add_structure(writer, 0, &at);
    hyssop_set_number(writer, at, "Flags", flags);
    hyssop_set_number(writer, at, "Parent", parent);
    hyssop_set_number(writer, at, "ACPI Processor ID", id);
    hyssop_set_number(writer, at, "Number of private resources", count);
    add_dwords(writer, caches, count);
    hyssop_end_structure(writer, at);
    return at;
}

/* Packages of one core each (5.2.30). The attributes of a cache: both allocate, and unified, data or instructions. */
static void make_q35_pptt(void) {
    struct hyssop_writer writer;
    begin(&writer, "PPTT", 3);
    for (uint32_t i = 0; i < PROCESSORS; i++) {
        uint32_t shared = (uint32_t)add_cache(&writer, 1 + 4 * i, 0xa, 8192, 16, 0);
        size_t package = add_node(&writer, 0x11, 0, 0, &shared, 1);
        size_t second = add_cache(&writer, 2 + 4 * i, 0xa, 2048, 8, 0);
        uint32_t own[2];
        own[0] = (uint32_t)add_cache(&writer, 3 + 4 * i, 0x2, 64, 8, second);
        own[1] = (uint32_t)add_cache(&writer, 4 + 4 * i, 0x6, 64, 8, second);
        add_node(&writer, 0xa, package, i, own, 2);
    }
    end(&writer, "pptt");
}

/* Two domains, each with a processor and 256 MiB (5.2.16). A memory range has its length at offset 16, after another field with
   this name. */
static void make_q35_srat(void) {
    static const uint8_t range[8] = {0, 0, 0, 0x10};
    struct hyssop_writer writer;
    size_t at = 0;
    begin(&writer, "SRAT", 1);
    hyssop_overwrite(&writer, 36, "\x01", 1);
    for (unsigned i = 0; i < PROCESSORS; i++) {
        hyssop_add_structure(&writer, 0, &at);
        hyssop_set_number(&writer, at, "Proximity Domain [7-0]", i);
        hyssop_set_number(&writer, at, "APIC ID", i);
        hyssop_set_number(&writer, at, "Flags", 1);
    }
    for (unsigned i = 0; i < 2; i++) {
        hyssop_add_structure(&writer, 1, &at);
        hyssop_set_number(&writer, at, "Proximity Domain", i);
        hyssop_set_number(&writer, at, "Base Address", 0x10000000 * i);
        hyssop_overwrite(&writer, at + 16, range, sizeof range);
        hyssop_set_number(&writer, at, "Flags", 1);
    }
    end(&writer, "srat");
}

/* Distances: 10 to a domain's own memory, and 20 to the other's (5.2.17). */
static void make_q35_slit(void) {
    static const uint8_t distances[4] = {10, 20, 20, 10};
    struct hyssop_writer writer;
    begin(&writer, "SLIT", 1);
    hyssop_set_number(&writer, 0, "Number of System Localities", 2);
    hyssop_bytes(&writer, distances, sizeof distances);
    end(&writer, "slit");
}

/* A matrix of the two domains (5.2.28.4): the entry for a processor's own domain, and the one for the other domain. */
static void add_matrix(struct hyssop_writer *writer, uint8_t data, uint16_t near, uint16_t far) {
    static const uint32_t domains[4] = {0, 1, 0, 1};
    const uint16_t entries[4] = {near, far, far, near};
    size_t at = 0;
    hyssop_add_structure(writer, 1, &at);
    hyssop_set_number(writer, at, "Data Type", data);
    hyssop_set_number(writer, at, "Number of Initiator Proximity Domains", 2);
    hyssop_set_number(writer, at, "Number of Target Proximity Domains", 2);
    hyssop_set_number(writer, at, "Entry Base Unit", 1000);
    add_dwords(writer, domains, 4);
    for (int i = 0; i < 4; i++)
        hyssop_add_number(writer, 2, entries[i]);
    hyssop_end_structure(writer, at);
}

static void make_q35_hmat(void) {
    struct hyssop_writer writer;
    size_t at = 0;
    begin(&writer, "HMAT", 1);
    for (unsigned i = 0; i < 2; i++) {
        hyssop_add_structure(&writer, 0, &at);
        hyssop_set_number(&writer, at, "Flags", 1);
        hyssop_set_number(&writer, at, "Proximity Domain for the Attached Initiator", i);
        hyssop_set_number(&writer, at, "Proximity Domain for the Memory", i);
    }
    add_matrix(&writer, 0, 80, 160); /* nanoseconds of an access */
    add_matrix(&writer, 3, 40, 20);  /* 1,000 megabytes a second */
    end(&writer, "hmat");
}

/* Sources of errors (18.3.2): root ports of PCI Express, and firmware, which writes to a page that is polled. A generic source
   has its notification at offset 32. */
static void make_q35_hest(uint64_t base) {
    static const uint8_t polled[8] = {0, 28, 0, 0, 0xe8, 3}; /* each 1,000 milliseconds */
    struct hyssop_writer writer;
    size_t at = 0;
    begin(&writer, "HEST", 1);
    hyssop_add_structure(&writer, 6, &at);
    hyssop_set_number(&writer, at, "Flags", 2); /* GLOBAL */
    hyssop_set_number(&writer, at, "Enabled", 1);
    hyssop_add_structure(&writer, 9, &at);
    hyssop_set_number(&writer, at, "Source Id", 1);
    hyssop_set_number(&writer, at, "Related Source Id", 0xffff);
    hyssop_set_number(&writer, at, "Enabled", 1);
    hyssop_set_number(&writer, at, "Number of Records to Pre-allocate", 1);
    hyssop_set_number(&writer, at, "Max Sections Per Record", 1);
    hyssop_set_number(&writer, at, "Max Raw Data Length", 0x1000);
    set_register(&writer, at, "Error Status Address", 0, 64, 4, base + 0x100000);
    hyssop_overwrite(&writer, at + 32, polled, sizeof polled);
    hyssop_set_number(&writer, at, "Error Status Block Length", 0x1000);
    end(&writer, "hest");
}

static void make_q35_bert(uint64_t base) {
    struct hyssop_writer writer;
    begin(&writer, "BERT", 1);
    hyssop_set_number(&writer, 0, "Boot Error Region Length", 0x1000);
    hyssop_set_number(&writer, 0, "Boot Error Region", base + 0x110000);
    end(&writer, "bert");
}

/* A FACS (5.2.10), which has no header like that of the others. */
static void make_facs(void) {
    static const char text[] = "FACS\n"
                               "  Signature: \"FACS\"\n"
                               "  Length: ????????\n"
                               "  Hardware Signature: #0\n"
                               "  Firmware Waking Vector: #0\n"
                               "  Global Lock: #0\n"
                               "  Flags: #0\n"
                               "  X Firmware Waking Vector: #0\n"
                               "  Version: #1\n"
                               "  Reserved: 00 00 00\n"
                               "  OSPM Flags: #0\n"
                               "  Reserved: 00 00 00 00 00 00 00 00 00 00 00 00 00 00 00 00 00 00 00 00 00 00 00 00\n";
    size_t size = 0;
    uint64_t place = 0;
    want("FACS", hyssop_make(text, sizeof text - 1, tables + tables_size, sizeof tables - tables_size, &size, &place), place);
    tables_size += size;
}

static void make_q35(uint64_t base) {
    make_q35_namespace();
    make_q35_madt();
    make_mcfg(0xb0000000);
    make_q35_srat();
    make_q35_slit();
    make_q35_hmat();
    make_q35_pptt();
    make_q35_hest(base);
    make_q35_bert(base);
    make_q35_fadt();
    make_facs();
}

/* ---- an Arm machine */

static void make_arm_namespace(void) {
    struct hyssop_writer writer;
    size_t start = tables_size;
    begin(&writer, "DSDT", 2);
    hyssop_open_device(&writer, "_SB_.PCI0");
    name_id(&writer, "_HID", "PNP0A08");
    name_id(&writer, "_CID", "PNP0A03");
    name_number(&writer, "_SEG", 0);
    name_number(&writer, "_UID", 0);
    name_number(&writer, "_CCA", 1);
    hyssop_name(&writer, "_CRS");
    hyssop_open_resources(&writer);
    hyssop_bus_numbers(&writer, 0, 0xff);
    hyssop_memory_range32(&writer, HYSSOP_MEMORY_NOT_CACHEABLE, 1, 0x10000000, 0x3efeffff, 0);
    hyssop_io_range32(&writer, 0, 0xffff, 0x3eff0000);
    hyssop_close(&writer);
    hyssop_close(&writer);

    hyssop_open_device(&writer, "_SB_.COM0");
    hyssop_name(&writer, "_HID");
    hyssop_string(&writer, "ARMH0011");
    name_number(&writer, "_UID", 0);
    hyssop_name(&writer, "_CRS");
    hyssop_open_resources(&writer);
    hyssop_memory32_fixed(&writer, 1, 0x9000000, 0x1000);
    hyssop_interrupt(&writer, 1, 0, 0, 0, 33);
    hyssop_close(&writer);
    hyssop_close(&writer);
    add_processors(&writer);
    end(&writer, "namespace");
    check_block("namespace", start);
}

/* The GIC (5.2.12.14 to 5.2.12.18). */
static void make_arm_madt(void) {
    struct hyssop_writer writer;
    size_t at = 0;
    begin(&writer, "APIC", 1);
    hyssop_add_structure(&writer, 12, &at);
    hyssop_set_number(&writer, at, "Physical Base Address", 0x8000000);
    hyssop_set_number(&writer, at, "GIC Version", 3);
    for (unsigned i = 0; i < PROCESSORS; i++) {
        hyssop_add_structure(&writer, 11, &at);
        hyssop_set_number(&writer, at, "CPU Interface Number", i);
        hyssop_set_number(&writer, at, "ACPI Processor UID", i);
        hyssop_set_number(&writer, at, "Flags", 1);
        hyssop_set_number(&writer, at, "Performance Interrupt GSIV", 23);
        hyssop_set_number(&writer, at, "VGIC Maintenance Interrupt", 25);
        hyssop_set_number(&writer, at, "MPIDR", i);
    }
    hyssop_add_structure(&writer, 14, &at);
    hyssop_set_number(&writer, at, "Discovery Range Base Address", 0x80a0000);
    hyssop_set_number(&writer, at, "Discovery Range Length", 0xf60000);
    hyssop_add_structure(&writer, 15, &at);
    hyssop_set_number(&writer, at, "Physical Base Address", 0x8080000);
    end(&writer, "madt");
}

/* The timers of a processor (5.2.25), by level. The non-secure one of EL1 is always on. */
static void make_arm_gtdt(void) {
    struct hyssop_writer writer;
    begin(&writer, "GTDT", 3);
    hyssop_set_number(&writer, 0, "CntControlBase Physical Address", UINT64_MAX);
    hyssop_set_number(&writer, 0, "Secure EL1 Timer GSIV", 29);
    hyssop_set_number(&writer, 0, "Non-Secure EL1 Timer GSIV", 30);
    hyssop_set_number(&writer, 0, "Non-Secure EL1 Timer Flags", 4);
    hyssop_set_number(&writer, 0, "Virtual EL1 Timer GSIV", 27);
    hyssop_set_number(&writer, 0, "EL2 Timer GSIV", 26);
    hyssop_set_number(&writer, 0, "CntReadBase Physical Address", UINT64_MAX);
    hyssop_set_number(&writer, 0, "Platform Timer Offset", 104);
    end(&writer, "gtdt");
}

/* The console (Microsoft, revision 4): the PL011. It has no name in the namespace, which is written as a dot. */
static void make_arm_spcr(void) {
    struct hyssop_writer writer;
    begin(&writer, "SPCR", 4);
    hyssop_set_number(&writer, 0, "Interface Type", 3);
    set_register(&writer, 0, "Base Address", 0, 32, 3, 0x9000000);
    hyssop_set_number(&writer, 0, "Interrupt Type", 8);
    hyssop_set_number(&writer, 0, "Global System Interrupt", 33);
    hyssop_set_number(&writer, 0, "Configured Baud Rate", 7);
    hyssop_set_number(&writer, 0, "Stop Bits", 1);
    hyssop_set_number(&writer, 0, "PCI Device ID", 0xffff);
    hyssop_set_number(&writer, 0, "PCI Vendor ID", 0xffff);
    hyssop_set_number(&writer, 0, "NamespaceStringLength", 2);
    hyssop_set_number(&writer, 0, "NamespaceStringOffset", 88);
    hyssop_bytes(&writer, ".", 2);
    end(&writer, "spcr");
}

/* The port for debuggers (Microsoft): the PL011, by its full name. */
static void make_arm_dbg2(void) {
    static const uint8_t registers[16] = {0, 32, 0, 3, 0, 0, 0, 9, 0, 0, 0, 0, 0, 0x10};
    static const char name[] = "\\_SB.COM0";
    struct hyssop_writer writer;
    size_t at = 0;
    begin(&writer, "DBG2", 0);
    hyssop_add_structure(&writer, 0, &at);
    hyssop_set_number(&writer, at, "NumberofGenericAddressRegisters", 1);
    hyssop_set_number(&writer, at, "NamespaceStringLength", sizeof name);
    hyssop_set_number(&writer, at, "NamespaceStringOffset", 38);
    hyssop_set_number(&writer, at, "Port Type", 0x8000);
    hyssop_set_number(&writer, at, "Port Subtype", 3);
    hyssop_set_number(&writer, at, "BaseAddressRegisterOffset", 22);
    hyssop_set_number(&writer, at, "AddressSizeOffset", 34);
    hyssop_bytes(&writer, registers, sizeof registers);
    hyssop_bytes(&writer, name, sizeof name);
    hyssop_end_structure(&writer, at);
    end(&writer, "dbg2");
}

/* Begins a node with a mapping of all 65,536 ids, which stay the same. */
static size_t add_iort_node(struct hyssop_writer *writer, uint32_t type, uint8_t revision, uint32_t id) {
    size_t at = 0;
    hyssop_add_structure(writer, type, &at);
    hyssop_set_number(writer, at, "Revision", revision);
    hyssop_set_number(writer, at, "Identifier", id);
    return at;
}

static void add_mapping(struct hyssop_writer *writer, size_t at, uint32_t start, size_t to) {
    const uint32_t mapping[5] = {0, 0xffff, 0, (uint32_t)to, 0};
    hyssop_set_number(writer, at, "Number of ID Mappings", 1);
    hyssop_set_number(writer, at, "Reference to ID Array", start);
    add_dwords(writer, mapping, 5);
    hyssop_end_structure(writer, at);
}

/* The way of a device's accesses (DEN0049): from the root complex through the SMMU to the interrupt translation service. */
static void make_arm_iort(void) {
    static const uint8_t rest[7] = {0};
    struct hyssop_writer writer;
    begin(&writer, "IORT", 5);
    size_t service = add_iort_node(&writer, 0, 1, 0);
    hyssop_set_number(&writer, service, "Number of ITSs", 1);
    hyssop_add_number(&writer, 4, 0);
    hyssop_end_structure(&writer, service);

    size_t smmu = add_iort_node(&writer, 4, 4, 1);
    hyssop_set_number(&writer, smmu, "Base Address", 0x9050000);
    hyssop_set_number(&writer, smmu, "Flags", 1); /* COHACC Override */
    hyssop_set_number(&writer, smmu, "Event GSIV", 106);
    hyssop_set_number(&writer, smmu, "PRI GSIV", 107);
    hyssop_set_number(&writer, smmu, "Sync GSIV", 108);
    hyssop_set_number(&writer, smmu, "GERR GSIV", 109);
    add_mapping(&writer, smmu, 68, service);

    size_t complex = add_iort_node(&writer, 2, 4, 2);
    hyssop_set_number(&writer, complex, "Cache Coherent Attribute", 1);
    hyssop_set_number(&writer, complex, "Memory Access Flags", 3);
    hyssop_set_number(&writer, complex, "Memory Address Size Limit", 64);
    hyssop_bytes(&writer, rest, sizeof rest); /* no PASID */
    add_mapping(&writer, complex, 40, smmu);
    end(&writer, "iort");
}

/* No fixed hardware (5.2.9): HW_REDUCED_ACPI, and PSCI by HVC. */
static void make_arm_fadt(void) {
    struct hyssop_writer writer;
    size_t size = 0;
    uint64_t place = 0;
    begin(&writer, "FACP", 6);
    hyssop_set_number(&writer, 0, "FADT Minor Version", 5);
    hyssop_set_number(&writer, 0, "Flags", 0x100000);
    hyssop_set_number(&writer, 0, "ARM_BOOT_ARCH", 3);
    want("fadt", hyssop_finish_table(&writer, &size, &place), place);
    tables_size += size;
}

static void make_arm(void) {
    make_arm_namespace();
    make_arm_madt();
    make_arm_gtdt();
    make_arm_spcr();
    make_arm_dbg2();
    make_mcfg(0x4010000000);
    make_arm_iort();
    make_arm_fadt();
}

int main(int count, char **words) {
    int arm = count > 1 && strcmp(words[1], "arm") == 0;
    if (count != 3 + arm || hyssop_version() != HYSSOP_VERSION)
        return 2;
    folder = words[1 + arm];
    uint64_t base = strtoull(words[2 + arm], NULL, 16), rsdp = 0, place = 0;
    size_t size = 0;
    if (arm)
        make_arm();
    else
        make_q35(base);
    want("tables", hyssop_lay(tables, tables_size, base, image, sizeof image, &size, &rsdp, &place), place);
    want("image", hyssop_check_image(image, size, base, rsdp, &place), place);
    save("image", image, size);
    printf("base 0x%llx RSDP 0x%llx\n", (unsigned long long)base, (unsigned long long)rsdp);
    return 0;
}
