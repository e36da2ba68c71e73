/* Checks the tables in a folder and an image of tables, and makes a MADT from a text.
   check FOLDER IMAGE BASE RSDP, with the physical addresses of the image's first byte and of its RSDP in hexadecimal. */
#include "hyssop.h"
#include <dirent.h>
#include <stdio.h>
#include <stdlib.h>

static uint8_t bytes[1 << 24];

/* A MADT (ACPI 6.5, 5.2.12) of one processor, without its length, its checksum and the length of its structure. */
static const char text[] = "Signature: \"APIC\"\n  Signature: \"APIC\"\n  Length: ????????\n  Revision: 05\n  Checksum: ??\n"
                           "  OEM ID: \"FOOBAR\"\n  OEM Table ID: \"CAFEDEAD\"\n  OEM Revision: 00000001\n"
                           "  Creator ID: \"RVAT\"\n  Creator Revision: 00000001\n"
                           "  Local Interrupt Controller Address: fee00000\n  Flags: 00000001\n"
                           "Processor Local APIC Structure\n  Type: 00\n  Length: ??\n  ACPI Processor UID: 00\n"
                           "  APIC ID: 00\n  Flags: 00000001\n";

/* Prints what a call returned, and returns whether that is a fault. */
static int tell(const char *name, enum hyssop_fault fault, const char *at, uint64_t place) {
    printf("%s: %s", name, hyssop_fault_words(fault));
    if (fault == HYSSOP_FINE)
        printf("\n");
    else
        printf("%s%llx\n", at, (unsigned long long)place);
    return fault != HYSSOP_FINE;
}

/* Reads a file into `bytes`, and returns how many there are. */
static size_t read_file(const char *path) {
    FILE *file = fopen(path, "rb");
    if (file == NULL) {
        perror(path);
        exit(2);
    }
    size_t size = fread(bytes, 1, sizeof bytes, file);
    if (size == sizeof bytes) {
        fprintf(stderr, "%s: larger than this example reads\n", path);
        exit(2);
    }
    fclose(file);
    return size;
}

static int check_folder(const char *name) {
    char path[4096];
    int faults = 0;
    uint64_t place = 0;
    struct dirent *entry = NULL;
    DIR *folder = opendir(name);
    while (folder != NULL && (entry = readdir(folder)) != NULL)
        if (entry->d_name[0] != '.') {
            snprintf(path, sizeof path, "%s/%s", name, entry->d_name);
            size_t size = read_file(path);
            enum hyssop_fault fault = hyssop_check_table(bytes, size, &place);
            faults += tell(entry->d_name, fault, ", offset 0x", place);
        }
    return folder == NULL || closedir(folder) != 0 ? 1 : faults;
}

static int make_madt(void) {
    uint64_t line = 0;
    size_t size = 0, notes = 0;
    enum hyssop_fault fault = hyssop_make(text, sizeof text - 1, bytes, sizeof bytes, &size, &line);
    if (fault == HYSSOP_FINE)
        fault = hyssop_make_notes(text, sizeof text - 1, NULL, 0, &notes, &line);
    if (tell("a MADT of a text", fault, ", line 0x", line))
        return 1;
    printf("its length is %zu, its checksum 0x%02x\n", size, bytes[9]);
    return 0;
}

int main(int count, char **words) {
    if (count != 5 || hyssop_version() != HYSSOP_VERSION)
        return 2;
    int faults = check_folder(words[1]);
    size_t size = read_file(words[2]);
    uint64_t place = 0, base = strtoull(words[3], NULL, 16), rsdp = strtoull(words[4], NULL, 16);
    faults += tell(words[2], hyssop_check_image(bytes, size, base, rsdp, &place), ", address 0x", place);
    return faults + make_madt() > 0;
}
