/* Calls every function of hyssop.h at its limits. Buffers end where a page ends, and the next page can't be touched, so a byte
   that is read or written past a buffer ends the program.

   boundary IMAGE BASE RSDP TABLE..
       names, empty input, buffers a byte too small, the image and the tables cut and changed, and random input. The files are
       correct; the addresses of the image's first byte and of its RSDP are in hexadecimal.
   boundary
       what each function returns for one input, with a call that memory.c refused made once more. */
#define _DEFAULT_SOURCE
#include "hyssop.h"
#include "exports.h"
#include <pthread.h>
#include <stdio.h>
#include <stdlib.h>
#include <string.h>
#include <sys/mman.h>
#include <unistd.h>

#define MOST (1 << 20)
#define PLENTY (1 << 16)
#define RUNS 10000
#define UNTOUCHED 0xa5
#define UNTOLD 0xa5a5a5a5a5a5a5a5u

/* Ends the program where a condition doesn't hold. */
#define want(condition) (void)((condition) || (fail(__LINE__, #condition), 0))

static void fail(int line, const char *what) {
    fprintf(stderr, "boundary.c:%d: %s\n", line, what);
    exit(1);
}

/* ---- memory that ends where a page ends */

struct edge {
    uint8_t *end;
};

static struct edge make_edge(void) {
    size_t page = (size_t)sysconf(_SC_PAGESIZE);
    size_t size = MOST + page;
    uint8_t *start = mmap(NULL, size, PROT_READ | PROT_WRITE, MAP_PRIVATE | MAP_ANONYMOUS, -1, 0);
    want(start != MAP_FAILED && mprotect(start + MOST, page, PROT_NONE) == 0);
    return (struct edge){start + MOST};
}

static struct edge input, second, third, output;

static uint8_t *put(struct edge edge, const void *bytes, size_t size) {
    return memmove(edge.end - size, bytes, size);
}

static uint8_t *blank(size_t size) {
    return memset(output.end - size, UNTOUCHED, size);
}

static int is_blank(const uint8_t *bytes, size_t size) {
    while (size > 0 && bytes[size - 1] == UNTOUCHED)
        size--;
    return size == 0;
}

/* ---- calls, each with its input and its output at an edge */

static uint64_t place;
static size_t size;

/* What a function may return that was given this much space. */
static uint32_t kept(uint32_t number, const uint8_t *out, size_t out_size, size_t unit) {
    if (number == 0)
        want(size <= out_size);
    else if (number == HYSSOP_FAULT_BUFFER)
        want(size > out_size && is_blank(out, out_size * unit));
    else
        want(size == 0 && is_blank(out, out_size * unit));
    want(place != UNTOLD && (place == 0 || (number != 0 && number != HYSSOP_FAULT_BUFFER)));
    return number;
}

static uint32_t check_table(const void *bytes, size_t bytes_size) {
    place = UNTOLD;
    return hyssop_check_table(put(input, bytes, bytes_size), bytes_size, &place);
}

static uint32_t check_aml(const void *bytes, size_t bytes_size, const char *arities, size_t arities_size) {
    place = UNTOLD;
    const char *words = (char *)put(second, arities, arities_size);
    return hyssop_check_aml(put(input, bytes, bytes_size), bytes_size, words, arities_size, &place);
}

static uint32_t check_image(const void *bytes, size_t bytes_size, uint64_t base, uint64_t rsdp) {
    place = UNTOLD;
    return hyssop_check_image(put(input, bytes, bytes_size), bytes_size, base, rsdp, &place);
}

static uint32_t image_tables(const void *bytes, size_t bytes_size, uint64_t base, uint64_t rsdp, size_t out_count) {
    uint8_t *out = blank(out_count * sizeof(struct hyssop_image_table));
    struct hyssop_image_table *all = (struct hyssop_image_table *)(void *)out;
    place = UNTOLD;
    uint32_t number = hyssop_image_tables(put(input, bytes, bytes_size), bytes_size, base, rsdp, all, out_count, &size, &place);
    return kept(number, out, out_count, sizeof *all);
}

/* Ranges, whose bytes are at an edge where they are one of the first two. */
static const struct hyssop_range *put_ranges(const struct hyssop_range *ranges, size_t count) {
    static struct hyssop_range placed[9];
    for (size_t i = 0; i < count; i++) {
        placed[i] = ranges[i];
        if (i < 2)
            placed[i].bytes = put(i == 0 ? input : second, ranges[i].bytes, ranges[i].size);
    }
    return (const struct hyssop_range *)(const void *)put(third, placed, count * sizeof *placed);
}

static uint32_t check_memory(const struct hyssop_range *ranges, size_t count, uint64_t rsdp) {
    place = UNTOLD;
    return hyssop_check_memory(put_ranges(ranges, count), count, rsdp, &place);
}

static uint32_t memory_tables(const struct hyssop_range *ranges, size_t count, uint64_t rsdp, size_t out_count) {
    uint8_t *out = blank(out_count * sizeof(struct hyssop_image_table));
    struct hyssop_image_table *all = (struct hyssop_image_table *)(void *)out;
    place = UNTOLD;
    uint32_t number = hyssop_memory_tables(put_ranges(ranges, count), count, rsdp, all, out_count, &size, &place);
    return kept(number, out, out_count, sizeof *all);
}

/* A function that writes a text of a definition block. */
typedef enum hyssop_fault block_text(const void *bytes, size_t bytes_size, const char *arities, size_t arities_size, char *out,
                                     size_t out_size, size_t *size, uint64_t *place);

static uint32_t block(block_text *text, const void *bytes, size_t bytes_size, const char *arities, size_t arities_size,
                      size_t out_size) {
    uint8_t *out = blank(out_size);
    const char *words = (char *)put(second, arities, arities_size);
    place = UNTOLD;
    uint32_t number =
        text(put(input, bytes, bytes_size), bytes_size, words, arities_size, (char *)out, out_size, &size, &place);
    return kept(number, out, out_size, 1);
}

/* The same among further blocks. */
typedef enum hyssop_fault among_text(const void *bytes, size_t bytes_size, const void *further, size_t further_size,
                                     const char *arities, size_t arities_size, char *out, size_t out_size, size_t *size,
                                     size_t *unread, uint64_t *place);

static size_t unread;

static uint32_t among(among_text *text, const void *bytes, size_t bytes_size, const void *further, size_t further_size,
                      const char *arities, size_t out_size) {
    uint8_t *out = blank(out_size);
    size_t length = strlen(arities);
    const char *words = (char *)put(second, arities, length);
    place = UNTOLD;
    unread = SIZE_MAX;
    uint32_t number = text(put(input, bytes, bytes_size), bytes_size, put(third, further, further_size), further_size, words,
                           length, (char *)out, out_size, &size, &unread, &place);
    want(unread != SIZE_MAX && (unread == 0 || number == 0 || number == HYSSOP_FAULT_BUFFER));
    if (number == HYSSOP_FAULT_FURTHER_BLOCK) {
        want(size == 0 && place < further_size && is_blank(out, out_size));
        return number;
    }
    return kept(number, out, out_size, 1);
}

static uint32_t structures(const void *bytes, size_t bytes_size, size_t out_size) {
    uint8_t *out = blank(out_size * sizeof(struct hyssop_structure));
    struct hyssop_structure *all = (struct hyssop_structure *)(void *)out;
    place = UNTOLD;
    uint32_t number = hyssop_table_structures(put(input, bytes, bytes_size), bytes_size, all, out_size, &size, &place);
    return kept(number, out, out_size, sizeof *all);
}

static uint32_t show(const void *bytes, size_t bytes_size, size_t out_size) {
    uint8_t *out = blank(out_size);
    place = UNTOLD;
    return kept(hyssop_show(put(input, bytes, bytes_size), bytes_size, (char *)out, out_size, &size, &place), out, out_size, 1);
}

static uint32_t findings(const void *bytes, size_t bytes_size, size_t out_size) {
    uint8_t *out = blank(out_size);
    place = UNTOLD;
    uint32_t number = hyssop_findings(put(input, bytes, bytes_size), bytes_size, (char *)out, out_size, &size, &place);
    return kept(number, out, out_size, 1);
}

static uint32_t make(const void *text, size_t text_size, size_t out_size) {
    uint8_t *out = blank(out_size);
    place = UNTOLD;
    const char *given = (char *)put(input, text, text_size);
    return kept(hyssop_make(given, text_size, out, out_size, &size, &place), out, out_size, 1);
}

static uint32_t compile(const void *text, size_t text_size, size_t out_size) {
    uint8_t *out = blank(out_size);
    place = UNTOLD;
    const char *given = (char *)put(input, text, text_size);
    return kept(hyssop_compile(given, text_size, out, out_size, &size, &place), out, out_size, 1);
}

static uint32_t template(const void *signature, size_t signature_size, size_t out_size) {
    uint8_t *out = blank(out_size);
    place = 0;
    const char *given = (char *)put(input, signature, signature_size);
    uint32_t number = hyssop_template(given, signature_size, (char *)out, out_size, &size);
    return kept(number, out, out_size, 1);
}

static uint32_t notes(const char *text, size_t text_size, size_t out_count) {
    uint8_t *out = blank(out_count * sizeof(struct hyssop_note));
    struct hyssop_note *all = (struct hyssop_note *)(void *)out;
    place = UNTOLD;
    uint32_t number = hyssop_make_notes((char *)put(input, text, text_size), text_size, all, out_count, &size, &place);
    return kept(number, out, out_count, sizeof *all);
}

/* ---- names, empty input, and numbers of arguments */

/* Each number has the words of the proved list, which ends without a zero, and every other number those of UNKNOWN_NUMBER. */
static void try_names(void) {
    static char words[200];
    size_t known = 0;
    for (uint32_t number = 0; number < 1000; number++) {
        const char *text = hyssop_fault_words(number);
        uint32_t result = hyssop_export_fault_name(number, words, sizeof words, &size);
        if (result == HYSSOP_FAULT_UNKNOWN_NUMBER) {
            want(strcmp(text, "no fault has this number") == 0);
            continue;
        }
        want(result == 0 && strlen(text) == size && memcmp(words, text, size) == 0);
        want(hyssop_export_fault_name(number, words, size - 1, &size) == HYSSOP_FAULT_BUFFER && size == strlen(text));
        known++;
    }
    want(known > 40 && strcmp(hyssop_fault_words(0), "fine") == 0);
    want(strcmp(hyssop_fault_words(UINT32_MAX), "no fault has this number") == 0);
}

/* Numbers that programs were built with: none of them changes. */
static void try_numbers(void) {
    want(HYSSOP_FINE == 0 && HYSSOP_FAULT_MEMORY == 1 && HYSSOP_FAULT_BUFFER == 2 && HYSSOP_FAULT_UNKNOWN_NUMBER == 3);
    want(HYSSOP_FAULT_ARITIES == 4 && HYSSOP_FAULT_SIGNATURE == 5 && HYSSOP_FAULT_NULL == 6);
    want(HYSSOP_FAULT_SHORT_HEADER == 16 && HYSSOP_FAULT_TABLE_LENGTH == 17 && HYSSOP_FAULT_SUM == 18);
    want(HYSSOP_FAULT_STRUCTURE == 19 && HYSSOP_FAULT_COUNT == 20 && HYSSOP_FAULT_UNKNOWN_SOURCE == 21);
    want(HYSSOP_FAULT_NO_BLOCK == 22 && HYSSOP_FAULT_FURTHER_BLOCK == 23);
    want(HYSSOP_FAULT_TRUNCATED == 32 && HYSSOP_FAULT_OPCODE == 33 && HYSSOP_FAULT_PKG_LENGTH == 34);
    want(HYSSOP_FAULT_NUMBER == 35 && HYSSOP_FAULT_FLAGS == 36 && HYSSOP_FAULT_TEXT == 37 && HYSSOP_FAULT_TOO_DEEP == 38);
    want(HYSSOP_FAULT_IMAGE_OUTSIDE == 48 && HYSSOP_FAULT_IMAGE_SIGNATURE == 49 && HYSSOP_FAULT_IMAGE_LENGTH == 50);
    want(HYSSOP_FAULT_IMAGE_REVISION == 51 && HYSSOP_FAULT_IMAGE_SUM == 52 && HYSSOP_FAULT_IMAGE_ENTRIES == 53);
    want(HYSSOP_FAULT_IMAGE_NO_FADT == 54 && HYSSOP_FAULT_IMAGE_SECOND_FADT == 55 && HYSSOP_FAULT_IMAGE_OVERLAP == 56);
    want(HYSSOP_FAULT_LAY_BASE == 57 && HYSSOP_FAULT_LAY_SECOND == 58 && HYSSOP_FAULT_LAY_NO_FADT == 59);
    want(HYSSOP_FAULT_LAY_NO_DSDT == 60 && HYSSOP_FAULT_LAY_NO_FACS == 61 && HYSSOP_FAULT_LAY_SHORT_FADT == 62);
    want(HYSSOP_FAULT_LAY_NO_SPACE == 63);
    want(HYSSOP_FAULT_WANTS_PRINTING == 65 && HYSSOP_FAULT_WANTS_SPACE == 66);
    want(HYSSOP_FAULT_WANTS_VALUE == 67 && HYSSOP_FAULT_WANTS_DIGIT == 68 && HYSSOP_FAULT_WANTS_SECOND_DIGIT == 69);
    want(HYSSOP_FAULT_WANTS_QUOTATION_MARK == 70 && HYSSOP_FAULT_WANTS_QUESTION_MARK == 71);
    want(HYSSOP_FAULT_WANTS_SLASH == 72 && HYSSOP_FAULT_WANTS_BRACE == 73 && HYSSOP_FAULT_WANTS_FIELD == 74);
    want(HYSSOP_FAULT_WANTS_NAME == 75 && HYSSOP_FAULT_WANTS_NUMBER == 76 && HYSSOP_FAULT_WANTS_LABEL == 77);
    want(HYSSOP_FAULT_WANTS_BYTES == 78 && HYSSOP_FAULT_WANTS_NEXT == 79 && HYSSOP_FAULT_WANTS_NAMELESS == 80);
    want(HYSSOP_FAULT_WANTS_END == 81 && HYSSOP_FAULT_WANTS_STRUCTURE == 82 && HYSSOP_FAULT_WANTS_WIDTH == 83);
    want(HYSSOP_FAULT_WANTS_WHOLE == 84 && HYSSOP_FAULT_WANTS_ONE_TABLE == 85 && HYSSOP_FAULT_WANTS_TABLE == 86);
    want(HYSSOP_FAULT_WANTS_FIELD_OF == 87 && HYSSOP_FAULT_WANTS_ANOTHER_NUMBER == 88 && HYSSOP_FAULT_NOT_ASL == 89);
    want(HYSSOP_FAULT_WANTS_INDENTED == 90);
    want(HYSSOP_FAULT_WANTS_GROUPS == 91);
    want(HYSSOP_FAULT_NAME_PART == 96 && HYSSOP_FAULT_PATH_PARTS == 97 && HYSSOP_FAULT_EISA_TEXT == 98);
    want(HYSSOP_FAULT_UUID_TEXT == 99 && HYSSOP_FAULT_ARG_NUMBER == 100 && HYSSOP_FAULT_LOCAL_NUMBER == 101);
    want(HYSSOP_FAULT_METHOD_ARGS == 102 && HYSSOP_FAULT_OBJECT_LENGTH == 103 && HYSSOP_FAULT_ADDRESS_RANGE == 104);
    want(HYSSOP_FAULT_UNKNOWN_CHOICE == 105 && HYSSOP_FAULT_OEM_TEXT == 106 && HYSSOP_FAULT_NONE_OPEN == 107);
    want(HYSSOP_FAULT_STILL_OPEN == 108 && HYSSOP_FAULT_TOO_MANY_OPEN == 109 && HYSSOP_FAULT_WRITER_STATE == 110);
    want(HYSSOP_FAULT_NOT_EMPTY == 111);
}

/* NULL stands for no bytes and for results that aren't asked for. With a size it is a fault. */
static void try_null(void) {
    size_t found = 1;
    uint64_t at = 1;
    want(hyssop_check_table(NULL, 0, NULL) == HYSSOP_FAULT_SHORT_HEADER);
    want(hyssop_check_table(NULL, 0, &at) == HYSSOP_FAULT_SHORT_HEADER && at == 0);
    want(hyssop_check_table(NULL, 1, &at) == HYSSOP_FAULT_NULL && at == 0);
    want(hyssop_check_table(NULL, 1, NULL) == HYSSOP_FAULT_NULL);
    want(hyssop_table_structures(NULL, 0, NULL, 0, NULL, NULL) == HYSSOP_FAULT_SHORT_HEADER);
    want(hyssop_table_structures("", 0, NULL, 1, &found, &at) == HYSSOP_FAULT_NULL && found == 0);
    want(hyssop_table_structures(NULL, 1, NULL, 0, NULL, &at) == HYSSOP_FAULT_NULL);
    want(hyssop_check_aml(NULL, 0, NULL, 0, NULL) == HYSSOP_FINE);
    want(hyssop_check_aml(NULL, 1, NULL, 0, NULL) == HYSSOP_FAULT_NULL);
    want(hyssop_check_aml(NULL, 0, NULL, 1, NULL) == HYSSOP_FAULT_NULL);
    want(hyssop_check_image(NULL, 0, 0, 0, NULL) == HYSSOP_FAULT_IMAGE_OUTSIDE);
    want(hyssop_check_image(NULL, 1, 0, 0, NULL) == HYSSOP_FAULT_NULL);
    want(hyssop_seal(NULL, 0, NULL) == HYSSOP_FAULT_SHORT_HEADER);
    want(hyssop_seal(NULL, 36, &at) == HYSSOP_FAULT_NULL && at == 0);
    want(hyssop_disassemble(NULL, 0, NULL, 0, NULL, 0, NULL, NULL) == HYSSOP_FAULT_SHORT_HEADER);
    want(hyssop_disassemble(NULL, 1, NULL, 0, NULL, 0, NULL, NULL) == HYSSOP_FAULT_NULL);
    want(hyssop_disassemble("", 0, NULL, 1, NULL, 0, NULL, NULL) == HYSSOP_FAULT_NULL);
    want(hyssop_disassemble("", 0, "", 0, NULL, 1, NULL, NULL) == HYSSOP_FAULT_NULL);
    want(hyssop_names(NULL, 0, NULL, 0, NULL, 0, NULL, NULL) == HYSSOP_FAULT_SHORT_HEADER);
    want(hyssop_names(NULL, 1, NULL, 0, NULL, 0, NULL, NULL) == HYSSOP_FAULT_NULL);
    want(hyssop_names("", 0, NULL, 1, NULL, 0, NULL, NULL) == HYSSOP_FAULT_NULL);
    want(hyssop_names("", 0, "", 0, NULL, 1, NULL, NULL) == HYSSOP_FAULT_NULL);
    want(hyssop_compile(NULL, 0, NULL, 0, NULL, NULL) == HYSSOP_FAULT_NOT_ASL);
    want(hyssop_compile(NULL, 0, NULL, 0, &found, &at) == HYSSOP_FAULT_NOT_ASL && found == 0 && at == 1);
    want(hyssop_compile(NULL, 1, NULL, 0, &found, &at) == HYSSOP_FAULT_NULL && found == 0 && at == 0);
    want(hyssop_compile("", 0, NULL, 1, NULL, NULL) == HYSSOP_FAULT_NULL);
    static among_text *const amongs[] = {hyssop_disassemble_among, hyssop_names_among};
    for (size_t i = 0; i < 2; i++) {
        want(amongs[i](NULL, 0, NULL, 0, NULL, 0, NULL, 0, NULL, NULL, NULL) == HYSSOP_FAULT_SHORT_HEADER);
        want(amongs[i](NULL, 1, NULL, 0, NULL, 0, NULL, 0, NULL, NULL, NULL) == HYSSOP_FAULT_NULL);
        want(amongs[i]("", 0, NULL, 1, NULL, 0, NULL, 0, NULL, NULL, NULL) == HYSSOP_FAULT_NULL);
        want(amongs[i]("", 0, "", 0, NULL, 1, NULL, 0, NULL, NULL, NULL) == HYSSOP_FAULT_NULL);
        size_t begins = 1;
        found = 1, at = 1;
        want(amongs[i]("", 0, "", 0, "", 0, NULL, 1, &found, &begins, &at) == HYSSOP_FAULT_NULL);
        want(found == 0 && begins == 0 && at == 0);
    }
    const struct hyssop_range no_bytes[] = {{0, "", 0}, {0, NULL, 0}};
    want(hyssop_check_memory(NULL, 0, 0, NULL) == HYSSOP_FAULT_IMAGE_OUTSIDE);
    want(hyssop_check_memory(NULL, 1, 0, NULL) == HYSSOP_FAULT_NULL);
    want(hyssop_check_memory(no_bytes, 1, 0, NULL) == HYSSOP_FAULT_IMAGE_OUTSIDE);
    want(hyssop_check_memory(no_bytes, 2, 0, &at) == HYSSOP_FAULT_NULL && at == 0);
    want(hyssop_memory_tables(NULL, 0, 0, NULL, 0, NULL, NULL) == HYSSOP_FAULT_IMAGE_OUTSIDE);
    want(hyssop_memory_tables(NULL, 1, 0, NULL, 0, NULL, NULL) == HYSSOP_FAULT_NULL);
    want(hyssop_memory_tables(no_bytes, 2, 0, NULL, 0, &found, NULL) == HYSSOP_FAULT_NULL && found == 0);
    want(hyssop_memory_tables(no_bytes, 1, 0, NULL, 1, NULL, NULL) == HYSSOP_FAULT_NULL);
    want(hyssop_image_tables(NULL, 0, 0, 0, NULL, 0, NULL, NULL) == HYSSOP_FAULT_IMAGE_OUTSIDE);
    want(hyssop_image_tables(NULL, 1, 0, 0, NULL, 0, NULL, NULL) == HYSSOP_FAULT_NULL);
    want(hyssop_image_tables("", 0, 0, 0, NULL, 1, NULL, NULL) == HYSSOP_FAULT_NULL);
    want(hyssop_show(NULL, 0, NULL, 0, NULL, NULL) == HYSSOP_FAULT_SHORT_HEADER);
    want(hyssop_show(NULL, 1, NULL, 0, NULL, NULL) == HYSSOP_FAULT_NULL);
    want(hyssop_show("", 0, NULL, 1, NULL, NULL) == HYSSOP_FAULT_NULL);
    want(hyssop_findings(NULL, 0, NULL, 0, NULL, NULL) == HYSSOP_FAULT_SHORT_HEADER);
    want(hyssop_findings(NULL, 1, NULL, 0, NULL, NULL) == HYSSOP_FAULT_NULL);
    want(hyssop_findings("", 0, NULL, 1, &found, &at) == HYSSOP_FAULT_NULL && found == 0 && at == 0);
    want(hyssop_make(NULL, 0, NULL, 0, NULL, NULL) == HYSSOP_FAULT_WANTS_TABLE);
    want(hyssop_make("  : 01 \n", 8, NULL, 0, &found, NULL) == HYSSOP_FAULT_BUFFER && found == 1);
    want(hyssop_make("  : 01 \n", 8, NULL, 0, NULL, NULL) == HYSSOP_FAULT_BUFFER);
    want(hyssop_make(NULL, 1, NULL, 0, &found, NULL) == HYSSOP_FAULT_NULL && found == 0);
    want(hyssop_make("", 0, NULL, 1, NULL, NULL) == HYSSOP_FAULT_NULL);
    want(hyssop_make_notes(NULL, 0, NULL, 0, NULL, NULL) == HYSSOP_FAULT_WANTS_TABLE);
    want(hyssop_make_notes(NULL, 1, NULL, 0, NULL, NULL) == HYSSOP_FAULT_NULL);
    want(hyssop_make_notes("", 0, NULL, 1, NULL, NULL) == HYSSOP_FAULT_NULL);
    want(hyssop_template(NULL, 0, NULL, 0, NULL) == HYSSOP_FAULT_SIGNATURE);
    want(hyssop_template("APIC", 4, NULL, 0, NULL) == HYSSOP_FAULT_BUFFER);
    want(hyssop_template(NULL, 4, NULL, 0, NULL) == HYSSOP_FAULT_NULL);
    want(hyssop_template("APIC", 4, NULL, 1, NULL) == HYSSOP_FAULT_NULL);
}

/* A table of 36 bytes (ACPI 6.5, 5.2.6) whose length and checksum are stated wrongly: 37 in place of 36, and 1 in place of the
   number that makes the sum zero with the right length. */
static void try_notes(void) {
    static const char text[] = "Table\n  Signature: \"OEM1\"\n  Length: 00000025\n  Revision: 01\n  Checksum: 01\n"
                               "  OEM ID: \"FOOBAR\"\n  OEM Table ID: \"CAFEDEAD\"\n  OEM Revision: 00000001\n"
                               "  Creator ID: \"RVAT\"\n  Creator Revision: 00000001\n";
    size_t length = sizeof text - 1;
    want(make(text, length, 36) == 0 && size == 36);
    uint8_t sum = 0;
    for (size_t i = 0; i < 36; i++)
        sum = (uint8_t)(sum + (i == 4 ? 36 : (output.end - 36)[i]));
    want(notes(text, length, 1) == HYSSOP_FAULT_BUFFER && size == 2);
    want(notes(text, length, 2) == 0 && size == 2 && place == 0);
    const struct hyssop_note *all = (const struct hyssop_note *)(const void *)(output.end - 2 * sizeof *all);
    want(all[0].offset == 4 && all[0].width == 4 && all[0].value == 36);
    want(all[1].offset == 9 && all[1].width == 1 && all[1].value == (uint8_t)(1 - sum));
    want(notes("  a\001b", 5, 0) == HYSSOP_FAULT_WANTS_PRINTING && place == 1);
    want(notes("  \t\r\n# none\n", 12, 0) == HYSSOP_FAULT_WANTS_TABLE && place == 3);
}

/* The length and the checksum are set, and no other byte. */
static void try_seal(void) {
    uint8_t bytes[300];
    for (size_t length = 0; length < sizeof bytes; length++) {
        for (size_t i = 0; i < length; i++)
            bytes[i] = (uint8_t)(i * 7 + length);
        uint8_t *given = put(output, bytes, length);
        place = UNTOLD;
        uint32_t number = hyssop_seal(given, length, &place);
        if (length < 36) {
            want(number == HYSSOP_FAULT_SHORT_HEADER && place == length && memcmp(given, bytes, length) == 0);
            continue;
        }
        want(number == 0 && place == 0 && check_table(given, length) == 0);
        want(given[4] == (length & 255) && given[5] == length >> 8 && given[6] == 0 && given[7] == 0);
        memcpy(bytes + 4, given + 4, 4);
        bytes[9] = given[9];
        want(memcmp(given, bytes, length) == 0);
    }
}

/* ---- definition blocks */

/* A table with these bytes after its header. */
static size_t make_block(uint8_t *bytes, const char *signature, const void *terms, size_t count) {
    static const char header[] = "DSDT\0\0\0\0\2\0" "FOOBAR" "CAFEDEAD" "\1\0\0\0" "RVAT" "\0\0\0\1";
    memmove(bytes + 36, terms, count);
    memcpy(bytes, header, 36);
    memcpy(bytes, signature, 4);
    want(hyssop_seal(bytes, 36 + count, &place) == 0);
    return 36 + count;
}

static int is_text(const char *text, size_t out_size) {
    return size == strlen(text) && memcmp(output.end - out_size, text, size) == 0;
}

/* A MADT whose local APIC has no reserved bit, and one that has bit 2 of its Flags set (5.2.12.2). */
static void try_findings(void) {
    static const char wanted[] =
        "APIC: error at 48: Flags: 0x00000005 has the reserved bits 0x04 (ACPI 6.5, 5.2.1.1) [reserved-bits]\n";
    static uint8_t controllers[] = {0, 0, 0xe0, 0xfe, 1, 0, 0, 0, 0, 8, 0, 0, 1, 0, 0, 0}, bytes[PLENTY];
    size_t length = make_block(bytes, "APIC", controllers, sizeof controllers), all = sizeof wanted - 1;
    want(findings(bytes, length, 0) == 0 && size == 0);
    controllers[12] = 5;
    make_block(bytes, "APIC", controllers, sizeof controllers);
    want(findings(bytes, length, all - 1) == HYSSOP_FAULT_BUFFER && size == all);
    want(findings(bytes, length, all) == 0 && is_text(wanted, all));
    want(findings(bytes, length - 1, PLENTY) == HYSSOP_FAULT_TABLE_LENGTH && place == 4);
    bytes[9]++;
    want(findings(bytes, length, PLENTY) == HYSSOP_FAULT_SUM && place == 9);
}

/* Scope (\_SB) {Device (DEV0) {Name (_UID, One)}}, Method (MTHD, 1) {Return (Arg0)}, Store (MTHD (One), Local0) (20.2.5) */
static const char block_terms[] = "\x10\x13\\_SB_" "\x5b\x82\x0b" "DEV0" "\x08" "_UID" "\x01"
                                  "\x14\x08" "MTHD" "\x01\xa4\x68" "\x70" "MTHD" "\x01\x60";

/* The ASL of a block of these terms (19.6), after a note on the program that made the table. */
static const char block_asl[] = "/*= Creator \"RVAT\", 0x01000000 */\n"
                                "DefinitionBlock (\"\", \"DSDT\", 2, \"FOOBAR\", \"CAFEDEAD\", 0x00000001)\n{\n"
                                "    Scope (\\_SB)\n    {\n        Device (DEV0)\n        {\n"
                                "            Name (_UID, One)\n        }\n    }\n"
                                "    Method (MTHD, 1, NotSerialized)\n    {\n        Return (Arg0)\n    }\n"
                                "    Store (MTHD (One), Local0)\n}\n";

static void try_block(void) {
    static const char tree[] = "\\_SB Scope\n    DEV0 Device\n        _UID Name One\nMTHD Method, arguments: 1\n";
    static const struct {
        block_text *text;
        const char *wanted;
    } texts[] = {{hyssop_disassemble, block_asl}, {hyssop_names, tree}};
    static uint8_t bytes[MOST];
    size_t length = make_block(bytes, "DSDT", block_terms, sizeof block_terms - 1);
    for (size_t i = 0; i < sizeof texts / sizeof *texts; i++) {
        block_text *text = texts[i].text;
        size_t all = strlen(texts[i].wanted);
        want(block(text, bytes, length, "", 0, 0) == HYSSOP_FAULT_BUFFER && size == all);
        want(block(text, bytes, length, "", 0, all - 1) == HYSSOP_FAULT_BUFFER && size == all);
        want(block(text, bytes, length, "", 0, all) == 0 && place == 0 && is_text(texts[i].wanted, all));
        /* A stated number of arguments comes before that of the block: here a target is missing at the end. */
        want(block(text, bytes, length, "MTHD=2", 6, PLENTY) == HYSSOP_FAULT_TRUNCATED && place == length);
        want(block(text, bytes, length, "MTHD", 4, PLENTY) == HYSSOP_FAULT_ARITIES && place == 0);
        want(block(text, bytes, length - 1, "", 0, PLENTY) == HYSSOP_FAULT_TABLE_LENGTH && place == 4);
        want(block(text, bytes, 35, "", 0, PLENTY) == HYSSOP_FAULT_SHORT_HEADER && place == 35);
        bytes[9]++;
        want(block(text, bytes, length, "", 0, PLENTY) == HYSSOP_FAULT_SUM && place == 9);
        bytes[9]--;
    }
    length = make_block(bytes, "OEM1", block_terms, sizeof block_terms - 1);
    want(block(hyssop_disassemble, bytes, length, "", 0, PLENTY) == HYSSOP_FAULT_NO_BLOCK && place == 0);
    /* An opcode that no term begins with, after a term of one byte. */
    length = make_block(bytes, "SSDT", "\x01\xfe", 2);
    want(block(hyssop_names, bytes, length, "", 0, PLENTY) == HYSSOP_FAULT_OPCODE && place == 37);
    length = make_block(bytes, "SSDT", "", 0);
    want(block(hyssop_names, bytes, length, "", 0, 0) == 0 && size == 0 && place == 0);
}

/* A text of ASL, and the line on which its fault is. */
static void try_fault(const char *text, uint64_t line) {
    want(compile(text, strlen(text), PLENTY) == HYSSOP_FAULT_NOT_ASL && place == line);
}

/* The text of a block is made into its bytes, also with other white space and comments. The note may be left out, since these
   bytes have the creator that a table gets without one. */
static void try_compile(void) {
    static const char other[] = "DefinitionBlock(\"\",\"DSDT\",2,\"FOOBAR\",\"CAFEDEAD\",0x00000001){// a comment\n"
                                "Scope(\\_SB)\t{Device(DEV0){Name(_UID,One)}}/* another */Method(MTHD,1,NotSerialized)\r\n"
                                "{Return(Arg0)}Store(MTHD(One),Local0)}";
    static uint8_t bytes[1000];
    size_t length = make_block(bytes, "DSDT", block_terms, sizeof block_terms - 1), all = sizeof block_asl - 1;
    want(compile(block_asl, all, 0) == HYSSOP_FAULT_BUFFER && size == length && place == 0);
    want(compile(block_asl, all, length - 1) == HYSSOP_FAULT_BUFFER && size == length);
    want(compile(block_asl, all, length) == 0 && size == length && place == 0);
    want(memcmp(output.end - length, bytes, length) == 0);
    want(compile(other, sizeof other - 1, length) == 0 && size == length && memcmp(output.end - length, bytes, length) == 0);
    /* All but the white space at the end is needed. */
    want(compile(block_asl, all - 1, length) == 0);
    for (size_t cut = 0; cut < all - 1; cut++)
        want(compile(block_asl, cut, PLENTY) == HYSSOP_FAULT_NOT_ASL && place > 0);
    /* No block, one that isn't the only one, a signature of another table, a number without its 0x, and a word that is none. */
    try_fault("\n\nScope (\\_SB) {}\n", 3);
    try_fault("DefinitionBlock (\"\", \"DSDT\", 2, \"FOOBAR\", \"CAFEDEAD\", 0x00000001)\n{\n    Name (A, 5)\n}\n", 3);
    try_fault("/* two\nlines */ DefinitionBlock (\"\", \"SSDT\", 2, \"FOOBAR\", \"CAFEDEAD\", 0x00000001)\n{\n    noop\n}\n", 4);
}

/* Store (MTHD (One), Local0), where another block has Method (MTHD, 1) {Return (Arg0)} and Device (\_SB.DEV0) {} (20.2.5). */
static void try_among(void) {
    static const char asl[] = "/*= Creator \"RVAT\", 0x01000000 */\n"
                              "DefinitionBlock (\"\", \"SSDT\", 2, \"FOOBAR\", \"CAFEDEAD\", 0x00000001)\n{\n"
                              "    /*= Absent */ External (\\MTHD, MethodObj, UnknownObj, {UnknownObj})\n"
                              "    Store (MTHD (One), Local0)\n}\n";
    static const struct {
        among_text *text;
        const char *wanted;
    } texts[] = {{hyssop_disassemble_among, asl}, {hyssop_names_among, ""}};
    static uint8_t bytes[1000], further[1000];
    size_t length = make_block(bytes, "SSDT", "\x70" "MTHD" "\x01\x60", 7);
    size_t first = make_block(further, "SSDT", "\x5b\x82\x0b" "\\._SB_DEV0", 13);
    size_t both = first + make_block(further + first, "DSDT", "\x14\x08" "MTHD" "\x01\xa4\x68", 9);
    for (size_t i = 0; i < sizeof texts / sizeof *texts; i++) {
        among_text *text = texts[i].text;
        size_t all = strlen(texts[i].wanted);
        want(among(text, bytes, length, further, both, "", all) == 0 && is_text(texts[i].wanted, all) && unread == 0);
        want(all == 0 || (among(text, bytes, length, further, both, "", all - 1) == HYSSOP_FAULT_BUFFER && size == all));
        /* Without the method's block One is its own term, and the name at the end has no target after it. */
        want(among(text, bytes, length, "", 0, "", PLENTY) == 0 && place == 0);
        /* A stated number of arguments comes first: a target is missing at the end. */
        want(among(text, bytes, length, further, both, "MTHD=2", PLENTY) == 0 && unread == length);
        want(among(text, bytes, length, further, both, "MTHD", PLENTY) == HYSSOP_FAULT_ARITIES && place == 0);
        want(among(text, bytes, length - 1, further, both, "", PLENTY) == HYSSOP_FAULT_TABLE_LENGTH && place == 4);
        for (size_t cut = 1; cut < both; cut++) {
            if (cut == first)
                continue;
            want(among(text, bytes, length, further, cut, "", PLENTY) == HYSSOP_FAULT_FURTHER_BLOCK);
            want(place == (cut < first ? 0u : first));
        }
        further[first + 9]++;
        want(among(text, bytes, length, further, both, "", PLENTY) == HYSSOP_FAULT_FURTHER_BLOCK && place == first);
        further[first + 9]--;
    }
    make_block(further, "OEM1", "", 0);
    want(among(hyssop_names_among, bytes, length, further, 36, "", PLENTY) == HYSSOP_FAULT_FURTHER_BLOCK && place == 0);
    length = make_block(bytes, "OEM1", "", 0);
    want(among(hyssop_names_among, bytes, length, "", 0, "", PLENTY) == HYSSOP_FAULT_NO_BLOCK && place == 0);
    /* An opcode that no term begins with, after a term of one byte. */
    length = make_block(bytes, "SSDT", "\x01\xfe", 2);
    want(among(hyssop_names_among, bytes, length, "", 0, "", PLENTY) == 0 && unread == 37 && place == 0);
    want(among(hyssop_disassemble_among, bytes, length, "", 0, "", PLENTY) == 0 && unread == 37 && place == 0);
    want(among(hyssop_disassemble_among, bytes, length, "", 0, "", 0) == HYSSOP_FAULT_BUFFER && unread == 37 && place == 0);
}

/* Packages that nest as deep as terms may (20.2.5.4), and one level deeper, with a stack of 512 KiB. */
static size_t nested(uint8_t *bytes, size_t levels) {
    size_t at = MOST;
    for (size_t i = 0; i < levels; i++) {
        /* The package's count of elements, its elements, and its length of two bytes, which counts itself. */
        size_t content = MOST - at + 1 + 2;
        at--;
        bytes[at] = (uint8_t)(i > 0);
        bytes[--at] = (uint8_t)(content >> 4);
        bytes[--at] = (uint8_t)(0x40 | (content & 15));
        bytes[--at] = 0x12;
    }
    memmove(bytes, bytes + at, MOST - at);
    return MOST - at;
}

/* ASL of one term whose operators nest this deep (20.2.5.4, DefLNot). */
static size_t nested_text(char *text, size_t levels) {
    size_t at = (size_t)sprintf(text, "DefinitionBlock (\"\", \"DSDT\", 2, \"FOOBAR\", \"CAFEDEAD\", 0x00000001)\n{\n");
    for (size_t i = 0; i < levels; i++)
        at += (size_t)sprintf(text + at, "LNot (");
    at += (size_t)sprintf(text + at, "One");
    for (size_t i = 0; i < levels; i++)
        text[at++] = ')';
    text[at++] = '}';
    return at;
}

static void *read_nested(void *unused) {
    static uint8_t bytes[MOST];
    (void)unused;
    want(check_aml(bytes, nested(bytes, 255), "", 0) == HYSSOP_FINE);
    want(check_aml(bytes, nested(bytes, 256), "", 0) == HYSSOP_FAULT_TOO_DEEP);
    return NULL;
}

/* The same in a definition block, with a stack of 2 MiB. */
static void *show_nested(void *unused) {
    static uint8_t terms[MOST], bytes[MOST + 36], text[MOST];
    static char deep[PLENTY];
    (void)unused;
    size_t length = make_block(bytes, "DSDT", terms, nested(terms, 255));
    want(block(hyssop_disassemble, bytes, length, "", 0, MOST) == HYSSOP_FINE);
    size_t all = size;
    memcpy(text, output.end - MOST, all);
    want(compile(text, all, MOST) == HYSSOP_FINE);
    want(block(hyssop_names, bytes, length, "", 0, MOST) == HYSSOP_FINE);
    want(among(hyssop_disassemble_among, bytes, length, bytes, length, "", MOST) == HYSSOP_FINE && unread == 0);
    want(among(hyssop_names_among, bytes, length, bytes, length, "", MOST) == HYSSOP_FINE && unread == 0);
    length = make_block(bytes, "DSDT", terms, nested(terms, 256));
    want(block(hyssop_disassemble, bytes, length, "", 0, MOST) == HYSSOP_FAULT_TOO_DEEP);
    want(among(hyssop_disassemble_among, bytes, length, bytes, length, "", MOST) == HYSSOP_FINE && unread >= 36);
    /* Operators nest as deep as terms may. A text may nest deeper, but no block has it as its ASL. */
    want(compile(deep, nested_text(deep, 200), PLENTY) == HYSSOP_FINE && size == 36 + 200 + 1);
    for (size_t levels = 300; levels < 1000; levels += 5)
        want(compile(deep, nested_text(deep, levels), PLENTY) == HYSSOP_FAULT_NOT_ASL && place > 0);
    return NULL;
}

static void with_stack(size_t bytes, void *(*run)(void *)) {
    pthread_t thread;
    pthread_attr_t small;
    want(pthread_attr_init(&small) == 0 && pthread_attr_setstacksize(&small, bytes) == 0);
    want(pthread_create(&thread, &small, run, NULL) == 0 && pthread_join(thread, NULL) == 0);
    want(pthread_attr_destroy(&small) == 0);
}

static void try_stack(void) {
    with_stack(512 * 1024, read_nested);
    with_stack(2048 * 1024, show_nested);
}

static void try_empty(void) {
    want(check_table("", 0) == HYSSOP_FAULT_SHORT_HEADER && place == 0);
    want(structures("", 0, 0) == HYSSOP_FAULT_SHORT_HEADER && place == 0);
    want(show("", 0, 0) == HYSSOP_FAULT_SHORT_HEADER && place == 0);
    want(check_aml("", 0, "", 0) == 0 && place == 0);
    want(check_image("", 0, 0, 0) == HYSSOP_FAULT_IMAGE_OUTSIDE && place == 0);
    want(check_image("", 0, UINT64_MAX, UINT64_MAX) == HYSSOP_FAULT_IMAGE_OUTSIDE && place == UINT64_MAX);
    want(template("", 0, 0) == HYSSOP_FAULT_SIGNATURE && template("APICX", 5, 0) == HYSSOP_FAULT_SIGNATURE);
    want(template("\xff\xff\xff\xff", 4, 0) == HYSSOP_FAULT_SIGNATURE);
    want(make("", 0, MOST) == HYSSOP_FAULT_WANTS_TABLE && size == 0 && place == 1);
    want(compile("", 0, MOST) == HYSSOP_FAULT_NOT_ASL && size == 0 && place == 1);
}

static void try_template(void) {
    want(template("APIC", 4, 0) == HYSSOP_FAULT_BUFFER);
    size_t length = size;
    want(template("APIC", 4, length - 1) == HYSSOP_FAULT_BUFFER && size == length);
    want(template("APIC", 4, length) == 0 && size == length);
}

static void try_arguments(void) {
    /* MTHD (One), where MTHD takes one argument (ACPI 6.5, 20.2.5). */
    static const uint8_t call[] = {'M', 'T', 'H', 'D', 1};
    want(check_aml(call, 5, "MTHD=1", 6) == 0 && check_aml(call, 5, "OTHR=7 MTHD=1", 13) == 0);
    want(check_aml(call, 5, "MTHD=2", 6) == HYSSOP_FAULT_TRUNCATED);
    static const char *wrong[] = {"MTHD", "MTHD=8", "MTHD=12", "mthd=1", "MTHD=1 MTHD=1", " MTHD=1", "MTHD=1  A___=1", "\xff=1"};
    for (size_t i = 0; i < sizeof wrong / sizeof *wrong; i++)
        want(check_aml(call, 5, wrong[i], strlen(wrong[i])) == HYSSOP_FAULT_ARITIES && place == 0);
    /* An opcode that no term begins with, after a term of one byte. */
    want(check_aml("\x01\xfe", 2, "", 0) == HYSSOP_FAULT_OPCODE && place == 1);
    /* External (\FOO_, MethodObj, 2), ThermalZone (TZ00) {}, Event (EVT0) and Sleep (5) (20.2.5). */
    want(check_aml("\x15\\FOO_\x08\x02\x5b\x85\x05TZ00\x5b\x02" "EVT0\x5b\x22\x0a\x05", 25, "", 0) == 0 && place == 0);
}

/* ---- tables */

/* Makes the bytes of a table sum to zero, by the checksum at offset 9 (ACPI 6.5, 5.2.6). */
static void seal(uint8_t *table, size_t count) {
    uint8_t sum = 0;
    for (size_t i = 0; i < count; i++)
        sum = (uint8_t)(sum + table[i]);
    table[9] = (uint8_t)(table[9] - sum);
}

/* The text of a table makes the table again, and a buffer that is a byte smaller is too small for either. */
static void try_texts(const uint8_t *table, size_t count) {
    static uint8_t text[MOST];
    want(show(table, count, 0) == HYSSOP_FAULT_BUFFER);
    size_t length = size;
    want(show(table, count, length - 1) == HYSSOP_FAULT_BUFFER && size == length);
    want(show(table, count, length) == 0 && size == length && place == 0);
    memcpy(text, output.end - length, length);
    want(make(text, length, count - 1) == HYSSOP_FAULT_BUFFER && size == count);
    want(make(text, length, count) == 0 && size == count && place == 0);
    want(memcmp(output.end - count, table, count) == 0);
}

static void try_structures(const uint8_t *table, size_t count) {
    uint32_t number = structures(table, count, count);
    want(number != HYSSOP_FAULT_BUFFER);
    size_t all = size;
    if (number == 0 && all > 0)
        want(structures(table, count, all - 1) == HYSSOP_FAULT_BUFFER && size == all);
    if (number == 0)
        want(structures(table, count, all) == 0 && size == all);
}

static void try_table(const uint8_t *table, size_t count) {
    static uint8_t changed[MOST];
    want(check_table(table, count) == 0 && place == 0);
    try_texts(table, count);
    try_structures(table, count);
    for (size_t cut = 0; cut < count; cut++) {
        want(check_table(table, cut) == (cut < 36 ? HYSSOP_FAULT_SHORT_HEADER : HYSSOP_FAULT_TABLE_LENGTH));
        want(place == (cut < 36 ? cut : 4));
        want(show(table, cut, PLENTY) != 0 && structures(table, cut, 9) != 0);
    }
    for (size_t at = 0; at < count; at++) {
        int is_length = at >= 4 && at < 8;
        memcpy(changed, table, count);
        changed[at] ^= 0xff;
        want(check_table(changed, count) == (is_length ? HYSSOP_FAULT_TABLE_LENGTH : HYSSOP_FAULT_SUM));
        want(place == (is_length ? 4 : 9));
        seal(changed, count);
        if (is_length || at == 9)
            continue;
        want(check_table(changed, count) == 0);
        try_structures(changed, count);
        if (at % 7 == 0)
            try_texts(changed, count);
    }
}

/* ---- images */

static void try_image(const uint8_t *image, size_t count, uint64_t base, uint64_t rsdp) {
    static uint8_t changed[MOST];
    want(check_image(image, count, base, rsdp) == 0 && place == 0);
    want(image_tables(image, count, base, rsdp, 0) == HYSSOP_FAULT_BUFFER && size > 4);
    size_t tables = size;
    want(image_tables(image, count, base, rsdp, tables - 1) == HYSSOP_FAULT_BUFFER && size == tables);
    want(image_tables(image, count, base, rsdp, tables) == 0 && size == tables && place == 0);
    const struct hyssop_image_table *all = (const struct hyssop_image_table *)(const void *)output.end - tables;
    want(all[0].address == rsdp && all[0].length == 36 && memcmp(all[0].signature, "RSD ", 4) == 0);
    want(memcmp(all[1].signature, "XSDT", 4) == 0 && memcmp(all[tables - 1].signature, "DSDT", 4) == 0);
    for (size_t i = 0; i < tables; i++) {
        want(all[i].address >= base && all[i].address - base + all[i].length <= count);
        want(memcmp(image + (all[i].address - base), all[i].signature, 4) == 0);
    }
    want(image_tables(image, 1, base, rsdp, 1) == HYSSOP_FAULT_IMAGE_OUTSIDE && place == rsdp);
    want(check_image(image, count, base, rsdp + 16) != 0 && check_image(image, count, base - 16, rsdp) != 0);
    for (size_t cut = 0; cut < rsdp - base + 36; cut++)
        want(check_image(image, cut, base, rsdp) == HYSSOP_FAULT_IMAGE_OUTSIDE && place == rsdp);
    /* Each byte of the RSDP is in a sum, or is compared (ACPI 6.5, 5.2.5.3). */
    for (size_t at = 0; at < count; at++) {
        memcpy(changed, image, count);
        changed[at] ^= 0xff;
        uint32_t number = check_image(changed, count, base, rsdp);
        want(number == 0 || number >= HYSSOP_FAULT_IMAGE_OUTSIDE);
        want(at < rsdp - base || at >= rsdp - base + 36 || (number != 0 && place == rsdp));
    }
}

/* The same image in two ranges, cut at each byte: a table that is cut lies in neither. The RSDP may be somewhere else, as
   firmware puts it below 1 MiB (5.2.5.1). */
static void try_ranges(const uint8_t *image, size_t count, uint64_t base, uint64_t rsdp) {
    static uint8_t without[MOST];
    static struct hyssop_image_table tables[99];
    want(image_tables(image, count, base, rsdp, 99) == 0);
    size_t all = size;
    memcpy(tables, output.end - sizeof tables, all * sizeof *tables);
    for (size_t cut = 0; cut <= count; cut++) {
        const struct hyssop_range ranges[] = {{base + cut, image + cut, count - cut}, {base, image, cut}};
        uint64_t away = 0;
        for (size_t i = all; i-- > 0;)
            if (tables[i].address < base + cut && base + cut < tables[i].address + tables[i].length)
                away = tables[i].address;
        want(check_memory(ranges, 2, rsdp) == (away == 0 ? HYSSOP_FINE : HYSSOP_FAULT_IMAGE_OUTSIDE) && place == away);
        if (cut % 64 != 0)
            continue;
        want((memory_tables(ranges, 2, rsdp, all) == 0) == (away == 0) && size == (away == 0 ? all : 0));
        want(away != 0 || memcmp(output.end - all * sizeof *tables, tables, all * sizeof *tables) == 0);
    }
    memcpy(without, image, count);
    memset(without + (rsdp - base), 0, 36);
    const uint64_t low = 0xe0000;
    const struct hyssop_range apart[] = {{low, image + (rsdp - base), 36}, {base, without, count}, {low + 36, "", 0}};
    want(check_memory(apart, 3, low) == 0 && check_memory(apart, 2, low) == 0);
    want(check_memory(apart, 1, low) == HYSSOP_FAULT_IMAGE_OUTSIDE && place == tables[1].address);
    want(check_memory(apart, 3, rsdp) == HYSSOP_FAULT_IMAGE_SIGNATURE && place == rsdp);
    want(check_memory(apart, 3, low + 1) == HYSSOP_FAULT_IMAGE_OUTSIDE && place == low + 1);
    want(check_memory(apart, 3, 0) == HYSSOP_FAULT_IMAGE_OUTSIDE && place == 0);
    want(check_memory(apart, 0, low) == HYSSOP_FAULT_IMAGE_OUTSIDE && place == low);
    want(memory_tables(apart, 3, low, 0) == HYSSOP_FAULT_BUFFER && size == all);
    want(memory_tables(apart, 3, low, all - 1) == HYSSOP_FAULT_BUFFER && size == all);
    want(memory_tables(apart, 3, low, all) == 0 && size == all && place == 0);
    const struct hyssop_image_table *found = (const struct hyssop_image_table *)(const void *)output.end - all;
    want(found[0].address == low && memcmp(found + 1, tables + 1, (all - 1) * sizeof *tables) == 0);
    /* Of ranges that overlap the first counts, and a range may end with the last address. */
    const struct hyssop_range twice[] = {{base, image, count}, {base, without, count}, {UINT64_MAX - 35, without, 36}};
    want(check_memory(twice, 2, rsdp) == 0 && check_memory(twice + 1, 2, rsdp) == HYSSOP_FAULT_IMAGE_SIGNATURE);
    want(check_memory(twice, 3, UINT64_MAX - 35) == HYSSOP_FAULT_IMAGE_SIGNATURE && place == UINT64_MAX - 35);
    want(check_memory(twice, 3, UINT64_MAX - 34) == HYSSOP_FAULT_IMAGE_OUTSIDE && place == UINT64_MAX - 34);
}

/* ---- random input */

static uint64_t state = 0x9e3779b97f4a7c15u;

/* A number below a limit, by xorshift. */
static size_t any(size_t below) {
    state ^= state << 13;
    state ^= state >> 7;
    state ^= state << 17;
    return (size_t)(state >> 16) % below;
}

/* Random bytes, or some of these with changes, of at most 400 bytes. */
static size_t vary(uint8_t *to, const uint8_t *from, size_t count) {
    size_t length = any(400);
    for (size_t i = 0; i < length; i++)
        to[i] = (uint8_t)any(256);
    if (any(4) == 0)
        return length;
    if (length > count)
        length = count;
    size_t start = any(2) == 0 ? 0 : any(count - length + 1);
    memcpy(to, from + start, length);
    for (size_t changes = any(5); changes > 0 && length > 0; changes--)
        to[any(length)] = (uint8_t)any(256);
    if (length >= 36 && start == 0 && any(2) == 0) {
        memcpy(to + 4, (uint8_t[]){(uint8_t)length, (uint8_t)(length >> 8), 0, 0}, 4);
        seal(to, length);
    }
    return length;
}

static void try_random(const uint8_t *table, size_t count) {
    static uint8_t text[MOST], bytes[400];
    want(show(table, count, MOST) == 0);
    size_t length = size;
    memcpy(text, output.end - MOST, length);
    static const char words[] = "MTHD=1 \\_SB_.PCI0=2 A___=7";
    for (int run = 0; run < RUNS; run++) {
        size_t some = vary(bytes, table, count);
        check_table(bytes, some);
        structures(bytes, some, any(20));
        show(bytes, some, any(2) == 0 ? PLENTY : any(4000));
        findings(bytes, some, any(2) == 0 ? PLENTY : any(400));
        check_image(bytes, some, any(2) == 0 ? 0 : UINT64_MAX - any(400), any(400));
        image_tables(bytes, some, any(2) == 0 ? 0 : UINT64_MAX - any(400), any(400), any(9));
        size_t cut = any(some + 1);
        const struct hyssop_range ranges[] = {{any(2) == 0 ? cut : UINT64_MAX - any(400), bytes + cut, some - cut},
                                              {any(9), bytes, cut}};
        check_memory(ranges, any(3), any(400));
        memory_tables(ranges, any(3), any(400), any(9));
        block(any(2) == 0 ? hyssop_names : hyssop_disassemble, bytes, some, words, any(sizeof words), any(4000));
        among(any(2) == 0 ? hyssop_names_among : hyssop_disassemble_among, bytes, some, bytes, any(3) == 0 ? some : 0, "",
              any(4000));
        check_aml(bytes, some, words, any(sizeof words));
        if (some >= 36)
            check_aml(bytes + 36, some - 36, "", 0);
        some = vary(bytes, (const uint8_t *)words, sizeof words - 1);
        check_aml("", 0, (const char *)bytes, some);
        template(bytes, any(2) == 0 ? some : some < 4 ? some : 4, any(9000));
        some = vary(bytes, text, length);
        make(bytes, some, any(2) == 0 ? PLENTY : any(500));
        notes((const char *)bytes, some, any(3));
        some = vary(bytes, (const uint8_t *)block_asl, sizeof block_asl - 1);
        compile(bytes, some, any(2) == 0 ? PLENTY : any(200));
        want(hyssop_fault_words((uint32_t)any(UINT32_MAX))[0] != 0);
    }
}

/* ---- writers */

#include "writers.h"
#include "structures.h"

/* ---- refused memory */

static uint32_t refusals;

/* Whether a call has to be made once more. */
static int is_refused(uint32_t number) {
    refusals += number == HYSSOP_FAULT_MEMORY;
    return number == HYSSOP_FAULT_MEMORY && refusals == 1;
}

static void tell(const char *name, uint32_t number, size_t out_size) {
    uint32_t sum = 0;
    for (size_t i = 0; number == 0 && i < size; i++)
        sum = sum * 31 + (output.end - out_size)[i];
    printf("%s %u %zu %u\n", name, number, size, sum);
}

static void try_memory(void) {
    static uint8_t text[MOST], table[MOST];
    uint32_t number = 0;
    while (is_refused(number = template("APIC", 4, MOST))) {}
    tell("template", number, MOST);
    size_t length = size;
    memcpy(text, output.end - MOST, length);
    while (is_refused(number = make(text, length, MOST))) {}
    tell("make", number, MOST);
    size_t count = size;
    memcpy(table, output.end - MOST, count);
    while (is_refused(number = show(table, count, MOST))) {}
    tell("show", number, MOST);
    while (is_refused(number = findings(table, count, MOST))) {}
    tell("findings", number, MOST);
    while (is_refused(number = structures(table, count, 1000))) {}
    size *= sizeof(struct hyssop_structure);
    tell("structures", number, 1000 * sizeof(struct hyssop_structure));
    /* Name (A___, Package () {"ABC", MTHD ()}) (ACPI 6.5, 20.2.5) */
    static const uint8_t aml[] = "\x08" "A___" "\x12\x0b\x02\x0d" "ABC\0" "MTHD";
    while (is_refused(number = check_aml(aml, sizeof aml - 1, "MTHD=1 \\_SB_.PCI0=2", 19))) {}
    printf("aml %u\n", number);
    count = make_block(table, "DSDT", block_terms, sizeof block_terms - 1);
    while (is_refused(number = block(hyssop_disassemble, table, count, "MTHD=1", 6, MOST))) {}
    tell("disassemble", number, MOST);
    while (is_refused(number = block(hyssop_names, table, count, "", 0, MOST))) {}
    tell("names", number, MOST);
    while (is_refused(number = compile(block_asl, sizeof block_asl - 1, MOST))) {}
    tell("compile", number, MOST);
    while (is_refused(number = among(hyssop_disassemble_among, table, count, table, count, "", MOST))) {}
    tell("disassemble_among", number, MOST);
    while (is_refused(number = among(hyssop_names_among, table, count, table, count, "MTHD=2", MOST))) {}
    tell("names_among", number, MOST);
    uint64_t rsdp = 0;
    build_tables(table);
    while (is_refused(number = lay(table, all_tables, 0x40000, MOST, &rsdp))) {}
    tell("lay", number, MOST);
}

static size_t read_file(const char *path, uint8_t *bytes) {
    FILE *file = fopen(path, "rb");
    want(file != NULL);
    size_t length = fread(bytes, 1, MOST, file);
    fclose(file);
    return length;
}

int main(int count, char **files) {
    static uint8_t bytes[MOST];
    input = make_edge();
    second = make_edge();
    third = make_edge();
    output = make_edge();
    if (count == 1) {
        try_memory();
        return 0;
    }
    want(count > 4 && hyssop_version() == HYSSOP_VERSION);
    try_names();
    try_numbers();
    try_null();
    try_notes();
    try_seal();
    try_block();
    try_compile();
    try_among();
    try_findings();
    try_stack();
    try_empty();
    try_template();
    try_arguments();
    try_writers();
    try_added();
    size_t length = read_file(files[1], bytes);
    try_image(bytes, length, strtoull(files[2], NULL, 16), strtoull(files[3], NULL, 16));
    try_ranges(bytes, length, strtoull(files[2], NULL, 16), strtoull(files[3], NULL, 16));
    for (int i = 4; i < count; i++) {
        length = read_file(files[i], bytes);
        try_table(bytes, length);
        if (i == 4)
            try_random(bytes, length);
    }
    printf("an image and %d tables, cut and changed, and %d random inputs to each function\n", count - 4, RUNS);
    return 0;
}
