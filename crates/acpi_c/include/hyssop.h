/* Checks, texts and tables of ACPI by a library that is proved. docs/C.md has each function and each fault in full.

   A function returns HYSSOP_FINE, or the fault that it found. The numbers of faults never change. What a caller owes:

   - A pointer whose size isn't 0 is valid for that size and aligned for its type. The size counts bytes, and elements where its
     name ends with `count`. NULL is allowed with a size of 0, but not as the bytes of a range. NULL is also allowed for a result
     that isn't wanted: `size`, `count`, `place`, `unread`, `rsdp`, and `offset` where it is a pointer.
   - Memory that is written overlaps no other argument. During the call no other thread uses it, and none writes to what is read.
   - malloc, realloc and free are those of one allocator, and align a block as C says. No call is made from a signal handler, or
     from the forked child of a process with threads.
   - The stack has 512 KiB for hyssop_check_aml, 2 MiB for hyssop_disassemble, hyssop_names, hyssop_disassemble_among,
     hyssop_names_among and hyssop_compile, and 128 KiB for every other function.

   Nothing is kept between calls, and several threads may call at once. What is found is written to the front of `out`, and *size
   or *count is how much that is. Texts have no zero at their end. If more is found than fits, the result is HYSSOP_FAULT_BUFFER,
   and `out` is unchanged: a first call with a size of 0 asks for the size, and does all the work. With any other fault *size and
   *count are 0, and `out` is unchanged. *place is where a fault is, and 0 if there is none. */
#ifndef HYSSOP_H
#define HYSSOP_H

#include <stddef.h>
#include <stdint.h>

#ifdef __cplusplus
extern "C" {
#endif

/* A compiler that knows how warns of a call whose result isn't used. */
#if defined(__GNUC__) || defined(__clang__)
#define HYSSOP_RESULT __attribute__((warn_unused_result))
#else
#define HYSSOP_RESULT
#endif

/* hyssop_version() returns this, if the library fits this header. It grows when a function or a fault changes. */
#define HYSSOP_VERSION 9

/* The type of a structure, if the structures of its table have none. */
#define HYSSOP_NO_KIND SIZE_MAX

enum hyssop_fault {
    HYSSOP_FINE = 0, /* fine */
    HYSSOP_FAULT_MEMORY = 1, /* out of memory */
    HYSSOP_FAULT_BUFFER = 2, /* the buffer is too small */
    HYSSOP_FAULT_UNKNOWN_NUMBER = 3, /* no fault has this number */
    HYSSOP_FAULT_ARITIES = 4, /* a number of arguments isn't NAME=N, or a name has two */
    HYSSOP_FAULT_SIGNATURE = 5, /* a signature has four bytes of text */
    HYSSOP_FAULT_NULL = 6, /* a pointer is NULL, and its size isn't 0 */
    HYSSOP_FAULT_SHORT_HEADER = 16, /* a table has at least the 36 bytes of the standard header */
    HYSSOP_FAULT_TABLE_LENGTH = 17, /* the length of a table isn't the number of its bytes */
    HYSSOP_FAULT_SUM = 18, /* the bytes of a table don't sum to zero */
    HYSSOP_FAULT_STRUCTURE = 19, /* a structure isn't as long as it says */
    HYSSOP_FAULT_COUNT = 20, /* a count isn't the number of what it counts */
    HYSSOP_FAULT_UNKNOWN_SOURCE = 21, /* the size of an error source isn't known */
    HYSSOP_FAULT_NO_BLOCK = 22, /* the signature isn't that of a definition block */
    HYSSOP_FAULT_FURTHER_BLOCK = 23, /* a further block isn't a whole definition block */
    HYSSOP_FAULT_TRUNCATED = 32, /* the bytes end within a term */
    HYSSOP_FAULT_OPCODE = 33, /* no term begins so */
    HYSSOP_FAULT_PKG_LENGTH = 34, /* a PkgLength doesn't fit what surrounds it */
    HYSSOP_FAULT_NUMBER = 35, /* a number isn't in its shortest form */
    HYSSOP_FAULT_FLAGS = 36, /* flags have no meaning */
    HYSSOP_FAULT_TEXT = 37, /* a string has a byte past 7F */
    HYSSOP_FAULT_TOO_DEEP = 38, /* terms nest too deep */
    HYSSOP_FAULT_IMAGE_OUTSIDE = 48, /* a table isn't in the image with its whole length */
    HYSSOP_FAULT_IMAGE_SIGNATURE = 49, /* the signature of a table is wrong */
    HYSSOP_FAULT_IMAGE_LENGTH = 50, /* the length of a table is wrong */
    HYSSOP_FAULT_IMAGE_REVISION = 51, /* the revision of the RSDP isn't 2 */
    HYSSOP_FAULT_IMAGE_SUM = 52, /* the bytes of a table in the image don't sum to zero */
    HYSSOP_FAULT_IMAGE_ENTRIES = 53, /* the list of tables doesn't end after a whole entry */
    HYSSOP_FAULT_IMAGE_NO_FADT = 54, /* no FADT is listed */
    HYSSOP_FAULT_IMAGE_SECOND_FADT = 55, /* the XSDT lists a second FADT */
    HYSSOP_FAULT_IMAGE_OVERLAP = 56, /* two tables overlap */
    HYSSOP_FAULT_LAY_BASE = 57, /* the address of an image isn't a multiple of 64 */
    HYSSOP_FAULT_LAY_SECOND = 58, /* a second table of this signature */
    HYSSOP_FAULT_LAY_NO_FADT = 59, /* no table is a FADT */
    HYSSOP_FAULT_LAY_NO_DSDT = 60, /* no table is a DSDT */
    HYSSOP_FAULT_LAY_NO_FACS = 61, /* no table is a FACS, and the FADT doesn't have the flag HW_REDUCED_ACPI */
    HYSSOP_FAULT_LAY_SHORT_FADT = 62, /* the FADT has no field X_DSDT */
    HYSSOP_FAULT_LAY_NO_SPACE = 63, /* the tables end after the last address */
    HYSSOP_FAULT_NO_POINTER = 64, /* no RSDP is at a multiple of 16 */
    HYSSOP_FAULT_WANTS_PRINTING = 65, /* expected text */
    HYSSOP_FAULT_WANTS_SPACE = 66, /* expected a space */
    HYSSOP_FAULT_WANTS_VALUE = 67, /* expected a value */
    HYSSOP_FAULT_WANTS_DIGIT = 68, /* expected a hexadecimal digit */
    HYSSOP_FAULT_WANTS_SECOND_DIGIT = 69, /* expected the second digit of a byte (#5 and 0x5 are the number 5) */
    HYSSOP_FAULT_WANTS_QUOTATION_MARK = 70, /* expected a quotation mark, or a character of ASCII that prints */
    HYSSOP_FAULT_WANTS_QUESTION_MARK = 71, /* expected a second question mark */
    HYSSOP_FAULT_WANTS_SLASH = 72, /* expected a second slash */
    HYSSOP_FAULT_WANTS_BRACE = 73, /* expected a brace at the end of the names */
    HYSSOP_FAULT_WANTS_FIELD = 74, /* expected bytes, since the line has no field */
    HYSSOP_FAULT_WANTS_NAME = 75, /* expected a name that this field has; a bar between spaces joins flags of different bits */
    HYSSOP_FAULT_WANTS_NUMBER = 76, /* expected a number that fits the field */
    HYSSOP_FAULT_WANTS_LABEL = 77, /* expected the label of one structure */
    HYSSOP_FAULT_WANTS_BYTES = 78, /* expected bytes, since nothing determines the question marks */
    HYSSOP_FAULT_WANTS_NEXT = 79, /* expected another field or structure */
    HYSSOP_FAULT_WANTS_NAMELESS = 80, /* expected Bytes, since no field of the form stands here */
    HYSSOP_FAULT_WANTS_END = 81, /* expected the end of the table */
    HYSSOP_FAULT_WANTS_STRUCTURE = 82, /* expected the name or the type of a structure of this table */
    HYSSOP_FAULT_WANTS_WIDTH = 83, /* expected as many bytes as the field has */
    HYSSOP_FAULT_WANTS_WHOLE = 84, /* expected all fields, since the length is left out */
    HYSSOP_FAULT_WANTS_ONE_TABLE = 85, /* expected the end of the text, since a text is one table */
    HYSSOP_FAULT_WANTS_TABLE = 86, /* expected a table, whose fields stand in lines after white space */
    HYSSOP_FAULT_WANTS_FIELD_OF = 87, /* expected a field */
    HYSSOP_FAULT_WANTS_ANOTHER_NUMBER = 88, /* expected another number */
    HYSSOP_FAULT_NOT_ASL = 89, /* the text isn't the ASL of a definition block */
    HYSSOP_FAULT_WANTS_INDENTED = 90, /* expected white space before a field */
    HYSSOP_FAULT_WANTS_GROUPS = 91, /* expected as many digits in a group as a number of the field has */
    HYSSOP_FAULT_NAME_PART = 96, /* a part of a path doesn't have four bytes */
    HYSSOP_FAULT_PATH_PARTS = 97, /* a path has more than 255 parts */
    HYSSOP_FAULT_EISA_TEXT = 98, /* an EISA id is three letters from A to Z and four hexadecimal digits */
    HYSSOP_FAULT_UUID_TEXT = 99, /* a UUID is 8, 4, 4, 4 and 12 hexadecimal digits between dashes */
    HYSSOP_FAULT_ARG_NUMBER = 100, /* the number of an argument is at most 6 */
    HYSSOP_FAULT_LOCAL_NUMBER = 101, /* the number of a local variable is at most 7 */
    HYSSOP_FAULT_METHOD_ARGS = 102, /* a method has at most 7 arguments */
    HYSSOP_FAULT_OBJECT_LENGTH = 103, /* a PkgLength is less than 2^28 */
    HYSSOP_FAULT_ADDRESS_RANGE = 104, /* an address range ends before it starts, or is all of its type */
    HYSSOP_FAULT_UNKNOWN_CHOICE = 105, /* no operator and no memory type has this number */
    HYSSOP_FAULT_OEM_TEXT = 106, /* an OEM ID has 6 bytes, and an OEM Table ID 8 */
    HYSSOP_FAULT_NONE_OPEN = 107, /* no object is open */
    HYSSOP_FAULT_STILL_OPEN = 108, /* an object is still open */
    HYSSOP_FAULT_TOO_MANY_OPEN = 109, /* at most 32 objects are open at a time */
    HYSSOP_FAULT_WRITER_STATE = 110, /* a writer isn't as its last call left it */
    HYSSOP_FAULT_NOT_EMPTY = 111, /* a table begins in an empty writer */
    HYSSOP_FAULT_OUTSIDE = 112 /* nothing is written at this offset */
};

/* A structure of a table: its offset in the table, its type or HYSSOP_NO_KIND, and the number of its bytes. */
struct hyssop_structure {
    size_t offset;
    size_t kind;
    size_t size;
};

/* A number that a text states wrongly: the offset and the width of its field in bytes, and the number that would be right. */
struct hyssop_note {
    size_t offset;
    size_t width;
    size_t value;
};

/* A table of an image: the physical address of its first byte, the number of its bytes, and its first four bytes, which are its
   signature, and "RSD " of an RSDP. */
struct hyssop_image_table {
    uint64_t address;
    uint32_t length;
    uint8_t signature[4];
};

/* A range of a guest's memory: the physical address of its first byte, its bytes, which aren't NULL, and their number. */
struct hyssop_range {
    uint64_t address;
    const void *bytes;
    size_t size;
};

/* How many objects of a writer may be open at a time. */
#define HYSSOP_DEPTH 32

/* What a writer keeps. Only calls change it. */
struct hyssop_state {
    size_t size; /* how many bytes are written */
    size_t depth; /* how many objects are open */
    size_t marks[HYSSOP_DEPTH]; /* where the PkgLength of each open object goes */
    uint32_t kinds[HYSSOP_DEPTH]; /* what closing it adds: 0 is nothing, 1 a size, 2 a size and an end tag */
    uint32_t fault; /* the first fault, or 0 */
};

/* A writer of AML and of tables: the caller's buffer, and what is written there. */
struct hyssop_writer {
    uint8_t *bytes;
    size_t bytes_size;
    struct hyssop_state state;
};

/* How a range of memory may be cached (ACPI 6.5, 6.4.3.5.5). */
enum hyssop_memory_type {
    HYSSOP_MEMORY_NOT_CACHEABLE = 0,
    HYSSOP_MEMORY_CACHEABLE = 1,
    HYSSOP_MEMORY_WRITE_COMBINING = 2,
    HYSSOP_MEMORY_PREFETCHABLE = 3
};

/* The address spaces of regions (20.2.5.2, RegionSpace). hyssop_region takes other numbers, too: 0x0a is PCC, 0x0b is
   PlatformRtMechanism, and from 0x80 on they are those of an OEM. */
enum hyssop_space {
    HYSSOP_SPACE_SYSTEM_MEMORY = 0,
    HYSSOP_SPACE_SYSTEM_IO = 1,
    HYSSOP_SPACE_PCI_CONFIG = 2,
    HYSSOP_SPACE_EMBEDDED_CONTROL = 3,
    HYSSOP_SPACE_SMBUS = 4,
    HYSSOP_SPACE_SYSTEM_CMOS = 5,
    HYSSOP_SPACE_PCI_BAR_TARGET = 6,
    HYSSOP_SPACE_IPMI = 7,
    HYSSOP_SPACE_GENERAL_PURPOSE_IO = 8,
    HYSSOP_SPACE_GENERIC_SERIAL_BUS = 9
};

/* The width of the accesses to a field (20.2.5.2, AccessType). */
enum hyssop_access {
    HYSSOP_ACCESS_ANY = 0,
    HYSSOP_ACCESS_BYTE = 1,
    HYSSOP_ACCESS_WORD = 2,
    HYSSOP_ACCESS_DWORD = 3,
    HYSSOP_ACCESS_QWORD = 4,
    HYSSOP_ACCESS_BUFFER = 5
};

/* What an access to a field writes to the bits that don't belong to it (20.2.5.2, UpdateRule). */
enum hyssop_update {
    HYSSOP_UPDATE_PRESERVE = 0,
    HYSSOP_UPDATE_WRITE_AS_ONES = 1,
    HYSSOP_UPDATE_WRITE_AS_ZEROES = 2
};

/* The operators (20.2.5). A constant has the name of its opcode in 20.3 without Op: CONCAT is Concatenate of ASL, CONCATRES is
   ConcatenateResTemplate, and DATAREGION is DataTableRegion. The number is the opcode. Operands follow an operator in the order
   of 20.2.5, and its target after them. The integer 0 is no target. LNotEqual, LLessEqual and LGreaterEqual are LNOT and then
   LEQUAL, LGREATER and LLESS. A MatchOpcode of MATCH is a byte (`hyssop_bytes`), and no integer. ACQUIRE and RELEASE are those of
   an object that isn't a name, as Arg0. The timeout follows the object as two bytes (`hyssop_bytes`). */
enum hyssop_op {
    HYSSOP_OP_LNOT = 0x92, HYSSOP_OP_LEQUAL = 0x93, HYSSOP_OP_LLESS = 0x95, HYSSOP_OP_LGREATER = 0x94, HYSSOP_OP_LAND = 0x90,
    HYSSOP_OP_LOR = 0x91, HYSSOP_OP_INCREMENT = 0x75, HYSSOP_OP_DECREMENT = 0x76, HYSSOP_OP_BREAK = 0xa5,
    HYSSOP_OP_OBJECTTYPE = 0x8e, HYSSOP_OP_SIZEOF = 0x87, HYSSOP_OP_RETURN = 0xa4, HYSSOP_OP_DEREFOF = 0x83, HYSSOP_OP_ADD = 0x72,
    HYSSOP_OP_CONCAT = 0x73, HYSSOP_OP_SUBTRACT = 0x74, HYSSOP_OP_MULTIPLY = 0x77, HYSSOP_OP_SHIFTLEFT = 0x79,
    HYSSOP_OP_SHIFTRIGHT = 0x7a, HYSSOP_OP_AND = 0x7b, HYSSOP_OP_NAND = 0x7c, HYSSOP_OP_OR = 0x7d, HYSSOP_OP_NOR = 0x7e,
    HYSSOP_OP_XOR = 0x7f, HYSSOP_OP_CONCATRES = 0x84, HYSSOP_OP_MOD = 0x85, HYSSOP_OP_INDEX = 0x88, HYSSOP_OP_TOSTRING = 0x9c,
    HYSSOP_OP_CREATEDWORDFIELD = 0x8a, HYSSOP_OP_CREATEQWORDFIELD = 0x8f, HYSSOP_OP_TOBUFFER = 0x96, HYSSOP_OP_TOINTEGER = 0x99,
    HYSSOP_OP_STORE = 0x70, HYSSOP_OP_NOTIFY = 0x86, HYSSOP_OP_MID = 0x9e, HYSSOP_OP_ALIAS = 0x06, HYSSOP_OP_REFOF = 0x71,
    HYSSOP_OP_DIVIDE = 0x78, HYSSOP_OP_NOT = 0x80, HYSSOP_OP_FINDSETLEFTBIT = 0x81, HYSSOP_OP_FINDSETRIGHTBIT = 0x82,
    HYSSOP_OP_MATCH = 0x89, HYSSOP_OP_CREATEWORDFIELD = 0x8b, HYSSOP_OP_CREATEBYTEFIELD = 0x8c, HYSSOP_OP_CREATEBITFIELD = 0x8d,
    HYSSOP_OP_TODECIMALSTRING = 0x97, HYSSOP_OP_TOHEXSTRING = 0x98, HYSSOP_OP_COPYOBJECT = 0x9d, HYSSOP_OP_CONTINUE = 0x9f,
    HYSSOP_OP_NOOP = 0xa3, HYSSOP_OP_BREAKPOINT = 0xcc, HYSSOP_OP_CREATEFIELD = 0x5b13, HYSSOP_OP_EVENT = 0x5b02,
    HYSSOP_OP_CONDREFOF = 0x5b12, HYSSOP_OP_LOADTABLE = 0x5b1f, HYSSOP_OP_LOAD = 0x5b20, HYSSOP_OP_STALL = 0x5b21,
    HYSSOP_OP_SLEEP = 0x5b22, HYSSOP_OP_SIGNAL = 0x5b24, HYSSOP_OP_WAIT = 0x5b25, HYSSOP_OP_RESET = 0x5b26,
    HYSSOP_OP_FROMBCD = 0x5b28, HYSSOP_OP_TOBCD = 0x5b29, HYSSOP_OP_UNLOAD = 0x5b2a, HYSSOP_OP_REVISION = 0x5b30,
    HYSSOP_OP_DEBUG = 0x5b31, HYSSOP_OP_TIMER = 0x5b33, HYSSOP_OP_DATAREGION = 0x5b88,
    HYSSOP_OP_ACQUIRE = 0x5b23, HYSSOP_OP_RELEASE = 0x5b27
};

uint32_t hyssop_version(void);

/* The words of a fault, with a zero at their end. They are constant. A number of no fault has those of number 3. */
const char *hyssop_fault_words(uint32_t number);

/* Checks a table: its header, its length and its sum (ACPI 6.5, 5.2.6). *place is an offset. It takes no memory. */
HYSSOP_RESULT enum hyssop_fault hyssop_check_table(const void *bytes, size_t bytes_size, uint64_t *place);

/* Sets the length and the checksum of a table: the length is bytes_size. *place is an offset. It takes no memory. */
HYSSOP_RESULT enum hyssop_fault hyssop_seal(void *bytes, size_t bytes_size, uint64_t *place);

/* Writes the structures of a table, in order. *place is an offset. */
HYSSOP_RESULT enum hyssop_fault hyssop_table_structures(const void *bytes, size_t bytes_size, struct hyssop_structure *out,
                                                        size_t out_count, size_t *count, uint64_t *place);

/* Checks terms of AML, without a table's header (20.2). `arities` has words NAME=N with a space between two: how many arguments
   calls of a method have. Any other name has none. *place is an offset in `bytes`. */
HYSSOP_RESULT enum hyssop_fault hyssop_check_aml(const void *bytes, size_t bytes_size, const char *arities, size_t arities_size,
                                                 uint64_t *place);

/* Writes the ASL of a definition block (chapter 19). `arities` is as above. A name that isn't there has the number
   of arguments that the block itself states. *place is an offset in `bytes`. */
HYSSOP_RESULT enum hyssop_fault hyssop_disassemble(const void *bytes, size_t bytes_size, const char *arities, size_t arities_size,
                                                   char *out, size_t out_size, size_t *size, uint64_t *place);

/* Writes the objects that a definition block makes when it is loaded (5.3), as a tree of names. All else is as above. */
HYSSOP_RESULT enum hyssop_fault hyssop_names(const void *bytes, size_t bytes_size, const char *arities, size_t arities_size,
                                             char *out, size_t out_size, size_t *size, uint64_t *place);

/* Writes the ASL of a definition block as hyssop_disassemble, but among the blocks in `further`, which have the same namespace
   (5.3). They lie one after another, each as long as its length says: calls have the numbers of arguments that they state, too.
   A block of which not all terms can be read has a text, too, with the others as comments. *unread is then the offset at which a
   term can't be read, and 0 if all are read. *place is an offset in `bytes`, and with HYSSOP_FAULT_FURTHER_BLOCK one in
   `further`. */
HYSSOP_RESULT enum hyssop_fault hyssop_disassemble_among(const void *bytes, size_t bytes_size, const void *further,
                                                         size_t further_size, const char *arities, size_t arities_size,
                                                         char *out, size_t out_size, size_t *size, size_t *unread,
                                                         uint64_t *place);

/* Writes the objects that a definition block makes when it is loaded, as a tree of names. All else is as above. */
HYSSOP_RESULT enum hyssop_fault hyssop_names_among(const void *bytes, size_t bytes_size, const void *further, size_t further_size,
                                                   const char *arities, size_t arities_size, char *out, size_t out_size,
                                                   size_t *size, size_t *unread, uint64_t *place);

/* Writes the definition block of a text that hyssop_disassemble wrote, or one like it (chapter 19). The text is the ASL of this
   block, but white space and comments may be others. *place is a line, counted from 1. */
HYSSOP_RESULT enum hyssop_fault hyssop_compile(const char *text, size_t text_size, void *out, size_t out_size, size_t *size,
                                               uint64_t *place);

/* Checks the tables in a guest's memory from the RSDP on (5.2.5 to 5.2.10). The bytes begin at the physical address `base`, and
   the RSDP is at the address `rsdp`. *place is the address of a table. */
HYSSOP_RESULT enum hyssop_fault hyssop_check_image(const void *bytes, size_t bytes_size, uint64_t base, uint64_t rsdp,
                                                   uint64_t *place);

/* Writes the tables of such an image: the RSDP, the XSDT, its entries in order, the FACS if there is one, and the DSDT. *place is
   the address of a table. */
HYSSOP_RESULT enum hyssop_fault hyssop_image_tables(const void *bytes, size_t bytes_size, uint64_t base, uint64_t rsdp,
                                                    struct hyssop_image_table *out, size_t out_count, size_t *count,
                                                    uint64_t *place);

/* Checks the tables in a guest's memory as hyssop_check_image, where this is several ranges that don't overlap. The RSDP is at
   the address `rsdp`. Each table lies in one range with its whole length. *place is the address of a table. */
HYSSOP_RESULT enum hyssop_fault hyssop_check_memory(const struct hyssop_range *ranges, size_t ranges_count, uint64_t rsdp,
                                                    uint64_t *place);

/* Writes the tables in such memory, as hyssop_image_tables. *place is the address of a table. */
HYSSOP_RESULT enum hyssop_fault hyssop_memory_tables(const struct hyssop_range *ranges, size_t ranges_count, uint64_t rsdp,
                                                     struct hyssop_image_table *out, size_t out_count, size_t *count,
                                                     uint64_t *place);

/* Finds the RSDP in memory (5.2.5.1): at a multiple of 16 bytes from the front of `bytes`, which lies at a multiple of 16 in the
   guest's memory, too. *offset is where the RSDP begins, and 0 with a fault. It takes no memory. */
HYSSOP_RESULT enum hyssop_fault hyssop_find_rsdp(const void *bytes, size_t bytes_size, size_t *offset);

/* Writes the text of a table, an RSDP, a FACS, a CDAT or an S3PT: a line for each field, by its name. *place is an offset. */
HYSSOP_RESULT enum hyssop_fault hyssop_show(const void *bytes, size_t bytes_size, char *out, size_t out_size, size_t *size,
                                            uint64_t *place);

/* Writes the rules of the standard that a table, an RSDP, a FACS, a CDAT or an S3PT breaks: a line for each, as acpitool check
   prints them after the name of a file. A table that breaks none has no line. *place is an offset. */
HYSSOP_RESULT enum hyssop_fault hyssop_findings(const void *bytes, size_t bytes_size, char *out, size_t out_size, size_t *size,
                                                uint64_t *place);

/* Writes the table of a text that hyssop_show wrote, or one like it. What the text leaves out is worked out, such as its length
   and checksum. *place is a line, counted from 1. */
HYSSOP_RESULT enum hyssop_fault hyssop_make(const char *text, size_t text_size, void *out, size_t out_size, size_t *size,
                                            uint64_t *place);

/* Writes the lengths, counts and checksums that such a text states wrongly, with the right ones. A checksum is that of the table
   with the right numbers. hyssop_make writes the table as the text states it. *place is a line, counted from 1. */
HYSSOP_RESULT enum hyssop_fault hyssop_make_notes(const char *text, size_t text_size, struct hyssop_note *out, size_t out_count,
                                                  size_t *count, uint64_t *place);

/* Writes a text of the table of a signature, to begin with. */
HYSSOP_RESULT enum hyssop_fault hyssop_template(const char *signature, size_t signature_size, char *out, size_t out_size,
                                                size_t *size);


/* Begins a writer, which writes into the buffer from its front on. NULL is allowed with a size of 0. All further calls are made
   with this writer, which nothing else changes. A call that has a fault changes nothing but the writer's fault, and returns it.
   Every later call does nothing and returns this fault, so it is enough to look at what hyssop_finish returns. Texts end with a
   zero. NULL in place of one is a fault of the writer. No call of a writer takes memory. */
enum hyssop_fault hyssop_begin(struct hyssop_writer *writer, void *bytes, size_t bytes_size);

/* Opens a scope: objects below a name (ACPI 6.5, 20.2.5.1, DefScope). */
enum hyssop_fault hyssop_open_scope(struct hyssop_writer *writer, const char *path);

/* Opens a device (20.2.5.2, DefDevice). */
enum hyssop_fault hyssop_open_device(struct hyssop_writer *writer, const char *path);

/* Opens a thermal zone (20.2.5.2, DefThermalZone). */
enum hyssop_fault hyssop_open_thermal_zone(struct hyssop_writer *writer, const char *path);

/* Opens a power resource (20.2.5.2, DefPowerRes), with the deepest sleep level in which it stays on, and its place in their
   order. */
enum hyssop_fault hyssop_open_power_resource(struct hyssop_writer *writer, const char *path, uint8_t level, uint16_t order);

/* Opens a processor (20.2.5.2, DefProcessor): its id in the MADT, and the address and the length of its register block. The
   standard has a device with the id ACPI0007 in place of it. */
enum hyssop_fault hyssop_open_processor(struct hyssop_writer *writer, const char *path, uint8_t id, uint32_t address,
                                        uint8_t size);

/* Opens a method of 0 to 7 arguments (20.2.5.2, DefMethod). */
enum hyssop_fault hyssop_open_method(struct hyssop_writer *writer, const char *path, uint8_t arguments, int serialized);

/* Opens a package, in which at most so many elements follow (20.2.5.4, DefPackage). */
enum hyssop_fault hyssop_open_package(struct hyssop_writer *writer, uint8_t elements);

/* Opens statements after a predicate, which is the first object (20.2.5.3, DefIfElse). */
enum hyssop_fault hyssop_open_if(struct hyssop_writer *writer);

/* Opens the statements for the other case, after those of an If (20.2.5.3, DefElse). */
enum hyssop_fault hyssop_open_else(struct hyssop_writer *writer);

/* Opens a loop, whose predicate is the first object (20.2.5.3, DefWhile). */
enum hyssop_fault hyssop_open_while(struct hyssop_writer *writer);

/* Opens a buffer, whose bytes follow (20.2.5.4, DefBuffer). Closing it writes their number before them. */
enum hyssop_fault hyssop_open_buffer(struct hyssop_writer *writer);

/* Opens a buffer whose size is the first object, before its bytes (20.2.5.4, DefBuffer). Closing it adds nothing inside. */
enum hyssop_fault hyssop_open_sized_buffer(struct hyssop_writer *writer);

/* Opens a package whose number of elements is the first object, before the elements (20.2.5.4, DefVarPackage). */
enum hyssop_fault hyssop_open_var_package(struct hyssop_writer *writer);

/* Opens a buffer of resource descriptors, which follow (6.4). Closing it writes the end tag, too. */
enum hyssop_fault hyssop_open_resources(struct hyssop_writer *writer);

/* Opens a field of a region, whose units and gaps follow (20.2.5.2, DefField): a HYSSOP_ACCESS_.., whether an access takes the
   global lock, and a HYSSOP_UPDATE_.. */
enum hyssop_fault hyssop_open_field(struct hyssop_writer *writer, const char *region, uint32_t access, int lock,
                                    uint32_t update);

/* Opens a field that is reached by an index (20.2.5.2, DefIndexField): the field to which an index is written, and that of
   the data. All else is as for hyssop_open_field. */
enum hyssop_fault hyssop_open_index_field(struct hyssop_writer *writer, const char *index_name, const char *data_name,
                                          uint32_t access, int lock, uint32_t update);

/* Closes the object that was opened last: its PkgLength gets the least width (20.2.4). */
enum hyssop_fault hyssop_close(struct hyssop_writer *writer);

/* Gives a name to the object that follows (20.2.5.1, DefName). */
enum hyssop_fault hyssop_name(struct hyssop_writer *writer, const char *path);

/* Writes a name of four characters for the next bits of the open field (20.2.5.2, NamedField). */
enum hyssop_fault hyssop_field_unit(struct hyssop_writer *writer, const char *name, uint32_t bits);

/* Leaves out the next bits of the open field (20.2.5.2, ReservedField). */
enum hyssop_fault hyssop_field_gap(struct hyssop_writer *writer, uint32_t bits);

/* Begins a region of an address space, a HYSSOP_SPACE_.. (20.2.5.2, DefOpRegion). Its offset and its length in bytes follow: two
   numbers, or other terms. */
enum hyssop_fault hyssop_region(struct hyssop_writer *writer, const char *path, uint8_t space);

/* Writes a mutex, with its sync level from 0 to 15 (20.2.5.2, DefMutex). */
enum hyssop_fault hyssop_mutex(struct hyssop_writer *writer, const char *path, uint8_t sync_level);

/* Acquires a mutex, within so many milliseconds; 0xffff has no limit (20.2.5.4, DefAcquire). */
enum hyssop_fault hyssop_acquire(struct hyssop_writer *writer, const char *mutex, uint16_t timeout);

/* Releases a mutex (20.2.5.3, DefRelease). */
enum hyssop_fault hyssop_release(struct hyssop_writer *writer, const char *mutex);

/* Writes an event (20.2.5.2, DefEvent). */
enum hyssop_fault hyssop_event(struct hyssop_writer *writer, const char *path);

/* Gives the object `source` a second name (20.2.5.1, DefAlias). */
enum hyssop_fault hyssop_alias(struct hyssop_writer *writer, const char *source, const char *name);

/* Declares an object of another block (20.2.5.2, DefExternal): its type (19.6.45), and how many arguments it has as a method. */
enum hyssop_fault hyssop_external(struct hyssop_writer *writer, const char *path, uint8_t kind, uint8_t arguments);

/* Writes a name: an operand, or a call of a method, whose arguments follow (20.2.2, NameString). */
enum hyssop_fault hyssop_path(struct hyssop_writer *writer, const char *name);

/* Writes a number in its shortest form (20.2.3). */
enum hyssop_fault hyssop_integer(struct hyssop_writer *writer, uint64_t value);

/* Writes a string of ASCII (20.2.3). */
enum hyssop_fault hyssop_string(struct hyssop_writer *writer, const char *text);

/* Writes an EISA id, such as "PNP0A08", as a number (19.3.4). */
enum hyssop_fault hyssop_eisa_id(struct hyssop_writer *writer, const char *id);

/* Writes a UUID, of 36 characters, as a buffer (19.6.142). */
enum hyssop_fault hyssop_uuid(struct hyssop_writer *writer, const char *text);

/* Writes an argument of the method, from 0 to 6 (20.2.6.1). */
enum hyssop_fault hyssop_argument(struct hyssop_writer *writer, uint8_t number);

/* Writes a local variable of the method, from 0 to 7 (20.2.6.2). */
enum hyssop_fault hyssop_local(struct hyssop_writer *writer, uint8_t number);

/* Writes an operator, a HYSSOP_OP_.., whose operands follow (20.2.5). */
enum hyssop_fault hyssop_operator(struct hyssop_writer *writer, uint32_t code);

/* Writes bytes as they are. */
enum hyssop_fault hyssop_bytes(struct hyssop_writer *writer, const void *content, size_t content_size);

/* Writes a range of ports: its least and its greatest base, their alignment, and the number of ports (6.4.2.5). */
enum hyssop_fault hyssop_io(struct hyssop_writer *writer, uint16_t min, uint16_t max, uint8_t alignment, uint8_t length);

/* Writes an interrupt (6.4.3.6): whether the device consumes it, whether an edge triggers it and not a level, whether it is
   active low and not high, whether devices share it, and its number. */
enum hyssop_fault hyssop_interrupt(struct hyssop_writer *writer, int consumer, int edge_triggered, int active_low, int shared,
                                   uint32_t number);

/* Writes a range of memory at a fixed address (6.4.3.4): whether it can be written, its first address, and its size in bytes. */
enum hyssop_fault hyssop_memory32_fixed(struct hyssop_writer *writer, int read_write, uint32_t base, uint32_t length);

/* Writes a range of bus numbers, from its first to its last (6.4.3.5). */
enum hyssop_fault hyssop_bus_numbers(struct hyssop_writer *writer, uint16_t min, uint16_t max);

/* Writes a range of ports, from its first to its last, and what a bridge adds to them (6.4.3.5). */
enum hyssop_fault hyssop_io_range(struct hyssop_writer *writer, uint16_t min, uint16_t max, uint16_t translation);

/* Writes a range of ports as hyssop_io_range does, with a translation of 32 bits, as for ports that are in memory. */
enum hyssop_fault hyssop_io_range32(struct hyssop_writer *writer, uint32_t min, uint32_t max, uint32_t translation);

/* Writes a range of memory below 2^32: how it is cached, a HYSSOP_MEMORY_.., its first and its last address, and what a bridge
   adds to them (6.4.3.5). */
enum hyssop_fault hyssop_memory_range32(struct hyssop_writer *writer, uint32_t memory_type, int read_write, uint32_t min,
                                        uint32_t max, uint32_t translation);

/* Writes a range of memory with addresses of 64 bits, as hyssop_memory_range32 does. */
enum hyssop_fault hyssop_memory_range64(struct hyssop_writer *writer, uint32_t memory_type, int read_write, uint64_t min,
                                        uint64_t max, uint64_t translation);

/* Writes a range of memory with addresses of 16 bits, as hyssop_memory_range32 does. */
enum hyssop_fault hyssop_memory_range16(struct hyssop_writer *writer, uint32_t memory_type, int read_write, uint16_t min,
                                        uint16_t max, uint16_t translation);

/* Writes a range of ports with 64 bits, as hyssop_io_range does. */
enum hyssop_fault hyssop_io_range64(struct hyssop_writer *writer, uint64_t min, uint64_t max, uint64_t translation);

/* Write ranges of bus numbers of 32 and of 64 bits, as hyssop_bus_numbers does. */
enum hyssop_fault hyssop_bus_numbers32(struct hyssop_writer *writer, uint32_t min, uint32_t max);
enum hyssop_fault hyssop_bus_numbers64(struct hyssop_writer *writer, uint64_t min, uint64_t max);

/* Writes a register (6.4.3.7) by the numbers of its address (5.2.3.2): its address space, its width and its offset in bits, the
   size of an access, and the address. */
enum hyssop_fault hyssop_register(struct hyssop_writer *writer, uint8_t space, uint8_t width, uint8_t offset, uint8_t access,
                                  uint64_t address);

/* Begins a table in an empty writer with its header (5.2.6). The signature has 4 bytes, the OEM ID 6 and the OEM Table ID 8. */
enum hyssop_fault hyssop_table(struct hyssop_writer *writer, const char *signature, uint8_t revision, const char *oem_id,
                               const char *oem_table_id, uint32_t oem_revision);

/* Adds the fields of the table that aren't written yet, up to its first list or its first structure. All are zero. */
enum hyssop_fault hyssop_add_fields(struct hyssop_writer *writer);

/* Adds a structure of a type to the table, after the fields of the table: the fields of the structure up to its first list. All
   are zero, but its type and its length. The table gets the number of its structures and the offset of the first, if it has
   fields for them. A table whose structures have no types takes the type 0. *offset is where the structure begins, and 0 with a
   fault. It may be NULL. */
enum hyssop_fault hyssop_add_structure(struct hyssop_writer *writer, uint32_t kind, size_t *offset);

/* Adds a structure as its bytes to the table, after the fields of the table. They are as many as their length field or their type
   says. All else is as for hyssop_add_structure. */
enum hyssop_fault hyssop_add_structure_bytes(struct hyssop_writer *writer, const void *content, size_t content_size,
                                             size_t *offset);

/* Ends the structure at an offset, to which bytes were added: its length is the number of the bytes from there on. */
enum hyssop_fault hyssop_end_structure(struct hyssop_writer *writer, size_t offset);

/* Sets a field to a number: the first with this name of the structure at an offset, or of the table itself at 0. docs/FIELDS.md
   has the names. Fields in a list, and those after the first list, aren't sought. */
enum hyssop_fault hyssop_set_number(struct hyssop_writer *writer, size_t offset, const char *name, uint64_t value);

/* Sets such a field to bytes, of which it takes as many as it has. A register has 12. */
enum hyssop_fault hyssop_set_bytes(struct hyssop_writer *writer, size_t offset, const char *name, const void *content,
                                   size_t content_size);

/* Writes bytes over those that are written at an offset. */
enum hyssop_fault hyssop_overwrite(struct hyssop_writer *writer, size_t offset, const void *content, size_t content_size);

/* Writes a number of `width` bytes, at most 8, lowest byte first. */
enum hyssop_fault hyssop_add_number(struct hyssop_writer *writer, size_t width, uint64_t value);

/* Ends a writer: *size is the number of the bytes that are written. It returns the first fault, or HYSSOP_FAULT_STILL_OPEN if an
   object is open. Then *size is 0, and *place is how many bytes were written before the fault. */
HYSSOP_RESULT enum hyssop_fault hyssop_finish(const struct hyssop_writer *writer, size_t *size, uint64_t *place);

/* Ends a writer that began with hyssop_table: the table gets its length and its checksum. All else is as for hyssop_finish. */
HYSSOP_RESULT enum hyssop_fault hyssop_finish_table(struct hyssop_writer *writer, size_t *size, uint64_t *place);

/* Lays tables into an image for the physical address `base`, a multiple of 64 (5.2.5 to 5.2.10). They lie one after another in
   `tables`, each as long as its length says: the FADT, the DSDT, the FACS, and others. The image gets an XSDT and an RSDP, whose
   address is *rsdp. *place is which table is wrong, counted from 0. */
HYSSOP_RESULT enum hyssop_fault hyssop_lay(const void *tables, size_t tables_size, uint64_t base, void *out, size_t out_size,
                                           size_t *size, uint64_t *rsdp, uint64_t *place);

#ifdef __cplusplus
}
#endif

#endif
