/* The functions of hyssop.h. Each replaces a pointer that is NULL by memory of this file or of the call, and calls the proved
   function of exports.h. names.h has the words of the faults, which c.sh takes from the comments of hyssop.h. */
#include "hyssop.h"
#include "exports.h"
#include <string.h>

/* What is read or written in place of NULL: nothing, since its size is 0. */
static union {
    unsigned char bytes[1];
    struct hyssop_structure structure;
    struct hyssop_note note;
    struct hyssop_image_table table;
    struct hyssop_range range;
} nothing;

/* Results that a caller doesn't ask for. */
struct unwanted {
    size_t size;
    size_t unread;
    uint64_t place;
};

static int is_null(const void *memory, size_t size) {
    return memory == NULL && size != 0;
}

static const void *input(const void *memory) {
    return memory == NULL ? &nothing : memory;
}

static void *output(void *memory) {
    return memory == NULL ? &nothing : memory;
}

static size_t *size_or(size_t *size, struct unwanted *unwanted) {
    return size == NULL ? &unwanted->size : size;
}

static uint64_t *place_or(uint64_t *place, struct unwanted *unwanted) {
    return place == NULL ? &unwanted->place : place;
}

static size_t *unread_or(size_t *unread, struct unwanted *unwanted) {
    return unread == NULL ? &unwanted->unread : unread;
}

/* The fault of a NULL whose size isn't 0. */
static enum hyssop_fault null(size_t *size, uint64_t *place) {
    if (size != NULL)
        *size = 0;
    if (place != NULL)
        *place = 0;
    return HYSSOP_FAULT_NULL;
}

uint32_t hyssop_version(void) {
    return hyssop_export_version();
}

const char *hyssop_fault_words(uint32_t number) {
    static const struct {
        uint32_t number;
        const char *words;
    } names[] = {
#include "names.h"
    };
    size_t i = 0;
    for (i = 0; i < sizeof names / sizeof names[0]; i++)
        if (names[i].number == number)
            return names[i].words;
    return hyssop_fault_words(HYSSOP_FAULT_UNKNOWN_NUMBER);
}

enum hyssop_fault hyssop_check_table(const void *bytes, size_t bytes_size, uint64_t *place) {
    struct unwanted unwanted;
    if (is_null(bytes, bytes_size))
        return null(NULL, place);
    return (enum hyssop_fault)hyssop_export_check_table(input(bytes), bytes_size, place_or(place, &unwanted));
}

enum hyssop_fault hyssop_seal(void *bytes, size_t bytes_size, uint64_t *place) {
    struct unwanted unwanted;
    if (is_null(bytes, bytes_size))
        return null(NULL, place);
    return (enum hyssop_fault)hyssop_export_seal(output(bytes), bytes_size, place_or(place, &unwanted));
}

enum hyssop_fault hyssop_table_structures(const void *bytes, size_t bytes_size, struct hyssop_structure *out, size_t out_count,
                                          size_t *count, uint64_t *place) {
    struct unwanted unwanted;
    if (is_null(bytes, bytes_size) || is_null(out, out_count))
        return null(count, place);
    return (enum hyssop_fault)hyssop_export_table_structures(input(bytes), bytes_size, output(out), out_count,
                                                             size_or(count, &unwanted), place_or(place, &unwanted));
}

enum hyssop_fault hyssop_check_aml(const void *bytes, size_t bytes_size, const char *arities, size_t arities_size,
                                   uint64_t *place) {
    struct unwanted unwanted;
    if (is_null(bytes, bytes_size) || is_null(arities, arities_size))
        return null(NULL, place);
    return (enum hyssop_fault)hyssop_export_check_aml(input(bytes), bytes_size, input(arities), arities_size,
                                                      place_or(place, &unwanted));
}

enum hyssop_fault hyssop_disassemble(const void *bytes, size_t bytes_size, const char *arities, size_t arities_size, char *out,
                                     size_t out_size, size_t *size, uint64_t *place) {
    struct unwanted unwanted;
    if (is_null(bytes, bytes_size) || is_null(arities, arities_size) || is_null(out, out_size))
        return null(size, place);
    return (enum hyssop_fault)hyssop_export_disassemble(input(bytes), bytes_size, input(arities), arities_size, output(out),
                                                        out_size, size_or(size, &unwanted), place_or(place, &unwanted));
}

enum hyssop_fault hyssop_names(const void *bytes, size_t bytes_size, const char *arities, size_t arities_size, char *out,
                               size_t out_size, size_t *size, uint64_t *place) {
    struct unwanted unwanted;
    if (is_null(bytes, bytes_size) || is_null(arities, arities_size) || is_null(out, out_size))
        return null(size, place);
    return (enum hyssop_fault)hyssop_export_names(input(bytes), bytes_size, input(arities), arities_size, output(out), out_size,
                                                  size_or(size, &unwanted), place_or(place, &unwanted));
}

enum hyssop_fault hyssop_disassemble_among(const void *bytes, size_t bytes_size, const void *further, size_t further_size,
                                           const char *arities, size_t arities_size, char *out, size_t out_size, size_t *size,
                                           size_t *unread, uint64_t *place) {
    struct unwanted unwanted;
    unread = unread_or(unread, &unwanted);
    *unread = 0;
    if (is_null(bytes, bytes_size) || is_null(further, further_size) || is_null(arities, arities_size) || is_null(out, out_size))
        return null(size, place);
    return (enum hyssop_fault)hyssop_export_disassemble_among(input(bytes), bytes_size, input(further), further_size,
                                                              input(arities), arities_size, output(out), out_size,
                                                              size_or(size, &unwanted), unread, place_or(place, &unwanted));
}

enum hyssop_fault hyssop_names_among(const void *bytes, size_t bytes_size, const void *further, size_t further_size,
                                     const char *arities, size_t arities_size, char *out, size_t out_size, size_t *size,
                                     size_t *unread, uint64_t *place) {
    struct unwanted unwanted;
    unread = unread_or(unread, &unwanted);
    *unread = 0;
    if (is_null(bytes, bytes_size) || is_null(further, further_size) || is_null(arities, arities_size) || is_null(out, out_size))
        return null(size, place);
    return (enum hyssop_fault)hyssop_export_names_among(input(bytes), bytes_size, input(further), further_size, input(arities),
                                                        arities_size, output(out), out_size, size_or(size, &unwanted), unread,
                                                        place_or(place, &unwanted));
}

enum hyssop_fault hyssop_compile(const char *text, size_t text_size, void *out, size_t out_size, size_t *size,
                                 uint64_t *place) {
    struct unwanted unwanted;
    if (is_null(text, text_size) || is_null(out, out_size))
        return null(size, place);
    return (enum hyssop_fault)hyssop_export_compile(input(text), text_size, output(out), out_size, size_or(size, &unwanted),
                                                    place_or(place, &unwanted));
}

enum hyssop_fault hyssop_check_image(const void *bytes, size_t bytes_size, uint64_t base, uint64_t rsdp, uint64_t *place) {
    struct unwanted unwanted;
    if (is_null(bytes, bytes_size))
        return null(NULL, place);
    return (enum hyssop_fault)hyssop_export_check_image(input(bytes), bytes_size, base, rsdp, place_or(place, &unwanted));
}

enum hyssop_fault hyssop_image_tables(const void *bytes, size_t bytes_size, uint64_t base, uint64_t rsdp,
                                      struct hyssop_image_table *out, size_t out_count, size_t *count, uint64_t *place) {
    struct unwanted unwanted;
    if (is_null(bytes, bytes_size) || is_null(out, out_count))
        return null(count, place);
    return (enum hyssop_fault)hyssop_export_image_tables(input(bytes), bytes_size, base, rsdp, output(out), out_count,
                                                         size_or(count, &unwanted), place_or(place, &unwanted));
}

/* Whether an array of ranges is NULL, or the bytes of one. */
static int are_null(const struct hyssop_range *ranges, size_t count) {
    size_t i = 0;
    if (is_null(ranges, count))
        return 1;
    for (i = 0; i < count; i++)
        if (ranges[i].bytes == NULL)
            return 1;
    return 0;
}

enum hyssop_fault hyssop_check_memory(const struct hyssop_range *ranges, size_t ranges_count, uint64_t rsdp, uint64_t *place) {
    struct unwanted unwanted;
    if (are_null(ranges, ranges_count))
        return null(NULL, place);
    return (enum hyssop_fault)hyssop_export_check_memory(input(ranges), ranges_count, rsdp, place_or(place, &unwanted));
}

enum hyssop_fault hyssop_memory_tables(const struct hyssop_range *ranges, size_t ranges_count, uint64_t rsdp,
                                       struct hyssop_image_table *out, size_t out_count, size_t *count, uint64_t *place) {
    struct unwanted unwanted;
    if (are_null(ranges, ranges_count) || is_null(out, out_count))
        return null(count, place);
    return (enum hyssop_fault)hyssop_export_memory_tables(input(ranges), ranges_count, rsdp, output(out), out_count,
                                                          size_or(count, &unwanted), place_or(place, &unwanted));
}

enum hyssop_fault hyssop_find_rsdp(const void *bytes, size_t bytes_size, size_t *offset) {
    struct unwanted unwanted;
    if (is_null(bytes, bytes_size))
        return null(offset, NULL);
    return (enum hyssop_fault)hyssop_export_find_rsdp(input(bytes), bytes_size, size_or(offset, &unwanted));
}

enum hyssop_fault hyssop_show(const void *bytes, size_t bytes_size, char *out, size_t out_size, size_t *size, uint64_t *place) {
    struct unwanted unwanted;
    if (is_null(bytes, bytes_size) || is_null(out, out_size))
        return null(size, place);
    return (enum hyssop_fault)hyssop_export_show(input(bytes), bytes_size, output(out), out_size, size_or(size, &unwanted),
                                                 place_or(place, &unwanted));
}

enum hyssop_fault hyssop_findings(const void *bytes, size_t bytes_size, char *out, size_t out_size, size_t *size,
                                  uint64_t *place) {
    struct unwanted unwanted;
    if (is_null(bytes, bytes_size) || is_null(out, out_size))
        return null(size, place);
    return (enum hyssop_fault)hyssop_export_findings(input(bytes), bytes_size, output(out), out_size, size_or(size, &unwanted),
                                                     place_or(place, &unwanted));
}

enum hyssop_fault hyssop_make(const char *text, size_t text_size, void *out, size_t out_size, size_t *size, uint64_t *place) {
    struct unwanted unwanted;
    if (is_null(text, text_size) || is_null(out, out_size))
        return null(size, place);
    return (enum hyssop_fault)hyssop_export_make(input(text), text_size, output(out), out_size, size_or(size, &unwanted),
                                                 place_or(place, &unwanted));
}

enum hyssop_fault hyssop_make_notes(const char *text, size_t text_size, struct hyssop_note *out, size_t out_count, size_t *count,
                                    uint64_t *place) {
    struct unwanted unwanted;
    if (is_null(text, text_size) || is_null(out, out_count))
        return null(count, place);
    return (enum hyssop_fault)hyssop_export_make_notes(input(text), text_size, output(out), out_count, size_or(count, &unwanted),
                                                       place_or(place, &unwanted));
}

enum hyssop_fault hyssop_template(const char *signature, size_t signature_size, char *out, size_t out_size, size_t *size) {
    struct unwanted unwanted;
    if (is_null(signature, signature_size) || is_null(out, out_size))
        return null(size, NULL);
    return (enum hyssop_fault)hyssop_export_template(input(signature), signature_size, output(out), out_size,
                                                     size_or(size, &unwanted));
}

/* ---- writers */

static int is_unusable(const struct hyssop_writer *writer) {
    return writer == NULL || is_null(writer->bytes, writer->bytes_size);
}

/* The fault of a NULL, which the writer keeps if there is one. */
static enum hyssop_fault null_of(struct hyssop_writer *writer) {
    return writer == NULL ? HYSSOP_FAULT_NULL : (enum hyssop_fault)hyssop_export_null(&writer->state);
}

enum hyssop_fault hyssop_begin(struct hyssop_writer *writer, void *bytes, size_t bytes_size) {
    if (writer == NULL)
        return HYSSOP_FAULT_NULL;
    writer->bytes = bytes;
    writer->bytes_size = bytes_size;
    (void)hyssop_export_begin(&writer->state);
    return is_unusable(writer) ? null_of(writer) : HYSSOP_FINE;
}

enum hyssop_fault hyssop_open_scope(struct hyssop_writer *writer, const char *path) {
    if (is_unusable(writer) || path == NULL)
        return null_of(writer);
    return (enum hyssop_fault)hyssop_export_open_scope(output(writer->bytes), writer->bytes_size, &writer->state, path,
                                                       strlen(path));
}

enum hyssop_fault hyssop_open_device(struct hyssop_writer *writer, const char *path) {
    if (is_unusable(writer) || path == NULL)
        return null_of(writer);
    return (enum hyssop_fault)hyssop_export_open_device(output(writer->bytes), writer->bytes_size, &writer->state, path,
                                                        strlen(path));
}

enum hyssop_fault hyssop_open_thermal_zone(struct hyssop_writer *writer, const char *path) {
    if (is_unusable(writer) || path == NULL)
        return null_of(writer);
    return (enum hyssop_fault)hyssop_export_open_thermal_zone(output(writer->bytes), writer->bytes_size, &writer->state, path,
                                                              strlen(path));
}

enum hyssop_fault hyssop_open_power_resource(struct hyssop_writer *writer, const char *path, uint8_t level, uint16_t order) {
    if (is_unusable(writer) || path == NULL)
        return null_of(writer);
    return (enum hyssop_fault)hyssop_export_open_power_resource(output(writer->bytes), writer->bytes_size, &writer->state, path,
                                                                strlen(path), level, order);
}

enum hyssop_fault hyssop_open_processor(struct hyssop_writer *writer, const char *path, uint8_t id, uint32_t address,
                                        uint8_t size) {
    if (is_unusable(writer) || path == NULL)
        return null_of(writer);
    return (enum hyssop_fault)hyssop_export_open_processor(output(writer->bytes), writer->bytes_size, &writer->state, path,
                                                           strlen(path), id, address, size);
}

enum hyssop_fault hyssop_open_method(struct hyssop_writer *writer, const char *path, uint8_t arguments, int serialized) {
    if (is_unusable(writer) || path == NULL)
        return null_of(writer);
    return (enum hyssop_fault)hyssop_export_open_method(output(writer->bytes), writer->bytes_size, &writer->state, path,
                                                        strlen(path), arguments, serialized != 0);
}

enum hyssop_fault hyssop_open_package(struct hyssop_writer *writer, uint8_t elements) {
    if (is_unusable(writer))
        return null_of(writer);
    return (enum hyssop_fault)hyssop_export_open_package(output(writer->bytes), writer->bytes_size, &writer->state, elements);
}

enum hyssop_fault hyssop_open_if(struct hyssop_writer *writer) {
    if (is_unusable(writer))
        return null_of(writer);
    return (enum hyssop_fault)hyssop_export_open_if(output(writer->bytes), writer->bytes_size, &writer->state);
}

enum hyssop_fault hyssop_open_else(struct hyssop_writer *writer) {
    if (is_unusable(writer))
        return null_of(writer);
    return (enum hyssop_fault)hyssop_export_open_else(output(writer->bytes), writer->bytes_size, &writer->state);
}

enum hyssop_fault hyssop_open_while(struct hyssop_writer *writer) {
    if (is_unusable(writer))
        return null_of(writer);
    return (enum hyssop_fault)hyssop_export_open_while(output(writer->bytes), writer->bytes_size, &writer->state);
}

enum hyssop_fault hyssop_open_buffer(struct hyssop_writer *writer) {
    if (is_unusable(writer))
        return null_of(writer);
    return (enum hyssop_fault)hyssop_export_open_buffer(output(writer->bytes), writer->bytes_size, &writer->state);
}

enum hyssop_fault hyssop_open_sized_buffer(struct hyssop_writer *writer) {
    if (is_unusable(writer))
        return null_of(writer);
    return (enum hyssop_fault)hyssop_export_open_sized_buffer(output(writer->bytes), writer->bytes_size, &writer->state);
}

enum hyssop_fault hyssop_open_var_package(struct hyssop_writer *writer) {
    if (is_unusable(writer))
        return null_of(writer);
    return (enum hyssop_fault)hyssop_export_open_var_package(output(writer->bytes), writer->bytes_size, &writer->state);
}

enum hyssop_fault hyssop_open_resources(struct hyssop_writer *writer) {
    if (is_unusable(writer))
        return null_of(writer);
    return (enum hyssop_fault)hyssop_export_open_resources(output(writer->bytes), writer->bytes_size, &writer->state);
}

enum hyssop_fault hyssop_open_field(struct hyssop_writer *writer, const char *region, uint32_t access, int lock,
                                    uint32_t update) {
    if (is_unusable(writer) || region == NULL)
        return null_of(writer);
    return (enum hyssop_fault)hyssop_export_open_field(output(writer->bytes), writer->bytes_size, &writer->state, region,
                                                       strlen(region), access, lock != 0, update);
}

enum hyssop_fault hyssop_open_index_field(struct hyssop_writer *writer, const char *index_name, const char *data_name,
                                          uint32_t access, int lock, uint32_t update) {
    if (is_unusable(writer) || index_name == NULL || data_name == NULL)
        return null_of(writer);
    return (enum hyssop_fault)hyssop_export_open_index_field(output(writer->bytes), writer->bytes_size, &writer->state,
                                                             index_name, strlen(index_name), data_name, strlen(data_name),
                                                             access, lock != 0, update);
}

enum hyssop_fault hyssop_close(struct hyssop_writer *writer) {
    if (is_unusable(writer))
        return null_of(writer);
    return (enum hyssop_fault)hyssop_export_close(output(writer->bytes), writer->bytes_size, &writer->state);
}

enum hyssop_fault hyssop_name(struct hyssop_writer *writer, const char *path) {
    if (is_unusable(writer) || path == NULL)
        return null_of(writer);
    return (enum hyssop_fault)hyssop_export_name(output(writer->bytes), writer->bytes_size, &writer->state, path, strlen(path));
}

enum hyssop_fault hyssop_field_unit(struct hyssop_writer *writer, const char *name, uint32_t bits) {
    if (is_unusable(writer) || name == NULL)
        return null_of(writer);
    return (enum hyssop_fault)hyssop_export_field_unit(output(writer->bytes), writer->bytes_size, &writer->state, name,
                                                       strlen(name), bits);
}

enum hyssop_fault hyssop_field_gap(struct hyssop_writer *writer, uint32_t bits) {
    if (is_unusable(writer))
        return null_of(writer);
    return (enum hyssop_fault)hyssop_export_field_gap(output(writer->bytes), writer->bytes_size, &writer->state, bits);
}

enum hyssop_fault hyssop_region(struct hyssop_writer *writer, const char *path, uint8_t space) {
    if (is_unusable(writer) || path == NULL)
        return null_of(writer);
    return (enum hyssop_fault)hyssop_export_region(output(writer->bytes), writer->bytes_size, &writer->state, path, strlen(path),
                                                   space);
}

enum hyssop_fault hyssop_mutex(struct hyssop_writer *writer, const char *path, uint8_t sync_level) {
    if (is_unusable(writer) || path == NULL)
        return null_of(writer);
    return (enum hyssop_fault)hyssop_export_mutex(output(writer->bytes), writer->bytes_size, &writer->state, path, strlen(path),
                                                  sync_level);
}

enum hyssop_fault hyssop_acquire(struct hyssop_writer *writer, const char *mutex, uint16_t timeout) {
    if (is_unusable(writer) || mutex == NULL)
        return null_of(writer);
    return (enum hyssop_fault)hyssop_export_acquire(output(writer->bytes), writer->bytes_size, &writer->state, mutex,
                                                    strlen(mutex), timeout);
}

enum hyssop_fault hyssop_release(struct hyssop_writer *writer, const char *mutex) {
    if (is_unusable(writer) || mutex == NULL)
        return null_of(writer);
    return (enum hyssop_fault)hyssop_export_release(output(writer->bytes), writer->bytes_size, &writer->state, mutex,
                                                    strlen(mutex));
}

enum hyssop_fault hyssop_event(struct hyssop_writer *writer, const char *path) {
    if (is_unusable(writer) || path == NULL)
        return null_of(writer);
    return (enum hyssop_fault)hyssop_export_event(output(writer->bytes), writer->bytes_size, &writer->state, path, strlen(path));
}

enum hyssop_fault hyssop_alias(struct hyssop_writer *writer, const char *source, const char *name) {
    if (is_unusable(writer) || source == NULL || name == NULL)
        return null_of(writer);
    return (enum hyssop_fault)hyssop_export_alias(output(writer->bytes), writer->bytes_size, &writer->state, source,
                                                  strlen(source), name, strlen(name));
}

enum hyssop_fault hyssop_external(struct hyssop_writer *writer, const char *path, uint8_t kind, uint8_t arguments) {
    if (is_unusable(writer) || path == NULL)
        return null_of(writer);
    return (enum hyssop_fault)hyssop_export_external(output(writer->bytes), writer->bytes_size, &writer->state, path,
                                                     strlen(path), kind, arguments);
}

enum hyssop_fault hyssop_path(struct hyssop_writer *writer, const char *name) {
    if (is_unusable(writer) || name == NULL)
        return null_of(writer);
    return (enum hyssop_fault)hyssop_export_path(output(writer->bytes), writer->bytes_size, &writer->state, name, strlen(name));
}

enum hyssop_fault hyssop_integer(struct hyssop_writer *writer, uint64_t value) {
    if (is_unusable(writer))
        return null_of(writer);
    return (enum hyssop_fault)hyssop_export_integer(output(writer->bytes), writer->bytes_size, &writer->state, value);
}

enum hyssop_fault hyssop_string(struct hyssop_writer *writer, const char *text) {
    if (is_unusable(writer) || text == NULL)
        return null_of(writer);
    return (enum hyssop_fault)hyssop_export_string(output(writer->bytes), writer->bytes_size, &writer->state, text, strlen(text));
}

enum hyssop_fault hyssop_eisa_id(struct hyssop_writer *writer, const char *id) {
    if (is_unusable(writer) || id == NULL)
        return null_of(writer);
    return (enum hyssop_fault)hyssop_export_eisa_id(output(writer->bytes), writer->bytes_size, &writer->state, id, strlen(id));
}

enum hyssop_fault hyssop_uuid(struct hyssop_writer *writer, const char *text) {
    if (is_unusable(writer) || text == NULL)
        return null_of(writer);
    return (enum hyssop_fault)hyssop_export_uuid(output(writer->bytes), writer->bytes_size, &writer->state, text, strlen(text));
}

enum hyssop_fault hyssop_argument(struct hyssop_writer *writer, uint8_t number) {
    if (is_unusable(writer))
        return null_of(writer);
    return (enum hyssop_fault)hyssop_export_argument(output(writer->bytes), writer->bytes_size, &writer->state, number);
}

enum hyssop_fault hyssop_local(struct hyssop_writer *writer, uint8_t number) {
    if (is_unusable(writer))
        return null_of(writer);
    return (enum hyssop_fault)hyssop_export_local(output(writer->bytes), writer->bytes_size, &writer->state, number);
}

enum hyssop_fault hyssop_operator(struct hyssop_writer *writer, uint32_t code) {
    if (is_unusable(writer))
        return null_of(writer);
    return (enum hyssop_fault)hyssop_export_operator(output(writer->bytes), writer->bytes_size, &writer->state, code);
}

enum hyssop_fault hyssop_bytes(struct hyssop_writer *writer, const void *content, size_t content_size) {
    if (is_unusable(writer) || is_null(content, content_size))
        return null_of(writer);
    return (enum hyssop_fault)hyssop_export_bytes(output(writer->bytes), writer->bytes_size, &writer->state, input(content),
                                                  content_size);
}

enum hyssop_fault hyssop_io(struct hyssop_writer *writer, uint16_t min, uint16_t max, uint8_t alignment, uint8_t length) {
    if (is_unusable(writer))
        return null_of(writer);
    return (enum hyssop_fault)hyssop_export_io(output(writer->bytes), writer->bytes_size, &writer->state, min, max, alignment,
                                               length);
}

enum hyssop_fault hyssop_interrupt(struct hyssop_writer *writer, int consumer, int edge_triggered, int active_low, int shared,
                                   uint32_t number) {
    if (is_unusable(writer))
        return null_of(writer);
    return (enum hyssop_fault)hyssop_export_interrupt(output(writer->bytes), writer->bytes_size, &writer->state, consumer != 0,
                                                      edge_triggered != 0, active_low != 0, shared != 0, number);
}

enum hyssop_fault hyssop_memory32_fixed(struct hyssop_writer *writer, int read_write, uint32_t base, uint32_t length) {
    if (is_unusable(writer))
        return null_of(writer);
    return (enum hyssop_fault)hyssop_export_memory32_fixed(output(writer->bytes), writer->bytes_size, &writer->state,
                                                           read_write != 0, base, length);
}

enum hyssop_fault hyssop_bus_numbers(struct hyssop_writer *writer, uint16_t min, uint16_t max) {
    if (is_unusable(writer))
        return null_of(writer);
    return (enum hyssop_fault)hyssop_export_bus_numbers(output(writer->bytes), writer->bytes_size, &writer->state, min, max);
}

enum hyssop_fault hyssop_io_range(struct hyssop_writer *writer, uint16_t min, uint16_t max, uint16_t translation) {
    if (is_unusable(writer))
        return null_of(writer);
    return (enum hyssop_fault)hyssop_export_io_range(output(writer->bytes), writer->bytes_size, &writer->state, min, max,
                                                     translation);
}

enum hyssop_fault hyssop_io_range32(struct hyssop_writer *writer, uint32_t min, uint32_t max, uint32_t translation) {
    if (is_unusable(writer))
        return null_of(writer);
    return (enum hyssop_fault)hyssop_export_io_range32(output(writer->bytes), writer->bytes_size, &writer->state, min, max,
                                                       translation);
}

enum hyssop_fault hyssop_memory_range32(struct hyssop_writer *writer, uint32_t memory_type, int read_write, uint32_t min,
                                        uint32_t max, uint32_t translation) {
    if (is_unusable(writer))
        return null_of(writer);
    return (enum hyssop_fault)hyssop_export_memory_range32(output(writer->bytes), writer->bytes_size, &writer->state, memory_type,
                                                           read_write != 0, min, max, translation);
}

enum hyssop_fault hyssop_memory_range64(struct hyssop_writer *writer, uint32_t memory_type, int read_write, uint64_t min,
                                        uint64_t max, uint64_t translation) {
    if (is_unusable(writer))
        return null_of(writer);
    return (enum hyssop_fault)hyssop_export_memory_range64(output(writer->bytes), writer->bytes_size, &writer->state, memory_type,
                                                           read_write != 0, min, max, translation);
}

enum hyssop_fault hyssop_memory_range16(struct hyssop_writer *writer, uint32_t memory_type, int read_write, uint16_t min,
                                        uint16_t max, uint16_t translation) {
    if (is_unusable(writer))
        return null_of(writer);
    return (enum hyssop_fault)hyssop_export_memory_range16(output(writer->bytes), writer->bytes_size, &writer->state, memory_type,
                                                           read_write != 0, min, max, translation);
}

enum hyssop_fault hyssop_io_range64(struct hyssop_writer *writer, uint64_t min, uint64_t max, uint64_t translation) {
    if (is_unusable(writer))
        return null_of(writer);
    return (enum hyssop_fault)hyssop_export_io_range64(output(writer->bytes), writer->bytes_size, &writer->state, min, max,
                                                       translation);
}

enum hyssop_fault hyssop_bus_numbers32(struct hyssop_writer *writer, uint32_t min, uint32_t max) {
    if (is_unusable(writer))
        return null_of(writer);
    return (enum hyssop_fault)hyssop_export_bus_numbers32(output(writer->bytes), writer->bytes_size, &writer->state, min, max);
}

enum hyssop_fault hyssop_bus_numbers64(struct hyssop_writer *writer, uint64_t min, uint64_t max) {
    if (is_unusable(writer))
        return null_of(writer);
    return (enum hyssop_fault)hyssop_export_bus_numbers64(output(writer->bytes), writer->bytes_size, &writer->state, min, max);
}

enum hyssop_fault hyssop_register(struct hyssop_writer *writer, uint8_t space, uint8_t width, uint8_t offset, uint8_t access,
                                  uint64_t address) {
    if (is_unusable(writer))
        return null_of(writer);
    return (enum hyssop_fault)hyssop_export_register(output(writer->bytes), writer->bytes_size, &writer->state, space, width,
                                                     offset, access, address);
}

enum hyssop_fault hyssop_table(struct hyssop_writer *writer, const char *signature, uint8_t revision, const char *oem_id,
                               const char *oem_table_id, uint32_t oem_revision) {
    if (is_unusable(writer) || signature == NULL || oem_id == NULL || oem_table_id == NULL)
        return null_of(writer);
    return (enum hyssop_fault)hyssop_export_table(output(writer->bytes), writer->bytes_size, &writer->state, signature,
                                                  strlen(signature), revision, oem_id, strlen(oem_id), oem_table_id,
                                                  strlen(oem_table_id), oem_revision);
}

enum hyssop_fault hyssop_add_fields(struct hyssop_writer *writer) {
    if (is_unusable(writer))
        return null_of(writer);
    return (enum hyssop_fault)hyssop_export_add_fields(output(writer->bytes), writer->bytes_size, &writer->state);
}

enum hyssop_fault hyssop_add_structure(struct hyssop_writer *writer, uint32_t kind, size_t *offset) {
    struct unwanted unwanted;
    if (is_unusable(writer)) {
        if (offset != NULL)
            *offset = 0;
        return null_of(writer);
    }
    return (enum hyssop_fault)hyssop_export_add_structure(output(writer->bytes), writer->bytes_size, &writer->state, kind,
                                                          size_or(offset, &unwanted));
}

enum hyssop_fault hyssop_add_structure_bytes(struct hyssop_writer *writer, const void *content, size_t content_size,
                                             size_t *offset) {
    struct unwanted unwanted;
    if (is_unusable(writer) || is_null(content, content_size)) {
        if (offset != NULL)
            *offset = 0;
        return null_of(writer);
    }
    return (enum hyssop_fault)hyssop_export_add_structure_bytes(output(writer->bytes), writer->bytes_size, &writer->state,
                                                                input(content), content_size, size_or(offset, &unwanted));
}

enum hyssop_fault hyssop_end_structure(struct hyssop_writer *writer, size_t offset) {
    if (is_unusable(writer))
        return null_of(writer);
    return (enum hyssop_fault)hyssop_export_end_structure(output(writer->bytes), writer->bytes_size, &writer->state, offset);
}

enum hyssop_fault hyssop_set_number(struct hyssop_writer *writer, size_t offset, const char *name, uint64_t value) {
    if (is_unusable(writer) || name == NULL)
        return null_of(writer);
    return (enum hyssop_fault)hyssop_export_set_number(output(writer->bytes), writer->bytes_size, &writer->state, offset, name,
                                                       strlen(name), value);
}

enum hyssop_fault hyssop_set_bytes(struct hyssop_writer *writer, size_t offset, const char *name, const void *content,
                                   size_t content_size) {
    if (is_unusable(writer) || name == NULL || is_null(content, content_size))
        return null_of(writer);
    return (enum hyssop_fault)hyssop_export_set_bytes(output(writer->bytes), writer->bytes_size, &writer->state, offset, name,
                                                      strlen(name), input(content), content_size);
}

enum hyssop_fault hyssop_overwrite(struct hyssop_writer *writer, size_t offset, const void *content, size_t content_size) {
    if (is_unusable(writer) || is_null(content, content_size))
        return null_of(writer);
    return (enum hyssop_fault)hyssop_export_overwrite(output(writer->bytes), writer->bytes_size, &writer->state, offset,
                                                      input(content), content_size);
}

enum hyssop_fault hyssop_add_number(struct hyssop_writer *writer, size_t width, uint64_t value) {
    if (is_unusable(writer))
        return null_of(writer);
    return (enum hyssop_fault)hyssop_export_add_number(output(writer->bytes), writer->bytes_size, &writer->state, width, value);
}

enum hyssop_fault hyssop_finish(const struct hyssop_writer *writer, size_t *size, uint64_t *place) {
    struct unwanted unwanted;
    if (writer == NULL)
        return null(size, place);
    return (enum hyssop_fault)hyssop_export_finish(&writer->state, size_or(size, &unwanted), place_or(place, &unwanted));
}

enum hyssop_fault hyssop_finish_table(struct hyssop_writer *writer, size_t *size, uint64_t *place) {
    struct unwanted unwanted;
    if (is_unusable(writer))
        return null(size, place);
    return (enum hyssop_fault)hyssop_export_finish_table(output(writer->bytes), writer->bytes_size, &writer->state,
                                                         size_or(size, &unwanted), place_or(place, &unwanted));
}

enum hyssop_fault hyssop_lay(const void *tables, size_t tables_size, uint64_t base, void *out, size_t out_size, size_t *size,
                             uint64_t *rsdp, uint64_t *place) {
    struct unwanted unwanted;
    uint64_t nowhere;
    if (is_null(tables, tables_size) || is_null(out, out_size)) {
        if (rsdp != NULL)
            *rsdp = 0;
        return null(size, place);
    }
    return (enum hyssop_fault)hyssop_export_lay(input(tables), tables_size, base, output(out), out_size, size_or(size, &unwanted),
                                                rsdp == NULL ? &nowhere : rsdp, place_or(place, &unwanted));
}
