/* The exports of the files in src: the proved functions that hyssop.c calls, and hyssop_export_fault_name, which tests call. No
   pointer may be NULL. */
#ifndef HYSSOP_EXPORTS_H
#define HYSSOP_EXPORTS_H

#include "hyssop.h"
#include <stdbool.h>

uint32_t hyssop_export_version(void);
uint32_t hyssop_export_fault_name(uint32_t number, void *out, size_t out_size, size_t *size);
uint32_t hyssop_export_check_table(const void *bytes, size_t bytes_size, uint64_t *place);
uint32_t hyssop_export_seal(void *bytes, size_t bytes_size, uint64_t *place);
uint32_t hyssop_export_table_structures(const void *bytes, size_t bytes_size, struct hyssop_structure *out, size_t out_size,
                                        size_t *size, uint64_t *place);
uint32_t hyssop_export_check_aml(const void *bytes, size_t bytes_size, const void *arities, size_t arities_size, uint64_t *place);
uint32_t hyssop_export_disassemble(const void *bytes, size_t bytes_size, const void *arities, size_t arities_size, void *out,
                                   size_t out_size, size_t *size, uint64_t *place);
uint32_t hyssop_export_names(const void *bytes, size_t bytes_size, const void *arities, size_t arities_size, void *out,
                             size_t out_size, size_t *size, uint64_t *place);
uint32_t hyssop_export_disassemble_among(const void *bytes, size_t bytes_size, const void *further, size_t further_size,
                                         const void *arities, size_t arities_size, void *out, size_t out_size, size_t *size,
                                         size_t *unread, uint64_t *place);
uint32_t hyssop_export_names_among(const void *bytes, size_t bytes_size, const void *further, size_t further_size,
                                   const void *arities, size_t arities_size, void *out, size_t out_size, size_t *size,
                                   size_t *unread, uint64_t *place);
uint32_t hyssop_export_compile(const void *text, size_t text_size, void *out, size_t out_size, size_t *size, uint64_t *place);
uint32_t hyssop_export_check_image(const void *bytes, size_t bytes_size, uint64_t base, uint64_t rsdp, uint64_t *place);
uint32_t hyssop_export_image_tables(const void *bytes, size_t bytes_size, uint64_t base, uint64_t rsdp,
                                    struct hyssop_image_table *out, size_t out_size, size_t *size, uint64_t *place);
uint32_t hyssop_export_check_memory(const struct hyssop_range *ranges, size_t ranges_size, uint64_t rsdp, uint64_t *place);
uint32_t hyssop_export_memory_tables(const struct hyssop_range *ranges, size_t ranges_size, uint64_t rsdp,
                                     struct hyssop_image_table *out, size_t out_size, size_t *size, uint64_t *place);
uint32_t hyssop_export_find_rsdp(const void *bytes, size_t bytes_size, size_t *offset);
uint32_t hyssop_export_show(const void *bytes, size_t bytes_size, void *out, size_t out_size, size_t *size, uint64_t *place);
uint32_t hyssop_export_findings(const void *bytes, size_t bytes_size, void *out, size_t out_size, size_t *size, uint64_t *place);
uint32_t hyssop_export_make(const void *text, size_t text_size, void *out, size_t out_size, size_t *size, uint64_t *place);
uint32_t hyssop_export_make_notes(const void *text, size_t text_size, struct hyssop_note *out, size_t out_size, size_t *size,
                                  uint64_t *place);
uint32_t hyssop_export_template(const void *signature, size_t signature_size, void *out, size_t out_size, size_t *size);
uint32_t hyssop_export_begin(struct hyssop_state *state);
uint32_t hyssop_export_null(struct hyssop_state *state);
uint32_t hyssop_export_open_scope(void *bytes, size_t bytes_size, struct hyssop_state *state, const void *path, size_t path_size);
uint32_t hyssop_export_open_device(void *bytes, size_t bytes_size, struct hyssop_state *state, const void *path,
                                   size_t path_size);
uint32_t hyssop_export_open_thermal_zone(void *bytes, size_t bytes_size, struct hyssop_state *state, const void *path,
                                         size_t path_size);
uint32_t hyssop_export_open_power_resource(void *bytes, size_t bytes_size, struct hyssop_state *state, const void *path,
                                           size_t path_size, uint8_t level, uint16_t order);
uint32_t hyssop_export_open_processor(void *bytes, size_t bytes_size, struct hyssop_state *state, const void *path,
                                      size_t path_size, uint8_t id, uint32_t address, uint8_t size);
uint32_t hyssop_export_open_method(void *bytes, size_t bytes_size, struct hyssop_state *state, const void *path, size_t path_size,
                                   uint8_t arguments, bool serialized);
uint32_t hyssop_export_open_package(void *bytes, size_t bytes_size, struct hyssop_state *state, uint8_t elements);
uint32_t hyssop_export_open_if(void *bytes, size_t bytes_size, struct hyssop_state *state);
uint32_t hyssop_export_open_else(void *bytes, size_t bytes_size, struct hyssop_state *state);
uint32_t hyssop_export_open_while(void *bytes, size_t bytes_size, struct hyssop_state *state);
uint32_t hyssop_export_open_buffer(void *bytes, size_t bytes_size, struct hyssop_state *state);
uint32_t hyssop_export_open_sized_buffer(void *bytes, size_t bytes_size, struct hyssop_state *state);
uint32_t hyssop_export_open_var_package(void *bytes, size_t bytes_size, struct hyssop_state *state);
uint32_t hyssop_export_open_resources(void *bytes, size_t bytes_size, struct hyssop_state *state);
uint32_t hyssop_export_open_field(void *bytes, size_t bytes_size, struct hyssop_state *state, const void *region,
                                  size_t region_size, uint32_t access, bool lock, uint32_t update);
uint32_t hyssop_export_open_index_field(void *bytes, size_t bytes_size, struct hyssop_state *state, const void *index_name,
                                        size_t index_name_size, const void *data_name, size_t data_name_size, uint32_t access,
                                        bool lock, uint32_t update);
uint32_t hyssop_export_close(void *bytes, size_t bytes_size, struct hyssop_state *state);
uint32_t hyssop_export_name(void *bytes, size_t bytes_size, struct hyssop_state *state, const void *path, size_t path_size);
uint32_t hyssop_export_field_unit(void *bytes, size_t bytes_size, struct hyssop_state *state, const void *name, size_t name_size,
                                  uint32_t bits);
uint32_t hyssop_export_field_gap(void *bytes, size_t bytes_size, struct hyssop_state *state, uint32_t bits);
uint32_t hyssop_export_region(void *bytes, size_t bytes_size, struct hyssop_state *state, const void *path, size_t path_size,
                              uint8_t space);
uint32_t hyssop_export_mutex(void *bytes, size_t bytes_size, struct hyssop_state *state, const void *path, size_t path_size,
                             uint8_t sync_level);
uint32_t hyssop_export_acquire(void *bytes, size_t bytes_size, struct hyssop_state *state, const void *mutex, size_t mutex_size,
                               uint16_t timeout);
uint32_t hyssop_export_release(void *bytes, size_t bytes_size, struct hyssop_state *state, const void *mutex, size_t mutex_size);
uint32_t hyssop_export_event(void *bytes, size_t bytes_size, struct hyssop_state *state, const void *path, size_t path_size);
uint32_t hyssop_export_alias(void *bytes, size_t bytes_size, struct hyssop_state *state, const void *source, size_t source_size,
                             const void *name, size_t name_size);
uint32_t hyssop_export_external(void *bytes, size_t bytes_size, struct hyssop_state *state, const void *path, size_t path_size,
                                uint8_t kind, uint8_t arguments);
uint32_t hyssop_export_path(void *bytes, size_t bytes_size, struct hyssop_state *state, const void *name, size_t name_size);
uint32_t hyssop_export_integer(void *bytes, size_t bytes_size, struct hyssop_state *state, uint64_t value);
uint32_t hyssop_export_string(void *bytes, size_t bytes_size, struct hyssop_state *state, const void *text, size_t text_size);
uint32_t hyssop_export_eisa_id(void *bytes, size_t bytes_size, struct hyssop_state *state, const void *id, size_t id_size);
uint32_t hyssop_export_uuid(void *bytes, size_t bytes_size, struct hyssop_state *state, const void *text, size_t text_size);
uint32_t hyssop_export_argument(void *bytes, size_t bytes_size, struct hyssop_state *state, uint8_t number);
uint32_t hyssop_export_local(void *bytes, size_t bytes_size, struct hyssop_state *state, uint8_t number);
uint32_t hyssop_export_operator(void *bytes, size_t bytes_size, struct hyssop_state *state, uint32_t code);
uint32_t hyssop_export_bytes(void *bytes, size_t bytes_size, struct hyssop_state *state, const void *content,
                             size_t content_size);
uint32_t hyssop_export_io(void *bytes, size_t bytes_size, struct hyssop_state *state, uint16_t min, uint16_t max,
                          uint8_t alignment, uint8_t length);
uint32_t hyssop_export_interrupt(void *bytes, size_t bytes_size, struct hyssop_state *state, bool consumer, bool edge_triggered,
                                 bool active_low, bool shared, uint32_t number);
uint32_t hyssop_export_memory32_fixed(void *bytes, size_t bytes_size, struct hyssop_state *state, bool read_write, uint32_t base,
                                      uint32_t length);
uint32_t hyssop_export_bus_numbers(void *bytes, size_t bytes_size, struct hyssop_state *state, uint16_t min, uint16_t max);
uint32_t hyssop_export_add_fields(void *bytes, size_t bytes_size, struct hyssop_state *state);
uint32_t hyssop_export_add_structure(void *bytes, size_t bytes_size, struct hyssop_state *state, uint32_t kind, size_t *offset);
uint32_t hyssop_export_add_structure_bytes(void *bytes, size_t bytes_size, struct hyssop_state *state, const void *content,
                                           size_t content_size, size_t *offset);
uint32_t hyssop_export_end_structure(void *bytes, size_t bytes_size, struct hyssop_state *state, size_t offset);
uint32_t hyssop_export_set_number(void *bytes, size_t bytes_size, struct hyssop_state *state, size_t offset, const void *name,
                                  size_t name_size, uint64_t value);
uint32_t hyssop_export_set_bytes(void *bytes, size_t bytes_size, struct hyssop_state *state, size_t offset, const void *name,
                                 size_t name_size, const void *content, size_t content_size);
uint32_t hyssop_export_overwrite(void *bytes, size_t bytes_size, struct hyssop_state *state, size_t offset, const void *content,
                                 size_t content_size);
uint32_t hyssop_export_add_number(void *bytes, size_t bytes_size, struct hyssop_state *state, size_t width, uint64_t value);
uint32_t hyssop_export_io_range32(void *bytes, size_t bytes_size, struct hyssop_state *state, uint32_t min, uint32_t max,
                                  uint32_t translation);
uint32_t hyssop_export_io_range(void *bytes, size_t bytes_size, struct hyssop_state *state, uint16_t min, uint16_t max,
                                uint16_t translation);
uint32_t hyssop_export_memory_range32(void *bytes, size_t bytes_size, struct hyssop_state *state, uint32_t memory_type,
                                      bool read_write, uint32_t min, uint32_t max, uint32_t translation);
uint32_t hyssop_export_memory_range64(void *bytes, size_t bytes_size, struct hyssop_state *state, uint32_t memory_type,
                                      bool read_write, uint64_t min, uint64_t max, uint64_t translation);
uint32_t hyssop_export_memory_range16(void *bytes, size_t bytes_size, struct hyssop_state *state, uint32_t memory_type,
                                      bool read_write, uint16_t min, uint16_t max, uint16_t translation);
uint32_t hyssop_export_io_range64(void *bytes, size_t bytes_size, struct hyssop_state *state, uint64_t min, uint64_t max,
                                  uint64_t translation);
uint32_t hyssop_export_bus_numbers32(void *bytes, size_t bytes_size, struct hyssop_state *state, uint32_t min, uint32_t max);
uint32_t hyssop_export_bus_numbers64(void *bytes, size_t bytes_size, struct hyssop_state *state, uint64_t min, uint64_t max);
uint32_t hyssop_export_register(void *bytes, size_t bytes_size, struct hyssop_state *state, uint8_t space, uint8_t width,
                                uint8_t offset, uint8_t access, uint64_t address);
uint32_t hyssop_export_table(void *bytes, size_t bytes_size, struct hyssop_state *state, const void *signature,
                             size_t signature_size, uint8_t revision, const void *oem_id, size_t oem_id_size,
                             const void *oem_table_id, size_t oem_table_id_size, uint32_t oem_revision);
uint32_t hyssop_export_finish(const struct hyssop_state *state, size_t *size, uint64_t *place);
uint32_t hyssop_export_finish_table(void *bytes, size_t bytes_size, const struct hyssop_state *state, size_t *size,
                                    uint64_t *place);
uint32_t hyssop_export_lay(const void *tables, size_t tables_size, uint64_t base, void *out, size_t out_size, size_t *size,
                           uint64_t *rsdp, uint64_t *place);

#endif
