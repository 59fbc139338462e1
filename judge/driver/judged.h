/* The calls of crate judged, which only the comparison and the records drive: tables of any size, policies of any ranges (25 cells). */
#ifndef JUDGED_H
#define JUDGED_H

#include "viscrombal.h"

struct judged_module_told {
    uint32_t number;
    size_t place, offset;
    uint32_t version;
    size_t length;
    bool named;
    size_t start, size, sections, imports, exports, symbols;
};
struct judged_count_told {
    uint32_t number;
    size_t place, count;
};
struct judged_manifest_told {
    uint32_t number;
    size_t place;
    bool packaged;
    size_t start, size, worlds, references;
};
struct judged_requirement {
    size_t domain, row;
};

struct judged_module_told judged_module(const uint8_t *file, size_t length, size_t *sections, size_t n1, size_t *imports, size_t n2,
                                        size_t *exports, size_t n3, size_t *names, size_t n4);
struct judged_module_told judged_strict(const uint8_t *file, size_t length, size_t *sections, size_t n1, size_t *imports, size_t n2,
                                        size_t *exports, size_t n3, size_t *names, size_t n4);
struct judged_count_told judged_functions(const size_t *imports, size_t cells, size_t n);
struct judged_count_told judged_memories(const size_t *imports, size_t cells, size_t n);
struct judged_count_told judged_namespaces(const uint8_t *file, size_t length, const size_t *imports, size_t cells, size_t n, size_t *sorted,
                                           size_t room);
struct viscrombal_token_read judged_token(const uint8_t *text, size_t length, const size_t *policy, size_t cells, size_t domain, size_t from);
struct viscrombal_written judged_write(const uint8_t *text, size_t length, const size_t *policy, size_t cells, uint8_t *out, size_t room);
struct viscrombal_evaluation judged_evaluate(const size_t *domains, size_t rows, size_t n, const size_t *policy, size_t cells);
struct viscrombal_evaluation judged_evaluate_records(const struct judged_requirement *list, size_t rows, size_t n, const size_t *policy,
                                                     size_t cells);
struct judged_manifest_told judged_manifest(const uint8_t *text, size_t length, size_t *worlds, size_t n5, size_t *references, size_t n6);
struct judged_count_told judged_requirements(const uint8_t *file, size_t length, const size_t *imports, size_t cells, size_t *domains,
                                             size_t n1, size_t *rows, size_t n2, size_t n);
struct judged_count_told judged_imports(const uint8_t *text, size_t length, const size_t *worlds, size_t cells5, const size_t *references,
                                        size_t cells6, size_t *sorted, size_t room, size_t n5, size_t n6);
struct judged_count_told judged_exports(const uint8_t *text, size_t length, const size_t *worlds, size_t cells5, const size_t *references,
                                        size_t cells6, size_t *sorted, size_t room, size_t n5, size_t n6);
struct judged_count_told judged_needs(const uint8_t *text, size_t length, const size_t *worlds, size_t cells5, const size_t *references,
                                      size_t cells6, size_t *domains, size_t n1, size_t *rows, size_t n2, size_t n5, size_t n6);

struct judged_compare_told {
    uint32_t number;
    size_t place, exports, capabilities;
    bool compatible;
};
struct judged_name_told {
    size_t len;
    uint8_t byte;
};
struct judged_compare_told judged_compare(const uint8_t *baseline, size_t n, const size_t *bi, size_t cells_bi, const size_t *be, size_t cells_be,
                                          const uint8_t *candidate, size_t m, const size_t *ci, size_t cells_ci, const size_t *ce, size_t cells_ce,
                                          size_t *xd, size_t cells_xd, size_t *cd, size_t cells_cd, size_t nbi, size_t nbe, size_t nci, size_t nce);
struct viscrombal_written judged_reasons(const uint8_t *baseline, size_t n, const size_t *bi, size_t cells_bi, const size_t *be, size_t cells_be,
                                         const uint8_t *candidate, size_t m, const size_t *ci, size_t cells_ci, const size_t *ce, size_t cells_ce,
                                         const size_t *xd, size_t cells_xd, const size_t *cd, size_t cells_cd, uint8_t *out, size_t room, size_t nbi,
                                         size_t nbe, size_t nci, size_t nce, size_t nxd, size_t ncd);
struct judged_name_told judged_export_name(const uint8_t *baseline, size_t n, const size_t *be, size_t cells_be, const uint8_t *candidate, size_t m,
                                           const size_t *ce, size_t cells_ce, size_t nbe, size_t nce, size_t change, size_t row, size_t k);
struct judged_name_told judged_source_name(const uint8_t *baseline, size_t n, const size_t *bi, size_t cells_bi, const uint8_t *candidate, size_t m,
                                           const size_t *ci, size_t cells_ci, size_t nbi, size_t nci, size_t change, size_t row, size_t k);
struct judged_skip_told {
    uint32_t number;
    size_t place, next;
};
struct judged_left_told {
    size_t at, left;
    bool none;
};
struct viscrombal_unsigned judged_u8(const uint8_t *s, size_t length, size_t at);
struct viscrombal_unsigned judged_u32_le(const uint8_t *s, size_t length, size_t at);
struct viscrombal_range judged_take(const uint8_t *s, size_t length, size_t at, size_t n);
struct judged_skip_told judged_skip(const uint8_t *s, size_t length, size_t at, size_t n);
struct judged_left_told judged_left(const uint8_t *s, size_t length, size_t at);
struct judged_name_told judged_kind(uint8_t b, size_t k);
uint8_t judged_kind_byte(uint8_t b);
struct judged_name_told judged_section(uint8_t id, size_t k);
struct judged_name_told judged_change(size_t change, size_t k);
struct judged_name_told judged_domain(size_t domain, size_t k);
size_t judged_slug(const uint8_t *word, size_t n);
struct judged_rule_told {
    bool allow;
    size_t from, len;
};
struct judged_rule_told judged_effective(const size_t *policy, size_t cells, size_t domain);
size_t judged_import(const uint8_t *source, size_t n, const uint8_t *field, size_t m);
size_t judged_path(const uint8_t *path, size_t n);

#endif
