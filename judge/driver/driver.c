/* The port's side of the comparison: cases on standard input, answers on standard output, many to a process.
 *
 * A case:    u32 call, u32 numbers, u32 strings, the numbers (u64 each), then each string as u32 length and bytes.
 * An answer: u32 numbers, u32 length, the numbers (u64 each), the bytes.
 * All little-endian, as the machine is. Call 0 answers nothing and flushes.
 *
 * Lent memory is filled with a mark before each call, and what the call leaves in it is part of the answer. */
#include "judged.h"
#include "viscrombal.h"
#include <stdio.h>
#include <stdlib.h>
#include <string.h>

/* IMPORT: the cells of a row of table 2 */
enum { IMPORT = 12, MARK = 0xa5, MOST_NUMBERS = 1 << 16, MOST_STRINGS = 2, MOST_BYTES = 16777216 + 64 };

static uint64_t number[MOST_NUMBERS];
static uint8_t *string[MOST_STRINGS];
static uint32_t length[MOST_STRINGS];

/* ---- the answer */
static uint64_t told[1 << 20];
static uint32_t tells;
static uint8_t *output;
static uint32_t output_length;

static void tell(uint64_t n) {
    if (tells == sizeof told / sizeof *told) {
        fputs("driver: an answer of too many numbers\n", stderr);
        exit(2);
    }
    told[tells++] = n;
}

/* Lent cells, each a mark before the call. */
static size_t *lend(size_t cells) {
    size_t *t = malloc(cells * sizeof *t + 1);
    memset(t, MARK, cells * sizeof *t);
    return t;
}

/* A table: how many of its cells are told, these cells, and the index of the first cell after them that is not zero (the length if none). */
static void tell_table(size_t *t, size_t cells, size_t used) {
    size_t n = used < cells ? used : cells, i;
    tell(n);
    for (i = 0; i < n; i++)
        tell(t[i]);
    while (i < cells && t[i] == 0)
        i++;
    tell(i);
    free(t);
}

/* ---- the calls. An answer for a module tells its offset, which comes beside 5, after its other numbers. */
static void unsigned_read(struct viscrombal_unsigned r) {
    tell(r.number), tell(r.place), tell(r.value), tell(r.next);
}

static void uleb128(void) { unsigned_read(viscrombal_uleb128(string[0], length[0], number[0])); }

static void uleb128_u32(void) { unsigned_read(viscrombal_uleb128_u32(string[0], length[0], number[0])); }

static void sleb128(void) {
    struct viscrombal_signed r = viscrombal_sleb128(string[0], length[0], number[0]);
    tell(r.number), tell(r.place), tell((uint64_t)r.value), tell(r.next);
}

static void name(void) {
    struct viscrombal_range r = viscrombal_name(string[0], length[0], number[0]);
    tell(r.number), tell(r.place), tell(r.from), tell(r.len), tell(r.next);
}

/* numbers: the cells of tables 1 to 4 */
typedef struct judged_module_told read_call(const uint8_t *, size_t, size_t *, size_t, size_t *, size_t, size_t *, size_t, size_t *, size_t);

static void read_by(read_call *call) {
    size_t *a = lend(number[0]), *b = lend(number[1]), *c = lend(number[2]), *d = lend(number[3]);
    struct judged_module_told r = call(string[0], length[0], a, number[0], b, number[1], c, number[2], d, number[3]);
    tell(r.number), tell(r.place), tell(r.version), tell(r.length), tell(r.named), tell(r.start), tell(r.size);
    tell(r.sections), tell(r.imports), tell(r.exports), tell(r.symbols), tell(r.offset);
    tell_table(a, number[0], r.sections * 5);
    tell_table(b, number[1], r.imports * IMPORT);
    tell_table(c, number[2], r.exports * 4);
    tell_table(d, number[3], r.symbols * 3);
}

static void module(void) { read_by(judged_module); }

static void strict(void) { read_by(judged_strict); }

static void c_strict(void) {
    struct viscrombal_answer r = viscrombal_strict(string[0], length[0]);
    tell(r.number), tell(r.place), tell(r.offset);
}

/* numbers: the stated count, then the cells of table 2 */
static uint32_t given;

static void counted(struct judged_count_told r) { tell(r.number), tell(r.place), tell(r.count); }

static void functions(void) { counted(judged_functions(number + 1, given - 1, number[0])); }

static void memories(void) { counted(judged_memories(number + 1, given - 1, number[0])); }

/* numbers: the room, the stated count, then the cells of table 2 */
static void namespaces(void) {
    size_t *sorted = lend(number[0]);
    struct judged_count_told r = judged_namespaces(string[0], length[0], number + 2, given - 2, number[1], sorted, number[0]);
    counted(r);
    tell_table(sorted, number[0], r.count);
}

/* A policy that was read as the 25 cells that the other calls take. */
static void cells_of(struct viscrombal_policy_read r, size_t *cells) {
    size_t k = 0;
    cells[k++] = r.named, cells[k++] = r.start, cells[k++] = r.size, cells[k++] = r.permit;
    for (int d = 0; d < 7; d++)
        cells[k++] = r.rules[d].stance, cells[k++] = r.rules[d].from, cells[k++] = r.rules[d].len;
}

/* The policy, then for each domain how many tokens and where, one call after another. */
static void policy(void) {
    struct viscrombal_policy_read r = viscrombal_policy(string[0], length[0]);
    size_t cells[25];
    cells_of(r, cells);
    tell(r.number), tell(r.place);
    for (int k = 0; k < 25; k++)
        tell(cells[k]);
    for (int d = 0; d < 7 && r.number == 0; d++) {
        uint32_t count = tells;
        struct viscrombal_token_read t = {.found = true};
        tell(0);
        for (;;) {
            t = viscrombal_token(string[0], length[0], d, t.next);
            if (!t.found)
                break;
            tell(t.from), tell(t.len), told[count]++;
        }
    }
}

/* numbers: the room. The whole of the lent bytes is told. */
static void rewrite(void) {
    uint8_t *out = malloc(number[0] + 1);
    memset(out, MARK, number[0]);
    struct viscrombal_written w = viscrombal_rewrite(string[0], length[0], out, number[0]);
    tell(w.number), tell(w.place), tell(w.bytes);
    output = out, output_length = number[0];
}

/* numbers: domain, offset, then the policy's cells */
static void token(void) {
    struct viscrombal_token_read r = judged_token(string[0], length[0], number + 2, given - 2, number[0], number[1]);
    tell(r.number), tell(r.place), tell(r.found), tell(r.from), tell(r.len), tell(r.next);
}

/* numbers: the room, then the policy's cells; the whole of the lent bytes is told */
static void write_policy(void) {
    uint8_t *out = malloc(number[0] + 1);
    memset(out, MARK, number[0]);
    struct viscrombal_written r = judged_write(string[0], length[0], number + 1, given - 1, out, number[0]);
    tell(r.number), tell(r.place), tell(r.bytes);
    output = out, output_length = number[0];
}

static void evaluation(struct viscrombal_evaluation r) {
    tell(r.number), tell(r.place);
    for (int d = 0; d < 7; d++)
        tell(r.verdicts[d].required), tell(r.verdicts[d].allowed), tell(r.verdicts[d].many);
    tell(r.set), tell(r.count), tell(r.compliant), tell(r.offset);
}

/* numbers: the stated count, how many rows, the rows, then the policy's cells */
static void evaluate(void) {
    size_t rows = number[1];
    evaluation(judged_evaluate(number + 2, rows, number[0], number + 2 + rows, given - 2 - rows));
}

/* numbers: as for evaluate; each row in a record */
static void evaluate_records(void) {
    size_t rows = number[1];
    struct judged_requirement *list = malloc(rows * sizeof *list + 1);
    for (size_t i = 0; i < rows; i++)
        list[i].domain = number[2 + i], list[i].row = i;
    evaluation(judged_evaluate_records(list, rows, number[0], number + 2 + rows, given - 2 - rows));
    free(list);
}

/* strings: the module, the policy */
static void check(void) { evaluation(viscrombal_check(string[0], length[0], string[1], length[1])); }

static void import(void) { tell(judged_import(string[0], length[0], string[1], length[1])); }

static void path(void) { tell(judged_path(string[0], length[0])); }

/* numbers: the cells of tables 5 and 6 */
static void manifest(void) {
    size_t *a = lend(number[0]), *b = lend(number[1]);
    struct judged_manifest_told r = judged_manifest(string[0], length[0], a, number[0], b, number[1]);
    tell(r.number), tell(r.place), tell(r.packaged), tell(r.start), tell(r.size), tell(r.worlds), tell(r.references);
    tell_table(a, number[0], r.worlds * 2);
    tell_table(b, number[1], r.references * 7);
}

/* numbers: the room of both columns, the stated count, then the cells of table 2 */
static void requirements(void) {
    size_t *a = lend(number[0]), *b = lend(number[1]);
    struct judged_count_told r =
        judged_requirements(string[0], length[0], number + 3, given - 3, a, number[0], b, number[1], number[2]);
    counted(r);
    tell_table(a, number[0], r.count);
    tell_table(b, number[1], r.count);
}

/* numbers: the room, the stated counts of tables 5 and 6, how many cells table 5 has, then the cells of both */
static void paths(bool exports) {
    size_t *sorted = lend(number[0]), *worlds = number + 4, *references = worlds + number[3], cells = given - 4 - number[3];
    struct judged_count_told r =
        (exports ? judged_exports : judged_imports)(string[0], length[0], worlds, number[3], references, cells, sorted, number[0], number[1], number[2]);
    counted(r);
    tell_table(sorted, number[0], r.count);
}

static void all_imports(void) { paths(false); }

static void all_exports(void) { paths(true); }

/* numbers: the room of both columns, the stated counts of tables 5 and 6, how many cells table 5 has, then the cells of both */
static void needs(void) {
    size_t *a = lend(number[0]), *b = lend(number[1]), *worlds = number + 5, *references = worlds + number[4];
    struct judged_count_told r = judged_needs(string[0], length[0], worlds, number[4], references, given - 5 - number[4], a, number[0], b, number[1],
                                              number[2], number[3]);
    counted(r);
    tell_table(a, number[0], r.count);
    tell_table(b, number[1], r.count);
}

/* ---- two modules: a file, and its tables 2 and 3 with a stated count each */
struct given {
    const uint8_t *file;
    size_t length, n2, n3, cells2, cells3;
    const size_t *imports, *exports;
};

static struct judged_name_told export_byte(struct given b, struct given c, size_t change, size_t row, size_t k) {
    return judged_export_name(b.file, b.length, b.exports, b.cells3, c.file, c.length, c.exports, c.cells3, b.n3, c.n3, change, row, k);
}

static struct judged_name_told source_byte(struct given b, struct given c, size_t change, size_t row, size_t k) {
    return judged_source_name(b.file, b.length, b.imports, b.cells2, c.file, c.length, c.imports, c.cells2, b.n2, c.n2, change, row, k);
}

/* A name's length, then its bytes, one call after another. */
static void tell_name(struct judged_name_told (*byte)(struct given, struct given, size_t, size_t, size_t), struct given b, struct given c,
                      size_t change, size_t row) {
    size_t len = byte(b, c, change, row, 0).len;
    tell(len);
    for (size_t k = 0; k < len; k++)
        tell(byte(b, c, change, row, k).byte);
}

/* The range at the first two cells of a row, if there is such a row. */
static void tell_range(const size_t *rows, size_t cells, size_t width, size_t row) {
    bool there = row < cells / width;
    tell(there ? rows[width * row] : 0), tell(there ? rows[width * row + 1] : SIZE_MAX);
}

/* How far a table's cells are zero from the first `used` on. */
static size_t zeros_from(const size_t *t, size_t used, size_t cells) {
    while (used < cells && t[used] == 0)
        used++;
    return used;
}

/* The lent bytes, each a mark before the call, are told whole. */
static struct viscrombal_written reasoned(struct given b, struct given c, const size_t *xd, size_t cells8, size_t n8, const size_t *cd, size_t cells9,
                                          size_t n9, size_t room) {
    output = memset(malloc(room + 1), MARK, room), output_length = room;
    return judged_reasons(b.file, b.length, b.imports, b.cells2, b.exports, b.cells3, c.file, c.length, c.imports, c.cells2, c.exports, c.cells3, xd,
                          cells8, cd, cells9, output, room, b.n2, b.n3, c.n2, c.n3, n8, n9);
}

static void compared(struct given b, struct given c, size_t room8, size_t room9, size_t room) {
    size_t *xd = lend(room8), *cd = lend(room9);
    struct judged_compare_told r =
        judged_compare(b.file, b.length, b.imports, b.cells2, b.exports, b.cells3, c.file, c.length, c.imports, c.cells2, c.exports, c.cells3, xd,
                       room8, cd, room9, b.n2, b.n3, c.n2, c.n3);
    tell(r.number), tell(r.place), tell(r.exports), tell(r.capabilities), tell(r.compatible);
    tell(zeros_from(xd, r.exports * 2, room8)), tell(zeros_from(cd, r.capabilities * 3, room9));
    struct viscrombal_written w = {0};
    if (r.number == 0)
        w = reasoned(b, c, xd, room8, r.exports, cd, room9, r.capabilities, room);
    tell(w.number), tell(w.place), tell(w.bytes);
    for (size_t i = 0; i < r.exports && i < room8 / 2; i++) {
        size_t change = xd[2 * i], row = xd[2 * i + 1];
        struct given g = change ? c : b;
        tell(change), tell(row), tell_range(g.exports, g.cells3, 4, row);
        tell(row < g.cells3 / 4 ? g.exports[4 * row + 2] : 0);
        tell_name(export_byte, b, c, change, row);
    }
    for (size_t i = 0; i < r.capabilities && i < room9 / 3; i++) {
        size_t change = cd[3 * i], row = cd[3 * i + 2];
        struct given g = change ? c : b;
        tell(change), tell(row), tell_range(g.imports, g.cells2, IMPORT, row), tell(cd[3 * i + 1]);
        tell_name(source_byte, b, c, change, row);
    }
    free(xd), free(cd);
}

/* numbers: the cells of tables 8 and 9, the room for reasons. Both modules are read into tables at their limits first. */
static void compare(void) {
    static size_t sections[1280], names[12288], imports[2][1024 * IMPORT], exports[2][4096];
    struct given g[2];
    for (int i = 0; i < 2; i++) {
        struct judged_module_told m = judged_module(string[i], length[i], sections, 1280, imports[i], 1024 * IMPORT, exports[i], 4096,
                                                    names, 12288);
        if (m.number != 0) {
            tell(m.number), tell(m.place), tell(m.offset);
            return;
        }
        g[i] = (struct given){string[i], length[i], m.imports, m.exports, 1024 * IMPORT, 4096, imports[i], exports[i]};
    }
    compared(g[0], g[1], number[0], number[1], number[2]);
}

/* numbers from n on: the stated counts of tables 2 and 3 of both modules, how many cells the first three have, then the cells of the four */
static void handed(const size_t *n, size_t numbers, struct given g[2]) {
    const size_t *a = n + 7, *b = a + n[4], *c = b + n[5], *d = c + n[6];
    g[0] = (struct given){string[0], length[0], n[0], n[1], n[4], n[5], a, b};
    g[1] = (struct given){string[1], length[1], n[2], n[3], n[6], numbers - (d - n), c, d};
}

/* numbers: the cells of tables 8 and 9, the room for reasons, then both modules' tables */
static void differences(void) {
    struct given g[2];
    handed(number + 3, given - 3, g);
    compared(g[0], g[1], number[0], number[1], number[2]);
}

/* numbers: the room, the stated counts of tables 8 and 9, how many cells they have, their cells, then both modules' tables */
static void reasons(void) {
    struct given g[2];
    const size_t *xd = number + 5, *cd = xd + number[3], *rest = cd + number[4];
    handed(rest, given - (rest - number), g);
    struct viscrombal_written w = reasoned(g[0], g[1], xd, number[3], number[1], cd, number[4], number[2], number[0]);
    tell(w.number), tell(w.place), tell(w.bytes);
}

/* numbers: the change, the row, both counts, how many cells the baseline's table has, then the cells of both */
static void export_name(void) {
    size_t cells = number[4], *b = number + 5, *c = b + cells, more = given - 5 - cells;
    tell_name(export_byte, (struct given){string[0], length[0], 0, number[2], 0, cells, NULL, b},
              (struct given){string[1], length[1], 0, number[3], 0, more, NULL, c}, number[0], number[1]);
}

static void source_name(void) {
    size_t cells = number[4], *b = number + 5, *c = b + cells, more = given - 5 - cells;
    tell_name(source_byte, (struct given){string[0], length[0], number[2], 0, cells, 0, b, NULL},
              (struct given){string[1], length[1], number[3], 0, more, 0, c, NULL}, number[0], number[1]);
}

/* ---- the cursor's other functions, and words */
static void u8(void) { unsigned_read(judged_u8(string[0], length[0], number[0])); }

static void u32_le(void) { unsigned_read(judged_u32_le(string[0], length[0], number[0])); }

/* numbers: where the cursor stands, how many bytes */
static void take_bytes(void) {
    struct viscrombal_range r = judged_take(string[0], length[0], number[0], number[1]);
    tell(r.number), tell(r.place), tell(r.from), tell(r.len), tell(r.next);
}

static void skip(void) {
    struct judged_skip_told r = judged_skip(string[0], length[0], number[0], number[1]);
    tell(r.number), tell(r.place), tell(r.next);
}

static void left(void) {
    struct judged_left_told r = judged_left(string[0], length[0], number[0]);
    tell(r.at), tell(r.left), tell(r.none);
}

/* A word's length, then its bytes. */
static void tell_word(struct judged_name_told (*byte)(size_t, size_t), size_t of) {
    size_t len = byte(of, 0).len;
    tell(len);
    for (size_t k = 0; k < len; k++)
        tell(byte(of, k).byte);
}

static struct judged_name_told kind_word(size_t b, size_t k) { return judged_kind(b, k); }

static struct judged_name_told section_word(size_t id, size_t k) { return judged_section(id, k); }

static void kind(void) { tell(judged_kind_byte(number[0])), tell_word(kind_word, number[0]); }

static void section(void) { tell_word(section_word, number[0]); }

static void change(void) { tell_word(judged_change, number[0]); }

/* ---- the C interface's lists: numbers: the room; the whole of the lent bytes is told */
static uint8_t *lent_bytes(size_t room) { return output = memset(malloc(room + 1), MARK, room), output_length = room, output; }

static void c_module(void) {
    struct viscrombal_module_read r = viscrombal_module(string[0], length[0], lent_bytes(number[0]), number[0]);
    tell(r.number), tell(r.place), tell(r.version), tell(r.length), tell(r.named), tell(r.start), tell(r.size);
    tell(r.sections), tell(r.imports), tell(r.exports), tell(r.symbols), tell(r.bytes), tell(r.offset);
}

static void c_manifest(void) {
    struct viscrombal_manifest_read r = viscrombal_manifest(string[0], length[0], lent_bytes(number[0]), number[0]);
    tell(r.number), tell(r.place), tell(r.packaged), tell(r.start), tell(r.size), tell(r.worlds), tell(r.references);
    tell(r.imported), tell(r.exported), tell(r.bytes);
}

static void c_compare(void) {
    struct viscrombal_comparison r = viscrombal_compare(string[0], length[0], string[1], length[1], lent_bytes(number[0]), number[0]);
    tell(r.number), tell(r.place), tell(r.exports), tell(r.capabilities), tell(r.compatible), tell(r.reasons), tell(r.bytes);
    tell(r.offset);
}

/* numbers: the room, the domain */
static void c_tokens(void) {
    struct viscrombal_tokens_read r = viscrombal_tokens(string[0], length[0], number[1], lent_bytes(number[0]), number[0]);
    tell(r.number), tell(r.place), tell(r.count), tell(r.bytes);
}

/* In the order of `Call` in src/case.rs. */
static void (*const calls[])(void) = {
    NULL, uleb128, uleb128_u32, sleb128, name, module, functions, memories, namespaces, policy, token, write_policy, evaluate, import, path,
    rewrite, manifest, requirements, all_imports, all_exports, check, needs, compare, differences, export_name, source_name,
    u8, u32_le, take_bytes, skip, left, kind, section, change, reasons,
    c_module, c_manifest, c_compare, evaluate_records, c_tokens, strict, c_strict,
};

/* ---- cases */
static void take(void *to, size_t n) {
    if (fread(to, 1, n, stdin) != n) {
        fputs("driver: a case that ends early\n", stderr);
        exit(2);
    }
}

static void give(const void *from, size_t n) {
    if (fwrite(from, 1, n, stdout) != n)
        exit(2);
}

int main(void) {
    static char in[1 << 16], out[1 << 16];
    uint32_t head[3];
    setvbuf(stdin, in, _IOFBF, sizeof in);
    setvbuf(stdout, out, _IOFBF, sizeof out);
    for (int i = 0; i < MOST_STRINGS; i++)
        string[i] = malloc(MOST_BYTES);
    while (fread(head, 1, sizeof head, stdin) == sizeof head) {
        if (head[0] >= sizeof calls / sizeof *calls || head[1] > MOST_NUMBERS || head[2] > MOST_STRINGS) {
            fputs("driver: no such case\n", stderr);
            return 2;
        }
        given = head[1];
        take(number, given * sizeof *number);
        for (uint32_t i = 0; i < head[2]; i++) {
            take(&length[i], sizeof length[i]);
            if (length[i] > MOST_BYTES) {
                fputs("driver: a string that is too long\n", stderr);
                return 2;
            }
            take(string[i], length[i]);
        }
        if (head[0] == 0) {
            fflush(stdout);
            continue;
        }
        tells = 0, output = NULL, output_length = 0;
        calls[head[0]]();
        give(&tells, sizeof tells), give(&output_length, sizeof output_length);
        give(told, tells * sizeof *told);
        if (output)
            give(output, output_length), free(output);
    }
    return 0;
}
