/* What the C interface leaves in lent memory: refused, nothing is touched; accepted, nothing past what was written. Every call that
 * writes is given every room from none to a little more than it needs; what stands around the room is looked at too. */
#include "viscrombal.h"
#include <stdio.h>
#include <string.h>

enum { MARK = 0xa5, AROUND = 16, MOST = 4096 };

static uint8_t memory[AROUND + MOST + AROUND];
static uint8_t *const out = memory + AROUND;
static unsigned good, all;

static void expect(int fine, const char *what) {
    all++;
    good += fine != 0;
    if (!fine)
        printf("not so: %s\n", what);
}

static void lend(void) { memset(memory, MARK, sizeof memory); }

/* Every byte but the first n of the room is as it was lent. */
static int untouched_past(size_t n) {
    for (size_t i = 0; i < sizeof memory; i++)
        if ((i < AROUND || i >= AROUND + n) && memory[i] != MARK)
            return 0;
    return 1;
}

static uint64_t cell(size_t i) {
    uint64_t n = 0;
    for (int k = 7; k >= 0; k--)
        n = n << 8 | out[8 * i + (size_t)k];
    return n;
}

static int cells_are(const uint64_t *cells, size_t n) {
    for (size_t i = 0; i < n; i++)
        if (cell(i) != cells[i])
            return 0;
    return 1;
}

/* ---- a module with one import */
static const uint8_t file[] = {0x00, 0x61, 0x73, 0x6d, 1, 0, 0, 0, 2, 7, 1, 1, 'm', 1, 'f', 0, 5};
static const uint64_t file_cells[] = {2, 10, 7, 0, 0, 12, 1, 14, 1, 0, 5, 0, 0, 0, 0, 0, 1};

static void modules(void) {
    size_t needed = sizeof file_cells;
    for (size_t room = 0; room < needed + 3; room++) {
        lend();
        struct viscrombal_module_read r = viscrombal_module(file, sizeof file, out, room);
        if (room < needed) {
            expect(r.number == 16 && r.place == needed && r.version == 0 && r.length == 0 && !r.named && r.start == 0 && r.size == 0 &&
                       r.sections == 0 && r.imports == 0 && r.exports == 0 && r.symbols == 0 && r.bytes == 0,
                   "module: 16 with the bytes needed, the rest zero");
            expect(untouched_past(0), "module: refused, untouched");
        } else {
            expect(r.number == 0 && r.place == 0 && r.version == 1 && r.length == sizeof file && !r.named && r.sections == 1 &&
                       r.imports == 1 && r.exports == 0 && r.symbols == 0 && r.bytes == needed,
                   "module: counts");
            expect(cells_are(file_cells, needed / 8), "module: cells, the lowest byte first");
            expect(untouched_past(needed), "module: nothing past the rows");
        }
    }
    for (size_t n = 0; n < sizeof file; n++) {
        lend();
        struct viscrombal_module_read r = viscrombal_module(file, n, out, MOST);
        if (n == 8)
            expect(r.number == 0 && r.bytes == 0 && untouched_past(0), "module: no sections, nothing written");
        else
            expect(r.number != 0 && r.bytes == 0 && untouched_past(0), "module: a file that is cut is refused, untouched");
    }
}

/* ---- what imports ask for: a function, a table and a memory with and without a most, a global */
static const uint8_t asking[] = {0x00, 0x61, 0x73, 0x6d, 1, 0, 0, 0, 2, 36, 6, 0, 0, 0, 9, 0, 0, 1, 0x70, 2, 3, 0, 0, 1, 0x6f, 1, 4, 5,
                                 0, 0, 2, 0, 6, 0, 0, 2, 3, 0x80, 0x80, 4, 0, 0, 0, 3, 0x7e, 1};
static const uint64_t asked[6][7] = {{9, 0, 0, 0, 0, 0, 1},  {0, 0x70, 2, 3, 0, 0, 14}, {0, 0x6f, 1, 4, 5, 0, 30},
                                     {0, 0, 0, 6, 0, 0, 12}, {0, 0, 3, 65536, 0, 0, 28}, {0, 0x7e, 0, 0, 0, 1, 34}};

static void imports(void) {
    lend();
    struct viscrombal_module_read r = viscrombal_module(asking, sizeof asking, out, MOST);
    expect(r.number == 0 && r.imports == 6 && r.bytes == 8 * (5 + 12 * 6) && untouched_past(r.bytes), "imports: twelve cells each");
    for (size_t i = 0; i < 6; i++)
        for (size_t k = 0; k < 7; k++)
            expect(cell(5 + 12 * i + 5 + k) == asked[i][k], "imports: what each asks for");
}

/* ---- a manifest with a world of two references */
static const char text[] = "package a:b\nworld w {\n  import p/q: func\n  export x\n}\n";
static const uint64_t text_cells[] = {18, 1, 0, 0, 31, 3, 1, 36, 4, 0, 1, 50, 1, 0, 0, 0, 0, 1};

static void manifests(void) {
    size_t len = sizeof text - 1, needed = sizeof text_cells;
    for (size_t room = 0; room < needed + 3; room++) {
        lend();
        struct viscrombal_manifest_read r = viscrombal_manifest((const uint8_t *)text, len, out, room);
        if (room < needed) {
            expect(r.number == 16 && r.place == needed && !r.packaged && r.start == 0 && r.size == 0 && r.worlds == 0 &&
                       r.references == 0 && r.imported == 0 && r.exported == 0 && r.bytes == 0,
                   "manifest: 16 with the bytes needed, the rest zero");
            expect(untouched_past(0), "manifest: refused, untouched");
        } else {
            expect(r.number == 0 && r.place == 0 && r.packaged && r.start == 8 && r.size == 3 && r.worlds == 1 && r.references == 2 &&
                       r.imported == 1 && r.exported == 1 && r.bytes == needed,
                   "manifest: counts");
            expect(cells_are(text_cells, needed / 8), "manifest: cells");
            expect(untouched_past(needed), "manifest: nothing past the lists");
        }
    }
    lend();
    struct viscrombal_manifest_read r = viscrombal_manifest((const uint8_t *)"import x\n", 9, out, MOST);
    expect(r.number == 12 && r.place == 1 && r.bytes == 0 && untouched_past(0), "manifest: a reference outside is refused, untouched");
}

/* ---- two builds: an export is gone, a capability is new */
static const uint8_t older[] = {0x00, 0x61, 0x73, 0x6d, 1, 0, 0, 0, 7, 5, 1, 1, 'e', 0, 3};
static const uint64_t build_cells[] = {0, 0, 1, 6, 0};
static const char build_reasons[] = "export removed: e (func)\nnew capability required: unknown via m\n";

static void comparisons(void) {
    size_t lists = sizeof build_cells, reasons = sizeof build_reasons - 1, needed = lists + reasons;
    for (size_t room = 0; room < needed + 3; room++) {
        lend();
        struct viscrombal_comparison r = viscrombal_compare(older, sizeof older, file, sizeof file, out, room);
        if (room < needed) {
            expect(r.number == 16 && r.place == needed && r.exports == 0 && r.capabilities == 0 && !r.compatible &&
                       r.reasons == 0 && r.bytes == 0,
                   "comparison: 16 with the bytes needed, the rest zero");
            expect(untouched_past(0), "comparison: refused, untouched");
        } else {
            expect(r.number == 0 && r.place == 0 && r.exports == 1 && r.capabilities == 1 && !r.compatible && r.reasons == reasons &&
                       r.bytes == needed,
                   "comparison: counts");
            expect(cells_are(build_cells, lists / 8), "comparison: cells");
            expect(memcmp(out + lists, build_reasons, reasons) == 0, "comparison: the reasons after the lists");
            expect(untouched_past(needed), "comparison: nothing past the reasons");
        }
    }
    lend();
    struct viscrombal_comparison r = viscrombal_compare(older, sizeof older, older, sizeof older, out, MOST);
    expect(r.number == 0 && r.exports == 0 && r.capabilities == 0 && r.compatible && r.reasons == 0 && r.bytes == 0 && untouched_past(0),
           "comparison: a build with itself");
    lend();
    r = viscrombal_compare(older, sizeof older, file, 7, out, MOST);
    expect(r.number == 1 && r.place == 4 && !r.compatible && untouched_past(0),
           "comparison: a candidate that is cut is refused, untouched");
}

/* ---- a policy, written again */
static void policies(void) {
    static const char policy[] = "allow net: a.example,\npolicy \"overlay\"\ndeny net\nallow rand\n";
    static const char written[] = "policy \"overlay\"\ndefault deny\ndeny network\nallow random\n";
    size_t needed = sizeof written - 1;
    for (size_t room = 0; room < needed + 3; room++) {
        lend();
        struct viscrombal_written r = viscrombal_rewrite((const uint8_t *)policy, sizeof policy - 1, out, room);
        if (room < needed)
            expect(r.number == 16 && r.place == needed && r.bytes == 0 && untouched_past(0), "rewrite: refused, untouched");
        else
            expect(r.number == 0 && r.bytes == needed && memcmp(out, written, needed) == 0 && untouched_past(needed),
                   "rewrite: the text alone");
    }
}

/* ---- the tokens of a domain's list */
static void tokens(void) {
    static const char policy[] = "allow fs: /a , ,\t/bc,\ndeny net\n";
    static const uint64_t policy_cells[] = {10, 2, 17, 3};
    size_t len = sizeof policy - 1, needed = sizeof policy_cells;
    for (size_t room = 0; room < needed + 3; room++) {
        lend();
        struct viscrombal_tokens_read r = viscrombal_tokens((const uint8_t *)policy, len, 0, out, room);
        if (room < needed)
            expect(r.number == 16 && r.place == needed && r.count == 0 && r.bytes == 0 && untouched_past(0), "tokens: refused, untouched");
        else
            expect(r.number == 0 && r.place == 0 && r.count == 2 && r.bytes == needed && cells_are(policy_cells, needed / 8) &&
                       untouched_past(needed),
                   "tokens: cells, nothing past them");
    }
    for (size_t domain = 1; domain < 9; domain++) {
        lend();
        struct viscrombal_tokens_read r = viscrombal_tokens((const uint8_t *)policy, len, domain, out, MOST);
        expect(r.number == 0 && r.place == 0 && r.count == 0 && r.bytes == 0 && untouched_past(0), "tokens: none, untouched");
    }
    lend();
    struct viscrombal_tokens_read r = viscrombal_tokens((const uint8_t *)"allow fs: a\nx", 13, 0, out, MOST);
    expect(r.number == 6 && r.place == 2 && r.count == 0 && r.bytes == 0 && untouched_past(0), "tokens: a text that is refused, untouched");
}

int main(void) {
    modules();
    imports();
    manifests();
    comparisons();
    policies();
    tokens();
    printf("lent memory: %u of %u as stated\n", good, all);
    return good != all;
}
