/* Replays records over the proved archives of crates capi and judged: replay FILE.. [--wrong FILE..] [--unreadable FILE..]
 *
 * A record must hold; after --wrong it must be understood and not hold, after --unreadable it must not be understood (README.md says
 * what a record is). One that comes out otherwise is told, a line each; the last line is `N of N`. Exit status 1 where not all do. */
#include "judged.h"
#include "viscrombal.h"
#include <assert.h>
#include <errno.h>
#include <stdio.h>
#include <stdlib.h>
#include <string.h>

/* ---- what a record gives to a call, what it wants of it, and what the call left, all laid out alike */
enum { TABLES = 18, SLACK = 96, CELLS = 66944 + 13 * SLACK, VALUES = 16, POLICY = 25, OUTPUT = 8000, MOST_BYTES = 140000 };
enum { LENT_CELL = 7, LENT_BYTE = 0xaa };

/* The cells of a table at its limit: so many it is lent with where a record does not say, and at most SLACK more. */
static const size_t limits[TABLES] = {0, 1280, 12288, 4096, 12288, 128, 7168, 1024, 4096, 6144, 0, 0, 12288, 4096, 0, 1024, 0, 1024};

struct said {
    size_t refused[3];                   /* of an answer, its refusal's number and place, and the offset beside 5 of a module */
    size_t value[VALUES];                /* N of an input; of an answer, from the third on, its values */
    size_t policy[POLICY];               /* P, then R0 to R6: a policy, or verdicts in the place of its rules */
    size_t lent[TABLES], count[TABLES];  /* L and C of an input */
    size_t cell[CELLS];                  /* T: the tables, one after another */
    uint8_t output[OUTPUT];
    size_t output_length;
};

struct bytes {
    uint8_t at[MOST_BYTES];
    size_t length;
};

static struct said given, wanted, got;
static struct bytes a, b, says;

static size_t room_of(size_t n) { return n < TABLES && limits[n] ? limits[n] + SLACK : 0; }

static size_t *table(struct said *s, size_t n) {
    size_t *t = s->cell;
    for (size_t i = 0; i < n; i++)
        t += room_of(i);
    return t;
}

static bool is(const char *w, const char *word) { return !strcmp(w, word); }

/* Why the record at hand cannot be understood, if it cannot. */
static char fault[160];

static bool cannot(const char *why, const char *word) {
    if (!*fault)
        snprintf(fault, sizeof fault, "%s: %.80s", why, word);
    return false;
}

/* ---- the calls: each lays what it is told, and what it leaves in lent memory, into `got` */
#define A a.at, a.length
#define B b.at, b.length
#define GIVEN(n) table(&given, n), given.lent[n]
#define LENT(n) lend(n), given.lent[n]
#define VALUES_OF(...) (const size_t[]){__VA_ARGS__}, sizeof(size_t[]){__VA_ARGS__} / sizeof(size_t)
#define ANSWER(r, ...) answer((r).number, (r).place, 0, VALUES_OF(__VA_ARGS__))
#define MODULE_ANSWER(r, ...) answer((r).number, (r).place, (r).offset, VALUES_OF(__VA_ARGS__))

static size_t *lend(size_t n) {
    for (size_t i = 0; i < given.lent[n]; i++)
        table(&got, n)[i] = LENT_CELL;
    return table(&got, n);
}

static uint8_t *lend_output(void) {
    got.output_length = given.lent[0];
    return memset(got.output, LENT_BYTE, given.lent[0]);
}

static void answer(size_t number, size_t place, size_t offset, const size_t *values, size_t n) {
    got.refused[0] = number, got.refused[1] = place, got.refused[2] = offset;
    memcpy(got.value + 2, values, n * sizeof *values);
}

/* Numbers and names: N is where the cursor stands, then how many bytes. */
static void unsigned_read(struct viscrombal_unsigned r) { ANSWER(r, r.value, r.next); }
static void range_read(struct viscrombal_range r) { ANSWER(r, r.from, r.len, r.next); }
static void uleb128(void) { unsigned_read(viscrombal_uleb128(A, given.value[0])); }
static void uleb128_u32(void) { unsigned_read(viscrombal_uleb128_u32(A, given.value[0])); }
static void u32_le(void) { unsigned_read(judged_u32_le(A, given.value[0])); }
static void take(void) { range_read(judged_take(A, given.value[0], given.value[1])); }
static void counted_name(void) { range_read(viscrombal_name(A, given.value[0])); }

static void sleb128(void) {
    struct viscrombal_signed r = viscrombal_sleb128(A, given.value[0]);
    ANSWER(r, (size_t)r.value, r.next);
}

/* How many bytes are well-formed UTF-8: a text that is not so throughout is refused as 4, at that many. */
static void utf8(void) {
    struct viscrombal_policy_read r = viscrombal_policy(A);
    if (r.number == 14)
        cannot("a text that is too long", "A");
    got.value[2] = r.number == 4 ? r.place : a.length;
}

/* Modules. */
static void counted(struct judged_count_told r) { ANSWER(r, r.count); }

static void module_read(struct judged_module_told r) {
    MODULE_ANSWER(r, r.version, r.length, r.named, r.start, r.size, r.sections, r.imports, r.exports, r.symbols);
}

static void module(void) { module_read(judged_module(A, LENT(1), LENT(2), LENT(3), LENT(4))); }
static void strict(void) { module_read(judged_strict(A, LENT(1), LENT(2), LENT(3), LENT(4))); }

static void c_strict(void) {
    struct viscrombal_answer r = viscrombal_strict(A);
    MODULE_ANSWER(r, 0);
}

static void functions(void) { counted(judged_functions(GIVEN(2), given.count[2])); }
static void memories(void) { counted(judged_memories(GIVEN(2), given.count[2])); }
static void namespaces(void) { counted(judged_namespaces(A, GIVEN(2), given.count[2], LENT(15))); }
static void requirements(void) { counted(judged_requirements(A, GIVEN(2), LENT(7), LENT(17), given.count[2])); }

/* Words and names, which the archives hand out byte by byte. */
static void spell(struct judged_name_told (*byte)(size_t k)) {
    size_t length = byte(0).len;
    if (length > OUTPUT)
        cannot("a word too long", "");
    got.output_length = length > OUTPUT ? 0 : length;
    for (size_t k = 0; k < got.output_length; k++)
        got.output[k] = byte(k).byte;
}

static uint8_t given_byte(void) {
    if (given.value[0] > 255)
        cannot("no byte", "N");
    return (uint8_t)given.value[0];
}

static struct judged_name_told kind_word(size_t k) { return judged_kind(given_byte(), k); }
static struct judged_name_told section_word(size_t k) { return judged_section(given_byte(), k); }
static struct judged_name_told domain_word(size_t k) { return judged_domain(given.value[0], k); }

static bool spelt(const char *word) { return got.output_length == strlen(word) && !memcmp(got.output, word, strlen(word)); }

/* A kind's byte, and which of the five it is, as its word tells. */
static void kind(void) {
    static const char *const words[] = {"func", "table", "memory", "global"};
    size_t which = 0;
    spell(kind_word);
    while (which < 4 && !spelt(words[which]))
        which++;
    got.value[2] = judged_kind_byte(given_byte()), got.value[3] = which;
}

static void section(void) { spell(section_word); }

/* Domains: 7 where there is none. */
static void slug(void) { got.value[2] = judged_slug(A); }

static void domain(void) {
    spell(domain_word);
    got.value[2] = judged_slug(got.output, got.output_length);
}

static void import(void) { got.value[2] = judged_import(A, B); }
static void path(void) { got.value[2] = judged_path(A); }

/* Policies. */
static void lay_policy(struct viscrombal_policy_read r, size_t *cells) {
    *cells++ = r.named, *cells++ = r.start, *cells++ = r.size, *cells++ = r.permit;
    for (int d = 0; d < 7; d++)
        *cells++ = r.rules[d].stance, *cells++ = r.rules[d].from, *cells++ = r.rules[d].len;
}

static void policy(void) {
    struct viscrombal_policy_read r = viscrombal_policy(A);
    got.refused[0] = r.number, got.refused[1] = r.place;
    lay_policy(r, got.policy);
}

static void effective(void) {
    struct judged_rule_told r = judged_effective(given.policy, POLICY, given.value[0]);
    got.value[2] = r.allow, got.value[3] = r.from, got.value[4] = r.len;
}

static void token(void) {
    struct viscrombal_token_read r = judged_token(A, given.policy, POLICY, given.value[0], given.value[1]);
    ANSWER(r, r.found, r.from, r.len, r.next);
}

static void write_policy(void) {
    struct viscrombal_written r = judged_write(A, given.policy, POLICY, lend_output(), given.lent[0]);
    ANSWER(r, r.bytes);
}

static void evaluation(struct viscrombal_evaluation r) {
    MODULE_ANSWER(r, r.set, r.count, r.compliant);
    for (int d = 0; d < 7; d++) {
        size_t *cells = got.policy + 4 + 3 * d;
        cells[0] = r.verdicts[d].required, cells[1] = r.verdicts[d].allowed, cells[2] = r.verdicts[d].many;
    }
}

static void evaluate(void) { evaluation(judged_evaluate(GIVEN(7), given.count[7], given.policy, POLICY)); }

/* A module's requirements, held against the policy. */
static void check(void) {
    static size_t domains[1024], rows[1024];
    struct judged_count_told r = judged_requirements(A, GIVEN(2), domains, 1024, rows, 1024, given.count[2]);
    if (r.number)
        counted(r);
    else
        evaluation(judged_evaluate(domains, 1024, r.count, given.policy, POLICY));
}

/* Manifests. */
static void manifest(void) {
    struct judged_manifest_told r = judged_manifest(A, LENT(5), LENT(6));
    ANSWER(r, r.packaged, r.start, r.size, r.worlds, r.references);
}

static void imports(void) { counted(judged_imports(A, GIVEN(5), GIVEN(6), LENT(15), given.count[5], given.count[6])); }
static void exports(void) { counted(judged_exports(A, GIVEN(5), GIVEN(6), LENT(15), given.count[5], given.count[6])); }
static void interfaces(void) { counted(judged_needs(A, GIVEN(5), GIVEN(6), LENT(7), LENT(17), given.count[5], given.count[6])); }

/* Two builds: the baseline's tables are 2 and 3, the candidate's 12 and 13. */
#define BUILDS A, GIVEN(2), GIVEN(3), B, GIVEN(12), GIVEN(13)
#define COUNTS given.count[2], given.count[3], given.count[12], given.count[13]

static void compare(void) {
    struct judged_compare_told r = judged_compare(BUILDS, LENT(8), LENT(9), COUNTS);
    ANSWER(r, r.exports, r.capabilities, r.compatible);
}

static void reasons(void) {
    struct viscrombal_written r =
        judged_reasons(BUILDS, GIVEN(8), GIVEN(9), lend_output(), given.lent[0], COUNTS, given.count[8], given.count[9]);
    ANSWER(r, r.bytes);
}

static struct judged_name_told export_byte(size_t k) {
    return judged_export_name(A, GIVEN(3), B, GIVEN(13), given.count[3], given.count[13], given.value[0], given.value[1], k);
}

static struct judged_name_told source_byte(size_t k) {
    return judged_source_name(A, GIVEN(2), B, GIVEN(12), given.count[2], given.count[12], given.value[0], given.value[1], k);
}

static void export_name(void) {
    spell(export_byte);
    got.value[2] = got.output_length;
}

static void source_name(void) {
    spell(source_byte);
    got.value[2] = got.output_length;
}

/* `default` is the policy that no text gives. */
static const struct call {
    const char *word;
    void (*make)(void);
} calls[] = {
    {"uleb128", uleb128}, {"uleb128_u32", uleb128_u32}, {"sleb128", sleb128}, {"u32_le", u32_le}, {"take", take},
    {"counted_name", counted_name}, {"utf8", utf8},
    {"module", module}, {"strict", strict}, {"c_strict", c_strict}, {"functions", functions}, {"memories", memories}, {"namespaces", namespaces}, {"requirements", requirements},
    {"kind", kind}, {"section", section},
    {"slug", slug}, {"domain", domain}, {"import", import}, {"path", path},
    {"policy", policy}, {"default", policy}, {"effective", effective}, {"token", token}, {"write", write_policy},
    {"evaluate", evaluate}, {"check", check},
    {"manifest", manifest}, {"imports", imports}, {"exports", exports}, {"interfaces", interfaces},
    {"compare", compare}, {"reasons", reasons}, {"name", export_name}, {"source", source_name},
};

/* ---- reading a record: where the words that follow go, a string or cells. False where they cannot be understood. */
static struct {
    struct bytes *string;
    size_t piece;               /* where the last piece of the string begins */
    size_t *cells, least, room, used;
    size_t times, grown;        /* the row stands so many times; of so many of its cells it is said what they grow by */
} to;

static bool to_string(struct bytes *string) {
    bool whole = to.used >= to.least && (!to.times || to.grown == to.used);
    memset(&to, 0, sizeof to);
    to.string = string;
    to.piece = string ? string->length : 0;
    return whole || cannot("too few numbers", "");
}

static bool to_cells(size_t *cells, size_t least, size_t room) {
    bool whole = to_string(NULL);
    to.cells = cells, to.least = least, to.room = room;
    return whole;
}

static bool decimal(const char *w, size_t *n) {
    const char *digits = w + (*w == '-');
    errno = 0;
    *n = strtoull(w, NULL, 10);
    return *digits && !digits[strspn(digits, "0123456789")] && !errno;
}

/* The next cell; or what the next cell of a row that stands many times grows by. */
static bool number(const char *w) {
    size_t n;
    if (!to.cells || !decimal(w, &n))
        return cannot("no such word", w);
    if (to.times ? to.grown == to.used : to.used == to.room)
        return cannot("a number too many", w);
    if (!to.times) {
        to.cells[to.used++] = n;
        return true;
    }
    for (size_t i = 1; i < to.times; i++)
        to.cells[i * to.used + to.grown] = to.cells[to.grown] + i * n;
    to.grown++;
    return true;
}

static bool add(const void *from, size_t n) {
    if (n > MOST_BYTES - to.string->length)
        return cannot("a string too long", "");
    memcpy(to.string->at + to.string->length, from, n);
    to.string->length += n;
    return true;
}

/* `*N`: the piece just read stands N times; or the row does. */
static bool repeat(const char *w) {
    size_t n;
    if (!decimal(w + 1, &n) || n == 0)
        return cannot("no such word", w);
    if (!to.string) {
        to.times = n;
        return (to.used && !to.grown && n <= to.room / to.used) || cannot("no row, or no room for it", w);
    }
    size_t length = to.string->length - to.piece;
    if (length == 0)
        return cannot("no piece for", w);
    for (size_t i = 1; i < n; i++)
        if (!add(to.string->at + to.piece, length))
            return false;
    return true;
}

static bool hexadecimal(const char *w) {
    if (strlen(w) % 2 || w[strspn(w, "0123456789abcdef")])
        return cannot("no bytes", w);
    for (unsigned byte; *w && sscanf(w, "%2x", &byte) == 1; w += 2)
        if (!add(&(uint8_t){(uint8_t)byte}, 1))
            return false;
    return true;
}

static bool quoted(const char *w) {
    static const char marks[] = "nrt\"\\", meant[] = "\n\r\t\"\\";
    for (w++; *w && *w != '"'; w++) {
        const char *mark = *w == '\\' && w[1] ? strchr(marks, w[1]) : NULL;
        if (*w == '\\' && !mark)
            return cannot("no such mark", w);
        if (!add(mark ? meant + (mark - marks) : w, 1))
            return false;
        w += mark != NULL;
    }
    return (*w == '"' && !w[1]) || cannot("quotes that do not end where the word does", w);
}

/* `@NAME`: the bytes of samples/NAME. */
static bool sample(const char *w) {
    static uint8_t file[MOST_BYTES];
    char name[100];
    snprintf(name, sizeof name, "samples/%.80s", w + 1);
    FILE *f = fopen(name, "rb");
    size_t n = f ? fread(file, 1, sizeof file, f) : 0;
    if (f)
        fclose(f);
    return n ? add(file, n) : cannot("no such file", w);
}

static bool piece(const char *w) {
    to.piece = to.string->length;
    return *w == '"' ? quoted(w) : *w == '@' ? sample(w) : hexadecimal(is(w, "HDR") ? "0061736d01000000" : w);
}

/* What stands ready before the call, as the reader leaves it for the string that is being read. */
static bool module_ready(struct bytes *s, size_t n) {
    static size_t sections[1280], names[12288];
    struct judged_module_told r = judged_module(s->at, s->length, sections, limits[1], table(&given, n), limits[n], table(&given, n + 1),
                                                limits[n + 1], names, limits[4]);
    given.count[n] = r.imports, given.count[n + 1] = r.exports;
    return r.number == 0;
}

static bool worlds_ready(struct bytes *s) {
    struct judged_manifest_told r = judged_manifest(s->at, s->length, table(&given, 5), limits[5], table(&given, 6), limits[6]);
    given.count[5] = r.worlds, given.count[6] = r.references;
    return r.number == 0;
}

static bool policy_ready(struct bytes *s) {
    struct viscrombal_policy_read r = viscrombal_policy(s->at, s->length);
    lay_policy(r, given.policy);
    return r.number == 0;
}

/* T, R, L or C, and its number. */
static bool numbered(const char *w, struct said *part) {
    size_t n;
    if (!decimal(w + 1, &n))
        return cannot("no such word", w);
    if (*w == 'T' && room_of(n))
        return to_cells(table(part, n), 1, room_of(n));
    if (*w == 'R' && n < 7)
        return to_cells(part->policy + 4 + 3 * n, 3, 3);
    if (*w == 'L' && part == &given && (n == 0 || room_of(n)))
        return to_cells(&given.lent[n], 1, 1);
    if (*w == 'C' && part == &given && room_of(n))
        return to_cells(&given.count[n], 1, 1);
    return cannot("no such word", w);
}

/* A word that both parts have. */
static bool item(const char *w, struct said *part) {
    if (is(w, "P"))
        return to_cells(part->policy, 4, 4);
    if (*w == '*')
        return repeat(w);
    if (*w >= 'A' && *w <= 'Z' && !is(w, "HDR"))
        return numbered(w, part);
    return to.string ? piece(w) : number(w);
}

static bool input_word(const char *w) {
    if (is(w, "A") || is(w, "B"))
        return to_string(*w == 'A' ? &a : &b);
    if (is(w, "N"))
        return to_cells(given.value, 1, VALUES);
    if (to.string && is(w, "MODULE"))
        return module_ready(to.string, to.string == &a ? 2 : 12) || cannot("a module that is refused", w);
    if (to.string && is(w, "WORLDS"))
        return worlds_ready(to.string) || cannot("a manifest that is refused", w);
    if (to.string && is(w, "OBEY"))
        return policy_ready(to.string) || cannot("a policy that is refused", w);
    return item(w, &given);
}

/* The answer's first word is ok or refused. */
static bool refusal;

static bool answer_word(const char *w) {
    if (to.cells || to.string)
        return is(w, "SAYS") ? to_string(&says) : item(w, &wanted);
    refusal = is(w, "refused");
    if (refusal)
        return to_cells(wanted.refused, 2, 3);
    return is(w, "ok") ? to_cells(wanted.value + 2, 0, VALUES - 2) : cannot("neither ok nor refused", w);
}

/* The next word of a line, NULL where there is none; blanks in quotes do not end it. */
static char *next_word(char **line) {
    char *w = *line + strspn(*line, " "), *end = w;
    bool quotes = *w == '"';
    for (end += quotes; *end && (quotes || *end != ' '); end++) {
        if (quotes && *end == '\\' && end[1])
            end++;
        else if (*end == '"')
            quotes = false;
    }
    *line = *end ? end + 1 : end;
    *end = 0;
    return *w ? w : NULL;
}

static bool call_word(const char *w, const struct call **call) {
    if (*call)
        return cannot("a second call", w);
    for (size_t i = 0; i < sizeof calls / sizeof *calls; i++)
        if (is(w, calls[i].word))
            *call = &calls[i];
    return *call || cannot("no such call", w);
}

/* The output that is wanted: the bytes that the record says, and after them those lent, untouched. */
static bool want_output(void) {
    for (size_t n = 0; n < TABLES; n++)
        if (given.lent[n] > (n ? room_of(n) : OUTPUT) || says.length > OUTPUT)
            return cannot("more than there is room for", "");
    memset(wanted.output, LENT_BYTE, given.lent[0]);
    memcpy(wanted.output, says.at, says.length);
    wanted.output_length = says.length > given.lent[0] ? says.length : given.lent[0];
    return true;
}

static bool word(int part, const char *w, const struct call **call) {
    switch (part) {
    case 0: return true;
    case 1: return call_word(w, call);
    case 2: return input_word(w);
    case 3: return answer_word(w);
    default: return cannot("a part too many", w);
    }
}

/* ID | CALL | INPUT | ANSWER */
static bool read_record(char *line, const struct call **call) {
    int part = 0;
    memset(&given, 0, sizeof given), memset(&wanted, 0, sizeof wanted), memset(&got, 0, sizeof got), memset(&to, 0, sizeof to);
    memcpy(given.lent, limits, sizeof limits);
    a.length = b.length = says.length = 0, *fault = 0, *call = NULL, refusal = false;
    for (char *w = next_word(&line); w; w = next_word(&line)) {
        bool bar = is(w, "|");
        part += bar;
        if (!(bar ? to_string(NULL) : word(part, w, call)))
            return false;
    }
    if (part != 3 || !*call || (!to.cells && !to.string))
        return cannot("no record", "it has not its four parts");
    if (refusal && !wanted.refused[0])
        return cannot("no number", "refused");
    return to_string(NULL) && want_output();
}

/* ---- whether it holds: every cell, and every byte of output; if not, the first thing that is otherwise */
static char why[160];

static bool same(const char *what, const size_t *came, const size_t *want, size_t n) {
    size_t i = 0;
    while (i < n && came[i] == want[i])
        i++;
    if (i < n)
        snprintf(why, sizeof why, "%s %zu is %zu, not %zu", what, i, came[i], want[i]);
    return i == n;
}

static bool same_answer(void) {
    const size_t *came = got.refused, *want = wanted.refused;
    snprintf(why, sizeof why, "refused %zu %zu %zu, not %zu %zu %zu (0 0 0 is accepted)", came[0], came[1], came[2], want[0], want[1],
             want[2]);
    return !memcmp(came, want, sizeof got.refused) && same("value", got.value + 2, wanted.value + 2, VALUES - 2);
}

static bool same_tables(void) {
    char cell[24];
    for (size_t n = 1; n < TABLES; n++) {
        snprintf(cell, sizeof cell, "table %zu, cell", n);
        if (!same(cell, table(&got, n), table(&wanted, n), room_of(n)))
            return false;
    }
    return same("policy's or verdicts' cell", got.policy, wanted.policy, POLICY);
}

static bool same_output(void) {
    size_t i = 0;
    while (i < OUTPUT && got.output[i] == wanted.output[i])
        i++;
    if (i < OUTPUT)
        snprintf(why, sizeof why, "output's byte %zu is %02x, not %02x", i, got.output[i], wanted.output[i]);
    return i == OUTPUT && same("output's length", &got.output_length, &wanted.output_length, 1);
}

/* ---- files */
enum must { HOLD, BE_WRONG, BE_UNREADABLE };

static size_t hits, all;

/* A record that comes out as it must counts; one that does not is told. */
static void run(const char *file, size_t at, char *line, enum must must) {
    const struct call *call;
    if (read_record(line, &call))
        call->make();
    bool understood = !*fault, held = understood && same_answer() && same_tables() && same_output();
    bool good = must == HOLD ? held : must == BE_WRONG ? understood && !held : !understood;
    all++, hits += good;
    if (!good)
        printf("%s:%zu: %s\n", file, at, *fault ? fault : held ? "it holds" : why);
}

/* A line that is empty or begins with # is no record; a file of none is a fault. */
static void replay(const char *name, enum must must) {
    static char text[1 << 20];
    FILE *f = fopen(name, "rb");
    size_t n = f ? fread(text, 1, sizeof text - 1, f) : 0, before = all, line = 0;
    if (f)
        fclose(f);
    text[memchr(text, 0, n) || n == sizeof text - 1 ? 0 : n] = 0;
    for (char *p = text, *next; p; p = next) {
        next = strchr(p, '\n');
        if (next)
            *next++ = 0;
        line++;
        if (*p && *p != '#')
            run(name, line, p, must);
    }
    if (all == before)
        printf("%s: no record, or a file that cannot be read\n", name), all++;
}

int main(int argc, char **argv) {
    enum must must = HOLD;
    assert(table(&given, TABLES) == given.cell + CELLS);
    for (int i = 1; i < argc; i++) {
        if (is(argv[i], "--wrong"))
            must = BE_WRONG;
        else if (is(argv[i], "--unreadable"))
            must = BE_UNREADABLE;
        else
            replay(argv[i], must);
    }
    printf("%zu of %zu\n", hits, all);
    return hits < all || all == 0;
}
