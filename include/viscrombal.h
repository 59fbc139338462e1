/* The C interface of Viscrombal: crate capi, whose symbols capi_c exports (`tools/archive capi`), x86-64.
 * Every call answers every input. A byte slice is a pointer and a length; a slice of no bytes may have any pointer but NULL. So the room
 * that a call needs is asked for by lending none: a room of 0 at any byte of the caller's. It is refused, 16 at the bytes needed, or needs
 * none.
 * Every answer begins with `number` and `place`: 0 and 0 where the call accepts, else a refusal of docs/RULES.md and its place,
 * and then everything else in the answer is zero. 3 is not given: a number that is bad is told apart as 17, 18 and 19.
 * A place that is an offset in a module's file (1, 2, 4, 17, 18, 19) counts from byte 0 of the file, as a hex viewer shows it. The place
 * of 5 is the import's kind byte; where a call reads a module, the byte's own offset comes beside it, in `offset`, which is 0 for any
 * other number. */
#ifndef VISCROMBAL_H
#define VISCROMBAL_H

#include <stdbool.h>
#include <stddef.h>
#include <stdint.h>

#ifdef __cplusplus
extern "C" {
#endif

/* Accepted, or refused, and nothing else. */
struct viscrombal_answer {
    uint32_t number;
    size_t place;
    size_t offset;
};

/* An unsigned number that was read, and the offset after it. */
struct viscrombal_unsigned {
    uint32_t number;
    size_t place;
    uint64_t value;
    size_t next;
};

struct viscrombal_signed {
    uint32_t number;
    size_t place;
    int64_t value;
    size_t next;
};

/* A range of the bytes handed in, and the offset after it. */
struct viscrombal_range {
    uint32_t number;
    size_t place;
    size_t from;
    size_t len;
    size_t next;
};

/* A domain's rule: stance 0 none, 1 allow, 2 deny, and the range of its list of tokens in the text. */
struct viscrombal_rule {
    size_t stance;
    size_t from;
    size_t len;
};

/* A policy: the range of its name, or `default-deny` where it is not named; the default; rules in domain order
 * (fs, env, clock, network, random, stdio, unknown). */
struct viscrombal_policy_read {
    uint32_t number;
    size_t place;
    bool named;
    size_t start;
    size_t size;
    bool permit;
    struct viscrombal_rule rules[7];
};

/* A token's range in the text, and the offset from which the next is looked for. */
struct viscrombal_token_read {
    uint32_t number;
    size_t place;
    bool found;
    size_t from;
    size_t len;
    size_t next;
};

/* The tokens of a domain's list: how many there are. */
struct viscrombal_tokens_read {
    uint32_t number;
    size_t place;
    size_t count;
    size_t bytes;
};

/* How many bytes were written. */
struct viscrombal_written {
    uint32_t number;
    size_t place;
    size_t bytes;
};

/* What a policy says of a domain: whether it is required, whether it is allowed, how many requirements there are. */
struct viscrombal_verdict {
    bool required;
    bool allowed;
    size_t many;
};

/* Verdicts in domain order; bit d of `set`: domain d is required and not allowed; `count` is how many are. */
struct viscrombal_evaluation {
    uint32_t number;
    size_t place;
    size_t offset;
    struct viscrombal_verdict verdicts[7];
    uint32_t set;
    size_t count;
    bool compliant;
};

/* A module: its version, the file's length, the range of its name in the file, and how many rows tables 1 to 4 have; `symbols` are
 * those of table 4. */
struct viscrombal_module_read {
    uint32_t number;
    size_t place;
    size_t offset;
    uint32_t version;
    size_t length;
    bool named;
    size_t start;
    size_t size;
    size_t sections;
    size_t imports;
    size_t exports;
    size_t symbols;
    size_t bytes;
};

/* A manifest: the range of its package in the text, how many rows tables 5 and 6 have, how many paths are imported and exported. */
struct viscrombal_manifest_read {
    uint32_t number;
    size_t place;
    bool packaged;
    size_t start;
    size_t size;
    size_t worlds;
    size_t references;
    size_t imported;
    size_t exported;
    size_t bytes;
};

/* Two builds: how many rows tables 8 and 9 have, whether no export was removed and no capability added, and how many of the bytes are the
 * reasons. */
struct viscrombal_comparison {
    uint32_t number;
    size_t place;
    size_t offset;
    size_t exports;
    size_t capabilities;
    bool compatible;
    size_t reasons;
    size_t bytes;
};

/* The number of this interface: a change of a struct, of a list, of a number or of a place raises it. */
#define VISCROMBAL_INTERFACE 4
uint32_t viscrombal_interface(void);

/* The stack that a call needs, with its caller's frame: no file needs more. Calls keep their tables there, so that how deep one goes
 * depends on the file: viscrombal_module needs some 2 KB for eight sections, some 4 KB for sixteen, and all that is stated for seventeen.
 * On a smaller stack it ends in the guard page, by a signal, and overwrites nothing: large frames are touched page by page. Each number is
 * the deepest chain of frames of the proved archive, which the worst files are measured to reach, with 512 bytes for the caller, rounded up
 * to pages of 4,096 bytes (include/stack). memcpy and memset of the C library are called besides: a program that binds them at their first
 * call, and not when it starts (-z now), needs what that takes, some KB, on top. NUMBER is for the interface's number, numbers and names. */
#define VISCROMBAL_STACK_NUMBER 4096
#define VISCROMBAL_STACK_POLICY 4096
#define VISCROMBAL_STACK_TOKEN 4096
#define VISCROMBAL_STACK_TOKENS 4096
#define VISCROMBAL_STACK_REWRITE 4096
#define VISCROMBAL_STACK_CHECK 253952
#define VISCROMBAL_STACK_STRICT 311296
#define VISCROMBAL_STACK_MODULE 241664
#define VISCROMBAL_STACK_MANIFEST 77824
#define VISCROMBAL_STACK_COMPARE 512000

/* Reads at offset `at` of the bytes s[0] to s[len - 1]. */
struct viscrombal_unsigned viscrombal_uleb128(const uint8_t *s, size_t len, size_t at);
struct viscrombal_unsigned viscrombal_uleb128_u32(const uint8_t *s, size_t len, size_t at);
struct viscrombal_signed viscrombal_sleb128(const uint8_t *s, size_t len, size_t at);
struct viscrombal_range viscrombal_name(const uint8_t *s, size_t len, size_t at);

/* A policy's text as ranges of it. */
struct viscrombal_policy_read viscrombal_policy(const uint8_t *text, size_t len);

/* The first token of a domain's list at or after offset `from`; the domain by its number, 0 to 6. The text is read anew by each call:
 * viscrombal_tokens lists them all by one. */
struct viscrombal_token_read viscrombal_token(const uint8_t *text, size_t len, size_t domain, size_t from);

/* A policy's text in the one form that the writer gives it. Refused, `out` is untouched (16: its place is the bytes needed);
 * accepted, nothing past the text. `out` must not overlap `text`. */
struct viscrombal_written viscrombal_rewrite(const uint8_t *text, size_t len, uint8_t *out, size_t room);

/* The whole check: a module's file held against a policy's text. `compliant` is false after a refusal. */
struct viscrombal_evaluation viscrombal_check(const uint8_t *file, size_t len, const uint8_t *text, size_t text_len);

/* Whether a module's file is clean in what is read: the refusal of the plain reader, or 20 at the lowest of the eight rules of strict reading
 * that it breaks. Accepted, its rows are those of viscrombal_module. It is no validation: sections that are not read may hold anything. */
struct viscrombal_answer viscrombal_strict(const uint8_t *file, size_t len);

/* Lists go to `out`, which must not overlap what is read: cells of eight bytes each, the lowest byte first, one row after another and one
 * list after another, `bytes` in all. Refused, `out` is untouched (16: its place is the bytes needed); accepted, nothing past the lists.
 * The tables behind it are at their limits, so that 13 means more than the limits of docs/RULES.md. */

/* A module's file. Rows of tables 1 to 4: 5 cells a section (id, offset, size, name's offset and length), 12 an import, 4 an export
 * (name's offset and length, kind, index), 3 a function name (index, name's offset and length).
 * The cells of an import: 0 and 1 module name's offset and length, 2 and 3 field name's, 4 kind (0 func, 1 table, 2 memory, 3 global); then
 * what it asks for: 5 type index of a func; 6 type byte, a table's element type or a global's value type; 7 flag, 8 least and 9 most, the
 * limits of a table (entries) or a memory (pages of 65,536 bytes); 10 mutability of a global; 11 given. Bit c - 5 of given is set where the
 * number in cell c is there: given is 1 of a func, 34 of a global, 14 of a table and 12 of a memory, and of these two 16 more where bit 0 of
 * the flag is set, for then there is a most. A number that is not there is 0, and one that is there may be. The flag is as the file has it. */
struct viscrombal_module_read viscrombal_module(const uint8_t *file, size_t len, uint8_t *out, size_t room);

/* A manifest's text. Rows of tables 5 and 6: 2 cells a world (name's offset and length), 7 a reference (world, 0 import or 1 export,
 * path's offset and length, 1 with a signature, its offset and length); then rows of table 6, a cell each: by path the lowest row of each
 * path that is imported, then of each that is exported. */
struct viscrombal_manifest_read viscrombal_manifest(const uint8_t *text, size_t len, uint8_t *out, size_t room);

/* A policy's text, and a domain by its number, 0 to 6 (above: no token). 2 cells a token of its list, in their order: its offset in the text,
 * and its length. There are at most 32,768, which is 524,288 bytes. */
struct viscrombal_tokens_read viscrombal_tokens(const uint8_t *text, size_t len, size_t domain, uint8_t *out, size_t room);

/* Two files. Rows of tables 8 and 9: 2 cells an export (0 removed or 1 added, row of table 3 of the baseline or of the candidate), 3 a
 * capability (0 removed or 1 added, domain, row of table 2 of the baseline or of the candidate). Then the breaking reasons as text, LF after
 * each: of every removed export, then of every added capability. */
struct viscrombal_comparison viscrombal_compare(const uint8_t *baseline, size_t len, const uint8_t *candidate, size_t candidate_len,
                                                uint8_t *out, size_t room);

#ifdef __cplusplus
}
#endif

#endif
