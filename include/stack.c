/* How much stack each call needs: the smallest stack on which it answers all the files below, found by trying, and the file that needs it.
 * The stack ends at a page that cannot be touched, so that what is found is what a call touches, not only what it leaves written.
 * A line for each call: its name, the bytes that it needs with its caller's frame, the bytes that the header states, the file. */
#define _GNU_SOURCE
#include "viscrombal.h"
#include <stdio.h>
#include <stdlib.h>
#include <string.h>
#include <sys/mman.h>
#include <sys/resource.h>
#include <sys/wait.h>
#include <ucontext.h>
#include <unistd.h>

enum { PAGE = 4096, STACK = 8 << 20, LEAST = 512, STEP = 16, OUT = 64 << 20, MOST = 64 };

/* ---- files */
struct bytes {
    const char *name;
    uint8_t *at;
    size_t len;
};

static struct bytes modules[MOST], texts[MOST];
static size_t module_count, text_count;
static size_t some_modules; /* the first ones, for calls of two files */

static struct bytes *open_bytes(struct bytes *list, size_t *count, const char *name) {
    struct bytes *b = &list[*count];
    if (++*count > MOST)
        exit(2);
    b->name = name;
    b->at = malloc(20 << 20);
    b->len = 0;
    return b;
}

static void put(struct bytes *b, const void *at, size_t len) {
    memcpy(b->at + b->len, at, len);
    b->len += len;
}

static void put_byte(struct bytes *b, uint8_t byte) { put(b, &byte, 1); }

static void put_number(struct bytes *b, size_t n) {
    for (; n > 0x7f; n >>= 7)
        put_byte(b, (uint8_t)(n | 0x80));
    put_byte(b, (uint8_t)n);
}

static void put_name(struct bytes *b, const char *name) {
    put_number(b, strlen(name));
    put(b, name, strlen(name));
}

/* A section of the bytes that were put after `from`. */
static void wrap(struct bytes *b, size_t from, uint8_t id) {
    static uint8_t payload[20 << 20];
    size_t len = b->len - from;
    memcpy(payload, b->at + from, len);
    b->len = from;
    put_byte(b, id);
    put_number(b, len);
    put(b, payload, len);
}

static struct bytes *module(const char *name) {
    struct bytes *b = open_bytes(modules, &module_count, name);
    put(b, "\0asm\1\0\0\0", 8);
    return b;
}

/* Names that begin alike, differ at their end, and have characters of one to four bytes. */
static const char *numbered(size_t i) {
    static char name[80];
    snprintf(name, sizeof name, "layer \xc3\xa9\xe2\x82\xac\xf0\x9f\x98\x80 wasi:sockets/tcp %zu", i);
    return name;
}

static void imports(struct bytes *b, size_t n, const char *mark) {
    size_t from = b->len;
    put_number(b, n);
    for (size_t i = 0; i < n; i++) {
        put_name(b, i % 5 == 0 ? "wasi_snapshot_preview1" : i % 5 == 1 ? "wasi:sockets/tcp@0.2.0" : mark);
        put_name(b, i % 7 == 0 ? "sock_send" : numbered(i));
        put_byte(b, i % 8 < 4 ? 0 : (uint8_t)(i % 4));
        if (i % 8 < 4 || i % 4 == 0)
            put_number(b, i);
        else if (i % 4 == 1)
            put(b, "\x70\1\0\xff\xff\xff\xff\x0f", 8);
        else if (i % 4 == 2)
            put(b, "\0\0", 2);
        else
            put(b, "\x7f\0", 2);
    }
    wrap(b, from, 2);
}

/* Of functions, each with a module name of its own: a pair for each. */
static void sources(struct bytes *b, size_t n, const char *mark) {
    size_t from = b->len;
    put_number(b, n);
    for (size_t i = 0; i < n; i++) {
        char name[120];
        snprintf(name, sizeof name, "%s %s", numbered(i), mark);
        put_name(b, name);
        put_name(b, "f");
        put(b, "\0\0", 2);
    }
    wrap(b, from, 2);
}

static void exports(struct bytes *b, size_t n, const char *mark) {
    size_t from = b->len;
    put_number(b, n);
    for (size_t i = 0; i < n; i++) {
        char name[120];
        snprintf(name, sizeof name, "%s %s", numbered(i), mark);
        put_name(b, name);
        put_byte(b, (uint8_t)(i % 4));
        put_number(b, i);
    }
    wrap(b, from, 7);
}

static void names(struct bytes *b, size_t n) {
    size_t from = b->len, inner;
    put_name(b, "name");
    inner = b->len;
    put_name(b, "\xf0\x9f\x98\x80 module");
    wrap(b, inner, 0);
    inner = b->len;
    put_number(b, n);
    for (size_t i = 0; i < n; i++) {
        put_number(b, i);
        put_name(b, numbered(i));
    }
    wrap(b, inner, 1);
    wrap(b, from, 0);
}

static void customs(struct bytes *b, size_t n) {
    for (size_t i = 0; i < n; i++)
        put(b, "\0\3\2\xc3\xa9", 5);
}

/* Full tables, read strictly. */
static void full(const char *name, const char *mark, int own_sources) {
    struct bytes *b = module(name);
    if (own_sources)
        sources(b, 1024, mark);
    else
        imports(b, 1024, mark);
    exports(b, 1024, mark);
    names(b, 4096);
    customs(b, 253);
}

static void make_modules(void) {
    open_bytes(modules, &module_count, "no bytes");
    put(open_bytes(modules, &module_count, "text"), "text", 4);
    put(open_bytes(modules, &module_count, "version 0"), "\0asm\0\0\0\0", 8);
    module("no sections");
    put(module("nine sections"), "\1\0\1\0\1\0\1\0\1\0\1\0\1\0\1\0\1\0", 18);
    put(module("seventeen sections"), "\1\0\1\0\1\0\1\0\1\0\1\0\1\0\1\0\1\0\1\0\1\0\1\0\1\0\1\0\1\0\1\0\1\0", 34);
    full("full tables", "one", 0);
    full("full tables, others", "two", 0);
    full("full tables, a source each", "one", 1);
    full("full tables, other sources", "two", 1);
    full("full tables, one print", "one of one print", 1);
    full("full tables, others of that print", "two of one print", 1);
    full("full tables, a fault in the last name", "one", 0);
    modules[module_count - 1].at[modules[module_count - 1].len - 1] = 0xff;
    imports(module("few imports"), 5, "m");
    some_modules = module_count;
    exports(module("few exports"), 5, "m");
    names(module("few names"), 5);
    imports(module("1,024 imports"), 1024, "m");
    imports(module("1,025 imports"), 1025, "m");
    exports(module("1,024 exports"), 1024, "m");
    exports(module("1,025 exports"), 1025, "m");
    names(module("4,096 names"), 4096);
    names(module("4,097 names"), 4097);
    customs(module("256 sections"), 256);
    customs(module("257 sections"), 257);
    put(module("a kind that is none"), "\2\7\1\1m\1f\7\0", 9);
    put(module("a name that is no text"), "\7\6\1\2\xe2\x82\0\0", 8);
    put(module("a number that is too long"), "\1\x80\x80\x80\x80\x80\x80\x80\x80\x80\x80\0", 12);
    put(module("a section that is cut"), "\1\5", 2);
    put(module("a name section that is cut"), "\0\7\4name\1\5", 9);
    put(module("a count beyond its entries"), "\2\5\xff\xff\xff\xff\x0f", 7);
    put(module("two exports of one name"), "\7\7\2\0\0\0\0\0\0", 9);
    struct bytes *b = module("16 MiB");
    put(b, "\1\xf3\xff\xff\7", 5);
    memset(b->at + b->len, 0, (16 << 20) - b->len);
    b->len = 16 << 20;
    b = module("a byte more");
    memset(b->at + b->len, 0, (16 << 20) + 1 - b->len);
    b->len = (16 << 20) + 1;
}

static void text(const char *name, const char *words) {
    struct bytes *b = open_bytes(texts, &text_count, name);
    put(b, words, strlen(words));
}

/* As many of these words as a text may have. */
static void repeated(const char *name, const char *first, const char *word) {
    struct bytes *b = open_bytes(texts, &text_count, name);
    put(b, first, strlen(first));
    while (b->len + strlen(word) <= 65536)
        put(b, word, strlen(word));
}

static void make_texts(void) {
    text("no text", "");
    text("a policy", "policy \"portal\"\ndefault deny # none\nallow fs: /a, \xc3\xa9\xe3\x80\x80,,\r\ndeny net\nallow rand: x\n"
                     "allow unknown\n");
    text("a policy that allows all", "default allow\n");
    text("no directive", "allow fs\nbogus\n");
    text("no default", "default maybe\n");
    text("no domain", "allow gpu\n");
    text("no UTF-8", "allow fs\n\xe2\x82");
    repeated("tokens", "allow fs:a", ",a");
    repeated("tokens of four bytes", "policy x\ndeny unknown: a", ",\xf0\x9f\x98\x80 ");
    repeated("blanks", "allow fs:", "\xe3\x80\x80");
    repeated("rules", "", "deny net: \xc3\xa9\n");
    repeated("a name", "policy ", "\"");
    repeated("too long", "#", "#");
    texts[text_count - 1].len = 65537;
    text("a manifest", "package a:b@1 // c\nworld w {\n  import wasi:sockets/tcp: func(x)\n  export \xc3\xa9\xe3\x80\x80 {\n}\n"
                       "world v\nimport p\n");
    text("a package in a world", "world w\npackage p\n");
    text("a world without a name", "world {\n");
    text("a brace", "}\n");
    text("outside", "import a\n");
    struct bytes *b = open_bytes(texts, &text_count, "full worlds and references");
    for (size_t i = 0; i < 64; i++) {
        char line[80];
        put(b, line, (size_t)snprintf(line, sizeof line, "world \xf0\x9f\x98\x80w%zu {\n", i));
        for (size_t k = 0; k < 16; k++)
            put(b, line, (size_t)snprintf(line, sizeof line, "%s wasi:\xc3\xa9/%zu: s {\n", k % 2 ? "export" : "import", 16 * i + k));
        put(b, "}\n", 2);
    }
    b = open_bytes(texts, &text_count, "1,024 imports");
    put(b, "world w\n", 8);
    for (size_t i = 0; i < 1024; i++) {
        char line[80];
        put(b, line, (size_t)snprintf(line, sizeof line, "import a-path-that-begins-like-all-others-%zu\n", i));
    }
    b = open_bytes(texts, &text_count, "1,025 imports");
    put(b, "world w\n", 8);
    for (size_t i = 0; i < 1025; i++)
        put(b, "import a\n", 9);
    repeated("65 worlds", "", "world w\n}\n");
}

/* ---- the calls: each on one file, or on two; `out` has room for all that is written, or none */
static uint8_t *out;
static size_t room;

typedef void call(const struct bytes *one, const struct bytes *two);

static void interface(const struct bytes *a, const struct bytes *b) { (void)a, (void)b, viscrombal_interface(); }
static void uleb128(const struct bytes *a, const struct bytes *b) { (void)b, viscrombal_uleb128(a->at, a->len, 0); }
static void uleb128_u32(const struct bytes *a, const struct bytes *b) { (void)b, viscrombal_uleb128_u32(a->at, a->len, 0); }
static void sleb128(const struct bytes *a, const struct bytes *b) { (void)b, viscrombal_sleb128(a->at, a->len, 0); }
static void name(const struct bytes *a, const struct bytes *b) { (void)b, viscrombal_name(a->at, a->len, 0); }
static void policy(const struct bytes *a, const struct bytes *b) { (void)b, viscrombal_policy(a->at, a->len); }
static void token(const struct bytes *a, const struct bytes *b) {
    for (size_t domain = 0; domain < 8; domain++)
        (void)b, viscrombal_token(a->at, a->len, domain, 0), viscrombal_token(a->at, a->len, domain, a->len / 2);
}
static void tokens(const struct bytes *a, const struct bytes *b) {
    for (size_t domain = 0; domain < 8; domain++)
        (void)b, viscrombal_tokens(a->at, a->len, domain, out, room);
}
static void rewrite(const struct bytes *a, const struct bytes *b) { (void)b, viscrombal_rewrite(a->at, a->len, out, room); }
static void check(const struct bytes *a, const struct bytes *b) { viscrombal_check(a->at, a->len, b->at, b->len); }
static void strict(const struct bytes *a, const struct bytes *b) { (void)b, viscrombal_strict(a->at, a->len); }
static void read_module(const struct bytes *a, const struct bytes *b) { (void)b, viscrombal_module(a->at, a->len, out, room); }
static void manifest(const struct bytes *a, const struct bytes *b) { (void)b, viscrombal_manifest(a->at, a->len, out, room); }
static void compare(const struct bytes *a, const struct bytes *b) { viscrombal_compare(a->at, a->len, b->at, b->len, out, room); }

#define OF_MODULES modules, &module_count
#define OF_SOME modules, &some_modules
#define OF_TEXTS texts, &text_count

static const struct {
    const char *name;
    call *call;
    const struct bytes *one;
    const size_t *ones;
    const struct bytes *two; /* NULL: of one file */
    const size_t *twos;
    size_t stated;
} calls[] = {
    {"interface", interface, OF_TEXTS, NULL, NULL, VISCROMBAL_STACK_NUMBER},
    {"uleb128", uleb128, OF_TEXTS, NULL, NULL, VISCROMBAL_STACK_NUMBER},
    {"uleb128_u32", uleb128_u32, OF_TEXTS, NULL, NULL, VISCROMBAL_STACK_NUMBER},
    {"sleb128", sleb128, OF_TEXTS, NULL, NULL, VISCROMBAL_STACK_NUMBER},
    {"name", name, OF_TEXTS, NULL, NULL, VISCROMBAL_STACK_NUMBER},
    {"policy", policy, OF_TEXTS, NULL, NULL, VISCROMBAL_STACK_POLICY},
    {"token", token, OF_TEXTS, NULL, NULL, VISCROMBAL_STACK_TOKEN},
    {"tokens", tokens, OF_TEXTS, NULL, NULL, VISCROMBAL_STACK_TOKENS},
    {"rewrite", rewrite, OF_TEXTS, NULL, NULL, VISCROMBAL_STACK_REWRITE},
    {"check", check, OF_SOME, OF_TEXTS, VISCROMBAL_STACK_CHECK},
    {"strict", strict, OF_MODULES, NULL, NULL, VISCROMBAL_STACK_STRICT},
    {"module", read_module, OF_MODULES, NULL, NULL, VISCROMBAL_STACK_MODULE},
    {"manifest", manifest, OF_TEXTS, NULL, NULL, VISCROMBAL_STACK_MANIFEST},
    {"compare", compare, OF_SOME, OF_SOME, VISCROMBAL_STACK_COMPARE},
};

/* ---- one call on a stack of so many bytes */
static ucontext_t caller, callee;
static uint8_t *stack_end; /* the first byte that can be touched */
static call *called;
static const struct bytes *first, *second;

static void enter(void) { called(first, second); }

static void on_stack(size_t size) {
    getcontext(&callee);
    callee.uc_stack.ss_sp = stack_end;
    callee.uc_stack.ss_size = size;
    callee.uc_link = &caller;
    makecontext(&callee, enter, 0);
    swapcontext(&caller, &callee);
}

/* A call's files: one, or two, with room for what is written, or with none. The process that tries tells how far it has come. */
struct trial {
    size_t one, two, room;
};
static struct trial *told;

static void try(size_t n, struct trial t, size_t size) {
    *told = t;
    called = calls[n].call;
    first = &calls[n].one[t.one], second = calls[n].two ? &calls[n].two[t.two] : NULL;
    room = t.room ? OUT : 0;
    on_stack(size);
}

/* Whether this trial, or every one of the call where none is given, ends well on a stack of this size. */
static int enough(size_t n, const struct trial *one, size_t size) {
    int status;
    pid_t child = fork();
    if (child == 0) {
        close(2); /* an emulator would tell of every stack that was too small */
        if (one)
            try(n, *one, size);
        else
            for (size_t i = 0; i < *calls[n].ones; i++)
                for (size_t k = 0; k < (calls[n].two ? *calls[n].twos : 1); k++)
                    for (size_t r = 0; r < 2; r++)
                        try(n, (struct trial){i, k, r}, size);
        _exit(0);
    }
    waitpid(child, &status, 0);
    return WIFEXITED(status) && WEXITSTATUS(status) == 0;
}

/* The least that is enough for one trial, of which `few` is not. */
static size_t needed(size_t n, struct trial one, size_t few) {
    size_t many = STACK;
    while (many - few > STEP) {
        size_t middle = (few + many) / 2 / STEP * STEP;
        if (enough(n, &one, middle))
            many = middle;
        else
            few = middle;
    }
    return many;
}

/* The least that is enough for all of them, and a trial that needs it. */
static size_t worst(size_t n, struct trial *which) {
    size_t size = LEAST;
    while (!enough(n, NULL, size)) {
        *which = *told;
        size = needed(n, *which, size);
    }
    return size;
}

int main(void) {
    const struct rlimit no_core = {0, 0};
    uint8_t *below = mmap(NULL, STACK + PAGE, PROT_READ | PROT_WRITE, MAP_PRIVATE | MAP_ANONYMOUS | MAP_NORESERVE, -1, 0);
    out = mmap(NULL, OUT, PROT_READ | PROT_WRITE, MAP_PRIVATE | MAP_ANONYMOUS | MAP_NORESERVE, -1, 0);
    told = mmap(NULL, PAGE, PROT_READ | PROT_WRITE, MAP_SHARED | MAP_ANONYMOUS, -1, 0);
    if (below == MAP_FAILED || out == MAP_FAILED || told == MAP_FAILED || mprotect(below, PAGE, PROT_NONE) != 0)
        return 2;
    setrlimit(RLIMIT_CORE, &no_core);
    stack_end = below + PAGE;
    make_modules();
    make_texts();
    for (size_t n = 0; n < sizeof calls / sizeof *calls; n++) {
        struct trial which = {0, 0, 0};
        size_t bytes = worst(n, &which);
        printf("%s %zu %zu %s%s%s\n", calls[n].name, bytes, calls[n].stated, calls[n].one[which.one].name, calls[n].two ? "; " : "",
               calls[n].two ? calls[n].two[which.two].name : "");
        fflush(stdout);
    }
    return 0;
}
