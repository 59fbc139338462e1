/* What viscrombal_strict answers, over the C interface: the worked cases of strict reading, and that a file which it accepts is accepted by
 * viscrombal_module. */
#include "viscrombal.h"
#include <stdio.h>

#define H "\0asm\1\0\0\0"
#define N "\4name"
#define CASE(bytes, number, place) {(const uint8_t *)(bytes), sizeof(bytes) - 1, number, place, 0}
#define KIND(bytes, place, offset) {(const uint8_t *)(bytes), sizeof(bytes) - 1, 5, place, offset}

static const struct {
    const uint8_t *file;
    size_t len;
    uint32_t number;
    size_t place;
    size_t offset;
} cases[] = {
    CASE(H, 0, 0),
    CASE("\0asm\2\0\0\0\x0d\0", 20, 1),
    CASE("\0asm\x0d\0\1\0", 20, 1),
    CASE(H "\1\x80\x80\x80\x80\x80\0", 20, 2),
    CASE(H "\2\x0e\1\1m\1" "f\2\1\0\x80\x80\x80\x80\x80\0", 20, 2),
    CASE(H "\2\x0c\1\x81\x80\x80\x80\x80\0m\1" "f\0\0", 20, 2),
    CASE(H "\0\7\x81\x80\x80\x80\x80\0x", 20, 2),
    CASE(H "\0\x0f" N "\1\x08\1\x80\x80\x80\x80\0\1" "f", 0, 0),
    CASE(H "\0\x0e" N "\2\7\x80\x80\x80\x80\x80\x80\0", 0, 0),
    CASE(H "\x0d\0", 20, 3),
    CASE(H "\x0d\0\x0d\0", 20, 3),
    CASE(H "\3\0\1\0", 20, 4),
    CASE(H "\x0a\0\x0c\0", 20, 4),
    CASE(H "\2\2\0\0\2\1\0", 20, 4),
    CASE(H "\1\0\3\0\4\0\5\0\6\0\x08\0\x09\0\x0c\0\x0a\0\x0b\0", 0, 0),
    CASE(H "\0\2\1x\1\1\0\0\2\1x\2\1\0\0\2\1x", 0, 0),
    CASE(H "\2\2\0\0", 20, 5),
    CASE(H "\0\x0b" N "\0\4\1m\0\0", 0, 0),
    CASE(H "\7\7\2\0\0\0\0\0\0", 20, 6),
    CASE(H "\7\5\1\1" "e\4\0", 20, 7),
    CASE(H "\2\x08\1\1m\1" "f\3\x7f\2", 20, 8),
    CASE(H "\2\x09\1\1m\1" "f\1\0\0\0", 0, 0),
    CASE(H "\0\6" N "\0", 1, 16),
    CASE(H "\0\x09" N "\0\2\1\xff", 4, 18),
    KIND(H "\2\6\1\1m\1" "f\4", 4, 15),
    KIND(H "\2\4\1\0\0\x10", 16, 13),
    CASE("", 1, 0),
    CASE("\0asm\0\0\0\0", 2, 4),
};

int main(void) {
    static uint8_t out[4096];
    unsigned good = 0, all = sizeof cases / sizeof *cases;
    for (unsigned i = 0; i < all; i++) {
        struct viscrombal_answer r = viscrombal_strict(cases[i].file, cases[i].len);
        struct viscrombal_module_read m = viscrombal_module(cases[i].file, cases[i].len, out, sizeof out);
        int plain = r.number == 0 || r.number == 20 ? m.number == 0 : m.number == r.number && m.place == r.place && m.offset == r.offset;
        if (r.number == cases[i].number && r.place == cases[i].place && r.offset == cases[i].offset && plain)
            good++;
        else
            printf("not so: case %u, %u at %zu, offset %zu\n", i, (unsigned)r.number, r.place, r.offset);
    }
    printf("strict reading: %u of %u as stated\n", good, all);
    return good != all || viscrombal_interface() != VISCROMBAL_INTERFACE;
}
