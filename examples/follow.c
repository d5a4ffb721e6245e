/* Tells which pairs of a pairing follow the skeleton:
 *     (cd crates/pairing && rt lib)
 *     gcc -Iinclude examples/follow.c crates/pairing/out/libpairing.a -o follow
 *     ./follow examples/thumb.sheet examples/thumb-to-toe.pairing
 * Two pairs mirror a thumb to a toe: it prints "2 pairs do not follow, thumbR toeL first". With the fox's sheet and pairing
 * it prints "all pairs follow". */
#include "mirror.h"

#include <stdio.h>
#include <stdlib.h>

/* Reads a file into a buffer, up to the buffer's size. */
static size_t read_file(const char *path, uint8_t *bytes, size_t room)
{
    FILE *file = fopen(path, "rb");
    size_t size = file == NULL ? 0 : fread(bytes, 1, room, file);

    if (file == NULL || ferror(file)) {
        perror(path);
        exit(2);
    }
    fclose(file);
    return size;
}

/* A joint's label in an accepted sheet. */
static const char *label(const uint8_t *sheet, unsigned joint)
{
    return (const char *)sheet + 1 + 16 * joint;
}

int main(int argc, char **argv)
{
    /* a byte more than the longest of each, so that bytes after one are seen */
    static uint8_t sheet[MIRROR_SHEET_BYTES + 1], pairing[MIRROR_PAIRING_BYTES + 1];
    size_t sheet_size, pairing_size;
    unsigned a, b = 1, pair;
    uint32_t answer;

    if (mirror_version() != MIRROR_VERSION)
        return 2; /* linked against the library of another header */
    if (argc != 3) {
        fprintf(stderr, "usage: %s SHEET PAIRING\n", argv[0]);
        return 2;
    }
    sheet_size = read_file(argv[1], sheet, sizeof sheet);
    pairing_size = read_file(argv[2], pairing, sizeof pairing);
    answer = mirror_follow(sheet, sheet_size, pairing, pairing_size);
    if (MIRROR_REFUSAL(answer) != MIRROR_ACCEPTED) {
        printf("refused %u\n", MIRROR_REFUSAL(answer));
        return 0;
    }
    if (MIRROR_ASTRAY(answer) == 0) {
        printf("all pairs follow\n");
        return 0;
    }
    pair = MIRROR_PAIR(answer);
    while (b * (b + 1) / 2 <= pair)
        b++;
    a = pair - b * (b - 1) / 2;
    printf("%u pairs do not follow, %.16s %.16s first\n", MIRROR_ASTRAY(answer), label(sheet, a), label(sheet, b));
    return 0;
}
