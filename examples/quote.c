/* Quotes a sheet by a tariff, with a rebate in hundredths of a percent:
 *     (cd crates/pairing && rt lib)
 *     gcc -Iinclude examples/quote.c crates/pairing/out/libpairing.a -o quote
 *     ./quote examples/fox.sheet examples/shop.tariff 250
 * The fox has ten pairs, three at 500 cents and seven at 300, and 2.5 % off: it prints "payable 3510". */
#include "mirror.h"

#include <ctype.h>
#include <inttypes.h>
#include <stdio.h>
#include <stdlib.h>

/* Reads a file into a buffer, up to the buffer's size. */
static size_t read_file(const char *path, uint8_t *bytes, size_t room)
{
    FILE *file = fopen(path, "rb");
    size_t size = file == NULL ? 0 : fread(bytes, 1, room, file);

    if (file == NULL || ferror(file)) {
        perror(path);
        exit(2);
    }
    fclose(file);
    return size;
}

int main(int argc, char **argv)
{
    /* a byte more than the longest of each, so that bytes after one are seen */
    static uint8_t sheet[MIRROR_SHEET_BYTES + 1], tariff[MIRROR_TARIFF_BYTES + 1];
    size_t sheet_size, tariff_size;
    unsigned long rebate = 0;
    char *end = NULL;
    uint64_t answer;

    if (mirror_version() != MIRROR_VERSION)
        return 2; /* linked against the library of another header */
    if (argc == 4 && isdigit((unsigned char)argv[3][0]))
        rebate = strtoul(argv[3], &end, 10);
    if (end == NULL || *end != '\0') {
        fprintf(stderr, "usage: %s SHEET TARIFF REBATE\n", argv[0]);
        return 2;
    }
    sheet_size = read_file(argv[1], sheet, sizeof sheet);
    tariff_size = read_file(argv[2], tariff, sizeof tariff);
    if (rebate > UINT32_MAX)
        rebate = UINT32_MAX; /* refused like any above 10,000 */
    answer = mirror_quote(sheet, sheet_size, NULL, 0, tariff, tariff_size, (uint32_t)rebate);
    if (MIRROR_REFUSAL(answer) != MIRROR_ACCEPTED)
        printf("refused %u\n", MIRROR_REFUSAL(answer));
    else if (MIRROR_VERDICT(answer) != MIRROR_DONE)
        printf("none phase %u\n", MIRROR_VERDICT(answer));
    else
        printf("payable %" PRIu64 "\n", MIRROR_SUM(answer));
    return 0;
}
