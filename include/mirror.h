/*
 * Super-stable pairing of a skeleton's joints: the C interface of libpairing.a.
 *
 * Every call but mirror_import takes a sheet, which says for each joint which others it resembles, in bands. A pairing is
 * super-stable if no two joints that list each other, and are not paired together, would each do at least as well with the
 * other (an unpaired joint does at least as well with anyone on its list). mirror_import makes a sheet of a BVH text.
 *
 * A call ends with an answer for every content and size of its arguments, always the same one for the same bytes. It
 * keeps nothing between calls, takes no memory but the stack, and may run in several threads at once. What a caller owes:
 *   - each pointer points to as many bytes as the size after it says (NULL will do where the size is 0);
 *   - `out` shares no byte with another argument, and nothing writes to any argument during the call;
 *   - 384 KiB of stack are free, whatever the sheet and the choices (64 KiB for mirror_check, mirror_follow and mirror_import);
 *     measured, a call uses up to 267,044 bytes (check and follow 33,000, import 10,920). A main thread has far more; a thread
 *     that is started with a small stack may not.
 *
 * The library is for x86-64 Linux and calls memcpy, memmove and memset of the C library, nothing else.
 *
 * THE SHEET, in bytes, with no gaps:
 *   1 byte     n, the number of joints, 0 to 128; joints count from 0
 *   16 x n     a label for each joint: one or more bytes from 33 to 126, then zero bytes to the end; labels differ
 *   2 bytes    m, the number of entries, low byte first
 *   3 x m      the entries: joint, candidate, band. Bands are 1 to 127, and lower is better. Equal bands on one joint's
 *              list are a tie, and gaps between bands mean nothing. Entries ascend by joint, then by candidate.
 * and, if the sheet does not end here,
 *   1 byte     n again
 *   n bytes    the parent of each joint: 255 for a root, otherwise a lower joint number
 * Every call looks at the form of these parents; mirror_follow alone uses them, and needs them.
 * A joint may list nobody. An entry counts only if it is returned, that is if its candidate lists its joint too. Lists may
 * be cut off at a distance, so entries that are not returned are welcome; their form is looked at like that of others, but
 * they count as unlisted everywhere: nobody is paired by one, none blocks, and mirror_shorten leaves them out.
 *
 * CHOICES settle the order of work. They are records of two bytes, a kind and a number:
 *   0, joint   A step. In the first phase the joint proposes next; it must be waiting (its list is not empty and none of its
 *              proposals stands). In the second the next cut is made at its list, which must be longer than one.
 *   1, mark    Sets a mark, 0 to 7: the work as it stands is saved. Setting a mark again replaces it.
 *   2, mark    Returns to a mark: the work is again as it was when that mark was last set, whether it has ended since or not.
 *              Marks stay as they are, those set since too.
 * The steps that stand are those that stood when the mark was set, and later ones follow them. The answer is that of the
 * steps standing at the end, without marks and returns. Where there are no choices, or when they run out, a rule names the
 * joints: in the first phase the lowest that waits, in the second the one with the longest remaining list, and among equals
 * the highest number. No legal choices change whether there is a pairing, how many joints it pairs, or the shortened lists.
 * They may change which of several super-stable pairings is found. Most callers pass NULL, 0. For a sheet whose first phase
 * takes a step of each of the joints 0 to 3, a cut that is tried and taken back, and another in its place:
 *     static const uint8_t choices[] = {
 *         0, 0,  0, 1,  0, 2,  0, 3,    the steps of the first phase
 *         1, 0,                         mark 0
 *         0, 1,                         a cut at joint 1
 *         2, 0,                         back to mark 0
 *         0, 0                          a cut at joint 0
 *     };
 *     answer = mirror_settle(sheet, size, choices, sizeof choices, partner, sizeof partner);
 *
 * THE TARIFF of mirror_quote, in bytes, with nothing after it:
 *   1 byte     the number of steps, 1 to 16
 *   5 x that   the steps: the first pair that the step covers (one byte), then the price in cents of each such pair (four bytes,
 *              low byte first). The first step covers from pair 1, each later one from a higher pair than the one before it. A pair
 *              costs what the last step that begins at or before it says; a step may begin beyond the last pair there is. So
 *              500 from pair 1 and 300 from pair 4 is
 *                  static const uint8_t tariff[] = { 2,  1, 244, 1, 0, 0,  4, 44, 1, 0, 0 };
 *              and five pairs cost 3 x 500 + 2 x 300 = 2,100 cents.
 *
 * THE TEXT of mirror_import begins with a hierarchy as BVH files have it. It is words, parted by spaces, tabs, line feeds and
 * carriage returns: HIERARCHY, then one or more ROOT blocks, up to the word MOTION or the end of the text. What follows MOTION is
 * not read. A block is
 *     ROOT name {                     or JOINT name {
 *         OFFSET x y z                 three words
 *         CHANNELS count ...           decimal digits, and that many words
 *         JOINT name { ... }           blocks and End Sites in any number and order
 *         End Site { OFFSET x y z }
 *     }
 * JOINT nests to depth 32, the ROOT's being 1. Braces are words too, so they stand apart from others. Each word is taken by its
 * place: numbers and channels are any words, and a name may be any, if it can be a label. Keywords are as written here.
 *
 * REFUSALS: the lowest byte of every return is 0, or the number of the first thing wrong, looked for in this order:
 *    1  the sheet ends before n (it is empty)
 *    2  n is above 128
 *    1  the sheet ends before its last label does
 *    3  a label breaks its rule or repeats an earlier one
 *    1  the sheet ends before m, or before its last entry does, or after a count of parents and before the last of so many
 *    8  bytes after the last of so many parents
 *       entry by entry, for the first that is wrong:
 *    4    a joint not below n, or a joint that lists itself
 *    5    band 0 or above 127
 *    6    not after the entry before it
 *   18  a count of parents other than n, or a parent that is neither 255 nor a lower joint; for mirror_follow, no parents
 *    9  `out` is too short
 *   10  the offered pairing is not one: not n bytes, a byte that is neither 255 nor a joint, two joints that do not name
 *       each other, or a pair of joints that do not list each other
 *   16  the tariff breaks its form
 *   17  the rebate is above 10,000
 *   14  an odd number of choice bytes
 *       record by record, for the first that is refused:
 *   14    a kind above 2
 *   15    a mark above 7, or a return to a mark that is not set
 *   13    a step when the work has ended
 *   11    the chosen joint does not wait, or is no joint (first phase)
 *   12    the chosen list is not longer than one, or the choice is no joint (second phase)
 * and for mirror_import, as the text is read from its first word on:
 *   19    it is not of the form above, or JOINT nests deeper; met at the word that breaks the form (for depth, at JOINT)
 *    2    the 129th name
 *   20    a name that cannot be a label (longer than 16 bytes, or with a byte outside 33 to 126), or that came before
 *    9  `out` is too short, looked for when all is read
 * A refused call writes nothing, whenever the refusal is met.
 */
#ifndef MIRROR_H
#define MIRROR_H

#include <stddef.h>
#include <stdint.h>
#ifndef __cplusplus
#include <stdbool.h>
#endif

#ifdef __cplusplus
extern "C" {
#endif

/* The most joints, and the sizes in bytes that always serve: no longer sheet and no longer tariff is accepted, and `out` need
 * be no longer for mirror_settle, mirror_shorten and mirror_import. A program that reads a sheet into a buffer of
 * MIRROR_SHEET_BYTES takes one byte more, or it will not see that bytes follow a largest sheet (refusal 8), and so for a tariff
 * (refusal 16). */
#define MIRROR_JOINTS 128
#define MIRROR_SHEET_BYTES (1 + 16 * 128 + 2 + 3 * 128 * 127 + 1 + 128)
#define MIRROR_PAIRING_BYTES 128
#define MIRROR_LISTS_BYTES (2 + 3 * 128 * 127)
#define MIRROR_TARIFF_BYTES (1 + 5 * 16)
#define MIRROR_IMPORT_BYTES (1 + 16 * 128 + 2 + 1 + 128)

/* The partner byte of an unpaired joint, and the parent byte of a root. */
#define MIRROR_ALONE 255
#define MIRROR_ROOT 255

/* The parts of what the calls return. MIRROR_REFUSAL is for every call; MIRROR_VERDICT and MIRROR_COUNT for mirror_settle
 * and mirror_shorten; MIRROR_HOLDS and MIRROR_PAIR for mirror_check; MIRROR_PROPOSALS and MIRROR_CUTS for mirror_counts;
 * MIRROR_VERDICT and MIRROR_SUM for mirror_quote; MIRROR_ASTRAY and MIRROR_PAIR for mirror_follow; MIRROR_LENGTH for
 * mirror_import. */
#define MIRROR_REFUSAL(r) ((unsigned)((r) & 255))
#define MIRROR_VERDICT(r) ((unsigned)((r) >> 8 & 255))
#define MIRROR_COUNT(r) ((unsigned)((r) >> 16))
#define MIRROR_HOLDS(r) ((unsigned)((r) >> 8 & 255))
#define MIRROR_PAIR(r) ((unsigned)((r) >> 16))
#define MIRROR_ASTRAY(r) ((unsigned)((r) >> 8 & 255))
#define MIRROR_PROPOSALS(r) ((unsigned)((r) >> 16 & 65535))
#define MIRROR_CUTS(r) ((unsigned)((r) >> 32))
#define MIRROR_SUM(r) ((uint64_t)(r) >> 16)
#define MIRROR_LENGTH(r) ((unsigned)((r) >> 8))

/* Verdicts of mirror_settle, mirror_shorten and mirror_quote; 0 with a refusal. */
#define MIRROR_NONE_PHASE_ONE 1
#define MIRROR_NONE_PHASE_TWO 2
#define MIRROR_DONE 3

/* The refusals by name; MIRROR_ACCEPTED where nothing is refused. */
enum mirror_refusal {
    MIRROR_ACCEPTED = 0,
    MIRROR_SHEET_CUT_SHORT = 1,
    MIRROR_TOO_MANY_JOINTS = 2,
    MIRROR_BAD_LABEL = 3,
    MIRROR_NO_SUCH_JOINT = 4,
    MIRROR_BAD_BAND = 5,
    MIRROR_ENTRY_NOT_AFTER = 6,
    MIRROR_BYTES_AFTER_SHEET = 8,
    MIRROR_OUT_TOO_SHORT = 9,
    MIRROR_NO_PAIRING_OFFERED = 10,
    MIRROR_CHOICE_DOES_NOT_WAIT = 11,
    MIRROR_CHOICE_HAS_NO_LIST = 12,
    MIRROR_CHOICE_LEFT_OVER = 13,
    MIRROR_BAD_RECORD = 14,
    MIRROR_NO_SUCH_MARK = 15,
    MIRROR_BAD_TARIFF = 16,
    MIRROR_REBATE_TOO_HIGH = 17,
    MIRROR_BAD_PARENTS = 18,
    MIRROR_BAD_HIERARCHY = 19,
    MIRROR_BAD_NAME = 20
};

/*
 * The version of this interface. A later library may change what a call means or takes; it then has a higher number. A
 * program that is linked against a library other than the header it was compiled with can tell:
 *     if (mirror_version() != MIRROR_VERSION) ...
 */
#define MIRROR_VERSION 5
uint32_t mirror_version(void);

/*
 * Looks for a super-stable pairing.
 *
 * Returns refusal + 256 x verdict + 65,536 x count:
 *   verdict 3  a pairing of `count` pairs. out[0 .. n-1] are each joint's partner, 255 for an unpaired joint.
 *   verdict 1  the sheet has no super-stable pairing, which the first phase showed; count is 0, nothing is written.
 *   verdict 2  the same, shown by the second phase.
 *   verdict 0  refused (1 to 6, 8, 9, 11 to 15, 18); count is 0, nothing is written.
 * `out` needs n bytes or more, also where there turns out to be no pairing. Bytes past the first n stay as they were.
 */
uint32_t mirror_settle(const uint8_t *sheet, size_t sheet_size,
                       const uint8_t *choices, size_t choices_size,
                       uint8_t *out, size_t out_size);

/*
 * Shortens the lists: runs the first phase alone and writes the entries that are left.
 *
 * Returns refusal + 256 x verdict + 65,536 x count:
 *   verdict 3  `count` entries are left. `out` begins with the count, two bytes, low byte first, then 3 x count bytes of
 *              entries in the sheet's form and order, with the sheet's bands.
 *   verdict 1  the sheet has no super-stable pairing; count is 0, nothing is written.
 *   verdict 0  refused (1 to 6, 8, 9, 11, 13 to 15, 18); count is 0, nothing is written.
 * `out` needs 2 + 3 x m bytes or more, for the m of the sheet, which counts entries that are not returned too. Bytes past
 * those written stay as they were.
 */
uint32_t mirror_shorten(const uint8_t *sheet, size_t sheet_size,
                        const uint8_t *choices, size_t choices_size,
                        uint8_t *out, size_t out_size);

/*
 * Checks an offered pairing: n bytes, each joint's partner, 255 for an unpaired joint.
 *
 * Returns refusal + 256 x holds + 65,536 x pair:
 *   holds 1    no pair blocks the pairing: it is super-stable. pair is 0.
 *   holds 0    with refusal 0: blocked, and `pair` is the lowest number of a blocking pair. The pair of joints a and b,
 *              a below b, has the number b x (b - 1) / 2 + a, so its joints are
 *                  unsigned b = 1, a;
 *                  while (b * (b + 1) / 2 <= pair)
 *                      b++;
 *                  a = pair - b * (b - 1) / 2;
 *              With refusal 1 to 6, 8, 10 or 18: not checked; pair is 0.
 */
uint32_t mirror_check(const uint8_t *sheet, size_t sheet_size,
                      const uint8_t *pairing, size_t pairing_size);

/*
 * Counts the work that mirror_settle (whole is true) or mirror_shorten (false) does with the same sheet and choices:
 * proposals of the first phase, one for each joint reached, and cuts of the second.
 *
 * Returns refusal + 65,536 x proposals + 2^32 x cuts, of the steps standing: those taken back by a return do not count.
 * Where the sheet is refused (1 to 6, 8, 18), or the number of choice bytes is odd (14), both are 0. Where a record is refused (11
 * to 15) they are of the steps then standing.
 */
uint64_t mirror_counts(const uint8_t *sheet, size_t sheet_size,
                       const uint8_t *choices, size_t choices_size,
                       bool whole);

/*
 * Quotes: what the pairing that mirror_settle finds with the same sheet and choices costs by a tariff, less a rebate in
 * hundredths of a percent, 0 to 10,000, off the total.
 *
 * Returns refusal + 256 x verdict + 65,536 x sum:
 *   verdict 3  a pairing; `sum` is payable, in cents, rounded down: total x (10,000 - rebate) / 10,000. No pairs cost 0.
 *   verdict 1  the sheet has no super-stable pairing, which the first phase showed; there is no sum (its place has 0).
 *   verdict 2  the same, shown by the second phase.
 *   verdict 0  refused (1 to 6, 8, 11 to 18); the sum's place has 0.
 * Where nothing is refused the choices change nothing: the sum belongs to the sheet, the tariff and the rebate. One more pair
 * never lowers it, a higher rebate never raises it, and it is never above the total; it is below 2^38 for every tariff.
 *     uint64_t answer = mirror_quote(sheet, size, NULL, 0, tariff, sizeof tariff, 250), cents;
 *     if (MIRROR_REFUSAL(answer) == MIRROR_ACCEPTED && MIRROR_VERDICT(answer) == MIRROR_DONE)
 *         cents = MIRROR_SUM(answer);
 */
uint64_t mirror_quote(const uint8_t *sheet, size_t sheet_size,
                      const uint8_t *choices, size_t choices_size,
                      const uint8_t *tariff, size_t tariff_size,
                      uint32_t rebate);

/*
 * Tells which pairs of an offered pairing follow the skeleton. A pair follows if the parents of its two joints are paired
 * together, or are one joint, or if both joints are roots; a root and a joint that is none never follow. The pairing is any
 * matching of the sheet, super-stable or not. A pairing can hold and still mirror a thumb to a toe: mirror_check goes by
 * likeness alone.
 *
 * Returns refusal + 256 x astray + 65,536 x pair:
 *   astray     the number of pairs that do not follow, at most 64; 0 where all follow, and then paired joints are equally
 *              deep in the skeleton.
 *   pair       the lowest number of such a pair, 0 where all follow; its joints are found as for mirror_check.
 * With refusal 1 to 6, 8, 10 or 18 both are 0. A sheet without parents is 18, also where it has no joint.
 *     uint32_t answer = mirror_follow(sheet, size, partner, n);
 *     if (MIRROR_REFUSAL(answer) == MIRROR_ACCEPTED && MIRROR_ASTRAY(answer) != 0)
 *         printf("%u pairs do not follow, number %u first\n", MIRROR_ASTRAY(answer), MIRROR_PAIR(answer));
 */
uint32_t mirror_follow(const uint8_t *sheet, size_t sheet_size,
                       const uint8_t *pairing, size_t pairing_size);

/*
 * Imports: makes a sheet of the hierarchy that a BVH text begins with. Its joints are the blocks in order of appearance, each
 * label a block's name and each parent the number of the block that encloses it, 255 for a ROOT. Nothing is ranked: m is 0,
 * and the likenesses are for the caller to put in. An End Site is no joint.
 *
 * Returns refusal + 256 x length:
 *   length     of the sheet that `out` begins with, 4 + 17 x n bytes; bytes past it stay as they were.
 * With refusal 2, 9, 19 or 20 it is 0, and nothing is written. The text may be of any length; what is cut off behind the word
 * MOTION and the byte after it does not change the answer. A text that is cut off before that may be refused, or pass for a
 * shorter hierarchy where the cut is between two ROOT blocks: that a file was read whole, or up to MOTION, is the caller's to know.
 *     uint8_t sheet[MIRROR_IMPORT_BYTES];
 *     uint32_t answer = mirror_import(text, size, sheet, sizeof sheet);
 *     if (MIRROR_REFUSAL(answer) == MIRROR_ACCEPTED)
 *         fwrite(sheet, 1, MIRROR_LENGTH(answer), file);
 */
uint32_t mirror_import(const uint8_t *text, size_t text_size,
                       uint8_t *out, size_t out_size);

#ifdef __cplusplus
}
#endif

#endif
