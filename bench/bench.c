/* Times the library and plain C side by side on sheets of 128 joints. It first checks that their answers agree, and ends
 * with status 1 where they do not. Sheets come from a fixed generator, so every run has the same ones. */
#define _POSIX_C_SOURCE 199309L
#include "mirror.h"
#include "plain.h"

#include <stdbool.h>
#include <stdio.h>
#include <stdlib.h>
#include <string.h>
#include <time.h>

enum { N = 128, SIDE = N / 2, SHEETS = 16, RECORDS = 64, ROUNDS = 31, OUT = N + 32 };
static const double ROUND_SECONDS = 0.01;

/* band[a][b] is the band of b on a's list, 0 where a does not list b */
typedef uint8_t bands[N][N];

struct sheet {
    size_t size;
    uint8_t bytes[MIRROR_SHEET_BYTES];
};

/* ---- the generator */

static uint64_t state;

static uint64_t next_random(void)
{
    state ^= state >> 12;
    state ^= state << 25;
    state ^= state >> 27;
    return state * 2685821657736338717u;
}

static int below(int n)
{
    return (int)((next_random() >> 32) % (uint64_t)n);
}

static void shuffle(int *list, int n)
{
    for (int i = n - 1; i > 0; i--) {
        int j = below(i + 1);
        int t = list[i];
        list[i] = list[j];
        list[j] = t;
    }
}

/* a ranks the joints from lo to hi - 1 in random order; one in `ties` shares the band of the one before it (0: none) */
static void rank_randomly(bands band, int a, int lo, int hi, int ties)
{
    int list[N], n = 0;
    for (int b = lo; b < hi; b++)
        if (b != a)
            list[n++] = b;
    shuffle(list, n);
    uint8_t k = 0;
    for (int i = 0; i < n; i++) {
        if (i == 0 || ties == 0 || below(ties) != 0)
            k++;
        band[a][list[i]] = k;
    }
}

/* ---- the cases */

static void random_strict(bands band)
{
    for (int a = 0; a < N; a++)
        rank_randomly(band, a, 0, N, 0);
}

static void random_ties(bands band)
{
    for (int a = 0; a < N; a++)
        rank_randomly(band, a, 0, N, 16);
}

static void two_sides(bands band)
{
    for (int a = 0; a < N; a++)
        rank_randomly(band, a, a < SIDE ? SIDE : 0, a < SIDE ? N : SIDE, 0);
}

/* a lists a + 1, a + 2, .. around to a - 1 */
static void cyclic(bands band)
{
    for (int a = 0; a < N; a++)
        for (int k = 1; k < N; k++)
            band[a][(a + k) % N] = (uint8_t)k;
}

/* left a lists right a, a + 1, .. around; right b lists left b + 1, b + 2, .. around, so that the best of one is the
 * worst of the other */
static void opposed_sides(bands band)
{
    for (int a = 0; a < SIDE; a++)
        for (int k = 0; k < SIDE; k++) {
            int b = SIDE + (a + k) % SIDE;
            band[a][b] = (uint8_t)(k + 1);
            band[b][a] = (uint8_t)(SIDE - k);
        }
}

/* a ranks the joints up to a distance of its own around the ring, in random order; beyond it they are cut off, so that
 * some that are listed do not list in return */
static void cut_off(bands band)
{
    for (int a = 0; a < N; a++) {
        int reach = 8 + below(40);
        rank_randomly(band, a, 0, N, 0);
        for (int b = 0; b < N; b++) {
            int apart = (a - b + N) % N;
            if (apart > reach && N - apart > reach)
                band[a][b] = 0;
        }
    }
}

struct sheet_case {
    const char *name;
    void (*fill)(bands);
    int sheets;
};

static const struct sheet_case cases[] = {
    {"random, strict", random_strict, SHEETS},
    {"random, with ties", random_ties, SHEETS},
    {"two random sides", two_sides, SHEETS},
    {"cut off at a distance", cut_off, SHEETS},
    {"cyclic lists", cyclic, 1},
    {"two opposed cyclic sides", opposed_sides, 1},
};

static void write_sheet(struct sheet *s, bands band)
{
    uint8_t *at = s->bytes;
    int m = 0;
    *at++ = N;
    for (int a = 0; a < N; a++) {
        memset(at, 0, 16);
        snprintf((char *)at, 16, "joint%d", a);
        at += 16;
    }
    uint8_t *count = at;
    at += 2;
    for (int a = 0; a < N; a++)
        for (int b = 0; b < N; b++)
            if (band[a][b] != 0) {
                *at++ = (uint8_t)a;
                *at++ = (uint8_t)b;
                *at++ = band[a][b];
                m++;
            }
    count[0] = (uint8_t)(m % 256);
    count[1] = (uint8_t)(m / 256);
    s->size = (size_t)(at - s->bytes);
}

/* ---- agreement */

typedef uint32_t settle_call(const uint8_t *, size_t, const uint8_t *, size_t, uint8_t *, size_t);

static bool agree(const struct sheet *s, const uint8_t *choices, size_t choices_size)
{
    uint8_t plain_out[OUT], library_out[OUT];
    memset(plain_out, 0xa5, OUT);
    memset(library_out, 0xa5, OUT);
    return plain_settle(s->bytes, s->size, choices, choices_size, plain_out, OUT)
            == mirror_settle(s->bytes, s->size, choices, choices_size, library_out, OUT)
        && memcmp(plain_out, library_out, OUT) == 0
        && plain_counts(s->bytes, s->size, choices, choices_size)
            == mirror_counts(s->bytes, s->size, choices, choices_size, true);
}

/* A list that grows by random records: a step of a joint, and of four one that sets a mark or returns to one. A record
 * that is refused is left out. */
static bool agree_on_records(const struct sheet *s)
{
    uint8_t records[2 * RECORDS];
    size_t size = 0;
    bool agreed = true;
    for (int i = 0; i < RECORDS; i++) {
        int kind = below(4) == 0 ? 1 + below(2) : 0;
        records[size] = (uint8_t)kind;
        records[size + 1] = (uint8_t)below(kind == 0 ? N : 2);
        agreed = agree(s, records, size + 2) && agreed;
        if (MIRROR_REFUSAL(plain_counts(s->bytes, s->size, records, size + 2)) == MIRROR_ACCEPTED)
            size += 2;
    }
    return agreed;
}

/* ---- times */

/* time of this process alone, so that other work on the machine disturbs little */
static double now(void)
{
    struct timespec t;
    clock_gettime(CLOCK_PROCESS_CPUTIME_ID, &t);
    return (double)t.tv_sec + 1e-9 * (double)t.tv_nsec;
}

/* seconds for a call, over all sheets `times` times */
static double timed(settle_call *settle, const struct sheet *sheets, int n, int times)
{
    uint8_t out[OUT];
    double start = now();
    for (int i = 0; i < times; i++)
        for (int s = 0; s < n; s++)
            settle(sheets[s].bytes, sheets[s].size, NULL, 0, out, OUT);
    return (now() - start) / ((double)times * n);
}

/* how many times make a round */
static int enough(settle_call *settle, const struct sheet *sheets, int n)
{
    double once = timed(settle, sheets, n, 1) * n;
    return 1 + (int)(ROUND_SECONDS / once);
}

static int by_size(const void *a, const void *b)
{
    double x = *(const double *)a, y = *(const double *)b;
    return (x > y) - (x < y);
}

static double median(double *times)
{
    qsort(times, ROUNDS, sizeof *times, by_size);
    return times[ROUNDS / 2];
}

int main(void)
{
    static struct sheet sheets[SHEETS];
    bool agreed = true;
    printf("%-26s %6s %6s %9s %11s %11s %6s\n", "128 joints, times in us", "sheets", "paired", "most cuts", "plain C", "library",
           "ratio");
    for (size_t c = 0; c < sizeof cases / sizeof *cases; c++) {
        int n = cases[c].sheets, paired = 0;
        unsigned cuts = 0;
        state = 88172645463325252u;
        for (int s = 0; s < n; s++) {
            uint8_t out[OUT];
            static bands band;
            memset(band, 0, sizeof band);
            cases[c].fill(band);
            write_sheet(&sheets[s], band);
            if (!agree(&sheets[s], NULL, 0)) {
                printf("%s, sheet %d: the answers differ\n", cases[c].name, s);
                agreed = false;
            }
            unsigned made = (unsigned)(plain_counts(sheets[s].bytes, sheets[s].size, NULL, 0) >> 32);
            if (made > cuts)
                cuts = made;
            if (MIRROR_VERDICT(plain_settle(sheets[s].bytes, sheets[s].size, NULL, 0, out, OUT)) == MIRROR_DONE)
                paired++;
        }
        if (!agree_on_records(&sheets[0])) {
            printf("%s, sheet 0: the answers to records differ\n", cases[c].name);
            agreed = false;
        }
        double plain[ROUNDS], library[ROUNDS];
        int plain_times = enough(plain_settle, sheets, n), library_times = enough(mirror_settle, sheets, n);
        for (int r = 0; r < ROUNDS; r++) {
            plain[r] = timed(plain_settle, sheets, n, plain_times);
            library[r] = timed(mirror_settle, sheets, n, library_times);
        }
        double p = 1e6 * median(plain), l = 1e6 * median(library);
        printf("%-26s %6d %6d %9u %11.1f %11.1f %6.2f\n", cases[c].name, n, paired, cuts, p, l, l / p);
        fflush(stdout);
    }
    return agreed ? 0 : 1;
}
