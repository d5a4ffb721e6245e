/* The rules of document 01 written straight down in C: reading a sheet, phase one, phase two; and records with marks, the
 * rule where they run out and the section of parents, as document 02 has them. It shares nothing with the library and is what the library's
 * times are held against. */
#include "plain.h"

#include <stdbool.h>
#include <string.h>

enum { JOINTS = 128, LABEL = 16, ENTRY = 3, ALONE = 255, ROOT = 255, MARKS = 8 };
enum { NONE_ONE = 1, NONE_TWO = 2, PAIRED = 3 };
enum { AGAIN = 256 }; /* no refusal: the working may be in another phase */

/* A working. A joint's proposals go to a whole band of its list at once, so the band of its last step tells which of
 * them stand: those to the joints that it still lists in that band. */
struct working {
    int n;
    uint8_t band[JOINTS][JOINTS]; /* each joint's list, 0 for unlisted or struck */
    uint8_t asked[JOINTS];        /* the band that a joint last proposed to, 0 before its first step */
    bool received[JOINTS];        /* has it ever received a proposal? */
    bool in_two;                  /* is it in phase two? */
    bool set_aside[JOINTS];       /* was its list empty when phase one ended? */
    int verdict;                  /* 0 until the working has ended */
    uint32_t proposals, cuts;
};

struct records {
    const uint8_t *bytes;
    size_t size, used;
    struct working *saved; /* by the marks that are set */
    bool set[MARKS];
};

/* ---- the sheet */

static bool label_ok(const uint8_t *label)
{
    int i = 0;
    while (i < LABEL && label[i] >= 33 && label[i] <= 126)
        i++;
    if (i == 0)
        return false;
    for (; i < LABEL; i++)
        if (label[i] != 0)
            return false;
    return true;
}

static bool label_repeats(const uint8_t *labels, int i)
{
    for (int j = 0; j < i; j++)
        if (memcmp(labels + LABEL * j, labels + LABEL * i, LABEL) == 0)
            return true;
    return false;
}

/* An entry whose candidate does not list its joint counts as unlisted. */
static void strike_unreturned(struct working *w, const uint8_t *e, const uint8_t *end)
{
    for (; e < end; e += ENTRY)
        if (w->band[e[1]][e[0]] == 0)
            w->band[e[0]][e[1]] = 0;
}

/* The parents' section with its count, or nothing: does it say nothing of parents, or name a root or a lower joint for each
 * of n joints? */
static bool parents_ok(const uint8_t *third, size_t size, int n)
{
    if (size == 0)
        return true;
    if (third[0] != n)
        return false;
    for (int i = 0; i < n; i++)
        if (third[1 + i] != ROOT && third[1 + i] >= i)
            return false;
    return true;
}

/* Reads a sheet into a fresh working. Returns 0 or a refusal. */
static int read_sheet(struct working *w, const uint8_t *sheet, size_t size)
{
    if (size == 0)
        return 1;
    if (sheet[0] > JOINTS)
        return 2;

    int n = sheet[0];
    size_t at = 1;
    if (size - at < (size_t)LABEL * n)
        return 1;
    for (int i = 0; i < n; i++)
        if (!label_ok(sheet + at + LABEL * i) || label_repeats(sheet + at, i))
            return 3;
    at += (size_t)LABEL * n;

    if (size - at < 2)
        return 1;
    size_t m = sheet[at] + 256u * sheet[at + 1];
    at += 2;
    if (size - at < ENTRY * m)
        return 1;

    const uint8_t *end = sheet + at + ENTRY * m; /* of the entries; then the sheet's, or the count of parents */
    size_t rest = size - at - ENTRY * m;
    if (rest > 0 && rest - 1 < end[0])
        return 1;
    if (rest > 0 && rest - 1 > end[0])
        return 8;

    memset(w, 0, sizeof *w);
    w->n = n;
    int before_a = -1, before_b = -1;
    for (const uint8_t *e = sheet + at; e < end; e += ENTRY) {
        int a = e[0], b = e[1], band = e[2];
        if (a >= n || b >= n || a == b)
            return 4;
        if (band == 0 || band > 127)
            return 5;
        if (a < before_a || (a == before_a && b <= before_b))
            return 6;
        w->band[a][b] = band;
        before_a = a;
        before_b = b;
    }
    if (!parents_ok(end, rest, n))
        return 18;
    strike_unreturned(w, sheet + at, end);
    return 0;
}

/* ---- lists */

static void strike(struct working *w, int a, int b)
{
    w->band[a][b] = 0;
    w->band[b][a] = 0;
}

static void strike_band(struct working *w, int a, int band)
{
    for (int b = 0; b < w->n; b++)
        if (w->band[a][b] == band)
            strike(w, a, b);
}

static int list_length(const struct working *w, int a)
{
    int length = 0;
    for (int b = 0; b < w->n; b++)
        if (w->band[a][b] != 0)
            length++;
    return length;
}

/* the lowest joint of the best band on a list that is not empty */
static int first_on(const struct working *w, int a)
{
    int first = 0;
    int best = 128;
    for (int b = 0; b < w->n; b++)
        if (w->band[a][b] != 0 && w->band[a][b] < best) {
            best = w->band[a][b];
            first = b;
        }
    return first;
}

static int worst_band(const struct working *w, int a)
{
    int worst = 0;
    for (int b = 0; b < w->n; b++)
        if (w->band[a][b] > worst)
            worst = w->band[a][b];
    return worst;
}

/* ---- phase one */

/* A joint waits if its list is not empty and none of its proposals stands. */
static bool waits(const struct working *w, int p)
{
    bool empty = true;
    for (int q = 0; q < w->n; q++)
        if (w->band[p][q] != 0) {
            if (w->band[p][q] == w->asked[p])
                return false;
            empty = false;
        }
    return !empty;
}

static int lowest_waiting(const struct working *w)
{
    int p = 0;
    while (p < w->n && !waits(w, p))
        p++;
    return p;
}

static int standing_at(const struct working *w, int q)
{
    int count = 0;
    for (int p = 0; p < w->n; p++)
        if (w->band[q][p] != 0 && w->band[p][q] == w->asked[p])
            count++;
    return count;
}

static void propose(struct working *w, int p, int q)
{
    int band = w->band[q][p];
    w->proposals++;
    w->received[q] = true;
    for (int r = 0; r < w->n; r++)
        if (w->band[q][r] > band)
            strike(w, q, r);
    if (standing_at(w, q) >= 2)
        strike_band(w, q, band);
}

/* p proposes to all of its best band. A proposal at q strikes pairs of q alone, so the rest of the band is still there
 * when its turn comes. */
static void step(struct working *w, int p)
{
    int best = w->band[p][first_on(w, p)];
    w->asked[p] = best;
    for (int q = 0; q < w->n; q++)
        if (w->band[p][q] == best)
            propose(w, p, q);
}

/* The next record. Returns 0 for a step and gives its joint, AGAIN for a mark that it set or a return that it made, or a
 * refusal. */
static int next_record(struct working *w, struct records *c, int *joint)
{
    int kind = c->bytes[c->used], x = c->bytes[c->used + 1];
    if (kind > 2)
        return 14;
    if (kind != 0 && (x >= MARKS || (kind == 2 && !c->set[x])))
        return 15;
    c->used += 2;
    if (kind == 0) {
        *joint = x;
        return 0;
    }
    if (kind == 1) {
        c->saved[x] = *w;
        c->set[x] = true;
    } else
        *w = c->saved[x];
    return AGAIN;
}

/* Steps until nobody waits. Returns 0 then, else what the next record gave, or 11. */
static int phase_one(struct working *w, struct records *c)
{
    for (;;) {
        int p = lowest_waiting(w);
        if (p == w->n)
            return 0;
        if (c->used < c->size) {
            int met = next_record(w, c, &p);
            if (met != 0)
                return met;
            if (p >= w->n || !waits(w, p))
                return 11;
        }
        step(w, p);
    }
}

static bool received_and_emptied(const struct working *w)
{
    for (int a = 0; a < w->n; a++)
        if (w->received[a] && list_length(w, a) == 0)
            return true;
    return false;
}

/* ---- phase two */

/* the joint with the longest list, and among equals the highest; n where no list is longer than one */
static int longest_list(const struct working *w)
{
    int best = w->n, most = 2;
    for (int x = 0; x < w->n; x++) {
        int length = list_length(w, x);
        if (length >= most) {
            best = x;
            most = length;
        }
    }
    return best;
}

/* Strikes v's worst band from v's list and runs phase one afresh. Does it leave no list empty but those set aside? */
static bool trial(struct working *t, const struct working *w, int v)
{
    struct records none = {.size = 0};
    *t = *w;
    memset(t->asked, 0, sizeof t->asked);
    strike_band(t, v, worst_band(t, v));
    phase_one(t, &none);
    for (int a = 0; a < t->n; a++)
        if (!w->set_aside[a] && list_length(t, a) == 0)
            return false;
    return true;
}

static bool cut(struct working *w, int x)
{
    struct working t;
    w->cuts++;
    if (!trial(&t, w, first_on(w, x)) && !trial(&t, w, x))
        return false;
    memcpy(w->band, t.band, sizeof w->band);
    return true;
}

/* Cuts until no list is longer than one, or a cut fails. Returns 0 then, else what the next record gave, or 12. */
static int phase_two(struct working *w, struct records *c)
{
    for (;;) {
        int x = longest_list(w);
        if (x == w->n) {
            w->verdict = PAIRED;
            return 0;
        }
        if (c->used < c->size) {
            int met = next_record(w, c, &x);
            if (met != 0)
                return met;
            if (x >= w->n || list_length(w, x) < 2)
                return 12;
        }
        if (!cut(w, x)) {
            w->verdict = NONE_TWO;
            return 0;
        }
    }
}

/* ---- whole workings */

static void end_one(struct working *w)
{
    if (received_and_emptied(w))
        w->verdict = NONE_ONE;
    w->in_two = true;
    for (int a = 0; a < w->n; a++)
        w->set_aside[a] = list_length(w, a) == 0;
}

/* One phase, or a record after the end. Returns 0, AGAIN or a refusal. */
static int go_on(struct working *w, struct records *c)
{
    int x, met;
    if (w->verdict != 0) {
        met = next_record(w, c, &x);
        return met == 0 ? 13 : met;
    }
    if (w->in_two)
        return phase_two(w, c);
    met = phase_one(w, c);
    if (met == 0)
        end_one(w);
    return met;
}

/* Returns 0 or a refusal. */
static int whole_working(struct working *w, const uint8_t *choices, size_t choices_size)
{
    struct working saved[MARKS];
    struct records c = {.bytes = choices, .size = choices_size, .saved = saved};
    if (choices_size % 2 != 0)
        return 14;
    while (w->verdict == 0 || c.used < c.size) {
        int met = go_on(w, &c);
        if (met != 0 && met != AGAIN)
            return met;
    }
    return 0;
}

/* ---- the calls */

uint32_t plain_settle(const uint8_t *sheet, size_t sheet_size, const uint8_t *choices, size_t choices_size,
                      uint8_t *out, size_t out_size)
{
    struct working w;
    int refusal = read_sheet(&w, sheet, sheet_size);
    if (refusal == 0 && out_size < (size_t)w.n)
        refusal = 9;
    if (refusal == 0)
        refusal = whole_working(&w, choices, choices_size);
    if (refusal != 0)
        return refusal;
    if (w.verdict != PAIRED)
        return 256u * w.verdict;

    uint32_t paired = 0;
    for (int a = 0; a < w.n; a++) {
        out[a] = ALONE;
        for (int b = 0; b < w.n; b++)
            if (w.band[a][b] != 0) {
                out[a] = b;
                paired++;
                break;
            }
    }
    return 256u * PAIRED + 65536u * (paired / 2);
}

uint64_t plain_counts(const uint8_t *sheet, size_t sheet_size, const uint8_t *choices, size_t choices_size)
{
    struct working w;
    int refusal = read_sheet(&w, sheet, sheet_size);
    if (refusal != 0)
        return refusal;
    refusal = whole_working(&w, choices, choices_size);
    return refusal + 65536u * (uint64_t)w.proposals + ((uint64_t)w.cuts << 32);
}
