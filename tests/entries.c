/* The C entries through the header and the archive: P1 to P9 of document 01 in both modes of crossing, one crossing under all its namings, and
   numbers that are not finite in every place. */
#include <bezorika.h>
#include <math.h>
#include <stdio.h>
#include <string.h>

static int failed, ran;

static void expect(int ok, const char *what, int where)
{
    ran++;
    if (!ok) {
        failed++;
        printf("entries.c: %s, case %d\n", what, where);
    }
}

/* What outputs hold before a call, so that a store nobody asked for shows. */
static const uint64_t LENT = 77;
/* Corners are lent as words: a plain number, a quiet and a signalling not-a-number with payloads, and one with every bit set. */
static const uint64_t LENT_CORNERS[4] = {0xc01e000000000000, 0x7ff800000000002a, 0xfff0000000000001, 0xffffffffffffffff};

struct crossing {
    double in[8];
    uint64_t kind;
    int written;
    double corners[4];
};

#define TINY 0x1p-300
#define HUGE 0x1p1023

/* P1 to P8 */
static const struct crossing CROSSINGS[] = {
    {{0, 0, 2, 2, 0, 2, 2, 0}, BEZORIKA_POINT, 2, {1, 1}},
    {{0, 0, 1, 0, 1, 0, 2, 0}, BEZORIKA_POINT, 2, {1, 0}},
    {{0, 0, 2, 0, 1, 0, 3, 0}, BEZORIKA_OVERLAP, 4, {1, 0, 2, 0}},
    {{1, 1, 1, 1, 0, 0, 2, 2}, BEZORIKA_NONE, 0, {0}},
    {{0, 0, 2, 2, 1, 1, 1, 1}, BEZORIKA_OVERLAP, 4, {1, 1, 1, 1}},
    {{0, 0, 2, 2, 0, 1, 2, 3}, BEZORIKA_NONE, 0, {0}},
    {{0, 0, TINY, TINY, 0, TINY, TINY, 0}, BEZORIKA_OVERLAP, 4, {TINY / 2, TINY / 2, TINY / 2, TINY / 2}},
    {{-HUGE, 0, HUGE, 0, 0, -1, 0, 1}, BEZORIKA_LOST, 0, {0}},
};

typedef uint64_t entry(double, double, double, double, double, double, double, double, uint64_t *, double[4], uint64_t *);

static uint64_t cross(entry *mode, const double in[8], uint64_t *kind, double corners[4], uint64_t *place)
{
    *kind = LENT;
    *place = LENT;
    memcpy(corners, LENT_CORNERS, sizeof LENT_CORNERS);
    return mode(in[0], in[1], in[2], in[3], in[4], in[5], in[6], in[7], kind, corners, place);
}

/* The first `written` are these numbers, the others as lent to the bit. */
static int corners_are(const double corners[4], const double wanted[4], int written)
{
    for (int k = 0; k < written; k++)
        if (corners[k] != wanted[k])
            return 0;
    return memcmp(corners + written, LENT_CORNERS + written, (size_t)(4 - written) * sizeof corners[0]) == 0;
}

static double number(uint64_t word)
{
    double x;
    memcpy(&x, &word, sizeof x);
    return x;
}

/* The numbers of case i, answered as case `as`. */
static void crossing(entry *mode, int i, int as)
{
    const struct crossing *c = &CROSSINGS[as];
    uint64_t kind, place;
    double corners[4];
    expect(cross(mode, CROSSINGS[i].in, &kind, corners, &place) == 0, "crossing answered", i + 1);
    expect(kind == c->kind, "kind of crossing", i + 1);
    expect(place == LENT, "place as lent", i + 1);
    expect(corners_are(corners, c->corners, c->written), "corners", i + 1);
}

/* Ordered, P4 changes its segments' places and is P5. */
static void crossings(void)
{
    for (int i = 0; i < 8; i++) {
        crossing(bezorika_crossing, i, i);
        crossing(bezorika_crossing_ordered, i, i == 3 ? 4 : i);
    }
}

/* The eight namings of two segments, each with its zeros of one sign or the other. */
static void named(const double in[8], int naming, double zero, double out[8])
{
    for (int i = 0; i < 8; i++) {
        int segment = (i / 4) ^ (naming & 1), turned = naming >> (1 + segment) & 1;
        double x = in[segment * 4 + ((i % 4) ^ (turned ? 2 : 0))];
        out[i] = x == 0 ? zero : x;
    }
}

static uint64_t bits(double x)
{
    uint64_t b;
    memcpy(&b, &x, sizeof b);
    return b;
}

/* (0,2)-(1,0) with (0,0)-(1,1): plain, y is a last digit apart when the segments change places; ordered, it never is. The bits are the Rust's. */
static void namings(void)
{
    static const double in[8] = {0, 2, 1, 0, 0, 0, 1, 1};
    const uint64_t third = 0x3fe5555555555555;
    double out[8], corners[4];
    uint64_t kind, place;
    for (int naming = 0; naming < 16; naming++) {
        named(in, naming & 7, naming & 8 ? -0.0 : 0.0, out);
        expect(cross(bezorika_crossing_ordered, out, &kind, corners, &place) == 0 && kind == BEZORIKA_POINT, "ordered crossing", naming);
        expect(bits(corners[0]) == third && bits(corners[1]) == third, "the same bits", naming);
    }
    cross(bezorika_crossing, in, &kind, corners, &place);
    expect(bits(corners[0]) == third && bits(corners[1]) == third + 1, "plain, as named", 0);
    named(in, 1, 0.0, out);
    cross(bezorika_crossing, out, &kind, corners, &place);
    expect(bits(corners[0]) == third && bits(corners[1]) == third, "plain, places changed", 1);
}

static uint64_t orient(const double in[6], int64_t *sign, uint64_t *place)
{
    *sign = (int64_t)LENT;
    *place = LENT;
    return bezorika_orientation(in[0], in[1], in[2], in[3], in[4], in[5], sign, place);
}

/* P9, its mirror image, and three points on a line */
static void orientations(void)
{
    static const double in[3][6] = {{1, 1, 2, 2, 0x1p-60, 0}, {1, 1, 2, 2, 0, 0x1p-60}, {1, 1, 2, 2, 3, 3}};
    static const int64_t wanted[3] = {-1, 1, 0};
    int64_t sign;
    uint64_t place;
    for (int i = 0; i < 3; i++) {
        expect(orient(in[i], &sign, &place) == 0, "orientation answered", i);
        expect(sign == wanted[i], "sign", i);
        expect(place == LENT, "place as lent", i);
    }
}

/* Each number not finite alone, and then with all after it: the lowest place is told. */
static void not_finite(double bad)
{
    double in[8], corners[4];
    uint64_t kind, place;
    int64_t sign;
    for (int all = 0; all < 2; all++)
        for (int at = 0; at < 8; at++) {
            for (int i = 0; i < 8; i++)
                in[i] = i == at || (all && i > at) ? bad : 8 - i;
            for (int mode = 0; mode < 2; mode++) {
                entry *called = mode ? bezorika_crossing_ordered : bezorika_crossing;
                expect(cross(called, in, &kind, corners, &place) == BEZORIKA_NOT_FINITE, "crossing refused", at);
                expect(place == (uint64_t)at, "place of the number", at);
                expect(kind == LENT, "kind as lent", at);
                expect(corners_are(corners, NULL, 0), "corners as lent", at);
            }
            if (at < 6) {
                expect(orient(in, &sign, &place) == BEZORIKA_NOT_FINITE, "orientation refused", at);
                expect(place == (uint64_t)at, "place of the number", at);
                expect(sign == (int64_t)LENT, "sign as lent", at);
            }
        }
}

int main(void)
{
    crossings();
    namings();
    orientations();
    not_finite(NAN);
    not_finite(-NAN);
    not_finite(number(0x7ff0000000000001));
    not_finite(number(0xfff800000000002a));
    not_finite(INFINITY);
    not_finite(-INFINITY);
    printf("entries.c: %d of %d checks failed\n", failed, ran);
    return failed != 0;
}
