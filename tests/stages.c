/* Loading, the sweep and connection one by one, through the header and the archive: every refusal of document 01's table that they
   meet, with its number, its place and what it leaves in the arrays; the sizes that 01 names; ties; the touching squares. */
#include <bezorika.h>
#include <math.h>
#include <stdio.h>
#include <stdlib.h>
#include <string.h>

static int failed, ran;

static void expect(int ok, const char *what, int line)
{
    ran++;
    if (!ok) {
        failed++;
        printf("stages.c:%d: %s\n", line, what);
    }
}
#define EXPECT(ok) expect((ok), #ok, __LINE__)

enum { SIZE = 4097, EDGES = 2049 };

struct pool {
    double points[SIZE][2];
    uint32_t marks[SIZE][12];
};

struct edges {
    size_t count;
    double ends[EDGES][4];
    uint32_t labels[EDGES][2];
};

static struct pool pool, lent;
static struct edges edges;
static uint32_t taken[SIZE], taken_lent[SIZE];
static uint32_t used, used_lent, counts[4], counts_lent[4];
static uint32_t mode;
static uint64_t place;

/* What every array and every output is full of when it is lent: a number that no call could have told, so that a place which was
   written shows; and 1, which reads as a flag that is set and as a link. */
static const uint32_t fillers[2] = {4009754624u, 1};
static uint32_t filler;

/* What is lent to the next call. */
static void keep(void)
{
    for (size_t k = 0; k < 4; k++)
        counts[k] = counts_lent[k] = filler;
    place = filler;
    used_lent = used;
    memcpy(&lent, &pool, sizeof pool);
    memcpy(taken_lent, taken, sizeof taken);
}

/* Coordinates are lent as words: quiet and signalling not-a-numbers of either sign with payloads, an infinity, minus zero, and a plain number.
   None of them may change where nothing is written. */
static const uint64_t words[7] = {0x7ff800000000002a, 0x7ff0000000000001, 0xfff0000000000001, 0xffffffffffffffff, 0x7ff0000000000000,
    0x8000000000000000, 0xc01e000000000000};

static void put(double *at, uint64_t word)
{
    memcpy(at, &word, sizeof word);
}

static void fill_points(double (*points)[2])
{
    for (size_t i = 0; i < SIZE; i++) {
        put(&points[i][0], words[i % 7]);
        put(&points[i][1], words[(i / 7 + 3) % 7]);
    }
}

static void fill(void)
{
    fill_points(pool.points);
    for (size_t i = 0; i < SIZE; i++) {
        for (size_t k = 0; k < 12; k++)
            pool.marks[i][k] = filler;
        taken[i] = filler;
    }
    used = filler;
    keep();
}

/* The pool, the taken list and every output but the place. */
static int as_lent(void)
{
    return memcmp(&lent, &pool, sizeof pool) == 0 && memcmp(taken_lent, taken, sizeof taken) == 0
        && memcmp(counts_lent, counts, sizeof counts) == 0 && used == used_lent;
}

/* Places from n on. */
static int rest_as_lent(size_t n)
{
    return memcmp(lent.points[n], pool.points[n], (SIZE - n) * sizeof pool.points[0]) == 0
        && memcmp(lent.marks[n], pool.marks[n], (SIZE - n) * sizeof pool.marks[0]) == 0;
}

static void no_edges(void)
{
    edges.count = 0;
}

static void edge(int subject, uint32_t ring, double ax, double ay, double bx, double by)
{
    double ends[4] = {ax, ay, bx, by};
    memcpy(edges.ends[edges.count], ends, sizeof ends);
    edges.labels[edges.count][0] = ring;
    edges.labels[edges.count][1] = (uint32_t)subject;
    edges.count++;
}

static void box(int subject, uint32_t ring, double x, double y, double w, double h)
{
    edge(subject, ring, x, y, x + w, y);
    edge(subject, ring, x + w, y, x + w, y + h);
    edge(subject, ring, x + w, y + h, x, y + h);
    edge(subject, ring, x, y + h, x, y);
}

static uint64_t load_sized(size_t ends, size_t labels, size_t points, size_t marks)
{
    return bezorika_load(edges.ends, ends, edges.labels, labels, pool.points, points, pool.marks, marks, &used, &place);
}

static uint64_t load(size_t size)
{
    return load_sized(edges.count, edges.count, size, size);
}

static uint64_t sweep_sized(uint32_t operation, size_t points, size_t marks, size_t taken_size, uint32_t loaded)
{
    return bezorika_subdivide(pool.points, points, pool.marks, marks, loaded, operation, mode, taken, taken_size, counts, &place);
}

static uint64_t sweep(uint32_t operation, size_t size)
{
    return sweep_sized(operation, size, size, size, used);
}

/* ---- loading */

static void loading_sizes(void)
{
    no_edges();
    for (int i = 0; i < EDGES; i++)
        edge(1, 0, i, 0, i, 1);
    fill();
    EXPECT(load_sized(2048, 2048, 4096, 4096) == 0 && used == 4096);
    EXPECT(rest_as_lent(4096) && place == filler);
    fill();
    EXPECT(load_sized(2049, 2049, 4096, 4096) == 1 && place == 0);
    EXPECT(as_lent());
    EXPECT(load_sized(2, 3, 8, 8) == 1 && place == 0 && as_lent());
    EXPECT(load_sized(2, 2, 8, 7) == 1 && place == 1 && as_lent());
    EXPECT(load_sized(2, 2, 4097, 4097) == 1 && place == 1 && as_lent());
    EXPECT(load_sized(2, 2, 3, 3) == 1 && place == 1 && as_lent());
    /* the edges are told before the pool */
    EXPECT(load_sized(2049, 2049, 8, 7) == 1 && place == 0 && as_lent());
    EXPECT(load_sized(2, 2, 4, 4) == 0 && used == 4 && rest_as_lent(4));
    fill();
    EXPECT(load_sized(0, 0, 0, 0) == 0 && used == 0 && rest_as_lent(0));
}

static void loading_numbers(void)
{
    const double far = 0x1p100, further = nextafter(0x1p100, INFINITY);
    const double wrong[] = {further, -further, -INFINITY};
    no_edges();
    edge(1, 0, -far, far, far, -far);
    fill();
    EXPECT(load(8) == 0 && used == 2 && pool.points[0][0] == -far);
    for (int k = 0; k < 8; k++)
        for (int j = 0; j < 4; j++) {
            no_edges();
            edge(1, 0, 0, 0, 1, 1);
            edge(1, 0, 0, 0, 1, 1);
            if (k < 5)
                put(&edges.ends[1][j], words[k]);
            else
                edges.ends[1][j] = wrong[k - 5];
            fill();
            EXPECT(load(8) == 2 && place == 1 && as_lent());
        }
    /* each edge in turn: an earlier 3 before a later 2, and of one edge 2 before 3 */
    no_edges();
    edge(1, 0, 0, 0, 1, 1);
    edge(1, 0, 0.0, 2, -0.0, 2);
    edge(1, 0, NAN, 0, 1, 1);
    fill();
    EXPECT(load(8) == 3 && place == 1 && as_lent());
    no_edges();
    edge(1, 0, INFINITY, 0, INFINITY, 0);
    fill();
    EXPECT(load(8) == 2 && place == 0 && as_lent());
}

static void loading_records(void)
{
    const uint32_t first[12] = {0, 1, 5, 1}, second[12] = {1, 1, 5, 0};
    no_edges();
    edge(1, 5, 2, -0.0, 1, 7);
    edge(0, 4000000000u, 1, 1, 1, 2);
    fill();
    EXPECT(load(8) == 0 && used == 4);
    EXPECT(memcmp(pool.marks[0], first, sizeof first) == 0 && memcmp(pool.marks[1], second, sizeof second) == 0);
    EXPECT(pool.points[0][0] == 2 && pool.points[0][1] == 0 && !signbit(pool.points[0][1]));
    EXPECT(pool.points[1][0] == 1 && pool.points[1][1] == 7);
    EXPECT(pool.marks[2][0] == 1 && pool.marks[2][1] == 0 && pool.marks[2][2] == 4000000000u && pool.marks[2][3] == 3);
    EXPECT(pool.marks[3][0] == 0 && pool.marks[3][3] == 2 && rest_as_lent(4));
}

/* ---- the sweep: checks */

static void squares(void)
{
    no_edges();
    box(1, 0, 0, 0, 2, 2);
    box(0, 1, 1, 1, 2, 2);
}

static void loaded_squares(void)
{
    squares();
    fill();
    EXPECT(load(64) == 0 && used == 16);
    keep();
}

static void sweep_sizes(void)
{
    loaded_squares();
    EXPECT(sweep_sized(0, 64, 63, 64, 16) == 1 && place == 1 && as_lent());
    EXPECT(sweep_sized(0, 64, 64, 63, 16) == 1 && place == 1 && as_lent());
    EXPECT(sweep_sized(0, 64, 64, 65, 16) == 1 && place == 1 && as_lent());
    EXPECT(sweep_sized(0, 64, 64, 64, 65) == 1 && place == 1 && as_lent());
    EXPECT(sweep_sized(0, 4097, 4097, 4097, 16) == 1 && place == 1 && as_lent());
}

/* One mark of a record changed: refused by 4 at the lowest record that shows it. */
static void mistaken(size_t record, int mark, uint32_t value, uint64_t at)
{
    loaded_squares();
    pool.marks[record][mark] = value;
    keep();
    EXPECT(sweep(0, 64) == 4 && place == at && as_lent());
}

static void sweep_records(void)
{
    mistaken(9, 3, 16, 8);  /* a partner that is not loaded: not mutual, seen from 8 first */
    mistaken(8, 3, 64, 8);  /* a partner outside the pool */
    mistaken(8, 3, 3, 8);   /* a partner that is another's */
    mistaken(8, 0, 0, 8);   /* both flags alike */
    loaded_squares();
    pool.marks[8][0] = 0;   /* left end not before its partner */
    pool.marks[9][0] = 1;
    keep();
    EXPECT(sweep(0, 64) == 4 && place == 8 && as_lent());
    loaded_squares();
    pool.marks[10][4] = 1;  /* below link to a right record */
    pool.marks[10][5] = 1;
    keep();
    EXPECT(sweep(0, 64) == 4 && place == 10 && as_lent());
    loaded_squares();
    pool.marks[10][4] = 1;  /* below link to a place that is not loaded */
    pool.marks[10][5] = 16;
    keep();
    EXPECT(sweep(0, 64) == 4 && place == 10 && as_lent());
    loaded_squares();
    pool.points[7][1] = NAN; /* 2 over all records before 4, and the lowest */
    pool.points[12][0] = 0x1p101;
    pool.marks[2][3] = 0;
    keep();
    EXPECT(sweep(0, 64) == 2 && place == 7 && as_lent());
    /* a word of each kind that is not finite, in use: refused, and as lent to the bit */
    for (int k = 0; k < 5; k++)
        for (int j = 0; j < 2; j++) {
            loaded_squares();
            put(&pool.points[9][j], words[k]);
            keep();
            EXPECT(sweep(0, 64) == 2 && place == 9 && as_lent());
        }
    loaded_squares();
    pool.points[16][0] = NAN; /* not loaded, so not looked at */
    keep();
    EXPECT(sweep(0, 64) == 0);
}

/* ---- the sweep: runs */

static void sweep_squares(void)
{
    loaded_squares();
    EXPECT(sweep(0, 64) == 0);
    /* two crossings, each of two edges */
    EXPECT(counts[1] == 4 && counts[2] == 24 && counts[3] == 0);
    EXPECT(rest_as_lent(24) && memcmp(taken + counts[0], taken_lent + counts[0], (SIZE - counts[0]) * sizeof taken[0]) == 0);
    int seen[24] = {0}, twice = 0;
    for (uint32_t i = 0; i < counts[0]; i++)
        twice |= seen[taken[i]]++;
    EXPECT(!twice && counts[0] < 24);
    loaded_squares();
    EXPECT(sweep(2, 64) == 0 && counts[0] == 24);
}

static void sweep_full(void)
{
    /* each step moves the cut one digit further until the pool is full */
    no_edges();
    edge(1, 0, 3, 1, 2, 3);
    edge(1, 0, 2, 3, 3, 1);
    edge(0, 1, 3, 2, 1, 3);
    edge(0, 1, 1, 3, 3, 2);
    fill();
    EXPECT(load(64) == 0);
    keep();
    EXPECT(sweep(3, 64) == 6 && place < 64);
    EXPECT(counts[2] == 64 && counts[1] == 28 && counts[0] > 0 && rest_as_lent(64));
    /* a pool with no room for the first division */
    squares();
    fill();
    EXPECT(load(16) == 0);
    EXPECT(sweep(0, 17) == 6 && counts[1] == 0 && counts[2] == 16 && counts[0] > 0);
}

static void sweep_refused_cut(void)
{
    /* three walls meet at (7/3,7/3), and a moved cut meets the right end */
    no_edges();
    edge(1, 0, 2, 2, 2, 0);
    edge(1, 0, 3, 1, 2, 3);
    edge(1, 0, 3, 2, 1, 3);
    edge(1, 0, 3, 3, 0, 0);
    fill();
    EXPECT(load(64) == 0);
    keep();
    EXPECT(sweep(1, 64) == 7 && place < counts[2]);
    EXPECT(counts[0] > 0 && counts[2] == 8 + 2 * counts[1] && rest_as_lent(counts[2]));
}

/* (1,0)-(2,1) lies below (0,2)-(3,0) and is named first, though it begins later: the cut's x is a last digit apart in the two modes. The
   bits are the Rust's, as named and in order. */
static void sweep_last_digit(void)
{
    uint64_t x[2];
    no_edges();
    edge(1, 0, 1, 0, 2, 1);
    edge(0, 0, 0, 2, 3, 0);
    fill();
    EXPECT(load(16) == 0 && sweep(BEZORIKA_UNION, 16) == 0 && counts[1] == 2);
    for (int r = 4; r < 8; r++) {
        memcpy(x, pool.points[r], sizeof x);
        EXPECT(x[0] == (mode == BEZORIKA_PLAIN ? 0x3ffccccccccccccd : 0x3ffccccccccccccc) && x[1] == 0x3fe999999999999a);
    }
}

/* A division gives the old right end its new partner, and the left end too; no other mark of theirs is written, in whatever numbers it says
   what it says: a flag is false by any number but 1, and a link none; a type or transition beyond the last is the last. */
static void sweep_keeps_marks(void)
{
    const uint32_t odd[2][12] = {{7, 1, 5, 0, 0, 77, 9, 9, 7, 0, 2, 3}, {2, 9, 6, 2, 8, 1, 4, 0, 1, 6, 0, 1}};
    /* the first of the pair is divided first: new ends 4 and 5, then 6 and 7 */
    const uint32_t kept[2][12] = {{7, 1, 5, 5, 0, 77, 9, 9, 7, 0, 2, 3}, {2, 9, 6, 7, 8, 1, 4, 0, 1, 6, 0, 1}};
    no_edges();
    edge(1, 5, 0, 0, 2, 2);
    edge(0, 6, 0, 2, 2, 0);
    fill();
    EXPECT(load(16) == 0 && used == 4);
    memcpy(pool.marks[1], odd[0], sizeof odd[0]);
    memcpy(pool.marks[3], odd[1], sizeof odd[1]);
    pool.marks[2][1] = 9; /* the clip, by another number */
    pool.marks[2][10] = 8;
    pool.marks[2][11] = 3;
    keep();
    EXPECT(sweep(BEZORIKA_UNION, 16) == 0 && counts[0] == 8 && counts[1] == 2 && counts[2] == 8);
    EXPECT(memcmp(pool.marks[1], kept[0], sizeof kept[0]) == 0 && memcmp(pool.marks[3], kept[1], sizeof kept[1]) == 0);
    EXPECT(pool.marks[2][0] == 1 && pool.marks[2][1] == 9 && pool.marks[2][2] == 6 && pool.marks[2][3] == 6);
    EXPECT(pool.marks[2][6] == 0 && pool.marks[2][10] == 8 && pool.marks[2][11] == 3);
    EXPECT(rest_as_lent(8) && memcmp(pool.points, lent.points, 4 * sizeof pool.points[0]) == 0);
}

/* ---- ties, and another order of the edges */

static const double FLOOR[][4] = {{0, 0, 4, 3}, {5, 0, 4.5, 3.5}, {0, 4.25, 4.25, 3}, {5, 4.5, 4, 3}};

static void thick_walls(void)
{
    no_edges();
    for (uint32_t i = 0; i < 4; i++)
        box(1, i, FLOOR[i][0], FLOOR[i][1], FLOOR[i][2], FLOOR[i][3]);
    box(0, 9, 1.5, 1.5, 6, 4);
}

static double first_run[SIZE][7];
static uint32_t first_counts[4];

/* What a taken event tells, but for record numbers. */
static void told(double row[7], uint32_t r)
{
    uint32_t partner = pool.marks[r][3];
    double values[7] = {pool.points[r][0], pool.points[r][1], pool.points[partner][0], pool.points[partner][1],
        pool.marks[r][0] * 2 + pool.marks[r][1], pool.marks[r][2] * 8 + pool.marks[r][6] * 4 + pool.marks[r][7],
        pool.marks[r][8] * 2 + pool.marks[r][9]};
    memcpy(row, values, sizeof values);
}

static void swap_edges(size_t i, size_t j)
{
    double ends[4];
    uint32_t labels[2];
    memcpy(ends, edges.ends[i], sizeof ends);
    memcpy(labels, edges.labels[i], sizeof labels);
    memcpy(edges.ends[i], edges.ends[j], sizeof ends);
    memcpy(edges.labels[i], edges.labels[j], sizeof labels);
    memcpy(edges.ends[j], ends, sizeof ends);
    memcpy(edges.labels[j], labels, sizeof labels);
}

static void another_order(void)
{
    double row[7];
    for (uint32_t operation = 0; operation < 4; operation++)
        for (uint32_t order = 0; order < 6; order++) {
            thick_walls();
            for (size_t i = edges.count - 1; order > 0 && i > 0; i--)
                swap_edges(i, (i * (2 * order + 1) + order) % (i + 1));
            fill();
            EXPECT(load(256) == 0);
            EXPECT(sweep(operation, 256) == 0 && counts[3] == 0);
            if (order == 0)
                memcpy(first_counts, counts, sizeof counts);
            EXPECT(memcmp(first_counts, counts, sizeof counts) == 0);
            for (uint32_t i = 0; i < counts[0]; i++) {
                told(row, taken[i]);
                if (order == 0)
                    memcpy(first_run[i], row, sizeof row);
                EXPECT(memcmp(first_run[i], row, sizeof row) == 0);
            }
        }
}

static void tie_told(void)
{
    /* two rooms of one layer that share a wall */
    no_edges();
    box(1, 0, 0, 0, 2, 1);
    box(1, 1, 2, 0, 2, 1);
    box(0, 2, 0, 0, 2, 2);
    fill();
    EXPECT(load(256) == 0);
    EXPECT(sweep(0, 256) == 0 && counts[3] == 1);
    squares();
    fill();
    EXPECT(load(256) == 0);
    EXPECT(sweep(0, 256) == 0 && counts[3] == 0);
}

/* ---- connection */

static double corners[SIZE][2], corners_lent[SIZE][2];
static uint32_t contours[SIZE][6], contours_lent[SIZE][6], holes[SIZE], holes_lent[SIZE];

static void fill_outlines(void)
{
    fill_points(corners);
    for (size_t i = 0; i < SIZE; i++) {
        for (size_t k = 0; k < 6; k++)
            contours[i][k] = filler;
        holes[i] = filler;
    }
    memcpy(corners_lent, corners, sizeof corners);
    memcpy(contours_lent, contours, sizeof contours);
    memcpy(holes_lent, holes, sizeof holes);
    keep();
}

static int outlines_as_lent(size_t from_corner, size_t from_contour, size_t from_hole)
{
    return memcmp(corners[from_corner], corners_lent[from_corner], (SIZE - from_corner) * sizeof corners[0]) == 0
        && memcmp(contours[from_contour], contours_lent[from_contour], (SIZE - from_contour) * sizeof contours[0]) == 0
        && memcmp(holes + from_hole, holes_lent + from_hole, (SIZE - from_hole) * sizeof holes[0]) == 0;
}

static int all_as_lent(void)
{
    return as_lent() && outlines_as_lent(0, 0, 0);
}

static uint64_t connect_sized(size_t size, size_t list, size_t corner_places, size_t contour_places, size_t hole_places)
{
    return bezorika_connect(pool.points, size, pool.marks, size, taken, list, corners, corner_places, contours, contour_places,
        holes, hole_places, counts, &place);
}

static uint64_t connect(size_t size, size_t list)
{
    return connect_sized(size, list, SIZE, SIZE, SIZE);
}

/* The edges swept by an operation in a pool of 256 places, ready to be connected; how many events are listed. */
static uint32_t swept(uint32_t operation)
{
    fill();
    EXPECT(load(256) == 0);
    EXPECT(sweep(operation, 256) == 0);
    uint32_t listed = counts[0];
    fill_outlines();
    return listed;
}

static int has_corners(size_t from, const double (*wanted)[2], size_t n)
{
    return memcmp(corners[from], wanted, n * sizeof wanted[0]) == 0;
}

/* The rule for a pool of n places: a contour number found there is forgotten, and nothing else of its record changes. */
static void forget(size_t n)
{
    for (size_t i = 0; i < n; i++)
        if (lent.marks[i][10] == 1)
            lent.marks[i][10] = lent.marks[i][11] = 0;
}

static void connect_squares(void)
{
    const double zone[5][2] = {{1, 1}, {2, 1}, {2, 2}, {1, 2}, {1, 1}};
    const uint32_t row[6] = {0, 5, 0, 0, 0, 0};
    squares();
    uint32_t listed = swept(0);
    EXPECT(connect(256, listed) == 0);
    EXPECT(counts[0] == 1 && counts[1] == 5 && counts[2] == 0 && counts[3] == 0);
    EXPECT(has_corners(0, zone, 5) && memcmp(contours[0], row, sizeof row) == 0);
    EXPECT(outlines_as_lent(5, 1, 0) && place == filler);
    int numbered = 0;
    for (int i = 0; i < 24; i++)
        numbered += pool.marks[i][10] == 1 && pool.marks[i][11] == 0;
    forget(256);
    EXPECT(numbered == 8 && rest_as_lent(24));
}

/* Contour numbers are all that connection writes in the pool: found ones are forgotten wherever they stand, and every other number stays as
   lent, at places in use too. */
static void connect_keeps_marks(void)
{
    const uint32_t found[12] = {7, 1, 9, 5, 0, 6, 9, 9, 5, 5, 1, 3}, forgotten[12] = {7, 1, 9, 5, 0, 6, 9, 9, 5, 5, 0, 0};
    const uint32_t none[12] = {1, 1, 1, 1, 1, 1, 1, 1, 1, 1, 9, 4};
    const double zone[5][2] = {{1, 1}, {2, 1}, {2, 2}, {1, 2}, {1, 1}};
    squares();
    uint32_t listed = swept(0);
    /* all that is false, none or the last, in other numbers */
    for (int i = 0; i < 24; i++) {
        uint32_t *m = pool.marks[i];
        static const int flags[4] = {0, 1, 8, 9};
        for (int k = 0; k < 4; k++)
            m[flags[k]] = m[flags[k]] == 1 ? 1 : 7;
        if (m[4] != 1)
            m[4] = 9, m[5] = 88;
        m[7] = m[7] == 2 ? 9 : m[7];
        m[10] = 6, m[11] = 1;
    }
    memcpy(pool.marks[40], found, sizeof found);
    memcpy(pool.marks[255], found, sizeof found);
    memcpy(pool.marks[41], none, sizeof none);
    memcpy(pool.marks[256], found, sizeof found); /* beyond the pool that is lent */
    keep();
    EXPECT(connect(256, listed) == 0 && counts[0] == 1 && counts[3] == 0 && has_corners(0, zone, 5));
    int numbered = 0, strange = 0;
    for (int i = 0; i < 24; i++) {
        int is = pool.marks[i][10] == 1;
        numbered += is;
        strange |= memcmp(pool.marks[i], lent.marks[i], 10 * sizeof found[0]) != 0;
        strange |= is ? pool.marks[i][11] != 0 : pool.marks[i][10] != 6 || pool.marks[i][11] != 1;
    }
    EXPECT(numbered == 8 && !strange);
    EXPECT(memcmp(pool.marks[40], forgotten, sizeof found) == 0 && memcmp(pool.marks[255], forgotten, sizeof found) == 0);
    forget(256);
    EXPECT(rest_as_lent(24));
}

static void connect_touching(void)
{
    const double first[5][2] = {{0, 0}, {1, 0}, {1, 1}, {0, 1}, {0, 0}};
    const double second[5][2] = {{1, 1}, {2, 1}, {2, 2}, {1, 2}, {1, 1}};
    no_edges();
    box(1, 0, 0, 0, 1, 1);
    box(0, 1, 1, 1, 1, 1);
    uint32_t listed = swept(2);
    EXPECT(connect(256, listed) == 0);
    EXPECT(counts[0] == 2 && counts[1] == 10 && counts[3] == 0);
    EXPECT(has_corners(0, first, 5) && has_corners(5, second, 5));
}

static void connect_nested(void)
{
    /* four squares, one within the other, xor: a hole, a zone in it, and a hole in that */
    no_edges();
    for (int k = 0; k < 4; k++)
        box(k % 2, (uint32_t)k, -10 + k, -10 + k, 20 - 2 * k, 20 - 2 * k);
    uint32_t listed = swept(3);
    EXPECT(connect(256, listed) == 0 && counts[0] == 4 && counts[2] == 2 && counts[3] == 0);
    EXPECT(contours[0][2] == 0 && contours[0][3] == 0 && contours[0][5] == 1 && holes[contours[0][4]] == 1);
    EXPECT(contours[1][2] == 1 && contours[1][3] == 1 && contours[1][5] == 0);
    EXPECT(contours[2][2] == 0 && contours[2][3] == 1 && contours[2][5] == 1 && holes[contours[2][4]] == 3);
    EXPECT(contours[3][2] == 3 && contours[3][3] == 2 && contours[3][5] == 0);
}

static void connect_open(void)
{
    no_edges();
    edge(1, 0, 0, 0, 1, 1);
    uint32_t listed = swept(2);
    EXPECT(connect(256, listed) == 0 && counts[0] == 1 && counts[1] == 2 && counts[3] == 1);
}

static uint32_t listed_squares(void)
{
    squares();
    return swept(0);
}

static void connect_checks(void)
{
    uint32_t listed = listed_squares();
    EXPECT(connect_sized(256, 4097, SIZE, SIZE, SIZE) == 1 && place == 0 && all_as_lent());
    EXPECT(connect_sized(4097, listed, SIZE, SIZE, SIZE) == 1 && place == 1 && all_as_lent());
    /* 2 at the lowest record, wherever it is listed, and before 4 */
    pool.points[taken[3]][0] = pool.points[taken[5]][0] = NAN;
    pool.marks[taken[1]][3] = 300;
    keep();
    uint32_t lower = taken[3] < taken[5] ? taken[3] : taken[5];
    EXPECT(connect(256, listed) == 2 && place == lower && all_as_lent());
    listed = listed_squares();
    taken[2] = taken[4];
    keep();
    EXPECT(connect(256, listed) == 4 && place == taken[4] && all_as_lent());
    listed = listed_squares();
    taken[2] = 256;
    keep();
    EXPECT(connect(256, listed) == 4 && place == 256 && all_as_lent());
    listed = listed_squares();
    pool.marks[taken[2]][3] = taken[2];
    keep();
    EXPECT(connect(256, listed) == 4 && all_as_lent());
}

/* Two edges loaded and not swept, their records 0 to 3 the ends in the order given, so that no record is in a result; place 4 holds no end.
   The list begins with these records. */
static void two_loaded(uint32_t first, uint32_t second)
{
    no_edges();
    edge(1, 0, 0, 0, 1, 1);
    edge(1, 0, 1, 5, 0, 4);
    fill();
    EXPECT(load(256) == 0);
    taken[0] = first;
    taken[1] = second;
    fill_outlines();
}

static uint64_t connect_with(size_t list, uint32_t record, double x, double y)
{
    pool.points[record][0] = x;
    pool.points[record][1] = y;
    keep();
    return connect(256, list);
}

static void connect_partners(void)
{
    const double above = nextafter(0x1p100, INFINITY);
    /* a listed left end at (0,0), its partner not listed: event order reads the partner's point */
    two_loaded(0, 99);
    EXPECT(connect_with(1, 1, NAN, 1) == 2 && place == 1 && all_as_lent());
    two_loaded(0, 99);
    EXPECT(connect_with(1, 1, 1, above) == 2 && place == 1 && all_as_lent());
    two_loaded(0, 99);
    EXPECT(connect_with(1, 1, 0x1p100, 1) == 0 && counts[0] == 0);
    /* the partner's number lower than the record's */
    two_loaded(1, 99);
    EXPECT(connect_with(1, 0, -INFINITY, 0) == 2 && place == 0 && all_as_lent());
    two_loaded(1, 99);
    pool.points[1][0] = NAN;
    EXPECT(connect_with(1, 0, NAN, 0) == 2 && place == 0 && all_as_lent());
    /* and higher */
    two_loaded(0, 99);
    pool.points[0][0] = NAN;
    EXPECT(connect_with(1, 1, NAN, 0) == 2 && place == 0 && all_as_lent());
    /* the lowest of all, wherever its edge is listed; before 4, which strikes record 0 */
    two_loaded(2, 0);
    pool.points[3][1] = NAN;
    pool.marks[1][3] = 3;
    EXPECT(connect_with(2, 1, NAN, 1) == 2 && place == 1 && all_as_lent());
    two_loaded(0, 2);
    pool.marks[1][3] = 3;
    EXPECT(connect_with(2, 3, NAN, 4) == 2 && place == 3 && all_as_lent());
    /* every kind of word that is not finite */
    for (int k = 0; k < 5; k++) {
        two_loaded(0, 99);
        put(&pool.points[0][1], words[k]);
        EXPECT(connect_with(1, 1, 1, 1) == 2 && place == 0 && all_as_lent());
    }
    /* nobody's partner */
    two_loaded(0, 99);
    pool.points[3][0] = NAN;
    EXPECT(connect_with(1, 4, NAN, NAN) == 0 && counts[0] == 0);
    /* a partner outside the pool, and the partner of a number outside it, are not looked at: 4 */
    two_loaded(0, 99);
    pool.marks[0][3] = 256;
    EXPECT(connect_with(1, 256, NAN, 0) == 4 && place == 0 && all_as_lent());
    two_loaded(256, 99);
    pool.marks[256][3] = 1;
    EXPECT(connect_with(1, 1, NAN, 1) == 4 && place == 256 && all_as_lent());
}

static int is_in_result(uint32_t r)
{
    return pool.marks[r][0] == 1 ? pool.marks[r][7] != 0 : pool.marks[pool.marks[r][3]][7] != 0;
}

static void connect_half_listed(void)
{
    uint32_t listed = listed_squares();
    uint32_t i = 0;
    while (!is_in_result(taken[i]))
        i++;
    uint32_t partner = pool.marks[taken[i]][3];
    taken[i] = taken[listed - 1];
    keep();
    EXPECT(connect_sized(256, listed - 1, 0, 0, 0) == 8 && place == partner && all_as_lent());
    /* on closed layers too */
    no_edges();
    edge(1, 0, 0, 1, 3, 4);
    edge(1, 0, 3, 4, 0, 1);
    edge(0, 1, 1, 3, 2, 2);
    edge(0, 1, 2, 2, 1, 3);
    listed = swept(0);
    EXPECT(connect(256, listed) == 8 && all_as_lent());
}

static void connect_room(void)
{
    uint32_t listed = listed_squares();
    /* eight result events, four result edges */
    EXPECT(connect_sized(256, listed, 7, 0, 0) == 5 && place == 8 && all_as_lent());
    EXPECT(connect_sized(256, listed, 8, 3, 0) == 5 && place == 4 && all_as_lent());
    EXPECT(connect_sized(256, listed, 8, 4, 3) == 5 && place == 4 && all_as_lent());
    EXPECT(connect_sized(256, listed, 8, 4, 4) == 0 && counts[0] == 1);
}

static void connect_loose(void)
{
    /* the edge below a contour's start is OutIn and has no contour: 9, and what was finished before it stays */
    no_edges();
    edge(1, 0, 0, 5, 4, 2);
    edge(1, 0, 4, 2, 0, 5);
    edge(0, 1, 1, 2, 2, 4);
    edge(0, 1, 2, 4, 1, 2);
    uint32_t listed = swept(3);
    EXPECT(connect(256, listed) == 9 && place < 256);
    EXPECT(pool.marks[place][0] == 1 && outlines_as_lent(counts[1], counts[0], counts[2]));
    /* contour numbers are those of the finished contours; what was found is forgotten, and the stopped start has none */
    int stray = 0;
    for (uint32_t i = 0; i < listed; i++)
        stray |= pool.marks[taken[i]][10] == 1 && pool.marks[taken[i]][11] >= counts[0];
    EXPECT(!stray && pool.marks[place][10] == 0);
}

static void run(void)
{
    loading_sizes();
    loading_numbers();
    loading_records();
    /* every number but 0 is the ordered mode */
    static const uint32_t modes[3] = {BEZORIKA_PLAIN, BEZORIKA_ORDERED, 0xffffffff};
    for (int i = 0; i < 3; i++) {
        mode = modes[i];
        sweep_sizes();
        sweep_records();
        sweep_squares();
        sweep_full();
        sweep_refused_cut();
        sweep_last_digit();
        sweep_keeps_marks();
        another_order();
        tie_told();
        connect_squares();
        connect_keeps_marks();
        connect_touching();
        connect_nested();
        connect_open();
    }
    connect_checks();
    connect_partners();
    connect_half_listed();
    connect_room();
    connect_loose();
}

int main(void)
{
    for (int i = 0; i < 2; i++) {
        filler = fillers[i];
        run();
    }
    printf("stages.c: %d checks, %d failed\n", ran, failed);
    return failed != 0;
}
