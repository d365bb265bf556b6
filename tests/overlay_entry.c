/* A sheet from bytes to bytes, and arranged, through the header and the archive: 01's two squares, buffers exactly full and one short, refused
   sheets. */
#include <bezorika.h>
#include <stdio.h>
#include <stdlib.h>
#include <string.h>

static int failed, ran;

static void expect(int ok, const char *what, int line)
{
    ran++;
    if (!ok) {
        failed++;
        printf("overlay_entry.c:%d: %s\n", line, what);
    }
}
#define EXPECT(ok) expect((ok), #ok, __LINE__)

static size_t read_file(const char *path, uint8_t *bytes, size_t room)
{
    FILE *f = fopen(path, "rb");
    if (!f) {
        printf("overlay_entry.c: no file %s\n", path);
        exit(1);
    }
    size_t n = fread(bytes, 1, room, f);
    fclose(f);
    return n;
}

static uint8_t sheet[1 << 16], map[1 << 16];

/* The map in exactly as many bytes as it takes, and refused in one byte less. */
static void whole(const char *sheet_path, const char *map_path)
{
    size_t n = read_file(sheet_path, sheet, sizeof sheet), m = read_file(map_path, map, sizeof map);
    uint64_t length = 77, place = 78;
    uint8_t *bytes = malloc(n), *out = malloc(m), *less = malloc(m - 1);
    memcpy(bytes, sheet, n);
    EXPECT(bezorika_overlay(bytes, n, out, m, &length, &place) == 0);
    EXPECT(length == m && place == 78 && memcmp(out, map, m) == 0);
    length = 77;
    memset(less, 0xa5, m - 1);
    EXPECT(bezorika_overlay(bytes, n, less, m - 1, &length, &place) == 5);
    EXPECT(length == 77 && place == m);
    for (size_t i = 0; i < m - 1; i++)
        EXPECT(less[i] == 0xa5);
    free(bytes);
    free(out);
    free(less);
}

static void refused(const char *text, uint64_t number, uint64_t at)
{
    uint8_t out[4] = {1, 2, 3, 4};
    uint64_t length = 77, place = 78;
    EXPECT(bezorika_overlay((const uint8_t *)text, strlen(text), out, 4, &length, &place) == number);
    EXPECT(place == at && length == 77 && out[0] == 1 && out[3] == 4);
}

/* A count of 65,520 digits, with its line feed, without it and with a wrong byte. */
static void long_count(void)
{
    static char text[1 << 17] = "operation union\nsubject ";
    size_t head = strlen(text);
    memset(text + head, '9', 65520);
    refused(text, 1, 2);
    text[head + 65520] = '\n';
    refused(text, 1, 2);
    text[head + 65520] = 'x';
    refused(text, 10, 2);
}

/* The header's own examples. */
static const char room[] = "operation difference\nsubject 3\n"
                           "0 0000000000000000 0000000000000000 4000000000000000 0000000000000000\n"
                           "0 4000000000000000 0000000000000000 0000000000000000 4000000000000000\n"
                           "0 0000000000000000 4000000000000000 0000000000000000 0000000000000000\n"
                           "clip 0\n";
static const char room_arranged[] = "operation difference\nsubject 3\n"
                                    "0 0000000000000000 0000000000000000 0000000000000000 4000000000000000\n"
                                    "0 0000000000000000 0000000000000000 4000000000000000 0000000000000000\n"
                                    "0 0000000000000000 4000000000000000 4000000000000000 0000000000000000\n"
                                    "clip 0\n";

static void example(void)
{
    uint64_t length = 0, place = 0;
    EXPECT(bezorika_overlay((const uint8_t *)room, sizeof room - 1, map, 4096, &length, &place) == 0);
    EXPECT(length == 181);
    EXPECT(memcmp(map, "contours 1\n", 11) == 0);
    EXPECT(bezorika_overlay((const uint8_t *)room, sizeof room - 1, map, 180, &length, &place) == 5);
    EXPECT(place == 181);
    length = 0;
    EXPECT(bezorika_overlay_arranged((const uint8_t *)room, sizeof room - 1, map, sizeof map, &length, &place) == 0);
    EXPECT(length == 181);
}

/* ---- arranged */

#define EDGE(ring, ax, ay, bx, by) ring " " ax " " ay " " bx " " by "\n"
#define ZERO "0000000000000000"
#define MINUS_ZERO "8000000000000000"
#define ONE "3ff0000000000000"
#define MINUS_ONE "bff0000000000000"
#define TWO "4000000000000000"
#define FOUR "4010000000000000"
#define NO_NUMBER "7ff8000000000001"
#define MINUS_NO_NUMBER "fff8000000000001"

enum { ROUND = 64, CANARY = 0x5a };

/* The bytes with others round them, and whether these are still there. */
static uint8_t *fenced(const uint8_t *bytes, size_t n)
{
    uint8_t *fence = malloc(n + 2 * ROUND);
    memset(fence, CANARY, n + 2 * ROUND);
    memcpy(fence + ROUND, bytes, n);
    return fence + ROUND;
}

static int is_fenced(const uint8_t *bytes, size_t n)
{
    for (size_t i = 0; i < ROUND; i++)
        if (bytes[-1 - (ptrdiff_t)i] != CANARY || bytes[n + i] != CANARY)
            return 0;
    return 1;
}

static void unfence(uint8_t *bytes)
{
    free(bytes - ROUND);
}

/* In place, and so again. */
static void arranges(const char *text, const char *wanted)
{
    size_t n = strlen(text);
    uint8_t *bytes = fenced((const uint8_t *)text, n);
    uint64_t place = 78;
    for (int times = 0; times < 2; times++) {
        EXPECT(bezorika_arrange(bytes, n, &place) == 0);
        EXPECT(place == 78 && n == strlen(wanted) && memcmp(bytes, wanted, n) == 0 && is_fenced(bytes, n));
    }
    unfence(bytes);
}

/* By both entries, as overlay tells it; everything as lent. */
static void not_arranged(const char *text, uint64_t number, uint64_t at)
{
    size_t n = strlen(text);
    uint8_t *bytes = fenced((const uint8_t *)text, n), *out = fenced((const uint8_t *)"none", 4);
    uint64_t length = 77, place = 78;
    refused(text, number, at);
    EXPECT(bezorika_arrange(bytes, n, &place) == number);
    EXPECT(place == at && memcmp(bytes, text, n) == 0 && is_fenced(bytes, n));
    place = 78;
    EXPECT(bezorika_overlay_arranged(bytes, n, out, 4, &length, &place) == number);
    EXPECT(place == at && length == 77 && memcmp(out, "none", 4) == 0 && is_fenced(out, 4));
    EXPECT(memcmp(bytes, text, n) == 0 && is_fenced(bytes, n));
    unfence(bytes);
    unfence(out);
}

/* In one call what the two give one after the other, in so many bytes of room. */
static void in_room(const uint8_t *text, size_t n, size_t room_for)
{
    uint8_t *bytes = fenced(text, n), *arranged = fenced(text, n);
    memset(map, CANARY, sizeof map);
    uint8_t *out = fenced(map, room_for), *wanted = fenced(map, room_for);
    uint64_t length = 77, place = 78, length_wanted = 77, place_wanted = 78;
    EXPECT(bezorika_arrange(arranged, n, &place) == 0);
    uint64_t number = bezorika_overlay(arranged, n, wanted, room_for, &length_wanted, &place_wanted);
    EXPECT(bezorika_overlay_arranged(bytes, n, out, room_for, &length, &place) == number);
    EXPECT(length == length_wanted && place == place_wanted && memcmp(out, wanted, room_for) == 0);
    EXPECT(memcmp(bytes, text, n) == 0 && is_fenced(bytes, n) && is_fenced(out, room_for) && is_fenced(arranged, n));
    unfence(bytes);
    unfence(arranged);
    unfence(out);
    unfence(wanted);
}

/* With no room, one byte short, exactly full and more; the place of refusal 5 is the bytes wanted. */
static void one_call(const uint8_t *text, size_t n)
{
    uint8_t none[1] = {CANARY};
    uint64_t length = 77, place = 78;
    EXPECT(bezorika_overlay_arranged(text, n, none, 0, &length, &place) == 5);
    EXPECT(length == 77 && none[0] == CANARY && place > 10 && place < sizeof map);
    size_t wanted = (size_t)place;
    EXPECT(bezorika_overlay_arranged(text, n, map, wanted - 1, &length, &place) == 5);
    EXPECT(length == 77 && place == wanted);
    EXPECT(bezorika_overlay_arranged(text, n, map, wanted, &length, &place) == 0);
    EXPECT(length == wanted);
    for (size_t room_for = wanted - 1; room_for < wanted + 2; room_for++)
        in_room(text, n, room_for);
    in_room(text, n, 0);
}

/* Two rooms of one layer that share a wall, listed in either order: two maps, one when it is arranged. */
static void shared_wall(void)
{
    static const char first[] = EDGE("0", ZERO, ZERO, TWO, ZERO) EDGE("0", TWO, ZERO, TWO, ONE)
        EDGE("0", TWO, ONE, ZERO, ONE) EDGE("0", ZERO, ONE, ZERO, ZERO);
    static const char second[] = EDGE("1", TWO, ZERO, FOUR, ZERO) EDGE("1", FOUR, ZERO, FOUR, ONE)
        EDGE("1", FOUR, ONE, TWO, ONE) EDGE("1", TWO, ONE, TWO, ZERO);
    static const char strip[] = EDGE("2", ZERO, ZERO, TWO, ZERO) EDGE("2", TWO, ZERO, TWO, TWO)
        EDGE("2", TWO, TWO, ZERO, TWO) EDGE("2", ZERO, TWO, ZERO, ZERO);
    static char ways[2][2048];
    static uint8_t maps[4][4096];
    uint64_t length[4] = {0}, place = 78;
    for (int i = 0; i < 2; i++) {
        sprintf(ways[i], "operation intersection\nsubject 8\n%s%sclip 4\n%s", i ? second : first, i ? first : second, strip);
        size_t n = strlen(ways[i]);
        EXPECT(bezorika_overlay((uint8_t *)ways[i], n, maps[i], 4096, &length[i], &place) == 0);
        EXPECT(bezorika_overlay_arranged((uint8_t *)ways[i], n, maps[2 + i], 4096, &length[2 + i], &place) == 0);
        one_call((uint8_t *)ways[i], n);
        EXPECT(bezorika_arrange((uint8_t *)ways[i], n, &place) == 0);
    }
    EXPECT(length[0] != length[1]);
    EXPECT(length[2] == length[3] && memcmp(maps[2], maps[3], length[2]) == 0);
    EXPECT(strcmp(ways[0], ways[1]) == 0);
}

/* Each of the steps alone: zeros, directions, order, rings, layers; and numbers that do not load. */
static void steps(void)
{
    arranges("operation xor\nsubject 0\nclip 1\n" EDGE("4294967295", MINUS_ZERO, MINUS_ZERO, ONE, MINUS_ZERO),
        "operation xor\nsubject 0\nclip 1\n" EDGE("4294967295", ZERO, ZERO, ONE, ZERO));
    arranges("operation union\nsubject 0\nclip 1\n" EDGE("0", ONE, MINUS_ONE, MINUS_ONE, ONE),
        "operation union\nsubject 0\nclip 1\n" EDGE("0", MINUS_ONE, ONE, ONE, MINUS_ONE));
    arranges("operation difference\nsubject 2\n" EDGE("10", ZERO, ZERO, ONE, ONE) EDGE("9", ZERO, ZERO, ONE, ONE) "clip 0\n",
        "operation difference\nsubject 2\n" EDGE("9", ZERO, ZERO, ONE, ONE) EDGE("10", ZERO, ZERO, ONE, ONE) "clip 0\n");
    arranges("operation intersection\nsubject 1\n" EDGE("1", ZERO, ZERO, ONE, ONE) "clip 1\n" EDGE("0", ZERO, ZERO, ONE, ONE),
        "operation intersection\nsubject 1\n" EDGE("0", ZERO, ZERO, ONE, ONE) "clip 1\n" EDGE("1", ZERO, ZERO, ONE, ONE));
    arranges("operation difference\nsubject 1\n" EDGE("1", ZERO, ZERO, ONE, ONE) "clip 0\n",
        "operation difference\nsubject 1\n" EDGE("1", ZERO, ZERO, ONE, ONE) "clip 0\n");
    arranges("operation xor\nsubject 1\n" EDGE("5", NO_NUMBER, ZERO, MINUS_NO_NUMBER, ONE) "clip 0\n",
        "operation xor\nsubject 0\nclip 1\n" EDGE("5", MINUS_NO_NUMBER, ONE, NO_NUMBER, ZERO));
}

/* The place of an edge that does not load is its place in the arranged sheet: the second line is the first edge there. */
static void edge_refused(void)
{
    static const char text[] = "operation difference\nsubject 2\n" EDGE("0", ONE, ONE, ONE, ONE) EDGE("0", ONE, ZERO, ZERO, ZERO) "clip 0\n";
    uint8_t out[1] = {CANARY};
    uint64_t length = 77, place = 78;
    EXPECT(bezorika_overlay((const uint8_t *)text, sizeof text - 1, out, 1, &length, &place) == 3 && place == 0);
    EXPECT(bezorika_overlay_arranged((const uint8_t *)text, sizeof text - 1, out, 1, &length, &place) == 3 && place == 1);
    EXPECT(length == 77 && out[0] == CANARY);
}

int main(void)
{
    example();
    whole("crates/overlay/stdin", "crates/overlay/stdout");
    whole("examples/floor/floor.sheet", "examples/floor/floor.map");
    refused("", 10, 1);
    refused("operation union\nsubject 257\n", 1, 2);
    refused("operation union\nsubject 257", 1, 2);
    refused("operation union\nsubject 257x", 10, 2);
    refused("operation union\nsubject 0257", 10, 2);
    refused("operation union\nsubject 256", 10, 2);
    refused("operation union\nsubject 0\nclip 257", 1, 3);
    long_count();
    refused("operation union\nsubject 0\nclip 1\n", 10, 4);
    refused("operation union\nsubject 1\n0 7ff0000000000000 0000000000000000 4000000000000000 0000000000000000\nclip 0\n", 2, 0);
    refused("operation union\nsubject 1\n0 4000000000000000 0000000000000000 4000000000000000 0000000000000000\nclip 0\n", 3, 0);
    refused("operation union\nsubject 0\nclip 0\n", 5, 11);
    arranges(room, room_arranged);
    arranges("operation union\nsubject 0\nclip 0\n", "operation union\nsubject 0\nclip 0\n");
    steps();
    shared_wall();
    edge_refused();
    one_call(sheet, read_file("examples/floor/floor.sheet", sheet, sizeof sheet));
    one_call((const uint8_t *)room, sizeof room - 1);
    not_arranged("", 10, 1);
    not_arranged("operation union\nsubject 257\n", 1, 2);
    not_arranged("operation union\nsubject 0\nclip 257", 1, 3);
    not_arranged("operation union\nsubject 0\nclip 1\n", 10, 4);
    not_arranged("operation union\nsubject 0\nclip 0\n\n", 10, 4);
    not_arranged("operation xor\nsubject 1\n" EDGE("1", ONE, ZERO, ZERO, MINUS_ZERO) "clip 1\n" EDGE("1", ONE, "0", ZERO, ZERO), 10, 5);
    printf("overlay_entry: %d passed, %d failed\n", ran - failed, failed);
    return failed != 0;
}
