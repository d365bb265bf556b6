/* Drawings, each saved in many ways: arranged [LIE] <DRAWINGS, as drawings.rs writes them. However it is saved, a drawing must become one text, of the
   same drawing, and have one map, or one refusal with its place, when it is arranged; and to arrange it twice is to arrange it once. Beside it
   the plain entry is asked the same, and counted by what was saved in another way. Exit status 1 if an arranged answer differs, or if plain
   ones differ so seldom that the drawings show little.

   LIE, to see that it is found: everything, order, direction, signs or layers is left as it is saved, or a digit changed. */
#include "entries.h"
#include <stdio.h>
#include <string.h>

enum { MAX_FAMILIES = 64, SHOWN = 5, CAUSES = 5, TIMES = 10 };

/* In what a way of saving differs: in everything, or in one thing alone. Layers have one other way. */
static const struct cause {
    const char *name;
    unsigned ways;
    int times;
} causes[CAUSES] = {
    {"everything", EVERYTHING, TIMES}, {"order", ORDER, TIMES}, {"direction", DIRECTION, TIMES}, {"signs", SIGNS, TIMES}, {"layers", LAYERS, 1},
};

/* What differed, of one drawing or counted of many: longs alone. */
struct seen {
    long texts, drawings, answers, twice, plain, places_alone, only_together, by_cause[CAUSES];
};

struct family {
    char name[64];
    long drawings, ways;
    struct seen seen;
};

static struct family families[MAX_FAMILIES], all = {.name = "all"};

/* ---- one drawing */

/* As it was given. */
static uint8_t first_bytes[MAX_BYTES], first_text[MAX_BYTES + 1];
static struct answer first_answer, first_plain;

static void try_arranged(const uint8_t *bytes, size_t n, struct seen *seen)
{
    static uint8_t text[MAX_BYTES], again[MAX_BYTES];
    static struct answer answer;
    memcpy(text, bytes, n);
    arrange(text, n);
    memcpy(again, text, n);
    arrange(again, n);
    overlay_arranged(bytes, n, &answer);
    seen->texts |= memcmp(text, first_text, n) != 0;
    seen->twice |= memcmp(again, text, n) != 0;
    seen->answers |= !is_same(&answer, &first_answer);
}

static void try_plain(const uint8_t *bytes, size_t n, int cause, struct seen *seen)
{
    static struct answer plain;
    overlay(bytes, n, &plain);
    if (is_same(&plain, &first_plain))
        return;
    int is_place_alone = plain.number && plain.number == first_plain.number;
    seen->places_alone = is_place_alone && (seen->places_alone || !seen->plain);
    seen->plain = seen->by_cause[cause] = 1;
}

/* As it is given; what it becomes is the same drawing, and its map the one that one call gives. */
static void begin(const struct drawing *given, const uint8_t *bytes, size_t n, struct seen *seen)
{
    static struct drawing arranged;
    memcpy(first_bytes, bytes, n);
    memcpy(first_text, bytes, n);
    arrange(first_text, n);
    first_text[n] = 0;
    seen->drawings = !read_drawing((const char *)first_text, &arranged) || fingerprint(&arranged) != fingerprint(given);
    overlay(first_text, n, &first_answer);
    overlay(bytes, n, &first_plain);
    try_arranged(bytes, n, seen);
}

/* How many ways there were; what is saved as it was given is not asked again. */
static long try_drawing(const struct drawing *given, uint64_t *random, struct seen *seen)
{
    static struct drawing d;
    static uint8_t bytes[MAX_BYTES];
    long ways = 1;
    begin(given, bytes, write_drawing(given, bytes), seen);
    for (int cause = 0; cause < CAUSES; cause++)
        for (int i = 0; i < causes[cause].times; i++) {
            copy_drawing(&d, given);
            save_another_way(&d, causes[cause].ways, random);
            size_t n = write_drawing(&d, bytes);
            if (memcmp(bytes, first_bytes, n) == 0)
                continue;
            try_arranged(bytes, n, seen);
            try_plain(bytes, n, cause, seen);
            ways++;
        }
    for (int cause = 1; cause < CAUSES; cause++)
        seen->only_together |= seen->by_cause[cause];
    seen->only_together = seen->plain && !seen->only_together;
    return ways;
}

/* ---- all */

static struct family *family_named(const char *name)
{
    for (int i = 0; i < MAX_FAMILIES; i++) {
        if (!families[i].drawings)
            snprintf(families[i].name, sizeof families[i].name, "%.63s", name);
        if (strcmp(families[i].name, name) == 0)
            return &families[i];
    }
    stop("too many families");
    return NULL;
}

static void add(struct family *f, long ways, const struct seen *seen)
{
    const long *from = (const long *)seen;
    long *to = (long *)&f->seen;
    f->drawings++;
    f->ways += ways;
    for (size_t i = 0; i < sizeof *seen / sizeof *from; i++)
        to[i] += from[i];
}

static void print(const struct family *f)
{
    const struct seen *s = &f->seen;
    printf("| %s | %ld | %ld | %ld | %ld | %ld | %ld | %ld |", f->name, f->drawings, f->ways, s->texts, s->drawings, s->answers, s->twice,
        s->plain);
    for (int cause = 1; cause < CAUSES; cause++)
        printf(" %ld |", s->by_cause[cause]);
    printf(" %ld | %ld |\n", s->only_together, s->places_alone);
}

static int is_one(const struct seen *seen)
{
    return !seen->texts && !seen->drawings && !seen->answers && !seen->twice;
}

static void read_all(void)
{
    static char text[MAX_BYTES + 1];
    static struct drawing given;
    uint64_t random = 1;
    uint32_t n;
    int shown = 0;
    while (fread(&n, sizeof n, 1, stdin) == 1) {
        struct seen seen = {0};
        if (n > MAX_BYTES || fread(text, 1, n, stdin) != n)
            stop("the drawings are cut short");
        text[n] = 0;
        char *sheet = strchr(text, '\n');
        if (!sheet || !read_drawing(sheet + 1, &given))
            stop("a drawing is no sheet");
        *sheet = 0;
        long ways = try_drawing(&given, &random, &seen);
        if (!is_one(&seen) && shown++ < SHOWN)
            printf("arranged: differs, drawing %ld, %s\n", all.drawings, text);
        add(family_named(text), ways, &seen);
        add(&all, ways, &seen);
    }
}

static unsigned lie_named(const char *name)
{
    if (strcmp(name, "digit") == 0)
        return DIGIT;
    for (int cause = 0; cause < CAUSES; cause++)
        if (strcmp(name, causes[cause].name) == 0)
            return causes[cause].ways;
    stop("usage: arranged [everything|order|direction|signs|layers|digit] <DRAWINGS");
    return 0;
}

int main(int argc, char **argv)
{
    if (argc > 1)
        left = lie_named(argv[1]);
    read_all();
    printf("| drawings, each saved in many ways | drawings | ways | arranged: not one text | another drawing | not one answer | twice is not once "
           "| plain: not one answer | by order alone | by direction alone | by signs of zeros alone | by layers alone | only by several "
           "| of these in a refusal's place alone |\n|---|---|---|---|---|---|---|---|---|---|---|---|---|---|\n");
    for (int i = 0; i < MAX_FAMILIES && families[i].drawings; i++)
        print(&families[i]);
    print(&all);
    /* Of 20,000 drawings 3,000, in more than a place. */
    int shows_much = all.drawings > 0 && (all.seen.plain - all.seen.places_alone) * 20 >= all.drawings * 3;
    if (!shows_much)
        printf("arranged: too few drawings have more than one plain answer\n");
    return !is_one(&all.seen) || !shows_much;
}
