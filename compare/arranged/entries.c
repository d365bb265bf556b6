#include "entries.h"
#include <bezorika.h>
#include <stdio.h>
#include <stdlib.h>
#include <string.h>

unsigned left;

void stop(const char *what)
{
    printf("arranged: %s\n", what);
    exit(1);
}

/* What was arranged, now and then as if so much of it had been left as it was saved. */
static void disarrange(uint8_t *bytes, size_t n)
{
    static struct drawing d;
    static char text[MAX_BYTES + 1];
    static uint64_t random = 1;
    if (left != DIGIT && random_bits(&random) & 1)
        return;
    memcpy(text, bytes, n);
    text[n] = 0;
    if (!read_drawing(text, &d))
        stop("what was arranged is no sheet");
    save_another_way(&d, left, &random);
    if (left == DIGIT)
        d.layers[0].edges[0].words[3][15] = '0';
    write_drawing(&d, bytes);
}

void arrange(uint8_t *bytes, size_t n)
{
    uint64_t place;
    if (left == EVERYTHING)
        return;
    if (bezorika_arrange(bytes, n, &place))
        stop("a sheet is refused");
    if (left)
        disarrange(bytes, n);
}

void overlay(const uint8_t *bytes, size_t n, struct answer *answer)
{
    answer->number = bezorika_overlay(bytes, n, answer->text, ROOM, &answer->length, &answer->place);
}

void overlay_arranged(const uint8_t *bytes, size_t n, struct answer *answer)
{
    static uint8_t kept[MAX_BYTES];
    memcpy(kept, bytes, n);
    if (!left) {
        answer->number = bezorika_overlay_arranged(bytes, n, answer->text, ROOM, &answer->length, &answer->place);
        if (memcmp(kept, bytes, n))
            stop("lent bytes have changed");
        return;
    }
    arrange(kept, n);
    overlay(kept, n, answer);
}

int is_same(const struct answer *a, const struct answer *b)
{
    if (a->number || b->number)
        return a->number == b->number && a->place == b->place;
    return a->length == b->length && memcmp(a->text, b->text, a->length) == 0;
}
