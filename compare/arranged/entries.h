/* The entries of the archive, and a lying arranger in their place. */
#ifndef ENTRIES_H
#define ENTRIES_H

#include "drawing.h"

/* More than any map takes. */
enum { ROOM = 1 << 16 };

/* A map, or the number of a refusal and its place. */
struct answer {
    uint64_t number, place, length;
    uint8_t text[ROOM];
};

/* What the lying arranger leaves as it is saved; with 0 it does not lie. With DIGIT it always makes of a drawing another. */
enum { DIGIT = 16 };
extern unsigned left;

void arrange(uint8_t *bytes, size_t n);
void overlay(const uint8_t *bytes, size_t n, struct answer *answer);
void overlay_arranged(const uint8_t *bytes, size_t n, struct answer *answer);

int is_same(const struct answer *a, const struct answer *b);

void stop(const char *what);

#endif
