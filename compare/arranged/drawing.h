/* A sheet in lines, and the ways in which one drawing can be saved. Nothing here reads a number: a line is its ring and four words. */
#ifndef DRAWING_H
#define DRAWING_H

#include <stddef.h>
#include <stdint.h>

enum { MAX_EDGES = 256, MAX_BYTES = 1 << 15 };

struct edge {
    char ring[11], words[4][17];
};

struct layer {
    int count;
    struct edge edges[MAX_EDGES];
};

struct drawing {
    char operation[16];
    struct layer layers[2];
};

/* In what a drawing may be saved in another way; they add up. */
enum { ORDER = 1, DIRECTION = 2, SIGNS = 4, LAYERS = 8, EVERYTHING = 15 };

/* 0 if the text is no sheet, as far as it is looked at. */
int read_drawing(const char *text, struct drawing *d);

/* How many bytes it takes. */
size_t write_drawing(const struct drawing *d, uint8_t *bytes);

void copy_drawing(struct drawing *to, const struct drawing *from);

/* As compare/inputs/random.rs. */
uint64_t random_bits(uint64_t *random);

/* Lines are permuted within their layers, edges turned, zeros given a sign, each at random; layers change places where the operation does not
   ask which is which: always if they alone may, else one time in two. */
void save_another_way(struct drawing *d, unsigned ways, uint64_t *random);

/* The same for all ways of saving one drawing, and hardly for another drawing. */
uint64_t fingerprint(const struct drawing *d);

#endif
