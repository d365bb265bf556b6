#include "drawing.h"
#include <stdio.h>
#include <string.h>

static const char *const layer_names[2] = {"subject", "clip"};

/* ---- a sheet in lines */

static const char *next_line(const char *line)
{
    const char *end = strchr(line, '\n');
    return end ? end + 1 : NULL;
}

static const char *read_layer(const char *line, const char *name, struct layer *l)
{
    size_t n = strlen(name);
    if (!line || strncmp(line, name, n) || sscanf(line + n, " %d", &l->count) != 1 || l->count < 0 || l->count > MAX_EDGES)
        return NULL;
    line = next_line(line);
    for (int i = 0; line && i < l->count; i++) {
        struct edge *e = &l->edges[i];
        if (sscanf(line, "%10s %16s %16s %16s %16s", e->ring, e->words[0], e->words[1], e->words[2], e->words[3]) != 5)
            return NULL;
        line = next_line(line);
    }
    return line;
}

int read_drawing(const char *text, struct drawing *d)
{
    if (sscanf(text, "operation %15s", d->operation) != 1)
        return 0;
    const char *line = next_line(text);
    for (int i = 0; i < 2; i++)
        line = read_layer(line, layer_names[i], &d->layers[i]);
    return line && !*line;
}

/* A word and the byte after it. */
static uint8_t *put(uint8_t *to, const char *word, char after)
{
    size_t n = strlen(word);
    memcpy(to, word, n);
    to[n] = (uint8_t)after;
    return to + n + 1;
}

size_t write_drawing(const struct drawing *d, uint8_t *bytes)
{
    uint8_t *to = put(put(bytes, "operation", ' '), d->operation, '\n');
    for (int i = 0; i < 2; i++) {
        const struct layer *l = &d->layers[i];
        char count[16];
        sprintf(count, "%d", l->count);
        to = put(put(to, layer_names[i], ' '), count, '\n');
        for (int k = 0; k < l->count; k++) {
            to = put(to, l->edges[k].ring, ' ');
            for (int w = 0; w < 4; w++)
                to = put(to, l->edges[k].words[w], w < 3 ? ' ' : '\n');
        }
    }
    return (size_t)(to - bytes);
}

static void copy_layer(struct layer *to, const struct layer *from)
{
    to->count = from->count;
    memcpy(to->edges, from->edges, (size_t)from->count * sizeof from->edges[0]);
}

void copy_drawing(struct drawing *to, const struct drawing *from)
{
    memcpy(to->operation, from->operation, sizeof to->operation);
    for (int i = 0; i < 2; i++)
        copy_layer(&to->layers[i], &from->layers[i]);
}

/* ---- another way */

uint64_t random_bits(uint64_t *random)
{
    uint64_t z = *random += 0x9e3779b97f4a7c15;
    z = (z ^ (z >> 30)) * 0xbf58476d1ce4e5b9;
    z = (z ^ (z >> 27)) * 0x94d049bb133111eb;
    return z ^ (z >> 31);
}

static void swap(void *a, void *b, size_t n)
{
    char kept[sizeof(struct edge)];
    memcpy(kept, a, n);
    memcpy(a, b, n);
    memcpy(b, kept, n);
}

static void permute(struct layer *l, uint64_t *random)
{
    for (int i = l->count - 1; i > 0; i--)
        swap(&l->edges[i], &l->edges[random_bits(random) % (uint64_t)(i + 1)], sizeof l->edges[0]);
}

static void turn(struct edge *e, uint64_t *random)
{
    if (random_bits(random) & 1)
        swap(e->words[0], e->words[2], 2 * sizeof e->words[0]);
}

static int is_zero(const char *word)
{
    return strchr("08", word[0]) && strcmp(word + 1, "000000000000000") == 0;
}

static void sign(struct edge *e, uint64_t *random)
{
    for (int w = 0; w < 4; w++)
        if (is_zero(e->words[w]))
            e->words[w][0] = random_bits(random) & 1 ? '8' : '0';
}

static int is_symmetric(const struct drawing *d)
{
    return strcmp(d->operation, "difference") != 0;
}

static void exchange(struct drawing *d)
{
    static struct layer kept;
    copy_layer(&kept, &d->layers[0]);
    copy_layer(&d->layers[0], &d->layers[1]);
    copy_layer(&d->layers[1], &kept);
}

void save_another_way(struct drawing *d, unsigned ways, uint64_t *random)
{
    for (int i = 0; i < 2; i++) {
        struct layer *l = &d->layers[i];
        if (ways & ORDER)
            permute(l, random);
        for (int k = 0; k < l->count; k++) {
            if (ways & DIRECTION)
                turn(&l->edges[k], random);
            if (ways & SIGNS)
                sign(&l->edges[k], random);
        }
    }
    if (ways & LAYERS && is_symmetric(d) && (ways == LAYERS || random_bits(random) & 1))
        exchange(d);
}

/* ---- the same drawing */

static uint64_t mixed(uint64_t sum, const char *word)
{
    for (; *word; word++) {
        uint64_t next = sum ^ (uint64_t)(unsigned char)*word;
        sum = random_bits(&next);
    }
    return sum;
}

static uint64_t number(uint64_t sum, const char *word)
{
    return mixed(sum, is_zero(word) ? "zero" : word);
}

static uint64_t corner(const char *x, const char *y)
{
    return number(number(1, x), y);
}

/* Sums, where the order is not to matter. */
uint64_t fingerprint(const struct drawing *d)
{
    uint64_t sums[2] = {0, 0};
    for (int i = 0; i < 2; i++) {
        const struct layer *l = &d->layers[i];
        for (int k = 0; k < l->count; k++) {
            const struct edge *e = &l->edges[k];
            sums[i] += mixed(corner(e->words[0], e->words[1]) + corner(e->words[2], e->words[3]), e->ring);
        }
        sums[i] = mixed(sums[i], is_symmetric(d) ? "layer" : layer_names[i]);
    }
    return mixed(sums[0] + sums[1], d->operation);
}
