/* The stages and the sheet entry for another process: a request on standard input, its answer on standard output, numbers as this machine holds them.

   sweep:   1, edges, operation, mode, places; ends, labels
            -> refusals of loading and of the sweep, place; counts; points, marks of the places in use; taken
   connect: 2, places, listed, corners, contours, holes; points, marks, list
            -> refusal, place; counts; marks, corners, contours, holes
   overlay: 3, bytes, room; bytes
            -> refusal, place, length; text */
#include <bezorika.h>
#include <stdio.h>
#include <stdlib.h>
#include <string.h>

enum { SIZE = 4096 };

static double ends[SIZE][4], points[SIZE][2], corners[SIZE][2];
static uint32_t labels[SIZE][2], marks[SIZE][12], list[SIZE], contours[SIZE][6], holes[SIZE], counts[4];

static void get(void *into, size_t bytes)
{
    if (bytes && fread(into, bytes, 1, stdin) != 1)
        exit(0);
}

static void put(const void *from, size_t bytes)
{
    if (bytes && fwrite(from, bytes, 1, stdout) != 1)
        exit(1);
}

/* Counts that a call leaves as lent tell nothing. */
static void clear(void)
{
    memset(counts, 0, sizeof counts);
}

static void sweep(void)
{
    uint32_t head[4], used = 0;
    uint64_t told[3] = {0, 0, 0};
    get(head, sizeof head);
    get(ends, head[0] * sizeof ends[0]);
    get(labels, head[0] * sizeof labels[0]);
    clear();
    told[0] = bezorika_load(ends, head[0], labels, head[0], points, head[3], marks, head[3], &used, &told[2]);
    told[1] = bezorika_subdivide(points, head[3], marks, head[3], used, head[1], head[2], list, head[3], counts, &told[2]);
    put(told, sizeof told);
    put(counts, sizeof counts);
    put(points, counts[2] * sizeof points[0]);
    put(marks, counts[2] * sizeof marks[0]);
    put(list, counts[0] * sizeof list[0]);
}

static void connect(void)
{
    uint32_t head[5];
    uint64_t told[2] = {0, 0};
    get(head, sizeof head);
    get(points, head[0] * sizeof points[0]);
    get(marks, head[0] * sizeof marks[0]);
    get(list, head[1] * sizeof list[0]);
    clear();
    told[0] = bezorika_connect(points, head[0], marks, head[0], list, head[1], corners, head[2], contours, head[3], holes,
        head[4], counts, &told[1]);
    put(told, sizeof told);
    put(counts, sizeof counts);
    put(marks, head[0] * sizeof marks[0]);
    put(corners, counts[1] * sizeof corners[0]);
    put(contours, counts[0] * sizeof contours[0]);
    put(holes, counts[2] * sizeof holes[0]);
}

/* In buffers of its own; what lies round them is watched by compare/memory. */
static void overlay(void)
{
    uint32_t head[2];
    uint64_t told[3] = {0, 0, 0};
    get(head, sizeof head);
    uint8_t *bytes = malloc(head[0] + 1), *out = malloc(head[1] + 1);
    if (!bytes || !out)
        exit(1);
    get(bytes, head[0]);
    told[0] = bezorika_overlay(bytes, head[0], out, head[1], &told[2], &told[1]);
    put(told, sizeof told);
    put(out, told[2]);
    free(bytes);
    free(out);
}

int main(void)
{
    static char in[1 << 16], out[1 << 20];
    setvbuf(stdin, in, _IOFBF, sizeof in);
    setvbuf(stdout, out, _IOFBF, sizeof out);
    for (;;) {
        uint32_t kind;
        get(&kind, sizeof kind);
        if (kind == 1)
            sweep();
        else if (kind == 2)
            connect();
        else
            overlay();
        fflush(stdout);
    }
}
