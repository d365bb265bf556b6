/* The union of two layers by GEOS: ring i is corners[starts[i]] to before corners[starts[i + 1]], the first corner not said again. */
#include <geos_c.h>
#include <stddef.h>
#include <stdint.h>
#include <stdlib.h>
#include <string.h>

static GEOSContextHandle_t h;

static GEOSGeometry *polygon(const double (*corners)[2], size_t n)
{
    double (*closed)[2] = malloc((n + 1) * sizeof *closed);
    memcpy(closed, corners, n * sizeof *closed);
    memcpy(closed[n], corners[0], sizeof *closed);
    GEOSCoordSequence *s = GEOSCoordSeq_copyFromBuffer_r(h, (const double *)closed, n + 1, 0, 0);
    free(closed);
    return GEOSGeom_createPolygon_r(h, GEOSGeom_createLinearRing_r(h, s), NULL, 0);
}

static GEOSGeometry *layer(const double (*corners)[2], const uint32_t *starts, const uint8_t *subject, size_t rings, uint8_t which)
{
    GEOSGeometry **all = malloc(rings * sizeof *all);
    unsigned n = 0;
    for (size_t i = 0; i < rings; i++)
        if (subject[i] == which)
            all[n++] = polygon(corners + starts[i], starts[i + 1] - starts[i]);
    GEOSGeometry *made = GEOSGeom_createCollection_r(h, GEOS_MULTIPOLYGON, all, n);
    free(all);
    return made;
}

/* From the numbers to the library's own answer, which is freed: its area, or a negative number where it gives none. */
double geos_union(const double (*corners)[2], const uint32_t *starts, const uint8_t *subject, size_t rings)
{
    if (!h)
        h = GEOS_init_r();
    GEOSGeometry *a = layer(corners, starts, subject, rings, 1), *b = layer(corners, starts, subject, rings, 0);
    GEOSGeometry *made = GEOSUnion_r(h, a, b);
    double area = -1;
    if (made)
        GEOSArea_r(h, made, &area);
    GEOSGeom_destroy_r(h, made);
    GEOSGeom_destroy_r(h, a);
    GEOSGeom_destroy_r(h, b);
    return area;
}
