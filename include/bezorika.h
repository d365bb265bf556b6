/* Bezorika's C entries: three calls on numbers (libentries.a, `tools/build
   entries`), the stages one by one, and a sheet from bytes to bytes; the
   archives of these stand above each.

   Every entry returns 0 when it answered, or the number of a refusal, whose
   place is then in *place. The calls on numbers refuse by one alone:

       2   a number that was given is not finite (not-a-number or an infinity);
           *place says which, counted from 0 in the order of the arguments,
           the lowest if there are several

   An output that is not named below for a case is left as it was lent, to the
   bit: an array of double is to these calls an array of 64-bit words, so that
   a not-a-number in it keeps its sign, payload and signalling bit. The
   pointers must be valid and must not overlap. No entry keeps a pointer,
   allocates, or touches anything but its outputs. Each length is the
   number of elements that its pointer leads to. Nothing checks this header
   against the proved source: tests/entries.c, tests/stages.c and
   tests/overlay_entry.c include it, link the archives and run every case. */
#ifndef BEZORIKA_H
#define BEZORIKA_H

#include <stddef.h>
#include <stdint.h>

#ifdef __cplusplus
extern "C" {
#endif

enum { BEZORIKA_ANSWERED = 0, BEZORIKA_NOT_FINITE = 2 };

/* The sign of the exact (ax-cx)(by-cy) - (ay-cy)(bx-cx), for any six finite
   numbers: on which side of the line from a to b the point c lies.

   Returns 0: *sign is 1 (c is to the left), 0 (on the line) or -1 (right).
   Returns 2: *place is 0 to 5. */
uint64_t bezorika_orientation(double ax, double ay, double bx, double by,
                              double cx, double cy,
                              int64_t *sign, uint64_t *place);

/* What the kinds of a crossing are. */
enum { BEZORIKA_NONE = 0, BEZORIKA_POINT = 1, BEZORIKA_OVERLAP = 2, BEZORIKA_LOST = 3 };

/* The crossing of the segments (ax,ay)-(bx,by) and (cx,cy)-(dx,dy), computed
   in binary64 as geo-booleanop 0.3.2 does: the plain mode. Its last digits may
   depend on which segment is named first and which way each runs.

   Returns 0: *kind is
       0   none: the segments have nothing in common
       1   point: corners[0], corners[1] are its x and y
       2   overlap: corners[0..3] are x, y of one end and x, y of the other
       3   lost: the numbers are too large, and a coordinate came out as
           not-a-number
   Returns 2: *place is 0 to 7. */
uint64_t bezorika_crossing(double ax, double ay, double bx, double by,
                           double cx, double cy, double dx, double dy,
                           uint64_t *kind, double corners[4], uint64_t *place);

/* The same in the ordered mode: minus zero becomes zero, each segment's ends
   are put in order of x then y, then the two segments in order of first end,
   then of second end, and only then it is computed. The answer is the same to
   the last bit, lost included, whichever segment is named first, whichever way
   each runs and whichever sign a zero has (proved: `keeps-answers`).

   Returns 2: *place is 0 to 7, as the numbers were named here. */
uint64_t bezorika_crossing_ordered(double ax, double ay, double bx, double by,
                                   double cx, double cy, double dx, double dy,
                                   uint64_t *kind, double corners[4], uint64_t *place);

/* The modes of crossing. Every number but 0 means the ordered one. */
enum { BEZORIKA_PLAIN = 0, BEZORIKA_ORDERED = 1 };

/* ---- The stages one by one (libstages.a, `tools/build stages`)

   A pool is two arrays of one length, at most 4096: points[i] is the point of
   record i, marks[i] its twelve numbers: left, subject (1 or 0), ring, partner,
   has a below link, the below link, edge type, result transition, in-out,
   other-in-out, has a contour number, the contour number. Each returns 0 or the
   number of a refusal, whose place is then in *place; docs/PROMISES.md says
   what each leaves in the arrays. */

/* Edge i, from (ends[i][0], ends[i][1]) to (ends[i][2], ends[i][3]), with its
   ring labels[i][0] and 1 in labels[i][1] for the subject, becomes records 2i
   and 2i+1; *used is how many records there are.

   Refuses by 1 (place 0 the edges, 1 the pool), 2 and 3 (place: the edge), all
   arrays and *used as lent. */
uint64_t bezorika_load(const double (*ends)[4], size_t ends_length,
                       const uint32_t (*labels)[2], size_t labels_length,
                       double (*points)[2], size_t points_length,
                       uint32_t (*marks)[12], size_t marks_length,
                       uint32_t *used, uint64_t *place);

/* The operations. Every number above 3 means xor. */
enum { BEZORIKA_INTERSECTION = 0, BEZORIKA_DIFFERENCE = 1, BEZORIKA_UNION = 2, BEZORIKA_XOR = 3 };

/* The sweep of the first `loaded` records, with crossings, in segment order
   too, in a mode; bezorika_overlay takes the ordered one. taken has as many
   places as the pool, and begins with the records taken, in their order. counts: events taken,
   divisions made, records in use, and 1 if at some taking another waiting event
   tied with the one taken.

   Refuses by 1, 2 and 4 with all arrays and counts as lent; by 6 and 7 with all
   done before it, as counts tells. What is not refused by 6 comes out the same in every
   larger pool, so a small one may be tried first. */
uint64_t bezorika_subdivide(double (*points)[2], size_t points_length,
                            uint32_t (*marks)[12], size_t marks_length,
                            uint32_t loaded, uint32_t operation, uint32_t mode,
                            uint32_t *taken, size_t taken_length,
                            uint32_t counts[4], uint64_t *place);

/* The contours of a list of records. contours[c]: its first corner, the end of
   its corners, its parent + 1 or 0, its depth, its first hole, how many holes.
   counts: contours, corners, holes, and contours whose first and last corners
   differ.

   Of the marks only the contour's two change, and only where a number is
   forgotten or given; every number found in the pool is forgotten first.

   Refuses by 1, 2 (of the listed records and their partners), 4, 8 and 5 with
   all arrays and counts as lent; by 9 with the contours finished before it, as
   counts tells. */
uint64_t bezorika_connect(const double (*points)[2], size_t points_length,
                          uint32_t (*marks)[12], size_t marks_length,
                          const uint32_t *list, size_t list_length,
                          double (*corners)[2], size_t corners_length,
                          uint32_t (*contours)[6], size_t contours_length,
                          uint32_t *holes, size_t holes_length,
                          uint32_t counts[4], uint64_t *place);

/* ---- A sheet from bytes to bytes (liboverlay_entry.a, `tools/build overlay_entry`)

   Reads a sheet from bytes and prints the map's text into out, no byte past
   out_length, whatever the bytes are. Crossings are in the ordered mode.

   Returns 0: the text is the first *length bytes of out.
   Returns the number of a refusal: its place is in *place and out is as lent.
   10 and 1: *place is the line; 5, last of all: *place is how many bytes the
   text takes, so a second call with as many succeeds. 60,942 bytes are enough
   for every sheet (proved: `never-5`).

   One room and no strip, the corners by the bits of their numbers:

       static const char sheet[] =
           "operation difference\n"
           "subject 3\n"
           "0 0000000000000000 0000000000000000 4000000000000000 0000000000000000\n"
           "0 4000000000000000 0000000000000000 0000000000000000 4000000000000000\n"
           "0 0000000000000000 4000000000000000 0000000000000000 0000000000000000\n"
           "clip 0\n";
       uint8_t map[4096];
       uint64_t length, place;
       uint64_t number = bezorika_overlay((const uint8_t *)sheet, sizeof sheet - 1,
                                          map, sizeof map, &length, &place);

   Then number is 0, length 181, and map begins with "contours 1\n". With
   180 bytes of room number is 5 and place 181. A program: examples/handset.c. */
uint64_t bezorika_overlay(const uint8_t *bytes, size_t bytes_length,
                          uint8_t *out, size_t out_length,
                          uint64_t *length, uint64_t *place);

/* Puts a sheet in its own order, in place: minus zeros become zeros, each edge
   runs from its earlier end (by x, then y), the edges of each layer are listed
   by first end, second end and ring, and of an intersection, a union or an xor
   the lesser layer is the subject. Numbers go by their bits, in IEEE 754's
   totalOrder, so what can be read can be arranged, not-a-numbers too. Every way
   of saving one drawing gives the same bytes (proved: `one_text`): sheets may
   differ in the order of lines within a layer, the direction of edges, the sign
   of zeros and, but for a difference, in which layer is which. To arrange
   again changes nothing (`twice`).

   Returns 0: the bytes are the arranged sheet, as many as they were.
   Returns 10 or 1: they are no sheet, and as lent; *place is the line.

   The room above, arranged:

       uint8_t drawing[sizeof sheet];
       memcpy(drawing, sheet, sizeof sheet);
       number = bezorika_arrange(drawing, sizeof sheet - 1, &place);

   Then number is 0, and the lines of the three edges are

       0 0000000000000000 0000000000000000 0000000000000000 4000000000000000
       0 0000000000000000 0000000000000000 4000000000000000 0000000000000000
       0 0000000000000000 4000000000000000 4000000000000000 0000000000000000 */
uint64_t bezorika_arrange(uint8_t *bytes, size_t bytes_length, uint64_t *place);

/* What bezorika_overlay answers of the arranged bytes, in one call; the bytes
   themselves stay as lent. So one drawing has one map, however it was saved.
   Bytes that are no sheet are refused as bezorika_overlay refuses them. Where a
   place is an edge (2 and 3) or a record (6 to 9), it is the arranged sheet's.

       number = bezorika_overlay_arranged((const uint8_t *)sheet, sizeof sheet - 1,
                                          map, sizeof map, &length, &place);

   Here number is 0 and length 181 again. */
uint64_t bezorika_overlay_arranged(const uint8_t *bytes, size_t bytes_length,
                                   uint8_t *out, size_t out_length,
                                   uint64_t *length, uint64_t *place);

#ifdef __cplusplus
}
#endif

#endif
