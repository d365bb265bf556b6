/* Sheets through the C entries in buffers that end, and then begin, at a page which may not be touched: a byte read or written
   outside stops the program. guarded <SHEETS, each after its length in 4 bytes. */
#define _DEFAULT_SOURCE
#include <bezorika.h>
#include <signal.h>
#include <stdio.h>
#include <stdlib.h>
#include <string.h>
#include <sys/mman.h>
#include <sys/wait.h>
#include <unistd.h>

/* A multiple of every page's size; no sheet that is given is longer than MOST. */
enum { PAGE = 1 << 16, MOST = 1 << 22, FILL = 0xa5, OUTSIDE = 3 };
enum { SHEET, OUT, LENGTH, PLACE, BUFFERS };

static uint8_t *first[BUFFERS], given[MOST];

static void stop(const char *what)
{
    printf("guarded: %s\n", what);
    exit(1);
}

static void guard(int buffer)
{
    uint8_t *pages = mmap(NULL, MOST + 2 * PAGE, PROT_NONE, MAP_PRIVATE | MAP_ANONYMOUS, -1, 0);
    if (pages == MAP_FAILED || mprotect(pages + PAGE, MOST, PROT_READ | PROT_WRITE))
        stop("no memory");
    first[buffer] = pages + PAGE;
}

static void outside(int number)
{
    (void)number;
    _exit(OUTSIDE);
}

/* Whether the byte stops a process that reads it. */
static int is_guarded(const volatile uint8_t *byte)
{
    int status = 0;
    pid_t child = fork();
    if (child == 0)
        _exit(*byte);
    return child > 0 && waitpid(child, &status, 0) == child && WIFEXITED(status) && WEXITSTATUS(status) == OUTSIDE;
}

static uint8_t *lend(int buffer, size_t bytes, int at_end)
{
    return at_end ? first[buffer] + MOST - bytes : first[buffer];
}

static int is_filled(const uint8_t *bytes, size_t n)
{
    for (size_t i = 0; i < n; i++)
        if (bytes[i] != FILL)
            return 0;
    return 1;
}

typedef uint64_t entry(const uint8_t *, size_t, uint8_t *, size_t, uint64_t *, uint64_t *);

/* Refused, with its place, or 0, with the length of the text; and what must stay as lent has stayed. */
static uint64_t overlay(entry *call, size_t n, size_t room, int at_end, uint64_t *told)
{
    uint8_t *sheet = lend(SHEET, n, at_end), *out = lend(OUT, room, at_end);
    uint64_t *length = (uint64_t *)lend(LENGTH, sizeof *length, at_end), *place = (uint64_t *)lend(PLACE, sizeof *place, at_end);
    memcpy(sheet, given, n);
    memset(out, FILL, room);
    *length = *place = 77;
    uint64_t number = call(sheet, n, out, room, length, place);
    if (memcmp(sheet, given, n) || (number ? *length : *place) != 77 || (number && !is_filled(out, room)))
        stop("a buffer is not as lent");
    *told = number ? *place : *length;
    return number;
}

/* In no bytes at all, in just as many as the text takes, and in one less; 1 if the sheet has a map. */
static int watch(entry *call, size_t n, int at_end)
{
    uint64_t wanted, told;
    if (overlay(call, n, 0, at_end, &wanted) != 5)
        return 0;
    if (overlay(call, n, wanted, at_end, &told) != 0 || told != wanted)
        stop("not exactly full");
    if (overlay(call, n, wanted - 1, at_end, &told) != 5 || told != wanted)
        stop("one short is not told");
    return 1;
}

/* In place; what is no sheet is refused as overlay refuses it, and stays as lent. 1 if it is a sheet. */
static int watch_arrange(size_t n, int at_end)
{
    uint64_t at, number = overlay(bezorika_overlay, n, 0, at_end, &at);
    int is_sheet = number != 1 && number != 10;
    uint8_t *sheet = lend(SHEET, n, at_end);
    uint64_t *place = (uint64_t *)lend(PLACE, sizeof *place, at_end);
    memcpy(sheet, given, n);
    *place = 77;
    if (bezorika_arrange(sheet, n, place) != (is_sheet ? 0 : number) || *place != (is_sheet ? 77 : at))
        stop("arrange refuses as overlay does not");
    if (!is_sheet && memcmp(sheet, given, n))
        stop("what is not arranged is not as lent");
    return is_sheet;
}

int main(void)
{
    uint32_t n;
    int sheets = 0, maps = 0, arranged = 0;
    signal(SIGSEGV, outside);
    for (int buffer = 0; buffer < BUFFERS; buffer++) {
        guard(buffer);
        if (is_guarded(first[buffer]) || !is_guarded(first[buffer] - 1) || !is_guarded(first[buffer] + MOST))
            stop("the pages round a buffer can be touched");
    }
    while (fread(&n, sizeof n, 1, stdin) == 1) {
        if (n > MOST || fread(given, 1, n, stdin) != n)
            stop("no sheet");
        for (int at_end = 0; at_end < 2; at_end++) {
            maps += watch(bezorika_overlay, n, at_end);
            watch(bezorika_overlay_arranged, n, at_end);
            arranged += watch_arrange(n, at_end);
        }
        sheets++;
    }
    printf("guarded: %d sheets, %d with a map, %d arranged, no byte outside touched\n", sheets, maps / 2, arranged / 2);
    return maps == 0 || arranged == 0;
}
