/* What a handset does: a sheet in, a map out, through the C entry that arranges the sheet first, so that the map is the same however it was saved.

       tools/build overlay_entry
       gcc -Iinclude examples/handset.c target/staticlib/liboverlay_entry.a -o target/handset
       target/handset < examples/floor/floor.sheet

   The buffer is grown once to what the entry asks for. */
#include <bezorika.h>
#include <stdio.h>
#include <stdlib.h>

int main(void)
{
    static uint8_t sheet[1 << 16];
    size_t sheet_length = fread(sheet, 1, sizeof sheet, stdin);
    uint64_t length = 0, place = 0;

    /* With no room at all the answer is refusal 5, and its place the bytes wanted; any other refusal is the sheet's own, and
       the place of an edge is that in the arranged sheet. */
    uint8_t none[1];
    uint64_t number = bezorika_overlay_arranged(sheet, sheet_length, none, 0, &length, &place);
    if (number != 5) {
        fprintf(stderr, "refused %llu at %llu\n", (unsigned long long)number, (unsigned long long)place);
        return 1;
    }
    size_t wanted = (size_t)place;
    uint8_t *map = malloc(wanted);
    if (!map)
        return 1;
    if (bezorika_overlay_arranged(sheet, sheet_length, map, wanted, &length, &place) != 0)
        return 1;
    fwrite(map, 1, (size_t)length, stdout);
    free(map);
    return 0;
}
