/* Merges two reports under a sheet: merge SHEET REPORT REPORT. It prints the merged report, and returns the status. */
#include <stdio.h>
#include <stdlib.h>
#include <xbrlmerge.h>

/* Appends the bytes of a file to `bytes`, and returns the new length. */
static size_t append(uint8_t **bytes, size_t length, const char *name) {
    const size_t step = 65536;
    size_t got = step;
    FILE *file = fopen(name, "rb");
    if (file == NULL) exit(3);
    while (got > 0) {
        *bytes = realloc(*bytes, length + step);
        if (*bytes == NULL) exit(3);
        got = fread(*bytes + length, 1, step, file);
        length += got;
    }
    if (ferror(file)) exit(3);
    fclose(file);
    return length;
}

/* Merges two reports under a sheet, and prints the text. */
int main(int count, char **names) {
    uint8_t *sheet = NULL, *reports = NULL, *out = NULL;
    size_t sheet_length, ends[2], room, needed = 65536, refused;
    xbrlmerge_refusal rows[2];
    uint32_t status;
    if (count != 4) return 3;
    sheet_length = append(&sheet, 0, names[1]);
    ends[0] = append(&reports, 0, names[2]);
    ends[1] = append(&reports, ends[0], names[3]);
    do {
        free(out);
        room = needed;
        out = malloc(room);
        if (out == NULL) return 3;
        status = xbrlmerge_merge(sheet, sheet_length, reports, ends[1], ends, 2, XBRLMERGE_ALLOW_ALL, out, room, &needed,
                                 rows, 2, &refused);
    } while (status == XBRLMERGE_TOO_SHORT);
    if (status <= XBRLMERGE_REFUSED) fwrite(out, 1, needed, stdout);
    free(sheet), free(reports), free(out);
    return (int)status;
}
