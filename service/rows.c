/* Files of settings. */
#include "rows.h"

#include <string.h>

/* Reads a line. If it is too long or has a zero byte, which a crash of the machine may leave, the row is not whole: its
 * rest, read as a line of its own, might grant rights. */
static bool read_text(FILE *from, struct row *row) {
    int byte;
    size_t len = 0;
    while ((byte = getc(from)) != EOF && byte != '\n' && byte != 0 && len < ROW - 1)
        row->text[len++] = (char)byte;
    row->text[len] = 0;
    row->is_whole = byte == EOF || byte == '\n';
    row->number++;
    return byte != EOF || len != 0;
}

bool next_row(FILE *from, struct row *row) {
    do {
        char *rest = NULL;
        if (!read_text(from, row))
            return false;
        row->count = 0;
        row->text[strcspn(row->text, "#")] = 0;
        for (char *word = strtok_r(row->text, " \t\r", &rest); word != NULL; word = strtok_r(NULL, " \t\r", &rest))
            if (row->count++ < MOST_WORDS)
                row->words[row->count - 1] = word;
    } while (row->count == 0 && row->is_whole);
    return true;
}
