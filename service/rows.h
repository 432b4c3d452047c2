/* Files of settings: rows of words, with blanks between them and comments from # on. */
#ifndef ROWS_H
#define ROWS_H

#include <stdbool.h>
#include <stddef.h>
#include <stdio.h>

enum { ROW = 4096, MOST_WORDS = 6 };

/* A row: its words, as many as there is room for, how many it has, and its number in the file. */
struct row {
    char *words[MOST_WORDS];
    size_t count;
    unsigned number;
    bool is_whole; /* not too long, and without a zero byte */
    char text[ROW];
};

/* Reads the next row that has a word. False at the end of the file, or where it can't be read. */
bool next_row(FILE *from, struct row *row);

#endif
