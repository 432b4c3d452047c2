/* The file of rights: a line for each client that may come, with its name, its user and UIC group, and what else it
 * may. */
#include "names.h"
#include "rows.h"

#include <errno.h>
#include <stdio.h>
#include <stdlib.h>
#include <string.h>

enum { WORDS = 5, NEEDED = 3, FIRST_ROOM = 16, TEXT = ROW + 128 };

/* KEY=N, where N is `most` at most. */
static bool keyed_number(const char *word, const char *key, unsigned long most, uint32_t *number) {
    size_t len = strlen(key);
    char *end;
    errno = 0;
    if (strncmp(word, key, len) != 0 || word[len] < '0' || word[len] > '9')
        return false;
    unsigned long read = strtoul(word + len, &end, 10);
    *number = (uint32_t)read;
    return *end == 0 && errno == 0 && read <= most;
}

/* NAME uid=N group=N [syslck] [admin] */
static bool read_named(const struct row *row, struct named *named) {
    if (!row->is_whole || row->count < NEEDED || row->count > WORDS || strlen(row->words[0]) >= VLM_TLS_NAME
        || !keyed_number(row->words[1], "uid=", UINT32_MAX, &named->rights.uid)
        || !keyed_number(row->words[2], "group=", VLM_MAX_GROUP, &named->rights.group))
        return false;
    snprintf(named->name, sizeof named->name, "%s", row->words[0]);
    for (size_t at = NEEDED; at < row->count; at++) {
        bool *right = strcmp(row->words[at], "syslck") == 0  ? &named->rights.has_syslck
                      : strcmp(row->words[at], "admin") == 0 ? &named->rights.is_admin
                                                             : NULL;
        if (right == NULL || *right)
            return false;
        *right = true;
    }
    return true;
}

/* The place of a name, or the one at which it would be. */
static size_t place_of(const struct names *names, const char *name) {
    size_t from = 0, to = names->count;
    while (from < to) {
        size_t middle = from + (to - from) / 2;
        if (strcmp(names->rows[middle].name, name) < 0)
            from = middle + 1;
        else
            to = middle;
    }
    return from;
}

const struct rights *rights_of(const struct names *names, const char *name) {
    size_t place = place_of(names, name);
    return place < names->count && strcmp(names->rows[place].name, name) == 0 ? &names->rows[place].rights : NULL;
}

/* Adds a name. Returns what is wrong, or null. */
static const char *add(struct names *names, const struct named *named) {
    if (rights_of(names, named->name) != NULL)
        return "the name is there twice";
    if (names->count == names->room) {
        size_t room = names->room != 0 ? 2 * names->room : FIRST_ROOM;
        struct named *rows = realloc(names->rows, room * sizeof *rows);
        if (rows == NULL)
            return "no memory";
        names->rows = rows;
        names->room = room;
    }
    size_t place = place_of(names, named->name);
    memmove(names->rows + place + 1, names->rows + place, (names->count - place) * sizeof *named);
    names->rows[place] = *named;
    names->count++;
    return NULL;
}

void free_names(struct names *names) {
    free(names->rows);
    *names = (struct names){NULL, 0, 0};
}

bool read_names(const char *file, struct names *names) {
    static const char form[] = "it is not NAME uid=N group=N, and then syslck or admin or both";
    char text[TEXT];
    struct row row = {0};
    struct names read = {NULL, 0, 0};
    FILE *from = fopen(file, "re");
    if (from == NULL) {
        snprintf(text, sizeof text, "%s can't be read: %s", file, strerror(errno));
        write_log(text);
        return false;
    }
    const char *wrong = NULL;
    while (wrong == NULL && next_row(from, &row)) {
        struct named named = {0};
        wrong = read_named(&row, &named) ? add(&read, &named) : form;
    }
    if (wrong == NULL && ferror(from) != 0)
        wrong = strerror(errno);
    fclose(from);
    if (wrong == NULL) {
        free_names(names);
        *names = read;
        return true;
    }
    snprintf(text, sizeof text, "%s line %u: %s", file, row.number, wrong);
    write_log(text);
    free_names(&read);
    return false;
}
