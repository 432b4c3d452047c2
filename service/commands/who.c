/* vlm who, metrics and kill: what the service tells of its locks and of itself. */
#include "link.h"

#include <getopt.h>
#include <stdio.h>
#include <stdlib.h>
#include <string.h>

enum { COLUMNS = 13, WANTED = 5, STATE = 6, COMMAND = 10, SESSION = 8, BLOCKER = 12 };

const char who_usage[] = "vlm who [--connect ADDRESS] [-w] [--json] [NAME]";
const char metrics_usage[] = "vlm metrics [--connect ADDRESS]";
const char kill_usage[] = "vlm kill [--connect ADDRESS] SESSION";
static const char *const keys[COLUMNS] = {"name", "serial",  "parent", "domain", "held",    "wanted", "state",
                                          "lock", "session", "pid",    "uid",    "command", "seconds"};

/* Finds the words of a line. */
static bool split(char *line, char **words) {
    size_t count = 0;
    char *rest = NULL;
    for (char *word = strtok_r(line, " ", &rest); word != NULL; word = strtok_r(NULL, " ", &rest), count++)
        if (count <= COLUMNS)
            words[count] = word;
    return count == COLUMNS + 1;
}

static void print_json_text(const char *text) {
    putchar('"');
    for (; *text != 0; text++)
        printf(*text == '"' || *text == '\\' ? "\\%c" : "%c", *text);
    putchar('"');
}

/* A number is a number, and `-` and `?` are no value. */
static void print_json_value(const char *key, const char *word) {
    static const char *const texts[] = {"name", "domain", "session", "command", "blocked_by"};
    bool is_text = strspn(word, "0123456789") != strlen(word);
    for (size_t at = 0; at < sizeof texts / sizeof *texts; at++)
        is_text |= strcmp(key, texts[at]) == 0;
    printf("\"%s\": ", key);
    if (strcmp(key, "name") != 0 && (strcmp(word, "-") == 0 || strcmp(word, "?") == 0))
        printf("null");
    else if (is_text)
        print_json_text(word);
    else
        printf("%s", word);
}

static void print_json(char *const *words, bool is_first) {
    printf("%s\n  {", is_first ? "" : ",");
    for (size_t at = 0; at < COLUMNS; at++) {
        print_json_value(keys[at], words[at]);
        printf(", ");
    }
    print_json_value("blocked_by", words[COLUMNS]);
    printf("}");
}

static void print_row(char *const *words) {
    printf("%-20s %-4s %-4s %-10s %-16s %8s %6s %-16s %7s %s\n", words[0], words[4], words[5], words[6], words[8],
           words[9], words[10], words[11], words[12], words[13]);
}

struct shown {
    bool is_json, is_waiting_only;
};

/* Prints the lines of the service up to a blank one. Another line is what the service has against it. */
static int print_rows(struct link *link, const struct shown *shown) {
    char line[LINE_ROOM], *words[COLUMNS + 1];
    bool is_first = true;
    int got;
    if (shown->is_json)
        printf("[");
    else
        printf("%-20s %-4s %-4s %-10s %-16s %8s %6s %-16s %7s %s\n", "NAME", "HELD", "WANT", "STATE", "SESSION", "PID",
               "UID", "COMMAND", "SECONDS", "BLOCKED-BY");
    while ((got = link_line(link, line, FOREVER)) == 1 && line[0] != 0) {
        char whole[LINE_ROOM];
        memcpy(whole, line, sizeof whole);
        if (!split(line, words)) {
            fprintf(stderr, "vlm who: %s\n", whole);
            return NO_SERVICE;
        }
        if (shown->is_waiting_only && strcmp(words[STATE], "granted") == 0)
            continue;
        if (shown->is_json)
            print_json(words, is_first);
        else
            print_row(words);
        is_first = false;
    }
    if (shown->is_json)
        printf(is_first ? "]\n" : "\n]\n");
    return end_output(got);
}

/* Writes a name that `vlm lock` was given, or one whose bytes stand after x: as hexadecimal digits. */
static bool write_asked(const char *name, char *text) {
    char bytes[MOST_NAME];
    size_t len = strlen(name), count = 0;
    if (strncmp(name, "x:", 2) != 0)
        return write_name(name, len, text);
    if (len >= NAME_TEXT || len % 2 != 0 || strspn(name + 2, "0123456789abcdefABCDEF") != len - 2)
        return false;
    for (const char *at = name + 2; *at != 0; at += 2) {
        const char digits[] = {at[0], at[1], 0};
        bytes[count++] = (char)strtoul(digits, NULL, 16);
    }
    return write_name(bytes, count, text);
}

/* Connects and asks. That the service has gone is noticed when its answer is read. */
static bool ask(struct link *link, const char *address, const char *text) {
    bool is_open = link_open(link, address);
    if (is_open)
        link_send(link, text);
    return is_open;
}

int run_who(int count, char **words) {
    static const struct option longer[] = {{"json", no_argument, NULL, 'j'},
                                           {"waiting", no_argument, NULL, 'w'},
                                           {"connect", required_argument, NULL, 'c'},
                                           {NULL, 0, NULL, 0}};
    const char *address = usual_address();
    struct shown shown = {false, false};
    struct link link;
    char text[LINE_ROOM], name[NAME_TEXT] = "";
    int option;
    while ((option = getopt_long(count, words, "w", longer, NULL)) != -1) {
        if (option == '?')
            return wrong_words(who_usage);
        if (option == 'c')
            address = optarg;
        shown.is_json |= option == 'j';
        shown.is_waiting_only |= option == 'w';
    }
    if (count - optind > 1 || (optind < count && !write_asked(words[optind], name)))
        return wrong_words(who_usage);
    snprintf(text, sizeof text, "who %s\n", name);
    if (!ask(&link, address, text))
        return NO_SERVICE;
    return print_rows(&link, &shown);
}

int run_metrics(int count, char **words) {
    struct link link;
    char line[LINE_ROOM];
    const char *address;
    int from = read_address(count, words, &address);
    if (from == 0 || from != count)
        return wrong_words(metrics_usage);
    if (!ask(&link, address, "metrics\n"))
        return NO_SERVICE;
    int got;
    while ((got = link_line(&link, line, FOREVER)) == 1 && line[0] != 0)
        puts(line);
    return end_output(got);
}

int run_kill(int count, char **words) {
    struct link link;
    char line[LINE_ROOM];
    const char *address;
    int from = read_address(count, words, &address);
    if (from == 0 || from != count - 1 || strlen(words[from]) != 16 || strspn(words[from], "0123456789abcdef") != 16)
        return wrong_words(kill_usage);
    snprintf(line, sizeof line, "kill %s\n", words[from]);
    if (!ask(&link, address, line))
        return NO_SERVICE;
    int got = link_line(&link, line, FOREVER);
    if (got != 1 || strcmp(line, "killed") == 0)
        return end_output(got);
    fprintf(stderr, "vlm kill: %s\n", line);
    return strcmp(line, "not allowed") == 0 || strcmp(line, "no such session") == 0 ? 1 : NO_SERVICE;
}
