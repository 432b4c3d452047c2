/* What a line asks for. The proved vlm_read_line reads a step or a reading; what this file adds to the script language
 * is the number of a line, `declare` without node and rights, and handles of locks with 64 bits. */
#include "parts.h"

#include <inttypes.h>
#include <stdio.h>
#include <string.h>

enum {
    MOST_WORDS = 24,
    DECLARE_WORDS = 4,
    STEP_LETTERS = 3,
    CUT_WORD = 40,
    DIGITS = 18,
    USUAL_QUOTA = 1000,
    USUAL_BLOCKS = 4
};

static const char parent_key[] = "parent=";

/* (the first comparison is enough for most bytes) */
static bool is_blank(char byte) { return (unsigned char)byte <= ' ' && (byte == ' ' || byte == '\t' || byte == '\r'); }

/* Takes the next word off the rest of a line. It is empty if there is none. */
static struct word next_word(struct word *rest) {
    const char *from = rest->bytes, *end = from + rest->len;
    while (from < end && is_blank(*from))
        from++;
    const char *to = from;
    while (to < end && !is_blank(*to))
        to++;
    *rest = (struct word){to, (size_t)(end - to)};
    return (struct word){from, (size_t)(to - from)};
}

/* Finds the words of a line, at most `most`, and returns how many there are. */
size_t split(const char *bytes, size_t len, struct word *words, size_t most) {
    struct word rest = {bytes, len};
    size_t count = 0;
    for (struct word word = next_word(&rest); word.len != 0; word = next_word(&rest), count++)
        if (count < most)
            words[count] = word;
    return count;
}

bool is_word(struct word word, const char *text) {
    return word.len == strlen(text) && memcmp(word.bytes, text, strlen(text)) == 0;
}

/* Whether a word has a form such as `key=REST`; `key` has the equals sign. */
bool keyed(struct word word, const char *key, struct word *rest) {
    size_t len = strlen(key);
    if (word.len < len || memcmp(word.bytes, key, len) != 0)
        return false;
    *rest = (struct word){word.bytes + len, word.len - len};
    return true;
}

bool decimal(struct word word, uint64_t most, uint64_t *number) {
    *number = 0;
    for (size_t at = 0; at < word.len; at++) {
        if (word.bytes[at] < '0' || word.bytes[at] > '9')
            return false;
        uint64_t digit = (uint64_t)(word.bytes[at] - '0');
        if (*number > (UINT64_MAX - digit) / 10)
            return false;
        *number = *number * 10 + digit;
    }
    return word.len > 0 && *number <= most;
}

/* The number of a line, up to 18 digits and a blank. Returns how many bytes it has; 0: the line has none. */
static size_t read_number(const char *bytes, size_t len, uint64_t *number) {
    size_t digits = 0, most = len <= DIGITS ? len : DIGITS + 1;
    uint64_t read = 0;
    for (unsigned digit; digits < most && (digit = (unsigned)bytes[digits] - '0') < 10; digits++)
        read = read * 10 + digit;
    *number = read;
    return digits > 0 && digits <= DIGITS && digits < len && bytes[digits] == ' ' ? digits + 1 : 0;
}

/* Takes the number of a line off. */
static void take_number(struct client *client, const char **bytes, size_t *len) {
    size_t taken = read_number(*bytes, *len, &client->line_number);
    client->has_number = taken != 0;
    *bytes += taken;
    *len -= taken;
}

enum line_kind dispatcher_kind(const char *line, size_t len) {
    static const char *const changes[] = {"enq",     "cvt",  "deq",    "set",   "end",
                                          "declare", "open", "resume", "close", "kill"};
    uint64_t number;
    size_t taken = read_number(line, len, &number);
    struct word rest = {line + taken, len - taken};
    if (rest.len > LINE)
        return LINE_READS;
    struct word word = next_word(&rest);
    for (size_t at = 0; at < sizeof changes / sizeof *changes; at++)
        if (is_word(word, changes[at]))
            return LINE_CHANGES;
    return is_word(word, "alive") ? LINE_KEEPS : LINE_READS;
}

/* A `declare` line of a client as a script has it: without its words for quota and blocks the usual ones, on some node,
 * and with the rights of the connection. */
static struct heard *as_declaration(const struct client *client, const struct word *words, size_t count) {
    struct heard *refused = &client->dispatcher->unknown;
    char text[LINE];
    int len = 0;
    bool has_quota = false, has_blocks = false, is_refused = count > DECLARE_WORDS;
    for (size_t at = 0; at < count && at < DECLARE_WORDS; at++) {
        struct word rest;
        is_refused |= keyed(words[at], "node=", &rest) || keyed(words[at], "group=", &rest);
        is_refused |= is_word(words[at], "syslck");
        has_quota |= keyed(words[at], "quota=", &rest);
        has_blocks |= keyed(words[at], "blocks=", &rest);
        int shown = (int)(words[at].len < CUT_WORD ? words[at].len : CUT_WORD);
        len += snprintf(text + len, sizeof text - (size_t)len, "%.*s ", shown, words[at].bytes);
    }
    if (is_refused || memchr(client->line, 0, client->line_len) != NULL) {
        refused->line.kind = VLM_LINE_EMPTY;
        refused->line.fault = VLM_FAULT_WRONG_WORD;
        return refused;
    }
    len += snprintf(text + len, sizeof text - (size_t)len, "node=1 group=%" PRIu32, client->rights.group);
    if (!has_quota)
        len += snprintf(text + len, sizeof text - (size_t)len, " quota=%d", USUAL_QUOTA);
    if (!has_blocks)
        len += snprintf(text + len, sizeof text - (size_t)len, " blocks=%d", USUAL_BLOCKS);
    return read_line(client->dispatcher, (struct word){text, (size_t)len});
}

/* The ID that a handle names to the lock manager: another epoch's is no lock of anybody. */
static uint32_t lkid_of(const struct dispatcher *dispatcher, uint64_t handle) {
    return handle == 0 ? 0 : handle >> 32 == dispatcher->epoch && (uint32_t)handle != 0 ? (uint32_t)handle : NO_LOCK;
}

/* The word of a line that may be a handle: the third of `cvt` and `deq`, and what follows `parent=` in `enq`, where no
 * name of a process has that. `rest` is what follows the first word. */
static bool find_handle(struct word command, struct word rest, struct word *handle) {
    if (is_word(command, "enq")) {
        /* (most lines have no parent, and need no second reading of their words) */
        while (memchr(rest.bytes, parent_key[0], rest.len) != NULL)
            if (keyed(next_word(&rest), parent_key, handle))
                return true;
        return false;
    }
    next_word(&rest);
    *handle = next_word(&rest);
    return is_word(command, "cvt") || is_word(command, "deq");
}

/* Reads the client's line, in which a lock may be named by its handle. Right lines without one are kept. */
static struct heard *read_with_handle(const struct client *client, struct word command, struct word rest) {
    struct dispatcher *dispatcher = client->dispatcher;
    struct word whole = {client->line, client->line_len}, handle;
    uint64_t number;
    if (!find_handle(command, rest, &handle) || !decimal(handle, UINT64_MAX, &number)) {
        struct heard *heard = read_line(dispatcher, whole);
        if (heard != NULL && heard->line.fault == 0)
            keep_line(client, &heard->line);
        return heard;
    }
    char text[LINE + NUMBER_DIGITS], digits[NUMBER_DIGITS];
    size_t count = write_number(digits + NUMBER_DIGITS, lkid_of(dispatcher, number));
    size_t before = (size_t)(handle.bytes - whole.bytes), after = whole.len - before - handle.len;
    memcpy(text, whole.bytes, before);
    memcpy(text + before, digits + NUMBER_DIGITS - count, count);
    memcpy(text + before + count, handle.bytes + handle.len, after);
    size_t len = before + count + after;
    /* (a short handle of another epoch has fewer digits than the ID that stands for it) */
    return read_line(dispatcher, (struct word){text, len <= LINE ? len : LINE});
}

static const char *const faults[] = {
    "", "too long\n", "unknown command\n", "wrong word\n", "number out of range\n", "unknown name\n", "name used\n"};

static void run_read_line(struct client *client, struct heard *heard) {
    const vlm_line *line = &heard->line;
    client->dispatcher->heard = heard;
    bool is_reading = line->kind == VLM_LINE_BLOCK || line->kind == VLM_LINE_TAIL;
    if (line->kind == VLM_LINE_EMPTY)
        return;
    if (line->kind == VLM_LINE_SHOW || line->kind == VLM_LINE_TAILS) {
        show(client, line->kind == VLM_LINE_TAILS);
        return;
    }
    if (line->kind == VLM_LINE_AST || line->kind == VLM_LINE_LEAVE || line->kind == VLM_LINE_SEARCH) {
        answer_text(client, faults[VLM_FAULT_UNKNOWN_COMMAND]);
        return;
    }
    if (client->session == NULL) {
        answer_text(client, "no session\n");
        return;
    }
    if (!is_reading && is_repeated(client))
        return;
    if (!is_reading && !make_ring(client)) {
        end_without_memory(client->dispatcher);
        answer_text(client, "no memory\n");
        return;
    }
    struct binding *binding = find_binding(client->session, line->name);
    if ((binding == NULL) != (line->kind == VLM_LINE_DECLARE))
        answer_text(client, faults[binding == NULL ? VLM_FAULT_UNKNOWN_NAME : VLM_FAULT_NAME_USED]);
    else if (is_reading)
        run_reading(client, line, binding->process);
    else
        run_step(client, line, binding);
}

/* Whether a line has to wait: requests do while the dispatcher is quiet. */
static bool has_to_wait(struct client *client, bool is_request) {
    client->is_waiting = client->dispatcher->quiet_until != 0 && is_request;
    return client->is_waiting;
}

/* Whether a line is surely none of a session, and no declaration: most lines are such steps. */
static bool is_frequent(struct word word) { return word.len == STEP_LETTERS && word.bytes[0] != 'w'; }

/* Runs the client's line if it is one of a session. Else reads it, if it can be read. */
static bool run_or_read(struct client *client, struct word command, struct word rest, struct heard **heard) {
    struct word words[MOST_WORDS];
    if (is_frequent(command)) {
        *heard = read_with_handle(client, command, rest);
        return false;
    }
    size_t count = split(client->line, client->line_len, words, MOST_WORDS);
    if (run_session_line(client, words, count))
        return true;
    *heard =
        is_word(command, "declare") ? as_declaration(client, words, count) : read_with_handle(client, command, rest);
    return false;
}

/* Runs a line that is not known. Returns false, and has done nothing, if the line has to wait. */
static bool run_unknown(struct client *client) {
    struct word rest = {client->line, client->line_len}, command = next_word(&rest);
    struct heard *heard;
    if (has_to_wait(client, is_word(command, "enq")))
        return false;
    if (command.len == 0 || run_or_read(client, command, rest, &heard))
        return true;
    if (heard == NULL || heard->line.fault != 0)
        answer_text(client, faults[heard != NULL ? heard->line.fault : VLM_FAULT_WRONG_WORD]);
    else
        run_read_line(client, heard);
    return true;
}

/* Runs a line without its line feed. Returns false, and has done nothing, if the line has to wait. */
bool run_line(struct client *client, const char *bytes, size_t len) {
    take_number(client, &bytes, &len);
    if (len > LINE) {
        answer_text(client, faults[VLM_FAULT_TOO_LONG]);
        return true;
    }
    client->line = bytes;
    client->line_len = len;
    client->line_hash = hash_line(client, (struct word){bytes, len});
    struct heard *heard = known_line(client);
    if (heard == NULL)
        return run_unknown(client);
    if (has_to_wait(client, heard->line.kind == VLM_LINE_ENQ))
        return false;
    run_read_line(client, heard);
    return true;
}
