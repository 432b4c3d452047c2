/* Lines and answers as text. */
#include "vlm_client_parts.h"

#include <stdio.h>
#include <stdlib.h>
#include <string.h>

/* What an answer says, and the handle of its lock if it has one. A text of the service's own is a limit, except that
 * IDs may have run out, and that another thread may have ended the process. A step that is sent again and
 * has an old number was not made: it was over a limit. */
uint32_t vlmc_status(const char *answer, uint64_t *handle) {
    const char *word = strchr(answer, ':');
    *handle = vlmc_number_after(answer, " lock ");
    if (word == NULL || word[1] == 0)
        return strncmp(answer, "no ident", 8) == 0        ? VLM_NOLOCKID
               : strncmp(answer, "too many", 8) == 0      ? VLM_EXENQLM
               : strncmp(answer, "old number", 10) == 0   ? VLM_EXENQLM
               : strncmp(answer, "no memory", 9) == 0     ? VLM_INSFMEM
               : strncmp(answer, "unknown name", 12) == 0 ? VLM_NONEXPR
                                                          : VLM_BADPARAM;
    word += 2;
    if (strncmp(word, "process ", 8) == 0)
        return VLM_NORMAL;
    size_t len = strcspn(word, " ");
    for (uint32_t status = VLM_NORMAL;; status++) {
        const char *name = vlm_condition_name(status);
        if (name == NULL)
            return VLM_BADPARAM;
        if (strncmp(name, "SS$_", 4) == 0)
            name += 4;
        if (strlen(name) == len && strncmp(name, word, len) == 0)
            return status;
    }
}

int vlmc_write_hex(char *text, const uint8_t *bytes, size_t len) {
    for (size_t at = 0; at < len; at++)
        snprintf(text + 2 * at, 3, "%02x", bytes[at]);
    return (int)(2 * len);
}

/* The number after a word of a line, or 0 without the word. */
uint64_t vlmc_number_after(const char *line, const char *word) {
    const char *found = strstr(line, word);
    return found != NULL ? strtoull(found + strlen(word), NULL, 10) : 0;
}

static uint8_t digit(char byte) { return (uint8_t)(byte <= '9' ? byte - '0' : byte - 'a' + 10); }

/* The bytes at the end of a line of a status block. Whether it is one: it is not after the end of its process. */
bool vlmc_read_value(const char *line, uint8_t *value, size_t len) {
    size_t have = strlen(line);
    if (have < 2 * len)
        return false;
    const char *digits = line + have - 2 * len;
    for (size_t at = 0; at < len; at++)
        value[at] = (uint8_t)(digit(digits[2 * at]) << 4 | digit(digits[2 * at + 1]));
    return true;
}
