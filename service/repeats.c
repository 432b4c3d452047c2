/* Numbered lines that come again: a session keeps its last numbered steps. A step has its line by length and hash.
 * Another line has the same hash once in 2^64 times, and a client that searches for one fools itself alone. */
#include "parts.h"

#include <stdlib.h>

/* A session that can't be resumed repeats its last line at most. */
static uint32_t most_steps(const struct session *session) { return session->seconds != 0 ? KEPT_STEPS : 1; }

/* The kept step of a number, or null. A place without a step has number 0. */
static const struct step *find_step(const struct session *session, uint64_t number) {
    for (uint32_t at = 0; number != 0 && session->steps != NULL && at < most_steps(session); at++)
        if (session->steps[at].number == number)
            return &session->steps[at];
    return NULL;
}

/* A step of the client's session that is not made again: its number came before. */
bool is_repeated(struct client *client) {
    const struct session *session = client->session;
    if (!client->has_number || client->line_number > session->number)
        return false;
    const struct step *step = find_step(session, client->line_number);
    if (step != NULL && step->line_len == client->line_len && step->hash == client->line_hash)
        tell_answer(client, step->status, step->given);
    else
        answer_text(client, "old number\n");
    return true;
}

/* Has a ring in which the step of a numbered line is kept. False without memory. */
bool make_ring(struct client *client) {
    struct session *session = client->session;
    if (client->has_number && session->steps == NULL)
        session->steps = calloc(most_steps(session), sizeof *session->steps);
    return !client->has_number || session->steps != NULL;
}

/* The step of the line was made: it is the last one of the session, and kept if its line has a number. */
void keep_step(struct client *client, uint32_t status, uint64_t given) {
    struct session *session = client->session;
    session->number = client->has_number ? client->line_number : session->number + 1;
    if (!client->has_number)
        return;
    session->steps[session->next_step] = (struct step){.number = session->number,
                                                       .hash = client->line_hash,
                                                       .given = given,
                                                       .status = status,
                                                       .line_len = (uint32_t)client->line_len};
    session->next_step = session->next_step + 1 < most_steps(session) ? session->next_step + 1 : 0;
}
