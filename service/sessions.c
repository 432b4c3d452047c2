/* The lines of a session: open, resume, alive, close and kill, and those that need none. A session ends with its
 * connection, unless it was opened with a number of seconds in which a client may resume it. */
#include "parts.h"

#include <inttypes.h>
#include <stdio.h>
#include <stdlib.h>
#include <string.h>

/* (the seconds are those of a replica's sessions) */
enum { DIGITS = 16, FIRST_SESSIONS = 64, MOST_WORDS = 3, MOST_OPEN_WORDS = 4, FEWEST_SECONDS = 2, USUAL_SECONDS = 10 };

static const char wrong_word[] = "wrong word\n";

static void tell_session(struct client *client) {
    const struct session *session = client->session;
    begin_answer(client);
    put_format(client, "session %016" PRIx64 " seconds %" PRIu32 " number %" PRIu64 " asts %" PRIu64 "\n",
               session->name, session->seconds, session->number, session->asts);
}

/* Makes more places for sessions, and links them as free ones. */
static bool grow(struct dispatcher *dispatcher) {
    uint32_t from = dispatcher->session_room, room = from != 0 ? 2 * from : FIRST_SESSIONS;
    struct place *sessions = realloc(dispatcher->sessions, room * sizeof *sessions);
    if (sessions == NULL)
        return false;
    for (uint32_t place = from; place < room; place++)
        sessions[place] = (struct place){NULL, place + 1 < room ? place + 1 : NOBODY};
    dispatcher->sessions = sessions;
    dispatcher->session_room = room;
    dispatcher->free_place = from;
    return true;
}

static struct session *new_session(struct client *client, uint32_t seconds) {
    struct dispatcher *dispatcher = client->dispatcher;
    struct session *session = calloc(1, sizeof *session);
    uint8_t **kept = seconds != 0 ? calloc(KEPT_ASTS, sizeof(uint8_t *)) : NULL;
    bool has_place = dispatcher->free_place != NOBODY || grow(dispatcher);
    if (session == NULL || (seconds != 0 && kept == NULL) || !has_place) {
        free(session);
        free(kept);
        return NULL;
    }
    uint32_t place = dispatcher->free_place;
    dispatcher->free_place = dispatcher->sessions[place].next_free;
    dispatcher->sessions[place].session = session;
    session->name = (++dispatcher->counts.sessions ^ client->salt) << 32 | place;
    session->dispatcher = dispatcher;
    session->rights = client->rights;
    session->user = client->user;
    session->client = client;
    session->seconds = seconds;
    session->kept = kept;
    keep_lease(session);
    client->user->sessions++;
    dispatcher->session_count++;
    return session;
}

/* A client's command: at most 31 characters that are neither blanks nor controls. */
static bool is_label(struct word word) {
    for (size_t at = 0; at < word.len; at++)
        if (word.bytes[at] < '!' || word.bytes[at] > '~')
            return false;
    return word.len > 0 && word.len < LABEL;
}

/* What a client asks of a new session. */
struct wish {
    uint64_t seconds;
    bool has_seconds, tells_tokens;
    struct word label; /* or of no bytes */
};

/* Reads `open [seconds=N] [command=WORD] [tokens]`. False where a word is wrong. */
static bool read_open(const struct word *words, size_t count, struct wish *wish) {
    bool is_right = count <= MOST_OPEN_WORDS;
    for (size_t at = 1; at < count && is_right; at++) {
        struct word rest;
        if (is_word(words[at], "tokens")) {
            wish->tells_tokens = true;
        } else if (keyed(words[at], "seconds=", &rest)) {
            wish->has_seconds = true;
            is_right = decimal(rest, UINT64_MAX, &wish->seconds);
        } else {
            is_right = keyed(words[at], "command=", &wish->label);
        }
    }
    return is_right && (wish->label.len == 0 || is_label(wish->label));
}

static void run_open(struct client *client, const struct word *words, size_t count) {
    bool is_replica = client->dispatcher->is_replica;
    struct wish wish = {.seconds = is_replica ? USUAL_SECONDS : 0, .label = {"", 0}};
    bool is_right = read_open(words, count, &wish);
    uint64_t fewest = !wish.has_seconds ? 0 : is_replica ? FEWEST_SECONDS : 1;
    if (!is_right) {
        answer_text(client, wrong_word);
    } else if (wish.seconds > MOST_SECONDS || wish.seconds < fewest) {
        answer_text(client, "number out of range\n");
    } else if (client->session != NULL) {
        answer_text(client, "session open\n");
    } else if (client->user->sessions >= client->dispatcher->limits.connections) {
        answer_text(client, "too many sessions\n");
    } else if ((client->session = new_session(client, (uint32_t)wish.seconds)) == NULL) {
        end_without_memory(client->dispatcher);
        answer_text(client, "no memory\n");
    } else {
        memcpy(client->session->label, wish.label.bytes, wish.label.len);
        client->session->tells_tokens = wish.tells_tokens;
        tell_session(client);
    }
}

/* The session of a name, or null. */
struct session *find_session(struct dispatcher *dispatcher, struct word word) {
    char digits[DIGITS + 1] = "", *end;
    if (word.len != DIGITS || memchr(word.bytes, '-', DIGITS) != NULL || memchr(word.bytes, '+', DIGITS) != NULL)
        return NULL;
    memcpy(digits, word.bytes, DIGITS);
    uint64_t name = strtoull(digits, &end, 16);
    uint32_t place = (uint32_t)name;
    struct session *session = place < dispatcher->session_room ? dispatcher->sessions[place].session : NULL;
    return *end == 0 && session != NULL && session->name == name ? session : NULL;
}

static void unlink_left(struct session *session) {
    struct dispatcher *dispatcher = session->dispatcher;
    if (session->previous != NULL)
        session->previous->next = session->next;
    else
        dispatcher->left = session->next;
    if (session->next != NULL)
        session->next->previous = session->previous;
    session->previous = session->next = NULL;
}

/* Gives the client the ASTs after those that it has, as far as they are kept. */
static void repeat_asts(struct client *client, uint64_t got) {
    const struct session *session = client->session;
    uint64_t from = got < session->asts ? got : session->asts;
    uint64_t first = session->asts > KEPT_ASTS ? session->asts - KEPT_ASTS : 0;
    if (from < first)
        put_format(client, "lost %" PRIu64 "\n", first - from);
    for (uint64_t at = from > first ? from : first; session->kept != NULL && at < session->asts; at++)
        if (session->kept[at % KEPT_ASTS] != NULL)
            put_text(client, (const char *)session->kept[at % KEPT_ASTS]);
}

/* A session of a user goes on with this connection. */
static void move(struct client *client, struct session *session) {
    if (session->client != NULL) {
        struct client *other = session->client;
        other->session = NULL;
        put_text(other, "session moved\n");
        other->is_over = true;
    } else {
        unlink_left(session);
    }
    session->client = client;
    session->rights.pid = client->rights.pid;
    client->session = session;
    keep_lease(session);
    tell_session(client);
}

/* Whether a client may go on with a session: the session's processes have the rights of the client that opened it. */
static bool may_resume(const struct client *client, const struct session *session) {
    const struct rights *own = &client->rights, *had = &session->rights;
    return own->uid == had->uid && own->group == had->group && own->has_syslck == had->has_syslck
           && session->seconds != 0 && !session->is_killed;
}

/* `resume S [asts=N]` */
static void run_resume(struct client *client, const struct word *words, size_t count) {
    struct word rest;
    uint64_t got = UINT64_MAX;
    if (count < 2 || count > MOST_WORDS
        || (count > 2 && (!keyed(words[2], "asts=", &rest) || !decimal(rest, UINT64_MAX, &got)))) {
        answer_text(client, wrong_word);
        return;
    }
    struct session *session = find_session(client->dispatcher, words[1]);
    if (client->session != NULL) {
        answer_text(client, "session open\n");
    } else if (session == NULL || !may_resume(client, session)) {
        answer_text(client, "session ended\n");
        client->is_over = true;
    } else {
        move(client, session);
        repeat_asts(client, got);
    }
}

static void free_session(struct session *session) {
    for (uint32_t at = 0; session->kept != NULL && at < KEPT_ASTS; at++)
        free(session->kept[at]);
    free(session->kept);
    free(session->steps);
    free(session->bindings);
    free(session);
}

/* Ends a session with all its processes. Its cost grows with their locks. */
void end_session(struct session *session) {
    struct dispatcher *dispatcher = session->dispatcher;
    if (session->client != NULL)
        session->client->session = NULL;
    else
        unlink_left(session);
    /* (what its processes grant to each other, nobody hears) */
    session->client = NULL;
    for (uint32_t at = 0; at < session->binding_count; at++)
        if (session->bindings[at].process != NULL)
            release_process(session->bindings[at].process);
    dispatcher->sessions[(uint32_t)session->name] = (struct place){NULL, dispatcher->free_place};
    dispatcher->free_place = (uint32_t)session->name;
    dispatcher->session_count--;
    session->user->sessions--;
    drop_user(dispatcher, session->user);
    free_session(session);
    tell(dispatcher);
}

/* The connection of a client has ended: its session ends, or waits for a resume. */
void leave_session(struct client *client) {
    struct session *session = client->session;
    if (session == NULL)
        return;
    if (session->seconds == 0) {
        end_session(session);
        return;
    }
    struct dispatcher *dispatcher = client->dispatcher;
    client->session = NULL;
    session->client = NULL;
    session->until = dispatcher->now + (uint64_t)session->seconds * 1000;
    session->next = dispatcher->left;
    if (session->next != NULL)
        session->next->previous = session;
    dispatcher->left = session;
}

/* Ends the sessions that nobody resumed in time. */
void end_left_sessions(struct dispatcher *dispatcher) {
    for (struct session *session = dispatcher->left, *next; session != NULL; session = next) {
        next = session->next;
        if (session->until <= dispatcher->now)
            end_session(session);
    }
}

/* Ends a session whose client does not want that, and tells the client. The session of a replica's client ends when its
 * lease is over, since the client may count on its locks until then. */
void kill_session(struct session *session, const char *text) {
    struct client *client = session->client;
    session->is_killed = session->dispatcher->is_replica;
    if (!session->is_killed)
        end_session(session);
    else if (client != NULL)
        leave_session(client);
    if (client != NULL) {
        put_text(client, text);
        client->is_over = true;
    }
}

/* `kill S`: an administrator ends a session. */
static void run_kill(struct client *client, const struct word *words, size_t count) {
    struct session *session = count == 2 ? find_session(client->dispatcher, words[1]) : NULL;
    if (count != 2) {
        answer_text(client, wrong_word);
    } else if (!client->rights.is_admin) {
        answer_text(client, "not allowed\n");
    } else if (session == NULL) {
        answer_text(client, "no such session\n");
    } else {
        say(client->dispatcher, "session %016" PRIx64 " of pid %" PRIu32 " is killed by user %" PRIu32, session->name,
            session->rights.pid, client->rights.uid);
        answer_text(client, "killed\n");
        kill_session(session, "session killed\n");
    }
}

static void run_close(struct client *client) {
    if (client->session == NULL) {
        answer_text(client, "no session\n");
        return;
    }
    answer_text(client, "closed\n");
    end_session(client->session);
}

/* Runs a line that is no step and no reading of a script. Returns false for other lines. */
bool run_session_line(struct client *client, const struct word *words, size_t count) {
    static const char *const single[] = {"alive", "close", "metrics"};
    bool is_single = false;
    for (size_t at = 0; at < sizeof single / sizeof *single; at++)
        is_single |= is_word(words[0], single[at]);
    if (is_single && count > 1)
        answer_text(client, wrong_word);
    else if (is_word(words[0], "open"))
        run_open(client, words, count);
    else if (is_word(words[0], "resume"))
        run_resume(client, words, count);
    else if (is_word(words[0], "alive"))
        answer_text(client, client->session != NULL ? "alive\n" : "no session\n");
    else if (is_word(words[0], "close"))
        run_close(client);
    else if (is_word(words[0], "kill"))
        run_kill(client, words, count);
    else if (is_word(words[0], "who"))
        who(client, words, count);
    else if (is_word(words[0], "metrics"))
        metrics(client);
    else
        return run_lock_line(client, words, count);
    return true;
}
