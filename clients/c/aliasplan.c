/* A client of the planner as a co-process: see aliasplan.h. */
#define _GNU_SOURCE
#include "aliasplan.h"

#include <errno.h>
#include <fcntl.h>
#include <poll.h>
#include <signal.h>
#include <spawn.h>
#include <stdbool.h>
#include <stdio.h>
#include <stdlib.h>
#include <string.h>
#include <sys/socket.h>
#include <sys/wait.h>
#include <unistd.h>

enum { READ_AT_ONCE = 1 << 16, NUMBER_ROOM = 24 };

struct aliasplan {
    char **words;
    pid_t process; /* 0 where none runs */
    int input, output; /* its standard input, a socket so that no signal comes where it has ended, and its standard output */
    unsigned long number; /* of the last envelope */
    const char *unsent;
    size_t unsent_length;
    char *read; /* what it wrote: from `begin` on the answer that is read, `place` behind its last line */
    size_t begin, place, read_length, read_room;
};

typedef enum aliasplan_status reader(struct aliasplan *planner, size_t index, void *into);

struct asked {
    unsigned long first; /* the number of the first envelope */
    struct aliasplan_answer *answers;
};

struct changed {
    char *sum, *refusal;
};

/* Ends the planner at once, where there is one. */
static void stop(struct aliasplan *planner)
{
    int error = errno;
    if (planner->process) {
        close(planner->input);
        close(planner->output);
        kill(planner->process, SIGKILL);
        while (waitpid(planner->process, NULL, 0) < 0 && errno == EINTR)
            ;
    }
    planner->process = 0;
    errno = error;
}

/* Sends as much as the planner takes now. That it has ended shows where it is read. */
static void send_some(struct aliasplan *planner)
{
    while (planner->unsent_length) {
        ssize_t sent = send(planner->input, planner->unsent, planner->unsent_length, MSG_NOSIGNAL | MSG_DONTWAIT);
        if (sent >= 0) {
            planner->unsent += sent;
            planner->unsent_length -= (size_t)sent;
        } else if (errno == EAGAIN) {
            return;
        } else if (errno != EINTR) {
            planner->unsent_length = 0;
        }
    }
}

/* Makes room behind what was read; what stands before the answer goes. */
static bool make_room(struct aliasplan *planner)
{
    memmove(planner->read, planner->read + planner->begin, planner->read_length - planner->begin);
    planner->place -= planner->begin;
    planner->read_length -= planner->begin;
    planner->begin = 0;
    if (planner->read_room - planner->read_length < READ_AT_ONCE) {
        size_t room = 2 * planner->read_room + READ_AT_ONCE;
        char *larger = realloc(planner->read, room);
        if (!larger)
            return false;
        planner->read = larger;
        planner->read_room = room;
    }
    return true;
}

/* Reads what the planner writes next; meanwhile it is sent what is unsent, so that neither waits for the other. */
static enum aliasplan_status read_more(struct aliasplan *planner)
{
    ssize_t length;
    if (!make_room(planner))
        return ALIASPLAN_SYSTEM;
    while (planner->unsent_length) {
        struct pollfd ready[] = {{planner->output, POLLIN, 0}, {planner->input, POLLOUT, 0}};
        if (poll(ready, 2, -1) < 0 && errno != EINTR)
            return ALIASPLAN_SYSTEM;
        if (ready[0].revents)
            break;
        send_some(planner);
    }
    do
        length = read(planner->output, planner->read + planner->read_length, READ_AT_ONCE);
    while (length < 0 && errno == EINTR);
    if (length <= 0)
        return ALIASPLAN_ENDED;
    planner->read_length += (size_t)length;
    return ALIASPLAN_DONE;
}

/* The next line without its end, which is there until the next call. */
static enum aliasplan_status next_line(struct aliasplan *planner, struct aliasplan_text *line)
{
    size_t sought = 0;
    char *end;
    while (!(end = memchr(planner->read + planner->place + sought, '\n', planner->read_length - planner->place - sought))) {
        enum aliasplan_status status;
        sought = planner->read_length - planner->place;
        status = read_more(planner);
        if (status)
            return status;
    }
    line->bytes = planner->read + planner->place;
    line->length = (size_t)(end - line->bytes);
    planner->place += line->length + 1;
    return ALIASPLAN_DONE;
}

static bool is(struct aliasplan_text line, const char *text)
{
    return line.length == strlen(text) && !memcmp(line.bytes, text, line.length);
}

/* Whether a line begins with a word, which is taken off. */
static bool takes(struct aliasplan_text *line, const char *word)
{
    size_t length = strlen(word);
    if (line->length < length || memcmp(line->bytes, word, length))
        return false;
    line->bytes += length;
    line->length -= length;
    return true;
}

/* Starts the process of a planner, and returns the number of an error, or 0. */
static int spawn(struct aliasplan *planner, int input, int output)
{
    posix_spawn_file_actions_t actions;
    int error = posix_spawn_file_actions_init(&actions);
    if (error)
        return error;
    error = posix_spawn_file_actions_adddup2(&actions, input, STDIN_FILENO);
    if (!error)
        error = posix_spawn_file_actions_adddup2(&actions, output, STDOUT_FILENO);
    if (!error)
        error = posix_spawnp(&planner->process, planner->words[0], &actions, NULL, planner->words, environ);
    posix_spawn_file_actions_destroy(&actions);
    return error;
}

/* Starts a planner, with what leads to it. */
static bool connect_planner(struct aliasplan *planner)
{
    int input[2], output[2], error;
    if (socketpair(AF_UNIX, SOCK_STREAM | SOCK_CLOEXEC, 0, input))
        return false;
    if (pipe2(output, O_CLOEXEC)) {
        error = errno;
    } else {
        error = spawn(planner, input[1], output[1]);
        close(output[1]);
        if (error)
            close(output[0]);
    }
    close(input[1]);
    if (error) {
        close(input[0]);
        planner->process = 0;
        errno = error;
        return false;
    }
    planner->input = input[0];
    planner->output = output[0];
    return true;
}

/* Starts a planner, and reads what it says of the tables. */
static enum aliasplan_status start(struct aliasplan *planner)
{
    struct aliasplan_text line;
    enum aliasplan_status status;
    unsigned long findings = 0;
    char *behind;
    if (!connect_planner(planner))
        return ALIASPLAN_SYSTEM;
    planner->unsent_length = planner->begin = planner->place = planner->read_length = 0;
    status = next_line(planner, &line);
    if (!status && (!takes(&line, "tables ") || (findings = strtoul(line.bytes, &behind, 10), behind == line.bytes)))
        status = ALIASPLAN_ENDED;
    while (!status && findings--)
        status = next_line(planner, &line);
    if (status)
        stop(planner);
    return status;
}

/* Sends the texts between these places, and has the answer to each read. Where the planner dies, a new one is asked what isn't answered. */
static enum aliasplan_status exchange(struct aliasplan *planner, const char *text, const size_t *places, size_t count, reader *take, void *into)
{
    size_t answered = 0;
    bool has_died = false;
    while (answered < count) {
        enum aliasplan_status status = planner->process ? ALIASPLAN_DONE : start(planner);
        if (!status) {
            planner->unsent = text + places[answered];
            planner->unsent_length = places[count] - places[answered];
            send_some(planner);
        }
        while (!status && answered < count) {
            planner->begin = planner->place;
            status = take(planner, answered, into);
            if (!status) {
                answered++;
                has_died = false;
            }
        }
        if (status) {
            stop(planner);
            if (status != ALIASPLAN_ENDED || has_died)
                return status;
            has_died = true;
        }
    }
    return ALIASPLAN_DONE;
}

/* Takes a line from the front of a text, and puts a zero byte in place of its end. */
static struct aliasplan_text cut_line(struct aliasplan_text *text)
{
    char *end = memchr(text->bytes, '\n', text->length);
    struct aliasplan_text line = {text->bytes, (size_t)(end - text->bytes)};
    *end = 0;
    text->bytes += line.length + 1;
    text->length -= line.length + 1;
    return line;
}

static struct aliasplan_text without_brackets(struct aliasplan_text path)
{
    if (path.length < 2)
        return path;
    path.bytes[path.length - 1] = 0;
    path.bytes++;
    path.length -= 2;
    return path;
}

/* Reads the lines `from` and `via` of a transaction. */
static bool cut_head(struct aliasplan_text *text, struct aliasplan_transaction *transaction)
{
    struct aliasplan_text from, via;
    char *space;
    if (!text->length || (from = cut_line(text), !takes(&from, "from ")))
        return false;
    if (!text->length || (via = cut_line(text), !takes(&via, "via ")) || !(space = memchr(via.bytes, ' ', via.length)))
        return false;
    *space = 0;
    transaction->sender = without_brackets(from);
    transaction->transport = (struct aliasplan_text){via.bytes, (size_t)(space - via.bytes)};
    transaction->nexthop = (struct aliasplan_text){space + 1, via.length - transaction->transport.length - 1};
    return true;
}

/* Makes an answer of the lines of a plan, whose texts go into `items`. Whether they are a plan. */
static bool read_plan(struct aliasplan_text text, struct aliasplan_answer *answer, struct aliasplan_text *items)
{
    struct aliasplan_transaction *last = NULL;
    while (text.length) {
        struct aliasplan_text line = cut_line(&text);
        if (last && takes(&line, "to ")) {
            last->recipients.count++;
            *items++ = without_brackets(line);
        } else if (last && takes(&line, "host ")) {
            last->hosts.count++;
            *items++ = line;
            last->recipients.items = items;
        } else if (takes(&line, "finding ")) {
            if (!answer->findings.count++)
                answer->findings.items = items;
            *items++ = line;
        } else if (takes(&line, "transaction ")) {
            last = &answer->transactions[answer->transaction_count++];
            *last = (struct aliasplan_transaction){.hosts = {items, 0}, .recipients = {items, 0}};
            if (!cut_head(&text, last))
                return false;
        } else {
            return false;
        }
    }
    return true;
}

/* Makes an answer of the lines between `plan` and `end`. */
static enum aliasplan_status take_plan(struct aliasplan_text text, struct aliasplan_answer *answer)
{
    size_t lines = 0, most, at;
    struct aliasplan_text *items;
    for (at = 0; at < text.length; at++)
        lines += text.bytes[at] == '\n';
    most = lines / 3 + 1; /* a transaction has three lines at least */
    answer->transactions = malloc(most * sizeof *answer->transactions + (lines + 1) * sizeof *items + text.length);
    if (!answer->transactions)
        return ALIASPLAN_SYSTEM;
    answer->memory = answer->transactions;
    items = (struct aliasplan_text *)(answer->transactions + most);
    text.bytes = memcpy(items + lines + 1, text.bytes, text.length);
    return read_plan(text, answer, items) ? ALIASPLAN_DONE : ALIASPLAN_ENDED;
}

/* Reads the block of an envelope. */
static enum aliasplan_status read_block(struct aliasplan *planner, size_t index, void *into)
{
    const struct asked *asked = into;
    struct aliasplan_answer *answer = &asked->answers[index];
    struct aliasplan_text line;
    size_t first;
    char number[NUMBER_ROOM];
    enum aliasplan_status status = next_line(planner, &line);
    if (status)
        return status;
    snprintf(number, sizeof number, "%lu", asked->first + index);
    if (!takes(&line, "envelope ") || !is(line, number))
        return ALIASPLAN_ENDED;
    status = next_line(planner, &line);
    if (status)
        return status;
    if (takes(&line, "refused ")) {
        answer->memory = answer->refusal.bytes = strndup(line.bytes, line.length);
        answer->refusal.length = answer->memory ? strlen(answer->memory) : 0;
        return answer->memory ? ALIASPLAN_DONE : ALIASPLAN_SYSTEM;
    }
    for (first = planner->place - planner->begin; !is(line, "end");) {
        status = next_line(planner, &line);
        if (status)
            return status;
    }
    line.length = (size_t)(line.bytes - planner->read) - planner->begin - first;
    line.bytes -= line.length;
    status = take_plan(line, answer);
    if (status)
        aliasplan_free(answer);
    return status;
}

static enum aliasplan_status read_tables(struct aliasplan *planner, size_t index, void *into)
{
    struct changed *changed = into;
    struct aliasplan_text line;
    enum aliasplan_status status = next_line(planner, &line);
    char **words;
    (void)index;
    if (status)
        return status;
    if (!takes(&line, "tables "))
        return ALIASPLAN_ENDED;
    words = takes(&line, "ok ") ? &changed->sum : takes(&line, "refused ") ? &changed->refusal : NULL;
    if (!words)
        return ALIASPLAN_ENDED;
    *words = strndup(line.bytes, line.length);
    return *words ? ALIASPLAN_DONE : ALIASPLAN_SYSTEM;
}

/* How long the text of an envelope can be at most, or 0 where an address has CR or LF. */
static size_t room_of(const struct aliasplan_envelope *envelope)
{
    size_t room = sizeof "%envelope \nMAIL FROM:<>\n%end\n" + NUMBER_ROOM + strlen(envelope->sender), at;
    if (strpbrk(envelope->sender, "\r\n"))
        return 0;
    for (at = 0; at < envelope->recipient_count; at++) {
        if (strpbrk(envelope->recipients[at], "\r\n"))
            return 0;
        room += sizeof "RCPT TO:<>\n" + strlen(envelope->recipients[at]);
    }
    return room;
}

/* Writes an envelope, and returns the place behind it. */
static char *write_envelope(char *text, unsigned long number, const struct aliasplan_envelope *envelope)
{
    size_t at;
    text += sprintf(text, "%%envelope %lu\nMAIL FROM:<%s>\n", number, envelope->sender);
    for (at = 0; at < envelope->recipient_count; at++)
        text += sprintf(text, "RCPT TO:<%s>\n", envelope->recipients[at]);
    return stpcpy(text, "%end\n");
}

enum aliasplan_status aliasplan_start(struct aliasplan **planner, const char *program, const char *tables, const char *const *options)
{
    const char *first[] = {program, "plan", "--each", "--tables", tables};
    const size_t first_count = sizeof first / sizeof *first;
    size_t count = first_count, at;
    enum aliasplan_status status = ALIASPLAN_SYSTEM;
    struct aliasplan *made = calloc(1, sizeof *made);
    while (options && options[count - first_count])
        count++;
    if (made && (made->words = calloc(count + 1, sizeof *made->words)) && (made->read = malloc(READ_AT_ONCE))) {
        made->read_room = READ_AT_ONCE;
        for (at = 0; at < count; at++)
            if (!(made->words[at] = strdup(at < first_count ? first[at] : options[at - first_count])))
                break;
        if (at == count)
            status = start(made);
    }
    if (status)
        aliasplan_end(made);
    *planner = status ? NULL : made;
    return status;
}

enum aliasplan_status aliasplan_ask(struct aliasplan *planner, const struct aliasplan_envelope *envelope, struct aliasplan_answer *answer)
{
    return aliasplan_ask_many(planner, envelope, 1, answer);
}

enum aliasplan_status aliasplan_ask_many(struct aliasplan *planner, const struct aliasplan_envelope *envelopes, size_t count, struct aliasplan_answer *answers)
{
    struct asked asked = {planner->number + 1, answers};
    size_t room = 1, more, at;
    size_t *places;
    char *text, *end;
    enum aliasplan_status status = ALIASPLAN_SYSTEM;
    memset(answers, 0, count * sizeof *answers);
    for (at = 0; at < count; at++, room += more)
        if (!(more = room_of(&envelopes[at])))
            return ALIASPLAN_ADDRESS;
    places = malloc((count + 1) * sizeof *places);
    text = end = malloc(room);
    if (places && text) {
        for (at = 0; at < count; at++) {
            places[at] = (size_t)(end - text);
            end = write_envelope(end, ++planner->number, &envelopes[at]);
        }
        places[count] = (size_t)(end - text);
        status = exchange(planner, text, places, count, read_block, &asked);
    }
    for (at = 0; status && at < count; at++)
        aliasplan_free(&answers[at]);
    free(places);
    free(text);
    planner->unsent_length = 0;
    return status;
}

enum aliasplan_status aliasplan_change_tables(struct aliasplan *planner, char **sum, char **refusal)
{
    static const char text[] = "%tables\n";
    static const size_t places[] = {0, sizeof text - 1};
    struct changed changed = {NULL, NULL};
    enum aliasplan_status status = exchange(planner, text, places, 1, read_tables, &changed);
    *sum = changed.sum;
    *refusal = changed.refusal;
    return status;
}

void aliasplan_free(struct aliasplan_answer *answer)
{
    free(answer->memory);
    memset(answer, 0, sizeof *answer);
}

void aliasplan_end(struct aliasplan *planner)
{
    char *const *word;
    if (!planner)
        return;
    if (planner->process) {
        close(planner->input);
        do
            planner->begin = planner->place = planner->read_length;
        while (read_more(planner) == ALIASPLAN_DONE);
        close(planner->output);
        while (waitpid(planner->process, NULL, 0) < 0 && errno == EINTR)
            ;
    }
    for (word = planner->words; word && *word; word++)
        free(*word);
    free(planner->words);
    free(planner->read);
    free(planner);
}
