/* Asks by the C client what the lines of standard input say, as tests/clients/run has them: driver PROGRAM TABLES. */
#include "aliasplan.h"

#include <stdio.h>
#include <stdlib.h>
#include <string.h>

enum { MANY = 100000 };

static void show_text(const char *front, struct aliasplan_text text, const char *behind)
{
    /* a zero byte stands behind it */
    fputs(front, stdout);
    fwrite(text.bytes, 1, text.length, stdout);
    fputs(text.bytes[text.length] ? "NO ZERO BYTE\n" : behind, stdout);
}

static void show_texts(const char *front, struct aliasplan_texts texts, const char *behind)
{
    size_t at;
    for (at = 0; at < texts.count; at++)
        show_text(front, texts.items[at], behind);
}

static void show(const struct aliasplan_answer *answer)
{
    size_t at, recipients = 0;
    if (answer->refusal.bytes) {
        show_text("refused ", answer->refusal, "\n");
        return;
    }
    for (at = 0; at < answer->transaction_count; at++)
        recipients += answer->transactions[at].recipients.count;
    printf("plan %zu transactions %zu recipients %zu findings\n", answer->transaction_count, recipients, answer->findings.count);
    for (at = 0; at < answer->transaction_count; at++) {
        const struct aliasplan_transaction *it = &answer->transactions[at];
        printf("transaction %zu\n", at + 1);
        show_text("from <", it->sender, ">\n");
        show_text("via ", it->transport, " ");
        show_text("", it->nexthop, "\n");
        show_texts("host ", it->hosts, "\n");
        show_texts("to <", it->recipients, ">\n");
    }
    show_texts("finding ", answer->findings, "\n");
    puts("end");
}

static int show_status(enum aliasplan_status status)
{
    static const char *const words[] = {"", "error address", "error ended", "error system"};
    if (status)
        puts(words[status]);
    return status;
}

/* Makes an envelope of the addresses in a line, between tabs; the byte 1 stands for CR, 2 for LF. */
static struct aliasplan_envelope envelope_of(char *line)
{
    struct aliasplan_envelope envelope = {line, NULL, 0};
    const char **recipients;
    size_t room = 0;
    char *at;
    for (at = line; *at; at++) {
        room += *at == '\t';
        *at = *at == 1 ? '\r' : *at == 2 ? '\n' : *at;
    }
    envelope.recipients = recipients = malloc((room + 1) * sizeof *recipients);
    while (recipients && (at = strchr(line, '\t'))) {
        *at = 0;
        recipients[envelope.recipient_count++] = line = at + 1;
    }
    return envelope;
}

static void ask(struct aliasplan *planner, const struct aliasplan_envelope *envelopes, size_t count)
{
    struct aliasplan_answer *answers = calloc(count + 1, sizeof *answers);
    size_t at;
    enum aliasplan_status status = count == 1 ? aliasplan_ask(planner, envelopes, answers) : aliasplan_ask_many(planner, envelopes, count, answers);
    for (at = 0; !show_status(status) && at < count; at++) {
        show(&answers[at]);
        aliasplan_free(&answers[at]);
    }
    free(answers);
}

static void change_tables(struct aliasplan *planner)
{
    char *sum, *refusal;
    if (!show_status(aliasplan_change_tables(planner, &sum, &refusal)))
        printf("tables %s %s\n", sum ? "ok" : "refused", sum ? sum : refusal);
    free(sum);
    free(refusal);
}

int main(int count, char **words)
{
    static struct aliasplan_envelope kept[MANY];
    size_t kept_count = 0, room = 0;
    char *line = NULL;
    struct aliasplan *planner;
    if (count != 3 || show_status(aliasplan_start(&planner, words[1], words[2], NULL)))
        return 0;
    while (getline(&line, &room, stdin) > 0) {
        line[strcspn(line, "\n")] = 0;
        if (!strncmp(line, "ask\t", 4) || !strncmp(line, "keep\t", 5)) {
            char *addresses = strdup(strchr(line, '\t') + 1);
            kept[kept_count++] = envelope_of(addresses);
        }
        if (!strncmp(line, "ask\t", 4) || !strcmp(line, "many")) {
            ask(planner, kept, kept_count);
            while (kept_count) {
                kept_count--;
                free((char *)kept[kept_count].sender);
                free((void *)kept[kept_count].recipients);
            }
        } else if (!strcmp(line, "tables")) {
            change_tables(planner);
        }
        fflush(stdout);
    }
    free(line);
    aliasplan_end(planner);
    puts("ended");
    return 0;
}
