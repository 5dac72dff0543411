/* A client of the planner as a co-process, `aliasplan plan --each --tables FILE`. It needs Linux.
 *
 * Addresses stand without angle brackets, the null sender as "". Parameters of MAIL and RCPT (`SIZE=1000`) are no part of an address.
 * One thread at a time may use a planner. The planner is a child that is waited for by its number: a process that ignores SIGCHLD, or waits
 * for any child, is no place for it. */
#ifndef ALIASPLAN_H
#define ALIASPLAN_H

#include <stddef.h>

struct aliasplan;

enum aliasplan_status {
    ALIASPLAN_DONE,
    ALIASPLAN_ADDRESS, /* an address has CR or LF, and nothing was sent */
    ALIASPLAN_ENDED,   /* the planner ended, or wrote what is no answer, at its start or twice without an answer in between */
    ALIASPLAN_SYSTEM   /* a call of the system failed, or memory ran out: errno says which */
};

struct aliasplan_envelope {
    const char *sender;
    const char *const *recipients;
    size_t recipient_count;
};

/* Bytes of an answer; a zero byte stands behind them. */
struct aliasplan_text {
    char *bytes;
    size_t length;
};

struct aliasplan_texts {
    struct aliasplan_text *items;
    size_t count;
};

/* One mail transaction to make; the hosts stand in the order in which they are tried. */
struct aliasplan_transaction {
    struct aliasplan_text sender, transport, nexthop;
    struct aliasplan_texts hosts, recipients;
};

/* A plan: transactions, and findings, the words behind `finding `. Or why there is none: the words behind `refused `, where its bytes
 * aren't NULL. aliasplan_free frees what it holds. */
struct aliasplan_answer {
    struct aliasplan_text refusal;
    struct aliasplan_transaction *transactions;
    size_t transaction_count;
    struct aliasplan_texts findings;
    void *memory;
};

/* Starts a planner. `options` are further words of the command line, up to NULL, or it is NULL itself; none that changes the form of the
 * answers. What the planner says on standard error goes where that of this process goes. */
enum aliasplan_status aliasplan_start(struct aliasplan **planner, const char *program, const char *tables, const char *const *options);

/* The answer to one envelope. A planner that dies is started again and asked anew. */
enum aliasplan_status aliasplan_ask(struct aliasplan *planner, const struct aliasplan_envelope *envelope, struct aliasplan_answer *answer);

/* The answers to envelopes, in their order; none waits for the answer to the one before. Where it fails there are no answers to free. */
enum aliasplan_status aliasplan_ask_many(struct aliasplan *planner, const struct aliasplan_envelope *envelopes, size_t count, struct aliasplan_answer *answers);

/* Has the file of tables read anew. Either `sum` is set, the SHA-256 of the file that holds from now on, or `refusal`, why the tables stay
 * as they were; the other is NULL. The caller frees them. */
enum aliasplan_status aliasplan_change_tables(struct aliasplan *planner, char **sum, char **refusal);

void aliasplan_free(struct aliasplan_answer *answer);

/* Ends the planner and frees it; NULL is no planner. */
void aliasplan_end(struct aliasplan *planner);

#endif
