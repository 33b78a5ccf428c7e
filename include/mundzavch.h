/* Overlapping postings: the ledger engine's open calls, for C and whatever calls C.
 *
 * The caller owns all memory; the library keeps no pointer, allocates nothing and has no state of its own. Each pointer
 * is valid for its length and not NULL, also where the length is 0: an event that uses no card still needs a card
 * pointer. No two of a call's parts that it may change overlap each other or anything else that is passed. Lengths may
 * be any: a wrong one is refused, as is any content. A call that is refused leaves the table and both stores as they
 * were. No call fails in another way.
 *
 * Stack that a call takes: about 36 KB for a day and 210 KB for a short day, which has a ledger of its own; at most 3.6 KB
 * for an event, its cause or a list and 3.2 KB for a look. Where 64 actions lie one below the other a tree takes about
 * 7 KB and a day's tree 50 KB, as its walk calls itself for each level.
 *
 * Numbers of the refusals:
 *    1  the base store is not 1,024 bytes, or the shadow store not 65,536
 *    2  the table is not sound, or not MUNDZAVCH_TABLE_WORDS long
 *    3  the event's code is not 1 to 8
 *    4  the number is above the highest number, or 0 where the event is no start
 *    5  the number names an action that is not live
 *    6  a start when no number is free
 *    7  a read, a write or an add, and the account is above 31
 *    8  a write or an add, and the card is not 32 bytes
 *    9  a read, a write, a commit, an add or an enter while a child of the action is live
 *   10  a day file, or a list of events, that is too short or too long; a list's answers have no room
 *   11  a day file's count is above its limit
 *   12  a day file's opening accounts do not rise, or one is above 31
 *   13  an add to an account below 24, or a write to one from 24 on
 *   14  an add of an amount below -1,000,000 or above 1,000,000
 *   15  a sum that 64 signed bits do not hold: the pending sum or the own adds that an add would leave, the sum that a
 *       read would give, or one that a commit which does not fail would leave at the parent or in the store, pending
 *       or kept, where the action stays live; or a total of a tree
 *   16  any event but a judge or an abort, and the number names an action in a queue
 *   17  a judge, and the action is not in its queue, or is ready already
 *   18  a commit while the queue for that kind of action is not empty
 *   19  a commit or an enter when the counter of that kind of action and the length of its queue come to 4,000,000,000
 *   20  an opening, or a short day, under a rule that is neither 1 nor 2
 *   21  an enter or a judge, and the table is under rule 2
 *   25  a short day of more than 6 events
 * An event's refusals are asked in the order 1 to 3, 21, 4 to 8, 13, 14, 9, 16 to 19, 15, and the first that applies is
 * given. A list asks 1, 2, then 10, an opening 2, then 20, a short day 20, then 25. A day asks 1, then 2 for the table's length alone, then its
 * file, in an order of its own: 10 where it is empty, 11 for the count of cards, 10 where it ends before the count of
 * events, 11 for that count, 10 for its length, 12 for its accounts. So a file of the one byte 33 is cut, and is
 * refused 11. A tree asks 1, also for the opening store, then 2, then 15; a day's tree asks 1 likewise, and then what a
 * day asks.
 *
 * A table judges commits by one of two rules, from its opening on. Under rule 1 it judges backwards: a commit fails
 * where a child of the action's parent has committed what the action had read before. Under rule 2 it judges forwards:
 * a commit fails where an action that is still live below its parent, whoever it is but itself, has read what it would
 * change, so that it is the writer who gives way; there are no queues under rule 2. Both give every read of an action
 * that is committed all the way up the card that it would be given if such actions ran one after the other.
 *
 * Numbers are given again, so a table may see any number of actions. A start gives the lowest number that is free, and
 * a number means the action that got it last. It is free where it was never given, or where its action has finished and
 * is not needed to judge others. Needed is an action that committed what it had written, while its parent is the store
 * or live, and a live action below that parent (below the store: any) has read something, whatever it was, before it
 * ended. So an action that has read and then does nothing may keep the numbers of all that commit after it, until it
 * ends itself. No verdict comes out otherwise because a number was given again, and no card or sum is lost by it.
 *
 * Accounts 24 to 31 are charge accounts. The first 8 bytes of such a card are an amount in cents, a signed 64-bit
 * number in two's complement, low byte first; the other 24 are the caller's own. An add joins the action's pending sum,
 * which a commit adds to the parent's, or to the amount in the base store. For the tree a commit also adds the action's
 * total, which is its own adds and the totals of its committed children, to a sum that is kept for the parent, or for
 * the store.
 *
 * There are two kinds of action: topactions, whose parent is the store, and subactions, which are all others. Each kind
 * has a counter and a queue of its own. A commit that has written raises the counter of its action's kind by 1, and
 * that is its end time. The two counters run apart: a topaction and a subaction may have the same end time, and neither
 * time says which of the two committed first.
 *
 * In place of a commit an action may enter the queue of its kind, where it does nothing more and waits. Whether it has
 * failed is settled as it enters, against the children of its parent that have committed or wait before it, and a judge
 * reveals it: one that failed is taken out and aborted, any other is ready. Then the head of that queue leaves while it
 * is ready: it commits, or is aborted where 64 signed bits do not hold a sum that its commit would leave. After an
 * abort the topactions' head leaves so, and after all of them the subactions'. The answer says how many left, and none
 * says who: a caller sees that only by what is live afterwards, for instance by the states in the lines of
 * mundzavch_tree.
 */
#ifndef MUNDZAVCH_H
#define MUNDZAVCH_H

#include <stddef.h>
#include <stdint.h>

#ifdef __cplusplus
extern "C" {
#endif

/* Sizes. compare/build.rs reads these lines, and the values of the three enums below: plain numbers, one to a line. */
#define MUNDZAVCH_ACTIONS 64          /* that have a number at a time: 1 to 64 */
#define MUNDZAVCH_ACCOUNTS 32         /* numbered from 0 */
#define MUNDZAVCH_ROW_WORDS 161       /* uint64_t words in a row of a table: a head, then a row for each number, with
                                         as many places of each queue */
#define MUNDZAVCH_TABLE_WORDS 10465   /* uint64_t words in a table */
#define MUNDZAVCH_CARD_BYTES 32
#define MUNDZAVCH_BASE_BYTES 1024     /* byte 32 k is the first of account k's card */
#define MUNDZAVCH_SHADOW_BYTES 65536  /* byte 1024 (n - 1) + 32 k is the first of action n's card for account k */
#define MUNDZAVCH_EVENT_BYTES 35      /* in a list or a day file: code, number, account, a byte each, then the card */
#define MUNDZAVCH_ANSWER_WORDS 4      /* in a list's answers: kind, first, second, third */
#define MUNDZAVCH_LISTING_BYTES 81920 /* every day's listing fits, and every day's tree */
#define MUNDZAVCH_REPORT_WORDS 1248   /* in the report of a tree */
#define MUNDZAVCH_LINE_WORDS 19       /* in an action's line there: depth, number, state, then own adds and total of
                                         each of the accounts 24 to 31 */
#define MUNDZAVCH_BLOCK_AT 1216       /* where its last block begins */
#define MUNDZAVCH_BLOCK_WORDS 4       /* in a line of the last block: account, opening, sum, closing */
#define MUNDZAVCH_SHORT_EVENTS 6      /* that a short day has at most */
#define MUNDZAVCH_SHORT_BYTES 210     /* in a list of as many events */

/* The rules by which a table may judge commits. */
enum {
    MUNDZAVCH_RULE_BACKWARD = 1,
    MUNDZAVCH_RULE_FORWARD = 2
};

/* Codes of the events. `number` is the action, or the parent for a start, 0 for the store. */
enum {
    MUNDZAVCH_EVENT_START = 1,
    MUNDZAVCH_EVENT_READ = 2,
    MUNDZAVCH_EVENT_WRITE = 3,
    MUNDZAVCH_EVENT_COMMIT = 4,
    MUNDZAVCH_EVENT_ABORT = 5,
    MUNDZAVCH_EVENT_ADD = 6,   /* of the amount in the first 8 bytes of the card, whose others are not looked at */
    MUNDZAVCH_EVENT_ENTER = 7, /* the queue of the action's kind, behind its tail */
    MUNDZAVCH_EVENT_JUDGE = 8  /* an action in its queue, wherever it stands there */
};

/* Kinds of answers, with what `first`, `second` and `third` are. A number that a kind does not have is 0. */
enum {
    MUNDZAVCH_ANSWER_REFUSED = 0,       /* first: the number of the refusal */
    MUNDZAVCH_ANSWER_STARTED = 1,       /* first: the new action's number */
    MUNDZAVCH_ANSWER_READ = 2,          /* first: the action whose card was read, 0 for the base store;
                                           second: how many moves up it was found, 0 for the action's own card */
    MUNDZAVCH_ANSWER_WRITTEN = 3,
    MUNDZAVCH_ANSWER_COMMITTED = 4,     /* first: the end time, of the action's kind; 0 where nothing was written */
    MUNDZAVCH_ANSWER_FAILED = 5,        /* a commit, and the action is aborted. Under rule 1, first: the end time, of
                                           the action's kind, of the commit that it clashes with; under rule 2, first:
                                           the number of the lowest live action that has read what it would change;
                                           second: the account */
    MUNDZAVCH_ANSWER_ABORTED = 6,       /* first: how many actions became aborted; second: how many then left the two
                                           queues, which the first does not count */
    MUNDZAVCH_ANSWER_ADDED = 7,
    MUNDZAVCH_ANSWER_READ_SUM = 8,      /* a read of a charge account; first: 0, for the base store; second: how many
                                           moves up that is; (int64_t)third: the base amount and the pending sums of
                                           the action and of every action above it */
    MUNDZAVCH_ANSWER_ENTERED = 9,
    MUNDZAVCH_ANSWER_READY = 10,        /* first: how many then left the action's queue, itself too where it did */
    MUNDZAVCH_ANSWER_JUDGED_FAILED = 11 /* a judge, and the action is aborted; first: how many then left its queue,
                                           which does not count it */
};

/* What mundzavch_short_day returns. */
enum {
    MUNDZAVCH_SHORT_DAY_REFUSED = 0,
    MUNDZAVCH_SHORT_DAY_GIVEN = 1,
    MUNDZAVCH_SHORT_DAY_NONE = 2 /* the place is past the last */
};

/* Makes a new table of the words, whatever they held, under a rule that it keeps. Returns 0; or 20 where that is no
 * rule, and the table is a new one under rule 1; or 2 where `words` is not MUNDZAVCH_TABLE_WORDS, and they stay. */
uint64_t mundzavch_open(uint64_t *table, size_t words, uint64_t rule);

/* The highest number given so far, which never falls, the topactions' counter and the subactions': 0 where a table is
 * too short to have them. */
uint64_t mundzavch_highest(const uint64_t *table, size_t words);
uint64_t mundzavch_top_counter(const uint64_t *table, size_t words);
uint64_t mundzavch_sub_counter(const uint64_t *table, size_t words);

/* One event. An event ignores the parts that it does not use. Returns the answer's kind; its numbers are in *first,
 * *second and *third. Refusals: 1 to 9, 13 to 19 and 21. */
uint64_t mundzavch_event(uint64_t *table, size_t words, uint8_t *base, size_t base_bytes, uint8_t *shadow,
                         size_t shadow_bytes, uint64_t code, uint64_t number, uint64_t account, const uint8_t *card,
                         size_t card_bytes, uint64_t *first, uint64_t *second, uint64_t *third);

/* The number with which the event would be refused now, 0 where it would not be. Nothing is changed. */
uint64_t mundzavch_cause(const uint64_t *table, size_t words, const uint8_t *base, size_t base_bytes,
                         const uint8_t *shadow, size_t shadow_bytes, uint64_t code, uint64_t number, uint64_t account,
                         const uint8_t *card, size_t card_bytes);

/* The card that a read of this action and account would be given now, copied to the 32 bytes at `card`, and in *moves
 * how many moves up it was found; nothing is recorded. Of a charge account it is the base card as it stands, without
 * pending sums. Returns 0, or the number with which the read would be refused (1, 2, 4, 5, 7, 9, 15 or 16); then
 * `card` stays, and *moves is 0. */
uint64_t mundzavch_look(const uint64_t *table, size_t words, const uint8_t *base, size_t base_bytes,
                        const uint8_t *shadow, size_t shadow_bytes, uint64_t number, uint64_t account, uint8_t *card,
                        uint64_t *moves);

/* A list of events, MUNDZAVCH_EVENT_BYTES to each, one after the other: code, number and account are one byte each
 * here, and the card has its 32. Each event's answer, refused ones too, is MUNDZAVCH_ANSWER_WORDS words of `answers`,
 * whose words behind them stay. Returns 0, or why nothing was run: 1, 2 or 10. */
uint64_t mundzavch_run(uint64_t *table, size_t words, uint8_t *base, size_t base_bytes, uint8_t *shadow,
                       size_t shadow_bytes, const uint8_t *events, size_t events_bytes, uint64_t *answers,
                       size_t answers_words);

/* A whole day file, run on a new table under rule 1 over its opening cards. Of the table only the length is asked: what
 * it held may be anything, sound or not. The whole base store is replaced, by zeros where the file names no card; bytes
 * of the shadow store that nothing writes stay. Returns the length of the day's listing, which stands at the front of
 * the MUNDZAVCH_LISTING_BYTES bytes at `listing`; those behind it stay. A day that is refused (1, 2, 10, 11 or 12) lists
 * one line, `refused` and the number; table and stores stay. */
size_t mundzavch_day(const uint8_t *file, size_t file_bytes, uint64_t *table, size_t words, uint8_t *base,
                     size_t base_bytes, uint8_t *shadow, size_t shadow_bytes, uint8_t *listing);

/* The tree of a table: what each action added to the charge accounts itself and with its committed children, and that
 * opening and sum make closing. Nothing is changed but the report. `opening` is the base store as it stood when the
 * table was new, MUNDZAVCH_BASE_BYTES of it. *lines is how many action lines stand at the front of the report: one for
 * each action that has its number still, and whose parents, all the way up, have theirs. An action's line is directly
 * above those of its children, and children come by rising number, which may be below their parent's; a figure is an
 * int64_t. A committed child whose number was given again stays in its parent's total, and the sums of the last block
 * are those of all topactions that committed since the table was new. Words between the lines and the last block stay.
 * Returns 0, or why there is no report (1, 2 or 15); then the report stays, and *lines is 0. */
uint64_t mundzavch_tree(const uint64_t *table, size_t words, const uint8_t *base, size_t base_bytes,
                        const uint8_t *shadow, size_t shadow_bytes, const uint8_t *opening, size_t opening_bytes,
                        uint64_t *report, uint64_t *lines);

/* A whole day file, run as mundzavch_day runs it; `opening` becomes its opening base store. Returns the length of its
 * tree as text, which stands at the front of the MUNDZAVCH_LISTING_BYTES bytes at `text`; those behind it stay. A day
 * that is refused (1, 2, 10, 11 or 12) has one line, `refused` and the number; table, stores and `opening` stay. */
size_t mundzavch_day_tree(const uint8_t *file, size_t file_bytes, uint64_t *table, size_t words, uint8_t *base,
                          size_t base_bytes, uint8_t *shadow, size_t shadow_bytes, uint8_t *opening,
                          size_t opening_bytes, uint8_t *text);

/* All short days, one by one, to try both rules on. A short day is a list of `events` events, 0 to 6, of the codes 1 to 5
 * on account 0, none of which is refused on a new table under `rule` over stores of zeros; the card of a write is filled
 * with its place in the list, from 1, and any other card with 0. There are 1, 1, 6, 33, 253, 2,320 and 25,129 of 0, 1 and
 * up to 6 events. Of two the one comes first that has the lower code where they first differ, or the lower number. The
 * one at `place`, from 0, is put at the front of the MUNDZAVCH_SHORT_BYTES bytes at `list`, as mundzavch_run takes it,
 * and those behind it stay. Returns whether it was given; where there is none, or the call is refused, the list stays.
 * *refusal is 20 or 25 where it is refused, and else 0. Each call searches from the first list on: the last one takes
 * some milliseconds. */
uint64_t mundzavch_short_day(uint64_t events, uint64_t rule, uint64_t place, uint8_t *list, uint64_t *refusal);

#ifdef __cplusplus
}
#endif

#endif
