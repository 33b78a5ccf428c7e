/* One list of events under each rule. Two runs overlap; one posts on a card that the other has read. Backwards it is the reader
 * who fails, forwards the writer. */
#include "mundzavch.h"
#include <stdio.h>
#include <string.h>

enum { STORE, WRITER, READER };
enum { CARD = 5, NONE = 0 };

/* Where an event's parts stand among its bytes. */
enum { CODE_AT, NUMBER_AT, ACCOUNT_AT };

static const struct {
    const char *what;
    uint8_t code, number, account;
} steps[] = {
    {"a writer starts", MUNDZAVCH_EVENT_START, STORE, NONE},
    {"a reader starts", MUNDZAVCH_EVENT_START, STORE, NONE},
    {"the reader reads account 5", MUNDZAVCH_EVENT_READ, READER, CARD},
    {"the writer posts on it", MUNDZAVCH_EVENT_WRITE, WRITER, CARD},
    {"the writer asks to commit", MUNDZAVCH_EVENT_COMMIT, WRITER, NONE},
    {"the reader asks to commit", MUNDZAVCH_EVENT_COMMIT, READER, NONE},
};

enum { STEPS = sizeof steps / sizeof steps[0] };

static uint64_t table[MUNDZAVCH_TABLE_WORDS], answers[STEPS * MUNDZAVCH_ANSWER_WORDS];
static uint8_t base[MUNDZAVCH_BASE_BYTES], shadow[MUNDZAVCH_SHADOW_BYTES], events[STEPS * MUNDZAVCH_EVENT_BYTES];

static void say(const char *what, const uint64_t *answer)
{
    unsigned long long first = answer[1], second = answer[2];
    switch (answer[0]) {
    case MUNDZAVCH_ANSWER_COMMITTED:
        printf("%-28s committed %llu\n", what, first);
        break;
    case MUNDZAVCH_ANSWER_FAILED:
        printf("%-28s failed %llu %llu\n", what, first, second);
        break;
    default:
        printf("%s\n", what);
    }
}

static void run_under(const char *name, uint64_t rule)
{
    memset(base, 0, sizeof base);
    mundzavch_open(table, MUNDZAVCH_TABLE_WORDS, rule);
    mundzavch_run(table, MUNDZAVCH_TABLE_WORDS, base, sizeof base, shadow, sizeof shadow, events, sizeof events, answers,
                  STEPS * MUNDZAVCH_ANSWER_WORDS);
    printf("%s\n", name);
    for (int i = 0; i < STEPS; i++)
        say(steps[i].what, answers + i * MUNDZAVCH_ANSWER_WORDS);
}

int main(void)
{
    for (int i = 0; i < STEPS; i++) {
        uint8_t *event = events + i * MUNDZAVCH_EVENT_BYTES;
        event[CODE_AT] = steps[i].code;
        event[NUMBER_AT] = steps[i].number;
        event[ACCOUNT_AT] = steps[i].account;
    }
    run_under("rule 1, backwards", MUNDZAVCH_RULE_BACKWARD);
    run_under("rule 2, forwards", MUNDZAVCH_RULE_FORWARD);
    return 0;
}
