/* Every short day of five events or fewer, run under each rule: how many there are, how many commits pass and how many fail. */
#include "mundzavch.h"
#include <stdio.h>
#include <string.h>

enum { LONGEST = 5 };

static uint64_t table[MUNDZAVCH_TABLE_WORDS], answers[LONGEST * MUNDZAVCH_ANSWER_WORDS];
static uint8_t base[MUNDZAVCH_BASE_BYTES], shadow[MUNDZAVCH_SHADOW_BYTES], list[MUNDZAVCH_SHORT_BYTES];

/* Runs the list on a new table over stores of zeros. */
static void run(uint64_t events, uint64_t rule)
{
    memset(base, 0, sizeof base);
    memset(shadow, 0, sizeof shadow);
    mundzavch_open(table, MUNDZAVCH_TABLE_WORDS, rule);
    mundzavch_run(table, MUNDZAVCH_TABLE_WORDS, base, sizeof base, shadow, sizeof shadow, list,
                  events * MUNDZAVCH_EVENT_BYTES, answers, events * MUNDZAVCH_ANSWER_WORDS);
}

/* How many answers of the list just run are of this kind. */
static uint64_t count(uint64_t events, uint64_t kind)
{
    uint64_t many = 0;
    for (uint64_t i = 0; i < events; i++)
        many += answers[i * MUNDZAVCH_ANSWER_WORDS] == kind;
    return many;
}

static void try_all(uint64_t events, uint64_t rule)
{
    uint64_t place = 0, committed = 0, failed = 0, refusal;
    while (mundzavch_short_day(events, rule, place, list, &refusal) == MUNDZAVCH_SHORT_DAY_GIVEN) {
        run(events, rule);
        committed += count(events, MUNDZAVCH_ANSWER_COMMITTED);
        failed += count(events, MUNDZAVCH_ANSWER_FAILED);
        place++;
    }
    printf("rule %d, %d events: %4d short days, %4d commits passed, %d failed\n", (int)rule, (int)events, (int)place,
           (int)committed, (int)failed);
}

int main(void)
{
    for (uint64_t rule = MUNDZAVCH_RULE_BACKWARD; rule <= MUNDZAVCH_RULE_FORWARD; rule++)
        for (uint64_t events = 0; events <= LONGEST; events++)
            try_all(events, rule);
    return 0;
}
