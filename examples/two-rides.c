/* A run opens two ride batches, which both charge a depot. One posts and commits; the other worked from a card that
 * this changed, and fails, with its charge. */
#include "mundzavch.h"
#include <stdio.h>
#include <string.h>

/* All three start before one of them ends, so they get their numbers in the order of their starts; 0 is the store. */
enum { STORE, RUN, FIRST_BATCH, SECOND_BATCH };

/* A charge account: its card begins with an amount in cents, low byte first. */
enum { DEPOT = 24, AMOUNT_BYTES = 8, BYTE_BITS = 8 };

/* For the account and the card's bytes, where an event uses none. */
enum { NONE = 0 };

static uint64_t table[MUNDZAVCH_TABLE_WORDS];
static uint8_t base[MUNDZAVCH_BASE_BYTES], shadow[MUNDZAVCH_SHADOW_BYTES];

static void put_amount(uint8_t *card, int64_t cents)
{
    for (int i = 0; i < AMOUNT_BYTES; i++)
        card[i] = (uint8_t)((uint64_t)cents >> BYTE_BITS * i);
}

static int64_t amount(const uint8_t *card)
{
    uint64_t cents = 0;
    for (int i = 0; i < AMOUNT_BYTES; i++)
        cents |= (uint64_t)card[i] << BYTE_BITS * i;
    return (int64_t)cents;
}

/* The value is a charge's cents, or what each byte of a card holds. */
static void event(const char *what, uint64_t code, uint64_t number, uint64_t account, int64_t value)
{
    static const char *kinds[] = {"refused", "started", "read", "written", "committed", "failed", "aborted", "added",
                                  "read", "entered", "ready", "failed"};
    static const int numbers[] = {1, 1, 2, 0, 1, 2, 2, 0, 3, 0, 1, 1};
    uint8_t card[MUNDZAVCH_CARD_BYTES] = {0};
    uint64_t first, second, third;
    if (code == MUNDZAVCH_EVENT_ADD)
        put_amount(card, value);
    else
        memset(card, (int)value, sizeof card);
    uint64_t kind = mundzavch_event(table, MUNDZAVCH_TABLE_WORDS, base, sizeof base, shadow, sizeof shadow,
                                    code, number, account, card, sizeof card, &first, &second, &third);
    printf("%-32s %s", what, kinds[kind]);
    if (numbers[kind] > 0)
        printf(" %llu", (unsigned long long)first);
    if (numbers[kind] > 1)
        printf(" %llu", (unsigned long long)second);
    if (numbers[kind] > 2)
        printf(" %lld", (long long)(int64_t)third);
    printf("\n");
}

int main(void)
{
    mundzavch_open(table, MUNDZAVCH_TABLE_WORDS, MUNDZAVCH_RULE_BACKWARD);
    event("a run starts", MUNDZAVCH_EVENT_START, STORE, NONE, NONE);
    event("its first batch starts", MUNDZAVCH_EVENT_START, RUN, NONE, NONE);
    event("its second batch starts", MUNDZAVCH_EVENT_START, RUN, NONE, NONE);
    event("the first charges 5.00", MUNDZAVCH_EVENT_ADD, FIRST_BATCH, DEPOT, 500);
    event("the second takes 1.20 back", MUNDZAVCH_EVENT_ADD, SECOND_BATCH, DEPOT, -120);
    event("the second reads account 5", MUNDZAVCH_EVENT_READ, SECOND_BATCH, 5, NONE);
    event("the second posts on account 6", MUNDZAVCH_EVENT_WRITE, SECOND_BATCH, 6, 9);
    event("the first posts on account 5", MUNDZAVCH_EVENT_WRITE, FIRST_BATCH, 5, 7);
    event("the run may not read meanwhile", MUNDZAVCH_EVENT_READ, RUN, 5, NONE);
    event("the first commits", MUNDZAVCH_EVENT_COMMIT, FIRST_BATCH, NONE, NONE);
    event("the second asks to commit", MUNDZAVCH_EVENT_COMMIT, SECOND_BATCH, NONE, NONE);
    event("the run reads the depot", MUNDZAVCH_EVENT_READ, RUN, DEPOT, NONE);
    event("the run commits", MUNDZAVCH_EVENT_COMMIT, RUN, NONE, NONE);
    printf("account 5 holds %d, account 6 %d, the depot %lld cents\n", base[MUNDZAVCH_CARD_BYTES * 5],
           base[MUNDZAVCH_CARD_BYTES * 6], (long long)amount(base + MUNDZAVCH_CARD_BYTES * DEPOT));
    printf("topactions' counter %llu, subactions' counter %llu\n",
           (unsigned long long)mundzavch_top_counter(table, MUNDZAVCH_TABLE_WORDS),
           (unsigned long long)mundzavch_sub_counter(table, MUNDZAVCH_TABLE_WORDS));
    return 0;
}
