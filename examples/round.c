/*
 * Morning rounds over libsisalcove.a: six made-up transmitters, one of them silent, are polled and saved in one call each morning, with
 * the desk's summary kept beside the card. One morning the power goes in the middle of the round, and the replies that were not closed are
 * saved again; the card is small, so that the last round finds it full. At the end it prints the listing of the card and the summary, which
 * is the one worked out from the card.
 *
 * ./build-library && examples/run
 */
#include "sisalcove.h"

#include <stdio.h>
#include <stdlib.h>
#include <string.h>

enum { TRANSMITTERS = 6, SLOTS = 16, SILENT = 4 };

static uint8_t card[SLOTS * SISAL_SLOT_BYTES];
static struct sisal_summary page;

/* A host that is refused what it never should be has a mistake in itself. */
static void want(int holds, const char *what)
{
    if (!holds) {
        fprintf(stderr, "round: %s\n", what);
        exit(1);
    }
}

/* A reply as a round has it; the silent transmitter gives none. */
static struct sisal_polled ask(uint32_t minute, int day, int which)
{
    struct sisal_polled polled = {minute, 0, 0, (uint16_t)(101 + which), SISAL_MODE_DECIMAL, 0, {0}};
    if (which != SILENT) {
        uint16_t level = (uint16_t)(3000 + 100 * which - 61 * day);
        struct sisal_done sent = sisal_write_reply(polled.settings, polled.address, level, SISAL_KIND_ABSENT, 0, 0, 0, polled.reply, 8);
        want(sent.number == SISAL_OK, "no reply");
        polled.bytes = (uint32_t)sent.count;
        polled.count = 8 * polled.bytes;
    }
    return polled;
}

static struct sisal_round morning(int day)
{
    struct sisal_round round;
    memset(&round, 0, sizeof round);
    for (int i = 0; i < TRANSMITTERS; i++)
        round.replies[round.count++] = ask((uint32_t)(1440 * day + 360), day, i);
    return round;
}

/* The replies behind the closed ones. */
static struct sisal_round rest(struct sisal_round round, size_t closed)
{
    memmove(round.replies, round.replies + closed, (round.count - closed) * sizeof round.replies[0]);
    round.count -= closed;
    return round;
}

static size_t save(struct sisal_round round, size_t allowance)
{
    struct sisal_rounded rounded = sisal_page_save_round(&page, card, sizeof card, &round, allowance);
    printf("%zu replies: closed %zu, stores %zu, %s\n", round.count, rounded.closed, rounded.stores, sisal_number_text(rounded.number));
    return rounded.closed;
}

int main(void)
{
    want(sisal_version() == SISAL_VERSION, "another archive");
    memset(card, 0xff, sizeof card);
    want(sisal_page_of(&page, card, sizeof card) == SISAL_OK, "no page");

    printf("the first morning: ");
    save(morning(0), SISAL_ALL_STORES);

    printf("the second, cut after 40 stores: ");
    size_t closed = save(morning(1), 40);
    printf("the power comes back, and the rest is saved: ");
    want(sisal_page_of(&page, card, sizeof card) == SISAL_OK, "no page");
    save(rest(morning(1), closed), SISAL_ALL_STORES);

    printf("the third finds the card full: ");
    save(morning(2), SISAL_ALL_STORES);
    printf("with no stores nothing is tried: ");
    save(morning(2), 0);
    struct sisal_round large = morning(2);
    large.count = SISAL_ROUND_REPLIES + 1;
    printf("too many: ");
    save(large, SISAL_ALL_STORES);

    static uint8_t text[SISAL_LISTING_BYTES(sizeof card)];
    struct sisal_done listing = sisal_listing(card, sizeof card, text, sizeof text);
    want(listing.number == SISAL_OK, "no listing");
    fwrite(text, 1, listing.count, stdout);

    struct sisal_made made = sisal_summary_of(card, sizeof card);
    want(made.number == SISAL_OK && memcmp(&made.summary, &page, sizeof page) == 0, "the summary kept is not that of the card");
    for (uint32_t i = 0; i < page.count; i++) {
        const struct sisal_line *line = &page.lines[i];
        printf("%u: ", (unsigned)line->address);
        if (line->lowest == SISAL_NO_LEVEL)
            printf("no level");
        else
            printf("%u to %u", (unsigned)line->lowest, (unsigned)line->highest);
        printf(", %u good, %u faulty\n", (unsigned)line->good, (unsigned)line->faulty);
    }
    return 0;
}
