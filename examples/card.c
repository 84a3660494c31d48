/*
 * A card that is no memory: a simulated part that takes one byte at a time. A month of two transmitters goes onto it by the stores that the
 * core tells, once for every store of the month with the power gone after just that store. The card is then read back and the month goes on.
 * At the end the listing must be the one made from the replies alone: a line for each save that was finished, "spoiled" for the one that
 * was cut, nothing else.
 *
 * ./build-library && examples/run
 */
#include "sisalcove.h"

#include <stdio.h>
#include <stdlib.h>
#include <string.h>

enum { DAYS = 31, SAVES = DAYS * 2 * 2, SLOTS = 128, CARD_BYTES = SLOTS * SISAL_SLOT_BYTES };

/* ---- the part -------------------------------------------------------------------------------------------------------------------- */

/* It has power for so many stores; a store without power fails and changes nothing. */
struct part {
    uint8_t bytes[CARD_BYTES];
    size_t power;
};

static int part_write(struct part *part, size_t at, uint8_t byte)
{
    if (part->power == 0)
        return 0;
    part->power--;
    part->bytes[at] = byte;
    return 1;
}

/* ---- the host -------------------------------------------------------------------------------------------------------------------- */

static void want(int holds, const char *what)
{
    if (!holds) {
        fprintf(stderr, "card: %s\n", what);
        exit(1);
    }
}

/* The replies of the month, morning and evening: one transmitter tells its temperature, the other none, and is silent every third day. */
struct reply {
    uint32_t minute;
    uint16_t address;
    size_t bytes;
    uint8_t of[SISAL_REPLY_MOST_BYTES];
    char says[32]; /* what its line says behind the address */
};

static struct reply reply_of(int save)
{
    int day = save / 4, second = save % 2;
    struct reply r = {(uint32_t)(720 * (save / 2) + 360), (uint16_t)(second ? 310 : 7), 0, {0}, "fault 1"};
    if (second && day % 3 == 1)
        return r;
    uint16_t level = (uint16_t)(3000 - 20 * save);
    uint8_t kind = second ? SISAL_KIND_ABSENT : SISAL_KIND_DEGREES;
    struct sisal_done sent = sisal_write_reply(SISAL_MODE_DECIMAL, r.address, level, kind, -123, 0, 0, r.of, sizeof r.of);
    want(sent.number == SISAL_OK, "no reply");
    r.bytes = sent.count;
    if (second)
        snprintf(r.says, sizeof r.says, "%u - 0 0", (unsigned)level);
    else
        snprintf(r.says, sizeof r.says, "%u -123 0 0", (unsigned)level);
    return r;
}

/*
 * Saves a reply onto the part by the stores told, in their order; behind one that failed none follows. Answers how many were made. The copy
 * is what the host knows of the card: after a whole save the same save is made on it.
 */
static size_t save(struct part *part, uint8_t *copy, const struct reply *r)
{
    struct sisal_stores told =
        sisal_save_stores(copy, CARD_BYTES, SISAL_MODE_DECIMAL, r->minute, r->address, 8 * r->bytes, r->of, r->bytes);
    want(told.number == SISAL_OK, "no stores told");
    want(told.count == SISAL_STORES(r->bytes), "another number of stores");
    size_t made = 0;
    while (made < told.count && part_write(part, SISAL_SLOT_BYTES * told.slot + told.places[made], told.bytes[made]))
        made++;
    if (made < told.count)
        return made;
    struct sisal_done same =
        sisal_save(copy, CARD_BYTES, SISAL_MODE_DECIMAL, r->minute, r->address, 8 * r->bytes, r->of, r->bytes, SISAL_ALL_STORES);
    want(same.number == SISAL_OK && memcmp(copy, part->bytes, CARD_BYTES) == 0, "the copy is not the card");
    return made;
}

/* ---- what the listing has to be -------------------------------------------------------------------------------------------------- */

struct text {
    char of[SISAL_LISTING_BYTES(CARD_BYTES)];
    size_t bytes;
};

static void add(struct text *text, const char *line)
{
    size_t bytes = strlen(line);
    want(text->bytes + bytes <= sizeof text->of, "no room for a line");
    memcpy(text->of + text->bytes, line, bytes);
    text->bytes += bytes;
}

/* The month with the power gone once, after `cut` stores in all; the next save finds it back. Answers the stores of all saves. */
static size_t month(const struct reply *replies, size_t cut)
{
    struct part part;
    uint8_t copy[CARD_BYTES];
    static struct text text;
    char line[64];
    size_t all = 0;
    unsigned slot = 0, records = 0;
    text.bytes = 0;
    memset(part.bytes, 0xff, CARD_BYTES);
    memset(copy, 0xff, CARD_BYTES);
    part.power = cut;
    snprintf(line, sizeof line, "sheet %d\n", (int)SLOTS);
    add(&text, line);
    for (int i = 0; i < SAVES; i++) {
        const struct reply *r = &replies[i];
        size_t made = save(&part, copy, r);
        all += SISAL_STORES(r->bytes);
        if (made == SISAL_STORES(r->bytes)) {
            snprintf(line, sizeof line, "%u %u %u %s\n", slot++, (unsigned)r->minute, (unsigned)r->address, r->says);
            records++;
            add(&text, line);
        } else {
            if (made > 0) {
                snprintf(line, sizeof line, "%u spoiled\n", slot++);
                add(&text, line);
            }
            part.power = SIZE_MAX;                  /* the power comes back, */
            memcpy(copy, part.bytes, CARD_BYTES); /* and the card is read */
        }
    }
    snprintf(line, sizeof line, "records %u\n", records);
    add(&text, line);

    static uint8_t listing[SISAL_LISTING_BYTES(CARD_BYTES)];
    struct sisal_done listed = sisal_listing(part.bytes, CARD_BYTES, listing, sizeof listing);
    want(listed.number == SISAL_OK && listed.count == text.bytes && memcmp(listing, text.of, text.bytes) == 0,
         "the listing is another than the replies");
    return all;
}

int main(void)
{
    want(sisal_version() == SISAL_VERSION, "the archive belongs to another header");
    static struct reply replies[SAVES];
    for (int i = 0; i < SAVES; i++)
        replies[i] = reply_of(i);
    size_t all = month(replies, SIZE_MAX);
    for (size_t cut = 0; cut <= all; cut++)
        want(month(replies, cut) == all, "another month");
    printf("%d saves of %zu stores, cut after each of them in turn: every listing is the one made from the replies\n", (int)SAVES, all);
    return 0;
}
