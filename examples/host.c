/*
 * A small host over libsisalcove.a: a month of mornings at a depot with three made-up transmitters. Each morning the recorder runs its
 * round: the host drives the lines as it is told, senses them, and hands over what it sensed, until the round is over. Then it saves the
 * round beside the desk's summary, and lets the board hear each reply. One reply is damaged by its transmitter, one does not come, one is
 * spoiled by a spike and asked for again, one line stays low, and the power goes twice: in the middle of a save, and in the middle of a
 * round. At the end it prints the listing of the card and how the transmitters stand on the board.
 *
 * It is the promise "from the tank to the desk" run once: beside the card it keeps what the listing is to say, from what the
 * transmitters said and where the power went alone, and compares the two at the end.
 * examples/desk.c is a day of the board's own calls, examples/round.c has more of rounds that are cut.
 *
 * ./build-library && examples/run
 */
#include "sisalcove.h"

#include <stdarg.h>
#include <stdio.h>
#include <stdlib.h>
#include <string.h>

/* A host that is refused what it never should be has a mistake in itself. */
static void want(int holds, const char *what)
{
    if (!holds) {
        fprintf(stderr, "host: %s\n", what);
        exit(1);
    }
}

/* ---- three made-up transmitters, and the lines --------------------------------------------------------------------------------------- */

struct transmitter {
    uint16_t address;
    uint8_t settings;
    uint16_t level; /* on the first day, */
    uint16_t a_day; /* what is drawn each day, */
    uint8_t kind;   /* and the temperature, if it tells one */
    int16_t tenths;
    size_t low;     /* samples of its pulses, */
    size_t still;   /* and of the idle after each */
    char says[32];  /* what the listing is to say of its last answer, behind the address */
};

static struct transmitter site[] = {
    /* a Model 1900 that tells hundredths of a foot */
    {7, SISAL_MODE_DECIMAL, 3000, 61, SISAL_KIND_DEGREES, -123, 4, 5, ""},
    /* a Model 1800 that tells millimetres, with odd parity; it is warmer than it can tell */
    {310, SISAL_MODE_20_M | SISAL_TYPE_1800 | SISAL_ODD_PARITY, 9999, 217, SISAL_KIND_ABOVE, 0, 7, 9, ""},
    /* one that tells sixteenths of an inch, and no temperature */
    {742, SISAL_MODE_FRACTIONAL, 15000, 333, SISAL_KIND_ABSENT, 0, 5, 3, ""},
};

enum { TRANSMITTERS = sizeof site / sizeof site[0], DAYS = 31, PORT = 100, LEAD = 25, SPIKE = 90 };

/* The pace of a round, in samples. The transmitters' ears go by the same numbers as the recorder's. */
static const struct sisal_pace pace = {
    .low = 5, .still = 6, .delay = 60, .least = 3, .most = 8, .gap = 40, .wait = 200, .longest = 2000, .tries = 2};

/* What comes on the lines after a poll: samples, and then one for ever. */
static struct {
    uint8_t samples[1024];
    size_t count, at;
    uint8_t then;
} wire;
static struct sisal_lines_so_far ear; /* what the transmitters heard of a poll */
static int today;

/* Every transmitter hears every poll; the one whose address it is answers. */
static void answer(const struct sisal_lines_told *poll)
{
    static int spiked;
    struct sisal_poll asked = sisal_read_poll(poll->message, SISAL_REPLY_BYTES(poll->count));
    memset(&wire, SISAL_SAMPLE_IDLE, sizeof wire);
    for (struct transmitter *t = site; asked.number == SISAL_OK && t < site + TRANSMITTERS; t++) {
        if (t->address != asked.address)
            continue;
        uint8_t bytes[SISAL_REPLY_56_BYTES];
        uint16_t level = (uint16_t)(t->level - today * t->a_day);
        uint8_t low = level < 1500;
        struct sisal_done sent = sisal_write_reply(t->settings, t->address, level, t->kind, t->tenths, 0, low, bytes, sizeof bytes);
        if (t->kind == SISAL_KIND_DEGREES)
            snprintf(t->says, sizeof t->says, "%u %d 0 %u", level, t->tenths, low);
        else
            snprintf(t->says, sizeof t->says, "%u %s 0 %u", level, t->kind == SISAL_KIND_ABOVE ? "above" : "-", low);
        int silent = t->address == 7 && today == 11, stuck = t->address == 742 && today == 25;
        if (silent || stuck) {
            wire.then = stuck ? SISAL_SAMPLE_MARK : SISAL_SAMPLE_IDLE;
            strcpy(t->says, "fault 1");
            return;
        }
        if (t->address == 310 && today == 4) {
            bytes[2] ^= 0x10; /* a bit turned over: no reading any more, but a message; it is not asked for again */
            strcpy(t->says, "fault 5");
        }
        struct sisal_done drawn =
            sisal_draw(t->low, t->still, 8 * sent.count, bytes, sent.count, 0, wire.samples + LEAD, sizeof wire.samples - LEAD);
        want(sent.number == SISAL_OK && drawn.number == SISAL_OK, "no reply");
        wire.count = LEAD + drawn.count;
        if (t->address == 310 && today == 20 && !spiked++)
            wire.samples[SPIKE] = SISAL_SAMPLE_BOTH;
    }
}

/* The recorder drives the lines. */
static void drive(const uint8_t *port, size_t count)
{
    struct sisal_lines_told told = sisal_lines_hear(&ear, pace.least, pace.most, pace.gap, port, count);
    want(told.number == SISAL_OK && told.taken == count, "a poll was spoiled");
}

/* The recorder senses the lines, in uneven batches, as a driver might have them. */
static size_t sense(uint8_t *port)
{
    static size_t batch = 1;
    if (ear.count > 0) { /* nobody drives any more: the gap closes the poll */
        static const uint8_t gap[64] = {SISAL_SAMPLE_IDLE};
        struct sisal_lines_told poll = sisal_lines_hear(&ear, pace.least, pace.most, pace.gap, gap, sizeof gap);
        answer(&poll);
    }
    batch = batch * 5 % 97 + 1;
    for (size_t i = 0; i < batch; i++)
        port[i] = wire.at < wire.count ? wire.samples[wire.at++] : wire.then;
    return batch;
}

/* ---- what the listing is to be: the card is not looked at for it --------------------------------------------------------------------- */

static char expected[SISAL_LISTING_BYTES(SISAL_SHEET_BYTES)];
static size_t expected_bytes;
static unsigned slots, records;

static void expect(const char *format, ...)
{
    va_list values;
    va_start(values, format);
    int put = vsnprintf(expected + expected_bytes, sizeof expected - expected_bytes, format, values);
    va_end(values);
    want(put > 0, "nothing to expect");
    expected_bytes += (size_t)put;
}

/* ---- the host ------------------------------------------------------------------------------------------------------------------------ */

static uint8_t card[SISAL_SHEET_BYTES];
static struct sisal_row board[SISAL_ROWS];
static struct sisal_summary page;

/* Board, summary and a round under way stand in memory that a power cut clears; the card keeps what is on it. */
static void power_on(void)
{
    memset(board, 0, sizeof board);
    memset(&ear, 0, sizeof ear);
    for (int i = 0; i < TRANSMITTERS; i++)
        want(sisal_board_enrol(SISAL_ROWS_OF(board), site[i].settings, site[i].address, 0) == SISAL_OK, "not enrolled");
    want(sisal_page_of(&page, card, sizeof card) == SISAL_OK, "no summary");
}

/* The power goes twice in the month, each time once. */
enum power { HOLDS, GONE_IN_ROUND, GONE_IN_SAVE };

static enum power power(void)
{
    static int gone;
    if (today != (gone == 0 ? 16 : 23) || gone == 2)
        return HOLDS;
    return ++gone == 1 ? GONE_IN_SAVE : GONE_IN_ROUND;
}

/* Runs a round to its end; answers 0 where the power goes before that. */
static int run_round(struct sisal_round *round, uint32_t minute, enum power power)
{
    uint8_t port[PORT];
    struct sisal_begun begun = sisal_polling_begin(SISAL_ROWS_OF(board), minute);
    want(begun.number == SISAL_OK, "no round");
    struct sisal_polling polling = begun.polling;
    for (;;) {
        struct sisal_drew drew = sisal_polling_draw(&polling, pace, port, sizeof port);
        want(drew.number == SISAL_OK, "bad timing numbers");
        *round = polling.round;
        if (drew.over)
            return 1;
        if (drew.count > 0) {
            drive(port, drew.count);
            continue;
        }
        if (power == GONE_IN_ROUND && polling.at == 1)
            return 0;
        size_t sensed = sense(port);
        struct sisal_settled told = sisal_polling_hear(&polling, pace, minute, port, sensed);
        /* what was sensed behind the samples taken is dropped */
        const struct sisal_polled *of = &polling.round.replies[told.reply];
        if (!polling.listening && of->count == 0) /* a try without a message */
            printf("minute %u: %u, %s; %s\n", minute, of->address, told.number == SISAL_OK ? "no answer" : sisal_number_text(told.number),
                   told.answered ? "given up" : "asked again");
    }
}

/* A morning; answers 0 where the power goes in it, which comes back at once. */
static int morning(void)
{
    uint32_t minute = (uint32_t)(today * 1440 + 360);
    struct sisal_round round;
    enum power now = power();
    if (!run_round(&round, minute, now)) {
        printf("minute %u: power gone in the round, nothing of it is saved\n", minute);
        return 0;
    }
    struct sisal_rounded saved = sisal_page_save_round(&page, card, sizeof card, &round, now == GONE_IN_SAVE ? 25 : SISAL_ALL_STORES);
    want(saved.number == SISAL_OK, "not saved");
    for (size_t i = 0; i < saved.closed; i++, records++)
        expect("%u %u %u %s\n", slots++, minute, site[i].address, site[i].says);
    if (now == GONE_IN_SAVE) {
        expect("%u spoiled\n", slots++);
        printf("minute %u: power gone after %zu stores, %zu of %zu replies closed\n", minute, saved.stores, saved.closed, round.count);
        return 0;
    }
    for (const struct sisal_polled *r = round.replies; r < round.replies + round.count; r++) {
        /* 1 to 9 is a faulty reply, which the row keeps; no row has a profile, so anything above is a refusal */
        struct sisal_heard heard = sisal_board_hear(SISAL_ROWS_OF(board), r->minute, r->address, r->count, r->reply, r->bytes);
        want(heard.number <= SISAL_FAULT_TEMPERATURE, "not heard");
    }
    return 1;
}

/* ---- what is to be seen -------------------------------------------------------------------------------------------------------------- */

static void print_listing(void)
{
    static uint8_t listing[SISAL_LISTING_BYTES(SISAL_SHEET_BYTES)];
    struct sisal_done written = sisal_listing(card, sizeof card, listing, sizeof listing);
    want(written.number == SISAL_OK, "no listing");
    fwrite(listing, 1, written.count, stdout);
    want(written.count == expected_bytes && memcmp(listing, expected, expected_bytes) == 0, "the listing is another than the readings");
    printf("the listing is the one made from the readings\n");
    struct sisal_made made = sisal_summary_of(card, sizeof card);
    want(made.number == SISAL_OK && memcmp(&made.summary, &page, sizeof page) == 0, "the summary kept is not that of the card");
    printf("the summary kept is the one worked out from the card\n");
}

static void print_board(void)
{
    for (int i = 0; i < TRANSMITTERS; i++) {
        struct sisal_standing s = sisal_board_look_up(SISAL_ROWS_OF(board), site[i].address);
        want(s.number == SISAL_OK && s.kind != SISAL_KIND_NONE, "not on the board");
        printf("board %u: level %u at minute %u%s, last fault %u\n", s.address, s.level, s.minute, s.alarm0 ? ", low alarm" : "", s.fault);
    }
}

int main(void)
{
    want(sisal_version() == SISAL_VERSION, "the archive belongs to another header");
    memset(card, 0xff, sizeof card);
    power_on();
    expect("sheet %zu\n", sizeof card / SISAL_SLOT_BYTES);
    for (today = 0; today < DAYS; today++)
        while (!morning())
            power_on();
    expect("records %u\n", records);
    print_listing();
    print_board();
    return 0;
}
