/*
 * Holds include/sisalcove.h to the archive: every call is made at least once with an answer that is known, most of them from document 01
 * and 02, and the fields of an answer have values apart, so that two that were exchanged in the header are noticed. Then it prints the
 * place and the size of every field, which tools/hold-header compares with host/layout.txt; the host's Rust declarations are compared with
 * the same file.
 */
#include "sisalcove.h"

#include <stdio.h>
#include <string.h>

static int wrong;

#define WANT(holds)                                                                                                                       \
    do {                                                                                                                                  \
        if (!(holds)) {                                                                                                                   \
            fprintf(stderr, "tools/header.c:%d: not so: %s\n", __LINE__, #holds);                                                        \
            wrong = 1;                                                                                                                    \
        }                                                                                                                                 \
    } while (0)

/* Address 7, decimal 30.00, no alarms, 40 bits, even. */
static const uint8_t bench_reply[5] = {0x80, 0x0e, 0x50, 0x00, 0x00};
/* The same with a second digit of its level that is in no chart, and the parity bit for it. */
static const uint8_t unreadable[5] = {0x80, 0x0e, 0x5e, 0x00, 0x01};
/* The slot that it fills, saved at minute 600 with settings 1. */
static const uint8_t bench_slot[16] = {0x00, 0x0e, 0x01, 0x01, 0x00, 0x00, 0x02, 0x58, 0x00, 0x07, 0x28, 0x80, 0x0e, 0x50, 0x00, 0x00};
enum { DECIMAL = SISAL_MODE_DECIMAL, BENCH_BITS = 40, BENCH_BYTES = 5, BENCH_MINUTE = 600, BENCH_STORES = 16 };

static void polls(void)
{
    uint8_t out[3] = {0x55, 0x55, 0x55};
    struct sisal_done wrote = sisal_write_poll(742, 1, 0, out, sizeof out);
    struct sisal_poll poll = sisal_read_poll(out, 2);
    WANT(wrote.count == 2 && wrote.number == 0 && out[2] == 0x55);
    WANT(poll.address == 742 && poll.raise == 1 && poll.reset == 0 && poll.number == 0);
    wrote = sisal_write_poll(999, 0, 1, out, sizeof out);
    poll = sisal_read_poll(out, 2);
    WANT(wrote.number == 0 && poll.address == 999 && poll.raise == 0 && poll.reset == 1 && poll.number == 0);
    poll = sisal_read_poll(out, 1);
    WANT(poll.address == 0 && poll.raise == 0 && poll.reset == 0 && poll.number == SISAL_FAULT_POLL);
    wrote = sisal_write_poll(1000, 0, 0, out, sizeof out);
    WANT(wrote.count == 0 && wrote.number == SISAL_FAULT_ASKED_ADDRESS);
}

typedef struct sisal_reply reader(uint8_t, uint16_t, size_t, const uint8_t *, size_t);

static void read_by(reader *read)
{
    uint8_t out[8];
    struct sisal_done wrote = sisal_write_reply(DECIMAL | SISAL_TYPE_1800, 123, 4567, SISAL_KIND_DEGREES, -215, 1, 0, out, sizeof out);
    struct sisal_reply told = read(DECIMAL | SISAL_TYPE_1800, 123, 56, out, wrote.count);
    WANT(wrote.count == 7 && wrote.number == 0);
    WANT(told.level == 4567 && told.tenths == -215 && told.kind == SISAL_KIND_DEGREES && told.alarm1 == 1 && told.alarm0 == 0);
    WANT(told.number == 0 && told.place == 0);
    wrote = sisal_write_reply(DECIMAL | SISAL_TYPE_1800, 124, 30, SISAL_KIND_BELOW, 5, 0, 1, out, sizeof out);
    told = read(DECIMAL | SISAL_TYPE_1800, 124, 56, out, wrote.count);
    WANT(told.level == 30 && told.tenths == 0 && told.kind == SISAL_KIND_BELOW && told.alarm1 == 0 && told.alarm0 == 1 && told.number == 0);
    told = read(DECIMAL, 7, BENCH_BITS, bench_reply, BENCH_BYTES);
    WANT(told.level == 3000 && told.kind == SISAL_KIND_ABSENT && told.number == 0);
    told = read(DECIMAL, 7, BENCH_BITS, unreadable, BENCH_BYTES);
    WANT(told.level == 0 && told.kind == 0 && told.number == SISAL_FAULT_CODE && told.place == 1);
}

static void replies(void)
{
    uint8_t out[6] = {1, 2, 3, 4, 5, 0x55};
    struct sisal_done wrote = sisal_write_reply(DECIMAL, 7, 3000, SISAL_KIND_ABSENT, 0, 0, 0, out, sizeof out);
    WANT(wrote.count == BENCH_BYTES && wrote.number == 0 && memcmp(out, bench_reply, BENCH_BYTES) == 0 && out[5] == 0x55);
    wrote = sisal_write_reply(16, 7, 3000, SISAL_KIND_ABSENT, 0, 0, 0, out, sizeof out);
    WANT(wrote.count == 0 && wrote.number == SISAL_FAULT_SETTINGS);
    WANT(sisal_form(BENCH_BITS, bench_reply, BENCH_BYTES) == 0);
    WANT(sisal_form(BENCH_BITS, bench_reply, BENCH_BYTES - 1) == SISAL_FAULT_FORM);
    read_by(sisal_read_reply);
    read_by(sisal_read_reply_by_pairs);
}

/* A sheet of two slots: the bench's record, and a save that was cut. */
static uint8_t sheet[2 * SISAL_SLOT_BYTES];

static void saves(void)
{
    struct sisal_done done;
    struct sisal_slot slot;
    memset(sheet, 0xff, sizeof sheet);
    done = sisal_save(sheet, sizeof sheet, DECIMAL, BENCH_MINUTE, 7, BENCH_BITS, bench_reply, BENCH_BYTES, SISAL_ALL_STORES);
    WANT(done.count == BENCH_STORES && done.number == 0 && memcmp(sheet, bench_slot, sizeof bench_slot) == 0);
    done = sisal_save(sheet, sizeof sheet, DECIMAL, BENCH_MINUTE, 7, BENCH_BITS, bench_reply, BENCH_BYTES, BENCH_STORES - 1);
    WANT(done.count == BENCH_STORES - 1 && done.number == 0);
    done = sisal_save(sheet, sizeof sheet, DECIMAL, BENCH_MINUTE, 7, BENCH_BITS, bench_reply, BENCH_BYTES, SISAL_ALL_STORES);
    WANT(done.count == 0 && done.number == SISAL_FAULT_FULL);
    slot = sisal_look(sheet, sizeof sheet, 0);
    WANT(slot.minute == BENCH_MINUTE && slot.address == 7 && slot.settings == DECIMAL && slot.count == BENCH_BITS);
    WANT(slot.state == SISAL_STATE_RECORD && slot.number == 0 && memcmp(slot.reply, bench_reply, BENCH_BYTES) == 0 && slot.reply[5] == 0);
    slot = sisal_look(sheet, sizeof sheet, 1);
    WANT(slot.state == SISAL_STATE_SPOILED && slot.number == 0 && slot.minute == 0);
    slot = sisal_look(sheet, sizeof sheet, 2);
    WANT(slot.state == SISAL_STATE_NONE && slot.number == SISAL_FAULT_SHEET);
    done = sisal_slots(sheet, sizeof sheet);
    WANT(done.count == 2 && done.number == 0);
}

/* The stores of the bench's record, as request 19 lists them. */
static void told(void)
{
    static const uint8_t places[BENCH_STORES] = {2, 3, 4, 5, 6, 7, 8, 9, 10, 11, 12, 13, 14, 15, 1, 0};
    uint8_t card[2 * SISAL_SLOT_BYTES];
    memset(card, 0xff, sizeof card);
    memcpy(card, bench_slot, sizeof bench_slot);
    struct sisal_stores told = sisal_save_stores(card, sizeof card, DECIMAL, BENCH_MINUTE, 7, BENCH_BITS, bench_reply, BENCH_BYTES);
    WANT(told.slot == 1 && told.count == BENCH_STORES && told.number == 0 && memcmp(told.places, places, sizeof places) == 0);
    for (size_t i = 0; i < SISAL_MOST_STORES; i++)
        WANT(told.bytes[i] == (i < BENCH_STORES ? bench_slot[places[i]] : 0));
    told = sisal_save_stores(card, 31, DECIMAL, BENCH_MINUTE, 7, BENCH_BITS, bench_reply, BENCH_BYTES);
    WANT(told.slot == 0 && told.count == 0 && told.number == SISAL_FAULT_SHEET && told.places[0] == 0 && told.bytes[0] == 0);
}

static int says(struct sisal_done done, const uint8_t *out, const char *words)
{
    return done.number == 0 && done.count == strlen(words) && memcmp(out, words, done.count) == 0;
}

static void listing(void)
{
    uint8_t out[SISAL_LISTING_BYTES(sizeof sheet)];
    WANT(says(sisal_head_line(sheet, sizeof sheet, out, sizeof out), out, "sheet 2\n"));
    WANT(says(sisal_slot_line(sheet, sizeof sheet, 0, out, sizeof out), out, "0 600 7 3000 - 0 0\n"));
    WANT(says(sisal_slot_line(sheet, sizeof sheet, 1, out, sizeof out), out, "1 spoiled\n"));
    WANT(says(sisal_last_line(sheet, sizeof sheet, out, sizeof out), out, "records 1\n"));
    WANT(says(sisal_listing(sheet, sizeof sheet, out, sizeof out), out, "sheet 2\n0 600 7 3000 - 0 0\n1 spoiled\nrecords 1\n"));
    WANT(sisal_listing(sheet, sizeof sheet, out, sizeof out - 1).number == SISAL_FAULT_SHORT);
}

/* Pulses of 2 to 4 samples: a mark, 3 idle samples, and the beginning of a space; then its end and the gap of 10. */
static void lines(void)
{
    static const uint8_t begun[] = {1, 1, 1, 0, 0, 0, 2, 2}, ended[] = {2, 0, 0, 0, 0, 0, 0, 0, 0, 0, 0, 1, 1}, foreign[] = {1, 1, 5};
    const struct sisal_lines_so_far nothing = {0, 0, 0, 0, 0};
    struct sisal_lines_told told = sisal_hear_lines(nothing, 2, 4, 10, begun, sizeof begun);
    WANT(told.taken == sizeof begun && told.count == 0 && told.number == 0);
    WANT(told.so_far.bits == UINT64_C(1) << 63 && told.so_far.count == 1 && told.so_far.line == 2 && told.so_far.run == 2 &&
         told.so_far.fault == 0);
    told = sisal_hear_lines(told.so_far, 2, 4, 10, ended, sizeof ended);
    WANT(told.taken == 11 && told.count == 2 && told.number == 0 && told.message[0] == 0x80 && told.message[1] == 0);
    told = sisal_hear_lines(nothing, 2, 4, 10, foreign, sizeof foreign);
    WANT(told.so_far.fault == SISAL_FAULT_FOREIGN_SAMPLE && told.so_far.line == 0 && told.number == 0 && told.count == 0);
    told = sisal_hear_lines(told.so_far, 2, 4, 10, ended + 1, sizeof ended - 1);
    WANT(told.taken == 10 && told.count == 0 && told.number == SISAL_FAULT_FOREIGN_SAMPLE);
    told = sisal_hear_lines(nothing, 4, 2, 10, begun, sizeof begun);
    WANT(told.taken == 0 && told.count == 0 && told.number == SISAL_FAULT_TIMING);
}

/* Two bits, 10, in pulses of 2 and idle of 3, from the fifth sample on: the last idle of the first, then the space. */
static void drawn(void)
{
    static const uint8_t message[1] = {0x80};
    uint8_t out[4] = {9, 9, 9, 9};
    struct sisal_done done = sisal_draw(2, 3, 2, message, sizeof message, 4, out, 3);
    WANT(done.count == 3 && done.number == 0 && out[0] == SISAL_SAMPLE_IDLE && out[1] == SISAL_SAMPLE_SPACE && out[2] == SISAL_SAMPLE_SPACE);
    WANT(out[3] == 9);
    done = sisal_draw(0, 3, 2, message, sizeof message, 0, out, sizeof out);
    WANT(done.count == 0 && done.number == SISAL_FAULT_TIMING && out[3] == 9);
}

/* A round of 7 and 310, at a pace whose nine numbers are nine, so that each of them shows in what is drawn and settled. */
static void polled(void)
{
    static const uint8_t one_bit[] = {1, 0, 0, 0, 0, 0, 0, 0, 0}, too_long[] = {1, 1, 1, 1, 1, 0, 0, 0, 0, 0, 0, 0}, idle[12] = {0};
    static const uint8_t front[10] = {0, 0, 0, 0, 0, 1, 1, 0, 0, 0};
    const struct sisal_pace pace = {
        .low = 2, .still = 3, .delay = 5, .least = 1, .most = 4, .gap = 6, .wait = 10, .longest = 50, .tries = 7};
    struct sisal_pace bad = pace;
    struct sisal_row rows[3];
    uint8_t out[100];
    memset(rows, 0, sizeof rows);
    memset(out, 9, sizeof out);
    WANT(sisal_board_enrol(rows, 3, DECIMAL, 7, 0) == 0 && sisal_board_enrol(rows, 3, 3, 310, 0) == 0);
    struct sisal_begun begun = sisal_polling_begin(rows, 3, 600);
    struct sisal_polling polling = begun.polling;
    WANT(begun.number == 0 && polling.round.count == 2 && polling.at == 0 && polling.tried == 0 && polling.listening == 0);
    WANT(polling.round.replies[0].address == 7 && polling.round.replies[1].settings == 3 && polling.round.replies[1].minute == 600);
    struct sisal_drew drew = sisal_polling_draw(&polling, pace, out, sizeof out);
    WANT(drew.count == 85 && drew.over == 0 && drew.number == 0 && memcmp(out, front, sizeof front) == 0 && out[85] == 9);
    WANT(polling.listening == 1 && polling.tried == 0 && polling.passed == 0);
    struct sisal_settled told = sisal_polling_hear(&polling, pace, 605, too_long, sizeof too_long);
    WANT(told.taken == 11 && told.reply == 0 && told.answered == 0 && told.over == 0 && told.number == SISAL_FAULT_SPOILED);
    WANT(polling.listening == 0 && polling.tried == 1 && polling.at == 0);
    drew = sisal_polling_draw(&polling, pace, out, sizeof out);
    struct sisal_polling other = polling;
    told = sisal_polling_hear(&other, pace, 605, idle, 9);
    WANT(told.taken == 9 && other.passed == 9 && other.listening == 1 && other.tried == 1);
    told = sisal_polling_hear(&polling, pace, 605, one_bit, sizeof one_bit);
    WANT(told.taken == 7 && told.reply == 0 && told.answered == 1 && told.over == 0 && told.number == 0);
    WANT(polling.round.replies[0].count == 1 && polling.round.replies[0].minute == 605 && polling.at == 1);
    drew = sisal_polling_draw(&polling, pace, out, sizeof out);
    polling.tried = 6;
    told = sisal_polling_hear(&polling, pace, 606, idle, sizeof idle);
    WANT(told.taken == 10 && told.reply == 1 && told.answered == 1 && told.over == 1 && told.number == 0);
    drew = sisal_polling_draw(&polling, pace, out, sizeof out);
    WANT(drew.count == 0 && drew.over == 1 && drew.number == 0 && polling.at == 2);
    bad.tries = 10;
    other = polling;
    drew = sisal_polling_draw(&polling, bad, out, sizeof out);
    WANT(drew.count == 0 && drew.over == 0 && drew.number == SISAL_FAULT_TIMING);
    told = sisal_polling_hear(&polling, bad, 607, idle, sizeof idle);
    WANT(told.taken == 0 && told.over == 0 && told.number == SISAL_FAULT_TIMING && memcmp(&polling, &other, sizeof polling) == 0);
    rows[2] = rows[0];
    begun = sisal_polling_begin(rows, 3, 600);
    WANT(begun.number == SISAL_FAULT_ORDER && begun.polling.round.count == 0);
}

/* The row and what a look tells of it agree in every field that both have. */
static void alike(const struct sisal_row *row, const struct sisal_standing *told)
{
    WANT(row->minute == told->minute && row->address == told->address && row->level == told->level && row->tenths == told->tenths);
    WANT(row->settings == told->settings && row->fault == told->fault && row->kind == told->kind && row->alarm1 == told->alarm1);
    WANT(row->alarm0 == told->alarm0 && row->heard == told->heard && row->faulty == told->faulty && row->place == told->place);
    WANT(row->gauge == told->gauge && told->number == 0);
}

static void board(void)
{
    struct sisal_row rows[2];
    struct sisal_heard heard;
    struct sisal_standing told;
    uint8_t out[8], poll[2];
    size_t bytes;
    memset(rows, 0, sizeof rows);
    WANT(sisal_board_enrol(rows, 2, DECIMAL, 7, SISAL_GAUGE_6500 | SISAL_PROFILE_PLATINUM) == 0);
    bytes = sisal_write_reply(DECIMAL, 7, 4567, SISAL_KIND_DEGREES, -215, 1, 0, out, sizeof out).count;
    heard = sisal_board_hear(rows, 2, 1001, 7, 56, out, bytes);
    WANT(heard.number == 0 && heard.place == 0);
    WANT(rows[0].minute == 1001 && rows[0].address == 7 && rows[0].level == 4567 && rows[0].tenths == -215 && rows[0].settings == DECIMAL);
    WANT(rows[0].fault == 0 && rows[0].used == 1 && rows[0].kind == SISAL_KIND_DEGREES && rows[0].alarm1 == 1 && rows[0].alarm0 == 0);
    WANT(rows[0].heard == 1001 && rows[0].faulty == 0 && rows[0].place == 0 && rows[0].gauge == 6);
    told = sisal_board_look_up(rows, 2, 7);
    alike(&rows[0], &told);
    WANT(sisal_board_hear(rows, 2, 1002, 7, BENCH_BITS, bench_reply, BENCH_BYTES).number == 0);
    WANT(sisal_board_hear(rows, 2, 1003, 7, 0, bench_reply, 0).number == SISAL_FAULT_SILENT);
    heard = sisal_board_hear(rows, 2, 1004, 7, BENCH_BITS, unreadable, BENCH_BYTES);
    WANT(heard.number == SISAL_FAULT_CODE && heard.place == 1);
    WANT(rows[0].minute == 1002 && rows[0].level == 3000 && rows[0].tenths == 0 && rows[0].kind == SISAL_KIND_ABSENT);
    WANT(rows[0].fault == SISAL_FAULT_CODE && rows[0].heard == 1004 && rows[0].faulty == 2 && rows[0].place == 1 && rows[0].used == 1);
    told = sisal_board_look_up(rows, 2, 7);
    alike(&rows[0], &told);
    WANT(sisal_board_look_up(rows, 2, 8).number == SISAL_FAULT_UNKNOWN);
    WANT(sisal_board_enrol(rows, 2, SISAL_MODE_20_M, 8, 0) == 0 && rows[1].settings == SISAL_MODE_20_M && rows[1].used == 1);
    told = sisal_board_look_up(rows, 2, 8);
    alike(&rows[1], &told);
    WANT(told.settings == SISAL_MODE_20_M && told.place == 0 && told.kind == SISAL_KIND_NONE);
    WANT(sisal_board_poll(rows, 2, 7, 1, 0, poll, 2) == 0 && sisal_read_poll(poll, 2).address == 7 && sisal_read_poll(poll, 2).raise == 1);
    WANT(sisal_board_enrol(rows, 2, DECIMAL, 7, 0) == SISAL_FAULT_TWICE);
    WANT(sisal_board_remove(rows, 2, 7) == 0 && rows[1].used == 0 && sisal_board_remove(rows, 2, 7) == SISAL_FAULT_UNKNOWN);
}

static int is_line(const struct sisal_line *l, uint16_t address, uint16_t lowest, uint16_t highest, uint32_t good, uint32_t faulty)
{
    return l->address == address && l->settings == DECIMAL && l->lowest == lowest && l->highest == highest && l->good == good &&
           l->faulty == faulty;
}

static void summaries(void)
{
    uint8_t card[4 * SISAL_SLOT_BYTES], low[5];
    struct sisal_made made = sisal_summary_of(sheet, sizeof sheet), joined;
    struct sisal_summary page = made.summary;
    struct sisal_kept kept;
    WANT(made.number == 0 && page.count == 1 && page.others == 0 && is_line(&page.lines[0], 7, 3000, 3000, 1, 0));
    WANT(sisal_summary_of(sheet, 31).number == SISAL_FAULT_SHEET);
    page.others = 5;
    memset(card, 0xff, sizeof card);
    WANT(sisal_write_reply(DECIMAL, 7, 2000, SISAL_KIND_ABSENT, 0, 0, 0, low, sizeof low).number == 0);
    kept = sisal_summary_save(card, sizeof card, page, DECIMAL, 601, 7, BENCH_BITS, low, sizeof low, SISAL_ALL_STORES);
    WANT(kept.count == BENCH_STORES && kept.number == 0 && kept.summary.count == 1 && kept.summary.others == 5);
    WANT(is_line(&kept.summary.lines[0], 7, 2000, 3000, 2, 0));
    kept = sisal_summary_save(card, sizeof card, kept.summary, DECIMAL, 602, 7, 0, low, 0, SISAL_ALL_STORES);
    WANT(kept.count == SISAL_STORES(0) && kept.number == 0 && is_line(&kept.summary.lines[0], 7, 2000, 3000, 2, 1));
    kept = sisal_summary_save(card, 31, kept.summary, DECIMAL, 602, 7, 0, low, 0, SISAL_ALL_STORES);
    WANT(kept.count == 0 && kept.number == SISAL_FAULT_SHEET && kept.summary.others == 5);
    WANT(sisal_summary_join(kept.summary, made.summary).number == SISAL_FAULT_PAIRS);
    joined = sisal_summary_join(sisal_summary_of(card, sizeof card).summary, made.summary);
    WANT(joined.number == 0 && joined.summary.count == 1 && joined.summary.others == 0);
    WANT(is_line(&joined.summary.lines[0], 7, 2000, 3000, 2, 1));
}

static void rounds(void)
{
    uint8_t card[2 * SISAL_SLOT_BYTES];
    struct sisal_summary page;
    struct sisal_round round;
    struct sisal_rounded done;
    struct sisal_rounded_page kept;
    memset(&page, 0, sizeof page);
    memset(&round, 0, sizeof round);
    memset(card, 0xff, sizeof card);
    round.count = 2;
    for (size_t i = 0; i < round.count; i++) {
        struct sisal_polled *polled = &round.replies[i];
        polled->minute = BENCH_MINUTE;
        polled->count = BENCH_BITS;
        polled->bytes = BENCH_BYTES;
        polled->address = 7;
        polled->settings = DECIMAL;
        polled->unused = 200; /* taken for the settings it would be refused */
        memcpy(polled->reply, bench_reply, BENCH_BYTES);
    }
    done = sisal_save_round(card, sizeof card, round, BENCH_STORES + 3);
    WANT(done.closed == 1 && done.stores == BENCH_STORES + 3 && done.number == 0 && memcmp(card, bench_slot, sizeof bench_slot) == 0);
    done = sisal_save_round(card, sizeof card, round, SISAL_ALL_STORES);
    WANT(done.closed == 0 && done.stores == 0 && done.number == SISAL_FAULT_FULL);
    memset(card, 0xff, sizeof card);
    kept = sisal_summary_save_round(card, sizeof card, page, round, BENCH_STORES + 3);
    WANT(kept.closed == 1 && kept.stores == BENCH_STORES + 3 && kept.number == 0 && memcmp(card, bench_slot, sizeof bench_slot) == 0);
    WANT(kept.summary.count == 1 && is_line(&kept.summary.lines[0], 7, 3000, 3000, 1, 0));
    round.count = SISAL_ROUND_REPLIES + 1;
    kept = sisal_summary_save_round(card, sizeof card, page, round, SISAL_ALL_STORES);
    WANT(kept.closed == 0 && kept.stores == 0 && kept.number == SISAL_FAULT_ROUND);
}

static void items(void)
{
    static const uint8_t value[] = {0x02, '5', '0', '1', 'B', 'Z', 'H', 'A', '0', '1', '2', '.', '2', '3', '4', '5', 0x03, 0x3b};
    uint8_t out[SISAL_ITEM_RECORD_BYTES];
    struct sisal_done wrote = sisal_write_item(5, 1, 'H', 'A', SISAL_ITEM_VALUE, 0, value + 8, 8, out, sizeof out);
    struct sisal_item item = sisal_read_item(value, sizeof value);
    WANT(wrote.count == sizeof value && wrote.number == 0 && memcmp(out, value, sizeof value) == 0);
    WANT(memcmp(item.data, "012.2345\0\0\0\0\0\0\0", 16) == 0 && item.error == 0 && item.ciu == 5 && item.gauge == 1);
    WANT(item.first == 'H' && item.second == 'A' && item.kind == SISAL_ITEM_VALUE && item.length == 8 && item.number == 0);
    wrote = sisal_write_item(3, 47, 'Q', 'R', SISAL_ITEM_ERROR, 51, value, 0, out, sizeof out);
    item = sisal_read_item(out, wrote.count);
    WANT(item.error == 51 && item.ciu == 3 && item.gauge == 47 && item.first == 'Q' && item.second == 'R');
    WANT(item.kind == SISAL_ITEM_ERROR && item.length == 0 && item.number == 0);
    item = sisal_read_item(value, sizeof value - 1);
    WANT(item.kind == SISAL_ITEM_NONE && item.number == SISAL_FAULT_FRAMING);
    WANT(sisal_write_item(3, 100, 'Q', 'R', SISAL_ITEM_ALONE, 0, value, 0, out, sizeof out).number == SISAL_FAULT_ADDRESSES);
}

static void areas(void)
{
    const uint32_t site[4] = {SISAL_TRANSMITTER(5000, 0), SISAL_TRANSMITTER(4000, 1), SISAL_TRANSMITTER(1000, 2), SISAL_TRANSMITTER(1, 0)};
    const uint32_t too_far = SISAL_TRANSMITTER(10001, 0);
    static const uint8_t by_hand[2] = {2, 1};
    struct sisal_plan plan = sisal_plan_areas(site, 4);
    WANT(plan.areas == 2 && plan.sizes[0] == 3 && plan.sizes[1] == 1 && plan.sizes[2] == 0 && plan.number == 0);
    WANT(sisal_check_areas(site, 4, plan.sizes, plan.areas) == 0);
    WANT(sisal_check_areas(site, 4, by_hand, 2) == SISAL_FAULT_PLAN);
    plan = sisal_plan_areas(&too_far, 1);
    WANT(plan.areas == 0 && plan.number == SISAL_FAULT_NO_PLAN);
}

/* What the header has itself: the words of the numbers, and calls by pointer. */
static void header_alone(void)
{
    static const uint8_t begun[] = {1, 1, 1, 0, 0, 0, 2, 2};
    uint8_t card[4 * SISAL_SLOT_BYTES];
    struct sisal_summary page, more;
    struct sisal_round round;
    struct sisal_lines_so_far so_far = {0, 0, 0, 0, 0};
    WANT(strcmp(sisal_number_text(SISAL_OK), "good") == 0 && strcmp(sisal_number_text(SISAL_FAULT_ORDER), "rows out of order") == 0);
    WANT(strcmp(sisal_number_text(39), "unknown number") == 0);
    WANT(sisal_up_to_65535(65536) == 65535 && sisal_up_to_65535(7) == 7 && SISAL_TRANSMITTER(-1, 3) == 0xffff0003);
    memset(card, 0xff, sizeof card);
    memset(&page, 0, sizeof page);
    memset(&round, 0, sizeof round);
    struct sisal_done done =
        sisal_page_save(&page, card, sizeof card, DECIMAL, BENCH_MINUTE, 7, BENCH_BITS, bench_reply, BENCH_BYTES, SISAL_ALL_STORES);
    WANT(done.count == BENCH_STORES && done.number == 0 && page.count == 1 && is_line(&page.lines[0], 7, 3000, 3000, 1, 0));
    WANT(sisal_page_of(&more, card, sizeof card) == 0 && memcmp(&more, &page, sizeof page) == 0);
    WANT(sisal_page_join(&page, &more) == 0 && is_line(&page.lines[0], 7, 3000, 3000, 2, 0));
    WANT(sisal_page_of(&page, card, 31) == SISAL_FAULT_SHEET && page.lines[0].good == 2);
    page.others = 1;
    WANT(sisal_page_join(&page, &more) == SISAL_FAULT_PAIRS && page.lines[0].good == 2);
    round.count = 1;
    round.replies[0].address = 7;
    round.replies[0].settings = DECIMAL;
    struct sisal_rounded rounded = sisal_page_save_round(&page, card, sizeof card, &round, SISAL_ALL_STORES);
    WANT(rounded.closed == 1 && rounded.stores == SISAL_STORES(0) && rounded.number == 0 && page.lines[0].faulty == 1);
    rounded = sisal_round_save(card, sizeof card, &round, 3);
    WANT(rounded.closed == 0 && rounded.stores == 3 && rounded.number == 0);
    struct sisal_lines_told told = sisal_lines_hear(&so_far, 2, 4, 10, begun, sizeof begun);
    WANT(told.taken == sizeof begun && so_far.count == 1 && so_far.line == 2 && so_far.run == 2);
    struct sisal_row row;
    memset(&row, 0, sizeof row);
    WANT(SISAL_NEVER_HEARD(row) && SISAL_REPLY_BYTES(41) == 6 && SISAL_STORES(5) == 16);
}

/* The places and sizes: a line for each struct, and one for each of its fields. */
#define STRUCT(s) printf("%s %zu\n", #s, sizeof(struct s))
#define FIELD(s, f) printf("%s.%s %zu %zu\n", #s, #f, offsetof(struct s, f), sizeof(((struct s *)0)->f))

static void layout(void)
{
    STRUCT(sisal_poll);
    FIELD(sisal_poll, address);
    FIELD(sisal_poll, raise);
    FIELD(sisal_poll, reset);
    FIELD(sisal_poll, number);
    STRUCT(sisal_reply);
    FIELD(sisal_reply, level);
    FIELD(sisal_reply, tenths);
    FIELD(sisal_reply, kind);
    FIELD(sisal_reply, alarm1);
    FIELD(sisal_reply, alarm0);
    FIELD(sisal_reply, number);
    FIELD(sisal_reply, place);
    STRUCT(sisal_done);
    FIELD(sisal_done, count);
    FIELD(sisal_done, number);
    STRUCT(sisal_slot);
    FIELD(sisal_slot, reply);
    FIELD(sisal_slot, minute);
    FIELD(sisal_slot, address);
    FIELD(sisal_slot, settings);
    FIELD(sisal_slot, count);
    FIELD(sisal_slot, state);
    FIELD(sisal_slot, number);
    STRUCT(sisal_stores);
    FIELD(sisal_stores, slot);
    FIELD(sisal_stores, places);
    FIELD(sisal_stores, bytes);
    FIELD(sisal_stores, count);
    FIELD(sisal_stores, number);
    STRUCT(sisal_row);
    FIELD(sisal_row, minute);
    FIELD(sisal_row, address);
    FIELD(sisal_row, level);
    FIELD(sisal_row, tenths);
    FIELD(sisal_row, settings);
    FIELD(sisal_row, fault);
    FIELD(sisal_row, used);
    FIELD(sisal_row, kind);
    FIELD(sisal_row, alarm1);
    FIELD(sisal_row, alarm0);
    FIELD(sisal_row, heard);
    FIELD(sisal_row, faulty);
    FIELD(sisal_row, place);
    FIELD(sisal_row, gauge);
    STRUCT(sisal_heard);
    FIELD(sisal_heard, number);
    FIELD(sisal_heard, place);
    STRUCT(sisal_standing);
    FIELD(sisal_standing, minute);
    FIELD(sisal_standing, address);
    FIELD(sisal_standing, level);
    FIELD(sisal_standing, tenths);
    FIELD(sisal_standing, settings);
    FIELD(sisal_standing, fault);
    FIELD(sisal_standing, number);
    FIELD(sisal_standing, kind);
    FIELD(sisal_standing, alarm1);
    FIELD(sisal_standing, alarm0);
    FIELD(sisal_standing, heard);
    FIELD(sisal_standing, faulty);
    FIELD(sisal_standing, place);
    FIELD(sisal_standing, gauge);
    STRUCT(sisal_lines_so_far);
    FIELD(sisal_lines_so_far, bits);
    FIELD(sisal_lines_so_far, run);
    FIELD(sisal_lines_so_far, count);
    FIELD(sisal_lines_so_far, line);
    FIELD(sisal_lines_so_far, fault);
    STRUCT(sisal_lines_told);
    FIELD(sisal_lines_told, so_far);
    FIELD(sisal_lines_told, taken);
    FIELD(sisal_lines_told, message);
    FIELD(sisal_lines_told, count);
    FIELD(sisal_lines_told, number);
    STRUCT(sisal_line);
    FIELD(sisal_line, address);
    FIELD(sisal_line, settings);
    FIELD(sisal_line, lowest);
    FIELD(sisal_line, highest);
    FIELD(sisal_line, good);
    FIELD(sisal_line, faulty);
    STRUCT(sisal_summary);
    FIELD(sisal_summary, count);
    FIELD(sisal_summary, others);
    FIELD(sisal_summary, lines);
    STRUCT(sisal_made);
    FIELD(sisal_made, summary);
    FIELD(sisal_made, number);
    STRUCT(sisal_kept);
    FIELD(sisal_kept, summary);
    FIELD(sisal_kept, count);
    FIELD(sisal_kept, number);
    STRUCT(sisal_polled);
    FIELD(sisal_polled, minute);
    FIELD(sisal_polled, count);
    FIELD(sisal_polled, bytes);
    FIELD(sisal_polled, address);
    FIELD(sisal_polled, settings);
    FIELD(sisal_polled, unused);
    FIELD(sisal_polled, reply);
    STRUCT(sisal_round);
    FIELD(sisal_round, replies);
    FIELD(sisal_round, count);
    STRUCT(sisal_rounded);
    FIELD(sisal_rounded, closed);
    FIELD(sisal_rounded, stores);
    FIELD(sisal_rounded, number);
    STRUCT(sisal_rounded_page);
    FIELD(sisal_rounded_page, summary);
    FIELD(sisal_rounded_page, closed);
    FIELD(sisal_rounded_page, stores);
    FIELD(sisal_rounded_page, number);
    STRUCT(sisal_pace);
    FIELD(sisal_pace, low);
    FIELD(sisal_pace, still);
    FIELD(sisal_pace, delay);
    FIELD(sisal_pace, least);
    FIELD(sisal_pace, most);
    FIELD(sisal_pace, gap);
    FIELD(sisal_pace, wait);
    FIELD(sisal_pace, longest);
    FIELD(sisal_pace, tries);
    STRUCT(sisal_polling);
    FIELD(sisal_polling, round);
    FIELD(sisal_polling, lines);
    FIELD(sisal_polling, passed);
    FIELD(sisal_polling, at);
    FIELD(sisal_polling, tried);
    FIELD(sisal_polling, listening);
    STRUCT(sisal_begun);
    FIELD(sisal_begun, polling);
    FIELD(sisal_begun, number);
    STRUCT(sisal_drew);
    FIELD(sisal_drew, count);
    FIELD(sisal_drew, over);
    FIELD(sisal_drew, number);
    STRUCT(sisal_settled);
    FIELD(sisal_settled, taken);
    FIELD(sisal_settled, reply);
    FIELD(sisal_settled, answered);
    FIELD(sisal_settled, over);
    FIELD(sisal_settled, number);
    STRUCT(sisal_item);
    FIELD(sisal_item, data);
    FIELD(sisal_item, error);
    FIELD(sisal_item, ciu);
    FIELD(sisal_item, gauge);
    FIELD(sisal_item, first);
    FIELD(sisal_item, second);
    FIELD(sisal_item, kind);
    FIELD(sisal_item, length);
    FIELD(sisal_item, number);
    STRUCT(sisal_plan);
    FIELD(sisal_plan, sizes);
    FIELD(sisal_plan, areas);
    FIELD(sisal_plan, number);
}

int main(void)
{
    WANT(sisal_version() == SISAL_VERSION);
    polls();
    replies();
    saves();
    told();
    listing();
    lines();
    drawn();
    polled();
    board();
    summaries();
    rounds();
    items();
    areas();
    header_alone();
    layout();
    return wrong;
}
