/*
 * Nothing lent: every call of the archive that is lent bytes or rows, with null and length 0 for each of them, beside the same call with an
 * address that may be read. A C host has null at hand where a reply did not come or a buffer was not made. Both must answer the same, and
 * the number is printed with its words.
 *
 * ./build-library && examples/run
 */
#include "sisalcove.h"

#include <stdio.h>

static int different;

/* The numbers of two answers to one call. */
static void same(const char *call, unsigned of_null, unsigned of_some)
{
    printf("%s: %u, %s\n", call, of_null, sisal_number_text(of_null));
    if (of_null != of_some) {
        printf("  with an address: %u, %s\n", of_some, sisal_number_text(of_some));
        different = 1;
    }
}

/* A call with bytes, once null and once some. */
#define TRY(call, number)                                                                                                                 \
    do {                                                                                                                                  \
        const uint8_t *bytes = NULL;                                                                                                      \
        uint8_t *out = NULL;                                                                                                              \
        struct sisal_row *rows = NULL;                                                                                                    \
        const uint32_t *site = NULL;                                                                                                      \
        (void)bytes, (void)out, (void)rows, (void)site;                                                                                   \
        unsigned of_null = (number);                                                                                                      \
        bytes = some_bytes, out = some_bytes, rows = some_rows, site = some_site;                                                         \
        same(call, of_null, (number));                                                                                                    \
    } while (0)

int main(void)
{
    static uint8_t some_bytes[1];
    static struct sisal_row some_rows[1];
    static uint32_t some_site[1];
    static struct sisal_summary page;
    static struct sisal_round round;
    static struct sisal_lines_so_far so_far;
    static struct sisal_polling polling;
    static const struct sisal_pace pace = {2, 3, 4, 1, 3, 4, 10, 50, 1};
    round.count = 1; /* one silent reply */
    polling.round = round;

    TRY("sisal_read_poll", sisal_read_poll(bytes, 0).number);
    TRY("sisal_write_poll", sisal_write_poll(7, 0, 0, out, 0).number);
    TRY("sisal_form", sisal_form(0, bytes, 0));
    TRY("sisal_form, 40 bits", sisal_form(40, bytes, 0));
    TRY("sisal_read_reply", sisal_read_reply(1, 7, 0, bytes, 0).number);
    TRY("sisal_read_reply, 40 bits", sisal_read_reply(1, 7, 40, bytes, 0).number);
    TRY("sisal_read_reply_by_pairs", sisal_read_reply_by_pairs(1, 7, 0, bytes, 0).number);
    TRY("sisal_write_reply", sisal_write_reply(1, 7, 3000, SISAL_KIND_ABSENT, 0, 0, 0, out, 0).number);
    TRY("sisal_save, no card", sisal_save(out, 0, 1, 600, 7, 0, bytes, 0, SISAL_ALL_STORES).number);
    TRY("sisal_save_stores, no card", sisal_save_stores(bytes, 0, 1, 600, 7, 0, bytes, 0).number);
    TRY("sisal_look", sisal_look(bytes, 0, 0).number);
    TRY("sisal_slots", sisal_slots(bytes, 0).number);
    TRY("sisal_head_line", sisal_head_line(bytes, 0, out, 0).number);
    TRY("sisal_slot_line", sisal_slot_line(bytes, 0, 0, out, 0).number);
    TRY("sisal_last_line", sisal_last_line(bytes, 0, out, 0).number);
    TRY("sisal_listing", sisal_listing(bytes, 0, out, 0).number);
    TRY("sisal_hear_lines", sisal_hear_lines(so_far, 1, 3, 4, bytes, 0).number);
    TRY("sisal_draw", sisal_draw(2, 3, 0, bytes, 0, 0, out, 0).number);
    TRY("sisal_draw, 2 bits", sisal_draw(2, 3, 2, bytes, 0, 0, out, 0).number);
    TRY("sisal_polling_begin", sisal_polling_begin(rows, 0, 600).number);
    TRY("sisal_polling_draw", sisal_polling_draw(&polling, pace, out, 0).number);
    TRY("sisal_polling_hear", sisal_polling_hear(&polling, pace, 600, bytes, 0).number);
    polling.listening = 1;
    TRY("sisal_polling_hear, listening", sisal_polling_hear(&polling, pace, 600, bytes, 0).number);
    TRY("sisal_board_enrol", sisal_board_enrol(rows, 0, 1, 7, 0));
    TRY("sisal_board_hear", sisal_board_hear(rows, 0, 600, 7, 0, bytes, 0).number);
    TRY("sisal_board_remove", sisal_board_remove(rows, 0, 7));
    TRY("sisal_board_look_up", sisal_board_look_up(rows, 0, 7).number);
    TRY("sisal_board_poll", sisal_board_poll(rows, 0, 7, 0, 0, out, 0));
    TRY("sisal_summary_of", sisal_summary_of(bytes, 0).number);
    TRY("sisal_summary_save", sisal_summary_save(out, 0, page, 1, 600, 7, 0, bytes, 0, SISAL_ALL_STORES).number);
    TRY("sisal_save_round", sisal_save_round(out, 0, round, SISAL_ALL_STORES).number);
    TRY("sisal_summary_save_round", sisal_summary_save_round(out, 0, page, round, SISAL_ALL_STORES).number);
    TRY("sisal_read_item", sisal_read_item(bytes, 0).number);
    TRY("sisal_write_item", sisal_write_item(5, 1, 'H', 'A', SISAL_ITEM_ALONE, 0, bytes, 0, out, 0).number);
    TRY("sisal_plan_areas", sisal_plan_areas(site, 0).number);
    TRY("sisal_check_areas", sisal_check_areas(site, 0, bytes, 0));

    /* A card and a board that are there, and a reply that is not. */
    static uint8_t card[2 * SISAL_SLOT_BYTES];
    static struct sisal_row board[SISAL_ROWS];
    for (size_t i = 0; i < sizeof card; i++)
        card[i] = 0xff;
    same("sisal_board_enrol, a board", sisal_board_enrol(SISAL_ROWS_OF(board), 1, 7, 0), SISAL_OK);
    TRY("sisal_save_stores, a silent reply", sisal_save_stores(card, sizeof card, 1, 600, 7, 0, bytes, 0).number);
    TRY("sisal_save, a silent reply", sisal_save(card, sizeof card, 1, 600, 7, 0, bytes, 0, SISAL_ALL_STORES).number);
    TRY("sisal_board_hear, a silent reply", sisal_board_hear(SISAL_ROWS_OF(board), 600, 7, 0, bytes, 0).number);
    TRY("sisal_save, the card full", sisal_save(card, sizeof card, 1, 600, 7, 0, bytes, 0, SISAL_ALL_STORES).number);
    return different;
}
