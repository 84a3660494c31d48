/*
 * A day at the desk: a board of three rows over libsisalcove.a. It enrols transmitters, hears good and damaged replies, removes and looks
 * up, tries a sensor profile, a 6500's poll and rows out of order, and says after each call what was answered; at the end it says what stands in the rows.
 *
 * ./build-library && examples/run
 */
#include "sisalcove.h"

#include <stdio.h>
#include <string.h>

enum { ROWS = 3 };

static struct sisal_row rows[ROWS];

/* ---- in words -------------------------------------------------------------------------------------------------------------------- */

static void say_answer(const char *call, uint16_t address, uint8_t number)
{
    if (number == SISAL_OK)
        printf("%s %u: done\n", call, address);
    else
        printf("%s %u: %u, %s\n", call, address, number, sisal_number_text(number));
}

static void say_temperature(uint8_t kind, int16_t tenths)
{
    if (kind == SISAL_KIND_DEGREES)
        printf("%d tenths of a degree", tenths);
    else if (kind == SISAL_KIND_ABOVE)
        printf("temperature above");
    else if (kind == SISAL_KIND_BELOW)
        printf("temperature below");
    else
        printf("temperature absent");
}

/* What a look tells, and what a row holds, from the settings on. */
static void say_standing(const struct sisal_standing *s)
{
    printf("settings %u, ", s->settings);
    if (s->kind == SISAL_KIND_NONE) {
        printf("no reading");
    } else {
        printf("level %u, ", s->level);
        say_temperature(s->kind, s->tenths);
        printf(", at minute %u", s->minute);
    }
    printf("%s%s", s->alarm1 ? ", alarm 1" : "", s->alarm0 ? ", alarm 0" : "");
    printf(", fault %u, %s", s->fault, sisal_number_text(s->fault));
    if (s->gauge & SISAL_PROFILE_MASK)
        printf(", %s", (s->gauge & SISAL_PROFILE_MASK) == SISAL_PROFILE_COPPER ? "copper" : "platinum");
    printf("%s\n", s->gauge & SISAL_GAUGE_6500 ? ", 6500" : "");
}

static void say_row(const struct sisal_row *row)
{
    struct sisal_standing s;
    memset(&s, 0, sizeof s);
    s.minute = row->minute;
    s.level = row->level;
    s.tenths = row->tenths;
    s.settings = row->settings;
    s.fault = row->fault;
    s.kind = row->kind;
    s.alarm1 = row->alarm1;
    s.alarm0 = row->alarm0;
    s.gauge = row->gauge;
    printf("row: %s, address %u, ", row->used ? "in use" : "free", row->address);
    say_standing(&s);
}

/* ---- the calls ------------------------------------------------------------------------------------------------------------------- */

static void enrol_with(uint8_t settings, uint16_t address, uint8_t gauge)
{
    say_answer("enrol", address, sisal_board_enrol(SISAL_ROWS_OF(rows), settings, address, gauge));
}

static void enrol(uint8_t settings, uint16_t address) { enrol_with(settings, address, 0); }

static void take_off(uint16_t address) { say_answer("remove", address, sisal_board_remove(SISAL_ROWS_OF(rows), address)); }

static void look(uint16_t address)
{
    struct sisal_standing s = sisal_board_look_up(SISAL_ROWS_OF(rows), address);
    if (s.number != SISAL_OK) {
        say_answer("look", address, s.number);
        return;
    }
    printf("look %u: ", address);
    say_standing(&s);
}

/* A reply, its bytes in quotes, is heard, and its row is looked at. */
static void hear(uint16_t address, uint32_t minute, size_t count, const char *reply, size_t bytes)
{
    struct sisal_heard heard = sisal_board_hear(SISAL_ROWS_OF(rows), minute, address, count, (const uint8_t *)reply, bytes);
    say_answer("hear", address, heard.number);
    look(address);
}

/* A reply of level 100 with this temperature, as a decimal 1900 sends it. */
static void hear_warm(uint16_t address, uint32_t minute, int16_t tenths)
{
    uint8_t reply[7];
    struct sisal_done done = sisal_write_reply(SISAL_MODE_DECIMAL, address, 100, SISAL_KIND_DEGREES, tenths, 0, 0, reply, sizeof reply);
    hear(address, minute, 8 * done.count, (const char *)reply, done.count);
}

static void ask(uint16_t address, uint8_t raise, uint8_t reset)
{
    uint8_t out[2];
    uint8_t number = sisal_board_poll(SISAL_ROWS_OF(rows), address, raise, reset, out, sizeof out);
    if (number != SISAL_OK)
        say_answer("poll", address, number);
    else
        printf("poll %u: %02x %02x\n", address, out[0], out[1]);
}

/* ---- the day --------------------------------------------------------------------------------------------------------------------- */

/* The board is filled: three transmitters, and what else is refused. */
static void morning(void)
{
    look(7);
    enrol(SISAL_MODE_DECIMAL, 7);
    look(7);
    enrol(SISAL_MODE_DECIMAL, 7);
    enrol(16, 12);
    enrol(SISAL_MODE_20_M, 1000);
    enrol(SISAL_MODE_20_M, 12);
    enrol(SISAL_MODE_DECIMAL | SISAL_ODD_PARITY, 999);
    enrol(SISAL_MODE_FRACTIONAL, 8);
}

/* Transmitter 7 answers, is garbled, and answers again. */
static void noon(void)
{
    hear(7, 600, 40, "\x80\x0e\x50\x00\x00", 5);
    hear(7, 601, 40, "\x80\x0e\x50\x00\x01", 5);
    hear(7, 602, 0, "", 0);
    hear(7, 603, 39, "\x80\x0e\x50\x00\x00", 5);
    hear(7, 604, 40, "\x00\x0e\x50\x00\x01", 5);
    hear(7, 605, 40, "\x80\x25\x00\x00\x03", 5);
    hear(7, 606, 40, "\x80\x0e\x50\x00\x00\x00", 6);
    hear(7, 607, 56, "\x80\x0e\x70\x00\x05\x62\x47", 7);
}

/* The others answer; one is removed, and another is enrolled where there was no room. */
static void evening(void)
{
    hear(12, 700, 40, "\x80\x25\x00\x00\x03", 5);
    hear(999, 701, 40, "\x93\x32\x50\x00\x00", 5);
    hear(8, 702, 40, "\x80\x10\x50\x00\x01", 5);
    take_off(12);
    take_off(12);
    look(12);
    enrol(SISAL_MODE_FRACTIONAL, 8);
    take_off(999);
}

/* A copper bulb reports nonsense; then a 6500 takes its place and is moved. */
static void night(void)
{
    enrol_with(SISAL_MODE_DECIMAL | SISAL_TYPE_1800, 20, SISAL_PROFILE_COPPER);
    enrol_with(SISAL_MODE_DECIMAL, 20, SISAL_PROFILE_COPPER);
    hear_warm(20, 800, 4000);
    hear_warm(20, 801, 4001);
    ask(20, 0, 0);
    ask(20, 1, 0);
    take_off(20);
    enrol_with(SISAL_MODE_DECIMAL, 20, SISAL_GAUGE_6500);
    hear_warm(20, 802, 4001);
    ask(20, 1, 0);
    ask(20, 0, 1);
    ask(20, 1, 1);
    take_off(20);
}

/* The host exchanges two rows, and every call refuses them; exchanged back, all is as it was. */
static void dawn(void)
{
    struct sisal_row first = rows[0];
    rows[0] = rows[1];
    rows[1] = first;
    look(7);
    enrol(SISAL_MODE_DECIMAL, 9);
    rows[1] = rows[0];
    rows[0] = first;
    look(8);
}

int main(void)
{
    memset(rows, 0, sizeof rows);
    morning();
    noon();
    evening();
    night();
    dawn();
    for (int i = 0; i < ROWS; i++)
        say_row(&rows[i]);
    return 0;
}
