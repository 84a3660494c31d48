/*
 * The core of a tank gauge recorder: polls and replies of the Mark/Space line (Model 1900 and Model 1800), the month sheet, the board
 * of last good readings, the listing of a sheet, the lines heard sample by sample and spoken on, the desk summary, whole rounds run and
 * saved, item records of the 854 gauge, and areas.
 *
 * Link target/libsisalcove.a, which `./build-library` makes. This header wants C11 or C++11, and x86-64 with the System V calling
 * convention, which is all that the archive is compiled for. The archive keeps no state, allocates nothing, never fails otherwise than
 * by the numbers below, and needs of the C library only what docs/INTEGRATION.md names. That it belongs to this header a host sees by
 * sisal_version() == SISAL_VERSION.
 *
 * Every call takes every value of its arguments. A refusal is a number, 0 for none: it is the answer itself where a call answers
 * uint8_t, and the field `number` of an answer struct. The first refusal that applies is given, in the order that stands beside each
 * call; there it also stands what else is in the answer then, and what becomes of what was lent. A compiler that can warns where an
 * answer is dropped.
 *
 * What is lent is a pointer and a length: the bytes of a buffer, but the ROWS of a board, never its bytes (SISAL_ROWS_OF), and the
 * transmitters of a site. Where the length is 0 the pointer may be null, as for a reply that did not come: the archive then looks at
 * nothing behind it, which examples/nothing.c tries of every call. Anywhere else it points to that many, which nobody else writes while
 * the call runs. Buffers lent to one call for writing overlap nothing else that is lent to it.
 *
 * Some answers have padding (struct sisal_poll, sisal_reply and sisal_item one byte, sisal_slot two, sisal_made and sisal_settled three,
 * sisal_lines_told and sisal_drew six, sisal_done, sisal_kept, sisal_rounded, sisal_rounded_page and sisal_begun seven). It holds anything:
 * compare answers field by field. Rows, summaries, rounds, rounds under way and their pace, the stores of a save and what is heard of the
 * lines so far have none.
 */
#ifndef SISALCOVE_H
#define SISALCOVE_H

#ifdef __cplusplus
#if __cplusplus < 201103L
#error "sisalcove.h wants C++11 or later"
#endif
#elif !defined(__STDC_VERSION__) || __STDC_VERSION__ < 201112L
#error "sisalcove.h wants C11 or later"
#endif
#if !defined(__x86_64__) || defined(__ILP32__) || defined(_WIN32) || defined(__CYGWIN__)
#error "libsisalcove.a is for x86-64 with the System V calling convention"
#endif

#include <stddef.h>
#include <stdint.h>

/* Holds at compile time, or the compiler stops with these words. <assert.h> is not asked for: a freestanding compiler may have none. */
#ifdef __cplusplus
#define SISAL_HOLDS(claim, words) static_assert(claim, words)
#else
#define SISAL_HOLDS(claim, words) _Static_assert(claim, words)
#endif

/* Stands before each call: a compiler that knows how warns where the answer is dropped. */
#if defined(__GNUC__)
#define SISAL_ANSWER __attribute__((warn_unused_result))
#elif (defined(__cplusplus) && __cplusplus >= 201703L) || (defined(__STDC_VERSION__) && __STDC_VERSION__ >= 202311L)
#define SISAL_ANSWER [[nodiscard]]
#else
#define SISAL_ANSWER
#endif

#ifdef __cplusplus
extern "C" {
#endif

/* ---- the version ----------------------------------------------------------------------------------------------------------------- */

/* It goes up with every change of a struct, of a call's arguments or of a number's meaning, and from 5 on with calls that are added. */
#define SISAL_VERSION 8u

/* The version of the archive. Refuses nothing. */
SISAL_ANSWER uint32_t sisal_version(void);

/* ---- numbers of the refusals and faults ------------------------------------------------------------------------------------------ */

enum sisal_number {
    SISAL_OK = 0,
    SISAL_FAULT_SILENT = 1,         /* no reply: 0 bits */
    SISAL_FAULT_LENGTH = 2,         /* 1 to 64 bits, not 40 or 56 */
    SISAL_FAULT_START = 3,          /* the start bit is 0 */
    SISAL_FAULT_ADDRESS = 4,        /* an address digit is above 9, or it is not the polled address */
    SISAL_FAULT_PARITY = 5,         /* wrong parity */
    SISAL_FAULT_FILL = 6,           /* a fill bit is 1 */
    SISAL_FAULT_CODE = 7,           /* a level digit is in no chart; it comes with the digit's place */
    SISAL_FAULT_RANGE = 8,          /* a level of mode 3 above 32,699 */
    SISAL_FAULT_TEMPERATURE = 9,    /* a temperature digit is above 9, or an 1800 has bit 40 without 43 */
    SISAL_FAULT_SETTINGS = 10,      /* a settings byte above 15 */
    SISAL_FAULT_ASKED_ADDRESS = 11, /* an address above 999 was asked for */
    SISAL_FAULT_SHEET = 12,         /* a sheet's length is no multiple of 32, or above 65,536; or a slot beyond the last */
    SISAL_FAULT_FULL = 13,          /* no slot is left */
    SISAL_FAULT_FORM = 14,          /* more than 64 bits, the wrong number of bytes for them, or a pad bit 1 */
    SISAL_FAULT_SHORT = 15,         /* the output has too few bytes */
    SISAL_FAULT_POLL = 16,          /* a poll is not 2 bytes, its start is 0, or a digit is above 9 */
    SISAL_FAULT_UNKNOWN = 17,       /* the address is not on the board */
    SISAL_FAULT_TWICE = 18,         /* the address is already on the board */
    SISAL_FAULT_NO_ROW = 19,        /* the board has no free row */
    SISAL_FAULT_TIMING = 20,        /* timing numbers: least above most, or one out of its range; of a round: any number of its pace */
    SISAL_FAULT_SPOILED = 21,       /* a spoiled message on the lines, or an answer given up in a round; it comes with the samples taken */
    SISAL_FAULT_FOREIGN_SAMPLE = 22, /* the same, in which a sample above 3 came */
    SISAL_FAULT_ROUND = 23,         /* a round of more than 30 replies */
    SISAL_FAULT_COUNT = 24,         /* a count of a summary is above 1,000,000 */
    SISAL_FAULT_PAIRS = 25,         /* a join has more than 30 pairs, or a side has records of pairs that it does not keep */
    SISAL_FAULT_PROFILE = 26,       /* a temperature is outside its row's sensor profile */
    SISAL_FAULT_PROFILE_TYPE = 27,  /* a sensor profile on a type 1800 */
    SISAL_FAULT_RAISE_RESET = 28,   /* raise or reset to a row without the mark of a 6500, or both at once */
    SISAL_FAULT_FRAMING = 29,       /* an item record has under 10 bytes, or STX, B, Z or ETX is not in its place */
    SISAL_FAULT_BLOCK_CHECK = 30,   /* its block check is wrong */
    SISAL_FAULT_ADDRESSES = 31,     /* its CIU or transmission address is no plain number: wildcards too */
    SISAL_FAULT_ITEM_TEXT = 32,     /* its item text has none of the six forms */
    SISAL_FAULT_OUTPUT_SHORT = 33,  /* the output has too few bytes for it */
    SISAL_FAULT_SITE = 34,          /* a site has more than 120 transmitters */
    SISAL_FAULT_NO_PLAN = 35,       /* no plan of areas exists for it */
    SISAL_FAULT_PLAN = 36,          /* a plan of areas is not accepted */
    SISAL_FAULT_SUMMARY = 37,       /* a summary with over 30 lines, an unused line not blank, lines not rising, or levels that do not fit */
    SISAL_FAULT_ORDER = 38          /* a board whose rows in use are not first, in strictly rising address order */
};

/*
 * Each number with its words for a person, for a host to expand: SISAL_NUMBERS(X) is X(SISAL_OK, "good") X(SISAL_FAULT_SILENT, "no
 * reply") and so on. The desk's pages say the same words.
 */
#define SISAL_NUMBERS(X) \
    X(SISAL_OK, "good") \
    X(SISAL_FAULT_SILENT, "no reply") \
    X(SISAL_FAULT_LENGTH, "wrong length") \
    X(SISAL_FAULT_START, "no start bit") \
    X(SISAL_FAULT_ADDRESS, "wrong address") \
    X(SISAL_FAULT_PARITY, "wrong parity") \
    X(SISAL_FAULT_FILL, "fill bit set") \
    X(SISAL_FAULT_CODE, "unreadable digit") \
    X(SISAL_FAULT_RANGE, "level out of range") \
    X(SISAL_FAULT_TEMPERATURE, "unreadable temperature") \
    X(SISAL_FAULT_SETTINGS, "bad settings") \
    X(SISAL_FAULT_ASKED_ADDRESS, "address above 999") \
    X(SISAL_FAULT_SHEET, "no sheet of slots") \
    X(SISAL_FAULT_FULL, "sheet full") \
    X(SISAL_FAULT_FORM, "bits out of form") \
    X(SISAL_FAULT_SHORT, "output too short") \
    X(SISAL_FAULT_POLL, "no poll") \
    X(SISAL_FAULT_UNKNOWN, "address not on the board") \
    X(SISAL_FAULT_TWICE, "address already on the board") \
    X(SISAL_FAULT_NO_ROW, "no free row") \
    X(SISAL_FAULT_TIMING, "bad timing numbers") \
    X(SISAL_FAULT_SPOILED, "spoiled on the lines") \
    X(SISAL_FAULT_FOREIGN_SAMPLE, "foreign sample on the lines") \
    X(SISAL_FAULT_ROUND, "more than 30 replies") \
    X(SISAL_FAULT_COUNT, "count above 1,000,000") \
    X(SISAL_FAULT_PAIRS, "more than 30 pairs") \
    X(SISAL_FAULT_PROFILE, "temperature outside its profile") \
    X(SISAL_FAULT_PROFILE_TYPE, "profile on an 1800") \
    X(SISAL_FAULT_RAISE_RESET, "raise or reset not allowed") \
    X(SISAL_FAULT_FRAMING, "item record out of frame") \
    X(SISAL_FAULT_BLOCK_CHECK, "wrong block check") \
    X(SISAL_FAULT_ADDRESSES, "bad addresses") \
    X(SISAL_FAULT_ITEM_TEXT, "no item text") \
    X(SISAL_FAULT_OUTPUT_SHORT, "output too short for the record") \
    X(SISAL_FAULT_SITE, "more than 120 transmitters") \
    X(SISAL_FAULT_NO_PLAN, "no plan of areas") \
    X(SISAL_FAULT_PLAN, "plan not accepted") \
    X(SISAL_FAULT_SUMMARY, "summary not well formed") \
    X(SISAL_FAULT_ORDER, "rows out of order")

/* The words of a number, never null; "unknown number" of one that no call gives. */
static inline const char *sisal_number_text(unsigned number)
{
    switch (number) {
#define SISAL_NUMBER_CASE(name, words) case name: return words;
        SISAL_NUMBERS(SISAL_NUMBER_CASE)
#undef SISAL_NUMBER_CASE
    default: return "unknown number";
    }
}

/* ---- settings: one mode, with the two bits added where they apply ---------------------------------------------------------------- */

enum sisal_settings {
    SISAL_MODE_FRACTIONAL = 0, /* level in 1/16 inch, up to 15,359 */
    SISAL_MODE_DECIMAL = 1,    /* level in 0.01 foot, up to 7,999 */
    SISAL_MODE_20_M = 2,       /* level in mm, up to 19,999 */
    SISAL_MODE_30_M = 3,       /* level in mm, up to 32,699 */
    SISAL_TYPE_1800 = 4,       /* temperature as the Model 1800 sends it; without this bit, the Model 1900 */
    SISAL_ODD_PARITY = 8,      /* odd parity; without this bit, even */
    SISAL_MODE_MASK = 3        /* settings & SISAL_MODE_MASK is the mode */
};

/* ---- gauge: a sensor profile, or none, with the mark added where it applies ------------------------------------------------------- */

/*
 * A profile is for a type 1900 that reports Fahrenheit, which is the host's to know: no setting says it, and the core compares tenths of a
 * degree and converts nothing. 0 and 3 in the lowest two bits name no profile, and the bits above the mark are not read.
 */
enum sisal_gauge {
    SISAL_PROFILE_COPPER = 1,   /* 100 ohm copper: -100 to +400 degrees, ends allowed */
    SISAL_PROFILE_PLATINUM = 2, /* DIN platinum: -234 to +502 degrees, ends allowed */
    SISAL_GAUGE_6500 = 4,       /* a 6500 servo gauge: it may be polled with raise or with reset */
    SISAL_PROFILE_MASK = 3      /* gauge & SISAL_PROFILE_MASK is the profile; 0 and 3 are none */
};

/* ---- kinds of temperature -------------------------------------------------------------------------------------------------------- */

enum sisal_kind {
    SISAL_KIND_NONE = 0,    /* in a row or an answer: no reading at all */
    SISAL_KIND_DEGREES = 1, /* `tenths` of a degree */
    SISAL_KIND_ABOVE = 2,   /* above the transmitter's range */
    SISAL_KIND_BELOW = 3,   /* below it */
    SISAL_KIND_ABSENT = 4   /* a reply of 40 bits, which has no temperature */
};

/* ---- what a slot reads as -------------------------------------------------------------------------------------------------------- */

enum sisal_state {
    SISAL_STATE_NONE = 0, /* beside a refusal */
    SISAL_STATE_BLANK = 1,
    SISAL_STATE_SPOILED = 2, /* a save that was cut */
    SISAL_STATE_RECORD = 3,
    SISAL_STATE_FOREIGN = 4
};

/* ---- sizes ----------------------------------------------------------------------------------------------------------------------- */

enum sisal_size {
    SISAL_POLL_BYTES = 2,       /* a poll */
    SISAL_REPLY_40_BYTES = 5,   /* a reply of 40 bits, without a temperature */
    SISAL_REPLY_56_BYTES = 7,   /* a reply of 56 bits, with one */
    SISAL_REPLY_MOST_BYTES = 8, /* whatever came on the line, up to 64 bits */
    SISAL_SLOT_BYTES = 32,      /* a slot of the sheet */
    SISAL_SHEET_BYTES = 65536,  /* the largest sheet: 2,048 slots */
    SISAL_MOST_STORES = 19,     /* the stores of a save of 64 bits, which has the most */
    SISAL_LINE_BYTES = 40,      /* enough for every line of a listing, its newline included */
    SISAL_ROWS = 30,            /* rows of a board that are ever read or written */
    SISAL_ADDRESS_MAX = 999     /* the largest address that can be polled */
};

/* Bytes of so many bits: what a reply or a message is lent in. */
#define SISAL_REPLY_BYTES(bits) (((size_t)(bits) + 7) / 8)

/* An array of rows as the two arguments that it is lent by, the array and how many rows it has. It wants the array itself, no pointer to it. */
#define SISAL_ROWS_OF(rows) (rows), (sizeof(rows) / sizeof((rows)[0]))

/* Whether a row in use, or a transmitter that was looked up, was never heard since it was enrolled: then `heard` means nothing. */
#define SISAL_NEVER_HEARD(row) ((row).kind == SISAL_KIND_NONE && (row).fault == SISAL_OK)

/* Bytes that are enough for the whole listing of a sheet. */
#define SISAL_LISTING_BYTES(sheet_bytes) (SISAL_LINE_BYTES * ((sheet_bytes) / SISAL_SLOT_BYTES + 2))

/* The stores of a whole save; one that answers fewer was cut short. */
#define SISAL_STORES(reply_bytes) ((size_t)11 + (size_t)(reply_bytes))

/* The allowance of a save whose power holds. */
#define SISAL_ALL_STORES SIZE_MAX

/* ---- answers --------------------------------------------------------------------------------------------------------------------- */

/* A poll that was read. */
struct sisal_poll {
    uint16_t address;
    uint8_t raise; /* 0 or 1 */
    uint8_t reset; /* 0 or 1 */
    uint8_t number;
};

/* A reply that was read. */
struct sisal_reply {
    uint16_t level; /* in the unit of the mode */
    int16_t tenths; /* of a degree; 0 beside above, below and absent */
    uint8_t kind;   /* enum sisal_kind */
    uint8_t alarm1; /* 0 or 1: alarm 1 (reference 2) */
    uint8_t alarm0; /* 0 or 1: alarm 0 (reference 1) */
    uint8_t number;
    uint8_t place; /* beside number 7 the first digit in no chart, counted from 0 at the top: 1 or 2 in mode 0, 1 to 3 in mode 1, 1 to 4
                      in modes 2 and 3, since every first digit and the sixteenths have all codes; else 0 */
};

/* A write, a save or a count that was made. */
struct sisal_done {
    size_t count; /* bytes written, samples drawn, stores made, or slots there are */
    uint8_t number;
};

/* A slot that was looked at. All but `state` and `number` is 0 unless it holds a record. */
struct sisal_slot {
    uint8_t reply[8]; /* (count + 7) / 8 bytes, and 0 after them */
    uint32_t minute;
    uint16_t address;
    uint8_t settings;
    uint8_t count; /* bits of the reply, 0 to 64 */
    uint8_t state; /* enum sisal_state */
    uint8_t number;
};

/*
 * A save told as its stores: store i, for i below `count`, puts bytes[i] into byte SISAL_SLOT_BYTES * slot + places[i] of the sheet. Behind
 * them both rows are 0. It has no padding.
 */
struct sisal_stores {
    uint32_t slot; /* counted from 0 */
    uint8_t places[SISAL_MOST_STORES]; /* within the slot: from byte 2 on, ascending; then byte 1, then byte 0 */
    uint8_t bytes[SISAL_MOST_STORES];
    uint8_t count; /* 11 to 19; 0 beside a refusal */
    uint8_t number;
};

/*
 * A row of the board, lent by the host. All zeros is a free row, so a board begins as memset(rows, 0, sizeof rows). Every pattern of
 * bytes is a row; the host may read rows at any time between calls.
 */
struct sisal_row {
    uint32_t minute;  /* of the last good reading */
    uint16_t address;
    uint16_t level;   /* of the last good reading, with kind, tenths and alarms */
    int16_t tenths;   /* 0 beside above, below and absent, as a hearing leaves it; read beside degrees alone */
    uint8_t settings;
    uint8_t fault;    /* the last fault, 0 for none */
    uint8_t used;     /* 0 for a free row, 1 after enrolling; any other number is in use too */
    uint8_t kind;     /* enum sisal_kind; 0 while there is no reading, and a number above 4 reads as absent */
    uint8_t alarm1;   /* set by any number but 0 */
    uint8_t alarm0;
    uint32_t heard;   /* minute of the latest hearing, good or faulty; it means nothing while kind and fault are both 0 */
    uint16_t faulty;  /* faulty replies since the last good one or since enrolment; it stays at 65,535 */
    uint8_t place;    /* beside fault 7 the first digit in no chart, counted from 0 at the top; not read beside another fault */
    uint8_t gauge;    /* enum sisal_gauge, as enrolling was given it, kept by a hearing; of a free row it is not read */
};

/* A reply that was heard on the board. */
struct sisal_heard {
    uint8_t number;
    uint8_t place; /* beside number 7 the first digit in no chart, counted from 0 at the top; else 0 */
};

/* A transmitter that was looked up on the board. */
struct sisal_standing {
    uint32_t minute;
    uint16_t address;
    uint16_t level;
    int16_t tenths; /* 0 beside above, below and absent */
    uint8_t settings;
    uint8_t fault;
    uint8_t number;
    uint8_t kind; /* 0 while there is no reading; minute, level, tenths and alarms are then 0 */
    uint8_t alarm1;
    uint8_t alarm0;
    uint32_t heard; /* minute of the latest hearing, good or faulty; 0 where there is none, which kind 0 and fault 0 together say */
    uint16_t faulty; /* faulty replies since the last good one or since enrolment, at most 65,535 */
    uint8_t place;  /* beside fault 7 the first digit in no chart, counted from 0 at the top; 0 beside another fault */
    uint8_t gauge;  /* the profile, 0 to 2, and 4 more with the mark of a 6500, whatever else stands in the row */
};

SISAL_HOLDS(sizeof(struct sisal_poll) == 6, "struct sisal_poll");
SISAL_HOLDS(sizeof(struct sisal_reply) == 10, "struct sisal_reply");
SISAL_HOLDS(sizeof(struct sisal_done) == 16, "struct sisal_done");
SISAL_HOLDS(sizeof(struct sisal_slot) == 20, "struct sisal_slot");
SISAL_HOLDS(sizeof(struct sisal_stores) == 44, "struct sisal_stores");
SISAL_HOLDS(sizeof(struct sisal_row) == 24, "struct sisal_row");
SISAL_HOLDS(sizeof(struct sisal_standing) == 24, "struct sisal_standing");
SISAL_HOLDS(sizeof(struct sisal_heard) == 2, "struct sisal_heard");
SISAL_HOLDS(sizeof(size_t) == 8, "size_t");

/* ---- polls and replies ----------------------------------------------------------------------------------------------------------- */

/* Reads a poll. Refuses 16, with all else 0. */
SISAL_ANSWER struct sisal_poll sisal_read_poll(const uint8_t *poll, size_t poll_bytes);

/*
 * Writes a poll into the first SISAL_POLL_BYTES bytes and answers 2; raise and reset are set by any number but 0. Refuses 11, 15, with
 * count 0 and no byte changed.
 */
SISAL_ANSWER struct sisal_done sisal_write_poll(uint16_t address, uint8_t raise, uint8_t reset, uint8_t *out, size_t out_bytes);

/* Whether a reply of `count` bits is lent in the right form: 0; or 14. */
SISAL_ANSWER uint8_t sisal_form(size_t count, const uint8_t *reply, size_t reply_bytes);

/*
 * Reads a reply of `count` bits to a poll of `address`. Bit 1 is the highest bit of the first byte; there are (count + 7) / 8 bytes,
 * and the bits after the count are 0. Refuses 10, 11, 14, then 1 to 9, with all else 0 but for the place beside 7.
 */
SISAL_ANSWER struct sisal_reply sisal_read_reply(uint8_t settings, uint16_t address, size_t count, const uint8_t *reply,
                                                 size_t reply_bytes);

/*
 * The same answer to every argument, by a second reader: in the decimal and the metric modes the level is read two digits at a time, from
 * a table of 512 bytes. Refuses 10, 11, 14, then 1 to 9, with all else 0 but for the place beside 7.
 */
SISAL_ANSWER struct sisal_reply sisal_read_reply_by_pairs(uint8_t settings, uint16_t address, size_t count, const uint8_t *reply,
                                                          size_t reply_bytes);

/*
 * Writes a reply: SISAL_REPLY_40_BYTES where the temperature is absent, else SISAL_REPLY_56_BYTES, and answers how many. The kind is 1
 * degrees, 2 above, 3 below; every other kind is absent, and `tenths` counts for degrees alone. A level above its mode's largest is
 * written as the invalid level, and degrees beyond the type's range (1900: -7,999 to 7,999 tenths, 1800: -1,999 to 1,999) as its end
 * (1900) or as above and below (1800). An alarm is set by any number but 0. Refuses 10, 11, 15, with count 0 and no byte changed.
 */
SISAL_ANSWER struct sisal_done sisal_write_reply(uint8_t settings, uint16_t address, uint16_t level, uint8_t kind, int16_t tenths,
                                                 uint8_t alarm1, uint8_t alarm0, uint8_t *out, size_t out_bytes);

/* ---- the month sheet ------------------------------------------------------------------------------------------------------------- */

/*
 * Saves a reply, good or faulty, into the slot after the last used one: at most `allowance` stores of one byte each, in the order that
 * lets a power cut spoil the slot but never show a record that was not made. Answers the stores made; a whole save makes
 * SISAL_STORES(reply_bytes), whatever the allowance beyond it. A blank sheet is all FF. Refuses 12, 10, 11, 14, 13, with count 0 and no
 * byte changed.
 */
SISAL_ANSWER struct sisal_done sisal_save(uint8_t *sheet, size_t sheet_bytes, uint8_t settings, uint32_t minute, uint16_t address,
                                          size_t count, const uint8_t *reply, size_t reply_bytes, size_t allowance);

/*
 * Tells the stores that sisal_save would make, all of them, in order, and changes nothing: for a host that makes them itself, on a card
 * that it cannot lend. Making the first k of them, a byte each and in order, leaves just what sisal_save with allowance k leaves. All but
 * the last may be made in any order or at once, torn or not: the slot is then blank or spoiled; the last is made alone, after them. The
 * stores are good for the sheet that was lent, which has to be the card's: after making them on the card, make the same save on the
 * copy. Behind a store that failed none may follow: the card is read and asked anew. Refuses 12, 10, 11, 14, 13, with all else 0.
 */
SISAL_ANSWER struct sisal_stores sisal_save_stores(const uint8_t *sheet, size_t sheet_bytes, uint8_t settings, uint32_t minute,
                                                   uint16_t address, size_t count, const uint8_t *reply, size_t reply_bytes);

/* Looks at a slot, counted from 0. Refuses 12, with all else 0. */
SISAL_ANSWER struct sisal_slot sisal_look(const uint8_t *sheet, size_t sheet_bytes, size_t slot);

/* How many slots a sheet has. Refuses 12, with count 0. */
SISAL_ANSWER struct sisal_done sisal_slots(const uint8_t *sheet, size_t sheet_bytes);

/* ---- the listing of a sheet: text without a 0 at its end ------------------------------------------------------------------------- */

/*
 * Writes the first line, `sheet` and its slots, newline included, and answers its bytes. Refuses 12, 15, with count 0 and no byte
 * changed.
 */
SISAL_ANSWER struct sisal_done sisal_head_line(const uint8_t *sheet, size_t sheet_bytes, uint8_t *out, size_t out_bytes);

/*
 * Writes the line of a slot and answers its bytes, 0 where the slot is blank: slot, minute, address, level, temperature ("-" absent,
 * "above", "below", else tenths of a degree), alarm 1, alarm 0; a faulty reply ends after the address with "fault" and its number; a
 * slot that holds no record is "spoiled" or "foreign". Refuses 12, 15, with count 0 and no byte changed.
 */
SISAL_ANSWER struct sisal_done sisal_slot_line(const uint8_t *sheet, size_t sheet_bytes, size_t slot, uint8_t *out, size_t out_bytes);

/* Writes the last line, `records` and how many there are. Refuses 12, 15, with count 0 and no byte changed. */
SISAL_ANSWER struct sisal_done sisal_last_line(const uint8_t *sheet, size_t sheet_bytes, uint8_t *out, size_t out_bytes);

/*
 * Writes the whole listing and answers its bytes; for a sheet of a bad size it is the line "fault 12". Refuses 15 where the output has
 * fewer than SISAL_LISTING_BYTES(sheet_bytes) bytes, whatever the sheet holds (fewer than 9 for a sheet of a bad size), with count 0 and
 * no byte changed.
 */
SISAL_ANSWER struct sisal_done sisal_listing(const uint8_t *sheet, size_t sheet_bytes, uint8_t *out, size_t out_bytes);

/* ---- the lines ------------------------------------------------------------------------------------------------------------------- */

/* A sample of the two lines, one byte. Any byte above 3 counts as both low. */
enum sisal_sample {
    SISAL_SAMPLE_IDLE = 0,
    SISAL_SAMPLE_MARK = 1,  /* the mark line is low */
    SISAL_SAMPLE_SPACE = 2, /* the space line is low */
    SISAL_SAMPLE_BOTH = 3
};

/*
 * What was heard so far. All zeros is the beginning; from then on a host hands back what the last call left, and changes nothing in it.
 * A pattern that no call leaves is heard as a spoiled message; an old state that one did leave is gone on from as it stands, so hand over
 * the last. 16 bytes, no padding.
 */
struct sisal_lines_so_far {
    uint64_t bits;  /* of the message so far, the first the highest; 0 after the count */
    uint32_t run;   /* samples of the run that goes on: of the line that is low, up to 1,001, or of idle after what is open */
    uint16_t count; /* bits of the message so far */
    uint8_t line;   /* the line that is low: 0 none, 1 mark, 2 space */
    uint8_t fault;  /* 0, or 21 or 22 where the message is spoiled */
};

/* What a call told. The six bytes at the end are padding and not to be read. */
struct sisal_lines_told {
    struct sisal_lines_so_far so_far; /* for the next call */
    size_t taken;                     /* samples taken: the rest is for the next call */
    uint8_t message[8];               /* the first bit the highest of the first byte; 0 after the count */
    uint8_t count;                    /* bits of the message, 1 to 64; 0 where there is none */
    uint8_t number;
};
SISAL_HOLDS(sizeof(struct sisal_lines_so_far) == 16, "struct sisal_lines_so_far");
SISAL_HOLDS(sizeof(struct sisal_lines_told) == 40, "struct sisal_lines_told");

/*
 * Hears samples of the two lines, in whatever batches the host has. A pulse is `least` to `most` samples long, 1 to 1,000; `gap` idle
 * samples, 1 to 10,000, close a message. The call stops after the sample that closes. It tells
 *   a message:  number 0, count 1 to 64, its bits in message: (count + 7) / 8 bytes of it go into sisal_read_reply, sisal_save or
 *               sisal_board_hear as they are; so_far all zeros;
 *   nothing:    number 0, count 0: all samples are taken and so_far is what to hand back with the next ones;
 *   20:         bad timing numbers, asked first: taken 0, count 0, so_far as it was handed in;
 *   22 or 21:   a spoiled message, 22 where a sample above 3 came in it: taken up to the sample that closes, count 0, so_far all zeros.
 */
SISAL_ANSWER struct sisal_lines_told sisal_hear_lines(struct sisal_lines_so_far so_far, size_t least, size_t most, size_t gap,
                                                      const uint8_t *samples, size_t sample_count);

/*
 * Draws a message on the two lines: for each bit, from the first on, `low` samples of its line, 1 to 1,000, and then `still` samples of
 * idle, 1 to 10,000. The whole drawing has count * (low + still) samples. The call fills `out` with those from sample `from` on, as many
 * as there are or fit, and answers how many; beyond the end it draws none. It keeps no state: a host that hands back as `from` what it
 * has drawn so far may draw in any batches. A gap after the message is the host's to add.
 * Refuses 20 where low or still is out of range, then 14 of the message; then the count is 0 and nothing is changed.
 */
SISAL_ANSWER struct sisal_done sisal_draw(size_t low, size_t still, size_t count, const uint8_t *message, size_t message_bytes,
                                          size_t from, uint8_t *out, size_t out_bytes);

/* ---- the board: the first 30 of the rows lent count ------------------------------------------------------------------------------ */

/*
 * The rows in use stand first, in strictly rising address order, and the free ones behind them; rows that are all free are so kept,
 * whatever stands in them. Every call asks first that the rows that count are so kept, and refuses others by 38, with all else 0 and
 * nothing changed. The calls below keep them so: enrolling and removing move rows, hearing changes one row, looking and polling none.
 *
 * A board is lent by its rows and how MANY there are. sizeof rows is bytes, 24 times too many, and the calls would read and write past the
 * array. For an array write sisal_board_enrol(SISAL_ROWS_OF(rows), ...).
 */

/*
 * Enrols a transmitter, with its sensor profile and mark in `gauge`, 0 for neither, no reading and fault 0: 0, and its row stands before the
 * first with a greater address; the rows in use from there on have moved on by one, and the first free row is used up. Or 38, 10, 11, 27,
 * 18, 19, and no row is changed.
 */
SISAL_ANSWER uint8_t sisal_board_enrol(struct sisal_row *rows, size_t row_count, uint8_t settings, uint16_t address, uint8_t gauge);

/*
 * Hears a reply to a poll of `address`: 0, and the row's reading, minute and fault 0 are set. Or 38, 11, 14, 17, 10 (the row's own settings),
 * and no row is changed; or, asked last, 1 to 9, and then 26 where the reply's temperature is outside the row's profile, and only the row's
 * fault is set, 7 with its place, which is answered too. Beside every other number `place` is 0. A hearing that answers 0 to 9 or 26 sets
 * the minute of the latest hearing; 0 sets the count of faulty replies to 0, and the others add one to it. An 1800 row and a reply with no
 * temperature are not checked against a profile.
 */
SISAL_ANSWER struct sisal_heard sisal_board_hear(struct sisal_row *rows, size_t row_count, uint32_t minute, uint16_t address,
                                                 size_t count, const uint8_t *reply, size_t reply_bytes);

/*
 * Removes a transmitter: 0, and the rows in use behind its row have moved up by one; the last of their places is left free, all zeros. Or
 * 38, 11, 17, and no row is changed.
 */
SISAL_ANSWER uint8_t sisal_board_remove(struct sisal_row *rows, size_t row_count, uint16_t address);

/* Looks a transmitter up. Refuses 38, 11, 17, with all else 0. */
SISAL_ANSWER struct sisal_standing sisal_board_look_up(const struct sisal_row *rows, size_t row_count, uint16_t address);

/*
 * Writes the poll of a transmitter's row into the first 2 bytes, with raise or with reset where they are not 0: 0, and no other byte is
 * changed; or 38, 11, 17, 28 (raise or reset to a row that is not marked as a 6500, or both at once), 15, and no byte is changed.
 * sisal_write_poll asks no row.
 */
SISAL_ANSWER uint8_t sisal_board_poll(const struct sisal_row *rows, size_t row_count, uint16_t address, uint8_t raise, uint8_t reset,
                                      uint8_t *out, size_t out_bytes);

/* ---- the desk summary ------------------------------------------------------------------------------------------------------------- */

/*
 * A line: the lowest and the highest level of one address and settings pair, and how many of its replies were good and how many faulty.
 * SISAL_NO_LEVEL stands in both levels while no reply was good.
 */
struct sisal_line {
    uint16_t address;
    uint16_t settings;
    uint16_t lowest; /* in the unit of the settings' mode */
    uint16_t highest;
    uint32_t good;
    uint32_t faulty;
};

/*
 * A summary: its first `count` lines are used, in rising order of address, then settings; the rest are all zeros. `others` counts the
 * records of pairs that have no line. All zeros is the blank summary.
 */
struct sisal_summary {
    uint32_t count;
    uint32_t others;
    struct sisal_line lines[30];
};

enum { SISAL_NO_LEVEL = 65535 };

/* A summary that was made; beside a refusal it is blank. */
struct sisal_made {
    struct sisal_summary summary;
    uint8_t number;
};

/* A save with its summary: the summary as it then is, and the stores made. */
struct sisal_kept {
    struct sisal_summary summary;
    size_t count;
    uint8_t number;
};

SISAL_HOLDS(sizeof(struct sisal_line) == 16, "struct sisal_line");
SISAL_HOLDS(sizeof(struct sisal_summary) == 488, "struct sisal_summary");
SISAL_HOLDS(sizeof(struct sisal_made) == 492, "struct sisal_made");
SISAL_HOLDS(sizeof(struct sisal_kept) == 504, "struct sisal_kept");

/*
 * The summary worked out from the sheet's list: for a beginning, and after a power cut. The first 30 pairs that appear in the list are
 * kept. Refuses 12, with a blank summary.
 */
SISAL_ANSWER struct sisal_made sisal_summary_of(const uint8_t *sheet, size_t sheet_bytes);

/*
 * Saves as sisal_save does, and brings the summary up to date where the record is closed, that is, where all its stores were made.
 * Refuses 37 and 24, of the summary handed in, then 12, 10, 11, 14, 13; with count 0, no byte changed, and the summary handed in, so that
 * `page = kept.summary` is always right.
 */
SISAL_ANSWER struct sisal_kept sisal_summary_save(uint8_t *sheet, size_t sheet_bytes, struct sisal_summary summary, uint8_t settings,
                                                  uint32_t minute, uint16_t address, size_t count, const uint8_t *reply,
                                                  size_t reply_bytes, size_t allowance);

/*
 * Puts two summaries together, pair by pair: lowest of lowest, highest of highest, sums of counts. A year is twelve joins that begin
 * with a blank summary. Refuses 37 in either, 25, 24 in either or in the join; with a blank summary.
 */
SISAL_ANSWER struct sisal_made sisal_summary_join(struct sisal_summary a, struct sisal_summary b);

/* ---- a whole round in one save --------------------------------------------------------------------------------------------------- */

enum { SISAL_ROUND_REPLIES = 30 };

/*
 * A reply of a round, as sisal_save takes it: `bytes` says how many of the eight it lends; those behind are not read. More than 8 are out
 * of form, as more than 64 bits are.
 */
struct sisal_polled {
    uint32_t minute;
    uint32_t count; /* bits of the reply, 0 for a silent one */
    uint32_t bytes; /* (count + 7) / 8 */
    uint16_t address;
    uint8_t settings;
    uint8_t unused; /* not read */
    uint8_t reply[8];
};

/* A round: its first `count` replies, in the order in which they are saved. */
struct sisal_round {
    struct sisal_polled replies[SISAL_ROUND_REPLIES];
    size_t count;
};

/* How many replies were closed, the stores made, and the number that stopped the round, 0 where none did. */
struct sisal_rounded {
    size_t closed;
    size_t stores;
    uint8_t number;
};

/* The same, with the summary as it then is. */
struct sisal_rounded_page {
    struct sisal_summary summary;
    size_t closed;
    size_t stores;
    uint8_t number;
};

SISAL_HOLDS(sizeof(struct sisal_polled) == 24, "struct sisal_polled");
SISAL_HOLDS(sizeof(struct sisal_round) == 728, "struct sisal_round");
SISAL_HOLDS(sizeof(struct sisal_rounded) == 24, "struct sisal_rounded");
SISAL_HOLDS(sizeof(struct sisal_rounded_page) == 512, "struct sisal_rounded_page");

/*
 * Saves the replies one by one as sisal_save does, each with what is left of the allowance, up to the first refused one or until no
 * stores are left. With no stores left the next reply is not tried, so that its refusal is not told. The first `closed` replies are
 * closed; stores beyond theirs are those of the next one, which was cut. Refuses 23 before all others, with closed and stores 0 and no
 * byte changed; then 12, 10, 11, 14, 13 of the reply behind the closed ones, which changed nothing: closed and stores are those of the
 * replies before it.
 */
SISAL_ANSWER struct sisal_rounded sisal_save_round(uint8_t *sheet, size_t sheet_bytes, struct sisal_round round, size_t allowance);

/*
 * The same with a summary, each reply being saved as sisal_summary_save does. Refuses 23 before all others; then 37, 24, 12, 10, 11, 14, 13
 * of the reply behind the closed ones. The summary is always that of the replies closed so far, beside a refusal too: where none was
 * closed, the one handed in. So `page = rounded.summary` is always right.
 */
SISAL_ANSWER struct sisal_rounded_page sisal_summary_save_round(uint8_t *sheet, size_t sheet_bytes, struct sisal_summary summary,
                                                                struct sisal_round round, size_t allowance);

/* ---- a round that the recorder runs itself ---------------------------------------------------------------------------------------- */

/*
 * A morning: begin; then draw, and drive the lines by what was drawn, or, where nothing was, sense them and hear; until it is over. Then
 * the round is saved as it stands, and the board hears each reply of it (docs/HOST.md has the loop, examples/host.c is a month of them).
 */

/* The timing numbers of a round, in samples but for `tries`. Any of them out of its range is refused by 20, whatever else is wrong. */
struct sisal_pace {
    uint32_t low;     /* of a poll's pulses, 1 to 1,000 */
    uint32_t still;   /* of idle after each, 1 to 10,000 */
    uint32_t delay;   /* of idle before each poll, 0 to 1,000,000 */
    uint32_t least;   /* of an answer's pulses at the least, 1 to most, */
    uint32_t most;    /* and at the most, up to 1,000 */
    uint32_t gap;     /* of idle that closes an answer, 1 to 10,000 */
    uint32_t wait;    /* after a poll: an answer's first low sample comes within them, 1 to 1,000,000 */
    uint32_t longest; /* after a poll: an answer is closed within them, wait to 10,000,000 */
    uint32_t tries;   /* polls of one transmitter at most, 1 to 9 */
};

/*
 * A round under way. A host lends it to the two calls, which bring it up to date, and changes nothing in it, but may read it between calls:
 * `listening` says which of the two calls goes on. Every pattern of bytes has a meaning. A round is over where `at` is not below round.count, or where that
 * is above 30. While it draws, the lines are at rest whatever stands there, and all of delay and poll drawn, or more, is time to listen,
 * with nothing heard yet. Lines that no call leaves are a spoiled message. More heard than a limit is that limit reached, which the next
 * sample settles. An address above 999 has no poll: the delay alone is drawn. 752 bytes, no padding.
 */
struct sisal_polling {
    struct sisal_round round;        /* the replies below `at` stand; the others have the minute of the beginning and 0 bits */
    struct sisal_lines_so_far lines; /* what was heard so far of the answer */
    uint32_t passed;                 /* samples drawn of delay and poll; while it listens, samples heard since the poll */
    uint16_t at;                     /* whose turn it is: round.replies[at] */
    uint8_t tried;                   /* polls of it before this one, none of which a message came to */
    uint8_t listening;               /* 0: draw, and drive the lines; any other number: sense them, and hear */
};

/* A round that was begun. */
struct sisal_begun {
    struct sisal_polling polling;
    uint8_t number;
};

/* What was drawn of a round. */
struct sisal_drew {
    size_t count; /* samples drawn */
    uint8_t over; /* 1 where the round is over, else 0 */
    uint8_t number;
};

/*
 * What was heard of a round. `reply`, `answered` and `number` are 0 unless this call settled a try. It did where it took a sample and
 * polling->listening is 0; the three alone do not say so, since silence of the first reply that is asked again has 0 in all of them.
 */
struct sisal_settled {
    size_t taken;     /* samples taken */
    uint16_t reply;   /* the try was of polling->round.replies[reply], */
    uint8_t answered; /* which now stands: 1; or is asked for again: 0 */
    uint8_t over;     /* 1 where the round is over, else 0 */
    uint8_t number;   /* 20; or how the try was settled: 0, 21 or 22 */
};

SISAL_HOLDS(sizeof(struct sisal_pace) == 36, "struct sisal_pace");
SISAL_HOLDS(sizeof(struct sisal_polling) == 752, "struct sisal_polling");
SISAL_HOLDS(sizeof(struct sisal_begun) == 760, "struct sisal_begun");
SISAL_HOLDS(sizeof(struct sisal_drew) == 16, "struct sisal_drew");
SISAL_HOLDS(sizeof(struct sisal_settled) == 16, "struct sisal_settled");

/*
 * Begins a round of the board's rows in use, in address order: each reply has its row's address and settings, this minute, and 0 bits.
 * What becomes of the board afterwards does not change the round. A board with no row in use gives a round that is over at once. Refuses
 * 38, with all else 0.
 */
SISAL_ANSWER struct sisal_begun sisal_polling_begin(const struct sisal_row *rows, size_t row_count, uint32_t minute);

/*
 * Draws on for the transmitter whose turn it is: `delay` samples of idle, then its poll, raise and reset 0, as sisal_draw draws it. Fills
 * `out` as far as there is something to draw, up to the end of the poll, and answers how many; no other byte is changed. The batches may
 * be of any size. At the poll's end `listening` is set, and it is time to listen: until the answer is settled nothing is drawn, so that a
 * count of 0 into an output with room says the same. A round that is over draws nothing and stays as it stands, with over 1.
 * `polling` is never null, and lies apart from `out`. Refuses 20, asked first: count and over 0, the round under way bit for bit as it was
 * lent, and no byte changed.
 */
SISAL_ANSWER struct sisal_drew sisal_polling_draw(struct sisal_polling *polling, struct sisal_pace pace, uint8_t *out, size_t out_bytes);

/*
 * Hears samples of the lines, the first of them the first after the poll's last, in whatever batches the host has. They are heard as
 * sisal_hear_lines hears them, up to the sample that settles the try, which is by the first of these:
 *   a message closes:      number 0; its bits stand in the reply, whatever they are, and this minute;
 *   a spoiled one closes:  number 21, or 22 where a sample above 3 came in it;
 *   silence:               number 0, where `wait` samples were heard and all of them were 0;
 *   given up:              number 21, or 22 where a sample above 3 came, where `longest` samples were heard and nothing has closed.
 * Without a message the same transmitter is polled again, up to `tries` polls in all: answered 0. After the last of them its reply stands
 * with 0 bits and this minute: answered 1. A message is never asked for again, faulty or not.
 * `taken` says where the call stopped. SAMPLES BEHIND THAT ONE BELONG TO NOBODY WHERE A TRY WAS SETTLED: drop them. Handed to the next
 * call they would be one transmitter's tail taken for the next one's answer. Where no try was settled all samples are taken.
 * While it draws, nothing is taken: a recorder must not hear its own poll. A round that is over takes nothing and stays as it stands,
 * with over 1. With n transmitters it is over after at most n * tries * (delay + 16 * (low + still) + longest) samples drawn and taken.
 * `polling` is never null, and lies apart from `samples`. Refuses 20, asked first: all else 0, and the round under way bit for bit as it was
 * lent. 21 and 22 are no refusals here.
 */
SISAL_ANSWER struct sisal_settled sisal_polling_hear(struct sisal_polling *polling, struct sisal_pace pace, uint32_t minute,
                                                     const uint8_t *samples, size_t sample_count);

/* ---- the same by pointer: a page or a round is written once in a host's line ------------------------------------------------------ */

/*
 * These are no calls of the archive: each hands over what the pointer points to, and puts back what was answered. A pointer here is never
 * null. Refusals and their order are those of the call that each goes by.
 */

/* sisal_summary_of into a page. Beside a refusal the page stays as it was. */
SISAL_ANSWER static inline uint8_t sisal_page_of(struct sisal_summary *page, const uint8_t *sheet, size_t sheet_bytes)
{
    struct sisal_made made = sisal_summary_of(sheet, sheet_bytes);
    if (made.number == SISAL_OK)
        *page = made.summary;
    return made.number;
}

/* sisal_summary_save beside a page: the page is always right after it. */
SISAL_ANSWER static inline struct sisal_done sisal_page_save(struct sisal_summary *page, uint8_t *sheet, size_t sheet_bytes,
                                                             uint8_t settings, uint32_t minute, uint16_t address, size_t count,
                                                             const uint8_t *reply, size_t reply_bytes, size_t allowance)
{
    struct sisal_kept kept =
        sisal_summary_save(sheet, sheet_bytes, *page, settings, minute, address, count, reply, reply_bytes, allowance);
    struct sisal_done done = {kept.count, kept.number};
    *page = kept.summary;
    return done;
}

/* sisal_summary_join of a page and another one, into the first. Beside a refusal both stay as they were. */
SISAL_ANSWER static inline uint8_t sisal_page_join(struct sisal_summary *page, const struct sisal_summary *more)
{
    struct sisal_made made = sisal_summary_join(*page, *more);
    if (made.number == SISAL_OK)
        *page = made.summary;
    return made.number;
}

/* sisal_save_round of a round that stands somewhere. */
SISAL_ANSWER static inline struct sisal_rounded sisal_round_save(uint8_t *sheet, size_t sheet_bytes, const struct sisal_round *round,
                                                                 size_t allowance)
{
    return sisal_save_round(sheet, sheet_bytes, *round, allowance);
}

/* sisal_summary_save_round beside a page: the page is always right after it. */
SISAL_ANSWER static inline struct sisal_rounded sisal_page_save_round(struct sisal_summary *page, uint8_t *sheet, size_t sheet_bytes,
                                                                      const struct sisal_round *round, size_t allowance)
{
    struct sisal_rounded_page kept = sisal_summary_save_round(sheet, sheet_bytes, *page, *round, allowance);
    struct sisal_rounded rounded = {kept.closed, kept.stores, kept.number};
    *page = kept.summary;
    return rounded;
}

/* sisal_hear_lines with what was heard so far, which is then what to hand over with the next samples. */
SISAL_ANSWER static inline struct sisal_lines_told sisal_lines_hear(struct sisal_lines_so_far *so_far, size_t least, size_t most,
                                                                    size_t gap, const uint8_t *samples, size_t sample_count)
{
    struct sisal_lines_told told = sisal_hear_lines(*so_far, least, most, gap, samples, sample_count);
    *so_far = told.so_far;
    return told;
}

/* ---- item records of the 854 gauge on a CIU -------------------------------------------------------------------------------------- */

enum sisal_item_kind {
    SISAL_ITEM_NONE = 0,          /* beside a refusal */
    SISAL_ITEM_ALONE = 1,         /* BL: a request or a command */
    SISAL_ITEM_SETTING = 2,       /* DF=a */
    SISAL_ITEM_TAKEN = 3,         /* BL& */
    SISAL_ITEM_SETTING_TAKEN = 4, /* DF=A& */
    SISAL_ITEM_VALUE = 5,         /* HA012.2345 */
    SISAL_ITEM_ERROR = 6          /* QQ!051 */
};

enum sisal_item_size {
    SISAL_ITEM_DATA_BYTES = 16,  /* characters of the longest data */
    SISAL_ITEM_RECORD_BYTES = 28 /* bytes of the longest record */
};

/* An item record that was read. Beside a refusal all but `number` is 0. */
struct sisal_item {
    uint8_t data[16]; /* `length` characters, and 0 after them */
    uint16_t error;   /* of an error, else 0 */
    uint8_t ciu;      /* 0 to 9 */
    uint8_t gauge;    /* transmission address, 0 to 99 */
    uint8_t first;    /* the item's two capital letters */
    uint8_t second;
    uint8_t kind;   /* enum sisal_item_kind */
    uint8_t length; /* of a setting's or a value's data, else 0 */
    uint8_t number;
};

SISAL_HOLDS(sizeof(struct sisal_item) == 26, "struct sisal_item");

/* Reads an item record. Refuses 29, 30, 31, 32, with all else 0. */
SISAL_ANSWER struct sisal_item sisal_read_item(const uint8_t *record, size_t record_bytes);

/*
 * Writes an item record into the first bytes of the output, 10 to 28 of them, and answers how many. The addresses are wide so that a
 * wildcard, which document 002 numbers from 100 on, is refused and not cut to a good one. A kind without data takes no data, and every
 * kind but an error the error number 0. Refuses 31, 32, 33; beside a refusal `count` is 0 and no byte is changed.
 */
SISAL_ANSWER struct sisal_done sisal_write_item(uint16_t ciu, uint16_t gauge, uint8_t first, uint8_t second, uint8_t kind, uint16_t error,
                                                const uint8_t *data, size_t data_bytes, uint8_t *out, size_t out_bytes);

/* ---- areas: which transmitters of a site share one ------------------------------------------------------------------------------- */

/*
 * A transmitter as one number: the feet and the tenths of an ohm that it adds to its area. Each is stopped at 65,535, which is above
 * every area's limit, so that a number too wide, or below 0, becomes no good one. Each argument is evaluated once, and numbers give a
 * constant, so that a site may be a static array.
 */
#ifdef __cplusplus
#define SISAL_CONSTANT constexpr
#else
#define SISAL_CONSTANT static inline
#endif
SISAL_CONSTANT uint32_t sisal_up_to_65535(unsigned long long n) { return n > 65535 ? UINT32_C(65535) : (uint32_t)n; }
#if defined(__cplusplus) || !defined(__GNUC__)
#define SISAL_UP_TO_65535(n) sisal_up_to_65535((unsigned long long)(n))
#else
/* C has no constant functions: a constant is worked out where it stands, which evaluates nothing, and anything else by the function. */
#define SISAL_UP_TO_65535(n) \
    __builtin_choose_expr(__builtin_constant_p(n), ((unsigned long long)(n) > 65535 ? UINT32_C(65535) : (uint32_t)(n)), \
                          sisal_up_to_65535((unsigned long long)(n)))
#endif
#define SISAL_TRANSMITTER(feet, tenths) (SISAL_UP_TO_65535(feet) << 16 | SISAL_UP_TO_65535(tenths))

enum sisal_area_limit {
    SISAL_SITE_MAX = 120,    /* transmitters of a site */
    SISAL_AREAS_MAX = 8,     /* areas of a plan */
    SISAL_AREA_MAX = 30,     /* transmitters of an area */
    SISAL_AREA_FEET = 10000, /* feet of an area */
    SISAL_AREA_TENTHS = 500  /* tenths of an ohm of an area: 50 ohms */
};

/* A plan that was proposed. Beside a refusal all but `number` is 0. */
struct sisal_plan {
    uint8_t sizes[8]; /* transmitters of each area, in cable order, and 0 after the last */
    uint8_t areas;    /* how many areas there are; 0 for an empty site */
    uint8_t number;
};

SISAL_HOLDS(sizeof(struct sisal_plan) == 10, "struct sisal_plan");

/*
 * Proposes areas for a site, its transmitters in cable order: each area takes as many as it may, which is also the fewest areas.
 * Refuses 34, 35; 35 exactly where no plan exists.
 */
SISAL_ANSWER struct sisal_plan sisal_plan_areas(const uint32_t *site, size_t transmitters);

/*
 * Whether a plan, proposed or drawn by hand, is accepted: 0; or 34, 36. Hand over as many sizes as there are areas (`sizes` and `areas`
 * of a proposed plan); a size of 0 is an empty area.
 */
SISAL_ANSWER uint8_t sisal_check_areas(const uint32_t *site, size_t transmitters, const uint8_t *sizes, size_t areas);

#ifdef __cplusplus
}
#endif

#endif
