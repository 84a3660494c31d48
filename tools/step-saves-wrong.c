/*
 * Saves in C for tools/step-saves to find wrong, all but the first: what they leave in the sheet is the same, and only the way there
 * differs. They ask nothing, and serve the sheets of that test alone.
 */
#include "sisalcove.h"

#include <string.h>

enum { RIGHT, LENGTH_AT_ONCE, EIGHT_AT_ONCE, LENGTH_BEFORE_REPLY, HIGH_BEFORE_LOW, REPEATED, ONE_TOO_MANY };
int stand_in;

typedef uint16_t two_bytes __attribute__((may_alias, aligned(1)));
typedef uint64_t eight_bytes __attribute__((may_alias, aligned(1)));

static size_t after_last_used(const uint8_t *sheet, size_t bytes)
{
    while (bytes > 0 && sheet[bytes - 1] == 0xff)
        bytes--;
    return (bytes + SISAL_SLOT_BYTES - 1) / SISAL_SLOT_BYTES;
}

/* The bytes from `first` on, up to `end`, each by a store of its own; answers the stores that are left. */
static size_t store(volatile uint8_t *slot, const uint8_t *record, size_t first, size_t end, size_t left)
{
    for (; first < end && left > 0; first++, left--)
        slot[first] = record[first];
    return left;
}

struct sisal_done sisal_save(uint8_t *sheet, size_t sheet_bytes, uint8_t settings, uint32_t minute, uint16_t address, size_t count,
                             const uint8_t *reply, size_t reply_bytes, size_t allowance)
{
    size_t all = SISAL_STORES(reply_bytes), made = allowance < all ? allowance : all, left = made;
    uint8_t *slot = sheet + SISAL_SLOT_BYTES * after_last_used(sheet, sheet_bytes);
    uint8_t record[SISAL_SLOT_BYTES] = {0, (uint8_t)(all - 2), 1, settings, (uint8_t)(minute >> 24), (uint8_t)(minute >> 16),
                                        (uint8_t)(minute >> 8), (uint8_t)minute, (uint8_t)(address >> 8), (uint8_t)address, (uint8_t)count};
    memcpy(record + 11, reply, reply_bytes);
    if (stand_in == LENGTH_BEFORE_REPLY)
        left = store(slot, record, 1, 2, left);
    if (stand_in == EIGHT_AT_ONCE && left >= 8) {
        *(volatile eight_bytes *)(slot + 2) = *(const eight_bytes *)(record + 2);
        left = store(slot, record, 10, all, left - 8);
    } else if (stand_in == REPEATED) {
        size_t some = left < all - 2 ? left : all - 2;
        uint8_t *to = slot + 2;
        const uint8_t *from = record + 2;
        left -= some;
        __asm__ volatile("rep movsb" : "+D"(to), "+S"(from), "+c"(some) : : "memory");
    } else {
        left = store(slot, record, 2, all, left);
    }
    if (stand_in == LENGTH_AT_ONCE && left == 2) {
        *(volatile two_bytes *)slot = *(const two_bytes *)record;
    } else if (stand_in == HIGH_BEFORE_LOW) {
        left = store(slot, record, 0, 1, left);
        left = store(slot, record, 1, 2, left);
    } else {
        if (stand_in != LENGTH_BEFORE_REPLY)
            left = store(slot, record, 1, 2, left);
        left = store(slot, record, 0, 1, left);
    }
    if (stand_in == ONE_TOO_MANY && made == all)
        ((volatile uint8_t *)slot)[all] = 0;
    return (struct sisal_done){made, 0};
}
