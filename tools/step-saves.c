/*
 * Steps through the calls that save, instruction by instruction, and looks at the sheet after each one: an instruction may change one byte
 * of it and no more, and the bytes come in document 01's order, byte 2 of the slot and upward to the last of the reply, then 1, then 0.
 * The proofs speak of the language; this is about the machine code that the archive has. tools/step-saves compiles and runs it.
 *
 * The sheet's pages are closed to writing while a call begins, so nothing has to be stepped up to the first store: it faults, the pages are
 * opened, and the trap flag is set from there on. Every byte that is saved differs from the FF that it replaces, so every store is seen.
 *
 * Compiled with STAND_IN it steps through a sisal_save of tools/step-saves-wrong.c, which one its argument says, and has to find it wrong.
 */
#define _GNU_SOURCE
#include "sisalcove.h"

#include <signal.h>
#include <stdio.h>
#include <stdlib.h>
#include <string.h>
#include <sys/mman.h>
#include <ucontext.h>
#include <unistd.h>

enum { TRAP_FLAG = 0x100, PAGE_BYTES = 4096, MOST_CHANGES = 1024, MOST_REPLIES = 3, FULL_SLOTS = SISAL_SHEET_BYTES / SISAL_SLOT_BYTES };

static uint8_t *sheet;                     /* the lent sheet, at the beginning of pages of its own */
static size_t opened;                      /* bytes of the pages that hold a byte of it; the others stay closed */
static uint8_t before[SISAL_SHEET_BYTES];  /* what these pages held after the last instruction */
static volatile sig_atomic_t stepping;     /* a call is under way */
static volatile sig_atomic_t closed;       /* the pages cannot be written yet */
static const uint8_t *instruction;         /* the one that runs next */

/* What an instruction changed: the first byte, the last one, and how many lie between that differ. */
static struct change {
    size_t first, last, bytes;
    int repeats;
} changes[MOST_CHANGES];
static size_t change_count;

/* Whether an instruction is a store that repeats itself, as `rep movsb`: its bytes are seen one by one, and may not be stored so. */
static int is_repeated(const uint8_t *code)
{
    int prefixed = 0;
    while (*code == 0xf2 || *code == 0xf3 || *code == 0x66 || (*code & 0xf0) == 0x40) {
        prefixed |= *code == 0xf2 || *code == 0xf3;
        code++;
    }
    return prefixed && (*code == 0xa4 || *code == 0xa5 || *code == 0xaa || *code == 0xab);
}

static void note_changes(void)
{
    struct change seen = {0, 0, 0, 0};
    if (memcmp(sheet, before, opened) == 0)
        return;
    for (size_t i = 0; i < opened; i++) {
        if (sheet[i] == before[i])
            continue;
        if (seen.bytes++ == 0)
            seen.first = i;
        seen.last = i;
        before[i] = sheet[i];
    }
    seen.repeats = is_repeated(instruction);
    if (change_count < MOST_CHANGES)
        changes[change_count++] = seen;
}

static void on_trap(int signal, siginfo_t *info, void *context)
{
    greg_t *registers = ((ucontext_t *)context)->uc_mcontext.gregs;
    (void)signal, (void)info;
    if (!stepping) {
        registers[REG_EFL] &= ~(greg_t)TRAP_FLAG;
        return;
    }
    note_changes();
    instruction = (const uint8_t *)registers[REG_RIP];
}

static void on_first_store(int signal, siginfo_t *info, void *context)
{
    greg_t *registers = ((ucontext_t *)context)->uc_mcontext.gregs;
    const uint8_t *place = info->si_addr;
    static const char words[] = "step-saves: a call reached for memory that it was not lent\n";
    (void)signal;
    if (!closed || place < sheet || place >= sheet + opened) {
        if (write(STDERR_FILENO, words, sizeof words - 1) < 0)
            _exit(4);
        _exit(3);
    }
    closed = 0;
    mprotect(sheet, opened, PROT_READ | PROT_WRITE);
    registers[REG_EFL] |= TRAP_FLAG;
    instruction = (const uint8_t *)registers[REG_RIP];
}

static void begin(size_t slots, size_t used)
{
    opened = (slots * SISAL_SLOT_BYTES + PAGE_BYTES - 1) / PAGE_BYTES * PAGE_BYTES;
    mprotect(sheet, opened, PROT_READ | PROT_WRITE);
    memset(sheet, 0xff, opened);
    memset(sheet, 0x11, used * SISAL_SLOT_BYTES); /* foreign slots, which no save may touch */
    memcpy(before, sheet, opened);
    change_count = 0;
    mprotect(sheet, SISAL_SHEET_BYTES, PROT_READ);
    closed = 1;
    stepping = 1;
}

static void end(void)
{
    stepping = 0;
    closed = 0;
}

/* One case: replies of these sizes, saved one behind the other on a sheet of so many slots, so many of which are used. */
struct saves {
    const char *call;
    size_t slots, used, allowance, replies, bytes[MOST_REPLIES];
};
static size_t cases, stores;
static int wrong; /* this call */

static void tell(const struct saves *s)
{
    wrong = 1;
    printf("%s, %zu slots, %zu used, allowance ", s->call, s->slots, s->used);
    if (s->allowance == SISAL_ALL_STORES)
        printf("all, reply bytes");
    else
        printf("%zu, reply bytes", s->allowance);
    for (size_t i = 0; i < s->replies; i++)
        printf(" %zu", s->bytes[i]);
    printf(": ");
}

/* Whether store k is one byte and that of the slot which is due. */
static int is_right(const struct saves *s, size_t k, size_t slot, size_t byte)
{
    size_t due = slot * SISAL_SLOT_BYTES + byte;
    const struct change *c = &changes[k];
    if (k >= change_count) {
        tell(s);
        printf("store %zu, to byte %zu of slot %zu, was not made\n", k + 1, byte, slot);
    } else if (c->bytes != 1) {
        tell(s);
        printf("one instruction changed %zu bytes, from byte %zu of slot %zu to byte %zu of slot %zu, where store %zu was due\n", c->bytes,
               c->first % SISAL_SLOT_BYTES, c->first / SISAL_SLOT_BYTES, c->last % SISAL_SLOT_BYTES, c->last / SISAL_SLOT_BYTES, k + 1);
    } else if (c->repeats) {
        tell(s);
        printf("store %zu is one of an instruction that repeats itself\n", k + 1);
    } else if (c->first != due) {
        tell(s);
        printf("store %zu went to byte %zu of slot %zu, and byte %zu of slot %zu was due\n", k + 1, c->first % SISAL_SLOT_BYTES,
               c->first / SISAL_SLOT_BYTES, byte, slot);
    } else {
        return 1;
    }
    return 0;
}

/* Holds what was seen to document 01's order, and the answer's count of stores to what was seen. */
static void judge(const struct saves *s, size_t told)
{
    size_t k = 0, slot = s->used;
    cases++;
    for (size_t i = 0; i < s->replies && slot < s->slots && k < s->allowance; i++, slot++) {
        size_t all = SISAL_STORES(s->bytes[i]);
        for (size_t j = 0; j < all && k < s->allowance; j++, k++) {
            size_t byte = j < all - 2 ? 2 + j : all - 1 - j;
            if (!is_right(s, k, slot, byte))
                return;
        }
    }
    stores += k;
    if (change_count > k) {
        tell(s);
        printf("a store was made beyond the %zu that were due\n", k);
    } else if (told != k) {
        tell(s);
        printf("%zu stores were made, and %zu were told\n", k, told);
    }
}

/* No byte of a reply, of a minute or of an address is FF. */
static const uint8_t reply[SISAL_REPLY_MOST_BYTES] = {0x81, 0x42, 0x23, 0x14, 0x05, 0xa6, 0x67, 0x98};
enum { MINUTE = 0x12345678, ADDRESS = 0x0102, SETTINGS = 9 };

static size_t by_save(const struct saves *s)
{
    return sisal_save(sheet, s->slots * SISAL_SLOT_BYTES, SETTINGS, MINUTE, ADDRESS, 8 * s->bytes[0], reply, s->bytes[0], s->allowance)
        .count;
}

#ifndef STAND_IN
static const struct sisal_summary blank;

static size_t by_summary_save(const struct saves *s)
{
    return sisal_summary_save(sheet, s->slots * SISAL_SLOT_BYTES, blank, SETTINGS, MINUTE, ADDRESS, 8 * s->bytes[0], reply, s->bytes[0],
                              s->allowance)
        .count;
}

static struct sisal_round round_of(const struct saves *s)
{
    struct sisal_round round;
    memset(&round, 0, sizeof round);
    for (size_t i = 0; i < s->replies; i++) {
        struct sisal_polled *polled = &round.replies[round.count++];
        polled->minute = MINUTE;
        polled->address = ADDRESS;
        polled->settings = SETTINGS;
        polled->bytes = (uint32_t)s->bytes[i];
        polled->count = 8 * polled->bytes;
        memcpy(polled->reply, reply, s->bytes[i]);
    }
    return round;
}

static size_t by_round(const struct saves *s)
{
    return sisal_save_round(sheet, s->slots * SISAL_SLOT_BYTES, round_of(s), s->allowance).stores;
}

static size_t by_summary_round(const struct saves *s)
{
    return sisal_summary_save_round(sheet, s->slots * SISAL_SLOT_BYTES, blank, round_of(s), s->allowance).stores;
}
#endif

static void step(struct saves s, size_t (*call)(const struct saves *))
{
    size_t told;
    begin(s.slots, s.used);
    told = call(&s);
    end();
    judge(&s, told);
}

/* Every cut of a save, or the first, the last and the middle ones, and no cut at all. */
static void cuts(struct saves s, int every, size_t (*call)(const struct saves *))
{
    size_t all = 0;
    for (size_t i = 0; i < s.replies; i++)
        all += SISAL_STORES(s.bytes[i]);
    for (s.allowance = 0; s.allowance <= all + 1 && !wrong; s.allowance += every ? 1 : (all + 1) / 3)
        step(s, call);
    s.allowance = SISAL_ALL_STORES;
    if (!wrong)
        step(s, call);
}

/* A call over every size of a reply, on sheets of 4 slots and of 2,048, empty and with one slot left; up to the first wrong store. */
static int step_call(const char *name, size_t most_replies, size_t (*call)(const struct saves *))
{
    static const size_t sheets[4][2] = {{4, 0}, {4, 3}, {FULL_SLOTS, 0}, {FULL_SLOTS, FULL_SLOTS - 1}};
    cases = stores = 0;
    wrong = 0;
    for (size_t k = 0; k < 4; k++) {
        for (size_t bytes = 0; bytes <= SISAL_REPLY_MOST_BYTES && !wrong; bytes++) {
            struct saves s = {name, sheets[k][0], sheets[k][1], 0, most_replies, {bytes, SISAL_REPLY_MOST_BYTES - bytes, bytes}};
            cuts(s, k < 2, call);
        }
    }
    if (stores == 0 && !wrong) {
        printf("%s: no store was seen\n", name);
        wrong = 1;
    }
    if (!wrong)
        printf("%s: %zu saves, %zu stores, each of one byte and in order\n", name, cases, stores);
    return wrong;
}

int main(int count, char **words)
{
    struct sigaction trap = {.sa_sigaction = on_trap, .sa_flags = SA_SIGINFO};
    struct sigaction fault = {.sa_sigaction = on_first_store, .sa_flags = SA_SIGINFO};
    sheet = mmap(NULL, SISAL_SHEET_BYTES, PROT_READ | PROT_WRITE, MAP_PRIVATE | MAP_ANONYMOUS, -1, 0);
    if (sheet == MAP_FAILED || sigaction(SIGTRAP, &trap, NULL) != 0 || sigaction(SIGSEGV, &fault, NULL) != 0) {
        perror("step-saves");
        return 2;
    }
#ifdef STAND_IN
    extern int stand_in;
    stand_in = count > 1 ? atoi(words[1]) : 0;
    return step_call("sisal_save", 1, by_save);
#else
    (void)count, (void)words;
    int calls_wrong = step_call("sisal_save", 1, by_save);
    calls_wrong += step_call("sisal_summary_save", 1, by_summary_save);
    calls_wrong += step_call("sisal_save_round", MOST_REPLIES, by_round);
    calls_wrong += step_call("sisal_summary_save_round", MOST_REPLIES, by_summary_round);
    return calls_wrong != 0;
#endif
}
