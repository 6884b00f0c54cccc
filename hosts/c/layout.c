/* layout.c: whether the structs and constants of latchpebble.h are those of the archive.

   Sizes and offsets are asserted here and then met in the archive: each answer is called for with its fields as
   different as a call can make them, machines with a value of its own in every field go in and come back, and the bytes
   behind each answer must stay. Each constant is held to what calls answer.

   Prints what was found wrong, and a line of what was looked at. Status 0: nothing is wrong. Status 1: something is. */

#define _DEFAULT_SOURCE
#include "latchpebble.h"
#include <assert.h>
#include <stdio.h>
#include <stdlib.h>
#include <string.h>
#include <sys/mman.h>

#define FIELD(type, field, offset) static_assert(offsetof(latchpebble_##type, field) == (offset), #type "." #field)
#define SIZE(type, size) static_assert(sizeof(latchpebble_##type) == (size), #type)

SIZE(memory, 24);
FIELD(memory, size, 0);
FIELD(memory, used, 8);
FIELD(memory, reservation, 16);
SIZE(machine, 320);
FIELD(machine, registers, 0);
FIELD(machine, pc, 256);
FIELD(machine, next_pc, 264);
FIELD(machine, version, 272);
FIELD(machine, cycles, 280);
FIELD(machine, max_cycles, 288);
FIELD(machine, memory, 296);
SIZE(stored, 16);
FIELD(stored, number, 0);
FIELD(stored, used, 8);
SIZE(fresh, 32);
FIELD(fresh, number, 0);
FIELD(fresh, memory, 8);
SIZE(value, 16);
FIELD(value, number, 0);
FIELD(value, value, 8);
SIZE(indices, 24);
FIELD(indices, number, 0);
FIELD(indices, first, 8);
FIELD(indices, last, 16);
SIZE(machine_answer, 328);
FIELD(machine_answer, number, 0);
FIELD(machine_answer, machine, 8);
SIZE(found, 32);
FIELD(found, number, 0);
FIELD(found, start, 8);
FIELD(found, count, 16);
FIELD(found, full, 24);
SIZE(context_stored, 32);
FIELD(context_stored, number, 0);
FIELD(context_stored, used, 8);
FIELD(context_stored, stored, 16);
FIELD(context_stored, full, 24);
SIZE(recorded, 32);
FIELD(recorded, number, 0);
FIELD(recorded, tracked, 4);
FIELD(recorded, id, 8);
FIELD(recorded, offset, 16);
FIELD(recorded, flag, 24);
SIZE(made, 24);
FIELD(made, number, 0);
FIELD(made, records, 8);
FIELD(made, pages, 16);

static unsigned looked, wrong;

static void hold(int holds, const char *what, int line)
{
    looked++;
    if (holds)
        return;
    wrong++;
    printf("layout.c:%d: WRONG: %s\n", line, what);
}

#define HOLDS(what) hold((what) != 0, #what, __LINE__)

/* ---- storage ---- */

enum { PAGES = 4, SLOTS = 3, ITEM = 7, ITEM_BYTES = 10000, VERSION = 1 };

#define EXTENT ((uint64_t)PAGES * LATCHPEBBLE_PAGE)

static uint16_t slots[PAGES];
static uint8_t flags[PAGES];
static uint8_t area[SLOTS * LATCHPEBBLE_PAGE];
static uint64_t records[PAGES * LATCHPEBBLE_PAGE_RECORD_WORDS];
static uint8_t sources[ITEM_BYTES + 8];
static const uint64_t directory[] = {1, 0, 8, ITEM, 8, ITEM_BYTES};
static uint8_t file[(LATCHPEBBLE_MOST_RECORDS + 1) * LATCHPEBBLE_RECORD_BYTES];
static uint8_t pages[PAGES * LATCHPEBBLE_PAGE];

#define COUNT(slice) (sizeof(slice) / sizeof *(slice))
#define LEND(slice) slice, COUNT(slice)
#define MEMORY LEND(slots), LEND(flags), LEND(area)
#define TRACKED MEMORY, LEND(records)
#define SOURCES LEND(directory), LEND(sources)

static latchpebble_machine fresh_machine(void)
{
    latchpebble_machine_answer answer = latchpebble_machine_fresh(TRACKED, EXTENT, VERSION, 1000);
    HOLDS(answer.number == LATCHPEBBLE_DONE);
    return answer.machine;
}

/* ---- what is behind an answer ---- */

/* On this archive's machine a struct of more than 16 bytes is handed back at an address that goes in as the first
   argument. A call that is told so writes into a block of ours, whose bytes behind the struct can be looked at. */
#define BEHIND 64
static uint8_t block[sizeof(latchpebble_machine_answer) + BEHIND];

static void clear_block(uint8_t fill)
{
    memset(block, fill, sizeof block);
}

static int behind_stays(size_t size, uint8_t fill)
{
    for (size_t i = size; i < size + BEHIND; i++)
        if (block[i] != fill)
            return 0;
    return 1;
}

/* INTO(type, function, (parameter types), arguments..): the answer, with the bytes behind it looked at. */
#define INTO(type, function, types, ...)                                                                               \
    do {                                                                                                               \
        for (unsigned fill = 0; fill <= 255; fill += 255) {                                                            \
            clear_block((uint8_t)fill);                                                                                \
            void *(*volatile call)types = (void *(*)types)(void (*)(void))function;                                    \
            HOLDS(call(block, __VA_ARGS__) == block);                                                                  \
            HOLDS(behind_stays(sizeof(type), (uint8_t)fill));                                                          \
        }                                                                                                              \
    } while (0)

/* ---- machines ---- */

/* A value of its own for each field. */
static latchpebble_machine distinct(void)
{
    latchpebble_machine m;
    for (unsigned i = 0; i < LATCHPEBBLE_REGISTERS; i++)
        m.registers[i] = UINT64_C(0x1111111111111100) + i;
    m.pc = UINT64_C(0x2222222222222201);
    m.next_pc = UINT64_C(0x3333333333333302);
    m.version = UINT32_C(0x44444403);
    m.cycles = UINT64_C(0x5555555555555504);
    m.max_cycles = UINT64_C(0x6666666666666605);
    m.memory.size = UINT64_C(0x7777777777777706);
    m.memory.used = UINT64_C(0x8888888888888807);
    m.memory.reservation = UINT64_C(0x9999999999999908);
    return m;
}

static int same_memory(latchpebble_memory a, latchpebble_memory b)
{
    return a.size == b.size && a.used == b.used && a.reservation == b.reservation;
}

static int same(latchpebble_machine a, latchpebble_machine b)
{
    for (unsigned i = 0; i < LATCHPEBBLE_REGISTERS; i++)
        if (a.registers[i] != b.registers[i])
            return 0;
    return a.pc == b.pc && a.next_pc == b.next_pc && a.version == b.version && a.cycles == b.cycles &&
           a.max_cycles == b.max_cycles && same_memory(a.memory, b.memory);
}

static void look_at_machines(void)
{
    const latchpebble_machine m = distinct();
    const uint64_t x = UINT64_C(0xabcdefabcdefabcd);
    latchpebble_machine n;

    for (unsigned i = 0; i < LATCHPEBBLE_REGISTERS; i++) {
        latchpebble_value read = latchpebble_machine_register(m, i);
        HOLDS(read.number == LATCHPEBBLE_DONE && read.value == m.registers[i]);
        latchpebble_machine_answer set = latchpebble_machine_set_register(m, i, x);
        n = m;
        n.registers[i] = x;
        HOLDS(set.number == LATCHPEBBLE_DONE && same(set.machine, n));
    }
    HOLDS(latchpebble_machine_pc(m) == m.pc);
    HOLDS(latchpebble_machine_version(m) == m.version);
    HOLDS(latchpebble_machine_cycles(m) == m.cycles);
    HOLDS(latchpebble_machine_max_cycles(m) == m.max_cycles);
    n = m;
    n.next_pc = x;
    HOLDS(same(latchpebble_machine_update_pc(m, x), n));
    n = m;
    n.pc = m.next_pc;
    HOLDS(same(latchpebble_machine_commit_pc(m), n));
    n = m;
    n.cycles = x;
    HOLDS(same(latchpebble_machine_set_cycles(m, x), n));
    n = m;
    n.max_cycles = x;
    HOLDS(same(latchpebble_machine_set_max_cycles(m, x), n));

    /* a refusal hands the machine back whole, beside its number */
    latchpebble_machine_answer refused = latchpebble_machine_set_register(m, LATCHPEBBLE_REGISTERS, x);
    HOLDS(refused.number == LATCHPEBBLE_NO_SUCH_REGISTER && same(refused.machine, m));
    refused = latchpebble_resume(TRACKED, SOURCES, file, 0, pages, 0, m);
    HOLDS(refused.number == LATCHPEBBLE_BAD_STORAGE && same(refused.machine, m));

    INTO(latchpebble_machine, latchpebble_machine_update_pc, (void *, latchpebble_machine, uint64_t), m, x);
    INTO(latchpebble_machine, latchpebble_machine_set_cycles, (void *, latchpebble_machine, uint64_t), m, x);
    INTO(latchpebble_machine, latchpebble_machine_set_max_cycles, (void *, latchpebble_machine, uint64_t), m, x);
    INTO(latchpebble_machine, latchpebble_machine_commit_pc, (void *, latchpebble_machine), m);
    INTO(latchpebble_machine_answer, latchpebble_machine_set_register,
         (void *, latchpebble_machine, uint64_t, uint64_t), m, UINT64_C(3), x);
    memcpy(&refused, block, sizeof refused);
    n = m;
    n.registers[3] = x;
    HOLDS(refused.number == LATCHPEBBLE_DONE && same(refused.machine, n));
}

/* ---- the other answers ---- */

#define SET_LR(layer)                                                                                                  \
    do {                                                                                                               \
        latchpebble_memory set = latchpebble_##layer##_set_lr(memory, UINT64_C(0xaaaaaaaaaaaaaa09));                   \
        HOLDS(set.size == memory.size && set.used == memory.used && set.reservation == UINT64_C(0xaaaaaaaaaaaaaa09));  \
        HOLDS(latchpebble_##layer##_lr(memory) == memory.reservation);                                                 \
        HOLDS(latchpebble_##layer##_memory_size(memory) == memory.size);                                               \
        HOLDS(latchpebble_##layer##_memory_pages(memory) == memory.size / LATCHPEBBLE_PAGE);                           \
        INTO(latchpebble_memory, latchpebble_##layer##_set_lr, (void *, latchpebble_memory, uint64_t), memory,         \
             UINT64_C(1));                                                                                             \
        latchpebble_fresh made = latchpebble_##layer##_fresh(MEMORY, EXTENT);                                          \
        HOLDS(made.number == LATCHPEBBLE_DONE && made.memory.size == EXTENT && made.memory.used == 0);                 \
        HOLDS(made.memory.reservation == LATCHPEBBLE_NO_RESERVATION);                                                  \
        made = latchpebble_##layer##_fresh(MEMORY, EXTENT + 1);                                                        \
        HOLDS(made.number == LATCHPEBBLE_BAD_STORAGE && made.memory.size == 0 && made.memory.used == 0);               \
        HOLDS(made.memory.reservation == 0);                                                                           \
        INTO(latchpebble_fresh, latchpebble_##layer##_fresh,                                                           \
             (void *, uint16_t *, size_t, uint8_t *, size_t, uint8_t *, size_t, uint64_t), MEMORY, EXTENT);            \
    } while (0)

static void look_at_answers(void)
{
    const latchpebble_memory memory = distinct().memory;
    SET_LR(sparse);
    SET_LR(wxorx);

    /* `used` comes back as it went in where lengths are refused */
    const uint64_t used = UINT64_C(0xbbbbbbbbbbbbbb0a);
    latchpebble_stored stored = latchpebble_sparse_store8(MEMORY, EXTENT, 0, 1, used);
    HOLDS(stored.number == LATCHPEBBLE_BAD_STORAGE && stored.used == used);

    latchpebble_machine m = fresh_machine();
    m.memory.used =
        latchpebble_wxorx_store64(MEMORY, EXTENT, LATCHPEBBLE_PAGE - 4, UINT64_C(0xcccccccccccccc0b), 0).used;
    HOLDS(m.memory.used == 2);
    latchpebble_value value = latchpebble_wxorx_load64(MEMORY, EXTENT, LATCHPEBBLE_PAGE - 4, m.memory.used);
    HOLDS(value.number == LATCHPEBBLE_DONE && value.value == UINT64_C(0xcccccccccccccc0b));
    value = latchpebble_wxorx_load64(MEMORY, EXTENT, EXTENT - 7, m.memory.used);
    HOLDS(value.number == LATCHPEBBLE_MEM_OUT_OF_BOUND && value.value == 0);

    latchpebble_indices indices = latchpebble_get_page_indices(3 * LATCHPEBBLE_PAGE, 2 * LATCHPEBBLE_PAGE + 1);
    HOLDS(indices.number == LATCHPEBBLE_DONE && indices.first == 3 && indices.last == 5);
    indices = latchpebble_get_page_indices(0, 0);
    HOLDS(indices.number == LATCHPEBBLE_MEM_OUT_OF_BOUND && indices.first == 0 && indices.last == 0);
    INTO(latchpebble_indices, latchpebble_get_page_indices, (void *, uint64_t, uint64_t), UINT64_C(0), UINT64_C(1));

    latchpebble_found found = latchpebble_find_data(SOURCES, ITEM, 100, 50);
    HOLDS(found.number == LATCHPEBBLE_DONE && found.start == 108 && found.count == 50 &&
          found.full == ITEM_BYTES - 100);
    found = latchpebble_find_data(SOURCES, ITEM, ITEM_BYTES + 1, 50);
    HOLDS(found.number == LATCHPEBBLE_SNAPSHOT_DATA_LOAD_ERROR && found.start == 0 && found.count == 0 &&
          found.full == 0);
    INTO(latchpebble_found, latchpebble_find_data,
         (void *, const uint64_t *, size_t, const uint8_t *, size_t, uint64_t, uint64_t, uint64_t), SOURCES,
         UINT64_C(7), UINT64_C(100), UINT64_C(50));

    /* 4,196 bytes from 4,092 on: page 1 is whole, tracked 4 bytes on */
    latchpebble_context_stored context = latchpebble_context_store_bytes(
        TRACKED, SOURCES, EXTENT, LATCHPEBBLE_PAGE - 4, ITEM, 1000, LATCHPEBBLE_PAGE + 100, EXTENT - 8, m.memory.used);
    HOLDS(context.number == LATCHPEBBLE_ALL_SLOTS_IN_USE && context.used == SLOTS && context.stored == 0 &&
          context.full == 0);
    m = fresh_machine();
    context = latchpebble_context_store_bytes(TRACKED, SOURCES, EXTENT, LATCHPEBBLE_PAGE - 4, ITEM, 1000,
                                              LATCHPEBBLE_PAGE + 4, LATCHPEBBLE_PAGE - 16, m.memory.used);
    HOLDS(context.number == LATCHPEBBLE_DONE && context.used == 2 && context.stored == LATCHPEBBLE_PAGE + 4);
    HOLDS(context.full == ITEM_BYTES - 1000);
    m.memory.used = context.used;
    INTO(latchpebble_context_stored, latchpebble_context_store_bytes,
         (void *, uint16_t *, size_t, uint8_t *, size_t, uint8_t *, size_t, uint64_t *, size_t, const uint64_t *,
          size_t, const uint8_t *, size_t, uint64_t, uint64_t, uint64_t, uint64_t, uint64_t, uint64_t, uint64_t),
         TRACKED, SOURCES, EXTENT, UINT64_C(0), UINT64_C(99), UINT64_C(0), UINT64_C(0), UINT64_C(0), m.memory.used);

    HOLDS(latchpebble_wxorx_set_flag(MEMORY, EXTENT, 1, 0x50, m.memory.used) == LATCHPEBBLE_DONE);
    HOLDS(latchpebble_track_pages(TRACKED, EXTENT, LATCHPEBBLE_PAGE, LATCHPEBBLE_PAGE, ITEM, 1004, m.memory.used) ==
          LATCHPEBBLE_DONE);
    latchpebble_recorded recorded = latchpebble_page_record(TRACKED, EXTENT, 1, m.memory.used);
    HOLDS(recorded.number == LATCHPEBBLE_DONE && recorded.tracked == 1 && recorded.id == ITEM);
    HOLDS(recorded.offset == 1004 && recorded.flag == 0x50);
    recorded = latchpebble_page_record(TRACKED, EXTENT, PAGES, m.memory.used);
    HOLDS(recorded.number == LATCHPEBBLE_MEM_OUT_OF_BOUND && recorded.tracked == 0 && recorded.id == 0);
    HOLDS(recorded.offset == 0 && recorded.flag == 0);
    INTO(latchpebble_recorded, latchpebble_page_record,
         (void *, const uint16_t *, size_t, const uint8_t *, size_t, const uint8_t *, size_t, const uint64_t *, size_t,
          uint64_t, uint64_t, uint64_t),
         TRACKED, EXTENT, UINT64_C(1), m.memory.used);

    /* page 0 is dirty, page 1 tracked */
    latchpebble_made made = latchpebble_make_snapshot(TRACKED, LEND(file), LEND(pages), m);
    HOLDS(made.number == LATCHPEBBLE_DONE && made.records == LATCHPEBBLE_LEAST_RECORDS + 2 && made.pages == 1);
    made = latchpebble_make_snapshot(TRACKED, LEND(file), pages, LATCHPEBBLE_PAGE - 1, m);
    HOLDS(made.number == LATCHPEBBLE_OUTPUT_TOO_SHORT && made.records == 0 && made.pages == 0);
    INTO(latchpebble_made, latchpebble_make_snapshot,
         (void *, const uint16_t *, size_t, const uint8_t *, size_t, const uint8_t *, size_t, const uint64_t *, size_t,
          uint8_t *, size_t, uint8_t *, size_t, latchpebble_machine),
         TRACKED, LEND(file), LEND(pages), m);
}

/* ---- constants ---- */

static void look_at_sizes(void)
{
    HOLDS(latchpebble_round_page_up(1) == LATCHPEBBLE_PAGE);
    HOLDS(latchpebble_round_page_up(LATCHPEBBLE_PAGE) == LATCHPEBBLE_PAGE);
    HOLDS(latchpebble_round_page_down(LATCHPEBBLE_PAGE) == LATCHPEBBLE_PAGE);
    HOLDS(latchpebble_round_page_down(LATCHPEBBLE_PAGE - 1) == 0);
    HOLDS(latchpebble_get_page_indices(LATCHPEBBLE_MAX_MEMORY - 1, 1).number == LATCHPEBBLE_DONE);
    HOLDS(latchpebble_get_page_indices(LATCHPEBBLE_MAX_MEMORY - 1, 1).last == LATCHPEBBLE_MAX_PAGES - 1);
    HOLDS(latchpebble_get_page_indices(LATCHPEBBLE_MAX_MEMORY - 1, 2).number == LATCHPEBBLE_MEM_OUT_OF_BOUND);

    /* a memory of the most pages, and one of a page more */
    static uint16_t all_slots[LATCHPEBBLE_MAX_PAGES + 1];
    static uint8_t all_flags[LATCHPEBBLE_MAX_PAGES + 1];
    latchpebble_fresh made = latchpebble_sparse_fresh(all_slots, LATCHPEBBLE_MAX_PAGES, all_flags,
                                                      LATCHPEBBLE_MAX_PAGES, LEND(area), LATCHPEBBLE_MAX_MEMORY);
    HOLDS(made.number == LATCHPEBBLE_DONE && made.memory.size == LATCHPEBBLE_MAX_MEMORY);
    HOLDS(latchpebble_sparse_memory_pages(made.memory) == LATCHPEBBLE_MAX_PAGES);
    HOLDS(all_slots[LATCHPEBBLE_MAX_PAGES - 1] == LATCHPEBBLE_INVALID_PAGE_INDEX &&
          all_slots[LATCHPEBBLE_MAX_PAGES] == 0);
    made = latchpebble_sparse_fresh(LEND(all_slots), LEND(all_flags), LEND(area),
                                    LATCHPEBBLE_MAX_MEMORY + LATCHPEBBLE_PAGE);
    HOLDS(made.number == LATCHPEBBLE_BAD_STORAGE);

    /* fresh touches no slot: an area that can't be touched */
    size_t most = (size_t)LATCHPEBBLE_MOST_SLOTS * LATCHPEBBLE_PAGE;
    void *nowhere = mmap(NULL, most + LATCHPEBBLE_PAGE, PROT_NONE, MAP_PRIVATE | MAP_ANONYMOUS | MAP_NORESERVE, -1, 0);
    if (nowhere == MAP_FAILED) {
        puts("layout.c: no room for the most slots");
        exit(1);
    }
    made = latchpebble_sparse_fresh(LEND(slots), LEND(flags), (uint8_t *)nowhere, most, EXTENT);
    HOLDS(made.number == LATCHPEBBLE_DONE);
    made = latchpebble_sparse_fresh(LEND(slots), LEND(flags), (uint8_t *)nowhere, most + LATCHPEBBLE_PAGE, EXTENT);
    HOLDS(made.number == LATCHPEBBLE_BAD_STORAGE);
    munmap(nowhere, most + LATCHPEBBLE_PAGE);

    HOLDS(latchpebble_machine_register(distinct(), LATCHPEBBLE_REGISTERS - 1).number == LATCHPEBBLE_DONE);
    HOLDS(latchpebble_machine_register(distinct(), LATCHPEBBLE_REGISTERS).number == LATCHPEBBLE_NO_SUCH_REGISTER);
}

static void look_at_flags(void)
{
    /* a page with one bit of its flag set: what each bit does */
    for (unsigned bit = 1; bit <= 128; bit *= 2) {
        uint64_t used = fresh_machine().memory.used;
        HOLDS(latchpebble_wxorx_set_flag(MEMORY, EXTENT, 0, (uint8_t)bit, used) == LATCHPEBBLE_DONE);
        HOLDS(latchpebble_check_permission(MEMORY, EXTENT, 0, 0, LATCHPEBBLE_FLAG_EXECUTABLE, used) ==
              (bit == LATCHPEBBLE_FLAG_EXECUTABLE ? LATCHPEBBLE_DONE : LATCHPEBBLE_MEM_WRITE_ON_EXECUTABLE_PAGE));
        HOLDS(latchpebble_check_permission(MEMORY, EXTENT, 0, 0, LATCHPEBBLE_FLAG_WRITABLE, used) ==
              (bit == LATCHPEBBLE_FLAG_EXECUTABLE ? LATCHPEBBLE_MEM_WRITE_ON_EXECUTABLE_PAGE : LATCHPEBBLE_DONE));
        HOLDS((latchpebble_wxorx_execute_load16(MEMORY, EXTENT, 0, used).number == LATCHPEBBLE_DONE) ==
              (bit == LATCHPEBBLE_FLAG_EXECUTABLE));
        latchpebble_stored stored = latchpebble_wxorx_store8(MEMORY, EXTENT, 0, 1, used);
        HOLDS(stored.number == (bit == LATCHPEBBLE_FLAG_WXORX_BIT ? LATCHPEBBLE_MEM_WRITE_ON_EXECUTABLE_PAGE
                                                                   : LATCHPEBBLE_DONE));
        stored = latchpebble_wxorx_init_pages(MEMORY, NULL, 0, EXTENT, 0, LATCHPEBBLE_PAGE, LATCHPEBBLE_FLAG_WRITABLE,
                                              0, stored.used);
        HOLDS(stored.number ==
              (bit == LATCHPEBBLE_FLAG_FREEZED ? LATCHPEBBLE_MEM_WRITE_ON_FREEZED_PAGE : LATCHPEBBLE_DONE));
        HOLDS(latchpebble_wxorx_fetch_flag(MEMORY, EXTENT, 0, stored.used).value == (bit | LATCHPEBBLE_FLAG_DIRTY));
    }
}

static void look_at_words(void)
{
    /* the records of a machine's pages: neither a word less nor one more */
    for (int more = -1; more <= 1; more++) {
        static uint64_t some[COUNT(records) + 1];
        size_t words = (size_t)((int)COUNT(records) + more);
        latchpebble_machine_answer made = latchpebble_machine_fresh(MEMORY, some, words, EXTENT, VERSION, 0);
        HOLDS(made.number == (more == 0 ? LATCHPEBBLE_DONE : LATCHPEBBLE_BAD_STORAGE));
    }

    /* the second entry of a directory begins after the words of the first, and is one with its last word alone */
    HOLDS(COUNT(directory) == 2 * LATCHPEBBLE_ENTRY_WORDS);
    HOLDS(latchpebble_find_data(directory + LATCHPEBBLE_ENTRY_WORDS, LATCHPEBBLE_ENTRY_WORDS, LEND(sources), ITEM, 0, 1)
              .number == LATCHPEBBLE_DONE);
    HOLDS(latchpebble_find_data(directory + LATCHPEBBLE_ENTRY_WORDS, LATCHPEBBLE_ENTRY_WORDS - 1, LEND(sources), ITEM,
                                0, 1)
              .number == LATCHPEBBLE_SNAPSHOT_DATA_LOAD_ERROR);
    HOLDS(latchpebble_find_data(LEND(directory), LEND(sources), ITEM, 0, 1).number == LATCHPEBBLE_DONE);

    /* actions for pages 1 and 2: both track, and the second not without its last word */
    const uint64_t actions[] = {LATCHPEBBLE_PAGE,     LATCHPEBBLE_PAGE, 0, 0, LATCHPEBBLE_PAGE, 0,
                                2 * LATCHPEBBLE_PAGE, LATCHPEBBLE_PAGE, 0, 0, LATCHPEBBLE_PAGE, 0};
    HOLDS(COUNT(actions) == 2 * LATCHPEBBLE_ACTION_WORDS);
    for (unsigned less = 0; less <= 1; less++) {
        uint64_t used = fresh_machine().memory.used;
        HOLDS(latchpebble_mark_program(TRACKED, actions, COUNT(actions) - less, EXTENT, ITEM, 0, used) ==
              LATCHPEBBLE_DONE);
        HOLDS(latchpebble_page_record(TRACKED, EXTENT, 1, used).tracked == 1);
        HOLDS(latchpebble_page_record(TRACKED, EXTENT, 2, used).tracked == (less == 0));
    }
}

/* A word of a record of `file`, little-endian. */
static void put_word(size_t record, size_t word, uint64_t value)
{
    for (size_t i = 0; i < 8; i++)
        file[record * LATCHPEBBLE_RECORD_BYTES + word * 8 + i] = (uint8_t)(value >> (8 * i));
}

static void look_at_record_files(void)
{
    const size_t least = (size_t)LATCHPEBBLE_LEAST_RECORDS * LATCHPEBBLE_RECORD_BYTES;
    latchpebble_machine m = fresh_machine();
    HOLDS(latchpebble_make_snapshot(TRACKED, file, least - 1, NULL, 0, m).number == LATCHPEBBLE_OUTPUT_TOO_SHORT);
    latchpebble_made made = latchpebble_make_snapshot(TRACKED, file, least, NULL, 0, m);
    HOLDS(made.number == LATCHPEBBLE_DONE && made.records == LATCHPEBBLE_LEAST_RECORDS && made.pages == 0);
    HOLDS(latchpebble_resume(TRACKED, SOURCES, file, least, NULL, 0, m).number == LATCHPEBBLE_DONE);
    HOLDS(latchpebble_resume(TRACKED, SOURCES, file, least - LATCHPEBBLE_RECORD_BYTES, NULL, 0, m).number ==
          LATCHPEBBLE_BAD_RECORD_FILE);

    /* empty dirty runs behind these, up to the most records and one more */
    for (size_t i = LATCHPEBBLE_LEAST_RECORDS; i <= LATCHPEBBLE_MOST_RECORDS; i++)
        for (size_t word = 0; word < LATCHPEBBLE_RECORD_BYTES / 8; word++)
            put_word(i, word, word == 0 ? 4 : 0);
    const size_t most = (size_t)LATCHPEBBLE_MOST_RECORDS * LATCHPEBBLE_RECORD_BYTES;
    HOLDS(latchpebble_resume(TRACKED, SOURCES, file, most, NULL, 0, m).number == LATCHPEBBLE_DONE);
    HOLDS(latchpebble_resume(TRACKED, SOURCES, file, most + LATCHPEBBLE_RECORD_BYTES, NULL, 0, m).number ==
          LATCHPEBBLE_BAD_RECORD_FILE);
    m.version++;
    HOLDS(latchpebble_resume(TRACKED, SOURCES, file, least, NULL, 0, m).number == LATCHPEBBLE_INVALID_VERSION);
    m.version--;
    put_word(LATCHPEBBLE_LEAST_RECORDS, 1, 1);
    HOLDS(latchpebble_resume(TRACKED, SOURCES, file, least + LATCHPEBBLE_RECORD_BYTES, NULL, 0, m).number ==
          LATCHPEBBLE_MEM_PAGE_UNALIGNED_ACCESS);
}

static void look_at_meanings(void)
{
    const char *other = latchpebble_meaning(LATCHPEBBLE_BAD_RECORD_FILE + 1);
    HOLDS(strcmp(other, "no such number") == 0);
    HOLDS(strcmp(latchpebble_meaning(UINT32_MAX), other) == 0);
    for (uint32_t i = 0; i <= LATCHPEBBLE_BAD_RECORD_FILE; i++)
        for (uint32_t j = 0; j <= LATCHPEBBLE_BAD_RECORD_FILE; j++)
            HOLDS(strcmp(latchpebble_meaning(i), other) != 0 &&
                  (i == j) == (strcmp(latchpebble_meaning(i), latchpebble_meaning(j)) == 0));
}

int main(void)
{
    for (size_t i = 0; i < sizeof sources; i++)
        sources[i] = (uint8_t)(i * 7 + i / 251 + 1);
    look_at_machines();
    look_at_answers();
    look_at_sizes();
    look_at_flags();
    look_at_words();
    look_at_record_files();
    look_at_meanings();
    printf("layout: %u things looked at, %u wrong\n", looked, wrong);
    return wrong == 0 ? 0 : 1;
}
