/* boundary.c: what latchpebble.h says of faults at the boundary, tried on the archive.

   boundary [NUMBERS [TIMES]]

   Every function is called with right lengths, with each length that it checks wrong by one either way, with empty
   slices, with NULL where the length is 0, with outputs that are too short, and with storage, numbers and files that no
   call made. Each slice is lent in turn as a heap block of exactly its length and against a page that can't be touched,
   behind it and before it; what a function is lent to read can't be written to. Every call is made on a stack of
   LATCHPEBBLE_STACK bytes above such a page.

   Prints what was found wrong, and a line of what was done. Into the file NUMBERS goes a line for each function: its
   name and every number that it answered. TIMES is how often each function is called in each place with storage that no
   call made (300); fewer for a run under valgrind or a sanitizer.

   Status 0: nothing is wrong. Status 1: something is, or a call has touched what it must not. Status 2: no room to try,
   or arguments that are none of these. */

#define _GNU_SOURCE
#include "latchpebble.h"
#include <signal.h>
#include <stdio.h>
#include <stdlib.h>
#include <string.h>
#include <sys/mman.h>
#include <ucontext.h>
#include <unistd.h>

/* Under valgrind what lies below a stack's pointer can't be touched, unless it is told otherwise. */
#if defined(__has_include)
#if __has_include(<valgrind/memcheck.h>)
#include <valgrind/memcheck.h>
#endif
#endif
#ifndef VALGRIND_MAKE_MEM_DEFINED
#define VALGRIND_MAKE_MEM_DEFINED(at, size) ((void)(at), (void)(size))
#endif

/* ---- what is lent ---- */

enum slice { SLOTS, FLAGS, AREA, RECORDS, DIRECTORY, SOURCES, ACTIONS, INPUT, OUT, FILE_, PAGES, SLICES };

#define BIT(slice) (1u << (slice))

static const char *const slice_names[SLICES] = {"slots",   "flags", "area", "records", "directory", "sources",
                                                "actions", "input", "out",  "file",    "pages"};

/* The bytes of an element. */
static const size_t width[SLICES] = {2, 1, 1, 8, 8, 1, 8, 1, 1, 1, 1};

/* Where a slice lies: in a heap block; with its end, or its start, at a page that can't be touched; in such a page;
 * nowhere. */
enum place { HEAP, BACK, FRONT, UNTOUCHABLE, NOTHING };

/* The most bytes of a slice that is touched: enough for the longest record file and one record more. */
enum { ROOM = 16 * LATCHPEBBLE_PAGE };

struct held {
    uint8_t bytes[ROOM];
    size_t length; /* in elements */
    enum place place;
};

static struct held held[SLICES];

/* Between two pages that can't be touched. */
static uint8_t *region[SLICES];

/* Can't be touched. */
static uint8_t *untouchable;

/* ---- what is asked and answered ---- */

static struct {
    void *at[SLICES];
    size_t length[SLICES];
    uint64_t extent, used, address, size, value, lead, page, first, last, id, offset, place, start, i;
    uint32_t version;
    uint8_t flag;
    latchpebble_machine machine;
} a;

static struct {
    uint32_t number;
    int has_used, has_machine;
    uint64_t used, value;
    uint64_t rest; /* every other number of the answer, ORed */
    latchpebble_machine machine;
} told;

/* What runs on the small stack is not instrumented by a sanitizer, which would add to its frame. */
#define PLAIN __attribute__((no_sanitize("address"), no_sanitize("undefined")))

static PLAIN void tell_word(uint64_t x)
{
    told.value = x;
}

static PLAIN void tell_number(uint32_t x)
{
    told.number = x;
}

static PLAIN void tell_value(latchpebble_value x)
{
    told.number = x.number;
    told.rest = told.value = x.value;
}

static PLAIN void tell_indices(latchpebble_indices x)
{
    told.number = x.number;
    told.rest = x.first | x.last;
}

static PLAIN void tell_stored(latchpebble_stored x)
{
    told.number = x.number;
    told.has_used = 1;
    told.used = x.used;
}

static PLAIN void tell_fresh(latchpebble_fresh x)
{
    told.number = x.number;
    told.rest = x.memory.size | x.memory.used | x.memory.reservation;
}

static PLAIN void tell_memory(latchpebble_memory x)
{
    told.value = x.reservation;
}

static PLAIN void tell_found(latchpebble_found x)
{
    told.number = x.number;
    told.rest = x.start | x.count | x.full;
}

static PLAIN void tell_context(latchpebble_context_stored x)
{
    told.number = x.number;
    told.has_used = 1;
    told.used = x.used;
    told.rest = x.stored | x.full;
}

static PLAIN void tell_recorded(latchpebble_recorded x)
{
    told.number = x.number;
    told.rest = x.tracked | x.id | x.offset | x.flag;
}

static PLAIN void tell_made(latchpebble_made x)
{
    told.number = x.number;
    told.rest = x.records | x.pages;
    told.value = x.records;
    told.used = x.pages;
}

static PLAIN void tell_machine(latchpebble_machine x)
{
    told.has_machine = 1;
    told.machine = x;
}

static PLAIN void tell_answer(latchpebble_machine_answer x)
{
    told.number = x.number;
    told.has_machine = 1;
    told.machine = x.machine;
}

/* ---- the functions ---- */

#define SLICE(type, slice) (type *)a.at[slice], a.length[slice]
#define MEMORY SLICE(uint16_t, SLOTS), SLICE(uint8_t, FLAGS), SLICE(uint8_t, AREA)
#define TRACKED MEMORY, SLICE(uint64_t, RECORDS)
#define SOURCED SLICE(uint64_t, DIRECTORY), SLICE(uint8_t, SOURCES)
#define FILES SLICE(uint8_t, FILE_), SLICE(uint8_t, PAGES)

#define OF_MEMORY (BIT(SLOTS) | BIT(FLAGS) | BIT(AREA))
#define OF_TRACKED (OF_MEMORY | BIT(RECORDS))
#define OF_SOURCES (BIT(DIRECTORY) | BIT(SOURCES))
#define OF_FILES (BIT(FILE_) | BIT(PAGES))

/* Slices whose length is checked, wherever they are lent. */
#define CHECKED OF_TRACKED

/* X(function, its answer, what it is lent, what of that it may write, the number that it answers where every slice is
   empty and every argument 0, arguments) */
#define BOTH(X, name, ...) X(sparse_##name, __VA_ARGS__) X(wxorx_##name, __VA_ARGS__)
#define STORE(X, name, nothing, ...)                                                                                   \
    BOTH(X, name, stored, OF_MEMORY, OF_MEMORY, nothing, MEMORY, a.extent, a.address, __VA_ARGS__, a.used)
#define LOAD(X, name)                                                                                                  \
    BOTH(X, name, value, OF_MEMORY, 0, MEM_OUT_OF_BOUND, MEMORY, a.extent, a.address, a.used)
#define FLAG(X, name)                                                                                                  \
    BOTH(X, name, number, OF_MEMORY, BIT(FLAGS), MEM_OUT_OF_BOUND, MEMORY, a.extent, a.page, a.flag, a.used)
#define CALLS(X)                                                                                                       \
    X(round_page_up, word, 0, 0, DONE, a.address)                                                                      \
    X(round_page_down, word, 0, 0, DONE, a.address)                                                                    \
    X(get_page_indices, indices, 0, 0, MEM_OUT_OF_BOUND, a.address, a.size)                                            \
    X(check_permission, number, OF_MEMORY, 0, MEM_OUT_OF_BOUND, MEMORY, a.extent, a.first, a.last, a.flag, a.used)     \
    X(set_dirty, number, OF_MEMORY, BIT(FLAGS), MEM_OUT_OF_BOUND, MEMORY, a.extent, a.first, a.last, a.used)           \
    X(fill_page_data, stored, OF_MEMORY | BIT(INPUT), OF_MEMORY, DONE, MEMORY, SLICE(uint8_t, INPUT), a.extent,        \
      a.address, a.size, a.lead, a.used)                                                                               \
    BOTH(X, fresh, fresh, OF_MEMORY, OF_MEMORY, DONE, MEMORY, a.extent)                                                \
    BOTH(X, init_pages, stored, OF_MEMORY | BIT(INPUT), OF_MEMORY, DONE, MEMORY, SLICE(uint8_t, INPUT), a.extent,      \
         a.address, a.size, a.flag, a.lead, a.used)                                                                    \
    BOTH(X, fetch_flag, value, OF_MEMORY, 0, MEM_OUT_OF_BOUND, MEMORY, a.extent, a.page, a.used)                       \
    FLAG(X, set_flag)                                                                                                  \
    FLAG(X, clear_flag)                                                                                                \
    BOTH(X, memory_size, word, 0, 0, DONE, a.machine.memory)                                                           \
    BOTH(X, memory_pages, word, 0, 0, DONE, a.machine.memory)                                                          \
    STORE(X, store_byte, DONE, a.size, a.flag)                                                                         \
    BOTH(X, store_bytes, stored, OF_MEMORY | BIT(INPUT), OF_MEMORY, DONE, MEMORY, SLICE(uint8_t, INPUT), a.extent,     \
         a.address, a.used)                                                                                            \
    STORE(X, store8, MEM_OUT_OF_BOUND, a.value)                                                                        \
    STORE(X, store16, MEM_OUT_OF_BOUND, a.value)                                                                       \
    STORE(X, store32, MEM_OUT_OF_BOUND, a.value)                                                                       \
    STORE(X, store64, MEM_OUT_OF_BOUND, a.value)                                                                       \
    LOAD(X, load8)                                                                                                     \
    LOAD(X, load16)                                                                                                    \
    LOAD(X, load32)                                                                                                    \
    LOAD(X, load64)                                                                                                    \
    LOAD(X, execute_load16)                                                                                            \
    LOAD(X, execute_load32)                                                                                            \
    BOTH(X, load_bytes, number, OF_MEMORY | BIT(OUT), BIT(OUT), DONE, MEMORY, SLICE(uint8_t, OUT), a.extent,           \
         a.address, a.size, a.used)                                                                                    \
    BOTH(X, load_c_string, value, OF_MEMORY | BIT(OUT), BIT(OUT), MEM_OUT_OF_BOUND, MEMORY, SLICE(uint8_t, OUT),       \
         a.extent, a.address, a.used)                                                                                  \
    BOTH(X, lr, word, 0, 0, DONE, a.machine.memory)                                                                    \
    BOTH(X, set_lr, memory, 0, 0, DONE, a.machine.memory, a.value)                                                     \
    X(machine_fresh, answer, OF_TRACKED, OF_TRACKED, DONE, TRACKED, a.extent, a.version, a.value)                      \
    X(machine_register, value, 0, 0, DONE, a.machine, a.i)                                                             \
    X(machine_set_register, answer, 0, 0, DONE, a.machine, a.i, a.value)                                               \
    X(machine_pc, word, 0, 0, DONE, a.machine)                                                                         \
    X(machine_update_pc, machine, 0, 0, DONE, a.machine, a.value)                                                      \
    X(machine_commit_pc, machine, 0, 0, DONE, a.machine)                                                               \
    X(machine_version, word, 0, 0, DONE, a.machine)                                                                    \
    X(machine_cycles, word, 0, 0, DONE, a.machine)                                                                     \
    X(machine_set_cycles, machine, 0, 0, DONE, a.machine, a.value)                                                     \
    X(machine_max_cycles, word, 0, 0, DONE, a.machine)                                                                 \
    X(machine_set_max_cycles, machine, 0, 0, DONE, a.machine, a.value)                                                 \
    X(find_data, found, OF_SOURCES, 0, SNAPSHOT_DATA_LOAD_ERROR, SOURCED, a.id, a.offset, a.size)                      \
    X(track_pages, number, OF_TRACKED, BIT(FLAGS) | BIT(RECORDS), DONE, TRACKED, a.extent, a.start, a.size, a.id,      \
      a.offset, a.used)                                                                                                \
    X(untrack_pages, number, OF_TRACKED, BIT(FLAGS) | BIT(RECORDS), DONE, TRACKED, a.extent, a.start, a.size, a.used)  \
    X(context_store_bytes, context, OF_TRACKED | OF_SOURCES, OF_TRACKED, SNAPSHOT_DATA_LOAD_ERROR, TRACKED, SOURCED,   \
      a.extent, a.address, a.id, a.offset, a.size, a.place, a.used)                                                    \
    X(mark_program, number, OF_TRACKED | BIT(ACTIONS), BIT(FLAGS) | BIT(RECORDS), DONE, TRACKED,                       \
      SLICE(uint64_t, ACTIONS), a.extent, a.id, a.offset, a.used)                                                      \
    X(page_record, recorded, OF_TRACKED, 0, MEM_OUT_OF_BOUND, TRACKED, a.extent, a.page, a.used)                       \
    X(make_snapshot, made, OF_TRACKED | OF_FILES, OF_FILES, OUTPUT_TOO_SHORT, TRACKED, FILES, a.machine)               \
    X(resume, answer, OF_TRACKED | OF_SOURCES | OF_FILES, OF_TRACKED, BAD_RECORD_FILE, TRACKED, SOURCED, FILES,        \
      a.machine)

struct call {
    const char *name;
    void (*make)(void);
    unsigned lent, written;
    uint32_t nothing;
};

#define MAKE(name, answer, lent, written, nothing, ...)                                                                \
    static PLAIN void make_##name(void)                                                                                \
    {                                                                                                                  \
        tell_##answer(latchpebble_##name(__VA_ARGS__));                                                                \
    }
CALLS(MAKE)

#define ROW(name, answer, lent, written, nothing, ...)                                                                 \
    {"latchpebble_" #name, make_##name, lent, written, LATCHPEBBLE_##nothing},
static const struct call calls[] = {CALLS(ROW)};

enum { CALL_COUNT = sizeof calls / sizeof *calls };

/* What each was seen to answer: a bit for each number. */
static unsigned seen[CALL_COUNT];

static const struct call *call_named(const char *name)
{
    for (size_t i = 0; i < CALL_COUNT; i++)
        if (strcmp(calls[i].name, name) == 0)
            return &calls[i];
    fprintf(stderr, "boundary: no call %s\n", name);
    exit(2);
}

static int is(const struct call *c, const char *part)
{
    return strstr(c->name, part) != NULL;
}

/* Whether the memory's size and its slots in use go in. */
static int has_used(const struct call *c)
{
    return (c->lent & OF_MEMORY) != 0 && !is(c, "fresh");
}

/* ---- what is wrong ---- */

static unsigned long asked, wrong;

/* What is being tried, for those who read a failure. */
static char trying[200];

#define HOLDS(what) hold((what) != 0, #what, __LINE__)

static void hold(int holds, const char *what, int line)
{
    if (holds)
        return;
    wrong++;
    if (wrong <= 20)
        printf("boundary.c:%d: WRONG: %s: %s (number %u)\n", line, trying, what, (unsigned)told.number);
}

static void touched(int signal)
{
    static const char text[] = "boundary: FAULT, a call touched what it must not: ";
    ssize_t ignored = write(STDERR_FILENO, text, sizeof text - 1);
    ignored += write(STDERR_FILENO, trying, strlen(trying));
    ignored += write(STDERR_FILENO, "\n", 1);
    (void)ignored;
    (void)signal;
    _exit(1);
}

/* ---- the small stack ---- */

/* A sanitizer's own memcpy takes stack of its own. */
#if defined(__SANITIZE_ADDRESS__)
#define SANITIZED 1
#elif defined(__has_feature)
#if __has_feature(address_sanitizer)
#define SANITIZED 1
#endif
#endif
#ifdef SANITIZED
enum { STACK = LATCHPEBBLE_STACK + 16384 };
#else
enum { STACK = LATCHPEBBLE_STACK };
#endif

enum { UNUSED = 0xa5 };

static uint8_t *stack;
static size_t deepest;
static const char *deepest_name;
static ucontext_t here, there;
static const struct call *making;

/* The archive calls these three. Under late binding the first call of each takes the dynamic linker's stack: it is made
 * here. */
static void bind_late(void)
{
    static uint8_t from[64], to[64];
    volatile size_t size = sizeof to / 2;
    memset(from, UNUSED, size);
    memcpy(to, from, size);
    memmove(to + 1, to, size);
}

static PLAIN void make(void)
{
    making->make();
}

static PLAIN size_t stack_taken(void)
{
    size_t unused = 0;
    while (unused < STACK && stack[unused] == UNUSED)
        unused++;
    return STACK - unused;
}

static void call_on_small_stack(const struct call *c)
{
    making = c;
    VALGRIND_MAKE_MEM_DEFINED(stack, STACK);
    memset(stack, UNUSED, STACK);
    if (getcontext(&there) != 0)
        exit(2);
    there.uc_stack.ss_sp = stack;
    there.uc_stack.ss_size = STACK;
    there.uc_link = &here;
    makecontext(&there, make, 0);
    if (swapcontext(&here, &there) != 0)
        exit(2);
    VALGRIND_MAKE_MEM_DEFINED(stack, STACK);
    size_t taken = stack_taken();
    if (taken > deepest) {
        deepest = taken;
        deepest_name = c->name;
    }
}

/* ---- a call ---- */

static uint8_t *lay(const struct held *h, enum slice slice, int read_only)
{
    size_t size = h->length * width[slice];
    uint8_t *at = NULL;
    switch (h->place) {
    case NOTHING:
        return NULL;
    case UNTOUCHABLE:
        return untouchable;
    case HEAP:
        at = malloc(size);
        if (at == NULL && size > 0)
            exit(2);
        break;
    case BACK:
        at = region[slice] + ROOM - size;
        break;
    case FRONT:
        at = region[slice];
        break;
    }
    if (size > 0)
        memcpy(at, h->bytes, size);
    if (read_only && h->place != HEAP && mprotect(region[slice], ROOM, PROT_READ) != 0)
        exit(2);
    return at;
}

/* Takes back what was lent; whether it was changed. */
static int take(struct held *h, enum slice slice, uint8_t *at, int read_only)
{
    size_t size = h->length * width[slice];
    if (h->place == NOTHING || h->place == UNTOUCHABLE)
        return 0;
    int changed = size > 0 && memcmp(at, h->bytes, size) != 0;
    if (changed)
        memcpy(h->bytes, at, size);
    if (h->place == HEAP)
        free(at);
    else if (read_only && mprotect(region[slice], ROOM, PROT_READ | PROT_WRITE) != 0)
        exit(2);
    return changed;
}

/* Makes a call on what is held and asked; the slices that it changed. */
static unsigned ask(const struct call *c)
{
    asked++;
    a.machine.memory.size = a.extent;
    a.machine.memory.used = a.used;
    for (int i = 0; i < SLICES; i++) {
        int lent = (c->lent & BIT(i)) != 0;
        a.at[i] = lent ? lay(&held[i], (enum slice)i, (c->written & BIT(i)) == 0) : NULL;
        a.length[i] = held[i].length;
    }
    memset(&told, 0, sizeof told);
    call_on_small_stack(c);
    unsigned changed = 0;
    for (int i = 0; i < SLICES; i++)
        if ((c->lent & BIT(i)) != 0 && take(&held[i], (enum slice)i, a.at[i], (c->written & BIT(i)) == 0))
            changed |= BIT(i);
    HOLDS(told.number <= LATCHPEBBLE_BAD_RECORD_FILE);
    HOLDS((changed & ~c->written) == 0);
    if (told.number <= LATCHPEBBLE_BAD_RECORD_FILE)
        seen[c - calls] |= 1u << told.number;
    return changed;
}

static int same_machine(latchpebble_machine x, latchpebble_machine y)
{
    return memcmp(x.registers, y.registers, sizeof x.registers) == 0 && x.pc == y.pc && x.next_pc == y.next_pc &&
           x.version == y.version && x.cycles == y.cycles && x.max_cycles == y.max_cycles &&
           x.memory.size == y.memory.size && x.memory.used == y.memory.used &&
           x.memory.reservation == y.memory.reservation;
}

/* Makes a call that must be refused with this number and leave everything as it was. */
static void refused(const struct call *c, uint32_t number)
{
    static const latchpebble_machine none;
    HOLDS(ask(c) == 0);
    HOLDS(told.number == number);
    HOLDS(told.rest == 0);
    HOLDS(!told.has_used || told.used == a.used);
    HOLDS(!told.has_machine || same_machine(told.machine, is(c, "fresh") ? none : a.machine));
}

/* ---- a machine to try them on ---- */

enum { MACHINE_PAGES = 4, MACHINE_SLOTS = 4, ITEM = 7, ITEM_BYTES = 3 * LATCHPEBBLE_PAGE, TEXT = 20 };

#define EXTENT ((uint64_t)MACHINE_PAGES * LATCHPEBBLE_PAGE)

static const enum place touchable[] = {HEAP, BACK, FRONT};

static void set_place(enum place place)
{
    for (int i = 0; i < SLICES; i++)
        held[i].place = place;
}

static void resize(enum slice slice, size_t length)
{
    if (length * width[slice] > ROOM)
        exit(2);
    held[slice].length = length;
}

static void put_words(enum slice slice, size_t from, const uint64_t *words, size_t count)
{
    memcpy(held[slice].bytes + from * sizeof *words, words, count * sizeof *words);
}

/* What every function but the execute loads does when asked: page 1 is written and writable, and begins with a text. */
static void set_arguments(void)
{
    a.address = a.size = a.start = LATCHPEBBLE_PAGE;
    a.value = UINT64_C(0x0807060504030201);
    a.lead = 5;
    a.page = a.first = a.last = 1;
    a.id = ITEM;
    a.offset = 0;
    a.place = 8;
    a.i = 1;
    a.version = 1;
    a.flag = LATCHPEBBLE_FLAG_WRITABLE;
}

static void must(const char *name)
{
    snprintf(trying, sizeof trying, "setting up, %s", name);
    ask(call_named(name));
    HOLDS(told.number == LATCHPEBBLE_DONE);
    if (told.has_used)
        a.used = told.used;
}

/* Pages 0 and 1 are dirty, page 2 tracked, page 3 executable; the files are its snapshot. */
static void set_up(enum place place)
{
    const uint64_t directory[] = {1, 0, 8, ITEM, 8, ITEM_BYTES};
    const uint64_t actions[] = {LATCHPEBBLE_PAGE, LATCHPEBBLE_PAGE, 0, 0, LATCHPEBBLE_PAGE, 0};
    set_place(place);
    for (int i = 0; i < SLICES; i++)
        for (size_t j = 0; j < ROOM; j++)
            held[i].bytes[j] = (uint8_t)(j % 250 + 1);
    resize(SLOTS, MACHINE_PAGES);
    resize(FLAGS, MACHINE_PAGES);
    resize(AREA, (size_t)MACHINE_SLOTS * LATCHPEBBLE_PAGE);
    resize(RECORDS, (size_t)MACHINE_PAGES * LATCHPEBBLE_PAGE_RECORD_WORDS);
    resize(DIRECTORY, sizeof directory / sizeof *directory);
    put_words(DIRECTORY, 0, directory, sizeof directory / sizeof *directory);
    resize(SOURCES, 8 + ITEM_BYTES);
    resize(ACTIONS, sizeof actions / sizeof *actions);
    put_words(ACTIONS, 0, actions, sizeof actions / sizeof *actions);
    resize(INPUT, TEXT + 1);
    held[INPUT].bytes[TEXT] = 0;
    resize(OUT, LATCHPEBBLE_PAGE);
    resize(FILE_, (size_t)(LATCHPEBBLE_LEAST_RECORDS + MACHINE_PAGES) * LATCHPEBBLE_RECORD_BYTES);
    resize(PAGES, (size_t)MACHINE_PAGES * LATCHPEBBLE_PAGE);

    set_arguments();
    a.extent = EXTENT;
    a.used = 0;
    must("latchpebble_machine_fresh");
    a.machine = told.machine;
    must("latchpebble_wxorx_store_bytes");
    a.address = 2 * LATCHPEBBLE_PAGE;
    must("latchpebble_context_store_bytes");
    a.page = 3;
    a.flag = LATCHPEBBLE_FLAG_EXECUTABLE;
    must("latchpebble_wxorx_set_flag");
    must("latchpebble_make_snapshot");
    resize(FILE_, (size_t)told.value * LATCHPEBBLE_RECORD_BYTES);
    resize(PAGES, (size_t)told.used * LATCHPEBBLE_PAGE);
    set_arguments();
}

/* The machine as it was set up, and back to it. */
static struct held held_then[SLICES];
static uint8_t a_then[sizeof a];

static void keep(void)
{
    memcpy(held_then, held, sizeof held);
    memcpy(a_then, &a, sizeof a);
}

static void again(const struct call *c)
{
    for (int i = 0; i < SLICES; i++) {
        held[i].length = held_then[i].length;
        held[i].place = held_then[i].place;
        memcpy(held[i].bytes, held_then[i].bytes, held[i].length * width[i]);
    }
    memcpy(&a, a_then, sizeof a);
    if (is(c, "execute"))
        a.address = 3 * LATCHPEBBLE_PAGE;
}

/* ---- lengths ---- */

static void wrong_length(const struct call *c, enum slice slice, size_t length, int touch)
{
    again(c);
    snprintf(trying, sizeof trying, "%s, %zu %s in place of %zu", c->name, length, slice_names[slice],
             held[slice].length);
    if (!touch)
        set_place(UNTOUCHABLE);
    held[slice].length = length;
    refused(c, LATCHPEBBLE_BAD_STORAGE);
}

static void wrong_number(const struct call *c, const char *name, uint64_t *number, uint64_t value, int touch)
{
    again(c);
    snprintf(trying, sizeof trying, "%s, %s %llu in place of %llu", c->name, name, (unsigned long long)value,
             (unsigned long long)*number);
    if (!touch)
        set_place(UNTOUCHABLE);
    *number = value;
    refused(c, LATCHPEBBLE_BAD_STORAGE);
}

static void try_lengths(const struct call *c)
{
    again(c);
    snprintf(trying, sizeof trying, "%s, as it should be", c->name);
    ask(c);
    HOLDS(told.number == LATCHPEBBLE_DONE);
    if ((c->lent & OF_MEMORY) == 0)
        return;

    /* once with blocks of the length that is said, once with pointers that can't be touched */
    for (int touch = 0; touch <= 1; touch++) {
        for (int i = 0; i < SLICES; i++) {
            if ((c->lent & CHECKED & BIT(i)) == 0)
                continue;
            size_t right = held_then[i].length;
            wrong_length(c, (enum slice)i, right - 1, touch);
            wrong_length(c, (enum slice)i, right + 1, touch);
            if (i != AREA || has_used(c))
                wrong_length(c, (enum slice)i, 0, touch);
            if (i == RECORDS) {
                wrong_length(c, RECORDS, right - LATCHPEBBLE_PAGE_RECORD_WORDS, touch);
                wrong_length(c, RECORDS, right + LATCHPEBBLE_PAGE_RECORD_WORDS, touch);
            }
        }
        wrong_number(c, "extent", &a.extent, EXTENT - 1, touch);
        wrong_number(c, "extent", &a.extent, EXTENT + 1, touch);
        wrong_number(c, "extent", &a.extent, EXTENT - LATCHPEBBLE_PAGE, touch);
        wrong_number(c, "extent", &a.extent, EXTENT + LATCHPEBBLE_PAGE, touch);
        if (has_used(c)) {
            wrong_number(c, "used", &a.used, MACHINE_SLOTS + 1, touch);
            wrong_number(c, "used", &a.used, UINT64_MAX, touch);
        }
    }
    for (int i = 0; i < SLICES; i++)
        if ((c->lent & CHECKED & BIT(i)) != 0)
            wrong_length(c, (enum slice)i, SIZE_MAX, 0);
    wrong_length(c, AREA, ((size_t)LATCHPEBBLE_MOST_SLOTS + 1) * LATCHPEBBLE_PAGE, 0);

    /* a page above the most, with all that goes with it */
    again(c);
    snprintf(trying, sizeof trying, "%s, a memory above the maximum", c->name);
    set_place(UNTOUCHABLE);
    a.extent = LATCHPEBBLE_MAX_MEMORY + LATCHPEBBLE_PAGE;
    held[SLOTS].length = held[FLAGS].length = LATCHPEBBLE_MAX_PAGES + 1;
    held[RECORDS].length = (size_t)(LATCHPEBBLE_MAX_PAGES + 1) * LATCHPEBBLE_PAGE_RECORD_WORDS;
    refused(c, LATCHPEBBLE_BAD_STORAGE);

    /* more slots, fewer and none are right lengths, and so are no slots in use; what is then answered is other rules'
     * part */
    for (size_t slots = 0; slots <= MACHINE_SLOTS + 1; slots++) {
        again(c);
        snprintf(trying, sizeof trying, "%s, %zu slots, none in use", c->name, slots);
        resize(AREA, slots * LATCHPEBBLE_PAGE);
        a.used = 0;
        memset(held[SLOTS].bytes, 0xff, held[SLOTS].length * width[SLOTS]);
        ask(c);
        HOLDS(told.number != LATCHPEBBLE_BAD_STORAGE);
    }
}

/* ---- empty slices ---- */

/* What a function answers where this slice, whose length it does not check, is empty. */
static uint32_t when_empty(const struct call *c, enum slice slice)
{
    switch (slice) {
    case DIRECTORY:
    case SOURCES:
        return LATCHPEBBLE_SNAPSHOT_DATA_LOAD_ERROR;
    case OUT:
        return LATCHPEBBLE_OUTPUT_TOO_SHORT;
    case FILE_:
    case PAGES:
        return is(c, "resume") ? LATCHPEBBLE_BAD_RECORD_FILE : LATCHPEBBLE_OUTPUT_TOO_SHORT;
    default:
        return LATCHPEBBLE_DONE;
    }
}

static void try_empty(const struct call *c, enum place place)
{
    for (int i = 0; i < SLICES; i++) {
        if ((c->lent & ~CHECKED & BIT(i)) == 0)
            continue;
        again(c);
        snprintf(trying, sizeof trying, "%s, %s empty, at place %d", c->name, slice_names[i], (int)place);
        held[i].length = 0;
        held[i].place = place;
        ask(c);
        HOLDS(told.number == when_empty(c, (enum slice)i));
    }

    again(c);
    snprintf(trying, sizeof trying, "%s, every slice empty, at place %d", c->name, (int)place);
    for (int i = 0; i < SLICES; i++) {
        held[i].length = 0;
        held[i].place = place;
    }
    memset(&a, 0, sizeof a);
    ask(c);
    HOLDS(told.number == c->nothing);

    if ((c->lent & OF_MEMORY) == 0)
        return;
    again(c);
    snprintf(trying, sizeof trying, "%s, no slots, at place %d", c->name, (int)place);
    a.used = 0;
    memset(held[SLOTS].bytes, 0xff, held[SLOTS].length * width[SLOTS]);
    held[AREA].length = 0;
    held[AREA].place = place;
    ask(c);
    HOLDS(told.number != LATCHPEBBLE_BAD_STORAGE);
}

/* ---- outputs and files ---- */

static void try_outputs(void)
{
    static const char *const layers[] = {"sparse", "wxorx"};
    for (size_t i = 0; i < 2; i++) {
        char name[64];
        snprintf(name, sizeof name, "latchpebble_%s_load_bytes", layers[i]);
        const struct call *c = call_named(name);
        again(c);
        snprintf(trying, sizeof trying, "%s, an output a byte too short", name);
        resize(OUT, LATCHPEBBLE_PAGE - 1);
        refused(c, LATCHPEBBLE_OUTPUT_TOO_SHORT);
        snprintf(trying, sizeof trying, "%s, an output of the right length", name);
        resize(OUT, LATCHPEBBLE_PAGE);
        HOLDS(ask(c) == BIT(OUT) && told.number == LATCHPEBBLE_DONE);
        snprintf(trying, sizeof trying, "%s, an output a byte longer", name);
        resize(OUT, LATCHPEBBLE_PAGE + 1);
        held[OUT].bytes[LATCHPEBBLE_PAGE] = 99;
        ask(c);
        HOLDS(told.number == LATCHPEBBLE_DONE && held[OUT].bytes[LATCHPEBBLE_PAGE] == 99);

        snprintf(name, sizeof name, "latchpebble_%s_load_c_string", layers[i]);
        c = call_named(name);
        for (size_t room = TEXT - 1; room <= TEXT + 1; room++) {
            again(c);
            snprintf(trying, sizeof trying, "%s, %zu bytes for a text of %d", name, room, TEXT);
            resize(OUT, room);
            memset(held[OUT].bytes, 0, ROOM);
            ask(c);
            HOLDS(told.number == (room < TEXT ? LATCHPEBBLE_OUTPUT_TOO_SHORT : LATCHPEBBLE_DONE));
            HOLDS(told.value == (room < TEXT ? 0 : TEXT));
            HOLDS(memcmp(held[OUT].bytes, held[INPUT].bytes, room < TEXT ? room : TEXT) == 0);
            HOLDS(room <= TEXT || held[OUT].bytes[TEXT] == 0);
        }
    }

    for (int i = FILE_; i <= PAGES; i++) {
        const struct call *c = call_named("latchpebble_make_snapshot");
        again(c);
        snprintf(trying, sizeof trying, "%s, %s a byte too short", c->name, slice_names[i]);
        held[i].length--;
        refused(c, LATCHPEBBLE_OUTPUT_TOO_SHORT);
        again(c);
        snprintf(trying, sizeof trying, "%s, %s a byte longer", c->name, slice_names[i]);
        held[i].bytes[held[i].length] = 99;
        held[i].length++;
        ask(c);
        HOLDS(told.number == LATCHPEBBLE_DONE && held[i].bytes[held[i].length - 1] == 99);
        for (int more = -1; more <= 1; more += 2) {
            c = call_named("latchpebble_resume");
            again(c);
            snprintf(trying, sizeof trying, "%s, %s longer by %d", c->name, slice_names[i], more);
            held[i].length = (size_t)((long)held[i].length + more);
            refused(c, LATCHPEBBLE_BAD_RECORD_FILE);
        }
    }
}

/* Slices that are only read may overlap: a directory that is its own source. */
static void try_overlap(void)
{
    const uint64_t directory[LATCHPEBBLE_ENTRY_WORDS] = {ITEM, 0, LATCHPEBBLE_ENTRY_WORDS * sizeof(uint64_t)};
    const struct call *c = call_named("latchpebble_context_store_bytes");
    static struct held apart[SLICES];
    for (int overlap = 0; overlap <= 1; overlap++) {
        again(c);
        snprintf(trying, sizeof trying, "%s, directory and sources %s", c->name, overlap ? "overlap" : "apart");
        uint64_t *block = malloc(sizeof directory);
        if (block == NULL)
            exit(2);
        memcpy(block, directory, sizeof directory);
        resize(DIRECTORY, LATCHPEBBLE_ENTRY_WORDS);
        put_words(DIRECTORY, 0, directory, LATCHPEBBLE_ENTRY_WORDS);
        resize(SOURCES, sizeof directory);
        memcpy(held[SOURCES].bytes, directory, sizeof directory);
        if (overlap) {
            a.machine.memory.size = a.extent;
            latchpebble_context_stored x = latchpebble_context_store_bytes(
                (uint16_t *)(void *)held[SLOTS].bytes, held[SLOTS].length, held[FLAGS].bytes, held[FLAGS].length,
                held[AREA].bytes, held[AREA].length, (uint64_t *)(void *)held[RECORDS].bytes, held[RECORDS].length,
                block, LATCHPEBBLE_ENTRY_WORDS, (const uint8_t *)block, sizeof directory, a.extent, a.address, a.id,
                a.offset, a.size, a.place, a.used);
            HOLDS(x.number == LATCHPEBBLE_DONE && x.stored == sizeof directory && x.full == sizeof directory);
            for (int i = SLOTS; i <= RECORDS; i++)
                HOLDS(memcmp(held[i].bytes, apart[i].bytes, held[i].length * width[i]) == 0);
        } else {
            ask(c);
            HOLDS(told.number == LATCHPEBBLE_DONE);
            memcpy(apart, held, sizeof held);
        }
        free(block);
    }
}

/* ---- storage and numbers that no call made ---- */

static uint64_t state = UINT64_C(0x9e3779b97f4a7c15);

static uint64_t random_word(void)
{
    state ^= state << 13;
    state ^= state >> 7;
    state ^= state << 17;
    return state;
}

static uint64_t below(uint64_t n)
{
    return (random_word() >> 11) % n;
}

/* A number near a bound, or any. */
static uint64_t number(void)
{
    const uint64_t near[] = {0,
                             LATCHPEBBLE_PAGE,
                             2 * LATCHPEBBLE_PAGE,
                             3 * LATCHPEBBLE_PAGE,
                             a.extent,
                             LATCHPEBBLE_MAX_MEMORY,
                             UINT64_C(1) << 32,
                             UINT64_C(1) << 63,
                             UINT64_MAX - LATCHPEBBLE_PAGE + 1};
    uint64_t way = below(16);
    if (way == 0)
        return random_word();
    if (way < 5)
        return below(6);
    if (way < 7)
        return below(a.extent + 1);
    uint64_t x = near[below(sizeof near / sizeof *near)];
    return way < 12 ? x : x + below(19) - 9;
}

static void random_bytes(enum slice slice)
{
    for (size_t i = 0; i < held[slice].length * width[slice]; i++)
        held[slice].bytes[i] = (uint8_t)random_word();
}

static void random_numbers(enum slice slice, size_t most)
{
    resize(slice, (size_t)below(most + 1));
    for (size_t i = 0; i < held[slice].length; i++) {
        uint64_t x = number();
        put_words(slice, i, &x, 1);
    }
}

/* Storage of right lengths with anything in it, or what a call has left with a little of it changed. */
static void disturb(void)
{
    if (below(2) == 0) {
        resize(AREA, (size_t)below(MACHINE_SLOTS + 1) * LATCHPEBBLE_PAGE);
        a.used = below(held[AREA].length / LATCHPEBBLE_PAGE + 1);
    }
    for (size_t i = 0; i < held[SLOTS].length; i++) {
        uint64_t way = below(12);
        uint16_t slot = way == 0   ? (uint16_t)random_word()
                        : way == 1 ? LATCHPEBBLE_INVALID_PAGE_INDEX
                                   : (uint16_t)below(5);
        if (way < 4)
            memcpy(held[SLOTS].bytes + 2 * i, &slot, sizeof slot);
        if (below(4) == 0)
            held[FLAGS].bytes[i] = (uint8_t)(below(3) == 0 ? random_word() : below(8));
    }
    if (below(4) == 0)
        random_bytes(RECORDS);
    if (below(4) == 0)
        random_numbers(DIRECTORY, 2 * LATCHPEBBLE_ENTRY_WORDS);
    if (below(2) == 0)
        random_numbers(ACTIONS, 2 * LATCHPEBBLE_ACTION_WORDS);
    if (below(4) == 0) {
        resize(INPUT, (size_t)below(2 * LATCHPEBBLE_PAGE));
        random_bytes(INPUT);
    }
    if (below(2) == 0)
        resize(OUT, (size_t)below(64));
    /* a word of a file's records: one of a run, or any */
    for (uint64_t n = below(3); n > 0 && held[FILE_].length > 0; n--) {
        size_t words = held[FILE_].length / 8;
        size_t first = (size_t)LATCHPEBBLE_LEAST_RECORDS * LATCHPEBBLE_RECORD_BYTES / 8;
        size_t at = below(4) == 0 || words <= first ? (size_t)below(words) : first + (size_t)below(words - first);
        uint64_t x = number();
        put_words(FILE_, at, &x, 1);
    }
    if (below(8) == 0)
        resize(PAGES, (size_t)below(3) * LATCHPEBBLE_PAGE);
    a.address = number();
    a.size = number();
    a.value = number();
    a.lead = number();
    a.page = number();
    a.first = number();
    a.last = below(2) == 0 ? a.first : number();
    a.id = below(3) == 0 ? number() : ITEM;
    a.offset = number();
    a.place = below(3) == 0 ? number() : 8;
    a.start = number();
    a.i = below(40);
    a.version = (uint32_t)below(3);
    a.flag = (uint8_t)(below(2) == 0 ? random_word() : below(8));
    if (below(16) == 0)
        a.used = number();
    if (below(32) == 0)
        a.extent = number();
    for (unsigned i = 0; i < LATCHPEBBLE_REGISTERS; i++)
        a.machine.registers[i] = random_word();
    a.machine.pc = random_word();
    a.machine.next_pc = random_word();
    a.machine.version = (uint32_t)(below(8) == 0 ? random_word() : 1);
    a.machine.cycles = random_word();
    a.machine.max_cycles = random_word();
    a.machine.memory.reservation = random_word();
}

static void try_disturbed(const struct call *c)
{
    again(c);
    disturb();
    snprintf(trying, sizeof trying, "%s, call %lu", c->name, asked);
    unsigned changed = ask(c);
    switch (told.number) {
    case LATCHPEBBLE_INVALID_VERSION:
    case LATCHPEBBLE_NO_SUCH_REGISTER:
    case LATCHPEBBLE_BAD_RECORD_FILE:
        HOLDS(changed == 0);
        HOLDS(!told.has_machine || same_machine(told.machine, a.machine));
        break;
    default:
        break;
    }
    HOLDS(told.number == LATCHPEBBLE_DONE || told.rest == 0);
    HOLDS(!told.has_used || told.used >= a.used);
}

/* ---- all of it ---- */

static void *room(size_t size, int protection)
{
    void *at = mmap(NULL, size, protection, MAP_PRIVATE | MAP_ANONYMOUS | MAP_NORESERVE, -1, 0);
    if (at == MAP_FAILED) {
        fprintf(stderr, "boundary: no room\n");
        exit(2);
    }
    return at;
}

/* So many bytes after a page that can't be touched, and whole pages of them before another. */
static uint8_t *guarded(size_t size)
{
    size_t page = (size_t)sysconf(_SC_PAGESIZE);
    size_t whole = (size + page - 1) / page * page;
    uint8_t *at = room(whole + 2 * page, PROT_NONE);
    if (mprotect(at + page, whole, PROT_READ | PROT_WRITE) != 0) {
        fprintf(stderr, "boundary: no guarded room\n");
        exit(2);
    }
    return at + page;
}

static void watch_faults(void)
{
    static uint8_t other[65536];
    stack_t signal_stack = {.ss_sp = other, .ss_size = sizeof other, .ss_flags = 0};
    struct sigaction action;
    memset(&action, 0, sizeof action);
    action.sa_handler = touched;
    action.sa_flags = SA_ONSTACK;
    if (sigaltstack(&signal_stack, NULL) != 0 || sigaction(SIGSEGV, &action, NULL) != 0 ||
        sigaction(SIGBUS, &action, NULL) != 0)
        exit(2);
}

static int write_numbers(const char *path)
{
    FILE *f = fopen(path, "w");
    if (f == NULL)
        return 0;
    for (size_t i = 0; i < CALL_COUNT; i++) {
        fprintf(f, "%s", calls[i].name);
        for (unsigned n = 0; n <= LATCHPEBBLE_BAD_RECORD_FILE; n++)
            if (seen[i] & (1u << n))
                fprintf(f, " %u", n);
        fprintf(f, "\n");
    }
    return fclose(f) == 0;
}

int main(int argc, char **argv)
{
    long times = argc == 3 ? atol(argv[2]) : 300;
    if (argc > 3 || times <= 0) {
        fprintf(stderr, "usage: boundary [NUMBERS [TIMES]]\n");
        return 2;
    }
    if (ROOM % sysconf(_SC_PAGESIZE) != 0) {
        fprintf(stderr, "boundary: pages of this machine are too large\n");
        return 2;
    }
    for (int i = 0; i < SLICES; i++)
        region[i] = guarded(ROOM);
    stack = guarded(STACK);
    untouchable = room((size_t)(LATCHPEBBLE_MOST_SLOTS + 2) * LATCHPEBBLE_PAGE, PROT_NONE);
    watch_faults();
    bind_late();

    for (size_t p = 0; p < sizeof touchable / sizeof *touchable; p++) {
        set_up(touchable[p]);
        keep();
        for (size_t i = 0; i < CALL_COUNT; i++) {
            try_lengths(&calls[i]);
            try_empty(&calls[i], NOTHING);
            try_empty(&calls[i], UNTOUCHABLE);
            try_empty(&calls[i], touchable[p]);
        }
        try_outputs();
        try_overlap();
        for (size_t i = 0; i < CALL_COUNT; i++)
            for (long n = 0; n < times; n++)
                try_disturbed(&calls[i]);
    }

    if (argc > 1 && !write_numbers(argv[1])) {
        fprintf(stderr, "boundary: %s was not written\n", argv[1]);
        return 2;
    }
    printf("boundary: %d functions, %lu calls, %lu wrong; the deepest, %s, took %zu of %d bytes of stack\n",
           (int)CALL_COUNT, asked, wrong, deepest_name, deepest, (int)STACK);
    return wrong == 0 ? 0 : 1;
}
