/* runner.c: an example host. It runs a laboratory's program over the round's readings, stops it when its cycles are
   spent, and resumes it from two files, in another process or on another computer.

       runner start  PROGRAM READINGS PAIR CYCLES
       runner resume PROGRAM READINGS PAIR CYCLES

   PROGRAM is RISC-V code, READINGS text with a decimal number a line, PAIR the directory of the two files (pair.h),
   CYCLES how many cycles are allowed this time. Each instruction costs one. Status 0: the program is done; 3: it was
   stopped and PAIR is written; 1: a failure; 2: wrong arguments.

   A snapshot says which pages come from the sources, not what is in them: `resume` must be given the PROGRAM and
   READINGS that `start` was given. Nothing here checks that. */

#include "latchpebble.h"
#include "pair.h"

#include <errno.h>
#include <inttypes.h>
#include <stdarg.h>
#include <stdbool.h>
#include <stdio.h>
#include <stdlib.h>
#include <string.h>

enum { DONE = 0, FAILURE = 1, USAGE = 2, STOPPED = 3 };

/* The machine, and where things lie in its memory. */
enum { PAGES = 16, VERSION = 1 };
enum { PROGRAM_AT = 0x1000, READINGS_AT = 0x3064, SUM_AT = 0xf000, SIZE_WORD_AT = 0xfff8 };
enum { MOST_PROGRAM = 2 * LATCHPEBBLE_PAGE, MOST_READINGS = 4000, WORD = 8 };
enum { PROGRAM_FLAGS = LATCHPEBBLE_FLAG_FREEZED | LATCHPEBBLE_FLAG_EXECUTABLE };

/* The ids of the two sources, their entries in the directory, and the words of an entry. */
enum { PROGRAM_ITEM = 1, READINGS_ITEM = 7 };
enum { PROGRAM_ENTRY, READINGS_ENTRY, ENTRIES };
enum { ENTRY_ID, ENTRY_START, ENTRY_LENGTH };

/* The registers that the program is given its readings in: their address, how many, and where the sum goes. */
enum { A0 = 10, A1 = 11, A2 = 12 };

/* ---- what is lent ----

   All of the machine's storage, fixed here: no call allocates or keeps any. A slot for every page, so that no store
   is ever refused for want of one. */
static uint16_t slots[PAGES];
static uint8_t flags[PAGES];
static uint8_t area[PAGES * LATCHPEBBLE_PAGE];
static uint64_t records[PAGES * LATCHPEBBLE_PAGE_RECORD_WORDS];

/* The sources: the program's bytes and then the readings, and a directory that says where each item starts and ends. */
static uint8_t sources[MOST_PROGRAM + MOST_READINGS * WORD];
static size_t sources_len;
static uint64_t directory[ENTRIES * LATCHPEBBLE_ENTRY_WORDS];

static uint64_t *entry(size_t number)
{
    return directory + number * LATCHPEBBLE_ENTRY_WORDS;
}

/* A snapshot's two files, as they are made or read. */
static struct pair_files files;

/* The machine's own numbers. A call that changes some hands the machine back. */
static latchpebble_machine machine;

/* What a call is lent: each slice as pointer and length. */
#define LENGTH(array) (sizeof(array) / sizeof *(array))
#define MEMORY slots, LENGTH(slots), flags, LENGTH(flags), area, LENGTH(area)
#define RECORDS records, LENGTH(records)
#define SOURCES directory, LENGTH(directory), sources, sources_len

/* ---- failures ---- */

static _Noreturn void fail(const char *form, ...)
{
    va_list values;
    va_start(values, form);
    fputs("runner: ", stderr);
    vfprintf(stderr, form, values);
    fputc('\n', stderr);
    va_end(values);
    exit(FAILURE);
}

/* Looks at the number that a call answered: 0 is done, any other a refusal. */
static void look(const char *call, uint32_t number)
{
    if (number != LATCHPEBBLE_DONE)
        fail("%s is refused, %" PRIu32 ": %s", call, number, latchpebble_meaning(number));
}

/* ---- the machine ---- */

static uint64_t get(uint64_t i)
{
    latchpebble_value answer = latchpebble_machine_register(machine, i);
    look("machine_register", answer.number);
    return answer.value;
}

/* Register 0 stays 0: the library's is an ordinary register. */
static void set(uint64_t i, uint64_t value)
{
    if (i == 0)
        return;
    latchpebble_machine_answer answer = latchpebble_machine_set_register(machine, i, value);
    machine = answer.machine;
    look("machine_set_register", answer.number);
}

static void go_to(uint64_t pc)
{
    machine = latchpebble_machine_update_pc(machine, pc);
    machine = latchpebble_machine_commit_pc(machine);
}

static uint64_t load64(uint64_t address)
{
    latchpebble_value answer =
        latchpebble_wxorx_load64(MEMORY, machine.memory.size, address, machine.memory.used);
    look("wxorx_load64", answer.number);
    return answer.value;
}

/* A store may take slots: the count that it hands back goes into the next call, after a refusal too. */
static void store64(uint64_t address, uint64_t value)
{
    latchpebble_stored answer =
        latchpebble_wxorx_store64(MEMORY, machine.memory.size, address, value, machine.memory.used);
    machine.memory.used = answer.used;
    look("wxorx_store64", answer.number);
}

static void make_fresh(void)
{
    latchpebble_machine_answer answer = latchpebble_machine_fresh(MEMORY, RECORDS, sizeof area, VERSION, 0);
    machine = answer.machine;
    look("machine_fresh", answer.number);
}

/* The program goes into frozen, executable pages, and its whole pages are marked as coming from item 1; the readings
   come by way of a context store, which marks their whole pages itself. A page that the program then writes to is
   dirty, and a snapshot has its bytes. */
static void load_program(void)
{
    uint64_t length = entry(PROGRAM_ENTRY)[ENTRY_LENGTH];
    uint64_t size = latchpebble_round_page_up(length);
    latchpebble_stored filled =
        latchpebble_wxorx_init_pages(MEMORY, sources, (size_t)length, machine.memory.size, PROGRAM_AT, size,
                                     PROGRAM_FLAGS, 0, machine.memory.used);
    machine.memory.used = filled.used;
    look("wxorx_init_pages", filled.number);
    /* a loading action: address, size, flags, source start, source end, lead */
    const uint64_t action[LATCHPEBBLE_ACTION_WORDS] = {PROGRAM_AT, size, PROGRAM_FLAGS, 0, length, 0};
    look("mark_program", latchpebble_mark_program(MEMORY, RECORDS, action, LENGTH(action), machine.memory.size,
                                                  PROGRAM_ITEM, 0, machine.memory.used));
}

static void store_readings(void)
{
    uint64_t length = entry(READINGS_ENTRY)[ENTRY_LENGTH];
    latchpebble_context_stored stored =
        latchpebble_context_store_bytes(MEMORY, RECORDS, SOURCES, machine.memory.size, READINGS_AT, READINGS_ITEM, 0,
                                        length, SIZE_WORD_AT, machine.memory.used);
    machine.memory.used = stored.used;
    look("context_store_bytes", stored.number);
}

static void start(void)
{
    make_fresh();
    load_program();
    store_readings();
    set(A0, READINGS_AT);
    set(A1, load64(SIZE_WORD_AT) / WORD);
    set(A2, SUM_AT);
    go_to(PROGRAM_AT);
}

static void resume(const char *pair)
{
    char text[PAIR_TEXT];
    make_fresh();
    if (pair_read(pair, &files, text) != PAIR_DONE)
        fail("%s: %s", pair, text);
    latchpebble_machine_answer answer = latchpebble_resume(MEMORY, RECORDS, SOURCES, files.records, files.records_len,
                                                           files.pages, files.pages_len, machine);
    machine = answer.machine;
    look("resume", answer.number);
}

static void stop(const char *pair)
{
    char text[PAIR_TEXT];
    latchpebble_made made = latchpebble_make_snapshot(MEMORY, RECORDS, files.records, sizeof files.records, files.pages,
                                                      sizeof files.pages, machine);
    look("make_snapshot", made.number);
    files.records_len = (size_t)made.records * LATCHPEBBLE_RECORD_BYTES;
    files.pages_len = (size_t)made.pages * LATCHPEBBLE_PAGE;
    enum pair_answer answer = pair_write(pair, &files, text);
    if (answer != PAIR_DONE)
        fail("%s: %s%s", pair, answer == PAIR_UNSURE ? "the new pair is current, but: " : "", text);
}

/* ---- instructions: the kinds that the example's program is made of ---- */

static uint64_t bits(uint64_t word, unsigned from, unsigned count)
{
    return word >> from & ((UINT64_C(1) << count) - 1);
}

static uint64_t sign_extended(uint64_t value, unsigned width)
{
    uint64_t sign = UINT64_C(1) << (width - 1);
    return (value ^ sign) - sign;
}

/* Runs the instruction at pc; false at ecall. */
static bool step(void)
{
    uint64_t pc = latchpebble_machine_pc(machine);
    latchpebble_value fetched =
        latchpebble_wxorx_execute_load32(MEMORY, machine.memory.size, pc, machine.memory.used);
    look("wxorx_execute_load32", fetched.number);

    uint64_t word = fetched.value, next = pc + 4;
    uint64_t rd = bits(word, 7, 5), rs1 = bits(word, 15, 5), rs2 = bits(word, 20, 5);
    uint64_t immediate = sign_extended(bits(word, 20, 12), 12);
    /* what tells instructions apart: opcode and funct3; and for some of them the bits above rs2, or the shift */
    enum { BEQ = 0x063, LD = 0x183, ADDI = 0x013, SRLI = 0x293, ADD_SUB = 0x033, SD = 0x1a3 };
    enum { JAL = 0x6f, ECALL = 0x73, ADD = 0, SUB = 0x20 };
    uint64_t opcode = bits(word, 0, 7), kind = bits(word, 12, 3) << 7 | opcode, funct7 = bits(word, 25, 7);
    bool running = true;

    if (kind == BEQ) {
        uint64_t offset =
            bits(word, 31, 1) << 12 | bits(word, 7, 1) << 11 | bits(word, 25, 6) << 5 | bits(word, 8, 4) << 1;
        if (get(rs1) == get(rs2))
            next = pc + sign_extended(offset, 13);
    } else if (kind == LD) {
        set(rd, load64(get(rs1) + immediate));
    } else if (kind == ADDI) {
        set(rd, get(rs1) + immediate);
    } else if (kind == SRLI && bits(word, 26, 6) == 0) {
        set(rd, get(rs1) >> bits(word, 20, 6));
    } else if (kind == ADD_SUB && funct7 == ADD) {
        set(rd, get(rs1) + get(rs2));
    } else if (kind == ADD_SUB && funct7 == SUB) {
        set(rd, get(rs1) - get(rs2));
    } else if (kind == SD) {
        store64(get(rs1) + sign_extended(funct7 << 5 | rd, 12), get(rs2));
    } else if (opcode == JAL) {
        uint64_t offset =
            bits(word, 31, 1) << 20 | bits(word, 12, 8) << 12 | bits(word, 20, 1) << 11 | bits(word, 21, 10) << 1;
        set(rd, next);
        next = pc + sign_extended(offset, 21);
    } else if (word == ECALL) {
        running = false;
    } else {
        fail("the instruction %08" PRIx64 " at %" PRIx64 " is none that this example runs", word, pc);
    }
    go_to(next);
    machine = latchpebble_machine_set_cycles(machine, latchpebble_machine_cycles(machine) + 1);
    return running;
}

/* ---- arguments and inputs ---- */

static _Noreturn void usage(void)
{
    fputs("usage: runner start  PROGRAM READINGS PAIR CYCLES\n"
          "       runner resume PROGRAM READINGS PAIR CYCLES\n"
          "Runs PROGRAM (RISC-V code) over READINGS (a decimal number a line) for at most CYCLES cycles. When they\n"
          "are spent, the machine's snapshot is written into the directory PAIR, from which resume goes on.\n"
          "Status 0: done; 1: a failure; 2: wrong arguments; 3: stopped.\n",
          stderr);
    exit(USAGE);
}

/* Takes one more decimal digit into a number; false for any other character, or past 2^64-1. */
static bool take_digit(uint64_t *number, int c)
{
    if (c < '0' || c > '9')
        return false;
    uint64_t digit = (uint64_t)(c - '0');
    if (*number > (UINT64_MAX - digit) / 10)
        return false;
    *number = *number * 10 + digit;
    return true;
}

static uint64_t cycles_of(const char *word)
{
    uint64_t number = 0;
    const char *c = word;
    while (*c != '\0' && take_digit(&number, *c))
        c++;
    if (c == word || *c != '\0')
        usage();
    return number;
}

/* Puts an item at the end of the sources, and its entry into the directory. */
static void add_item(size_t number, uint64_t id, const uint8_t *bytes, size_t length)
{
    entry(number)[ENTRY_ID] = id;
    entry(number)[ENTRY_START] = sources_len;
    entry(number)[ENTRY_LENGTH] = length;
    memcpy(sources + sources_len, bytes, length);
    sources_len += length;
}

static FILE *opened(const char *path)
{
    FILE *file = fopen(path, "rb");
    if (file == NULL)
        fail("can't open %s: %s", path, strerror(errno));
    return file;
}

static void closed(FILE *file, const char *path)
{
    if (ferror(file))
        fail("can't read %s: %s", path, strerror(errno));
    fclose(file);
}

static void read_program(const char *path)
{
    static uint8_t bytes[MOST_PROGRAM + 1];
    FILE *file = opened(path);
    size_t length = fread(bytes, 1, sizeof bytes, file);
    closed(file, path);
    if (length > MOST_PROGRAM)
        fail("%s has more than %d bytes", path, MOST_PROGRAM);
    add_item(PROGRAM_ENTRY, PROGRAM_ITEM, bytes, length);
}

static void read_readings(const char *path)
{
    static uint8_t bytes[MOST_READINGS * WORD];
    size_t lines = 0;
    FILE *file = opened(path);
    for (int c = getc(file); c != EOF; c = getc(file)) {
        uint64_t reading = 0;
        if (++lines > MOST_READINGS)
            fail("%s has more than %d readings", path, MOST_READINGS);
        do {
            if (!take_digit(&reading, c))
                fail("%s, line %zu: not a decimal number below 2^64", path, lines);
            c = getc(file);
        } while (c != '\n' && c != EOF);
        for (size_t i = 0; i < WORD; i++)
            bytes[(lines - 1) * WORD + i] = (uint8_t)(reading >> 8 * i);
    }
    closed(file, path);
    add_item(READINGS_ENTRY, READINGS_ITEM, bytes, lines * WORD);
}

/* What was printed is out, or that is a failure too. */
static int ended(int status)
{
    if (fflush(stdout) != 0)
        fail("can't write to standard output: %s", strerror(errno));
    return status;
}

int main(int count, char **words)
{
    if (count != 6 || (strcmp(words[1], "start") != 0 && strcmp(words[1], "resume") != 0))
        usage();
    const char *pair = words[4];
    uint64_t allowed = cycles_of(words[5]);
    read_program(words[2]);
    read_readings(words[3]);
    if (strcmp(words[1], "start") == 0)
        start();
    else
        resume(pair);

    uint64_t so_far = latchpebble_machine_cycles(machine);
    if (allowed > UINT64_MAX - so_far)
        fail("%" PRIu64 " cycles and %" PRIu64 " more are past 2^64-1", so_far, allowed);
    machine = latchpebble_machine_set_max_cycles(machine, so_far + allowed);
    bool running = true;
    while (running && latchpebble_machine_cycles(machine) < latchpebble_machine_max_cycles(machine))
        running = step();

    /* between two instructions, with no pc pending */
    if (running) {
        stop(pair);
        printf("stopped after %" PRIu64 " cycles; %" PRIu64 " readings left\n", latchpebble_machine_cycles(machine),
               get(A1));
        return ended(STOPPED);
    }
    printf("done after %" PRIu64 " cycles; sum %" PRIu64 "\n", latchpebble_machine_cycles(machine), load64(SUM_AT));
    return ended(DONE);
}
