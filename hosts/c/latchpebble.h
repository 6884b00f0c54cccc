/* latchpebble.h: the C functions of Latchpebble's archive, libhost.a. For C11, C++11 and later.

   Latchpebble is a verified port of the sparse memory, W^X memory and snapshot modules of crate ckb-vm 0.24.15 to
   storage that is lent and bounded. It holds a RISC-V machine's memory, registers, pc and cycles, keeps account of
   which pages hold bytes of which source, writes a machine into two files and makes a machine from them again. It runs
   no instruction: that is the host's part.

   Every call ends with an answer on every input. A refusal has a number (enum latchpebble_number), and at each call
   stands what it leaves. The functions are proved to do what the project's exact rules, document 01, say. This header
   is not part of the proof: tools/header holds it to the archive.


   WHAT IS LENT

   The library allocates nothing, does no input or output, and keeps nothing between calls: there is nothing to set up
   and nothing to free. All storage is the host's, lent to each call as slices: a pointer and, after it, the number of
   its elements. A slice without const may be written to.

       slots      a uint16_t for each page: the slot that holds it, or LATCHPEBBLE_INVALID_PAGE_INDEX if it is absent
       flags      a uint8_t for each page: LATCHPEBBLE_FLAG_..
       area       the slots, LATCHPEBBLE_PAGE bytes each; fewer than pages, more, or none
       records    LATCHPEBBLE_PAGE_RECORD_WORDS words for each page: whether it is tracked, and as which item's bytes
       directory  LATCHPEBBLE_ENTRY_WORDS words for each item of the sources: id, start, length
       sources    the bytes in which the items lie
       actions    LATCHPEBBLE_ACTION_WORDS words for each loading action of a program: address, size, flags, source
                  start, source end, lead

   A word is a uint64_t. Of directory and actions the words after the last whole entry or action are ignored, and the
   first entry with an id decides.

   A page is absent until it is first written; then it takes the lowest slot not in use. An absent page reads as zeros.
   A memory's own numbers (latchpebble_memory: size, slots in use, reservation) stay with the host. A call on a memory
   is given its size, as `extent`, and its slots in use, as `used`. A machine (latchpebble_machine) goes in by value and
   comes back whole. Its memory is its field `memory`, over W^X storage: the wxorx calls are those for it.


   WHAT A HOST OWES

   Take over `used` from every answer that has one, on refusals too: the call may have taken slots. Keep the
   reservation: of the calls on a memory only lr and set_lr know it, and of those on a machine make_snapshot and resume.

   Lengths are owed by nobody: a call that is lent a memory's storage looks at them before anything else, and where one
   is wrong it answers 9 and has used no pointer. Right are

       extent       a multiple of LATCHPEBBLE_PAGE, at most LATCHPEBBLE_MAX_MEMORY
       slots_len    extent / LATCHPEBBLE_PAGE
       flags_len    extent / LATCHPEBBLE_PAGE
       area_len     a multiple of LATCHPEBBLE_PAGE, at most LATCHPEBBLE_MOST_SLOTS times it
       used         at most area_len / LATCHPEBBLE_PAGE
       records_len  LATCHPEBBLE_PAGE_RECORD_WORDS times extent / LATCHPEBBLE_PAGE

   wherever a call is lent that slice or given that number; for the fresh calls `size` is the extent, and for
   make_snapshot and resume extent and `used` are those of machine.memory. Every other slice may have any length: an
   output that is too short is 8, files that are not in their form are 11.

   Nor does a host owe numbers that a call has answered: a page whose slot number is neither absent nor below `used` is
   9 where its bytes are read or written (two pages may name one slot), and every flag, record, register and other
   number is taken as it is. No number and no content makes a call fault or run on, as long as the host keeps what
   follows.

       Pointers   A pointer is that of as many elements as its length says, or more, aligned for them, all of them the
                  host's to read and, without const, to write. No slice has more than PTRDIFF_MAX bytes. Where the
                  length is 0 the pointer is not used: it may be NULL, or point anywhere.
       Values     What is lent has been written before, as static storage, calloc or memset has it: what is proved is
                  proved of bytes that have values.
       Overlap    A slice without const overlaps no other slice of the same call. Slices with const may overlap each
                  other. So bytes go from one place of a memory to another by way of a buffer that is not its area.
       Threads    Calls may be made at the same time where none of them writes what another is lent. There is no state
                  beside what is lent.
       Signals    A call is left by its return alone: a longjmp out of it, from a signal handler, leaves what it was
                  writing half written. A handler may make calls itself, as if it were another thread.
       Stack      A call needs at most LATCHPEBBLE_STACK bytes, its arguments and its answer counted. The archive calls
                  memcpy, memmove and memset and nothing else. Where these are bound late, the first call of each takes
                  the dynamic linker's stack as well: link with -z now, or call them once before, if stacks are small.
       Padding    The padding of an answer has no value: compare and keep fields, not whole structs as bytes.


   AN EXAMPLE

       // Stores a number over the end of a page, and loads it again.
       #include "latchpebble.h"
       #include <stdio.h>

       enum { PAGES = 4 };
       static uint16_t slots[PAGES];
       static uint8_t flags[PAGES];
       static uint8_t area[PAGES * LATCHPEBBLE_PAGE];

       static int refused(uint32_t number)
       {
           if (number != LATCHPEBBLE_DONE)
               puts(latchpebble_meaning(number));
           return number != LATCHPEBBLE_DONE;
       }

       int main(void)
       {
           latchpebble_fresh fresh =
               latchpebble_wxorx_fresh(slots, PAGES, flags, PAGES, area, sizeof area, PAGES * LATCHPEBBLE_PAGE);
           if (refused(fresh.number))
               return 1;
           latchpebble_memory memory = fresh.memory;

           latchpebble_stored stored = latchpebble_wxorx_store64(slots, PAGES, flags, PAGES, area, sizeof area,
                                                                 memory.size, 4092, 1729, memory.used);
           memory.used = stored.used; // on a refusal too
           if (refused(stored.number))
               return 1;

           latchpebble_value loaded = latchpebble_wxorx_load64(slots, PAGES, flags, PAGES, area, sizeof area,
                                                               memory.size, 4092, memory.used);
           if (refused(loaded.number))
               return 1;
           printf("%d in %d slots\n", (int)loaded.value, (int)memory.used); // 1729 in 2 slots
           return 0;
       }
*/

#ifndef LATCHPEBBLE_H
#define LATCHPEBBLE_H

#include <stddef.h>
#include <stdint.h>

#if SIZE_MAX != UINT64_MAX
#error "Latchpebble is for machines with lengths of 64 bits"
#endif

#ifdef __cplusplus
extern "C" {
#endif

/* ---- constants ---- */

/* The bytes of a page; the most bytes and the most pages of a memory. */
#define LATCHPEBBLE_PAGE 4096
#define LATCHPEBBLE_MAX_MEMORY 4194304
#define LATCHPEBBLE_MAX_PAGES 1024

/* The registers of a machine. */
#define LATCHPEBBLE_REGISTERS 32

/* The bits of a page's flag. A page is executable where its W^X bit is set, writable by W^X stores where it is not. */
#define LATCHPEBBLE_FLAG_FREEZED 1
#define LATCHPEBBLE_FLAG_EXECUTABLE 2
#define LATCHPEBBLE_FLAG_WXORX_BIT 2
#define LATCHPEBBLE_FLAG_WRITABLE 0
#define LATCHPEBBLE_FLAG_DIRTY 4

/* The slot number of an absent page; the most slots that may be lent. */
#define LATCHPEBBLE_INVALID_PAGE_INDEX 65535
#define LATCHPEBBLE_MOST_SLOTS 65535

/* The reservation of a fresh memory. */
#define LATCHPEBBLE_NO_RESERVATION UINT64_MAX

/* The words of a page's record, of an entry of the directory, and of a loading action. */
#define LATCHPEBBLE_PAGE_RECORD_WORDS 3
#define LATCHPEBBLE_ENTRY_WORDS 3
#define LATCHPEBBLE_ACTION_WORDS 6

/* The bytes of a record in a record file; the fewest and the most records of one. A machine's snapshot has at most
   LATCHPEBBLE_LEAST_RECORDS and one for each page. */
#define LATCHPEBBLE_RECORD_BYTES 48
#define LATCHPEBBLE_LEAST_RECORDS 9
#define LATCHPEBBLE_MOST_RECORDS 1033

/* The most bytes of stack that a call needs. Measured: the deepest takes some 2,300. */
#define LATCHPEBBLE_STACK 4096

/* ---- numbers ---- */

/* What a call answers. A refused call gives 0 for every other number of its answer, but for `used` and for a machine
   that went in. The comment at a call ends with the numbers that it can answer; calls without them refuse nothing. */
enum latchpebble_number {
    /* done */
    LATCHPEBBLE_DONE = 0,
    /* the snapshot is of another version */
    LATCHPEBBLE_INVALID_VERSION = 1,
    /* past the machine's memory, past the maximum, or a sum past 2^64-1 */
    LATCHPEBBLE_MEM_OUT_OF_BOUND = 2,
    /* an address, a size or data that is not whole pages */
    LATCHPEBBLE_MEM_PAGE_UNALIGNED_ACCESS = 3,
    /* a store to an executable page, or an execute load from one that isn't */
    LATCHPEBBLE_MEM_WRITE_ON_EXECUTABLE_PAGE = 4,
    /* a page fill that meets a frozen page */
    LATCHPEBBLE_MEM_WRITE_ON_FREEZED_PAGE = 5,
    /* no such item, its range leaves the source bytes, or the offset is past its end */
    LATCHPEBBLE_SNAPSHOT_DATA_LOAD_ERROR = 6,
    /* an absent page must be written and all slots are in use */
    LATCHPEBBLE_ALL_SLOTS_IN_USE = 7,
    /* a lent output is too short */
    LATCHPEBBLE_OUTPUT_TOO_SHORT = 8,
    /* a memory size, a lent length or a page's slot number that can't be */
    LATCHPEBBLE_BAD_STORAGE = 9,
    /* register number 32 or more */
    LATCHPEBBLE_NO_SUCH_REGISTER = 10,
    /* a record file that is not in its form */
    LATCHPEBBLE_BAD_RECORD_FILE = 11
};

/* A number's meaning, for people. */
static inline const char *latchpebble_meaning(uint32_t number)
{
    switch (number) {
    case LATCHPEBBLE_DONE:
        return "done";
    case LATCHPEBBLE_INVALID_VERSION:
        return "the snapshot is of another version";
    case LATCHPEBBLE_MEM_OUT_OF_BOUND:
        return "past the machine's memory, past the maximum, or a sum past 2^64-1";
    case LATCHPEBBLE_MEM_PAGE_UNALIGNED_ACCESS:
        return "an address, a size or data that is not whole pages";
    case LATCHPEBBLE_MEM_WRITE_ON_EXECUTABLE_PAGE:
        return "a store to an executable page, or an execute load from one that isn't";
    case LATCHPEBBLE_MEM_WRITE_ON_FREEZED_PAGE:
        return "a page fill that meets a frozen page";
    case LATCHPEBBLE_SNAPSHOT_DATA_LOAD_ERROR:
        return "no such item, its range leaves the source bytes, or the offset is past its end";
    case LATCHPEBBLE_ALL_SLOTS_IN_USE:
        return "an absent page must be written and all slots are in use";
    case LATCHPEBBLE_OUTPUT_TOO_SHORT:
        return "a lent output is too short";
    case LATCHPEBBLE_BAD_STORAGE:
        return "a memory size, a lent length or a page's slot number that can't be";
    case LATCHPEBBLE_NO_SUCH_REGISTER:
        return "register number 32 or more";
    case LATCHPEBBLE_BAD_RECORD_FILE:
        return "a record file that is not in its form";
    default:
        return "no such number";
    }
}

/* ---- structs ---- */

/* A memory's own numbers: its bytes, its slots in use (the lowest so many), and the reservation. */
typedef struct latchpebble_memory {
    uint64_t size;
    uint64_t used;
    uint64_t reservation;
} latchpebble_memory;

/* A machine's own numbers, and its memory's. `next_pc` is the pending pc. */
typedef struct latchpebble_machine {
    uint64_t registers[LATCHPEBBLE_REGISTERS];
    uint64_t pc;
    uint64_t next_pc;
    uint32_t version;
    uint64_t cycles;
    uint64_t max_cycles;
    latchpebble_memory memory;
} latchpebble_machine;

/* A number, and the slots in use. */
typedef struct latchpebble_stored {
    uint32_t number;
    uint64_t used;
} latchpebble_stored;

/* A number, and a memory. */
typedef struct latchpebble_fresh {
    uint32_t number;
    latchpebble_memory memory;
} latchpebble_fresh;

/* A number, and a value. */
typedef struct latchpebble_value {
    uint32_t number;
    uint64_t value;
} latchpebble_value;

/* A number, and the first and the last page. */
typedef struct latchpebble_indices {
    uint32_t number;
    uint64_t first;
    uint64_t last;
} latchpebble_indices;

/* A number, and a machine. */
typedef struct latchpebble_machine_answer {
    uint32_t number;
    latchpebble_machine machine;
} latchpebble_machine_answer;

/* A number; where data starts in the source bytes, how many bytes it has, and the full length that remains. */
typedef struct latchpebble_found {
    uint32_t number;
    uint64_t start;
    uint64_t count;
    uint64_t full;
} latchpebble_found;

/* A number, the slots in use, the bytes stored, and the full length that remained. */
typedef struct latchpebble_context_stored {
    uint32_t number;
    uint64_t used;
    uint64_t stored;
    uint64_t full;
} latchpebble_context_stored;

/* A number; 1 for a page that is tracked, and then id, offset and flag; 0 for each otherwise. */
typedef struct latchpebble_recorded {
    uint32_t number;
    uint32_t tracked;
    uint64_t id;
    uint64_t offset;
    uint32_t flag;
} latchpebble_recorded;

/* A number, and the records and pages that a snapshot wrote. */
typedef struct latchpebble_made {
    uint32_t number;
    uint64_t records;
    uint64_t pages;
} latchpebble_made;

/* ---- rounding and pages ---- */

/* x rounded up to a whole page, modulo 2^64: above 2^64-4,096 it wraps to 0. And x rounded down to a whole page. */
uint64_t latchpebble_round_page_up(uint64_t x);
uint64_t latchpebble_round_page_down(uint64_t x);

/* The first and the last page of `size` bytes from an address on.
   2: size 0, or a sum past LATCHPEBBLE_MAX_MEMORY, which is not a memory's own size, or past 2^64-1.
   Numbers: 0, 2. */
latchpebble_indices latchpebble_get_page_indices(uint64_t address, uint64_t size);

/* ---- memories ----

   The sparse memory checks no permission; the W^X memory keeps pages that are executable from being written to. Both
   are over the same storage, and where nothing else is said a call does the same on both.

   Every call that is lent storage answers 9 first for its lengths ("What a host owes"), with nothing changed. That is
   not said again. "Past the memory" is at or past `extent`. "Bad slot" is 9 too: a page whose bytes are read or
   written, and whose slot number is neither absent nor below `used`. */

/* A fresh memory of `size` bytes: every page absent, every flag 0, no slot in use, LATCHPEBBLE_NO_RESERVATION. The
   area is not touched. 9: nothing changed, and the memory handed back is all 0.
   Numbers: 0, 9. */
latchpebble_fresh latchpebble_sparse_fresh(uint16_t *slots, size_t slots_len, uint8_t *flags, size_t flags_len,
                                           uint8_t *area, size_t area_len, uint64_t size);
latchpebble_fresh latchpebble_wxorx_fresh(uint16_t *slots, size_t slots_len, uint8_t *flags, size_t flags_len,
                                          uint8_t *area, size_t area_len, uint64_t size);

/* Whether every page from first to last has the W^X bit of `flag`: LATCHPEBBLE_FLAG_WRITABLE or _EXECUTABLE. Pages
   ascending, the first that refuses decides; where first is above last there is none, and it is done.
   2: a page past the memory. 4: a page with another W^X bit.
   Numbers: 0, 2, 4, 9. */
uint32_t latchpebble_check_permission(const uint16_t *slots, size_t slots_len, const uint8_t *flags, size_t flags_len,
                                      const uint8_t *area, size_t area_len, uint64_t extent, uint64_t first,
                                      uint64_t last, uint8_t flag, uint64_t used);

/* Sets the dirty flag of every page from first to last, ascending.
   2: a page past the memory; those before it stay marked.
   Numbers: 0, 2, 9. */
uint32_t latchpebble_set_dirty(const uint16_t *slots, size_t slots_len, uint8_t *flags, size_t flags_len,
                               const uint8_t *area, size_t area_len, uint64_t extent, uint64_t first, uint64_t last,
                               uint64_t used);

/* Fills `size` bytes from an address on, at any address: zeros for `lead` bytes, then the source, then zeros. The lead
   is cut to the size, and the source to what is left. These are three sparse stores, each with its refusals (below);
   the earlier ones stay.
   Numbers: 0, 2, 7, 9. */
latchpebble_stored latchpebble_fill_page_data(uint16_t *slots, size_t slots_len, uint8_t *flags, size_t flags_len,
                                              uint8_t *area, size_t area_len, const uint8_t *source, size_t source_len,
                                              uint64_t extent, uint64_t address, uint64_t size, uint64_t lead,
                                              uint64_t used);

/* Sparse: fill_page_data; `flag` is not looked at.
   W^X: sets the flags of whole pages and fills them, with no W^X check. In this order, 3: address or size is not whole
   pages; 2: address, size or their sum is past the memory, or the lead past the size: nothing changed. Then pages
   ascending, 5: the page is frozen: flags of earlier pages already set, no byte written; else `flag` is ORed to its
   flag. Then the fill, 7 or bad slot: all flags set, pages before it written and dirty.
   Numbers: sparse 0, 2, 7, 9; W^X 0, 2, 3, 5, 7, 9. */
latchpebble_stored latchpebble_sparse_init_pages(uint16_t *slots, size_t slots_len, uint8_t *flags, size_t flags_len,
                                                 uint8_t *area, size_t area_len, const uint8_t *source,
                                                 size_t source_len, uint64_t extent, uint64_t address, uint64_t size,
                                                 uint8_t flag, uint64_t lead, uint64_t used);
latchpebble_stored latchpebble_wxorx_init_pages(uint16_t *slots, size_t slots_len, uint8_t *flags, size_t flags_len,
                                                uint8_t *area, size_t area_len, const uint8_t *source,
                                                size_t source_len, uint64_t extent, uint64_t address, uint64_t size,
                                                uint8_t flag, uint64_t lead, uint64_t used);

/* A page's flag.
   2: the page is past the memory.
   Numbers: 0, 2, 9. */
latchpebble_value latchpebble_sparse_fetch_flag(const uint16_t *slots, size_t slots_len, const uint8_t *flags,
                                                size_t flags_len, const uint8_t *area, size_t area_len, uint64_t extent,
                                                uint64_t page, uint64_t used);
latchpebble_value latchpebble_wxorx_fetch_flag(const uint16_t *slots, size_t slots_len, const uint8_t *flags,
                                               size_t flags_len, const uint8_t *area, size_t area_len, uint64_t extent,
                                               uint64_t page, uint64_t used);

/* Sets the bits of `flag` in a page's flag (OR).
   2: the page is past the memory; no change.
   Numbers: 0, 2, 9. */
uint32_t latchpebble_sparse_set_flag(const uint16_t *slots, size_t slots_len, uint8_t *flags, size_t flags_len,
                                     const uint8_t *area, size_t area_len, uint64_t extent, uint64_t page, uint8_t flag,
                                     uint64_t used);
uint32_t latchpebble_wxorx_set_flag(const uint16_t *slots, size_t slots_len, uint8_t *flags, size_t flags_len,
                                    const uint8_t *area, size_t area_len, uint64_t extent, uint64_t page, uint8_t flag,
                                    uint64_t used);

/* Clears the bits of `flag` in a page's flag (AND with complement). A page whose dirty flag is cleared so is left out
   of the next snapshot as bytes, changed or not: what is promised of a resumed machine leaves such calls out.
   2: the page is past the memory; no change.
   Numbers: 0, 2, 9. */
uint32_t latchpebble_sparse_clear_flag(const uint16_t *slots, size_t slots_len, uint8_t *flags, size_t flags_len,
                                       const uint8_t *area, size_t area_len, uint64_t extent, uint64_t page,
                                       uint8_t flag, uint64_t used);
uint32_t latchpebble_wxorx_clear_flag(const uint16_t *slots, size_t slots_len, uint8_t *flags, size_t flags_len,
                                      const uint8_t *area, size_t area_len, uint64_t extent, uint64_t page,
                                      uint8_t flag, uint64_t used);

/* The bytes of a memory, and its pages. */
uint64_t latchpebble_sparse_memory_size(latchpebble_memory memory);
uint64_t latchpebble_wxorx_memory_size(latchpebble_memory memory);
uint64_t latchpebble_sparse_memory_pages(latchpebble_memory memory);
uint64_t latchpebble_wxorx_memory_pages(latchpebble_memory memory);

/* Stores: `size` bytes of one value; the bytes that are lent; the low 1, 2, 4 or 8 bytes of a value, little-endian. An
   empty store is done at every address.
   Sparse: page by page, each marked dirty as it is written. 2: a page past the memory; 7: an absent page, and all slots
   are in use; or bad slot: pages before it written and dirty.
   W^X: first, 2: the page indices of all its bytes; then pages ascending, the first that is past the memory, 2, or
   executable, 4: nothing changed. Only then the store, 7 or bad slot as above.
   Numbers: sparse 0, 2, 7, 9; W^X 0, 2, 4, 7, 9. */
latchpebble_stored latchpebble_sparse_store_byte(uint16_t *slots, size_t slots_len, uint8_t *flags, size_t flags_len,
                                                 uint8_t *area, size_t area_len, uint64_t extent, uint64_t address,
                                                 uint64_t size, uint8_t value, uint64_t used);
latchpebble_stored latchpebble_wxorx_store_byte(uint16_t *slots, size_t slots_len, uint8_t *flags, size_t flags_len,
                                                uint8_t *area, size_t area_len, uint64_t extent, uint64_t address,
                                                uint64_t size, uint8_t value, uint64_t used);
latchpebble_stored latchpebble_sparse_store_bytes(uint16_t *slots, size_t slots_len, uint8_t *flags, size_t flags_len,
                                                  uint8_t *area, size_t area_len, const uint8_t *bytes,
                                                  size_t bytes_len, uint64_t extent, uint64_t address, uint64_t used);
latchpebble_stored latchpebble_wxorx_store_bytes(uint16_t *slots, size_t slots_len, uint8_t *flags, size_t flags_len,
                                                 uint8_t *area, size_t area_len, const uint8_t *bytes, size_t bytes_len,
                                                 uint64_t extent, uint64_t address, uint64_t used);
latchpebble_stored latchpebble_sparse_store8(uint16_t *slots, size_t slots_len, uint8_t *flags, size_t flags_len,
                                             uint8_t *area, size_t area_len, uint64_t extent, uint64_t address,
                                             uint64_t value, uint64_t used);
latchpebble_stored latchpebble_wxorx_store8(uint16_t *slots, size_t slots_len, uint8_t *flags, size_t flags_len,
                                            uint8_t *area, size_t area_len, uint64_t extent, uint64_t address,
                                            uint64_t value, uint64_t used);
latchpebble_stored latchpebble_sparse_store16(uint16_t *slots, size_t slots_len, uint8_t *flags, size_t flags_len,
                                              uint8_t *area, size_t area_len, uint64_t extent, uint64_t address,
                                              uint64_t value, uint64_t used);
latchpebble_stored latchpebble_wxorx_store16(uint16_t *slots, size_t slots_len, uint8_t *flags, size_t flags_len,
                                             uint8_t *area, size_t area_len, uint64_t extent, uint64_t address,
                                             uint64_t value, uint64_t used);
latchpebble_stored latchpebble_sparse_store32(uint16_t *slots, size_t slots_len, uint8_t *flags, size_t flags_len,
                                              uint8_t *area, size_t area_len, uint64_t extent, uint64_t address,
                                              uint64_t value, uint64_t used);
latchpebble_stored latchpebble_wxorx_store32(uint16_t *slots, size_t slots_len, uint8_t *flags, size_t flags_len,
                                             uint8_t *area, size_t area_len, uint64_t extent, uint64_t address,
                                             uint64_t value, uint64_t used);
latchpebble_stored latchpebble_sparse_store64(uint16_t *slots, size_t slots_len, uint8_t *flags, size_t flags_len,
                                              uint8_t *area, size_t area_len, uint64_t extent, uint64_t address,
                                              uint64_t value, uint64_t used);
latchpebble_stored latchpebble_wxorx_store64(uint16_t *slots, size_t slots_len, uint8_t *flags, size_t flags_len,
                                             uint8_t *area, size_t area_len, uint64_t extent, uint64_t address,
                                             uint64_t value, uint64_t used);

/* Loads of 1, 2, 4 or 8 bytes, little-endian, with no permission check. They take no slot.
   2 or bad slot: the first of its pages, ascending, that is past the memory or has one.
   Numbers: 0, 2, 9. */
latchpebble_value latchpebble_sparse_load8(const uint16_t *slots, size_t slots_len, const uint8_t *flags,
                                           size_t flags_len, const uint8_t *area, size_t area_len, uint64_t extent,
                                           uint64_t address, uint64_t used);
latchpebble_value latchpebble_wxorx_load8(const uint16_t *slots, size_t slots_len, const uint8_t *flags,
                                          size_t flags_len, const uint8_t *area, size_t area_len, uint64_t extent,
                                          uint64_t address, uint64_t used);
latchpebble_value latchpebble_sparse_load16(const uint16_t *slots, size_t slots_len, const uint8_t *flags,
                                            size_t flags_len, const uint8_t *area, size_t area_len, uint64_t extent,
                                            uint64_t address, uint64_t used);
latchpebble_value latchpebble_wxorx_load16(const uint16_t *slots, size_t slots_len, const uint8_t *flags,
                                           size_t flags_len, const uint8_t *area, size_t area_len, uint64_t extent,
                                           uint64_t address, uint64_t used);
latchpebble_value latchpebble_sparse_load32(const uint16_t *slots, size_t slots_len, const uint8_t *flags,
                                            size_t flags_len, const uint8_t *area, size_t area_len, uint64_t extent,
                                            uint64_t address, uint64_t used);
latchpebble_value latchpebble_wxorx_load32(const uint16_t *slots, size_t slots_len, const uint8_t *flags,
                                           size_t flags_len, const uint8_t *area, size_t area_len, uint64_t extent,
                                           uint64_t address, uint64_t used);
latchpebble_value latchpebble_sparse_load64(const uint16_t *slots, size_t slots_len, const uint8_t *flags,
                                            size_t flags_len, const uint8_t *area, size_t area_len, uint64_t extent,
                                            uint64_t address, uint64_t used);
latchpebble_value latchpebble_wxorx_load64(const uint16_t *slots, size_t slots_len, const uint8_t *flags,
                                           size_t flags_len, const uint8_t *area, size_t area_len, uint64_t extent,
                                           uint64_t address, uint64_t used);

/* Loads of instructions. Sparse: load16 and load32.
   W^X: first, 2: the page indices of its bytes; then pages ascending, the first that is past the memory, 2, or not
   executable, 4. Only then the load.
   Numbers: sparse 0, 2, 9; W^X 0, 2, 4, 9. */
latchpebble_value latchpebble_sparse_execute_load16(const uint16_t *slots, size_t slots_len, const uint8_t *flags,
                                                    size_t flags_len, const uint8_t *area, size_t area_len,
                                                    uint64_t extent, uint64_t address, uint64_t used);
latchpebble_value latchpebble_wxorx_execute_load16(const uint16_t *slots, size_t slots_len, const uint8_t *flags,
                                                   size_t flags_len, const uint8_t *area, size_t area_len,
                                                   uint64_t extent, uint64_t address, uint64_t used);
latchpebble_value latchpebble_sparse_execute_load32(const uint16_t *slots, size_t slots_len, const uint8_t *flags,
                                                    size_t flags_len, const uint8_t *area, size_t area_len,
                                                    uint64_t extent, uint64_t address, uint64_t used);
latchpebble_value latchpebble_wxorx_execute_load32(const uint16_t *slots, size_t slots_len, const uint8_t *flags,
                                                   size_t flags_len, const uint8_t *area, size_t area_len,
                                                   uint64_t extent, uint64_t address, uint64_t used);

/* `size` bytes from an address on, to the front of `out`; bytes past these stay. Size 0 is done at every address.
   In this order, 2: the end is past the memory; bad slot; 8: out_len is below size. No refusal writes.
   Numbers: 0, 2, 8, 9. */
uint32_t latchpebble_sparse_load_bytes(const uint16_t *slots, size_t slots_len, const uint8_t *flags, size_t flags_len,
                                       const uint8_t *area, size_t area_len, uint8_t *out, size_t out_len,
                                       uint64_t extent, uint64_t address, uint64_t size, uint64_t used);
uint32_t latchpebble_wxorx_load_bytes(const uint16_t *slots, size_t slots_len, const uint8_t *flags, size_t flags_len,
                                      const uint8_t *area, size_t area_len, uint8_t *out, size_t out_len,
                                      uint64_t extent, uint64_t address, uint64_t size, uint64_t used);

/* The bytes from an address on up to a zero byte, to the front of `out`; the value is their number. The zero byte is
   not stored. At each byte in this order, 2: past the memory; bad slot; 8: it is not zero and `out` is full. The bytes
   read so far stand at the front of `out`, on refusals too, the rest unchanged.
   Numbers: 0, 2, 8, 9. */
latchpebble_value latchpebble_sparse_load_c_string(const uint16_t *slots, size_t slots_len, const uint8_t *flags,
                                                   size_t flags_len, const uint8_t *area, size_t area_len, uint8_t *out,
                                                   size_t out_len, uint64_t extent, uint64_t address, uint64_t used);
latchpebble_value latchpebble_wxorx_load_c_string(const uint16_t *slots, size_t slots_len, const uint8_t *flags,
                                                  size_t flags_len, const uint8_t *area, size_t area_len, uint8_t *out,
                                                  size_t out_len, uint64_t extent, uint64_t address, uint64_t used);

/* The reservation, and the memory with another one. */
uint64_t latchpebble_sparse_lr(latchpebble_memory memory);
uint64_t latchpebble_wxorx_lr(latchpebble_memory memory);
latchpebble_memory latchpebble_sparse_set_lr(latchpebble_memory memory, uint64_t value);
latchpebble_memory latchpebble_wxorx_set_lr(latchpebble_memory memory, uint64_t value);

/* ---- machine ---- */

/* A fresh machine of a version and a maximum of cycles, over a fresh W^X memory of `size` bytes: registers, pc, pending
   pc and cycles 0, every page's record untracked. 9: nothing changed, and the machine handed back is all 0.
   Numbers: 0, 9. */
latchpebble_machine_answer latchpebble_machine_fresh(uint16_t *slots, size_t slots_len, uint8_t *flags,
                                                     size_t flags_len, uint8_t *area, size_t area_len,
                                                     uint64_t *records, size_t records_len, uint64_t size,
                                                     uint32_t version, uint64_t maximum);

/* A register, and the machine with a register set. Register 0 can be set like the others.
   10: i is LATCHPEBBLE_REGISTERS or more; the machine is handed back as it was.
   Numbers: 0, 10. */
latchpebble_value latchpebble_machine_register(latchpebble_machine machine, uint64_t i);
latchpebble_machine_answer latchpebble_machine_set_register(latchpebble_machine machine, uint64_t i, uint64_t value);

/* The pc; the machine with another pending pc; and the machine with its pending pc as pc. */
uint64_t latchpebble_machine_pc(latchpebble_machine machine);
latchpebble_machine latchpebble_machine_update_pc(latchpebble_machine machine, uint64_t pc);
latchpebble_machine latchpebble_machine_commit_pc(latchpebble_machine machine);

/* The version; the cycles, and the machine with other cycles; their maximum, and the machine with another one. The
   library counts no cycles and compares them with nothing. */
uint32_t latchpebble_machine_version(latchpebble_machine machine);
uint64_t latchpebble_machine_cycles(latchpebble_machine machine);
latchpebble_machine latchpebble_machine_set_cycles(latchpebble_machine machine, uint64_t cycles);
uint64_t latchpebble_machine_max_cycles(latchpebble_machine machine);
latchpebble_machine latchpebble_machine_set_max_cycles(latchpebble_machine machine, uint64_t cycles);

/* ---- sources and tracking ----

   A tracked page holds bytes of an item, which a snapshot then names in place of the page. Storing to a page marks it
   dirty, and a dirty page goes into a snapshot as bytes, tracked or not. */

/* Where in the source bytes the data of item `id` from `offset` on lies: `start`, and `count` bytes, the smaller of
   `size` and what remains; `full` is all that remains.
   6: no entry with that id, or the first of them has a range that leaves the source bytes or is shorter than offset.
   Numbers: 0, 6. */
latchpebble_found latchpebble_find_data(const uint64_t *directory, size_t directory_len, const uint8_t *sources,
                                        size_t sources_len, uint64_t id, uint64_t offset, uint64_t size);

/* Tracks the whole pages among `size` bytes from `start` on: as item `id`'s bytes, from `offset` at start. Each has its
   dirty flag cleared, and its offset and its flag recorded. Partial pages at head and tail are not tracked. A size that
   reaches no page boundary is done.
   2: start is above 2^64-4,096, or the offset of the first boundary past 2^64-1: no change; a page past the memory, or
   whose own offset + 4,096 is past 2^64-1: earlier pages kept.
   Numbers: 0, 2, 9. */
uint32_t latchpebble_track_pages(const uint16_t *slots, size_t slots_len, uint8_t *flags, size_t flags_len,
                                 const uint8_t *area, size_t area_len, uint64_t *records, size_t records_len,
                                 uint64_t extent, uint64_t start, uint64_t size, uint64_t id, uint64_t offset,
                                 uint64_t used);

/* Drops the record of each page of `size` bytes from `start` on, and sets its dirty flag. Size 0 is done.
   2: the page indices: no change; a page past the memory: earlier pages stay as they now are.
   Numbers: 0, 2, 9. */
uint32_t latchpebble_untrack_pages(const uint16_t *slots, size_t slots_len, uint8_t *flags, size_t flags_len,
                                   const uint8_t *area, size_t area_len, uint64_t *records, size_t records_len,
                                   uint64_t extent, uint64_t start, uint64_t size, uint64_t used);

/* The context store, in these steps: finds data as find_data does (id, offset, size); stores the full length as 8 bytes
   at `place`; untracks the pages of the data at `address`; stores it there; tracks its whole pages. Answers the bytes
   stored and the full length. Both stores are W^X stores.
   6: nothing changed. 2, 4, 7 or bad slot: of a step, with what that leaves; earlier steps stay.
   Numbers: 0, 2, 4, 6, 7, 9. */
latchpebble_context_stored latchpebble_context_store_bytes(uint16_t *slots, size_t slots_len, uint8_t *flags,
                                                           size_t flags_len, uint8_t *area, size_t area_len,
                                                           uint64_t *records, size_t records_len,
                                                           const uint64_t *directory, size_t directory_len,
                                                           const uint8_t *sources, size_t sources_len, uint64_t extent,
                                                           uint64_t address, uint64_t id, uint64_t offset,
                                                           uint64_t size, uint64_t place, uint64_t used);

/* Tracks the pages of a program's loading actions, in turn: from address + lead on, as many bytes as the smaller of
   source end - start and size - lead, as item `id`'s from offset + source start on.
   2: a sum or difference outside 0 to 2^64-1, or as track_pages; earlier actions stay.
   Numbers: 0, 2, 9. */
uint32_t latchpebble_mark_program(const uint16_t *slots, size_t slots_len, uint8_t *flags, size_t flags_len,
                                  const uint8_t *area, size_t area_len, uint64_t *records, size_t records_len,
                                  const uint64_t *actions, size_t actions_len, uint64_t extent, uint64_t id,
                                  uint64_t offset, uint64_t used);

/* What is tracked of a page. The record of a dirty page is not shown.
   2: the page is past the memory.
   Numbers: 0, 2, 9. */
latchpebble_recorded latchpebble_page_record(const uint16_t *slots, size_t slots_len, const uint8_t *flags,
                                             size_t flags_len, const uint8_t *area, size_t area_len,
                                             const uint64_t *records, size_t records_len, uint64_t extent,
                                             uint64_t page, uint64_t used);

/* ---- snapshot and resume ---- */

/* Writes a machine into two files, at the front of two outputs: answers how many records of LATCHPEBBLE_RECORD_BYTES it
   wrote to `file`, and how many pages of LATCHPEBBLE_PAGE to `pages`. These lengths are the files' own; bytes past them
   stay. LATCHPEBBLE_RECORD_BYTES * (LATCHPEBBLE_LEAST_RECORDS + memory pages) and memory.size bytes are always enough.
   The pc that is written is the committed one; a pending one is lost.
   In this order, bad slot of a dirty page; 8: either output is too short: nothing written.
   Numbers: 0, 8, 9. */
latchpebble_made latchpebble_make_snapshot(const uint16_t *slots, size_t slots_len, const uint8_t *flags,
                                           size_t flags_len, const uint8_t *area, size_t area_len,
                                           const uint64_t *records, size_t records_len, uint8_t *file, size_t file_len,
                                           uint8_t *pages, size_t pages_len, latchpebble_machine machine);

/* Makes a machine from the two files, given with exactly the lengths that were written. It goes into a fresh machine
   of the same version and size, with the same sources; any other is taken as it is, and neither its bytes nor its
   flags are cleared first. In this order, 11: the files are not in their form; 1: they are of another version: nothing
   changed, the machine handed back as it was. Then all tracking is dropped, and registers, pc, pending pc, cycles and
   maximum are set. Then the source runs in turn, 3: address not whole pages; 6: find_data; 3: data not whole pages;
   store, flags set, track. Then the dirty runs in turn, 3: address not whole pages; store, flags set. Stores are W^X
   stores: 2, 4, 7 or bad slot. Last the reservation. A refusal leaves what was done before it, in storage and in the
   machine handed back.
   Numbers: 0, 1, 2, 3, 4, 6, 7, 9, 11. */
latchpebble_machine_answer latchpebble_resume(uint16_t *slots, size_t slots_len, uint8_t *flags, size_t flags_len,
                                              uint8_t *area, size_t area_len, uint64_t *records, size_t records_len,
                                              const uint64_t *directory, size_t directory_len, const uint8_t *sources,
                                              size_t sources_len, const uint8_t *file, size_t file_len,
                                              const uint8_t *pages, size_t pages_len, latchpebble_machine machine);

#ifdef __cplusplus
}
#endif

#endif
