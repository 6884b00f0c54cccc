/*
 * Which blocks of the archive's own machine code are reached, for libFuzzer.
 *
 * The archive is not compiled with counters: it is watched as a host links it. A breakpoint stands on the first
 * instruction of each block. The first time that one is reached, it is taken away and the block's counter set: the bytes
 * that led there are new to libFuzzer, and from then on the code runs as it is.
 */
#define _GNU_SOURCE
#include <signal.h>
#include <stdint.h>
#include <stdio.h>
#include <stdlib.h>
#include <string.h>
#include <sys/mman.h>
#include <ucontext.h>
#include <unistd.h>

enum { BREAKPOINT = 0xcc };

/* The places in the list count from here. */
extern uint64_t latchpebble_round_page_up(uint64_t x);

/* libFuzzer's entries: counters, and for each where it stands and whether a function begins there. */
extern void __sanitizer_cov_8bit_counters_init(uint8_t *start, uint8_t *stop);
extern void __sanitizer_cov_pcs_init(const uintptr_t *start, const uintptr_t *stop);

struct entry {
    uintptr_t place;
    uintptr_t begins;
};

/* Ascending by their places. */
static struct entry *blocks;
static uint8_t *first_bytes, *counters, *reached;
static size_t count;

static void stopped(int signal, siginfo_t *info, void *context) {
    greg_t *instruction = &((ucontext_t *)context)->uc_mcontext.gregs[REG_RIP];
    uintptr_t place = (uintptr_t)*instruction - 1;
    size_t low = 0, high = count;
    (void)info;
    while (low < high) {
        size_t middle = low + (high - low) / 2;
        if (blocks[middle].place < place)
            low = middle + 1;
        else
            high = middle;
    }
    if (low == count || blocks[low].place != place) {
        /* no breakpoint of ours: the program ends by it */
        struct sigaction plain;
        memset(&plain, 0, sizeof plain);
        plain.sa_handler = SIG_DFL;
        sigaction(signal, &plain, NULL);
        return;
    }
    *(volatile uint8_t *)place = first_bytes[low];
    counters[low] = 1;
    reached[low] = 1;
    *instruction = (greg_t)place;
}

static int wrong(const char *what) {
    fprintf(stderr, "fuzz: the list of blocks: %s\n", what);
    return 1;
}

/* The list has a line for each block, ascending: its distance from latchpebble_round_page_up, and 1 where a function
 * begins. */
int blocks_watch(const char *list) {
    FILE *file = fopen(list, "r");
    uintptr_t base = (uintptr_t)latchpebble_round_page_up;
    uintptr_t size = (uintptr_t)sysconf(_SC_PAGESIZE);
    struct sigaction action;
    size_t room = 0;
    long distance;
    int begins;
    if (file == NULL)
        return wrong("it can't be read");
    while (fscanf(file, "%ld %d", &distance, &begins) == 2) {
        if (count == room) {
            room = 2 * room + 1024;
            blocks = realloc(blocks, room * sizeof *blocks);
            if (blocks == NULL)
                return wrong("no memory");
        }
        blocks[count].place = base + (uintptr_t)distance;
        blocks[count].begins = (uintptr_t)begins;
        if (count > 0 && blocks[count].place <= blocks[count - 1].place)
            return wrong("it does not ascend");
        count++;
    }
    fclose(file);
    if (count == 0)
        return wrong("it is empty");
    first_bytes = malloc(count);
    counters = calloc(count, 1);
    reached = calloc(count, 1);
    if (first_bytes == NULL || counters == NULL || reached == NULL)
        return wrong("no memory");
    memset(&action, 0, sizeof action);
    action.sa_sigaction = stopped;
    action.sa_flags = SA_SIGINFO;
    if (sigaction(SIGTRAP, &action, NULL) != 0)
        return wrong("no handler");
    for (size_t i = 0; i < count; i++) {
        uintptr_t place = blocks[i].place;
        if (mprotect((void *)(place & ~(size - 1)), size, PROT_READ | PROT_WRITE | PROT_EXEC) != 0)
            return wrong("the code can't be written");
        first_bytes[i] = *(uint8_t *)place;
        *(volatile uint8_t *)place = BREAKPOINT;
    }
    __sanitizer_cov_8bit_counters_init(counters, counters + count);
    __sanitizer_cov_pcs_init((const uintptr_t *)blocks, (const uintptr_t *)(blocks + count));
    return 0;
}

/* How many blocks were reached, and the places of those that were not. */
void blocks_print(void) {
    size_t yes = 0;
    for (size_t i = 0; i < count; i++)
        yes += reached[i];
    printf("blocks of the archive: %zu of %zu reached\n", yes, count);
    for (size_t i = 0; i < count; i++)
        if (!reached[i])
            printf("not reached: %ld\n", (long)(blocks[i].place - (uintptr_t)latchpebble_round_page_up));
    fflush(stdout);
}
